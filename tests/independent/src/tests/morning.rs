//! Order 2: mornings, and what would be wrong with one. The sentences of the order
//! themselves are among the documents' runs.

use super::*;
use crate::demand::{see_morning, Morning};
use crate::morning::{admit, Event};

#[test]
fn events_by_number() {
    for (number, action, worker) in [
        (0, Action::Take, 0),
        (65_535, Action::Take, 65_535),
        (65_536, Action::Bring, 0),
        (131_071, Action::Bring, 65_535),
    ] {
        let event = Event { action, worker };
        assert_eq!(event.number(), number);
        assert_eq!(Event::of(number), Some(event));
    }
    for number in [131_072, 131_073, 196_608, u32::MAX] {
        assert_eq!(Event::of(number), None);
    }
}

#[test]
fn lists_refused() {
    assert_eq!(admit(&[], 0), Ok(vec![]));
    assert_eq!(admit(&[0, 65_536], 1), Err(16));
    assert_eq!(admit(&[0, 131_072], 1), Err(16));
    assert_eq!(admit(&[0, 131_072], 2), Err(18));
    assert_eq!(admit(&[131_072, 0], 3), Err(18));
    assert_eq!(admit(&[0, 65_536], 2).map(|events| events.len()), Ok(2));
}

/// The comparison sees a desk that does anything else than the independent one
/// in a morning, wherever it hands it back.
#[test]
fn comparison_sees_wrong_mornings() {
    type Change = fn(&mut [u32], &[u32], &mut [u64], u64) -> u64;
    let changes: &[Change] = &[
        // Another refusal.
        |_, _, _, reply| reply + u64::from(reply == 7 << 32 | 16),
        |_, _, _, reply| reply + u64::from(reply == 7 << 32 | 18),
        // Another case, and a number with it.
        |_, _, _, reply| reply - ((reply >> 35) << 32),
        |_, events, _, reply| reply + (reply >> 35) * events.len() as u64,
        // Another last reply.
        |_, events, replies, reply| {
            if let (8, Some(last)) = (reply >> 32, events.len().checked_sub(1)) {
                replies[last] ^= 1;
            }
            reply
        },
        // A reply for an event that was none.
        |_, events, replies, reply| {
            if let (8, Some(place)) = (reply >> 32, replies.get_mut(events.len())) {
                *place = 7 << 32 | 10;
            }
            reply
        },
        // Something written though the list was refused.
        |_, _, replies, reply| {
            if let (7, Some(place)) = (reply >> 32, replies.first_mut()) {
                *place = 0;
            }
            reply
        },
        |row, _, _, reply| {
            if let (7, Some(phase)) = (reply >> 32, row.get_mut(6)) {
                *phase ^= 1;
            }
            reply
        },
        // Another last machine.
        |row, _, _, reply| {
            if reply >> 32 == 8 {
                row[806] ^= 1;
            }
            reply
        },
    ];
    for (line, &morning) in changes.iter().enumerate() {
        let wrong = Wrong { morning, ..RIGHT };
        let (differences, _) = count_differences(Some(&wrong), 600);
        assert!(differences > 0, "line {line} is not seen");
    }
}

/// What is wrong with T0 B0 on task A, done in three places of which the last is
/// junk, after a change to the row and the replies that it left.
fn morning_fault(reply: Reply, change: fn(&mut [u32], &mut [u64])) -> Option<String> {
    served_fault(&Independent, &[0, 65_536], 3, reply, change)
}

fn served_fault(
    desk: &dyn RowDesk,
    events: &[u32],
    places: usize,
    reply: Reply,
    change: fn(&mut [u32], &mut [u64]),
) -> Option<String> {
    let task = task_a();
    let mut row = vec![0; ROW];
    rows::encode(&opened(&task), &mut row);
    let mut replies = vec![5; places];
    let (row_before, replies_before) = (row.clone(), replies.clone());
    if reply == Reply::Done {
        Independent.morning(&mut row, task.graph(), events, &mut replies);
    }
    change(&mut row, &mut replies);
    let morning = Morning {
        graph: task.graph(),
        events,
        row: [&row_before, &row],
        replies: [&replies_before, &replies],
    };
    see_morning(desk, reply, &morning).err()
}

#[test]
fn what_order_2_catches() {
    let done = Reply::Done;
    let refused = Reply::Refused(18);
    assert_eq!(morning_fault(done, |_, _| {}), None);
    assert_eq!(morning_fault(refused, |_, _| {}), None);
    let other_reply = Some("morning leaves reply 1 Brought(3), not Brought(2)".into());
    assert_eq!(
        morning_fault(done, |_, replies| replies[1] += 1),
        other_reply
    );
    let behind = Some("morning leaves reply 2 code 0x6, not code 0x5".into());
    assert_eq!(morning_fault(done, |_, replies| replies[2] += 1), behind);
    let written = Some("morning leaves reply 0 code 0x6, not code 0x5".into());
    assert_eq!(
        morning_fault(refused, |_, replies| replies[0] += 1),
        written
    );
    let machine = Some("morning leaves another machine than single calls".into());
    assert_eq!(morning_fault(done, |row, _| row[7] = 1), machine);
    assert_eq!(morning_fault(refused, |row, _| row[7] = 0), machine);
}

#[test]
fn mornings_done_that_can_t_be() {
    let unserved =
        |events: &[u32], places| served_fault(&Independent, events, places, Reply::Done, |_, _| {});
    let short = Some("morning done, but not its event 1, 0x10000".into());
    assert_eq!(unserved(&[0, 65_536], 1), short);
    let neither = Some("morning done, but not its event 1, 0x20000".into());
    assert_eq!(unserved(&[0, 131_072], 2), neither);
}

/// A desk whose mornings are right, but not those of its own single calls.
#[test]
fn mornings_are_held_against_the_desk_s_own_calls() {
    let take = |_: &mut [u32], reply| reply + u64::from(reply == 1 << 32);
    let wrong = Wrong { take, ..RIGHT };
    let fault = served_fault(&wrong, &[0], 1, Reply::Done, |_, _| {});
    let other = "morning leaves reply 0 Took(0), not Took(1)".into();
    assert_eq!(fault, Some(other));
}
