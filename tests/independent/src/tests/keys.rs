//! Order 8: stored keys, and what would be wrong with one. The sentences of the order
//! themselves are among the documents' runs.

use super::limited::literal_limited;
use super::*;
use crate::demand::keys::{due_keys, see_calls, see_reached};
use crate::maker::KEY_CHANGES;
use crate::rows::{key, set_key, HELD, LABELS, MARKS};
use std::collections::BTreeMap;

// ---- The desk, held against the words ----

/// The key of a state as document 01 and order 8 word it.
fn literal_key(machine: &Machine, graph: Graph, state: usize) -> i128 {
    let h = graph.estimates[state * machine.head.n + machine.head.goal];
    match machine.marks[state] {
        UNSEEN => 0,
        _ => 100 * i128::from(machine.labels[state]) + machine.head.pull as i128 * i128::from(h),
    }
}

/// A machine fits if it would with right keys, and has them.
#[test]
fn keys_are_looked_at_to_the_word() {
    let (mut fitting, mut by_keys) = (0, 0);
    for case in 0..6000 {
        let (task, row) = maker::made_up(&mut Rng::new(23, case));
        let machine = match rows::decode(&row) {
            Some(machine) => machine,
            None => continue,
        };
        let mut right = machine.clone();
        set_keys(&mut right, task.graph());
        let fits = machine.fits(task.graph());
        if right.fits(task.graph()) {
            let states = 0..machine.head.n;
            let all = states.into_iter().all(|state| {
                i128::from(machine.keys[state]) == literal_key(&machine, task.graph(), state)
            });
            assert_eq!(fits, all, "case {case}");
            fitting += u32::from(fits);
            by_keys += u32::from(!fits);
        } else {
            assert!(!fits, "case {case}");
        }
    }
    assert!(fitting > 3000, "only {fitting} fit");
    assert!(by_keys > 100, "only {by_keys} fit but for their keys");
}

/// "No reply changes on machines reached from opening by calls given the same task":
/// Takes and limited Takes are the literal ones, which work the keys out again, and all
/// keys are those after each call.
#[test]
fn no_reply_changes_in_a_search() {
    let (mut took, mut waits) = (0, 0);
    for case in 0..400 {
        let mut rng = Rng::new(24, case);
        let n = rng.between(1, 16);
        let task = maker::task_of(&mut rng, n);
        let mut machine = opened(&task);
        for _ in 0..12 * n {
            let worker = rng.below(task.head.k);
            if machine.phase != 0 {
                break;
            } else if machine.held[worker] != NONE {
                assert!(matches!(
                    machine.bring(task.graph(), worker),
                    Reply::Brought(_)
                ));
            } else {
                let wanted = literal_take(&machine, task.graph());
                let limited = literal_limited(&machine, task.graph());
                let full = machine
                    .clone()
                    .take_limited(task.graph(), worker, usize::MAX);
                assert_eq!(full, limited, "case {case}");
                assert_eq!(machine.take(task.graph(), worker), wanted, "case {case}");
                took += u32::from(matches!(wanted, Reply::Took(_)));
                waits += u32::from(matches!(wanted, Reply::Wait(_)));
            }
            for state in 0..256 {
                let wanted = match state < n {
                    true => literal_key(&machine, task.graph(), state),
                    false => 0,
                };
                assert_eq!(i128::from(machine.keys[state]), wanted, "case {case}");
            }
        }
    }
    assert!(took > 500 && waits > 1000, "{took} took, {waits} Waits");
}

#[test]
fn keys_go_to_their_places() {
    let mut machine = opened(&task_a());
    machine.keys[1] = 7 << 32 | 9;
    machine.keys[255] = u64::MAX;
    let mut row = vec![5; ROW];
    rows::encode(&machine, &mut row);
    assert_eq!(row.len(), 1319);
    assert_eq!(row[807..811], [0, 0, 9, 7]);
    assert!(row[811..1317].iter().all(|&half| half == 0));
    assert_eq!(row[1317..], [u32::MAX; 2]);
    assert_eq!((key(&row, 1), key(&row, 255)), (7 << 32 | 9, u64::MAX));
    assert_eq!(rows::decode(&row), Some(machine));
}

// ---- The maker ----

/// Each change is made; its machine fits, or would with right keys.
#[test]
fn key_changes_are_made() {
    let mut made = BTreeMap::new();
    for case in 0..4000 {
        let (task, mut row, change) = maker::changed_keys(&mut Rng::new(25, case));
        let fits =
            |row: &[u32]| rows::decode(row).map_or(false, |machine| machine.fits(task.graph()));
        assert_eq!(fits(&row), !change.is_wrong, "{} in {case}", change.name);
        row.resize(ROW, 0);
        maker::set_keys(&mut row, &task.estimates);
        assert!(fits(&row), "{} in {case}", change.name);
        *made.entry(change.name).or_insert(0) += 1;
    }
    for change in KEY_CHANGES {
        let count = made.get(change.name).copied().unwrap_or(0);
        assert!(count > 20, "{} only {count} times", change.name);
    }
}

// ---- The checks ----

/// Whether one of so many cases differs.
fn is_seen(wrong: &Wrong, cases: u64) -> bool {
    let mut desks = Desks::new(Some(wrong), false);
    (0..cases).any(|case| run_case(&mut desks, 3, case).is_err())
}

/// The comparison sees a desk that looks at less of the keys than it should, or at more.
#[test]
fn comparison_sees_other_looks_at_keys() {
    let changes: &[fn(&str, &mut [u32], Graph)] = &[
        // At none; at none in one of the calls.
        |_, row, graph| maker::set_keys(row, graph.estimates),
        |name, row, graph| overlook_in("take", name, row, graph),
        |name, row, graph| overlook_in("limited", name, row, graph),
        |name, row, graph| overlook_in("bring", name, row, graph),
        |name, row, graph| overlook_in("path", name, row, graph),
        |name, row, graph| overlook_in("morning", name, row, graph),
        // At none of the states with a mark; at none but the open ones.
        |_, row, graph| overlook(row, graph, |row, s, _| row[MARKS + s] == 0),
        |_, row, graph| overlook(row, graph, |row, s, _| row[MARKS + s] == 1),
        |_, row, graph| overlook(row, graph, |row, s, _| row[MARKS + s] == 2),
        |_, row, graph| overlook(row, graph, |row, s, _| row[MARKS + s] == 3),
        |_, row, graph| overlook(row, graph, |row, s, _| row[MARKS + s] != 1),
        // Not at the last state below n, nor at the first.
        |_, row, graph| overlook(row, graph, |row, s, _| s + 1 == row[0] as usize),
        |_, row, graph| overlook(row, graph, |_, s, _| s == 0),
        // Not at the high half, nor at the low one.
        |_, row, graph| overlook(row, graph, |row, s, due| key(row, s) as u32 == due as u32),
        |_, row, graph| overlook(row, graph, |row, s, due| key(row, s) >> 32 == due >> 32),
        // A key by the formula does for an unseen state, and 0 for every state.
        |_, row, graph| {
            let mut seen = row.to_vec();
            seen.iter_mut().skip(MARKS).take(256).for_each(|m| *m = 1);
            let formula = due_keys(&seen, graph.estimates).unwrap_or_default();
            overlook(row, graph, |row, s, _| key(row, s) == formula[s])
        },
        |_, row, graph| overlook(row, graph, |row, s, _| key(row, s) == 0),
        // Only too large a key is wrong, or too small a one.
        |_, row, graph| overlook(row, graph, |row, s, due| key(row, s) < due),
        |_, row, graph| overlook(row, graph, |row, s, due| key(row, s) > due),
        // At a key past n; at the label of an unseen state.
        |_, row, _| object_where(row, |row| (past_n(row)).any(|s| key(row, s) != 0)),
        |_, row, _| {
            object_where(row, |row| {
                let mut unseen = below_n(row).filter(|&s| row[MARKS + s] == 0);
                unseen.any(|s| row[LABELS + s] != 0)
            })
        },
    ];
    for (line, &stored) in changes.iter().enumerate() {
        let wrong = Wrong { stored, ..RIGHT };
        assert!(is_seen(&wrong, 4000), "line {line} is not seen");
    }
}

/// Makes all keys right in one of the calls.
fn overlook_in(call: &str, name: &str, row: &mut [u32], graph: Graph) {
    if call == name {
        maker::set_keys(row, graph.estimates);
    }
}

/// Makes the keys right of the states for which this holds, given the key that is due.
fn overlook(row: &mut [u32], graph: Graph, holds: impl Fn(&[u32], usize, u64) -> bool) {
    let due = due_keys(row, graph.estimates).unwrap_or_default();
    for (state, due) in due.into_iter().enumerate() {
        if holds(row, state, due) {
            set_key(row, state, due);
        }
    }
}

fn below_n(row: &[u32]) -> std::ops::Range<usize> {
    0..row.first().map_or(0, |&n| n as usize).min(256)
}

fn past_n(row: &[u32]) -> std::ops::Range<usize> {
    below_n(row).end..256
}

/// Makes a row's first key wrong where this holds of it.
fn object_where(row: &mut [u32], holds: fn(&[u32]) -> bool) {
    if row.len() == ROW && holds(row) {
        row[KEYS] ^= 1;
    }
}

/// The comparison sees a desk that stores other keys.
#[test]
fn comparison_sees_other_keys() {
    let openings: &[OpenChange] = &[
        // None; one more; the halves the wrong way round; with the estimate from the goal.
        |_, row, reply| {
            row.get_mut(KEYS..).unwrap_or_default().fill(0);
            reply
        },
        |_, row, reply| {
            if reply == 0 {
                set_key(row, 255, 1);
            }
            reply
        },
        |task, row, reply| {
            if reply == 0 {
                let start = task.head.start;
                set_key(row, start, key(row, start).rotate_left(32));
            }
            reply
        },
        |task, row, reply| {
            if reply == 0 {
                let head = &task.head;
                let h = task.estimates[head.goal * head.n + head.start];
                set_key(row, head.start, head.pull as u64 * u64::from(h));
            }
            reply
        },
        // A refused opening that leaves keys.
        |_, row, reply| {
            if let (false, Some(place)) = (reply == 0, row.get_mut(KEYS)) {
                *place = 9;
            }
            reply
        },
    ];
    let brings: &[BringChange] = &[
        // None; none where a label is lowered.
        |before, row, reply| {
            let keys = row.get_mut(KEYS..).unwrap_or_default();
            keys.copy_from_slice(before.get(KEYS..).unwrap_or_default());
            reply
        },
        |before, row, reply| {
            if reply >> 32 == 2 {
                for state in below_n(row).filter(|s| before[MARKS + s] == 1) {
                    set_key(row, state, key(before, state));
                }
            }
            reply
        },
        // Without the estimate; none left of the state that is finished.
        |before, row, reply| {
            if reply >> 32 == 2 {
                let labels = |s: &usize| before[LABELS + s] != row[LABELS + s];
                let set: Vec<_> = below_n(row).filter(labels).collect();
                for state in set {
                    set_key(row, state, 100 * u64::from(row[LABELS + state]));
                }
            }
            reply
        },
        |before, row, reply| {
            if reply >> 32 == 2 {
                let is_finished = |s: &usize| before[MARKS + s] == 2 && row[MARKS + s] == 3;
                if let Some(state) = below_n(row).find(is_finished) {
                    set_key(row, state, 0);
                }
            }
            reply
        },
    ];
    // The key of a state that is dealt goes; a row without keys is answered.
    let takes: &[fn(&mut [u32], u64) -> u64] = &[
        |row, reply| {
            if reply >> 32 == 1 {
                set_key(row, reply as u32 as usize, 0);
            }
            reply
        },
        |row, reply| match row.len() {
            807 => rows::code(Reply::NoPath),
            _ => reply,
        },
    ];
    let openings = openings.iter().map(|&open| Wrong { open, ..RIGHT });
    let brings = brings.iter().map(|&bring| Wrong { bring, ..RIGHT });
    let takes = takes.iter().map(|&take| Wrong { take, ..RIGHT });
    for (line, wrong) in openings.chain(brings).chain(takes).enumerate() {
        assert!(is_seen(&wrong, 1500), "line {line} is not seen");
    }
}

/// Task A with W 100 and 1 from each state to each other, and its row after T0 B0.
fn searching() -> (Task, Vec<u32>) {
    let task = changed(|task| {
        task.head.excess = 300;
        task.estimates = (0..25).map(|place| u32::from(place % 6 != 0)).collect();
    });
    let mut row = vec![0; ROW];
    Independent.open(&task, &mut row);
    for action in [Action::Take, Action::Bring] {
        Independent.call(action, &mut row, task.graph(), 0);
    }
    (task, row)
}

#[test]
fn keys_that_are_due() {
    let (task, row) = searching();
    assert_eq!(
        due_keys(&row, &task.estimates),
        Some(vec![100, 300, 600, 0, 0])
    );
    assert_eq!(due_keys(&row[..807], &task.estimates), None);
    assert_eq!(due_keys(&row, &task.estimates[1..]), None);
    for (place, number) in [(0, 0), (0, 4), (0, 257), (3, 5), (4, 65_536)] {
        let mut row = row.clone();
        row[place] = number;
        assert_eq!(due_keys(&row, &task.estimates), None);
    }
}

/// What is wrong with a reply, and with the row after it, on `searching` after a change
/// to the row before and one to the row after.
fn keys_fault(reply: Reply, before: fn(&mut [u32]), after: fn(&mut [u32])) -> Option<String> {
    let (task, mut row) = searching();
    before(&mut row);
    let mut left = row.clone();
    after(&mut left);
    see_calls([&row, &left], &task.estimates, &[Reply::Refused(8), reply]).err()
}

#[test]
fn what_order_8_catches() {
    let took = Reply::Took(1);
    let same: fn(&mut [u32]) = |_| {};
    assert_eq!(keys_fault(took, same, same), None);
    assert_eq!(keys_fault(took, |row| set_key(row, 5, 9), same), None);
    let wrong: fn(&mut [u32]) = |row| set_key(row, 2, 601);
    assert_eq!(keys_fault(Reply::Refused(8), wrong, same), None);
    let replied = "Took(1), but state 2 has key 601, not 600";
    assert_eq!(keys_fault(took, wrong, same), Some(replied.into()));
    let formula: fn(&mut [u32]) = |row| set_key(row, 3, 100);
    let replied = "Refused(9), but state 3 has key 100, not 0";
    let fault = keys_fault(Reply::Refused(9), formula, same);
    assert_eq!(fault, Some(replied.into()));
    let left = "afterwards state 1 has key 300, not 200";
    let lowered: fn(&mut [u32]) = |row| row[LABELS + 1] = 1;
    assert_eq!(keys_fault(took, same, lowered), Some(left.into()));
    let past = "a key past n was changed";
    let fault = keys_fault(took, same, |row| row[ROW - 1] = 1);
    assert_eq!(fault, Some(past.into()));
    // No machine: nothing is due.
    assert_eq!(keys_fault(took, |row| row[0] = 6, same), None);
}

#[test]
fn keys_of_reached_machines_are_checked() {
    let fault = |change: fn(&mut [u32])| {
        let (task, mut row) = searching();
        change(&mut row);
        let fault = see_reached(&row, &task).err();
        assert_eq!(Watch::new(&task).see_keys(&row).err(), fault);
        fault
    };
    assert_eq!(fault(|_| {}), None);
    assert_eq!(fault(|row| row[HELD] = 1), None);
    let wrong = "state 1 has key 4294967596, not 300";
    assert_eq!(fault(|row| row[KEYS + 3] = 1), Some(wrong.into()));
    let past = "a place past n has a key";
    assert_eq!(fault(|row| set_key(row, 5, 100)), Some(past.into()));
    let other = "the machine has other numbers than its task";
    assert_eq!(fault(|row| row[3] = 3), Some(other.into()));
}

/// No call on a reached machine is refused with 8, nor is a path reading.
#[test]
fn refusal_8_on_reached_machines_is_caught() {
    let fault = Watch::new(&task_a()).see(Reply::Refused(8)).err();
    let refused = "refusal 8 on a machine reached by calls";
    assert_eq!(fault, Some(refused.into()));
}
