//! Random mornings: lists of events by number, and rows for their replies.

use super::{calls_on, lent_len, Rng};
use crate::desk::Graph;
use crate::morning::Event;

/// A morning for the machine in a row, which may also hold none: events by
/// number, good ones chosen as single calls are, and a row for their replies with
/// something in each place.
pub fn morning(rng: &mut Rng, row: &[u32], graph: Graph) -> (Vec<u32>, Vec<u64>) {
    let count = match rng.below(400) {
        0 => 7000,
        1..=20 => rng.between(100, 600),
        21..=40 => 0,
        _ => rng.between(1, 40),
    };
    let calls = calls_on(rng, row, graph, count, 65_535).into_iter();
    let events = calls.map(|(action, worker)| Event {
        action,
        worker: worker as u16,
    });
    let mut events: Vec<_> = events.map(Event::number).collect();
    if rng.percent(10) {
        damage_events(rng, &mut events);
    }
    let places = lent_len(rng, events.len());
    let replies = (0..places).map(|_| rng.next()).collect();
    (events, replies)
}

/// Makes some events neither Take nor Bring, or adds such a one at the end.
fn damage_events(rng: &mut Rng, events: &mut Vec<u32>) {
    for _ in 0..rng.pick(&[1, 1, 2]) {
        let any = rng.up_to(u32::MAX - 131_072) + 131_072;
        let bad = rng.pick(&[131_072, 131_073, 196_608, 1 << 31, u32::MAX, any]);
        match rng.below(events.len() + 1) {
            place if place < events.len() => events[place] = bad,
            _ => events.push(bad),
        }
    }
}
