//! The cases of order 8: every call on a machine that fits, after a change that makes its
//! keys wrong, or leaves them right.

use super::read_path;
use crate::desk::{Action, Reply, Task, NONE};
use crate::desks::{Checked, Desks};
use crate::maker::{self, Rng, KEY_CHANGES};
use crate::morning::Event;
use crate::rows::{self, HELD, PHASE};
use crate::tally::Met;

/// A call on the machine in a row.
struct Call {
    name: &'static str,
    make: fn(&mut Desks, &mut Rng, &mut [u32], &Task) -> Checked<Reply>,
}

const CALLS: &[Call] = &[
    Call {
        name: "Take",
        make: |desks, rng, row, task| {
            let worker = worker(rng, row, Action::Take);
            desks.call(Action::Take, row, task.graph(), worker)
        },
    },
    Call {
        name: "limited Take",
        make: |desks, rng, row, task| {
            let worker = worker(rng, row, Action::Take);
            let limit = maker::limit(rng, 3);
            desks.take_limited(row, task.graph(), worker, limit, false)
        },
    },
    Call {
        name: "Bring",
        make: |desks, rng, row, task| {
            let worker = worker(rng, row, Action::Bring);
            desks.call(Action::Bring, row, task.graph(), worker)
        },
    },
    Call {
        name: "path",
        make: |desks, rng, row, task| read_path(desks, rng, row, task),
    },
    Call {
        name: "event",
        make: |desks, rng, row, task| {
            let action = rng.pick(&[Action::Take, Action::Bring]);
            let worker = worker(rng, row, action) as u16;
            let events = [Event { action, worker }.number()];
            let mut replies = [0];
            match desks.morning(row, task.graph(), &events, &mut replies)? {
                Reply::Done => rows::reply(replies[0]).ok_or_else(|| "no reply".into()),
                reply => Ok(reply),
            }
        },
    },
];

/// A worker below k, one whom 11 isn't given if there is one.
fn worker(rng: &mut Rng, row: &[u32], action: Action) -> usize {
    let held = &row[HELD..][..row[1] as usize];
    let can = |&worker: &usize| (held[worker] == u32::from(NONE)) == (action == Action::Take);
    let able: Vec<_> = (0..held.len()).filter(can).collect();
    match able.is_empty() {
        true => rng.below(held.len()),
        false => rng.pick(&able),
    }
}

/// The phases by name.
const PHASES: [&str; 3] = ["searching", "found", "no-path"];

/// Each call on a copy of the machine. Where the keys are wrong, all of them are refused
/// with 8, whatever the phase is, and else none is.
pub fn changed(desks: &mut Desks, rng: &mut Rng) -> Checked<()> {
    let (task, row, change) = maker::changed_keys(rng);
    desks.show(|| format!("{}: machine {row:?} of {task:?}", change.name));
    for call in CALLS {
        let reply = (call.make)(desks, rng, &mut row.clone(), &task)?;
        if (reply == Reply::Refused(8)) != change.is_wrong {
            return Err(format!("{}, {}: {reply:?}", change.name, call.name));
        }
    }
    let phase = PHASES[row[PHASE] as usize];
    desks.tally.add_keys(change.name, change.is_wrong, phase);
    Ok(())
}

/// What is to be met of order 8: each change, and wrong keys in each phase.
pub fn to_meet() -> impl Iterator<Item = Met> {
    let changes = KEY_CHANGES.iter().map(|change| match change.is_wrong {
        true => ("keys-wrong", change.name, 0),
        false => ("keys-right", change.name, 0),
    });
    changes.chain(PHASES.map(|phase| ("keys-wrong-in", phase, 0)))
}
