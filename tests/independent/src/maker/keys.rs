//! The keys of machines (order 8): right ones for made-up machines; and machines that
//! fit, after a change that makes a key wrong, or that looks as if it did.

use super::{call, task, undamaged, Rng};
use crate::demand::keys::due_keys;
use crate::desk::{Task, FINISHED, MAX_LABEL, MAX_STATES, OPEN, OUT, UNSEEN};
use crate::rows::{key, set_key, Independent, RowDesk, KEYS, LABELS, MARKS, ROW};

/// Stores the right keys in a row, as far as it and the estimates are a machine's.
pub fn set_keys(row: &mut [u32], estimates: &[u32]) {
    let due = due_keys(row, estimates).unwrap_or_default();
    for (state, due) in due.into_iter().enumerate() {
        set_key(row, state, due);
    }
}

/// Changes a bit of a key, mostly of a state below n, in a row of the right length.
pub fn damage_key(rng: &mut Rng, row: &mut [u32]) {
    let n = (row[0] as usize).clamp(1, MAX_STATES);
    let state = match rng.percent(80) {
        true => rng.below(n),
        false => rng.below(MAX_STATES),
    };
    row[KEYS + 2 * state + rng.below(2)] ^= 1 << rng.below(32);
}

/// A change to a machine that fits, or to the table that is lent with it.
pub struct KeyChange {
    pub name: &'static str,
    /// Whether a key is wrong, or missing, afterwards; nothing else is.
    pub is_wrong: bool,
    /// Makes the change, or says that there is nothing to be changed so.
    make: fn(&mut Rng, &mut Task, &mut Vec<u32>) -> Option<()>,
}

pub const KEY_CHANGES: &[KeyChange] = &[
    KeyChange {
        name: "one-up",
        is_wrong: true,
        make: |rng, _, row| rekey(rng, row, |row, s| key(row, s) + 1),
    },
    KeyChange {
        name: "one-down",
        is_wrong: true,
        make: |rng, _, row| rekey(rng, row, |row, s| key(row, s).saturating_sub(1)),
    },
    KeyChange {
        name: "high-half-set",
        is_wrong: true,
        make: |rng, _, row| {
            let bit = 1 << rng.between(32, 63);
            rekey(rng, row, |row, s| key(row, s) | bit)
        },
    },
    KeyChange {
        name: "high-half-0",
        is_wrong: true,
        make: |rng, _, row| rekey(rng, row, |row, s| key(row, s) & 0xffff_ffff),
    },
    KeyChange {
        name: "halves-swapped",
        is_wrong: true,
        make: |rng, _, row| rekey(rng, row, |row, s| key(row, s).rotate_left(32)),
    },
    KeyChange {
        name: "open-0",
        is_wrong: true,
        make: |rng, _, row| forget(rng, row, OPEN),
    },
    KeyChange {
        name: "out-0",
        is_wrong: true,
        make: |rng, _, row| forget(rng, row, OUT),
    },
    KeyChange {
        name: "finished-0",
        is_wrong: true,
        make: |rng, _, row| forget(rng, row, FINISHED),
    },
    KeyChange {
        name: "unseen-by-formula",
        is_wrong: true,
        make: |rng, task, row| {
            let formula = keys_if_seen(row, task)?;
            rekey(rng, row, |_, s| formula[s])
        },
    },
    KeyChange {
        name: "label-lowered",
        is_wrong: true,
        make: |rng, _, row| {
            let state = state_of(rng, row, |s| !is(row, s, UNSEEN) && row[LABELS + s] > 0)?;
            let label = row[LABELS + state];
            row[LABELS + state] = rng.pick(&[label - 1, label / 2, 0]);
            Some(())
        },
    },
    KeyChange {
        name: "made-unseen",
        is_wrong: true,
        make: |rng, _, row| {
            let state = state_of(rng, row, |s| !is(row, s, OUT) && key(row, s) > 0)?;
            row[MARKS + state] = u32::from(UNSEEN);
            Some(())
        },
    },
    KeyChange {
        name: "made-seen",
        is_wrong: true,
        make: |rng, task, row| {
            let formula = keys_if_seen(row, task)?;
            // an unseen one, since the keys are still right
            let state = state_of(rng, row, |s| formula[s] != key(row, s))?;
            row[MARKS + state] = u32::from(rng.pick(&[OPEN, FINISHED]));
            Some(())
        },
    },
    KeyChange {
        name: "table",
        is_wrong: true,
        make: |rng, task, row| {
            let weighs = task.head.pull > 0;
            let state = state_of(rng, row, |s| weighs && !is(row, s, UNSEEN))?;
            other_estimate(rng, task, state, task.head.goal)
        },
    },
    KeyChange {
        name: "W",
        is_wrong: true,
        make: |rng, task, row| {
            let to_goal = |s: usize| task.estimates[s * task.head.n + task.head.goal];
            state_of(rng, row, |s| !is(row, s, UNSEEN) && to_goal(s) > 0)?;
            // one of the weights from 0 to E but the present one
            let further = 1 + rng.below(task.head.excess);
            row[4] = ((task.head.pull + further) % (task.head.excess + 1)) as u32;
            Some(())
        },
    },
    KeyChange {
        name: "goal",
        is_wrong: true,
        make: |rng, task, row| {
            let keys_to = |goal: usize| {
                let mut other = row.clone();
                other[3] = goal as u32;
                due_keys(&other, &task.estimates)
            };
            let keys = keys_to(task.head.goal);
            let goal = state_of(rng, row, |goal| keys_to(goal) != keys)?;
            row[3] = goal as u32;
            Some(())
        },
    },
    KeyChange {
        name: "row-of-807",
        is_wrong: true,
        make: |_, _, row| {
            row.truncate(807);
            Some(())
        },
    },
    KeyChange {
        name: "past-n",
        is_wrong: false,
        make: |rng, task, row| {
            let further = MAX_STATES - task.head.n;
            let state = task.head.n + rng.below(further.max(1));
            let half = row.get_mut(KEYS + 2 * state + rng.below(2))?;
            *half ^= 1 << rng.below(32);
            Some(())
        },
    },
    KeyChange {
        name: "unseen-label",
        is_wrong: false,
        make: |rng, _, row| {
            let state = state_of(rng, row, |s| is(row, s, UNSEEN))?;
            let further = rng.pick(&[1, 20, MAX_LABEL]);
            row[LABELS + state] = (row[LABELS + state] + further) % (MAX_LABEL + 1);
            Some(())
        },
    },
    KeyChange {
        name: "unseen-estimate",
        is_wrong: false,
        make: |rng, task, row| {
            let state = state_of(rng, row, |s| is(row, s, UNSEEN))?;
            other_estimate(rng, task, state, task.head.goal)
        },
    },
    KeyChange {
        name: "other-column",
        is_wrong: false,
        make: |rng, task, row| {
            let column = state_of(rng, row, |s| s != task.head.goal)?;
            let state = rng.below(task.head.n);
            other_estimate(rng, task, state, column)
        },
    },
    KeyChange {
        name: "table-by-W-0",
        is_wrong: false,
        make: |rng, task, row| {
            let state = state_of(rng, row, |_| task.head.pull == 0)?;
            other_estimate(rng, task, state, task.head.goal)
        },
    },
];

/// A machine that fits, made up or reached by calls, after one of the changes.
pub fn changed_keys(rng: &mut Rng) -> (Task, Vec<u32>, &'static KeyChange) {
    let (mut task, mut row) = match rng.percent(50) {
        true => undamaged(rng),
        false => reached(rng),
    };
    loop {
        let change = &KEY_CHANGES[rng.below(KEY_CHANGES.len())];
        if (change.make)(rng, &mut task, &mut row).is_some() {
            return (task, row, change);
        }
    }
}

/// A task that opening accepts, and a machine that calls led to.
fn reached(rng: &mut Rng) -> (Task, Vec<u32>) {
    let task = task(rng);
    let mut row = vec![0; ROW];
    Independent.open(&task, &mut row);
    let eager_percent = rng.between(20, 100);
    for _ in 0..rng.below(4 * task.head.n + 2) {
        let (action, worker) = call(rng, &row, eager_percent);
        Independent.call(action, &mut row, task.graph(), worker);
    }
    (task, row)
}

/// One of the states below n that are wanted, if there is one.
fn state_of(rng: &mut Rng, row: &[u32], is_wanted: impl Fn(usize) -> bool) -> Option<usize> {
    let states: Vec<_> = (0..row[0] as usize).filter(|&s| is_wanted(s)).collect();
    match states.is_empty() {
        true => None,
        false => Some(rng.pick(&states)),
    }
}

fn is(row: &[u32], state: usize, mark: u8) -> bool {
    row[MARKS + state] == u32::from(mark)
}

/// Stores another key of a state, one of those for which it is another.
fn rekey(rng: &mut Rng, row: &mut [u32], other: impl Fn(&[u32], usize) -> u64) -> Option<()> {
    let state = state_of(rng, row, |s| other(row, s) != key(row, s))?;
    set_key(row, state, other(row, state));
    Some(())
}

/// Makes the key of a state with this mark 0.
fn forget(rng: &mut Rng, row: &mut [u32], mark: u8) -> Option<()> {
    rekey(rng, row, |row, s| match is(row, s, mark) {
        true => 0,
        false => key(row, s),
    })
}

/// The keys that a machine's states would have, were none of them unseen.
fn keys_if_seen(row: &[u32], task: &Task) -> Option<Vec<u64>> {
    let mut seen = row.to_vec();
    seen[MARKS..LABELS].fill(u32::from(OPEN));
    due_keys(&seen, &task.estimates)
}

fn other_estimate(rng: &mut Rng, task: &mut Task, from: usize, to: usize) -> Option<()> {
    let h = task.estimates.get_mut(from * task.head.n + to)?;
    *h = h.wrapping_add(rng.pick(&[1, 1000, u32::MAX]));
    Some(())
}
