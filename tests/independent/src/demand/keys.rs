//! What order 8 asks: "Store each state's key (0 for unseen) in the machine, set by
//! opening and by every call that sets a label", and 8 "also where the stored key of a
//! state below n isn't that". Checked with own sums, of every call on any machine; and
//! on a machine that calls with the same task led to, that no place past n has a key.

use crate::desk::{Reply, Task, MAX_STATES, UNSEEN};
use crate::rows::{key, KEYS, LABELS, MARKS, ROW};

/// The key of each state below n by the marks, labels and numbers of a row and the lent
/// estimates; nothing where they are no machine's.
pub fn due_keys(row: &[u32], estimates: &[u32]) -> Option<Vec<u64>> {
    if row.len() != ROW {
        return None;
    }
    let [n, goal, pull] = [0, 3, 4].map(|place| row[place] as usize);
    let in_range = (1..=MAX_STATES).contains(&n) && goal < n && pull <= usize::from(u16::MAX);
    if !in_range || estimates.len() != n * n {
        return None;
    }
    let due = |(state, from): (usize, &[u32])| {
        let (label, h) = (u64::from(row[LABELS + state]), u64::from(from[goal]));
        let is_seen = row[MARKS + state] != u32::from(UNSEEN);
        u64::from(is_seen) * (100 * label + pull as u64 * h)
    };
    Some(estimates.chunks_exact(n).enumerate().map(due).collect())
}

/// What is wrong with the first state below n that has another key than it should.
fn wrong_key(row: &[u32], estimates: &[u32]) -> Option<String> {
    let due = due_keys(row, estimates)?;
    let mut states = due.into_iter().enumerate();
    let (state, due) = states.find(|&(state, due)| key(row, state) != due)?;
    Some(format!(
        "state {state} has key {}, not {due}",
        key(row, state)
    ))
}

/// Checks a call, or a morning's calls, with the row before and after: where a stored
/// key is wrong, each reply is 8; where none is, none is afterwards; and the places past
/// n stay.
pub fn see_calls(
    [before, after]: [&[u32]; 2],
    estimates: &[u32],
    replies: &[Reply],
) -> Result<(), String> {
    match wrong_key(before, estimates) {
        Some(fault) => {
            if let Some(reply) = replies.iter().find(|&&reply| reply != Reply::Refused(8)) {
                return Err(format!("{reply:?}, but {fault}"));
            }
        }
        None => {
            if let Some(fault) = wrong_key(after, estimates) {
                return Err(format!("afterwards {fault}"));
            }
        }
    }
    match past_n(before) == past_n(after) {
        true => Ok(()),
        false => Err("a key past n was changed".into()),
    }
}

/// Checks the keys of a machine that opening or calls with this task led to.
pub fn see_reached(row: &[u32], task: &Task) -> Result<(), String> {
    let numbers = task.head.numbers().map(|number| number as u32);
    if row[..6] != numbers {
        return Err("the machine has other numbers than its task".into());
    }
    if let Some(fault) = wrong_key(row, &task.estimates) {
        return Err(fault);
    }
    match past_n(row).iter().all(|&half| half == 0) {
        true => Ok(()),
        false => Err("a place past n has a key".into()),
    }
}

/// The halves of the keys in the places past n.
fn past_n(row: &[u32]) -> &[u32] {
    let n = row.first().map_or(0, |&n| n as usize).min(MAX_STATES);
    row.get(KEYS + 2 * n..).unwrap_or_default()
}
