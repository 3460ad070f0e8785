//! What order 6 asks: "Reading what was written gives the same task and events, and
//! writing what was read without fault gives the same bytes".

use crate::desk::{Head, Task};
use crate::desks::slices;
use crate::rows::{self, RowDesk};
use crate::taskfile::{self, NUMBERS};

/// How many places the file's task and events take, in the order of `Lent`; nothing
/// where the file has a fault.
pub fn lengths(file: &[u8]) -> Option<[usize; 4]> {
    let parts = taskfile::parts(taskfile::read(file).ok()?);
    Some(parts.map(|part| part.len()))
}

/// Checks a file that a desk has written of a task and events: it reads the same.
pub fn see_written(
    desk: &dyn RowDesk,
    task: &Task,
    events: &[u32],
    file: &[u8],
) -> Result<(), String> {
    let counts = [task.passages.len() / 3, events.len()];
    let numbers = task.head.numbers().into_iter().chain(counts);
    let wanted = [
        numbers.map(|number| number as u32).collect(),
        task.passages.clone(),
        task.estimates.clone(),
        events.to_vec(),
    ];
    let mut read = wanted.clone().map(|part| vec![0; part.len()]);
    let number = desk.file_read(file, slices(&mut read));
    match number == 0 && read == wanted {
        true => Ok(()),
        false => Err(format!(
            "what was written reads otherwise: {}",
            rows::show_read(number)
        )),
    }
}

/// Checks what a desk has read of a file: written again, it is the same.
pub fn see_read(desk: &dyn RowDesk, file: &[u8], lent: &[Vec<u32>; 4]) -> Result<(), String> {
    let (task, events) = what_was_read(lent)?;
    let mut again = vec![0; file.len()];
    let number = desk.file_write(&task, &events, &mut again);
    match number == file.len() as u64 && again == file {
        true => Ok(()),
        false => Err(format!(
            "what was read is written otherwise: {}",
            rows::show_written(number)
        )),
    }
}

/// The task and events that a file was read into slices as.
pub fn what_was_read(lent: &[Vec<u32>; 4]) -> Result<(Task, Vec<u32>), String> {
    let [numbers, passages, estimates, events] = lent;
    let number = |place: usize| numbers.get(place).map_or(0, |&number| number as usize);
    let [n, k, start, goal, pull, excess, passage_count, event_count]: [usize; NUMBERS] =
        std::array::from_fn(number);
    let front = |slice: &[u32], length| match slice.get(..length) {
        Some(front) => Ok(front.to_vec()),
        None => Err(format!("{length} read into {} places", slice.len())),
    };
    let task = Task {
        head: Head {
            n,
            k,
            start,
            goal,
            pull,
            excess,
        },
        passages: front(passages, passage_count.saturating_mul(3))?,
        estimates: front(estimates, n.saturating_mul(n))?,
    };
    Ok((task, front(events, event_count)?))
}
