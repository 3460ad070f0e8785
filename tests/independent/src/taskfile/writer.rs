//! The writer of order 6: a task and a list of events as a task file.

use super::{MAX_FILE, MAX_FILE_PASSAGES, MAX_FILE_STATES};
use crate::desk::{Action, Task};
use crate::morning::Event;

/// The highest number of a field of two bytes.
const TWO_BYTES: u32 = 65_535;

/// A clause of 24, "a task or event that the file can't carry": its name, and
/// whether it applies to a task and a list of events by number.
pub struct Clause {
    pub name: &'static str,
    pub applies: fn(&Task, &[u32]) -> bool,
}

/// "n not 1 to 64, passage slice not a multiple of 3 or above 512 passages, estimate
/// slice not n × n, a field above its bytes, an event neither Take nor Bring". Costs
/// and estimates have four bytes, so that no number here is above them.
pub const CLAUSES: &[Clause] = &[
    Clause {
        name: "n",
        applies: |task, _| !(1..=MAX_FILE_STATES).contains(&task.head.n),
    },
    Clause {
        name: "threes",
        applies: |task, _| task.passages.len() % 3 != 0,
    },
    Clause {
        name: "passages",
        applies: |task, _| task.passages.len() > 3 * MAX_FILE_PASSAGES,
    },
    Clause {
        name: "estimates",
        applies: |task, _| task.head.n.checked_mul(task.head.n) != Some(task.estimates.len()),
    },
    Clause {
        name: "k",
        applies: |task, _| above(task.head.k),
    },
    Clause {
        name: "start",
        applies: |task, _| above(task.head.start),
    },
    Clause {
        name: "goal",
        applies: |task, _| above(task.head.goal),
    },
    Clause {
        name: "W",
        applies: |task, _| above(task.head.pull),
    },
    Clause {
        name: "E",
        applies: |task, _| above(task.head.excess),
    },
    Clause {
        name: "from",
        applies: |task, _| task.passages.chunks_exact(3).any(|p| p[0] > TWO_BYTES),
    },
    Clause {
        name: "to",
        applies: |task, _| task.passages.chunks_exact(3).any(|p| p[1] > TWO_BYTES),
    },
    Clause {
        name: "worker",
        applies: |_, events| {
            let mut events = events.iter().filter_map(|&number| Event::of(number));
            events.any(|event| event.worker > 255)
        },
    },
    Clause {
        name: "event",
        applies: |_, events| events.iter().any(|&number| Event::of(number).is_none()),
    },
];

/// Whether a number of the head is above its two bytes.
fn above(number: usize) -> bool {
    number > TWO_BYTES as usize
}

/// Writes a task and events by number to the front of `buffer`, and gives the file's
/// length; or, with nothing written, the number of the first refusal that applies.
pub fn write(task: &Task, events: &[u32], buffer: &mut [u8]) -> Result<usize, u32> {
    if CLAUSES.iter().any(|clause| (clause.applies)(task, events)) {
        return Err(24);
    }
    let file = file_of(task, events);
    if file.len() > MAX_FILE {
        return Err(25);
    }
    let places = buffer.get_mut(..file.len()).ok_or(26_u32)?;
    places.copy_from_slice(&file);
    Ok(file.len())
}

/// The file of a task and events that it can carry.
fn file_of(task: &Task, events: &[u32]) -> Vec<u8> {
    let mut file = Vec::new();
    let numbers = task.head.numbers().map(|number| two(number as u32));
    add_record(&mut file, 1, &numbers.concat());
    for passage in task.passages.chunks_exact(3) {
        let ends = [two(passage[0]), two(passage[1])].concat();
        add_record(&mut file, 2, &[&ends[..], &four(passage[2])].concat());
    }
    for (row, estimates) in task.estimates.chunks_exact(task.head.n).enumerate() {
        let estimates: Vec<_> = estimates.iter().copied().flat_map(four).collect();
        add_record(&mut file, 3, &[&two(row as u32)[..], &estimates].concat());
    }
    for event in events.iter().filter_map(|&number| Event::of(number)) {
        let call = match event.action {
            Action::Take => 0,
            Action::Bring => 1,
        };
        add_record(&mut file, 4, &[call, event.worker as u8]);
    }
    file
}

/// "two-byte payload length first, two-byte kind, payload".
fn add_record(file: &mut Vec<u8>, kind: u32, payload: &[u8]) {
    file.extend(two(payload.len() as u32));
    file.extend(two(kind));
    file.extend(payload);
}

/// A number that two bytes can carry, the lower byte first.
fn two(number: u32) -> [u8; 2] {
    (number as u16).to_le_bytes()
}

fn four(number: u32) -> [u8; 4] {
    number.to_le_bytes()
}
