//! Runs of order 6's sentences.

use super::{bare_task, events, task_a, Run, A1_CALLS};
use crate::demand::files::what_was_read;
use crate::desk::{Task, BLOCKED};
use crate::desks::slices;
use crate::rows::{self, RowDesk};
use crate::taskfile::MAX_FILE;

/// A file of one state with all kinds of records: k 2, start 3, goal 65,535, W 513
/// and E 1; a blocked passage from 258 to 0; h(0,0) = 66,051; T5 B255.
const SMALL: [u8; 50] = [
    12, 0, 1, 0, 1, 0, 2, 0, 3, 0, 255, 255, 1, 2, 1, 0, //
    8, 0, 2, 0, 2, 1, 0, 0, 255, 255, 255, 255, //
    6, 0, 3, 0, 0, 0, 3, 2, 1, 0, //
    2, 0, 4, 0, 0, 5, //
    2, 0, 4, 0, 1, 255,
];

pub const RUNS: &[Run] = &[
    Run {
        name: "order 6: a file byte for byte, and the bytes after it",
        check: |desk| {
            let (task, events) = small();
            let file = [&SMALL[..], &[LENT; 3]].concat();
            expect_written(desk, &task, &events, 53, Ok(50), &file)
        },
    },
    Run {
        name: "order 6: A1, written and read",
        check: |desk| {
            let events = events(A1_CALLS);
            // 16, 6 passages of 12, 5 rows of 26 and 13 calls of 6
            let mut buffer = vec![LENT; 296];
            let number = desk.file_write(&task_a(), &events, &mut buffer);
            if number != 296 {
                return Err(rows::show_written(number));
            }
            expect_read(desk, &buffer, &task_a(), &events)
        },
    },
    Run {
        name: "order 6: 24 for what the file can't carry, and for that alone",
        check: |desk| {
            for (name, can, change) in CHANGES {
                let (mut task, mut events) = small();
                change(&mut task, &mut events);
                let mut buffer = vec![LENT; MAX_FILE];
                let number = desk.file_write(&task, &events, &mut buffer);
                let refused = rows::written(number) == Err(24);
                let untouched = buffer.iter().all(|&byte| byte == LENT);
                if refused == *can || refused != untouched {
                    return Err(format!("{name}: {}", rows::show_written(number)));
                }
            }
            Ok(())
        },
    },
    Run {
        name: "order 6: 65,536 bytes are written, more are 25",
        check: |desk| {
            // 16 and 3 rows of 18, then 10,911 events of 6
            let task = bare_task(3, 0);
            let full = vec![65_536; 10_911];
            let mut buffer = vec![LENT; MAX_FILE];
            let number = desk.file_write(&task, &full, &mut buffer);
            if number != 65_536 {
                return Err(rows::show_written(number));
            }
            expect_read(desk, &buffer, &task, &full)?;
            let over = vec![65_536; 10_912];
            for places in [0, MAX_FILE, MAX_FILE + 6, MAX_FILE + 9] {
                let untouched = vec![LENT; places];
                expect_written(desk, &task, &over, places, Err(25), &untouched)?;
            }
            Ok(())
        },
    },
    Run {
        name: "order 6: a buffer too short is 26",
        check: |desk| {
            let (task, events) = small();
            for places in [0, 1, 49] {
                let untouched = vec![LENT; places];
                expect_written(desk, &task, &events, places, Err(26), &untouched)?;
            }
            expect_written(desk, &task, &events, 50, Ok(50), &SMALL)
        },
    },
    Run {
        name: "order 6: 24 before 25 before 26",
        check: |desk| {
            let mut task = bare_task(3, 0);
            let over = vec![0; 10_912];
            expect_written(desk, &task, &over, 0, Err(25), &[])?;
            task.head.excess = 65_536;
            expect_written(desk, &task, &over, 0, Err(24), &[])?;
            expect_written(desk, &task, &[], 0, Err(24), &[])
        },
    },
    Run {
        name: "order 6: a file read into slices, and the places after it",
        check: |desk| {
            let mut lent = [10, 4, 2, 5].map(|places| vec![9; places]);
            let number = desk.file_read(&SMALL, slices(&mut lent));
            let wanted = [
                vec![1, 2, 3, 65_535, 513, 1, 1, 2, 9, 9],
                vec![258, 0, BLOCKED, 9],
                vec![66_051, 9],
                vec![5, 65_791, 9, 9, 9],
            ];
            match number == 0 && lent == wanted {
                true => Ok(()),
                false => Err(format!("{} and {lent:?}", rows::show_read(number))),
            }
        },
    },
    Run {
        name: "document 01: a slice too short is 27, after all others",
        check: |desk| {
            expect_fault(desk, &SMALL, [8, 2, 1, 2], 27, 0)?;
            expect_fault(desk, &SMALL, [8, 3, 0, 2], 27, 0)?;
            expect_fault(desk, &SMALL, [8, 3, 1, 1], 27, 0)?;
            expect_fault(desk, &SMALL[..49], [8, 0, 0, 0], 21, 44)?;
            expect_fault(desk, &SMALL[..15], [8, 0, 0, 0], 21, 0)?;
            expect_fault(desk, &SMALL[16..], [8, 0, 0, 0], 22, 0)?;
            expect_fault(desk, &vec![0; MAX_FILE + 1], [8, 0, 0, 0], 23, MAX_FILE)
        },
    },
    Run {
        name: "no room for the numbers is 27 before all else",
        check: |desk| {
            for places in [0, 7] {
                expect_fault(desk, &SMALL, [places, 3, 1, 2], 27, 0)?;
                expect_fault(desk, &SMALL[..49], [places, 3, 1, 2], 27, 0)?;
                expect_fault(desk, &vec![0; MAX_FILE + 1], [places, 3, 1, 2], 27, 0)?;
            }
            Ok(())
        },
    },
];

/// What stands in the bytes of a buffer that is lent.
const LENT: u8 = 9;

/// A change to a task and events: a name, and whether a file can carry it.
type Change = (&'static str, bool, fn(&mut Task, &mut Vec<u32>));

const CHANGES: &[Change] = &[
    ("n 0", false, |task, _| {
        task.head.n = 0;
        task.estimates.clear();
    }),
    ("n 64", true, |task, _| {
        task.head.n = 64;
        task.estimates = vec![0; 64 * 64];
    }),
    ("n 65", false, |task, _| {
        task.head.n = 65;
        task.estimates = vec![0; 65 * 65];
    }),
    ("n 2^32, with n × n cut to 64 bits", false, |task, _| {
        task.head.n = 1 << 32;
        task.estimates.clear();
    }),
    (
        "n 2^64 - 1, with n × n cut to 64 bits",
        false,
        |task, _| {
            task.head.n = usize::MAX;
        },
    ),
    ("no passage", true, |task, _| task.passages.clear()),
    ("4 numbers of passages", false, |task, _| {
        task.passages.push(0)
    }),
    ("2 numbers of passages", false, |task, _| {
        task.passages.truncate(2)
    }),
    ("512 passages", true, |task, _| {
        task.passages = vec![0; 1536]
    }),
    ("513 passages", false, |task, _| {
        task.passages = vec![0; 1539]
    }),
    ("no estimate", false, |task, _| task.estimates.clear()),
    ("2 estimates", false, |task, _| task.estimates.push(0)),
    ("all of the head 65,535 or 0", true, |task, _| {
        task.head.k = 0;
        task.head.start = 65_535;
        task.head.goal = 0;
        task.head.pull = 65_535;
        task.head.excess = 65_535;
    }),
    ("k 65,536", false, |task, _| task.head.k = 65_536),
    ("start 65,536", false, |task, _| task.head.start = 65_536),
    ("goal 2^32", false, |task, _| task.head.goal = 1 << 32),
    ("W 65,636", false, |task, _| task.head.pull = 65_636),
    ("E 2^64 - 1", false, |task, _| task.head.excess = usize::MAX),
    ("ends of 65,535", true, |task, _| {
        task.passages[..2].fill(65_535)
    }),
    ("from 65,536", false, |task, _| task.passages[0] = 65_536),
    ("to 2^32 - 1", false, |task, _| task.passages[1] = u32::MAX),
    ("the highest cost and estimate", true, |task, _| {
        task.passages[2] = u32::MAX;
        task.estimates[0] = u32::MAX;
    }),
    ("no event", true, |_, events| events.clear()),
    ("T255 and B255", true, |_, events| {
        *events = vec![255, 65_791]
    }),
    ("T256", false, |_, events| events.push(256)),
    ("B256", false, |_, events| events.insert(0, 65_792)),
    ("T65,535", false, |_, events| events[0] = 65_535),
    ("event 131,072", false, |_, events| events.push(131_072)),
    ("event 2^32 - 1", false, |_, events| events[0] = u32::MAX),
];

/// The task and events of `SMALL`.
fn small() -> (Task, Vec<u32>) {
    let mut task = bare_task(1, 65_535);
    task.head.k = 2;
    task.head.start = 3;
    task.head.pull = 513;
    task.head.excess = 1;
    task.passages = vec![258, 0, BLOCKED];
    task.estimates = vec![66_051];
    (task, vec![5, 65_791])
}

/// Writes to so many places: what comes of it, and what they then hold.
fn expect_written(
    desk: &dyn RowDesk,
    task: &Task,
    events: &[u32],
    places: usize,
    wanted: Result<usize, u32>,
    left: &[u8],
) -> Result<(), String> {
    let mut buffer = vec![LENT; places];
    let number = desk.file_write(task, events, &mut buffer);
    match rows::written(number) == wanted && buffer == left {
        true => Ok(()),
        false => Err(format!(
            "{} in {places} places, or other bytes",
            rows::show_written(number)
        )),
    }
}

/// Reads a file with room to spare.
fn expect_read(desk: &dyn RowDesk, file: &[u8], task: &Task, events: &[u32]) -> Result<(), String> {
    let mut lent = [8, 40, 40, 11_000].map(|places| vec![9; places]);
    let number = desk.file_read(file, slices(&mut lent));
    if number != 0 {
        return Err(rows::show_read(number));
    }
    let (read, read_events) = what_was_read(&lent)?;
    let same_task = read.head == task.head
        && read.passages == task.passages
        && read.estimates == task.estimates;
    match same_task && read_events == events {
        true => Ok(()),
        false => Err(format!(
            "reads as {read:?} and {} events",
            read_events.len()
        )),
    }
}

/// A fault, after which all places hold what they held.
fn expect_fault(
    desk: &dyn RowDesk,
    file: &[u8],
    places: [usize; 4],
    number: u64,
    offset: usize,
) -> Result<(), String> {
    let before = places.map(|places| vec![9; places]);
    let mut lent = before.clone();
    let given = desk.file_read(file, slices(&mut lent));
    match given == number << 32 | offset as u64 && lent == before {
        true => Ok(()),
        false => Err(format!("{} and {lent:?}", rows::show_read(given))),
    }
}
