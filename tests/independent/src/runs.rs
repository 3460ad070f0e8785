//! The runs of document 01, A1 to C6 and the unstarred ones, for either desk;
//! their Waits name the state that order 1 of document 02 adds. Then runs of the
//! later orders' sentences.

use crate::desk::{Action, Head, Reply, Task};
use crate::maker;
use crate::morning::Event;
use crate::rows::{self, RowDesk, Shown, PRINT_ROOM, ROW};

mod blocked;
mod files;
mod keys;
mod limited;
mod maps;
mod morning;
mod opening;

const A1_TEXT: &str = "\
took 0 0
wait 1 0
brought 0 2
took 0 1
wait 1 1
brought 0 2
took 1 2
wait 0 2
brought 1 1
took 0 3
wait 1 3
brought 0 1
found 1 6
path 0 1 2 3 4
";

const A1_CALLS: &str = "T0 T1 B0 T0 T1 B0 T1 T0 B1 T0 T1 B0 T1";

/// A run: its name, and whether a desk's answers are the document's.
pub struct Run {
    pub name: &'static str,
    pub check: fn(&dyn RowDesk) -> Result<(), String>,
}

/// The names of the runs that fail on a desk, with what they gave.
pub fn failures(desk: &dyn RowDesk) -> Vec<String> {
    let outcomes = all().map(|run| (run.name, (run.check)(desk)));
    outcomes
        .filter_map(|(name, outcome)| outcome.err().map(|fault| format!("run {name}: {fault}")))
        .collect()
}

pub fn all() -> impl Iterator<Item = &'static Run> {
    [
        DOCUMENT_01,
        morning::RUNS,
        maps::RUNS,
        blocked::RUNS,
        opening::RUNS,
        files::RUNS,
        limited::RUNS,
        keys::RUNS,
    ]
    .into_iter()
    .flatten()
}

const DOCUMENT_01: &[Run] = &[
    Run {
        name: "A1",
        check: |desk| {
            let file = maker::file_of(&task_a(), &file_calls(A1_CALLS));
            expect_text(desk, &file, A1_TEXT)
        },
    },
    Run {
        name: "A2",
        check: |desk| expect_read(desk, 1, Reply::Read(5), &[7, 0, 1, 2, 3, 4]),
    },
    Run {
        name: "A3",
        check: |desk| expect_read(desk, 2, Reply::Refused(15), &[7; 6]),
    },
    Run {
        name: "B1",
        check: |desk| {
            let last = [Reply::Took(1), Reply::Took(2)];
            expect_end(desk, &task_b(300), "T0 B0 T0 T1", &last)
        },
    },
    Run {
        name: "B2",
        check: |desk| expect_end(desk, &task_b(299), "T0 B0 T0 T1", &[Reply::Wait(1)]),
    },
    Run {
        name: "B3",
        check: |desk| {
            let calls = "T0 B0 T0 T1 B0 T0 B1 T0 T1 B0 T1";
            let last = [
                Reply::Brought(1),
                Reply::Wait(2),
                Reply::Brought(1),
                Reply::Took(3),
                Reply::Wait(3),
                Reply::Brought(1),
                Reply::Found(8),
            ];
            expect_end(desk, &task_b(300), calls, &last)
        },
    },
    Run {
        name: "C1",
        check: |desk| {
            let task = bare_task(1, 0);
            expect_end(desk, &task, "T0", &[Reply::Found(0)])?;
            let file = maker::file_of(&task, &file_calls("T0"));
            expect_text(desk, &file, "found 0 0\npath 0\n")
        },
    },
    Run {
        name: "C2",
        check: |desk| {
            let all = [
                Reply::Took(0),
                Reply::Brought(0),
                Reply::NoPath,
                Reply::Refused(10),
            ];
            expect_end(desk, &bare_task(2, 1), "T0 B0 T0 T0", &all)
        },
    },
    Run {
        name: "C3",
        check: |desk| {
            let mut task = task_a();
            task.head.pull = 101;
            expect_opening(desk, &task, Reply::Refused(3))
        },
    },
    Run {
        name: "C4",
        check: |desk| {
            let mut task = task_a();
            task.estimates[5 + 2] = 1;
            expect_opening(desk, &task, Reply::Refused(7))
        },
    },
    Run {
        name: "C5",
        check: |desk| {
            let mut task = task_a();
            task.estimates[3 * 5 + 4] = 2;
            expect_opening(desk, &task, Reply::Refused(6))
        },
    },
    Run {
        name: "C6",
        check: |desk| expect_end(desk, &task_a(), "B0", &[Reply::Refused(11)]),
    },
    Run {
        name: "cost 1,000,000 passes, 1,000,001 is 4",
        check: |desk| {
            let mut task = task_a();
            task.passages[2] = 1_000_000;
            expect_opening(desk, &task, Reply::Opened)?;
            task.passages[2] = 1_000_001;
            expect_opening(desk, &task, Reply::Refused(4))
        },
    },
    Run {
        name: "W or E wider than 16 bits: 3",
        check: |desk| {
            for weight in [65_536, 65_636, (1 << 32) + 100, usize::MAX] {
                let mut task = task_a();
                task.head.pull = weight;
                expect_opening(desk, &task, Reply::Refused(3))?;
                task.head.excess = weight;
                expect_opening(desk, &task, Reply::Refused(3))?;
                task.head.pull = 100;
                expect_opening(desk, &task, Reply::Refused(3))?;
            }
            Ok(())
        },
    },
    Run {
        name: "worker 2 of 2: 9",
        check: |desk| {
            let refused = [Reply::Refused(9), Reply::Refused(9)];
            expect_end(desk, &task_a(), "T2 B2", &refused)
        },
    },
    Run {
        name: "goal 5 of 5: 2",
        check: |desk| {
            let mut task = task_a();
            task.head.goal = 5;
            expect_opening(desk, &task, Reply::Refused(2))?;
            let file = maker::file_of(&task, &file_calls("T0"));
            expect_text(desk, &file, "opening 2\n")
        },
    },
];

pub fn task_a() -> Task {
    Task {
        head: Head {
            n: 5,
            k: 2,
            start: 0,
            goal: 4,
            pull: 100,
            excess: 100,
        },
        passages: vec![0, 1, 2, 0, 2, 5, 1, 2, 1, 2, 3, 2, 1, 4, 9, 3, 4, 1],
        estimates: vec![0; 25],
    }
}

fn task_b(excess: usize) -> Task {
    let mut task = task_a();
    task.head.excess = excess;
    task.estimates = (0..25).map(|place| u32::from(place % 6 != 0)).collect();
    task
}

/// The task of C1 and C2: one worker, from 0 to `goal`, no passages.
fn bare_task(n: usize, goal: usize) -> Task {
    let head = Head {
        n,
        k: 1,
        start: 0,
        goal,
        pull: 100,
        excess: 100,
    };
    Task {
        head,
        passages: vec![],
        estimates: vec![0; n * n],
    }
}

/// Calls written as in document 01: `T0 B1`.
fn calls(text: &str) -> impl Iterator<Item = (Action, usize)> + '_ {
    text.split(' ').map(|word| {
        let (letter, worker) = word.split_at(1);
        let action = match letter {
            "T" => Action::Take,
            _ => Action::Bring,
        };
        (action, worker.parse().expect("a call names a worker"))
    })
}

fn file_calls(text: &str) -> Vec<(Action, u8)> {
    calls(text)
        .map(|(action, worker)| (action, worker as u8))
        .collect()
}

/// Calls by number, as a list of events has them.
fn events(text: &str) -> Vec<u32> {
    let events = calls(text).map(|(action, worker)| Event {
        action,
        worker: worker as u16,
    });
    events.map(Event::number).collect()
}

/// Opens a task and makes the calls: the machine row and the reply codes.
fn run(desk: &dyn RowDesk, task: &Task, text: &str) -> (Vec<u32>, Vec<u64>) {
    let mut row = vec![1; ROW];
    desk.open(task, &mut row);
    let codes = calls(text)
        .map(|(action, worker)| desk.call(action, &mut row, task.graph(), worker))
        .collect();
    (row, codes)
}

fn codes(replies: &[Reply]) -> Vec<u64> {
    replies.iter().map(|&reply| rows::code(reply)).collect()
}

/// The last replies are those named; no call made no reply.
fn expect_end(desk: &dyn RowDesk, task: &Task, text: &str, last: &[Reply]) -> Result<(), String> {
    let (_, codes) = run(desk, task, text);
    match codes.ends_with(&self::codes(last)) {
        true => Ok(()),
        false => Err(format!("{text} gives {}", shown(&codes))),
    }
}

fn shown(codes: &[u64]) -> String {
    let words: Vec<_> = codes.iter().map(|&code| Shown(code).to_string()).collect();
    words.join(", ")
}

fn expect_opening(desk: &dyn RowDesk, task: &Task, reply: Reply) -> Result<(), String> {
    let mut row = vec![1; ROW];
    let code = desk.open(task, &mut row);
    if code != rows::code(reply) {
        return Err(format!("opening gives {}", Shown(code)));
    }
    match reply != Reply::Opened && row.iter().any(|&number| number != 0) {
        true => Err("a refused opening hands back other numbers than 0".into()),
        false => Ok(()),
    }
}

fn expect_text(desk: &dyn RowDesk, file: &[u8], text: &str) -> Result<(), String> {
    let mut out = vec![0; PRINT_ROOM];
    let length = desk.print(file, &mut out);
    match out.get(..length) == Some(text.as_bytes()) {
        true => Ok(()),
        false => Err(format!(
            "prints {:?}",
            String::from_utf8_lossy(&out[..length.min(400)])
        )),
    }
}

/// The path of A1 read into six places that hold 7.
fn expect_read(
    desk: &dyn RowDesk,
    at: usize,
    reply: Reply,
    places: &[u16; 6],
) -> Result<(), String> {
    let task = task_a();
    let (row, _) = run(desk, &task, A1_CALLS);
    let mut buffer = [7; 6];
    let code = desk.path(&row, task.graph(), &mut buffer, at);
    match code == rows::code(reply) && buffer == *places {
        true => Ok(()),
        false => Err(format!("gives {} and {buffer:?}", Shown(code))),
    }
}
