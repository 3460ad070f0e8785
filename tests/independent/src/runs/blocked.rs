//! Runs of order 4's sentences, on task A with passages blocked.

use super::{expect_opening, expect_text, file_calls, run, task_a, Run, A1_CALLS};
use crate::desk::{Reply, Task, BLOCKED};
use crate::maker;
use crate::rows::{self, RowDesk, Shown, LABELS, MARKS, VIAS};

/// The numbers of some of task A's passages.
const ONE_TO_TWO: usize = 2;
const ONE_TO_FOUR: usize = 4;
const THREE_TO_FOUR: usize = 5;

/// A1's calls with 1 to 2 blocked: from 1 only the goal is labelled, with 11, and 2
/// keeps 5; by 3 the goal is then lowered to 8.
const ANOTHER_ROUTE: &str = "\
took 0 0
wait 1 0
brought 0 2
took 0 1
wait 1 1
brought 0 1
took 1 2
wait 0 2
brought 1 1
took 0 3
wait 1 3
brought 0 1
found 1 8
path 0 2 3 4
";

/// One worker with both passages to the goal blocked.
const NO_ROUTE: &str = "\
took 0 0
brought 0 2
took 0 1
brought 0 1
took 0 2
brought 0 1
took 0 3
brought 0 0
nopath 0
refused 0 10
";

pub const RUNS: &[Run] = &[
    Run {
        name: "order 4: another route",
        check: |desk| {
            let file = maker::file_of(&blocked_a(&[ONE_TO_TWO]), &file_calls(A1_CALLS));
            expect_text(desk, &file, ANOTHER_ROUTE)
        },
    },
    Run {
        name: "order 4: no route",
        check: |desk| {
            let task = blocked_a(&[ONE_TO_FOUR, THREE_TO_FOUR]);
            let file = maker::file_of(&task, &file_calls("T0 B0 T0 B0 T0 B0 T0 B0 T0 T0"));
            expect_text(desk, &file, NO_ROUTE)
        },
    },
    Run {
        name: "order 4: 4 for other costs above 1,000,000 and for a blocked passage's ends",
        check: |desk| {
            for (cost, reply) in [
                (1_000_000, Reply::Opened),
                (1_000_001, Reply::Refused(4)),
                (4_294_967_294, Reply::Refused(4)),
                (4_294_967_295, Reply::Opened),
            ] {
                expect_opening(desk, &costly_a(cost), reply)?;
            }
            let mut task = blocked_a(&[ONE_TO_TWO]);
            task.passages[3 * ONE_TO_TWO] = 5;
            expect_opening(desk, &task, Reply::Refused(4))
        },
    },
    Run {
        name: "order 4: left out of check 6",
        check: |desk| {
            let mut task = task_a();
            let apart = |place| u32::from(place % 6 != 0);
            task.passages = vec![0, 1, BLOCKED, 1, 0, BLOCKED];
            task.estimates = (0..25).map(|place| 255_000_000 * apart(place)).collect();
            expect_opening(desk, &task, Reply::Opened)?;
            task.passages.extend([0, 1, 1_000_000]);
            expect_opening(desk, &task, Reply::Refused(6))
        },
    },
    Run {
        name: "order 4: keeps its number",
        check: |desk| {
            let mut task = task_a();
            task.passages = vec![0, 1, BLOCKED, 0, 1, 9, 0, 1, BLOCKED, 0, 1, 3];
            let (row, codes) = run(desk, &task, "T0 B0");
            let (label, via) = (row[LABELS + 1], row[VIAS + 1]);
            match codes[1] == rows::code(Reply::Brought(2)) && (label, via) == (3, 3) {
                true => Ok(()),
                false => Err(format!("{}, label {label} by {via}", Shown(codes[1]))),
            }
        },
    },
    Run {
        name: "order 4: sets and lowers no label",
        check: |desk| {
            // 2 is held with label 5; 1 is unseen, 4 is made open with label 200.
            let mut task = task_a();
            task.passages = vec![0, 2, 5, 2, 1, BLOCKED, 2, 4, BLOCKED];
            let (mut row, _) = run(desk, &task, "T0 B0 T0");
            row[MARKS + 4] = 1;
            row[LABELS + 4] = 200;
            rows::set_key(&mut row, 4, 20_000);
            let code = desk.bring(&mut row, task.graph(), 0);
            let left = (row[MARKS + 1], row[LABELS + 1], row[LABELS + 4]);
            match code == rows::code(Reply::Brought(0)) && left == (0, 0, 200) {
                true => Ok(()),
                false => Err(format!("gives {} and {left:?}", Shown(code))),
            }
        },
    },
    Run {
        name: "order 4: 14 where the path would use it",
        check: |desk| {
            let (mut row, _) = run(desk, &task_a(), A1_CALLS);
            expect_path(desk, &row, &blocked_a(&[ONE_TO_FOUR]), Reply::Read(5))?;
            let task = blocked_a(&[THREE_TO_FOUR]);
            expect_path(desk, &row, &task, Reply::Refused(14))?;
            // 3 has label 5, and 5 + 4,294,967,295 is 4 in 32 bits.
            row[LABELS + 4] = 4;
            rows::set_key(&mut row, 4, 400);
            expect_path(desk, &row, &task, Reply::Refused(14))
        },
    },
    Run {
        name: "order 4: a machine fits with a blocked passage, not with other high costs",
        check: |desk| {
            let (searching, _) = run(desk, &task_a(), "T1 B1");
            for (cost, reply) in [
                (4_294_967_295, Reply::Took(1)),
                (4_294_967_294, Reply::Refused(8)),
                (1_000_001, Reply::Refused(8)),
            ] {
                let code = desk.take(&mut searching.clone(), costly_a(cost).graph(), 0);
                if code != rows::code(reply) {
                    return Err(format!("cost {cost} gives {}", Shown(code)));
                }
            }
            Ok(())
        },
    },
];

/// Task A with passages blocked.
fn blocked_a(numbers: &[usize]) -> Task {
    let mut task = task_a();
    for number in numbers {
        task.passages[3 * number + 2] = BLOCKED;
    }
    task
}

/// Task A with another cost of its first passage.
fn costly_a(cost: u32) -> Task {
    let mut task = task_a();
    task.passages[2] = cost;
    task
}

/// What reading the path into nine places replies.
fn expect_path(desk: &dyn RowDesk, row: &[u32], task: &Task, reply: Reply) -> Result<(), String> {
    let code = desk.path(row, task.graph(), &mut [0; 9], 0);
    match code == rows::code(reply) {
        true => Ok(()),
        false => Err(format!("path gives {}, not {reply:?}", Shown(code))),
    }
}
