//! Runs of order 8's sentences: stored keys by place, worked out by hand, and the calls
//! that are refused with 8 where one is another.

use super::{bare_task, events, expect_opening, run, task_a, task_b, Run, A1_CALLS};
use crate::desk::{Graph, Reply};
use crate::rows::{self, RowDesk, Shown, LABELS, PHASE, ROW};

/// Where the keys begin, two places for each state.
const FIRST: usize = 807;

/// All keys 0.
const NO_KEYS: [u32; 512] = [0; 512];

pub const RUNS: &[Run] = &[
    Run {
        name: "order 8: opening sets the start's key, low half first, and no other",
        check: |desk| {
            expect_keys(&run(desk, &task_b(300), "B0").0, &[(0, 100, 0)])?;
            // 10,000 * 255,000,000 is 593 * 2^32 + 3,084,393,472.
            let mut task = bare_task(3, 0);
            task.head.start = 2;
            [task.head.pull, task.head.excess] = [10_000; 2];
            task.estimates[2 * 3] = 255_000_000;
            task.estimates[2 * 3 + 1] = 255_000_000;
            expect_keys(&run(desk, &task, "B0").0, &[(2, 3_084_393_472, 593)])?;
            // W 0.
            task.head.pull = 0;
            expect_keys(&run(desk, &task, "B0").0, &[])
        },
    },
    Run {
        name: "order 8: a refused opening hands back no keys",
        check: |desk| {
            let mut task = task_b(300);
            task.head.pull = 301;
            expect_opening(desk, &task, Reply::Refused(3))
        },
    },
    Run {
        name: "order 8: Bring sets the keys of the labels that it sets and lowers",
        check: |desk| {
            // In task B each estimate to the goal is 1, times W 100.
            let task = task_b(300);
            expect_keys(&run(desk, &task, "T0").0, &[(0, 100, 0)])?;
            let keys = [(0, 100, 0), (1, 300, 0), (2, 600, 0)];
            expect_keys(&run(desk, &task, "T0 B0").0, &keys)?;
            expect_keys(&run(desk, &task, "T0 B0 T0 T1").0, &keys)?;
            // By 1, 2 is lowered from 5 to 3, and the goal gets 11.
            let keys = [(0, 100, 0), (1, 300, 0), (2, 400, 0), (4, 1100, 0)];
            expect_keys(&run(desk, &task, "T0 B0 T0 B0").0, &keys)?;
            // By 2, 3 gets 5; by 3, the goal is lowered to 6.
            let keys = [
                (0, 100, 0),
                (1, 300, 0),
                (2, 400, 0),
                (3, 600, 0),
                (4, 600, 0),
            ];
            let calls = "T0 B0 T0 B0 T0 B0 T0 B0 T0";
            expect_keys(&run(desk, &task, calls).0, &keys)
        },
    },
    Run {
        name: "order 8: 8 where a stored key below n is another, whatever the phase",
        check: |desk| {
            let mut without = task_b(300);
            without.passages.clear();
            for (task, calls, phase) in [
                (task_b(300), "T0", 0),
                (task_b(300), "T0 B0", 0),
                (task_b(300), "T0 B0 T0 B0 T0 B0 T0 B0 T0", 1),
                (without, "T0 B0 T0", 2),
            ] {
                let (row, _) = run(desk, &task, calls);
                if row[PHASE] != phase {
                    return Err(format!("{calls} leads to phase {}", row[PHASE]));
                }
                expect_fit(desk, &row, task.graph(), true)?;
                for place in FIRST..FIRST + 2 * 5 {
                    for bit in [0, 31] {
                        let mut row = row.clone();
                        row[place] ^= 1 << bit;
                        expect_fit(desk, &row, task.graph(), false)?;
                    }
                }
            }
            Ok(())
        },
    },
    Run {
        name: "order 8: an unseen state's key is 0, whatever its label",
        check: |desk| {
            let (mut row, _) = run(desk, &task_b(300), "T0 B0");
            row[LABELS + 3] = 7;
            expect_fit(desk, &row, task_b(300).graph(), true)?;
            rows::set_key(&mut row, 3, 800);
            expect_fit(desk, &row, task_b(300).graph(), false)
        },
    },
    Run {
        name: "order 8: a label that is lowered without its key",
        check: |desk| {
            let (mut row, _) = run(desk, &task_b(300), "T0 B0");
            row[LABELS + 2] = 4;
            expect_fit(desk, &row, task_b(300).graph(), false)?;
            rows::set_key(&mut row, 2, 500);
            expect_fit(desk, &row, task_b(300).graph(), true)
        },
    },
    Run {
        name: "order 8: keys past n are not looked at, and stay",
        check: |desk| {
            let (mut row, _) = run(desk, &task_b(300), "T0");
            row[FIRST + 2 * 5] = 1;
            row[ROW - 1] = u32::MAX;
            expect_fit(desk, &row, task_b(300).graph(), true)?;
            desk.bring(&mut row, task_b(300).graph(), 0);
            let keys = [(0, 100, 0), (1, 300, 0), (2, 600, 0)];
            expect_keys(
                &row,
                &[&keys[..], &[(5, 1, 0), (255, 0, u32::MAX)]].concat(),
            )
        },
    },
    Run {
        name: "order 8: the keys are those of the table that is lent",
        check: |desk| {
            let (row, _) = run(desk, &task_b(300), "T0 B0");
            // To the goal from 1, which is open, and from 3, which is unseen; to another.
            for (from, to, fits) in [(1, 4, false), (3, 4, true), (1, 3, true)] {
                let mut task = task_b(300);
                task.estimates[from * 5 + to] = 2;
                expect_fit(desk, &row, task.graph(), fits)?;
            }
            expect_fit(desk, &row, task_a().graph(), false)?;
            // With W 0 no estimate is part of a key.
            let mut task = task_b(300);
            task.head.pull = 0;
            let (row, _) = run(desk, &task, "T0 B0");
            expect_fit(desk, &row, task_a().graph(), true)
        },
    },
    Run {
        name: "order 8: the keys are those of the W and the goal in the machine",
        check: |desk| {
            let (row, _) = run(desk, &task_b(300), "T0 B0");
            for (place, number, fits) in [(4, 99, false), (3, 3, true), (3, 2, false)] {
                let mut row = row.clone();
                row[place] = number;
                expect_fit(desk, &row, task_b(300).graph(), fits)?;
            }
            Ok(())
        },
    },
    Run {
        name: "order 8: rows of 807 numbers are refused",
        check: |desk| {
            let (row, _) = run(desk, &task_a(), A1_CALLS);
            expect_fit(desk, &row[..807], task_a().graph(), false)?;
            let mut row = [9; 807];
            let code = desk.open(&task_a(), &mut row);
            match code == rows::code(Reply::Refused(8)) && row == [9; 807] {
                true => Ok(()),
                false => Err(format!("opening gives {}", Shown(code))),
            }
        },
    },
];

/// These states have these halves of a key, the low one first; all others have 0.
fn expect_keys(row: &[u32], keys: &[(usize, u32, u32)]) -> Result<(), String> {
    let mut wanted = NO_KEYS;
    for &(state, low, high) in keys {
        wanted[2 * state] = low;
        wanted[2 * state + 1] = high;
    }
    let mut pairs = row[FIRST..].iter().zip(&wanted).enumerate();
    match pairs.find(|(_, (number, wanted))| number != wanted) {
        Some((place, (number, wanted))) => {
            let place = FIRST + place;
            Err(format!("{number} in place {place}, not {wanted}"))
        }
        None => Ok(()),
    }
}

type Call = fn(&dyn RowDesk, &mut [u32], Graph) -> u64;

/// Whether each call on the machine in a row is refused with 8, and leaves it then.
fn expect_fit(desk: &dyn RowDesk, row: &[u32], graph: Graph, fits: bool) -> Result<(), String> {
    let refused = rows::code(Reply::Refused(8));
    let calls: [Call; 6] = [
        |desk, row, graph| desk.take(row, graph, 1),
        |desk, row, graph| desk.take_limited(row, graph, 1, usize::MAX),
        |desk, row, graph| desk.take_limited(row, graph, 1, 0),
        |desk, row, graph| desk.bring(row, graph, 0),
        |desk, row, graph| desk.path(row, graph, &mut [0; 9], 0),
        |desk, row, graph| {
            let mut replies = [0];
            match desk.morning(row, graph, &events("T1"), &mut replies) {
                code if code >> 32 == 8 => replies[0],
                code => code,
            }
        },
    ];
    for (number, call) in calls.iter().enumerate() {
        let mut after = row.to_vec();
        let code = call(desk, &mut after, graph);
        let shown = Shown(code);
        if (code == refused) == fits {
            let word = if fits { "" } else { "not " };
            return Err(format!("call {number}: {shown}, though it does {word}fit"));
        }
        if !fits && after != row {
            return Err(format!("call {number}: {shown}, but the row is changed"));
        }
    }
    Ok(())
}
