//! Runs of order 7's sentences: limited Takes and their counts, worked out by hand.

use super::{calls, run, task_a, task_b, Run, A1_CALLS};
use crate::desk::{Action, Graph, Limited, Reply, Task, OPEN, OUT};
use crate::rows::{self, RowDesk, HELD, LABELS, MARKS, PHASE, ROW};

/// A1's Takes: the reply and the count of each. Its labels are the keys in hundreds,
/// and a state depends on every one with a lower label. In the seventh call the goal,
/// which is open with 11, is tried first and compared with 2; then 2, which has the
/// smallest key, with none.
const A1_TAKES: [(Reply, usize); 9] = [
    (Reply::Took(0), 0),
    (Reply::Wait(0), 0),
    (Reply::Took(1), 0),
    (Reply::Wait(1), 1),
    (Reply::Took(2), 1),
    (Reply::Wait(2), 1),
    (Reply::Took(3), 1),
    (Reply::Wait(3), 1),
    (Reply::Found(6), 0),
];

pub const RUNS: &[Run] = &[
    Run {
        name: "order 7: A1 with limited Takes, and their counts",
        check: |desk| {
            let (row, takes) = run_limited(desk, &task_a(), A1_CALLS, usize::MAX)?;
            let wanted = A1_TAKES.map(|(reply, comparisons)| Limited { comparisons, reply });
            if takes != wanted {
                return Err(format!("{takes:?}"));
            }
            match row == run(desk, &task_a(), A1_CALLS).0 {
                true => Ok(()),
                false => Err("leaves another machine than Takes".into()),
            }
        },
    },
    Run {
        name: "order 7: a limit of the count does, one below cuts",
        check: |desk| {
            // The fourth Take of A1, by worker 1, makes one comparison.
            let (task, (row, _)) = (task_a(), run(desk, &task_a(), "T0 T1 B0 T0"));
            let wait = (Reply::Wait(1), 1);
            for limit in [1, 2, 1 << 24, 1 << 32, usize::MAX] {
                expect_limited(desk, &row, task.graph(), limit, wait)?;
            }
            expect_limited(desk, &row, task.graph(), 0, (Reply::Cut(0), 0))
        },
    },
    Run {
        name: "order 7: no comparison, no cut",
        check: |desk| {
            for (calls, reply) in [
                ("T0", Reply::Wait(0)),
                ("T0 B0", Reply::Took(1)),
                ("T0 B0 T0 B0 T0 B0 T0 B0", Reply::Found(6)),
            ] {
                let (row, _) = run(desk, &task_a(), calls);
                expect_limited(desk, &row, task_a().graph(), 0, (reply, 0))?;
            }
            let mut task = task_a();
            task.passages.clear();
            let (row, _) = run(desk, &task, "T0 B0");
            expect_limited(desk, &row, task.graph(), 0, (Reply::NoPath, 0))
        },
    },
    Run {
        name: "order 7: B1 and B2 with limited Takes",
        check: |desk| {
            for (excess, reply) in [(300, Reply::Took(2)), (299, Reply::Wait(1))] {
                let task = task_b(excess);
                let (row, _) = run(desk, &task, "T0 B0 T0");
                expect_limited(desk, &row, task.graph(), 1, (reply, 1))?;
                expect_limited(desk, &row, task.graph(), 0, (Reply::Cut(0), 0))?;
            }
            Ok(())
        },
    },
    Run {
        name: "order 7: refused, with no comparisons and before any cut",
        check: |desk| {
            let (task, (row, _)) = (task_a(), run(desk, &task_a(), "T0 T1 B0 T0"));
            let refused = |row: &[u32], worker, number| {
                let mut after = row.to_vec();
                let code = desk.take_limited(&mut after, task.graph(), worker, 0);
                match code == rows::code(Reply::Refused(number)) && after == row {
                    true => Ok(()),
                    false => Err(format!("{number}: {}", rows::show_limited(code))),
                }
            };
            refused(&row, 0, 11)?;
            refused(&row, 2, 9)?;
            refused(&row, usize::MAX, 9)?;
            refused(&row[..ROW - 1], 1, 8)?;
            let mut row = row;
            row[PHASE] = 1;
            refused(&row, 1, 10)?;
            row[HELD] = 65_535;
            refused(&row, 1, 8)
        },
    },
    Run {
        name: "order 7: on made-up machines only out states and smaller keys are compared",
        check: |desk| {
            // 1 has label 10 and key 1,000, 2 has label 5 and, with h(2,4) = 9, key 1,400.
            let mut task = task_a();
            task.estimates[2 * 5 + 4] = 9;
            let mut row = opened(desk);
            row[MARKS..][..4].copy_from_slice(&[3, 1, 1, 3]);
            row[LABELS..][1..3].copy_from_slice(&[10, 5]);
            rows::set_key(&mut row, 1, 1000);
            rows::set_key(&mut row, 2, 1400);
            // 1 depends on 2, but 2 has the greater key: 1 is compared with none.
            expect_limited(desk, &row, task.graph(), 0, (Reply::Took(1), 0))?;
            // 3, with label 0, is out: 1 stops there, and 2 after 1, on which it doesn't
            // depend.
            row[MARKS + 3] = u32::from(OUT);
            row[HELD] = 3;
            expect_limited(desk, &row, task.graph(), 3, (Reply::Wait(3), 3))?;
            expect_limited(desk, &row, task.graph(), 2, (Reply::Cut(2), 2))?;
            // With equal keys, 1 and 2 aren't compared with each other: 2 stops at 3 too.
            row[LABELS + 1] = 14;
            rows::set_key(&mut row, 1, 1400);
            expect_limited(desk, &row, task.graph(), 9, (Reply::Wait(3), 2))?;
            // The goal, with label 20, is tried first and stops at 1.
            row[MARKS + 4] = u32::from(OPEN);
            row[LABELS + 4] = 20;
            rows::set_key(&mut row, 4, 2000);
            expect_limited(desk, &row, task.graph(), 9, (Reply::Wait(3), 3))
        },
    },
];

fn opened(desk: &dyn RowDesk) -> Vec<u32> {
    let mut row = vec![1; ROW];
    desk.open(&task_a(), &mut row);
    row
}

/// Opens a task and makes the calls, each Take with this limit: the machine's row and
/// what the Takes came to.
fn run_limited(
    desk: &dyn RowDesk,
    task: &Task,
    text: &str,
    limit: usize,
) -> Result<(Vec<u32>, Vec<Limited>), String> {
    let mut row = opened(desk);
    let mut takes = Vec::new();
    for (action, worker) in calls(text) {
        match action {
            Action::Take => {
                let code = desk.take_limited(&mut row, task.graph(), worker, limit);
                takes.push(rows::limited(code).ok_or(rows::show_limited(code))?);
            }
            Action::Bring => drop(desk.bring(&mut row, task.graph(), worker)),
        }
    }
    Ok((row, takes))
}

/// A limited Take by worker 1: its reply and count. A cut, a Wait and a refusal leave
/// the machine.
fn expect_limited(
    desk: &dyn RowDesk,
    row: &[u32],
    graph: Graph,
    limit: usize,
    (reply, comparisons): (Reply, usize),
) -> Result<(), String> {
    let mut after = row.to_vec();
    let code = desk.take_limited(&mut after, graph, 1, limit);
    let wanted = rows::limited_code(Limited { comparisons, reply });
    if code != wanted {
        let [code, wanted] = [code, wanted].map(rows::show_limited);
        return Err(format!("limited to {limit}: {code}, not {wanted}"));
    }
    let stays = matches!(reply, Reply::Cut(_) | Reply::Wait(_));
    match stays == (after == row) {
        true => Ok(()),
        false => Err(format!("limited to {limit}: another machine, or the same")),
    }
}
