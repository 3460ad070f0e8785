//! Runs of order 2's sentences, on task A.

use super::{codes, events, run, shown, task_a, Run, A1_CALLS};
use crate::desk::Reply;
use crate::rows::{self, RowDesk, Shown, PHASE, ROW};

const A1_REPLIES: [Reply; 13] = [
    Reply::Took(0),
    Reply::Wait(0),
    Reply::Brought(2),
    Reply::Took(1),
    Reply::Wait(1),
    Reply::Brought(2),
    Reply::Took(2),
    Reply::Wait(2),
    Reply::Brought(1),
    Reply::Took(3),
    Reply::Wait(3),
    Reply::Brought(1),
    Reply::Found(6),
];

pub const RUNS: &[Run] = &[
    Run {
        name: "order 2: A1 in one call",
        check: |desk| {
            let (last, _) = run(desk, &task_a(), A1_CALLS);
            let mut row = opened_a(desk);
            let left = [codes(&A1_REPLIES), vec![LENT; 2]].concat();
            expect_morning(desk, &mut row, &events(A1_CALLS), Reply::Done, &left)?;
            expect_row(&row, &last)
        },
    },
    Run {
        name: "order 2: refused calls are served too",
        check: |desk| {
            let mut row = opened_a(desk);
            let replies = [
                Reply::Refused(11),
                Reply::Took(0),
                Reply::Refused(11),
                Reply::Refused(9),
                Reply::Refused(9),
                Reply::Refused(9),
            ];
            let all = events("B0 T0 T0 T65535 T257 B32768");
            expect_morning(desk, &mut row, &all, Reply::Done, &codes(&replies))?;
            let (last, _) = run(desk, &task_a(), "T0");
            expect_row(&row, &last)
        },
    },
    Run {
        name: "order 2: no events",
        check: |desk| expect_untouched(desk, opened_a(desk), &[], 0, Reply::Done),
    },
    Run {
        name: "order 2: 16, then 18, then 8 for a row that is no machine",
        check: |desk| {
            let (good, bad) = (events("T0 B0"), [0, 131_072]);
            let no_machine = || vec![LENT as u32; ROW - 1];
            for row in [opened_a(desk), no_machine()] {
                expect_untouched(desk, row.clone(), &good, 1, Reply::Refused(16))?;
                expect_untouched(desk, row.clone(), &bad, 1, Reply::Refused(16))?;
                expect_untouched(desk, row.clone(), &bad, 2, Reply::Refused(18))?;
                expect_untouched(desk, row, &[u32::MAX], 2, Reply::Refused(18))?;
            }
            expect_untouched(desk, no_machine(), &good, 2, Reply::Refused(8))?;
            expect_untouched(desk, no_machine(), &[], 2, Reply::Refused(8))
        },
    },
    Run {
        name: "order 2: a machine that doesn't fit gives 8 in every place",
        check: |desk| {
            let mut row = opened_a(desk);
            row[PHASE] = 3;
            let before = row.clone();
            let left = [codes(&[Reply::Refused(8); 2]), vec![LENT]].concat();
            expect_morning(desk, &mut row, &events("T0 B7"), Reply::Done, &left)?;
            expect_row(&row, &before)
        },
    },
];

/// What stands in the places of a row that is lent for replies.
const LENT: u64 = 9;

/// Task A's machine as a desk opens it.
fn opened_a(desk: &dyn RowDesk) -> Vec<u32> {
    let mut row = vec![1; ROW];
    desk.open(&task_a(), &mut row);
    row
}

/// A morning of task A, lent as many places as are `left`.
fn expect_morning(
    desk: &dyn RowDesk,
    row: &mut [u32],
    events: &[u32],
    reply: Reply,
    left: &[u64],
) -> Result<(), String> {
    let mut replies = vec![LENT; left.len()];
    let code = desk.morning(row, task_a().graph(), events, &mut replies);
    match code == rows::code(reply) && replies == left {
        true => Ok(()),
        false => Err(format!("gives {}, {}", Shown(code), shown(&replies))),
    }
}

/// A morning of task A that writes nothing.
fn expect_untouched(
    desk: &dyn RowDesk,
    row: Vec<u32>,
    events: &[u32],
    places: usize,
    reply: Reply,
) -> Result<(), String> {
    let mut after = row.clone();
    expect_morning(desk, &mut after, events, reply, &vec![LENT; places])?;
    expect_row(&after, &row)
}

fn expect_row(row: &[u32], wanted: &[u32]) -> Result<(), String> {
    let mut pairs = row.iter().zip(wanted).enumerate();
    match pairs.find(|(_, (number, wanted))| number != wanted) {
        Some((place, (number, wanted))) => {
            Err(format!("leaves {number} in place {place}, not {wanted}"))
        }
        None => Ok(()),
    }
}
