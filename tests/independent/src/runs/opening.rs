//! Runs of order 5's sentences: tables that check 7 passes or fails, worked out by
//! hand.

use super::{bare_task, expect_opening, Run};
use crate::desk::{Reply, Task};

pub const RUNS: &[Run] = &[
    Run {
        name: "order 5: nothing to sweep, and it passes",
        check: |desk| {
            for height in [0, 1, 255_000_000] {
                expect_opening(desk, &apart(height), Reply::Opened)?;
            }
            Ok(())
        },
    },
    Run {
        name: "order 5: 7 by the b whose estimate is one below the largest",
        check: |desk| {
            // h(0,2) = 8 is the largest of row 0, and 7 + h(1,2) reach it or don't.
            expect_opening(desk, &changed(&[(0, 2, 8), (1, 2, 1)]), Reply::Opened)?;
            let task = changed(&[(0, 2, 8), (1, 2, 0)]);
            expect_opening(desk, &task, Reply::Refused(7))
        },
    },
    Run {
        name: "order 5: the largest is that of row a, not of row b",
        check: |desk| {
            // h(2,3) = 4 is above all of row 3; it and h(3,0) reach 5 or don't.
            let rows = [(2, 0, 5), (2, 1, 5), (2, 3, 4), (3, 1, 1), (3, 2, 1)];
            let with = |height| changed(&[&rows[..], &[(3, 0, height)]].concat());
            expect_opening(desk, &with(1), Reply::Opened)?;
            expect_opening(desk, &with(0), Reply::Refused(7))
        },
    },
    Run {
        name: "order 5: 7 at the last triple that can fail",
        check: |desk| {
            // By 2, from 3 to 1: 15 is above 7 + 7, but not above the sums by 0.
            let raised = [(3, 0, 8), (3, 1, 15)];
            expect_opening(desk, &changed(&raised), Reply::Refused(7))?;
            let task = changed(&[&raised[..], &[(2, 1, 8)]].concat());
            expect_opening(desk, &task, Reply::Opened)
        },
    },
];

/// Four states without passages, and the same estimate wherever they differ.
fn apart(height: u32) -> Task {
    let mut task = bare_task(4, 3);
    let apart = (0..16).map(|place| if place % 5 == 0 { 0 } else { height });
    task.estimates = apart.collect();
    task
}

/// Estimates of 7, but for some.
fn changed(changes: &[(usize, usize, u32)]) -> Task {
    let mut task = apart(7);
    for &(a, b, height) in changes {
        task.estimates[4 * a + b] = height;
    }
    task
}
