//! The calls of order 7: some Takes of a case are limited.

use crate::desk::{Action, Graph, Reply};
use crate::desks::{Checked, Desks};
use crate::maker::{self, Rng};
use crate::rows::{self, Independent, RowDesk};

/// A worker's call on the machine in `row`. A Take may be limited; `reached` says
/// whether the task was accepted and calls led to the machine.
pub fn call(
    desks: &mut Desks,
    rng: &mut Rng,
    (action, worker): (Action, usize),
    row: &mut [u32],
    graph: Graph,
    reached: bool,
) -> Checked<Reply> {
    match action == Action::Take && rng.percent(35) {
        true => take(desks, rng, row, graph, worker, reached),
        false => desks.call(action, row, graph, worker),
    }
}

/// A limited Take, mostly with about as many comparisons allowed as it makes.
fn take(
    desks: &mut Desks,
    rng: &mut Rng,
    row: &mut [u32],
    graph: Graph,
    worker: usize,
    reached: bool,
) -> Checked<Reply> {
    let code = Independent.take_limited(&mut row.to_vec(), graph, worker, usize::MAX);
    let count = rows::limited(code).map_or(0, |limited| limited.comparisons);
    let limit = maker::limit(rng, count);
    desks.take_limited(row, graph, worker, limit, reached)
}

/// Limited Takes by all workers in turn on a machine whose keys rank states otherwise
/// than their labels do.
pub fn ranked_otherwise(desks: &mut Desks, rng: &mut Rng) -> Checked<()> {
    let (task, mut row) = maker::ranked_otherwise(rng);
    desks.show(|| format!("made-up machine {row:?} of {task:?}"));
    for worker in 0..task.head.k {
        take(desks, rng, &mut row, task.graph(), worker, false)?;
    }
    Ok(())
}
