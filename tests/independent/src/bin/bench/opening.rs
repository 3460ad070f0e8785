//! Openings for order 5: how many triples check 7 compares, with and without passing
//! over inner sweeps, and how long an opening takes against one with a plain sweep.

use crate::counts::{Counted, Counts};
use crate::inputs::map_text;
use crate::timing::{black_box, Go};
use independent::desk::{Head, Machine, Reply, Task, MAX_LABEL};
use independent::desks::Checked;
use independent::maker::{self, Rng};
use independent::map::Map;
use independent::rows::{self, RowDesk, Shown, ROW};
use independent::triangles;
use std::cell::RefCell;
use std::rc::Rc;

/// A table by name: what opening replies to it, and a task of so many states that
/// has it.
struct Kind {
    name: &'static str,
    reply: Reply,
    task: fn(usize) -> Task,
}

const KINDS: &[Kind] = &[
    Kind {
        name: "zeros",
        reply: Reply::Opened,
        task: |n| bare_task(n, vec![0; n * n]),
    },
    Kind {
        name: "one constant",
        reply: Reply::Opened,
        task: |n| bare_task(n, table(n, |_, _| 1000)),
    },
    Kind {
        name: "open map",
        reply: Reply::Opened,
        task: open_map,
    },
    Kind {
        name: "distances",
        reply: Reply::Opened,
        task: distances,
    },
    Kind {
        name: "distances cut off",
        reply: Reply::Opened,
        task: distances_cut_off,
    },
    Kind {
        name: "fails at the last",
        reply: Reply::Refused(7),
        task: fails_at_the_last,
    },
];

pub struct Opening {
    kind: &'static Kind,
    n: usize,
}

/// All openings, by rising n.
pub fn openings() -> impl Iterator<Item = Opening> {
    let sizes = [64, 256].into_iter();
    sizes.flat_map(|n| KINDS.iter().map(move |kind| Opening { kind, n }))
}

impl Opening {
    pub fn name(&self) -> String {
        format!("opening {} n={}", self.kind.name, self.n)
    }

    /// The task, once both openings of the independent desk reply to it as they
    /// should.
    fn task(&self) -> Checked<Task> {
        let task = (self.kind.task)(self.n);
        for open in [Machine::open, Machine::open_plainly] {
            let code = rows::open_into(&mut [0; ROW], || open(task.head, task.graph()));
            if code != rows::code(self.kind.reply) {
                return Err(format!("{}: {}", self.name(), Shown(code)));
            }
        }
        Ok(task)
    }

    /// The triples of a plain sweep, and of one that passes over.
    fn counted(&self) -> Checked<Counted> {
        let Task { estimates, .. } = self.task()?;
        Ok(Counted {
            name: self.name(),
            before: triangles::plain(self.n, &estimates).triples,
            after: triangles::passing_over(self.n, &estimates).triples,
            calls: None,
        })
    }

    pub fn go(&self) -> Checked<Go> {
        let task = self.task()?;
        Ok(on_row(move |desk, row| desk.open(black_box(&task), row)))
    }

    /// The independent desk's opening with a plain sweep, whatever desk it goes with.
    pub fn plain_go(&self) -> Checked<Go> {
        let task = self.task()?;
        Ok(on_row(move |_, row| {
            let task = black_box(&task);
            rows::open_into(row, || Machine::open_plainly(task.head, task.graph()))
        }))
    }
}

pub fn counts(part: &str) -> Checked<Counts> {
    let openings = openings().filter(|opening| opening.name().contains(part));
    Ok(Counts {
        titles: ["name", "triples before", "triples after"],
        lines: openings
            .map(|opening| opening.counted())
            .collect::<Checked<_>>()?,
    })
}

fn on_row(open: impl Fn(&dyn RowDesk, &mut [u32]) -> u64 + 'static) -> Go {
    let row = RefCell::new(vec![0; ROW]);
    Rc::new(move |desk| open(desk, &mut row.borrow_mut()))
}

// ---- Tasks ----

/// A task without passages.
fn bare_task(n: usize, estimates: Vec<u32>) -> Task {
    let head = Head {
        n,
        k: 1,
        start: 0,
        goal: n - 1,
        pull: 100,
        excess: 100,
    };
    Task {
        head,
        passages: vec![],
        estimates,
    }
}

/// A table with 0 from each state to itself.
fn table(n: usize, mut between: impl FnMut(usize, usize) -> u32) -> Vec<u32> {
    let mut estimates = Vec::with_capacity(n * n);
    for a in 0..n {
        estimates.extend((0..n).map(|b| if a == b { 0 } else { between(a, b) }));
    }
    estimates
}

/// The task of a square map without walls.
fn open_map(n: usize) -> Task {
    let side = (1..=16).find(|side| side * side == n).expect("a square");
    let map = Map::read(map_text(side, side).as_bytes()).expect("a good map");
    Task {
        passages: map.passages(),
        ..bare_task(n, map.estimates())
    }
}

/// The distances of a random graph: a ring, and three further passages from each
/// state.
fn distances(n: usize) -> Task {
    let mut rng = Rng::new(6, n as u64);
    let mut estimates = table(n, |_, _| MAX_LABEL);
    for a in 0..n {
        for b in [(a + 1) % n, rng.below(n), rng.below(n), rng.below(n)] {
            let h = &mut estimates[a * n + b];
            *h = (*h).min(1 + rng.up_to(999));
        }
    }
    maker::close(&mut estimates, n);
    bare_task(n, estimates)
}

/// The same cut off at a height that half of them reach.
fn distances_cut_off(n: usize) -> Task {
    let mut task = distances(n);
    let mut sorted = task.estimates.clone();
    sorted.sort_unstable();
    let height = sorted[n * n / 2];
    task.estimates.iter_mut().for_each(|h| *h = height.min(*h));
    task
}

/// Any two of 1,001 to 2,000 have a sum above 2,000: such a table passes. From the
/// last state by the last but one to the one before, 2,001 is above 1,000 + 1,000,
/// and there alone. No later triple can fail, since one with two states alike holds.
fn fails_at_the_last(n: usize) -> Task {
    let mut rng = Rng::new(7, n as u64);
    let mut estimates = table(n, |_, _| 1001 + rng.up_to(999));
    let [last, by, to] = [n - 1, n - 2, n - 3];
    estimates[last * n + by] = 1000;
    estimates[by * n + to] = 1000;
    estimates[last * n + to] = 2001;
    bare_task(n, estimates)
}
