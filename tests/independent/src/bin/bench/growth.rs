//! Whole searches by rounds, on grids of a growing count of states. In a round
//! each worker in number order calls Bring, then Take; the round in which one of
//! them is told Found or NoPath is the last.

use crate::inputs::map_text;
use crate::timing::{black_box, on_copy, Go};
use independent::desk::{Action, Graph, Head, Reply, Task};
use independent::desks::{Checked, Desks};
use independent::maker::Rng;
use independent::map::Map;
use independent::morning::Event;
use independent::rows::{RowDesk, PHASE, ROW};

/// The passages of a state lead to so many others.
const NEAR: usize = 8;

/// The size of a search.
#[derive(Clone, Copy)]
pub struct Size {
    pub n: usize,
    pub passages: usize,
    pub k: usize,
}

/// The sizes of the table, by rising n.
pub fn sizes() -> Vec<Size> {
    let mut sizes = Vec::new();
    for n in [16, 32, 64, 128, 256] {
        for passages in [4 * n, 4096] {
            sizes.extend([1, 8, 32].map(|k| Size { n, passages, k }));
        }
    }
    sizes
}

impl Size {
    pub fn name(&self) -> String {
        let Size { n, passages, k } = self;
        format!("growth n={n} m={passages} k={k}")
    }

    /// A grid without walls, from corner to corner. Each state has as many passages
    /// as the others, to the cells nearest to it, in turn. The estimates are those
    /// of order 3; passages cost two to three times as much, so that nearly every
    /// state is dealt, and those a few cells apart at the same time.
    pub fn task(&self) -> Checked<Task> {
        let Size { n, passages, k } = *self;
        // n is a power of two; the grid is a square, or two side by side
        let width = 1 << ((n.trailing_zeros() + 1) / 2);
        let text = map_text(n / width, width);
        let map = Map::read(text.as_bytes()).map_err(|number| format!("no map: {number}"))?;
        let estimates = map.estimates();
        let mut rng = Rng::new(5, n as u64);
        let mut list = Vec::with_capacity(3 * passages);
        for (from, row) in estimates.chunks_exact(n).enumerate() {
            let ends = nearest(row).into_iter().cycle();
            for to in ends.take(passages / n) {
                let cost = 2 * row[to] + rng.up_to(row[to]);
                list.extend([from as u32, to as u32, cost]);
            }
        }
        let head = Head {
            n,
            k,
            start: 0,
            goal: n - 1,
            pull: 100,
            excess: 100,
        };
        Ok(Task {
            head,
            passages: list,
            estimates,
        })
    }

    /// Makes the search with both desks, whose replies and machines must agree call
    /// by call. It must be over within n rounds.
    pub fn search(&self) -> Checked<Search> {
        self.search_alike()
            .map_err(|fault| format!("{}: {fault}", self.name()))
    }

    fn search_alike(&self) -> Checked<Search> {
        let task = self.task()?;
        let mut desks = Desks::new(independent::library(), false);
        let mut opened = vec![0; ROW];
        desks.expect_opened(&task, &mut opened)?;
        let mut row = opened.clone();
        let (mut counts, mut events) = (Counts::default(), Vec::new());
        for _ in 0..self.n {
            counts.rounds += 1;
            for (action, worker) in round(self.k) {
                let reply = desks.call(action, &mut row, task.graph(), worker)?;
                counts.add(reply);
                events.push(Event {
                    action,
                    worker: worker as u16,
                });
                if matches!(reply, Reply::Found(_) | Reply::NoPath) {
                    return Ok(Search {
                        task,
                        opened,
                        events,
                        counts,
                    });
                }
            }
        }
        Err(format!("not over within {} rounds", self.n))
    }
}

/// The cells nearest to the one that a row of estimates leads from, itself apart.
fn nearest(row: &[u32]) -> Vec<usize> {
    let mut cells: Vec<usize> = (0..row.len()).collect();
    cells.sort_by_key(|&cell| row[cell]);
    cells[1..].iter().copied().take(NEAR).collect()
}

/// The calls of a round.
pub fn round(k: usize) -> impl Iterator<Item = (Action, usize)> {
    (0..k).flat_map(|worker| [(Action::Bring, worker), (Action::Take, worker)])
}

/// A search that both desks made alike.
pub struct Search {
    pub task: Task,
    opened: Vec<u32>,
    /// All calls up to the one that ended it.
    pub events: Vec<Event>,
    pub counts: Counts,
}

impl Search {
    pub fn go(&self) -> Go {
        let task = self.task.clone();
        on_copy(self.opened.clone(), move |desk, row| {
            run_rounds(desk, row, black_box(task.graph()), task.head.k)
        })
    }
}

/// Rounds until the search is over; gives the reply that ended it.
fn run_rounds(desk: &dyn RowDesk, row: &mut [u32], graph: Graph, k: usize) -> u64 {
    loop {
        for (action, worker) in round(k) {
            let reply = desk.call(action, row, graph, worker);
            if row[PHASE] != 0 {
                return reply;
            }
        }
    }
}

/// What is counted of a search: `out` is how many states were out at the same time,
/// at most.
pub const COLUMNS: &[&str] = &["rounds", "calls", "took", "wait", "out"];

#[derive(Default)]
pub struct Counts {
    rounds: usize,
    pub calls: usize,
    took: usize,
    brought: usize,
    wait: usize,
    most_out: usize,
}

impl Counts {
    /// In the order of `COLUMNS`.
    pub fn columns(&self) -> [usize; 5] {
        [self.rounds, self.calls, self.took, self.wait, self.most_out]
    }

    fn add(&mut self, reply: Reply) {
        self.calls += 1;
        match reply {
            Reply::Took(_) => self.took += 1,
            Reply::Brought(_) => self.brought += 1,
            Reply::Wait(_) => self.wait += 1,
            _ => {}
        }
        self.most_out = self.most_out.max(self.took - self.brought);
    }
}
