//! The comparisons of Take and of limited Take, counted in whole searches by rounds;
//! and the times of both on machines in mid-search.

use crate::counts::{Counted, Counts};
use crate::expect_fit;
use crate::growth::{round, sizes};
use crate::inputs::{map_task, map_text, spread_row};
use crate::timing::{black_box, on_copy, Go};
use independent::desk::{Action, Head, Machine, Reply, Task};
use independent::desks::Checked;
use independent::maker;
use independent::map::Map;
use independent::rows::{self, RowDesk, Shown, LABELS};

// ---- Searches, counted ----

/// The searches by name: those of the growth table, those of the other table on the
/// same tasks, and some on a map of 16 x 16 without walls.
fn searches() -> impl Iterator<Item = (String, Checked<Task>)> {
    let grown = sizes().into_iter().map(|size| {
        let name = size.name().replace("growth", "comparisons");
        (name, size.task())
    });
    let runs = [(64, 512, 1), (64, 512, 32), (256, 4096, 1), (256, 4096, 32)];
    let runs = runs.into_iter().map(|(n, passages, k)| {
        let name = format!("comparisons run k={k} n={n} m={passages}");
        (name, Ok(map_task(n, passages, k)))
    });
    let on_map = [1, 8, 32].into_iter().map(|k| {
        let name = format!("comparisons map of 16 x 16 k={k}");
        (name, open_map(k))
    });
    grown.chain(runs).chain(on_map)
}

/// From corner to corner of the map.
fn open_map(k: usize) -> Checked<Task> {
    let text = map_text(16, 16);
    let map = Map::read(text.as_bytes()).map_err(|number| format!("no map: {number}"))?;
    let head = Head {
        n: 256,
        k,
        start: 0,
        goal: 255,
        pull: 100,
        excess: 100,
    };
    Ok(Task {
        head,
        passages: map.passages(),
        estimates: map.estimates(),
    })
}

pub fn counts(part: &str) -> Checked<Counts> {
    let searches = searches().filter(|(name, _)| name.contains(part));
    let lines = searches.map(|(name, task)| counted(name, &task?));
    Ok(Counts {
        titles: ["name (Takes not refused)", "Take a call", "limited a call"],
        lines: lines.collect::<Checked<_>>()?,
    })
}

/// The comparisons of all Takes of a search that weren't refused. Both kinds of Take
/// must reply alike and leave the same machine.
fn counted(name: String, task: &Task) -> Checked<Counted> {
    let graph = task.graph();
    let mut machine =
        Machine::open(task.head, graph).map_err(|number| format!("{name}: opening {number}"))?;
    let (mut before, mut after, mut calls) = (0, 0, 0);
    for (action, worker) in (0..task.head.n).flat_map(|_| round(task.head.k)) {
        if action == Action::Bring {
            machine.bring(graph, worker);
            continue;
        }
        let mut other = machine.clone();
        let limited = other.take_limited(graph, worker, usize::MAX);
        let count = machine.take_comparisons(graph);
        let reply = machine.take(graph, worker);
        if limited.reply != reply || other != machine {
            return Err(format!("{name}: Take {reply:?}, limited {limited:?}"));
        }
        if !matches!(reply, Reply::Refused(_)) {
            before += count;
            after += limited.comparisons;
            calls += 1;
        }
        if matches!(reply, Reply::Found(_) | Reply::NoPath) {
            return Ok(Counted {
                name,
                before,
                after,
                calls: Some(calls),
            });
        }
    }
    Err(format!("{name}: not over within {} rounds", task.head.n))
}

// ---- Single Takes, timed ----

/// A Take by the last worker: all others hold a state, up to `open` states are open.
/// Where none of them is safe, each depends on the start, which is out with label 0.
pub struct Timed {
    n: usize,
    k: usize,
    open: usize,
    safe: bool,
}

/// Few and many open, with one worker and with all; and many that all wait.
pub fn timed() -> Vec<Timed> {
    let mut all = Vec::new();
    for n in [64, 256] {
        for open in [4, n] {
            let safe = true;
            all.extend([1, 32].map(|k| Timed { n, k, open, safe }));
        }
        let (k, open, safe) = (32, n, false);
        all.push(Timed { n, k, open, safe });
    }
    all
}

impl Timed {
    pub fn name(&self) -> String {
        let Timed { n, k, open, safe } = self;
        let many = if open == n { "many" } else { "few" };
        let none = if *safe { "" } else { ", none safe" };
        format!("comparisons, {many} open{none} k={k} n={n}")
    }

    fn task(&self) -> Task {
        map_task(self.n, 4 * self.n, self.k)
    }

    fn row(&self) -> Vec<u32> {
        let task = self.task();
        let mut row = spread_row(&task, self.open);
        if !self.safe {
            row[LABELS + task.head.start] = 0;
            maker::set_keys(&mut row, &task.estimates);
        }
        row
    }

    /// What Take and limited Take compare, once both have replied alike.
    pub fn comparisons(&self, desk: &dyn RowDesk) -> Checked<[usize; 2]> {
        let (task, row) = (self.task(), self.row());
        let machine = rows::decode(&row).ok_or("no machine")?;
        let take = desk.take(&mut row.clone(), task.graph(), self.k - 1);
        expect_fit(&self.name(), take)?;
        let code = desk.take_limited(&mut row.clone(), task.graph(), self.k - 1, usize::MAX);
        match rows::limited(code) {
            Some(limited) if rows::code(limited.reply) == take => {
                Ok([machine.take_comparisons(task.graph()), limited.comparisons])
            }
            _ => {
                let (take, limited) = (Shown(take), rows::show_limited(code));
                Err(format!("{}: Take {take}, limited {limited}", self.name()))
            }
        }
    }

    pub fn take(&self) -> Go {
        let (task, worker) = (self.task(), self.k - 1);
        on_copy(self.row(), move |desk, row| {
            desk.take(row, black_box(task.graph()), worker)
        })
    }

    pub fn limited(&self) -> Go {
        let (task, worker) = (self.task(), self.k - 1);
        on_copy(self.row(), move |desk, row| {
            desk.take_limited(row, black_box(task.graph()), worker, usize::MAX)
        })
    }
}

/// The names of all lines.
pub fn names() -> impl Iterator<Item = String> {
    let timed = timed().into_iter().map(|timed| timed.name());
    searches().map(|(name, _)| name).chain(timed)
}
