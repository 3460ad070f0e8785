//! The random maker: tasks, made-up machines, calls, mornings, buffers, maps and
//! task files, good and damaged, all drawn from a seed and a case number.

use crate::desk::{
    is_blocked, Action, Graph, Head, Task, BLOCKED, FOUND, MAX_COST, MAX_LABEL, MAX_PASSAGES,
    MAX_STATES, NONE, OPEN, OUT, SEARCHING, UNSEEN,
};
use crate::rows::{Independent, RowDesk, HELD, KEYS, LABELS, MARKS, PHASE, ROW, VIAS};
use crate::taskfile::MAX_FILE;

mod keys;
mod map;
mod morning;
mod writing;

pub use keys::{changed_keys, set_keys, KeyChange, KEY_CHANGES};
pub use map::{lent, map, map_cell, map_state, map_task};
pub use morning::morning;
pub use writing::{file_buffer, writing};

/// A small generator of random numbers (splitmix64).
pub struct Rng(u64);

impl Rng {
    pub fn new(seed: u64, case: u64) -> Rng {
        let mut rng = Rng(seed);
        let mixed = rng.next();
        Rng(mixed ^ case.wrapping_mul(0xd605_bbb5_8c8a_bc63))
    }

    fn next(&mut self) -> u64 {
        self.0 = self.0.wrapping_add(0x9e37_79b9_7f4a_7c15);
        let mut z = self.0;
        z = (z ^ (z >> 30)).wrapping_mul(0xbf58_476d_1ce4_e5b9);
        z = (z ^ (z >> 27)).wrapping_mul(0x94d0_49bb_1331_11eb);
        z ^ (z >> 31)
    }

    /// A number below `bound`, which is above 0.
    pub fn below(&mut self, bound: usize) -> usize {
        (self.next() % bound as u64) as usize
    }

    pub fn between(&mut self, low: usize, high: usize) -> usize {
        low + self.below(high - low + 1)
    }

    pub fn up_to(&mut self, high: u32) -> u32 {
        (self.next() % (u64::from(high) + 1)) as u32
    }

    pub fn percent(&mut self, percent: usize) -> bool {
        self.below(100) < percent
    }

    pub fn pick<T: Copy>(&mut self, list: &[T]) -> T {
        list[self.below(list.len())]
    }
}

// ---- Tasks that opening accepts ----

/// A task that opening accepts, mostly small.
pub fn task(rng: &mut Rng) -> Task {
    let n = match rng.below(1000) {
        0..=599 => rng.between(1, 8),
        600..=899 => rng.between(9, 24),
        900..=984 => rng.between(25, 64),
        985..=997 => rng.between(65, 256),
        _ => rng.pick(&[255, 256]),
    };
    task_of(rng, n)
}

/// A task of n states that opening accepts.
pub fn task_of(rng: &mut Rng, n: usize) -> Task {
    let head = head(rng, n);
    let passages = passages(rng, n);
    let estimates = estimates(rng, n, &passages);
    Task {
        head,
        passages,
        estimates,
    }
}

fn head(rng: &mut Rng, n: usize) -> Head {
    let any_excess = rng.between(100, 10_000);
    let excess = rng.pick(&[100, 100, 101, 150, 200, 300, 299, 1000, 10_000, any_excess]);
    let any_pull = rng.between(0, excess);
    let widest = rng.pick(&[1, 2, 3, 4, 8, 32]);
    let start = rng.below(n);
    let other = (start + rng.below(n.max(2) - 1) + 1) % n;
    Head {
        n,
        k: rng.between(1, widest),
        start,
        goal: if rng.percent(5) { start } else { other },
        pull: rng.pick(&[0, 100, excess, any_pull]),
        excess,
    }
}

fn passages(rng: &mut Rng, n: usize) -> Vec<u32> {
    let most = rng.pick(&[2, 3, 4, 8]) * n;
    let count = match rng.below(300) {
        0 => MAX_PASSAGES,
        1..=60 => rng.between(0, n),
        _ => rng.between(n, most),
    };
    let costs = rng.pick(&[0, 1, 2, 3, 20, 20, 1000, MAX_COST]);
    let blocked_percent = rng.pick(&[0, 0, 10, 30, 70]);
    let mut passages = Vec::with_capacity(3 * count);
    for _ in 0..count {
        let cost = match rng.below(40) {
            _ if rng.percent(blocked_percent) => BLOCKED,
            0 => MAX_COST,
            1 => 0,
            _ => rng.up_to(costs),
        };
        passages.extend([rng.below(n) as u32, rng.below(n) as u32, cost]);
    }
    passages
}

/// A table that opening accepts with these passages: all zero, uniform, or the
/// distances, cut off at some height, of a graph with costs lowered and further
/// passages added (the distances of the task itself where nothing is lowered).
/// Blocked passages bind no estimate.
fn estimates(rng: &mut Rng, n: usize, passages: &[u32]) -> Vec<u32> {
    match rng.below(6) {
        0 => vec![0; n * n],
        1 => uniform(n, rng.up_to(lowest_cost(passages))),
        _ => lowered_distances(rng, n, passages),
    }
}

fn uniform(n: usize, height: u32) -> Vec<u32> {
    let mut table = vec![height; n * n];
    table.iter_mut().step_by(n + 1).for_each(|h| *h = 0);
    table
}

fn unblocked(passages: &[u32]) -> impl Iterator<Item = &[u32]> {
    let all = passages.chunks_exact(3);
    all.filter(|passage| !is_blocked(passage))
}

fn lowest_cost(passages: &[u32]) -> u32 {
    let others = unblocked(passages).filter(|p| p[0] != p[1]);
    others.map(|p| p[2]).min().unwrap_or(MAX_LABEL)
}

fn lowered_distances(rng: &mut Rng, n: usize, passages: &[u32]) -> Vec<u32> {
    let highest = unblocked(passages).map(|p| p[2]).max().unwrap_or(9);
    let any_height = rng.up_to(MAX_LABEL);
    let height = rng.pick(&[MAX_LABEL, highest, 2 * highest, any_height]);
    let mut table = uniform(n, height);
    let keep_percent = rng.pick(&[100, 100, 50, 0]);
    for passage in unblocked(passages) {
        let cost = match rng.percent(keep_percent) {
            true => passage[2],
            false => rng.up_to(passage[2]),
        };
        lower(
            &mut table,
            n,
            passage[0] as usize,
            passage[1] as usize,
            cost,
        );
    }
    for _ in 0..rng.pick(&[0, 0, 1, n]) {
        let (a, b, cost) = (rng.below(n), rng.below(n), rng.up_to(highest));
        lower(&mut table, n, a, b, cost);
    }
    close(&mut table, n);
    table
}

fn lower(table: &mut [u32], n: usize, a: usize, b: usize, cost: u32) {
    let h = &mut table[a * n + b];
    *h = cost.min(*h);
}

/// Makes a table of direct heights one of distances (Floyd and Warshall).
pub fn close(table: &mut [u32], n: usize) {
    for b in 0..n {
        let from_b = table[b * n..(b + 1) * n].to_vec();
        for from_a in table.chunks_exact_mut(n) {
            let ab = from_a[b];
            for (ac, bc) in from_a.iter_mut().zip(&from_b) {
                *ac = (*ac).min(ab + bc);
            }
        }
    }
}

// ---- Tasks that opening refuses ----

/// A task with one or two things wrong (mostly: some changes do no harm).
pub fn broken_task(rng: &mut Rng) -> Task {
    let mut task = task(rng);
    for _ in 0..rng.pick(&[1, 1, 2]) {
        match rng.below(7) {
            0 => break_sizes(rng, &mut task),
            1 => break_ends(rng, &mut task.head),
            2 if rng.percent(50) => widen_weight(rng, &mut task.head),
            2 => break_weights(rng, &mut task.head),
            3 => break_passage(rng, &mut task),
            4 => break_estimate(rng, &mut task),
            5 => break_cost(rng, &mut task),
            _ => break_triangle(rng, &mut task),
        }
    }
    task
}

fn break_sizes(rng: &mut Rng, task: &mut Task) {
    let huge = rng.pick(&[1 << 32, 1 << 32 | task.head.n, 1 << 63, usize::MAX]);
    match rng.below(8) {
        0 => task.head.n = rng.pick(&[0, 257, 65_536, huge]),
        1 => task.head.k = rng.pick(&[0, 33, 256, huge]),
        2 => task.passages.push(0),
        3 => drop(task.passages.pop()),
        4 => task
            .passages
            .resize(3 * MAX_PASSAGES + rng.pick(&[1, 3]), 0),
        5 => task.estimates.push(0),
        6 => drop(task.estimates.pop()),
        _ => task.head.n = rng.between(1, 256),
    }
}

fn break_ends(rng: &mut Rng, head: &mut Head) {
    let beyond = rng.pick(&[head.n, 255, 256, 65_535, 1 << 32, usize::MAX]);
    match rng.percent(50) {
        true => head.start = beyond,
        false => head.goal = beyond,
    }
}

/// Makes a weight wider than 16 bits, mostly so that what is left of it, cut to
/// fewer bits, would pass; also the widest of 16 bits.
fn widen_weight(rng: &mut Rng, head: &mut Head) {
    let weight = match rng.percent(50) {
        true => &mut head.pull,
        false => &mut head.excess,
    };
    let looks_good = *weight | 1 << rng.pick(&[16, 17, 31, 32, 48, 63]);
    *weight = rng.pick(&[
        65_535,
        65_536,
        65_636,
        (1 << 32) + 100,
        usize::MAX,
        looks_good,
        looks_good,
    ]);
}

/// Changes a weight to one that a task file can carry.
fn break_weights(rng: &mut Rng, head: &mut Head) {
    match rng.below(3) {
        0 => head.excess = rng.pick(&[0, 99, 10_001, 65_535]),
        1 => head.pull = head.excess.saturating_add(1),
        _ => head.pull = rng.pick(&[10_001, 65_535]),
    }
}

fn break_passage(rng: &mut Rng, task: &mut Task) {
    let n = task.head.n as u32;
    if task.passages.is_empty() {
        return;
    }
    let place = rng.below(task.passages.len());
    task.passages[place] = match place % 3 {
        2 => rng.pick(&[MAX_COST + 1, 1 << 31, BLOCKED - 1, BLOCKED]),
        _ => rng.pick(&[n, 256, 65_536, u32::MAX]),
    };
}

fn break_estimate(rng: &mut Rng, task: &mut Task) {
    let n = task.head.n;
    if task.estimates.is_empty() {
        return;
    }
    let diagonal = rng.percent(40) && n <= 256;
    let place = match diagonal {
        true => rng.below(n.max(1)) * (n + 1) % task.estimates.len(),
        false => rng.below(task.estimates.len()),
    };
    task.estimates[place] = match diagonal {
        true => rng.pick(&[1, MAX_LABEL]),
        false => rng.pick(&[MAX_LABEL, MAX_LABEL + 1, u32::MAX]),
    };
}

fn break_cost(rng: &mut Rng, task: &mut Task) {
    if task.passages.len() < 3 {
        return;
    }
    let first = 3 * rng.below(task.passages.len() / 3);
    let [a, b, cost] = [0, 1, 2].map(|i| task.passages[first + i] as usize);
    let place = a.wrapping_mul(task.head.n).wrapping_add(b);
    if let Some(h) = task.estimates.get_mut(place).filter(|_| a != b) {
        *h = match cost as u32 {
            BLOCKED => rng.pick(&[MAX_COST, MAX_COST + 1, MAX_LABEL]),
            cost => cost + rng.pick(&[0, 1]),
        };
    }
}

fn break_triangle(rng: &mut Rng, task: &mut Task) {
    if task.estimates.is_empty() {
        return;
    }
    let place = rng.below(task.estimates.len());
    let h = &mut task.estimates[place];
    *h = match rng.below(4) {
        0 => (*h).saturating_add(1),
        1 => (*h).saturating_sub(1),
        2 => rng.pick(&[0, 1, MAX_COST, MAX_LABEL]),
        _ => return break_below_largest(rng, &mut task.estimates),
    };
}

/// Makes h(a,c) the largest estimate of its row by one, and h(b,c) 0 where h(a,b)
/// was the largest: with b, which a desk that passes over too much would leave out,
/// the sum is too small by one.
fn break_below_largest(rng: &mut Rng, estimates: &mut [u32]) {
    let n = (1..=MAX_STATES).find(|n| n * n == estimates.len());
    let n = match n {
        Some(n) if n > 2 => n,
        _ => return,
    };
    let a = rng.below(n);
    let others = || (0..n).filter(|&s| s != a);
    let b = others().max_by_key(|b| estimates[a * n + b]).unwrap_or(0);
    let ends: Vec<_> = others().filter(|&c| c != b).collect();
    let c = rng.pick(&ends);
    estimates[b * n + c] = 0;
    estimates[a * n + c] = estimates[a * n + b].saturating_add(1).min(MAX_LABEL);
}

// ---- Calls ----

/// A call for a machine in a row: most often one that is not refused.
/// `eager_percent` is how readily a worker brings what it holds.
pub fn call(rng: &mut Rng, row: &[u32], eager_percent: usize) -> (Action, usize) {
    let k = row[1] as usize;
    let worker = rng.below(k.clamp(1, 32));
    if rng.percent(3) {
        let action = rng.pick(&[Action::Take, Action::Bring]);
        return (action, bad_worker(rng, k, worker));
    }
    let holds = row[HELD + worker] != u32::from(NONE);
    if rng.percent(3) {
        return (if holds { Action::Take } else { Action::Bring }, worker);
    }
    match (holds, rng.percent(eager_percent)) {
        (true, true) => (Action::Bring, worker),
        (true, false) => (Action::Take, rng.below(k.clamp(1, 32))),
        (false, _) => (Action::Take, worker),
    }
}

/// A worker that is mostly none of k; also such as differ from a good one in a high
/// bit alone.
fn bad_worker(rng: &mut Rng, k: usize, good: usize) -> usize {
    let high = rng.pick(&[8, 15, 16, 32, 63]);
    let looks_good = good + (1 << high);
    rng.pick(&[k, k + 1, 31, 32, 255, usize::MAX, looks_good, looks_good])
}

/// A limit for a Take that makes this many comparisons: just enough of it, one more or
/// fewer, any; also such as would be too low, were they cut to 32 bits.
pub fn limit(rng: &mut Rng, count: usize) -> usize {
    let lower = rng.below(count.max(1));
    match rng.below(12) {
        0 => count.saturating_sub(1),
        1 => lower,
        2..=4 => count,
        5 | 6 => count + 1,
        7 => rng.below(300),
        8 => rng.pick(&[0, 1, 65_279, 65_280, 65_536]),
        9 => lower + (1 << rng.pick(&[24, 32, 63])),
        10 => usize::MAX - lower,
        _ => usize::MAX,
    }
}

/// Calls by workers up to `highest`, chosen while the independent desk answers
/// them on the machine in a row; the row may also hold none.
fn calls_on(
    rng: &mut Rng,
    row: &[u32],
    graph: Graph,
    count: usize,
    highest: usize,
) -> Vec<(Action, usize)> {
    let eager_percent = rng.between(20, 100);
    let mut row = row.to_vec();
    row.resize(ROW, 0);
    let mut calls = Vec::with_capacity(count);
    for _ in 0..count {
        let (action, worker) = call(rng, &row, eager_percent);
        let worker = worker.min(highest);
        Independent.call(action, &mut row, graph, worker);
        calls.push((action, worker));
    }
    calls
}

/// A buffer with something in each place, and a place to read a path to; the
/// path, if there is one, has about `count` states.
pub fn buffer(rng: &mut Rng, count: usize) -> (Vec<u16>, usize) {
    let len = match rng.below(4) {
        0 => count,
        1 => rng.between(0, count),
        _ => count + rng.below(8),
    };
    let fitting = len.saturating_sub(count);
    let at = match rng.below(8) {
        0 => 0,
        1 => fitting + 1,
        2 => rng.between(0, len),
        3 => rng.pick(&[len, len + 1, 1 << 32, usize::MAX]),
        _ => rng.between(0, fitting),
    };
    let buffer = (0..len).map(|_| rng.next() as u16).collect();
    (buffer, at)
}

/// The length of a slice that is lent for this many numbers: sometimes too short,
/// else just long enough or longer.
fn lent_len(rng: &mut Rng, count: usize) -> usize {
    match rng.below(24) {
        0 => count.saturating_sub(1),
        1 => rng.between(0, count),
        2..=11 => count,
        _ => count + rng.between(1, 9),
    }
}

// ---- Made-up machines ----

/// A task and a machine that need not be one that calls can reach, nor fit. The keys
/// are mostly right for what else the row says, so that this alone may be wrong.
pub fn made_up(rng: &mut Rng) -> (Task, Vec<u32>) {
    let (mut task, mut row) = undamaged(rng);
    if rng.percent(45) {
        for _ in 0..rng.pick(&[1, 1, 1, 2, 3]) {
            damage_row(rng, &mut row);
        }
        if rng.percent(80) {
            set_keys(&mut row, &task.estimates);
        }
    }
    if rng.percent(5) && row.len() == ROW {
        keys::damage_key(rng, &mut row);
    }
    if rng.percent(8) {
        damage_slices(rng, &mut task);
    }
    (task, row)
}

/// A task and a machine that fits, which need not be one that calls can reach.
fn undamaged(rng: &mut Rng) -> (Task, Vec<u32>) {
    let mut task = made_up_task(rng);
    let mut row = made_up_row(rng, &task);
    match rng.below(100) {
        0..=19 => hold_back(rng, &mut task, &mut row),
        20..=34 => lead_on(rng, &mut task, &mut row),
        _ => {}
    }
    set_keys(&mut row, &task.estimates);
    (task, row)
}

/// A small task and a machine that a limited Take mostly answers otherwise than Take:
/// what the state with the smallest key depends on may have a greater one.
pub fn ranked_otherwise(rng: &mut Rng) -> (Task, Vec<u32>) {
    let n = rng.between(3, 12);
    let mut task = task_of(rng, n);
    task.head.k = rng.between(2, 8);
    task.head.pull = rng.between(1, task.head.excess);
    let mut row = made_up_row(rng, &task);
    hold_back(rng, &mut task, &mut row);
    set_keys(&mut row, &task.estimates);
    (task, row)
}

/// A task whose table, which calls do not check, may be anything.
fn made_up_task(rng: &mut Rng) -> Task {
    let n = match rng.below(100) {
        0..=74 => rng.between(1, 8),
        75..=97 => rng.between(9, 40),
        _ => rng.between(41, 256),
    };
    let mut task = task_of(rng, n);
    let highest = rng.pick(&[0, 3, 50, 1000, MAX_LABEL, u32::MAX]);
    if rng.percent(60) {
        task.estimates
            .iter_mut()
            .for_each(|h| *h = rng.up_to(highest));
    }
    task
}

fn made_up_row(rng: &mut Rng, task: &Task) -> Vec<u32> {
    let head = &task.head;
    let mut row = junk_row(rng);
    for (place, number) in row.iter_mut().zip(head.numbers()) {
        *place = number as u32;
    }
    row[PHASE] = rng.pick(&[0, 0, 0, 0, 1, 1, 1, 2]);
    row[HELD..][..head.k].fill(u32::from(NONE));
    let marks = rng.pick(&[[0, 1, 1, 3], [0, 0, 1, 3], [1, 1, 1, 1], [0, 0, 3, 3]]);
    let (lowest, spread) = rng.pick(&[
        (0, 0),
        (0, 3),
        (0, 20),
        (0, 1000),
        (0, MAX_LABEL),
        (MAX_LABEL - 3, 3),
    ]);
    for state in 0..head.n {
        row[MARKS + state] = rng.pick(&marks);
        row[LABELS + state] = lowest + rng.up_to(spread);
    }
    deal_out(rng, &mut row, head);
    link_back(rng, &mut row, task);
    row
}

/// A row of numbers that fit their fields and nothing else.
fn junk_row(rng: &mut Rng) -> Vec<u32> {
    let mut row = vec![0; ROW];
    if rng.percent(50) {
        row[MARKS..LABELS].fill_with(|| rng.up_to(255));
        row[LABELS..VIAS].fill_with(|| rng.up_to(u32::MAX));
        row[VIAS..KEYS].fill_with(|| rng.up_to(65_535));
        row[KEYS..].fill_with(|| rng.up_to(u32::MAX));
    } else {
        row[VIAS..KEYS].fill(u32::from(NONE));
    }
    row
}

/// Gives some workers a state each, which becomes out.
fn deal_out(rng: &mut Rng, row: &mut [u32], head: &Head) {
    let busy_percent = rng.pick(&[0, 30, 60, 100]);
    for worker in 0..head.k {
        let state = rng.below(head.n);
        if rng.percent(busy_percent) && row[MARKS + state] != u32::from(OUT) {
            row[MARKS + state] = u32::from(OUT);
            row[HELD + worker] = state as u32;
        }
    }
}

/// Makes a Take likely to wait: the search is on, what was unseen is open, and
/// some out states get label 0. Estimates are 0, so that a state depends on all
/// with lower labels, but for those to the goal, so that keys rank states
/// otherwise than labels do.
fn hold_back(rng: &mut Rng, task: &mut Task, row: &mut [u32]) {
    row[PHASE] = u32::from(SEARCHING);
    let height = rng.pick(&[1, 3, 20, 1000]);
    task.estimates.fill(0);
    for (state, estimates) in task.estimates.chunks_exact_mut(task.head.n).enumerate() {
        let mark = &mut row[MARKS + state];
        if *mark == u32::from(UNSEEN) {
            *mark = u32::from(OPEN);
        }
        if *mark == u32::from(OUT) && rng.percent(50) {
            row[LABELS + state] = 0;
        } else {
            row[LABELS + state] = 1 + rng.up_to(height);
            estimates[task.head.goal] = rng.up_to(height);
        }
    }
}

/// Gives most states a passage that ends there; in some machines the labels are
/// then made to add up along them, so that a path may be read.
fn link_back(rng: &mut Rng, row: &mut [u32], task: &Task) {
    let add_up = rng.percent(50);
    let rounds = if add_up { 3 } else { 1 };
    let keep_percent = rng.pick(&[0, 10, 50]);
    if add_up {
        row[LABELS + task.head.start] = 0;
    }
    for _ in 0..rounds {
        for (number, passage) in task.passages.chunks_exact(3).enumerate() {
            let to = passage[1] as usize;
            if rng.percent(keep_percent) || (add_up && to == task.head.start) {
                continue;
            }
            row[VIAS + to] = number as u32;
            if add_up {
                row[LABELS + to] = far_label(row[LABELS + passage[0] as usize], passage[2]);
            }
        }
    }
}

/// Makes a path as if it had been found: a chain of passages, blocked ones too,
/// from the start to wherever it ends, which becomes the goal.
fn lead_on(rng: &mut Rng, task: &mut Task, row: &mut [u32]) {
    let mut state = task.head.start;
    let mut met = vec![false; task.head.n];
    row[PHASE] = u32::from(FOUND);
    row[LABELS + state] = 0;
    for _ in 0..rng.between(1, 8) {
        met[state] = true;
        let passages = task.passages.chunks_exact(3).enumerate();
        let onward = passages.filter(|(_, p)| p[0] as usize == state && !met[p[1] as usize]);
        let onward: Vec<_> = onward.collect();
        if onward.is_empty() {
            break;
        }
        let (number, passage) = rng.pick(&onward);
        let to = passage[1] as usize;
        row[VIAS + to] = number as u32;
        row[LABELS + to] = far_label(row[LABELS + state], passage[2]);
        state = to;
    }
    task.head.goal = state;
    row[3] = state as u32;
}

/// Near label + cost, as far as labels go. Over a blocked passage it is the sum
/// that 32 bits make of it, one below the near label, should a desk add so.
fn far_label(near: u32, cost: u32) -> u32 {
    match cost {
        BLOCKED if near > 0 => near.wrapping_add(cost),
        _ => near.saturating_add(cost).min(MAX_LABEL),
    }
}

/// Changes one thing in a row, mostly so that it fits no longer.
fn damage_row(rng: &mut Rng, row: &mut Vec<u32>) {
    if row.len() != ROW {
        return;
    }
    let n = (row[0] as usize).clamp(1, 256);
    let k = (row[1] as usize).clamp(1, 32);
    let (state, worker) = (rng.below(n), rng.below(k));
    match rng.below(16) {
        0 => row[0] = rng.pick(&[0, 257, n as u32 + 1, u32::MAX]),
        1 => row[1] = rng.pick(&[0, 33, 32, u32::MAX]),
        2 => row[2 + rng.below(2)] = rng.pick(&[n as u32, 255, 65_535, u32::MAX]),
        3 => row[4] = rng.pick(&[row[5].saturating_add(1), 10_000, 65_535, 65_536]),
        4 => row[5] = rng.pick(&[0, 99, 100, 10_000, 10_001, 65_535, 65_536, u32::MAX]),
        5 => row[PHASE] = rng.pick(&[1, 2, 3, 255, 256, u32::MAX]),
        6 => row[MARKS + state] = rng.up_to(3),
        7 => row[MARKS + state] = rng.pick(&[4, 255, 256, u32::MAX]),
        8 => row[LABELS + state] = rng.pick(&[MAX_LABEL, MAX_LABEL + 1, u32::MAX]),
        9 => row[VIAS + state] = rng.pick(&[65_534, 65_535, 65_536, 4096, u32::MAX]),
        10 => row[HELD + worker] = state as u32,
        11 => row[HELD + worker] = rng.pick(&[n as u32, 256, 65_534, 65_535, 65_536]),
        12 => row[HELD + worker] = some_held(row, k),
        13 => row[HELD + rng.below(32)] = rng.pick(&[state as u32, 65_535, 65_536]),
        14 => row[MARKS + rng.below(256)] = rng.pick(&[1, 255, 256]),
        _ => row.resize(rng.pick(&[0, 1, 807, ROW - 1, ROW + 1, 2 * ROW]), 0),
    }
}

/// A state that a worker below k holds, if one does.
fn some_held(row: &[u32], k: usize) -> u32 {
    let held = row[HELD..][..k].iter().copied();
    held.min().unwrap_or(u32::from(NONE))
}

fn damage_slices(rng: &mut Rng, task: &mut Task) {
    match rng.below(3) {
        0 => break_passage(rng, task),
        1 => task
            .passages
            .resize(rng.pick(&[0, 1, 3 * MAX_PASSAGES + 3]), 0),
        _ => task.estimates.resize(rng.pick(&[0, 1, 4, 65_536]), 0),
    }
}

/// A change to a machine whose path was found, or to its task, for reading that
/// path; the keys are mostly right for it.
pub fn damage_found(rng: &mut Rng, row: &mut [u32], task: &mut Task) {
    let n = task.head.n;
    let state = rng.below(n);
    let passages = task.passages.len() / 3;
    match rng.below(10) {
        0 => row[VIAS + state] = rng.below(passages + 2) as u32,
        1 => row[VIAS + task.head.goal] = rng.pick(&[passages as u32, 65_535]),
        2 => row[LABELS + state] = row[LABELS + state].saturating_sub(1),
        3 => row[LABELS + state] += 1,
        4 => row[LABELS + task.head.start] += 1,
        5 => row[2 + rng.below(2)] = state as u32,
        6 => row[MARKS + state] = rng.pick(&[0, 1, 3]),
        7 => block(row, task, state),
        8 => block(row, task, task.head.goal),
        _ => {
            block(row, task, task.head.goal);
            lower_goal(row, task);
        }
    }
    if rng.percent(85) {
        set_keys(row, &task.estimates);
    }
}

/// Blocks the passage that a state came by, if there is one.
fn block(row: &[u32], task: &mut Task, state: usize) {
    let first = 3 * row[VIAS + state] as usize;
    if let Some(cost) = task.passages.get_mut(first + 2) {
        *cost = BLOCKED;
    }
}

/// Makes the goal's label the sum that 32 bits make over the passage it came by.
fn lower_goal(row: &mut [u32], task: &Task) {
    let goal = task.head.goal;
    let first = 3 * row[VIAS + goal] as usize;
    if let Some(passage) = task.passages.get(first..first + 3) {
        row[LABELS + goal] = far_label(row[LABELS + passage[0] as usize], passage[2]);
    }
}

// ---- Task files ----

/// A record of a task file; `length` is what it says of its payload.
#[derive(Clone)]
struct Record {
    length: u16,
    kind: u16,
    payload: Vec<u8>,
}

impl Record {
    fn new(kind: u16, payload: Vec<u8>) -> Record {
        Record {
            length: payload.len() as u16,
            kind,
            payload,
        }
    }

    fn call(action: Action, worker: u8) -> Record {
        Record::new(4, vec![(action == Action::Bring) as u8, worker])
    }
}

/// A task file, whole or damaged.
pub fn file(rng: &mut Rng) -> Vec<u8> {
    let mut records = file_records(rng);
    if rng.percent(50) {
        for _ in 0..rng.pick(&[1, 1, 1, 2, 3]) {
            damage_records(rng, &mut records);
        }
    }
    let mut file = bytes_of(&records);
    if rng.percent(20) {
        damage_bytes(rng, &mut file);
    }
    file
}

/// The file of a task and calls.
pub fn file_of(task: &Task, calls: &[(Action, u8)]) -> Vec<u8> {
    let mut records = task_records(task);
    records.extend(
        calls
            .iter()
            .map(|&(action, worker)| Record::call(action, worker)),
    );
    bytes_of(&records)
}

fn bytes_of(records: &[Record]) -> Vec<u8> {
    let mut bytes = Vec::new();
    for record in records {
        bytes.extend(record.length.to_le_bytes());
        bytes.extend(record.kind.to_le_bytes());
        bytes.extend(&record.payload);
    }
    bytes
}

fn file_records(rng: &mut Rng) -> Vec<Record> {
    let n = match rng.below(100) {
        0..=79 => rng.between(1, 6),
        80..=95 => rng.between(7, 20),
        _ => rng.pick(&[21, 40, 63, 64]),
    };
    let mut task = task_of(rng, n);
    task.passages.truncate(3 * 512);
    if rng.percent(8) {
        damage_head(rng, &mut task.head);
    }
    let mut records = task_records(&task);
    records.extend(file_calls(rng, &task));
    records
}

fn task_records(task: &Task) -> Vec<Record> {
    let head = &task.head;
    let numbers = head.numbers().map(|number| number as u16).into_iter();
    let mut records = vec![Record::new(1, numbers.flat_map(u16::to_le_bytes).collect())];
    for p in task.passages.chunks_exact(3) {
        let ends = [p[0] as u16, p[1] as u16]
            .into_iter()
            .flat_map(u16::to_le_bytes);
        records.push(Record::new(2, ends.chain(p[2].to_le_bytes()).collect()));
    }
    for (number, row) in task.estimates.chunks_exact(head.n).enumerate() {
        let mut payload = (number as u16).to_le_bytes().to_vec();
        payload.extend(row.iter().flat_map(|h| h.to_le_bytes()));
        records.push(Record::new(3, payload));
    }
    records
}

/// Calls on the machine that opening hands back; a few files are filled up with
/// calls to about their greatest length.
fn file_calls(rng: &mut Rng, task: &Task) -> Vec<Record> {
    let count = match rng.below(300) {
        0 => 9000,
        _ => rng.between(0, 5 * task.head.n + 10),
    };
    let mut row = vec![0; ROW];
    Independent.open(task, &mut row);
    let calls = calls_on(rng, &row, task.graph(), count, 255).into_iter();
    calls
        .map(|(action, worker)| Record::call(action, worker as u8))
        .collect()
}

/// Changes that the reader lets pass, all but n, and opening refuses.
fn damage_head(rng: &mut Rng, head: &mut Head) {
    match rng.below(4) {
        0 => head.k = rng.pick(&[0, 33, 65_535]),
        1 => head.start = rng.pick(&[head.n, 65_535]),
        2 => head.goal = rng.pick(&[head.n, 65_535]),
        _ => break_weights(rng, head),
    }
}

fn damage_records(rng: &mut Rng, records: &mut Vec<Record>) {
    if records.is_empty() {
        return;
    }
    let (i, j) = (rng.below(records.len()), rng.below(records.len()));
    match rng.below(14) {
        0 => drop(records.remove(i)),
        1 => records.insert(i, records[j].clone()),
        2 => records.swap(i, j),
        3 => records[i].kind = rng.pick(&[0, 1, 2, 3, 4, 5, 256, 65_535]),
        4 => records[i].length = rng.pick(&[0, 1, 2, 8, 12, 255, 65_535]),
        5 => lengthen(rng, &mut records[i]),
        6 => shorten(&mut records[i]),
        7 => records.truncate(i),
        8 => drop(records.remove(0)),
        9 => records.insert(rng.pick(&[0, 1, j]), records[0].clone()),
        10 => set_states(rng, &mut records[0]),
        11 => damage_call(rng, records),
        12 => add_passages(rng, records),
        _ => swap_rows(rng, records),
    }
}

fn lengthen(rng: &mut Rng, record: &mut Record) {
    record.payload.push(rng.next() as u8);
    record.length = record.length.wrapping_add(1);
}

fn shorten(record: &mut Record) {
    if record.payload.pop().is_some() {
        record.length = record.length.wrapping_sub(1);
    }
}

/// Sets the n of a head, which may also become too long.
fn set_states(rng: &mut Rng, head: &mut Record) {
    let n = rng.pick(&[0, 1, 2, 64, 65, 256, 65_535_u16]);
    if let Some(places) = head.payload.get_mut(..2) {
        places.copy_from_slice(&n.to_le_bytes());
    }
    if rng.percent(20) {
        lengthen(rng, head);
    }
}

fn damage_call(rng: &mut Rng, records: &mut [Record]) {
    let calls: Vec<_> = (0..records.len())
        .filter(|&i| records[i].kind == 4)
        .collect();
    if !calls.is_empty() {
        let record = &mut records[rng.pick(&calls)];
        if let Some(place) = record.payload.first_mut() {
            *place = rng.pick(&[0, 1, 2, 3, 255]);
        }
    }
}

/// Adds passages, up to about the number that is allowed; the last may be one
/// of a wrong length.
fn add_passages(rng: &mut Rng, records: &mut Vec<Record>) {
    let there = records.iter().filter(|r| r.kind == 2).count();
    let wanted = rng.pick(&[there + 1, 512, 513, 514]);
    for _ in there..wanted {
        records.insert(1, Record::new(2, vec![0; 8]));
    }
    if let Some(last) = records.iter_mut().rfind(|r| r.kind == 2) {
        if rng.percent(30) {
            lengthen(rng, last);
        }
    }
}

fn swap_rows(rng: &mut Rng, records: &mut [Record]) {
    let rows: Vec<_> = (0..records.len())
        .filter(|&i| records[i].kind == 3)
        .collect();
    if !rows.is_empty() {
        records.swap(rng.pick(&rows), rng.pick(&rows));
    }
}

fn damage_bytes(rng: &mut Rng, file: &mut Vec<u8>) {
    match rng.below(8) {
        0..=2 => file.truncate(rng.between(0, file.len())),
        3 => file.extend(vec![0; rng.between(1, 5)]),
        4 => fill_up(file, rng.pick(&[MAX_FILE - 1, MAX_FILE, MAX_FILE + 1])),
        5 => file.resize(rng.pick(&[0, MAX_FILE, MAX_FILE + 1, MAX_FILE + 5000]), 0),
        _ if file.is_empty() => file.push(1),
        _ => {
            let place = rng.below(file.len());
            file[place] = rng.next() as u8;
        }
    }
}

/// Adds calls as long as they fit, then bytes, up to a length.
fn fill_up(file: &mut Vec<u8>, length: usize) {
    while file.len() + 6 <= length {
        file.extend([2, 0, 4, 0, 0, 0]);
    }
    file.resize(length.max(file.len()), 4);
}
