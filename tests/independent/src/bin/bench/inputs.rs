//! What the lines are timed on: tasks, rows in mid-search, lists of calls, files and
//! maps.

use independent::desk::{Action, Head, Task, FINISHED, NONE, OPEN, OUT};
use independent::maker::{self, Rng};
use independent::rows::{HELD, KEYS, LABELS, MARKS, ROW, VIAS};
use independent::taskfile::MAX_FILE;

/// States on a map, estimates their distances by street, passages not below
/// them; from one corner to the other.
pub fn map_task(n: usize, passages: usize, k: usize) -> Task {
    let mut rng = Rng::new(5, n as u64);
    let mut points: Vec<[usize; 2]> = (0..n).map(|_| [rng.below(1000), rng.below(1000)]).collect();
    points.sort_by_key(|point| point[0] + point[1]);
    let distance = |a: usize, b: usize| {
        let apart = |axis: usize| points[a][axis].abs_diff(points[b][axis]) as u32;
        apart(0) + apart(1)
    };
    let mut list = Vec::new();
    for number in 0..passages {
        let a = if number < n { number } else { rng.below(n) };
        let b = (a + rng.below(10)).saturating_sub(4).min(n - 1);
        list.extend([a as u32, b as u32, distance(a, b) + rng.up_to(50)]);
    }
    let head = Head {
        n,
        k,
        start: 0,
        goal: n - 1,
        pull: 100,
        excess: 100,
    };
    let estimates = (0..n * n)
        .map(|place| distance(place / n, place % n))
        .collect();
    Task {
        head,
        passages: list,
        estimates,
    }
}

pub fn opened_row(task: &Task) -> Vec<u32> {
    let mut row = vec![0; ROW];
    let head = &task.head;
    for (place, number) in row.iter_mut().zip(head.numbers()) {
        *place = number as u32;
    }
    row[MARKS + head.start] = u32::from(OPEN);
    row[VIAS..KEYS].fill(u32::from(NONE));
    maker::set_keys(&mut row, &task.estimates);
    row
}

/// A machine in mid-search: all workers but the last hold a state, up to `open`
/// other states are open, the rest is finished.
pub fn spread_row(task: &Task, open: usize) -> Vec<u32> {
    let mut row = opened_row(task);
    let Head { n, k, start, .. } = task.head;
    for state in 0..n {
        let order = (state * 37 + 11) % n;
        row[LABELS + state] = task.estimates[start * n + state] + 40 + (order % 20) as u32;
        row[MARKS + state] = u32::from(match order {
            _ if order < k - 1 => OUT,
            _ if order < k - 1 + open => OPEN,
            _ => FINISHED,
        });
        if order < k - 1 {
            row[HELD + order] = state as u32;
        }
    }
    maker::set_keys(&mut row, &task.estimates);
    row
}

/// A task and calls whose search goes on to the last call: worker 0 holds the
/// start, and all others wait.
pub fn searching_task() -> Task {
    let mut task = map_task(63, 512, 32);
    task.estimates.fill(0);
    task
}

pub fn searching_call(number: usize) -> (Action, u8) {
    match number {
        0 => (Action::Take, 0),
        _ => (Action::Take, 1 + (number % 31) as u8),
    }
}

/// A task and calls whose search ends early: the other calls are refused.
pub fn ended_task() -> Task {
    map_task(63, 512, 8)
}

pub fn ended_call(number: usize) -> (Action, u8) {
    let action = match number / 8 % 2 {
        0 => Action::Take,
        _ => Action::Bring,
    };
    (action, (number % 8) as u8)
}

/// A file of a task, filled up with calls.
fn full_file(task: &Task, call: fn(usize) -> (Action, u8)) -> Vec<u8> {
    let bare = maker::file_of(task, &[]).len();
    let calls: Vec<_> = (0..(MAX_FILE - bare) / 6).map(call).collect();
    maker::file_of(task, &calls)
}

pub fn searching_file() -> Vec<u8> {
    full_file(&searching_task(), searching_call)
}

/// The same with a wrong last call, so that it is read to its end only.
pub fn faulty_file() -> Vec<u8> {
    let mut file = searching_file();
    let last = file.len() - 2;
    file[last] = 2;
    file
}

pub fn ended_file() -> Vec<u8> {
    full_file(&ended_task(), ended_call)
}

/// A map with an open room of 16 x 16, or as much of it as there is, in the left
/// upper corner.
pub fn map_text(height: usize, width: usize) -> String {
    let mut text = format!("type octile\nheight {height}\nwidth {width}\nmap\n");
    for row in 0..height {
        let open = if row < 16 { width.min(16) } else { 0 };
        text += &format!("{}{}\n", ".".repeat(open), "@".repeat(width - open));
    }
    text
}
