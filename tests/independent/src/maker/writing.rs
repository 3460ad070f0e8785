//! Random tasks and lists of events to be written as task files, such as a file can
//! carry and others, and buffers for them.

use super::{task_of, Rng};
use crate::desk::Task;
use crate::taskfile::MAX_FILE;

/// A task and events by number: most a file can carry, some are just long enough or
/// too long for one.
pub fn writing(rng: &mut Rng) -> (Task, Vec<u32>) {
    let mut task = carried_task(rng);
    let count = match rng.below(25) {
        // only with n a multiple of 3 can a file have just 65,536 bytes
        0 => {
            let n = 3 * rng.between(1, 4);
            task = wild_task(rng, n);
            full_count(&task) + rng.below(3) - 1
        }
        1 => full_count(&task) + rng.pick(&[0, 1, 700]),
        2 | 3 => 0,
        _ => rng.between(1, 30),
    };
    let mut events: Vec<_> = (0..count)
        .map(|_| 65_536 * rng.up_to(1) + rng.up_to(255))
        .collect();
    if rng.percent(45) {
        for _ in 0..rng.pick(&[1, 1, 1, 1, 2]) {
            damage(rng, &mut task, &mut events);
        }
    }
    (task, events)
}

/// A buffer with something in each place for a file of this many bytes, or too
/// short for it.
pub fn file_buffer(rng: &mut Rng, length: usize) -> Vec<u8> {
    let len = match rng.below(8) {
        0 => length.saturating_sub(1),
        1 => 0,
        2 => rng.between(0, length),
        3 => rng.pick(&[length.max(MAX_FILE), length + 7, length + 4096]),
        4 | 5 => length,
        _ => length + rng.between(1, 60),
    };
    (0..len).map(|_| rng.next() as u8).collect()
}

/// The bytes of a file of this task, before its events.
fn bare_length(task: &Task) -> usize {
    let n = task.head.n;
    16 + 12 * (task.passages.len() / 3) + n * (6 + 4 * n)
}

/// How many events a file of this task has room for.
fn full_count(task: &Task) -> usize {
    (MAX_FILE - bare_length(task)) / 6
}

/// A task that a file can carry: one that opening accepts, or any.
fn carried_task(rng: &mut Rng) -> Task {
    let n = match rng.below(100) {
        0..=84 => rng.between(1, 8),
        85..=95 => rng.between(9, 30),
        _ => rng.pick(&[63, 64]),
    };
    if rng.percent(40) {
        return wild_task(rng, n);
    }
    let mut task = task_of(rng, n);
    task.passages.truncate(3 * 512);
    task
}

/// A task of n states whose other numbers are any that their bytes can carry.
fn wild_task(rng: &mut Rng, n: usize) -> Task {
    let mut task = task_of(rng, n);
    let any = rng.below(65_536);
    let head = &mut task.head;
    for number in [
        &mut head.k,
        &mut head.start,
        &mut head.goal,
        &mut head.pull,
        &mut head.excess,
    ] {
        *number = rng.pick(&[0, 1, 255, 256, 65_535, any, n]);
    }
    let passages = match rng.below(20) {
        0 => rng.pick(&[511, 512]),
        _ => rng.between(0, 12),
    };
    task.passages = (0..passages)
        .flat_map(|_| {
            let [from, to] = [rng.up_to(65_535), rng.up_to(65_535)];
            let cost = rng.up_to(u32::MAX);
            [rng.pick(&[from, 65_535]), rng.pick(&[to, 0]), cost]
        })
        .collect();
    task.estimates.fill_with(|| rng.up_to(u32::MAX));
    task
}

/// Changes one thing so that a file can't carry it; a field above its bytes mostly
/// such that what is left of it, cut to them, would do. Each clause has its chance.
fn damage(rng: &mut Rng, task: &mut Task, events: &mut Vec<u32>) {
    match rng.below(16) {
        0 => {
            let odd = rng.between(1, 2);
            task.passages.extend(vec![0; odd]);
        }
        1 => task.passages.resize(3 * rng.pick(&[513, 514, 4096]), 0),
        2 => damage_estimates(rng, task),
        3..=7 => damage_field(rng, task),
        8 | 9 => damage_end(rng, task),
        10..=13 => damage_states(rng, task),
        14 => damage_event(rng, events, |rng, event| {
            let high = 256 * rng.between(1, 255) as u32;
            event | rng.pick(&[256, 32_768, high])
        }),
        _ => damage_event(rng, events, |rng, event| {
            let high = 65_536 * rng.between(2, 65_535) as u32;
            event & 65_535 | rng.pick(&[131_072, 196_608, 1 << 31, high])
        }),
    }
}

/// Another n: mostly with as many estimates as n × n is, cut to 64 bits.
fn damage_states(rng: &mut Rng, task: &mut Task) {
    let looks_good = task.head.n | 1 << rng.pick(&[16, 32, 63]);
    let n = rng.pick(&[0, 65, 66, 256, 1 << 32, 1 << 63, usize::MAX, looks_good]);
    task.head.n = n;
    let squared = n.wrapping_mul(n);
    if squared <= 65_536 && rng.percent(80) {
        task.estimates.resize(squared, 0);
    }
}

fn damage_estimates(rng: &mut Rng, task: &mut Task) {
    match rng.below(3) {
        0 => task.estimates.push(0),
        1 => drop(task.estimates.pop()),
        _ => task.estimates.resize(rng.pick(&[0, 4096, 65_536]), 0),
    }
}

fn damage_field(rng: &mut Rng, task: &mut Task) {
    let head = &mut task.head;
    let fields = [
        &mut head.k,
        &mut head.start,
        &mut head.goal,
        &mut head.pull,
        &mut head.excess,
    ];
    let place = rng.below(fields.len());
    for field in fields.into_iter().skip(place).take(1) {
        let looks_good = *field | 1 << rng.pick(&[16, 17, 31, 32, 63]);
        *field = rng.pick(&[65_536, usize::MAX, looks_good, looks_good]);
    }
}

/// Makes an end of a passage too large; adds the passage where there is none.
fn damage_end(rng: &mut Rng, task: &mut Task) {
    if task.passages.len() < 3 {
        task.passages = vec![0, 0, 1];
    }
    let end = 3 * rng.below(task.passages.len() / 3) + rng.below(2);
    task.passages[end] |= 1 << rng.pick(&[16, 17, 31]);
}

/// Changes an event, or adds one that is changed.
fn damage_event(rng: &mut Rng, events: &mut Vec<u32>, change: fn(&mut Rng, u32) -> u32) {
    if events.is_empty() {
        events.push(0);
    }
    let place = rng.below(events.len());
    events[place] = change(rng, events[place]);
}
