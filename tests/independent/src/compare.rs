//! The comparison, case by case: the same random calls go to both desks.
//! Replies on accepted tasks are also held against demand 3.

use crate::demand::Watch;
use crate::desk::{Action, Reply, Task, FOUND};
use crate::desks::{Checked, Desks};
use crate::maker::{self, Rng};
use crate::rows::{self, Independent, RowDesk, PHASE, PRINT_ROOM, ROW};
use crate::tally::Tally;

mod files;
mod keys;
mod limited;
mod maps;

/// What so many cases must have met of orders 6 and 8, and haven't: none of it was
/// compared then.
pub fn unmet(tally: &Tally, cases: u64) -> Vec<String> {
    if cases < 10_000 {
        return vec![];
    }
    let all = files::to_meet().chain(keys::to_meet());
    all.filter(|&(call, word, number)| tally.count(call, word, number) == 0)
        .map(|(call, word, number)| format!("{call} {word} {number} was never met"))
        .collect()
}

/// Runs one case; says what differs or goes against demand 3 or an order.
pub fn run_case(desks: &mut Desks, seed: u64, case: u64) -> Checked<()> {
    let mut rng = Rng::new(seed, case);
    match rng.below(130) {
        0..=37 => {
            let task = maker::task(&mut rng);
            search(desks, &mut rng, &task)
        }
        38..=50 => refused_opening(desks, &mut rng),
        51..=66 => made_up(desks, &mut rng),
        67..=80 => file(desks, &mut rng),
        81..=86 => mornings(desks, &mut rng),
        87..=91 => made_up_mornings(desks, &mut rng),
        92..=99 => maps::map(desks, &mut rng),
        100..=106 => files::written(desks, &mut rng),
        107..=111 => files::any_file(desks, &mut rng),
        112..=117 => limited::ranked_otherwise(desks, &mut rng),
        _ => keys::changed(desks, &mut rng),
    }
}

/// An accepted task, calls until it ends and a little on, and path readings.
fn search(desks: &mut Desks, rng: &mut Rng, task: &Task) -> Checked<()> {
    let mut row = junk(ROW);
    desks.expect_opened(task, &mut row)?;
    let mut watch = Watch::new(task);
    let eager_percent = rng.between(30, 100);
    let mut calls_left = rng.pick(&[6, 20, 20]) * task.head.n + 10;
    while calls_left > 0 {
        let call = maker::call(rng, &row, eager_percent);
        let reply = limited::call(desks, rng, call, &mut row, task.graph(), true)?;
        watch.see(reply)?;
        watch.see_keys(&row)?;
        if let Reply::Brought(_) = reply {
            watch.see_labels(&row)?;
        }
        if rng.percent(3) {
            watch.see(read_path(desks, rng, &row, task)?)?;
        }
        match reply {
            Reply::Found(cost) => {
                check_path(desks, &watch, &row, task, cost)?;
                calls_left = calls_left.min(2);
            }
            Reply::NoPath => calls_left = calls_left.min(2),
            _ => calls_left -= 1,
        }
    }
    for _ in 0..3 {
        watch.see(read_path(desks, rng, &row, task)?)?;
    }
    read_damaged(desks, rng, row, task)
}

/// Readings of a found path after some damage.
fn read_damaged(desks: &mut Desks, rng: &mut Rng, mut row: Vec<u32>, task: &Task) -> Checked<()> {
    if row[PHASE] == u32::from(FOUND) {
        let mut task = task.clone();
        for _ in 0..3 {
            maker::damage_found(rng, &mut row, &mut task);
            read_path(desks, rng, &row, &task)?;
        }
    }
    Ok(())
}

/// Holds the path after Found against demand 3.
fn check_path(
    desks: &mut Desks,
    watch: &Watch,
    row: &[u32],
    task: &Task,
    cost: u32,
) -> Checked<()> {
    let mut buffer = vec![0; task.head.n];
    match desks.path(row, task.graph(), &mut buffer, 0)? {
        Reply::Read(count) => watch.see_path(row, &buffer[..count as usize], cost),
        reply => Err(format!("path after Found gives {reply:?}")),
    }
}

/// A reading into a random buffer from a random place on.
fn read_path(desks: &mut Desks, rng: &mut Rng, row: &[u32], task: &Task) -> Checked<Reply> {
    let mut states = vec![0; task.head.n];
    let count = match Independent.path(row, task.graph(), &mut states, 0) {
        code if code >> 32 == 6 => code as u32 as usize,
        _ => rng.below(9),
    };
    let (mut buffer, at) = maker::buffer(rng, count);
    desks.path(row, task.graph(), &mut buffer, at)
}

/// A task with something wrong, a row that may have another length, and calls
/// on what opening hands back.
fn refused_opening(desks: &mut Desks, rng: &mut Rng) -> Checked<()> {
    let task = maker::broken_task(rng);
    let len = match rng.below(20) {
        0 => rng.pick(&[0, 807, ROW - 1, ROW + 1]),
        _ => ROW,
    };
    let mut row = junk(len);
    desks.open(&task, &mut row)?;
    if len != ROW {
        return Ok(());
    }
    for _ in 0..2 {
        let call = maker::call(rng, &row, 90);
        limited::call(desks, rng, call, &mut row, task.graph(), false)?;
    }
    Ok(())
}

/// Calls and readings on a machine that no calls need have led to.
fn made_up(desks: &mut Desks, rng: &mut Rng) -> Checked<()> {
    let (task, mut row) = maker::made_up(rng);
    desks.show(|| format!("made-up machine {row:?} of {task:?}"));
    for _ in 0..rng.between(1, 8) {
        if rng.percent(35) {
            read_path(desks, rng, &row, &task)?;
        } else {
            let call = match row.len() {
                ROW => maker::call(rng, &row, 80),
                _ => (rng.pick(&[Action::Take, Action::Bring]), rng.below(3)),
            };
            limited::call(desks, rng, call, &mut row, task.graph(), false)?;
        }
    }
    Ok(())
}

/// An accepted task whose calls all come in mornings.
fn mornings(desks: &mut Desks, rng: &mut Rng) -> Checked<()> {
    let task = maker::task(rng);
    let mut row = junk(ROW);
    desks.expect_opened(&task, &mut row)?;
    let mut watch = Watch::new(&task);
    for _ in 0..rng.between(1, 4) {
        for reply in serve_morning(desks, rng, &mut row, &task)? {
            watch.see(reply)?;
            if let Reply::Found(cost) = reply {
                check_path(desks, &watch, &row, &task, cost)?;
            }
        }
        watch.see_labels(&row)?;
        watch.see_keys(&row)?;
    }
    Ok(())
}

/// Mornings on a machine that no calls need have led to.
fn made_up_mornings(desks: &mut Desks, rng: &mut Rng) -> Checked<()> {
    let (task, mut row) = maker::made_up(rng);
    desks.show(|| format!("made-up machine {row:?} of {task:?}"));
    for _ in 0..rng.between(1, 3) {
        serve_morning(desks, rng, &mut row, &task)?;
    }
    Ok(())
}

/// A random morning: the replies to its events, none where it was refused.
fn serve_morning(
    desks: &mut Desks,
    rng: &mut Rng,
    row: &mut [u32],
    task: &Task,
) -> Checked<Vec<Reply>> {
    let (events, mut replies) = maker::morning(rng, row, task.graph());
    match desks.morning(row, task.graph(), &events, &mut replies)? {
        Reply::Done => replies.truncate(events.len()),
        _ => replies.clear(),
    }
    Ok(replies.into_iter().filter_map(rows::reply).collect())
}

/// The text printed for a task file, with room enough and too little of it.
fn file(desks: &mut Desks, rng: &mut Rng) -> Checked<()> {
    let file = maker::file(rng);
    desks.show(|| format!("file {file:?}"));
    let room = match rng.below(50) {
        0 => rng.pick(&[0, 1, PRINT_ROOM - 1]),
        1 => PRINT_ROOM + 1,
        _ => PRINT_ROOM,
    };
    desks.print(&file, room)
}

fn junk(len: usize) -> Vec<u32> {
    (1..=len as u32)
        .map(|i| i.wrapping_mul(0x9e37_79b1))
        .collect()
}
