//! The cases of order 6: tasks and lists written as files, and files read.

use crate::demand::files::lengths;
use crate::desks::{Checked, Desks};
use crate::maker::{self, Rng};
use crate::rows::{Independent, RowDesk};
use crate::tally::Met;
use crate::taskfile::{CLAUSES, NUMBERS};

/// A task and a list, written to buffers that may be too short; the file is read
/// again, alone and with what stands behind it in the buffer.
pub fn written(desks: &mut Desks, rng: &mut Rng) -> Checked<()> {
    let (task, events) = maker::writing(rng);
    let mut room = vec![0; 2 * 65_536];
    let length = match Independent.file_write(&task, &events, &mut room) {
        length if length <= 65_536 => length as usize,
        _ => rng.pick(&[0, 40, 65_536, 65_542]),
    };
    for _ in 0..3 {
        let mut buffer = maker::file_buffer(rng, length);
        if let Ok(length) = desks.file_write(&task, &events, &mut buffer)? {
            read(desks, rng, &buffer[..length])?;
            read(desks, rng, &buffer)?;
        }
    }
    Ok(())
}

/// A file, whole or damaged.
pub fn any_file(desks: &mut Desks, rng: &mut Rng) -> Checked<()> {
    let file = maker::file(rng);
    for _ in 0..2 {
        read(desks, rng, &file)?;
    }
    Ok(())
}

/// A file read into slices that may be too short for it.
fn read(desks: &mut Desks, rng: &mut Rng, file: &[u8]) -> Checked<()> {
    let lengths = lengths(file).unwrap_or([NUMBERS, 18, 25, 13]);
    let mut lent = lengths.map(|length| maker::lent(rng, length));
    desks.file_read(file, &mut lent).map(drop)
}

/// What is to be met of order 6: the calls, words and numbers of a tally.
pub fn to_meet() -> impl Iterator<Item = Met> {
    let clauses = CLAUSES.iter().map(|c| ("file_write-24", c.name, 0));
    let refusals = [25, 26].map(|number| ("file_write", "refused", number));
    let faults = [21, 22, 23].map(|number| ("file_read", "fault", number));
    let slices = ["numbers", "passages", "estimates", "events"];
    let slices = slices.map(|name| ("file_read-27", name, 0));
    clauses.chain(refusals).chain(faults).chain(slices)
}
