//! The sample maps: each NAME.map of a folder must come to what NAME.counts says,
//! `CELLS PASSAGES` or `refused NUMBER`. And the sample task files: each NAME.task
//! that reads without fault must be written back byte for byte.

use crate::demand::files::{lengths, what_was_read};
use crate::desk::{MAX_PASSAGES, MAX_STATES};
use crate::desks::{Checked, Desks};
use crate::rows;
use crate::taskfile::NUMBERS;
use std::fs;
use std::path::{Path, PathBuf};

/// How many maps of a folder are as expected, and what is wrong with the others.
pub fn check_maps(desks: &mut Desks, folder: &Path) -> Checked<(usize, Vec<String>)> {
    let (mut as_expected, mut faults) = (0, Vec::new());
    for path in named(folder, "map")? {
        match check_map(desks, &path) {
            Ok(()) => as_expected += 1,
            Err(fault) => faults.push(format!("{}: {fault}", path.display())),
        }
    }
    Ok((as_expected, faults))
}

/// The files of a folder with this ending, in order.
fn named(folder: &Path, ending: &str) -> Checked<Vec<PathBuf>> {
    let entries = fs::read_dir(folder).and_then(|entries| {
        let paths = entries.map(|entry| entry.map(|entry| entry.path()));
        paths.collect::<std::io::Result<Vec<_>>>()
    });
    let mut paths = entries.map_err(|error| format!("{}: {error}", folder.display()))?;
    paths.retain(|path| path.extension().map_or(false, |other| other == ending));
    paths.sort();
    Ok(paths)
}

fn check_map(desks: &mut Desks, path: &Path) -> Checked<()> {
    let text = fs::read(path).map_err(|error| error.to_string())?;
    let expected = fs::read_to_string(path.with_extension("counts"))
        .map_err(|error| format!("its counts: {error}"))?;
    let mut passages = vec![0; 3 * MAX_PASSAGES];
    let mut estimates = vec![0; MAX_STATES * MAX_STATES];
    let read = desks.map(&text, &mut passages, &mut estimates)?;
    let counts = rows::show_map(read);
    match counts == expected.trim_end() {
        true => Ok(()),
        false => Err(format!("is {counts}, not {}", expected.trim_end())),
    }
}

/// How many task files of a folder were written back, how many have a fault, and
/// what is wrong with the others.
pub fn check_tasks(desks: &mut Desks, folder: &Path) -> Checked<(usize, usize, Vec<String>)> {
    let (mut written, mut with_fault, mut wrong) = (0, 0, Vec::new());
    for path in named(folder, "task")? {
        match check_task(desks, &path) {
            Ok(true) => written += 1,
            Ok(false) => with_fault += 1,
            Err(fault) => wrong.push(format!("{}: {fault}", path.display())),
        }
    }
    Ok((written, with_fault, wrong))
}

/// Whether a file has no fault; it is then written back, with bytes behind it.
fn check_task(desks: &mut Desks, path: &Path) -> Checked<bool> {
    let file = fs::read(path).map_err(|error| error.to_string())?;
    let mut lent = lengths(&file)
        .unwrap_or([NUMBERS, 0, 0, 0])
        .map(|length| vec![0; length]);
    if desks.file_read(&file, &mut lent)?.is_some() {
        return Ok(false);
    }
    let (task, events) = what_was_read(&lent)?;
    let mut buffer = vec![7; file.len() + 9];
    match desks.file_write(&task, &events, &mut buffer)? {
        Ok(length) if length == file.len() && buffer == [&file[..], &[7; 9]].concat() => Ok(true),
        Ok(length) => Err(format!("is written otherwise, with {length} bytes")),
        Err(number) => Err(format!("is refused with {number}")),
    }
}
