//! Task files, written and read by both desks.

use super::{same_number, Checked, Desks, Guarded};
use crate::demand;
use crate::desk::Task;
use crate::rows::{self, Independent, RowDesk};
use crate::taskfile::{Fault, Lent, CLAUSES, NUMBERS};

/// The lent slices by name.
const SLICES: [&str; 4] = ["numbers", "passages", "estimates", "events"];

impl Desks<'_> {
    /// A task and events written as a file: its length, or the refusal. What was
    /// written is held against order 6.
    pub fn file_write(
        &mut self,
        task: &Task,
        events: &[u32],
        buffer: &mut [u8],
    ) -> Checked<Result<usize, u32>> {
        self.show(|| format!("write {events:?} of {task:?} to {} bytes", buffer.len()));
        let none: &mut [u8] = &mut [];
        let call = |desk: &dyn RowDesk, buffer: &mut [u8], _: &mut [u8]| {
            desk.file_write(task, events, buffer)
        };
        let number = self.both_lent("file_write", rows::show_written, (buffer, none), call)?;
        let written = rows::written(number);
        self.tally.add_written(written.err());
        self.count_clause(task, events);
        if let Ok(length) = written {
            demand::files::see_written(self.checked(), task, events, &buffer[..length])?;
        }
        Ok(written)
    }

    /// Counts the clause of 24 that applies alone, if one does.
    fn count_clause(&mut self, task: &Task, events: &[u32]) {
        let mut clauses = CLAUSES.iter().filter(|c| (c.applies)(task, events));
        if let (Some(clause), None) = (clauses.next(), clauses.next()) {
            self.tally.add_clause(clause.name);
        }
    }

    /// A file read into lent slices: nothing, or the fault. What was read is held
    /// against order 6.
    pub fn file_read(&mut self, file: &[u8], lent: &mut [Vec<u32>; 4]) -> Checked<Option<Fault>> {
        let lengths = || lent.iter().map(Vec::len).collect::<Vec<_>>();
        self.show(|| format!("read {file:?} into {:?}", lengths()));
        let theirs = self.library.map(|library| {
            let mut copies = lent.clone().map(|places| Guarded::new(&places));
            let [numbers, passages, estimates, events] = &mut copies;
            let lent = [
                numbers.inner(),
                passages.inner(),
                estimates.inner(),
                events.inner(),
            ];
            (library.file_read(file, lent), copies)
        });
        let number = Independent.file_read(file, slices(lent));
        self.show(|| format!("  independent: {}", rows::show_read(number)));
        if let Some((their_number, copies)) = theirs {
            self.show(|| format!("  library:     {}", rows::show_read(their_number)));
            same_number("file_read", rows::show_read, their_number, number)?;
            for ((copy, places), name) in copies.iter().zip(lent.iter()).zip(SLICES) {
                copy.compare(&format!("file_read, {name}"), places)?;
            }
        }
        let fault = rows::file_fault(number);
        self.tally.add_read(fault);
        match fault {
            None => demand::files::see_read(self.checked(), file, lent)?,
            Some(Fault { number: 27, .. }) => self.count_short(file, lent),
            Some(_) => {}
        }
        Ok(fault)
    }

    /// Counts the slice that alone was too short, if one was.
    fn count_short(&mut self, file: &[u8], lent: &[Vec<u32>; 4]) {
        let lengths = demand::files::lengths(file).unwrap_or([NUMBERS, 0, 0, 0]);
        let slices = lent.iter().zip(lengths).zip(SLICES);
        let mut short = slices.filter(|((places, length), _)| places.len() < *length);
        if let (Some((_, name)), None) = (short.next(), short.next()) {
            self.tally.add_short(name);
        }
    }
}

/// All of the slices.
pub fn slices(lent: &mut [Vec<u32>; 4]) -> Lent<'_> {
    let [numbers, passages, estimates, events] = lent;
    [numbers, passages, estimates, events]
}
