//! Both desks, called alike: every reply, every number handed back, every place
//! of every lent slice and the printed text are compared. Every Wait is held
//! against order 1 of document 02, every morning against order 2, every opening
//! against order 5, every file against order 6, every limited Take against order 7
//! and every call on a machine against order 8; without a library only that is done.

use crate::demand::{self, Morning};
use crate::desk::{Action, Graph, Reply, Task};
use crate::map::Cell;
use crate::rows::{self, Independent, RowDesk, Shown, NO_SPOT, NO_STATE, ROW};
use crate::tally::Tally;
use std::fmt::Debug;

pub mod files;
mod limited;

pub use files::slices;

/// Stops a case at its first fault; carries what is wrong.
pub type Checked<T> = Result<T, String>;

/// Both desks, called alike. What the independent desk hands back goes on.
pub struct Desks<'a> {
    pub library: Option<&'a dyn RowDesk>,
    /// Whether each step is printed.
    pub verbose: bool,
    pub tally: Tally,
    /// What `print` writes to, kept from text to text: giving its pages back each
    /// time costs more than the printing.
    paper: Vec<u8>,
}

impl<'a> Desks<'a> {
    pub fn new(library: Option<&'a dyn RowDesk>, verbose: bool) -> Desks<'a> {
        Desks {
            library,
            verbose,
            tally: Tally::default(),
            paper: Vec::new(),
        }
    }

    /// The desk that is held against the orders: the library where there is one.
    /// Its answers have been compared with the independent desk's before.
    pub fn checked(&self) -> &'a dyn RowDesk {
        self.library.unwrap_or(&Independent)
    }

    /// Prints a step of a case that is replayed.
    pub fn show(&self, text: impl FnOnce() -> String) {
        if self.verbose {
            println!("  {}", text());
        }
    }

    pub fn expect_opened(&mut self, task: &Task, row: &mut [u32]) -> Checked<()> {
        match self.open(task, row)? {
            Reply::Opened => Ok(()),
            reply => Err(format!("a task made to be accepted gets {reply:?}")),
        }
    }

    /// Openings with a weight wider than 16 bits are counted apart.
    pub fn open(&mut self, task: &Task, row: &mut [u32]) -> Checked<Reply> {
        self.show(|| format!("open {task:?}"));
        let is_wide = task.head.pull.max(task.head.excess) > usize::from(u16::MAX);
        let what = if is_wide { "open-wide" } else { "open" };
        let reply = self.both(what, row, |desk, row| desk.open(task, row))?;
        if row.len() == ROW {
            demand::opening::see_opening(task, reply)?;
        }
        if reply == Reply::Opened {
            demand::keys::see_reached(row, task)?;
        }
        Ok(reply)
    }

    pub fn call(
        &mut self,
        action: Action,
        row: &mut [u32],
        graph: Graph,
        worker: usize,
    ) -> Checked<Reply> {
        self.show(|| format!("{action:?} worker {worker}"));
        let before = row.to_vec();
        let reply = match action {
            Action::Take => self.take(row, graph, worker),
            Action::Bring => self.both("bring", row, |desk, row| desk.bring(row, graph, worker)),
        }?;
        demand::keys::see_calls([&before, row], graph.estimates, &[reply])?;
        Ok(reply)
    }

    /// A Take; a Wait, which leaves the machine as it was, is held against order 1.
    fn take(&mut self, row: &mut [u32], graph: Graph, worker: usize) -> Checked<Reply> {
        let reply = self.both("take", row, |desk, row| desk.take(row, graph, worker))?;
        if let Reply::Wait(state) = reply {
            demand::see_wait(row, graph, state)?;
        }
        Ok(reply)
    }

    pub fn path(
        &mut self,
        row: &[u32],
        graph: Graph,
        buffer: &mut [u16],
        at: usize,
    ) -> Checked<Reply> {
        self.show(|| format!("path into {} places from {at}", buffer.len()));
        let reply = self.both("path", buffer, |desk, buffer| {
            desk.path(row, graph, buffer, at)
        })?;
        demand::keys::see_calls([row; 2], graph.estimates, &[reply])?;
        Ok(reply)
    }

    /// A morning, held against as many single calls.
    pub fn morning(
        &mut self,
        row: &mut [u32],
        graph: Graph,
        events: &[u32],
        replies: &mut [u64],
    ) -> Checked<Reply> {
        self.show(|| format!("morning of {events:?} into {} places", replies.len()));
        let (row_before, replies_before) = (row.to_vec(), replies.to_vec());
        let call = |desk: &dyn RowDesk, row: &mut [u32], replies: &mut [u64]| {
            desk.morning(row, graph, events, replies)
        };
        let code = self.both_lent("morning", show_reply, (row, replies), call)?;
        let reply = self.count_reply("morning", code)?;
        let morning = Morning {
            graph,
            events,
            row: [&row_before, row],
            replies: [&replies_before, replies],
        };
        demand::see_morning(self.checked(), reply, &morning)?;
        let mut served = Vec::new();
        if reply == Reply::Done {
            for &code in &replies[..events.len()] {
                served.push(self.count_reply("event", code)?);
            }
        }
        demand::keys::see_calls([&row_before, row], graph.estimates, &served)?;
        Ok(reply)
    }

    /// A map read into lent slices: the number of its counts.
    pub fn map(
        &mut self,
        text: &[u8],
        passages: &mut [u32],
        estimates: &mut [u32],
    ) -> Checked<u64> {
        self.show(|| format!("map into {} and {}", passages.len(), estimates.len()));
        let call = |desk: &dyn RowDesk, passages: &mut [u32], estimates: &mut [u32]| {
            desk.map(text, passages, estimates)
        };
        let number = self.both_lent("map", rows::show_map, (passages, estimates), call)?;
        self.tally.add_map(rows::map_counts(number).err());
        Ok(number)
    }

    /// Where a map's state lies.
    pub fn map_spot(&mut self, text: &[u8], state: usize) -> Checked<()> {
        self.show(|| format!("spot of state {state}"));
        let spot = self.both_number("map_spot", |desk| desk.map_spot(text, state))?;
        self.tally.add_answer("map_spot", spot != NO_SPOT);
        Ok(())
    }

    /// The state of a map's cell.
    pub fn map_state(&mut self, text: &[u8], cell: Cell) -> Checked<()> {
        self.show(|| format!("state of {cell:?}"));
        let Cell { row, column } = cell;
        let state = self.both_number("map_state", |desk| desk.map_state(text, row, column))?;
        self.tally.add_answer("map_state", state != NO_STATE);
        Ok(())
    }

    /// A call that writes nothing.
    fn both_number(&self, what: &str, call: impl Fn(&dyn RowDesk) -> u32) -> Checked<u32> {
        let none: (&mut [u8], &mut [u8]) = (&mut [], &mut []);
        let call = |desk: &dyn RowDesk, _: &mut [u8], _: &mut [u8]| u64::from(call(desk));
        let number = self.both_lent(what, |number| format!("{number:#x}"), none, call)?;
        Ok(number as u32)
    }

    /// A call that writes to one slice, and its reply.
    fn both<T: Place>(
        &mut self,
        what: &'static str,
        places: &mut [T],
        call: impl Fn(&dyn RowDesk, &mut [T]) -> u64,
    ) -> Checked<Reply> {
        let none: &mut [u8] = &mut [];
        let call = |desk: &dyn RowDesk, places: &mut [T], _: &mut [u8]| call(desk, places);
        let code = self.both_lent(what, show_reply, (places, none), call)?;
        self.count_reply(what, code)
    }

    /// Makes the same call to both desks, each with its own copies of the slices
    /// it may write to, and compares the numbers returned and the places.
    fn both_lent<A: Place, B: Place>(
        &self,
        what: &str,
        shown: fn(u64) -> String,
        (first, second): (&mut [A], &mut [B]),
        call: impl Fn(&dyn RowDesk, &mut [A], &mut [B]) -> u64,
    ) -> Checked<u64> {
        let theirs = self.library.map(|library| {
            let (mut first, mut second) = (Guarded::new(first), Guarded::new(second));
            let number = call(library, first.inner(), second.inner());
            (number, first, second)
        });
        let number = call(&Independent, first, second);
        self.show(|| format!("  independent: {}", shown(number)));
        if let Some((their_number, their_first, their_second)) = theirs {
            self.show(|| format!("  library:     {}", shown(their_number)));
            same_number(what, shown, their_number, number)?;
            their_first.compare(what, first)?;
            their_second.compare(&format!("{what}, second slice"), second)?;
        }
        Ok(number)
    }

    /// The reply of a code, counted as one to `what`.
    fn count_reply(&mut self, what: &'static str, code: u64) -> Checked<Reply> {
        let reply = rows::reply(code).ok_or(format!("{what}: no reply has code {code:#x}"))?;
        self.tally.add_reply(what, reply);
        Ok(reply)
    }

    pub fn print(&mut self, file: &[u8], room: usize) -> Checked<()> {
        let mut ours = std::mem::take(&mut self.paper);
        ours.clear();
        ours.resize(room, b'.');
        let theirs = self.library.map(|library| {
            let mut out = Guarded::new(&ours);
            (library.print(file, out.inner()), out)
        });
        let length = Independent.print(file, &mut ours);
        let text = text_of(&ours, length);
        self.show(|| format!("independent, {length} bytes:\n{text}"));
        self.tally.add_text(&text);
        if let Some((their_length, mut out)) = theirs {
            let their_text = text_of(out.inner(), their_length);
            self.show(|| format!("library, {their_length} bytes:\n{their_text}"));
            same_text(&their_text, &text)?;
            if length != their_length {
                return Err(format!("print: library {their_length} bytes, not {length}"));
            }
            out.compare("print", &ours)?;
        }
        self.paper = ours;
        Ok(())
    }
}

fn text_of(out: &[u8], length: usize) -> String {
    String::from_utf8_lossy(&out[..length.min(out.len())]).into_owned()
}

fn show_reply(code: u64) -> String {
    Shown(code).to_string()
}

fn same_number(
    what: &str,
    shown: fn(u64) -> String,
    library: u64,
    independent: u64,
) -> Checked<()> {
    match library == independent {
        true => Ok(()),
        false => Err(format!(
            "{what}: library {}, independent {}",
            shown(library),
            shown(independent)
        )),
    }
}

fn same_text(library: &str, independent: &str) -> Checked<()> {
    let (mut theirs, mut ours) = (library.lines(), independent.lines());
    for line in 1.. {
        match (theirs.next(), ours.next()) {
            (None, None) => break,
            (their, our) if their == our => {}
            (their, our) => {
                return Err(format!(
                    "print: line {line}: library {:?}, independent {:?}",
                    their.unwrap_or("ends"),
                    our.unwrap_or("ends")
                ))
            }
        }
    }
    Ok(())
}

fn same_places<T: PartialEq + Debug>(what: &str, library: &[T], independent: &[T]) -> Checked<()> {
    if library == independent {
        return Ok(());
    }
    let mut pairs = library.iter().zip(independent).enumerate();
    match pairs.find(|(_, (theirs, ours))| theirs != ours) {
        Some((place, (theirs, ours))) => Err(format!(
            "{what}: place {place}: library {theirs:?}, independent {ours:?}"
        )),
        None => Err(format!(
            "{what}: {} places, not {}",
            library.len(),
            independent.len()
        )),
    }
}

/// What a lent slice may hold.
trait Place: Copy + From<u8> + PartialEq + Debug {}

impl<T: Copy + From<u8> + PartialEq + Debug> Place for T {}

/// A copy of places with others before and after it that must stay as they are.
struct Guarded<T> {
    places: Vec<T>,
}

const GUARD: usize = 4;
const GUARD_BYTE: u8 = 0xa5;

impl<T: Place> Guarded<T> {
    fn new(places: &[T]) -> Guarded<T> {
        let mut copy = vec![T::from(GUARD_BYTE); places.len() + 2 * GUARD];
        copy[GUARD..GUARD + places.len()].copy_from_slice(places);
        Guarded { places: copy }
    }

    fn inner(&mut self) -> &mut [T] {
        let end = self.places.len() - GUARD;
        &mut self.places[GUARD..end]
    }

    fn compare(&self, what: &str, independent: &[T]) -> Checked<()> {
        let (before, rest) = self.places.split_at(GUARD);
        let (inner, after) = rest.split_at(rest.len() - GUARD);
        let untouched = |guard: &[T]| guard.iter().all(|&place| place == T::from(GUARD_BYTE));
        if !untouched(before) || !untouched(after) {
            return Err(format!("{what}: library writes beyond what it is lent"));
        }
        same_places(what, inner, independent)
    }
}
