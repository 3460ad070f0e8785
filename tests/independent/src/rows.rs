//! The interface that both desks are called through: a machine as a row of 1,319
//! numbers, a reply as one number; a map's counts and cells, and what came of writing
//! or reading a task file, as one number too.
//! `Independent` puts the independent desk behind it, so that comparison and bench
//! treat both desks alike.

use crate::desk::{Action, Graph, Head, Limited, Machine, Reply, Task, MAX_STATES, MAX_WORKERS};
use crate::map::{Cell, Map};
use crate::morning;
use crate::taskfile::{self, Fault, Lent};
use std::fmt;

/// Length of a machine row, and where its parts begin.
pub const ROW: usize = KEYS + 2 * MAX_STATES;
pub const PHASE: usize = 6;
pub const MARKS: usize = 7;
pub const LABELS: usize = MARKS + MAX_STATES;
pub const VIAS: usize = LABELS + MAX_STATES;
pub const HELD: usize = VIAS + MAX_STATES;
/// Two places for each state: the low 32 bits of its key, then the high ones.
pub const KEYS: usize = HELD + MAX_WORKERS;

/// The room that `print` asks for.
pub const PRINT_ROOM: usize = 589_824;

/// What `map_spot` and `map_state` give where there is nothing to give.
pub const NO_SPOT: u32 = u32::MAX;
pub const NO_STATE: u32 = 65_535;

/// A desk by number rows.
pub trait RowDesk {
    fn open(&self, task: &Task, row: &mut [u32]) -> u64;
    fn take(&self, row: &mut [u32], graph: Graph, worker: usize) -> u64;
    fn bring(&self, row: &mut [u32], graph: Graph, worker: usize) -> u64;
    fn path(&self, row: &[u32], graph: Graph, buffer: &mut [u16], at: usize) -> u64;
    /// A limited Take: its comparisons * 2^40 + its reply's code.
    fn take_limited(&self, row: &mut [u32], graph: Graph, worker: usize, limit: usize) -> u64;
    /// Serves events by number; their replies go to the front of `replies`.
    fn morning(&self, row: &mut [u32], graph: Graph, events: &[u32], replies: &mut [u64]) -> u64;
    /// Reads a map into the fronts of the slices: cells * 2^32 + passages, or the
    /// refusal's number.
    fn map(&self, text: &[u8], passages: &mut [u32], estimates: &mut [u32]) -> u64;
    /// Where a map's state lies: row * 65,536 + column, or `NO_SPOT`.
    fn map_spot(&self, text: &[u8], state: usize) -> u32;
    /// The state of a map's cell, or `NO_STATE`.
    fn map_state(&self, text: &[u8], row: usize, column: usize) -> u32;
    fn print(&self, file: &[u8], out: &mut [u8]) -> usize;
    /// Writes a task and events by number as a task file to the front of `buffer`: the
    /// file's length, or the refusal's number * 2^32.
    fn file_write(&self, task: &Task, events: &[u32], buffer: &mut [u8]) -> u64;
    /// Reads a task file into the fronts of lent slices: 0, or the fault's number *
    /// 2^32 + its offset.
    fn file_read(&self, file: &[u8], lent: Lent) -> u64;

    fn call(&self, action: Action, row: &mut [u32], graph: Graph, worker: usize) -> u64 {
        match action {
            Action::Take => self.take(row, graph, worker),
            Action::Bring => self.bring(row, graph, worker),
        }
    }
}

/// The code of a reply: case * 2^32 + value.
pub fn code(reply: Reply) -> u64 {
    let (case, value) = match reply {
        Reply::Opened => (0, 0),
        Reply::Took(state) => (1, state),
        Reply::Brought(count) => (2, count),
        Reply::Found(cost) => (3, cost),
        Reply::NoPath => (4, 0),
        Reply::Wait(state) => (5, u32::from(state)),
        Reply::Read(count) => (6, count),
        Reply::Refused(number) => (7, number),
        Reply::Done => (8, 0),
        Reply::Cut(limit) => (9, limit),
    };
    case << 32 | u64::from(value)
}

/// The reply of a code, if it is one.
pub fn reply(code: u64) -> Option<Reply> {
    let value = code as u32;
    match (code >> 32, value) {
        (0, 0) => Some(Reply::Opened),
        (1, _) => Some(Reply::Took(value)),
        (2, _) => Some(Reply::Brought(value)),
        (3, _) => Some(Reply::Found(value)),
        (4, 0) => Some(Reply::NoPath),
        (5, _) => u16::try_from(value).ok().map(Reply::Wait),
        (6, _) => Some(Reply::Read(value)),
        (7, _) => Some(Reply::Refused(value)),
        (8, 0) => Some(Reply::Done),
        (9, _) => Some(Reply::Cut(value)),
        _ => None,
    }
}

/// The code of a limited Take's reply and comparisons.
pub fn limited_code(limited: Limited) -> u64 {
    (limited.comparisons as u64) << 40 | code(limited.reply)
}

/// The reply and comparisons of a limited Take's code, if it is one.
pub fn limited(code: u64) -> Option<Limited> {
    Some(Limited {
        comparisons: (code >> 40) as usize,
        reply: reply(code & ((1 << 40) - 1))?,
    })
}

/// A limited Take's code as it is shown in reports.
pub fn show_limited(code: u64) -> String {
    match limited(code) {
        Some(limited) => format!("{:?} after {}", limited.reply, limited.comparisons),
        None => format!("code {code:#x}"),
    }
}

/// The counts of cells and passages that reading a map gave, or the refusal's
/// number, which alone has no cells beside it.
pub fn map_counts(number: u64) -> Result<(usize, usize), u32> {
    let low = number as u32;
    match (number >> 32) as usize {
        0 => Err(low),
        cells => Ok((cells, low as usize)),
    }
}

/// What reading a map gave, as it is shown in reports and stands beside samples.
pub fn show_map(number: u64) -> String {
    match map_counts(number) {
        Ok((cells, passages)) => format!("{cells} {passages}"),
        Err(number) => format!("refused {number}"),
    }
}

/// The length that writing a file gave, or the refusal's number.
pub fn written(number: u64) -> Result<usize, u32> {
    match (number >> 32) as u32 {
        0 => Ok(number as usize),
        refusal => Err(refusal),
    }
}

/// What writing a file gave, as it is shown in reports.
pub fn show_written(number: u64) -> String {
    match written(number) {
        Ok(length) => format!("{length} bytes"),
        Err(refusal) => format!("refused {refusal}"),
    }
}

/// Nothing where a file was read, or its fault.
pub fn file_fault(number: u64) -> Option<Fault> {
    let fault = Fault {
        number: (number >> 32) as u32,
        offset: number as u32 as usize,
    };
    Some(fault).filter(|_| number != 0)
}

/// What reading a file gave, as it is shown in reports.
pub fn show_read(number: u64) -> String {
    match file_fault(number) {
        None => "read".into(),
        Some(Fault { number, offset }) => format!("fault {number} at {offset}"),
    }
}

/// A code as it is shown in reports, a limited Take's too.
pub struct Shown(pub u64);

impl fmt::Display for Shown {
    fn fmt(&self, f: &mut fmt::Formatter) -> fmt::Result {
        match (reply(self.0), limited(self.0)) {
            (Some(reply), _) => write!(f, "{reply:?}"),
            (None, Some(_)) => f.write_str(&show_limited(self.0)),
            (None, None) => write!(f, "code {:#x}", self.0),
        }
    }
}

/// The machine of a row, unless a number is too large for its field.
pub fn decode(row: &[u32]) -> Option<Machine> {
    let row: &[u32; ROW] = row.try_into().ok()?;
    let bytes = all_below_power(&row[PHASE..LABELS], 8);
    let pairs = all_below_power(&row[4..6], 16) && all_below_power(&row[VIAS..KEYS], 16);
    if !(bytes && pairs) {
        return None;
    }
    let head = Head {
        n: row[0] as usize,
        k: row[1] as usize,
        start: row[2] as usize,
        goal: row[3] as usize,
        pull: row[4] as usize,
        excess: row[5] as usize,
    };
    Some(Machine {
        head,
        phase: row[PHASE] as u8,
        marks: std::array::from_fn(|i| row[MARKS + i] as u8),
        labels: std::array::from_fn(|i| row[LABELS + i]),
        vias: std::array::from_fn(|i| row[VIAS + i] as u16),
        held: std::array::from_fn(|i| row[HELD + i] as u16),
        keys: std::array::from_fn(|i| key(row, i)),
    })
}

/// Whether each number is below 2^bits: so is then all of them or-ed together.
fn all_below_power(numbers: &[u32], bits: u32) -> bool {
    numbers.iter().fold(0, |all, &number| all | number) >> bits == 0
}

/// Writes a machine into a row of the right length.
pub fn encode(machine: &Machine, row: &mut [u32]) {
    let head = machine.head.numbers();
    fill(&mut row[..PHASE], head.iter().map(|&number| number as u32));
    row[PHASE] = u32::from(machine.phase);
    fill(
        &mut row[MARKS..LABELS],
        machine.marks.iter().map(|&m| u32::from(m)),
    );
    row[LABELS..VIAS].copy_from_slice(&machine.labels);
    fill(
        &mut row[VIAS..HELD],
        machine.vias.iter().map(|&v| u32::from(v)),
    );
    fill(
        &mut row[HELD..KEYS],
        machine.held.iter().map(|&h| u32::from(h)),
    );
    for (state, &key) in machine.keys.iter().enumerate() {
        set_key(row, state, key);
    }
}

/// The key that a row stores of a state.
pub fn key(row: &[u32], state: usize) -> u64 {
    let [low, high] = [0, 1].map(|half| u64::from(row[KEYS + 2 * state + half]));
    high << 32 | low
}

/// Stores a state's key in a row.
pub fn set_key(row: &mut [u32], state: usize, key: u64) {
    row[KEYS + 2 * state] = key as u32;
    row[KEYS + 2 * state + 1] = (key >> 32) as u32;
}

fn fill(places: &mut [u32], numbers: impl Iterator<Item = u32>) {
    for (place, number) in places.iter_mut().zip(numbers) {
        *place = number;
    }
}

/// Writes what an opening hands back into a row: its machine or, refused, zeros. A
/// row of another length is refused before.
pub fn open_into(row: &mut [u32], opening: impl FnOnce() -> Result<Machine, u32>) -> u64 {
    if row.len() != ROW {
        return code(Reply::Refused(8));
    }
    match opening() {
        Ok(machine) => {
            encode(&machine, row);
            code(Reply::Opened)
        }
        Err(number) => {
            row.fill(0);
            code(Reply::Refused(number))
        }
    }
}

/// The independent desk by number rows.
pub struct Independent;

impl Independent {
    /// Runs a call on the machine of a row and writes the machine back.
    fn on_row(row: &mut [u32], call: impl FnOnce(&mut Machine) -> Reply) -> u64 {
        let mut machine = match decode(row) {
            Some(machine) => machine,
            None => return code(Reply::Refused(8)),
        };
        let reply = call(&mut machine);
        encode(&machine, row);
        code(reply)
    }
}

impl RowDesk for Independent {
    fn open(&self, task: &Task, row: &mut [u32]) -> u64 {
        open_into(row, || Machine::open(task.head, task.graph()))
    }

    fn take(&self, row: &mut [u32], graph: Graph, worker: usize) -> u64 {
        Independent::on_row(row, |machine| machine.take(graph, worker))
    }

    fn bring(&self, row: &mut [u32], graph: Graph, worker: usize) -> u64 {
        Independent::on_row(row, |machine| machine.bring(graph, worker))
    }

    fn take_limited(&self, row: &mut [u32], graph: Graph, worker: usize, limit: usize) -> u64 {
        let mut comparisons = 0;
        let code = Independent::on_row(row, |machine| {
            let limited = machine.take_limited(graph, worker, limit);
            comparisons = limited.comparisons as u64;
            limited.reply
        });
        comparisons << 40 | code
    }

    fn path(&self, row: &[u32], graph: Graph, buffer: &mut [u16], at: usize) -> u64 {
        code(match decode(row) {
            Some(machine) => machine.path(graph, buffer, at),
            None => Reply::Refused(8),
        })
    }

    /// A list that is refused is so before the row is looked at.
    fn morning(&self, row: &mut [u32], graph: Graph, events: &[u32], replies: &mut [u64]) -> u64 {
        match morning::admit(events, replies.len()) {
            Ok(events) => Independent::on_row(row, |machine| {
                for (event, place) in events.iter().zip(replies) {
                    *place = code(machine.call(event.action, graph, event.worker.into()));
                }
                Reply::Done
            }),
            Err(number) => code(Reply::Refused(number)),
        }
    }

    fn map(&self, text: &[u8], passages: &mut [u32], estimates: &mut [u32]) -> u64 {
        let map = match Map::read(text) {
            Ok(map) => map,
            Err(number) => return u64::from(number),
        };
        let (all_passages, all_estimates) = (map.passages(), map.estimates());
        let lent = (
            passages.get_mut(..all_passages.len()),
            estimates.get_mut(..all_estimates.len()),
        );
        let (passages, estimates) = match lent {
            (Some(passages), Some(estimates)) => (passages, estimates),
            _ => return 34,
        };
        passages.copy_from_slice(&all_passages);
        estimates.copy_from_slice(&all_estimates);
        let (cells, count) = (map.cells() as u64, passages.len() as u64 / 3);
        (cells << 32) | count
    }

    fn map_spot(&self, text: &[u8], state: usize) -> u32 {
        let spot = Map::read(text).ok().and_then(|map| map.spot(state));
        spot.map_or(NO_SPOT, |cell| (cell.row << 16 | cell.column) as u32)
    }

    fn map_state(&self, text: &[u8], row: usize, column: usize) -> u32 {
        let map = Map::read(text).ok();
        let state = map.and_then(|map| map.state(Cell { row, column }));
        state.map_or(NO_STATE, |state| state as u32)
    }

    fn print(&self, file: &[u8], out: &mut [u8]) -> usize {
        if out.len() < PRINT_ROOM {
            return 0;
        }
        let text = taskfile::deskrun(file);
        out[..text.len()].copy_from_slice(text.as_bytes());
        text.len()
    }

    fn file_write(&self, task: &Task, events: &[u32], buffer: &mut [u8]) -> u64 {
        match taskfile::write(task, events, buffer) {
            Ok(length) => length as u64,
            Err(number) => u64::from(number) << 32,
        }
    }

    fn file_read(&self, file: &[u8], lent: Lent) -> u64 {
        match taskfile::read_into(file, lent) {
            Ok(()) => 0,
            Err(fault) => u64::from(fault.number) << 32 | fault.offset as u64,
        }
    }
}
