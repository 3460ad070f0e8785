//! The task file: its reader, with the faults 21 to 23 and 27, its writer, and the
//! text that `deskrun` prints for a file.

use crate::desk::{Action, Graph, Head, Machine, Reply, Task};
use crate::morning::Event;
use std::fmt::Write;

mod writer;

pub use writer::{write, Clause, CLAUSES};

pub const MAX_FILE: usize = 65_536;
const MAX_FILE_STATES: usize = 64;
const MAX_FILE_PASSAGES: usize = 512;

/// A file fault: its number and the offset it is found at.
#[derive(Clone, Copy, Debug, PartialEq, Eq)]
pub struct Fault {
    pub number: u32,
    pub offset: usize,
}

#[derive(Clone, Copy, Debug, PartialEq, Eq)]
pub struct Call {
    pub action: Action,
    pub worker: u8,
}

impl Call {
    /// The event that stands for this call in a list.
    fn number(self) -> u32 {
        let event = Event {
            action: self.action,
            worker: self.worker.into(),
        };
        event.number()
    }
}

/// What a file is read into: numbers, passages, estimates and events by number. The
/// numbers are n, k, start, goal, W, E and the counts of passages and of events.
pub type Lent<'a> = [&'a mut [u32]; 4];

/// How many numbers are read.
pub const NUMBERS: usize = 8;

struct Record<'a> {
    kind: u16,
    payload: &'a [u8],
}

/// What the records so far have given.
#[derive(Default)]
struct Reader {
    head: Option<Head>,
    passages: Vec<u32>,
    estimates: Vec<u32>,
    rows: usize,
    calls: Vec<Call>,
}

/// Reads a whole file: the task and the calls.
pub fn read(file: &[u8]) -> Result<(Task, Vec<Call>), Fault> {
    if file.len() > MAX_FILE {
        return Err(Fault {
            number: 23,
            offset: MAX_FILE,
        });
    }
    let mut reader = Reader::default();
    let mut offset = 0;
    while offset < file.len() {
        let fault = |number| Fault { number, offset };
        let record = next_record(&file[offset..]).ok_or(fault(21))?;
        reader.accept(&record).map_err(fault)?;
        offset += 4 + record.payload.len();
    }
    reader.finish().ok_or(Fault { number: 21, offset })
}

/// Reads a whole file into the fronts of lent slices; with a fault nothing is
/// written. Slices too short are 27, after all others; only a slice that can't take
/// the numbers, which every file has, is so before all else.
pub fn read_into(file: &[u8], lent: Lent) -> Result<(), Fault> {
    let too_short = Fault {
        number: 27,
        offset: 0,
    };
    if lent[0].len() < NUMBERS {
        return Err(too_short);
    }
    let parts = parts(read(file)?);
    let mut pairs = lent.iter().zip(&parts);
    if pairs.any(|(places, part)| places.len() < part.len()) {
        return Err(too_short);
    }
    for (places, part) in lent.into_iter().zip(&parts) {
        places[..part.len()].copy_from_slice(part);
    }
    Ok(())
}

/// What is read of a task and calls, in the order of `Lent`.
pub fn parts((task, calls): (Task, Vec<Call>)) -> [Vec<u32>; 4] {
    let counts = [task.passages.len() / 3, calls.len()];
    let numbers = task.head.numbers().into_iter().chain(counts);
    [
        numbers.map(|number| number as u32).collect(),
        task.passages,
        task.estimates,
        calls.into_iter().map(Call::number).collect(),
    ]
}

/// The record at the front of `bytes`, if all of it is there.
fn next_record(bytes: &[u8]) -> Option<Record<'_>> {
    let (front, rest) = (bytes.get(..4)?, bytes.get(4..)?);
    Some(Record {
        kind: two_bytes(&front[2..]),
        payload: rest.get(..usize::from(two_bytes(front)))?,
    })
}

fn two_bytes(bytes: &[u8]) -> u16 {
    u16::from_le_bytes([bytes[0], bytes[1]])
}

fn four_bytes(bytes: &[u8]) -> u32 {
    u32::from_le_bytes([bytes[0], bytes[1], bytes[2], bytes[3]])
}

impl Reader {
    /// Takes in one record, or gives the fault's number.
    fn accept(&mut self, record: &Record) -> Result<(), u32> {
        match (record.kind, self.head) {
            (1, None) => self.accept_head(record.payload),
            (2, Some(_)) if self.rows == 0 => self.accept_passage(record.payload),
            (3, Some(head)) if self.rows < head.n => self.accept_row(head.n, record.payload),
            (4, Some(head)) if self.rows == head.n => self.accept_call(record.payload),
            _ => Err(22),
        }
    }

    fn accept_head(&mut self, payload: &[u8]) -> Result<(), u32> {
        if payload.len() != 12 {
            return Err(22);
        }
        let number = |place: usize| two_bytes(&payload[2 * place..]);
        let n = usize::from(number(0));
        if !(1..=MAX_FILE_STATES).contains(&n) {
            return Err(23);
        }
        self.head = Some(Head {
            n,
            k: usize::from(number(1)),
            start: usize::from(number(2)),
            goal: usize::from(number(3)),
            pull: usize::from(number(4)),
            excess: usize::from(number(5)),
        });
        self.estimates.reserve_exact(n * n);
        Ok(())
    }

    fn accept_passage(&mut self, payload: &[u8]) -> Result<(), u32> {
        if payload.len() != 8 {
            return Err(22);
        }
        if self.passages.len() == 3 * MAX_FILE_PASSAGES {
            return Err(23);
        }
        self.passages.extend([
            u32::from(two_bytes(payload)),
            u32::from(two_bytes(&payload[2..])),
            four_bytes(&payload[4..]),
        ]);
        Ok(())
    }

    fn accept_row(&mut self, n: usize, payload: &[u8]) -> Result<(), u32> {
        if payload.len() != 2 + 4 * n || usize::from(two_bytes(payload)) != self.rows {
            return Err(22);
        }
        self.estimates
            .extend(payload[2..].chunks_exact(4).map(four_bytes));
        self.rows += 1;
        Ok(())
    }

    fn accept_call(&mut self, payload: &[u8]) -> Result<(), u32> {
        let action = match payload {
            [0, _] => Action::Take,
            [1, _] => Action::Bring,
            _ => return Err(22),
        };
        self.calls.push(Call {
            action,
            worker: payload[1],
        });
        Ok(())
    }

    /// The task and calls, if the head and all rows are there.
    fn finish(self) -> Option<(Task, Vec<Call>)> {
        let head = self.head.filter(|head| self.rows == head.n)?;
        let task = Task {
            head,
            passages: self.passages,
            estimates: self.estimates,
        };
        Some((task, self.calls))
    }
}

/// What `deskrun` prints for a file.
pub fn deskrun(file: &[u8]) -> String {
    match read(file) {
        Err(fault) => format!("file {} {}\n", fault.number, fault.offset),
        Ok((task, calls)) => match Machine::open(task.head, task.graph()) {
            Err(number) => format!("opening {number}\n"),
            Ok(machine) => run_calls(machine, task.graph(), &calls),
        },
    }
}

fn run_calls(mut machine: Machine, graph: Graph, calls: &[Call]) -> String {
    let mut text = String::with_capacity(16 * calls.len());
    for call in calls {
        let worker = usize::from(call.worker);
        let reply = machine.call(call.action, graph, worker);
        print_reply(&mut text, worker, reply);
        if matches!(reply, Reply::Found(_)) {
            print_path(&mut text, &machine, graph);
        }
    }
    text
}

fn print_reply(text: &mut String, worker: usize, reply: Reply) {
    match reply {
        Reply::Took(state) => writeln!(text, "took {worker} {state}"),
        Reply::Brought(count) => writeln!(text, "brought {worker} {count}"),
        Reply::Found(cost) => writeln!(text, "found {worker} {cost}"),
        Reply::NoPath => writeln!(text, "nopath {worker}"),
        Reply::Wait(state) => writeln!(text, "wait {worker} {state}"),
        Reply::Refused(number) => writeln!(text, "refused {worker} {number}"),
        Reply::Opened | Reply::Read(_) | Reply::Done | Reply::Cut(_) => {
            unreachable!("no answer to Take or Bring")
        }
    }
    .expect("writing to a String does not fail");
}

fn print_path(text: &mut String, machine: &Machine, graph: Graph) {
    let mut buffer = [0; MAX_FILE_STATES];
    let count = match machine.path(graph, &mut buffer, 0) {
        Reply::Read(count) => count,
        _ => unreachable!("a found path can be read"),
    };
    text.push_str("path");
    for state in &buffer[..count as usize] {
        write!(text, " {state}").expect("writing to a String does not fail");
    }
    text.push('\n');
}
