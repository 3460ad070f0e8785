//! Counts of what the cases met, so that one sees how much they cover: each
//! call's replies, refusals by number, and the first words of printed texts.

use crate::desk::Reply;
use crate::taskfile::Fault;
use std::collections::BTreeMap;
use std::fmt;

/// What is counted: a call, a word for what it gave, and a number with it.
pub type Met = (&'static str, &'static str, u32);

#[derive(Default)]
pub struct Tally {
    counts: BTreeMap<Met, u64>,
}

impl Tally {
    pub fn add_reply(&mut self, call: &'static str, reply: Reply) {
        let (word, number) = match reply {
            Reply::Opened => ("opened", 0),
            Reply::Took(_) => ("took", 0),
            Reply::Brought(_) => ("brought", 0),
            Reply::Found(_) => ("found", 0),
            Reply::NoPath => ("nopath", 0),
            Reply::Wait(_) => ("wait", 0),
            Reply::Read(_) => ("read", 0),
            Reply::Refused(number) => ("refused", number),
            Reply::Done => ("done", 0),
            Reply::Cut(_) => ("cut", 0),
        };
        self.add(call, word, number);
    }

    /// Counts a printed text: a file fault, a refused opening, or a run.
    pub fn add_text(&mut self, text: &str) {
        let mut words = text.split_ascii_whitespace();
        let kind = match words.next() {
            None => "nothing",
            Some("file") => "file",
            Some("opening") => "opening",
            Some(_) => "run",
        };
        let number = match kind {
            "file" | "opening" => words.next().and_then(|word| word.parse().ok()),
            _ => None,
        };
        self.add("print", kind, number.unwrap_or(0));
    }

    /// Counts a map that was read, or refused with a number.
    pub fn add_map(&mut self, refusal: Option<u32>) {
        match refusal {
            Some(number) => self.add("map", "refused", number),
            None => self.add("map", "read", 0),
        }
    }

    /// Counts a question about a map's cells that has an answer or none.
    pub fn add_answer(&mut self, call: &'static str, has_answer: bool) {
        self.add(call, if has_answer { "given" } else { "none" }, 0);
    }

    /// Counts a file that was written, or refused with a number.
    pub fn add_written(&mut self, refusal: Option<u32>) {
        match refusal {
            Some(number) => self.add("file_write", "refused", number),
            None => self.add("file_write", "written", 0),
        }
    }

    /// Counts a clause of 24 that alone applied.
    pub fn add_clause(&mut self, name: &'static str) {
        self.add("file_write-24", name, 0);
    }

    /// Counts a file that was read, or had a fault.
    pub fn add_read(&mut self, fault: Option<Fault>) {
        match fault {
            Some(fault) => self.add("file_read", "fault", fault.number),
            None => self.add("file_read", "read", 0),
        }
    }

    /// Counts a slice that alone was too short for a file.
    pub fn add_short(&mut self, name: &'static str) {
        self.add("file_read-27", name, 0);
    }

    /// Counts a machine that would fit, were its keys not wrong by the change of this
    /// name, and its phase; or one that fits after the change.
    pub fn add_keys(&mut self, name: &'static str, is_wrong: bool, phase: &'static str) {
        if is_wrong {
            self.add("keys-wrong", name, 0);
            self.add("keys-wrong-in", phase, 0);
        } else {
            self.add("keys-right", name, 0);
        }
    }

    /// How often a call gave this.
    pub fn count(&self, call: &'static str, word: &'static str, number: u32) -> u64 {
        let count = self.counts.get(&(call, word, number));
        count.copied().unwrap_or(0)
    }

    fn add(&mut self, call: &'static str, word: &'static str, number: u32) {
        *self.counts.entry((call, word, number)).or_default() += 1;
    }
}

impl fmt::Display for Tally {
    fn fmt(&self, f: &mut fmt::Formatter) -> fmt::Result {
        let mut line = "";
        for (&(call, word, number), count) in &self.counts {
            if call != line {
                let gap = if line.is_empty() { "" } else { "\n" };
                write!(f, "{gap}{call}:")?;
                line = call;
            }
            match number {
                0 => write!(f, " {word} {count}")?,
                _ => write!(f, " {word}-{number} {count}")?,
            }
        }
        Ok(())
    }
}
