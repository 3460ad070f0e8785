//! The independent desk: task, machine, opening, Take, Bring and path reading,
//! written straight from document 01 and orders 1, 4, 5, 7 and 8 of document 02.

use crate::triangles::{self, Sweep};

mod limited;

pub use limited::Limited;

pub const MAX_STATES: usize = 256;
pub const MAX_WORKERS: usize = 32;
pub const MAX_PASSAGES: usize = 4096;
pub const MAX_COST: u32 = 1_000_000;
/// The cost that marks a passage as blocked (order 4).
pub const BLOCKED: u32 = 4_294_967_295;
/// The bound of estimates and of the labels of a machine that fits.
pub const MAX_LABEL: u32 = 255_000_000;
/// "No passage" and "holds nothing".
pub const NONE: u16 = 65_535;

pub const UNSEEN: u8 = 0;
pub const OPEN: u8 = 1;
pub const OUT: u8 = 2;
pub const FINISHED: u8 = 3;

pub const SEARCHING: u8 = 0;
pub const FOUND: u8 = 1;
pub const NO_PATH: u8 = 2;

/// The calls of a worker.
#[derive(Clone, Copy, Debug, PartialEq, Eq)]
pub enum Action {
    Take,
    Bring,
}

/// What a call answers.
#[derive(Clone, Copy, Debug, PartialEq, Eq)]
pub enum Reply {
    Opened,
    Took(u32),
    Brought(u32),
    Found(u32),
    NoPath,
    /// The state that is waited for.
    Wait(u16),
    Read(u32),
    Refused(u32),
    /// A morning's events were served.
    Done,
    /// A limited Take would have made more comparisons than this limit.
    Cut(u32),
}

/// The numbers of a task beside its lent slices.
#[derive(Clone, Copy, Debug, PartialEq, Eq)]
pub struct Head {
    pub n: usize,
    pub k: usize,
    pub start: usize,
    pub goal: usize,
    pub pull: usize,
    pub excess: usize,
}

impl Head {
    /// The numbers in the order in which a row and a task file have them.
    pub fn numbers(&self) -> [usize; 6] {
        [
            self.n,
            self.k,
            self.start,
            self.goal,
            self.pull,
            self.excess,
        ]
    }

    /// The key of a state with a label: 100 * label + W * h(s, goal).
    fn key(&self, graph: Graph, state: usize, label: u32) -> u64 {
        let h = graph.estimates[state * self.n + self.goal];
        100 * u64::from(label) + self.pull as u64 * u64::from(h)
    }
}

/// The lent slices: passages as (from, to, cost), estimates h(a,b) at a * n + b.
#[derive(Clone, Copy, Debug)]
pub struct Graph<'a> {
    pub passages: &'a [u32],
    pub estimates: &'a [u32],
}

/// A task that owns its slices.
#[derive(Clone, Debug)]
pub struct Task {
    pub head: Head,
    pub passages: Vec<u32>,
    pub estimates: Vec<u32>,
}

impl Task {
    pub fn graph(&self) -> Graph<'_> {
        Graph {
            passages: &self.passages,
            estimates: &self.estimates,
        }
    }
}

/// The state of one search between two calls.
#[derive(Clone, Debug, PartialEq, Eq)]
pub struct Machine {
    pub head: Head,
    pub phase: u8,
    pub marks: [u8; MAX_STATES],
    pub labels: [u32; MAX_STATES],
    pub vias: [u16; MAX_STATES],
    pub held: [u16; MAX_WORKERS],
    /// The key of each state, 0 for an unseen one (order 8).
    pub keys: [u64; MAX_STATES],
}

/// The states that are open or out, by rising number.
struct Live {
    states: [u16; MAX_STATES],
    count: usize,
    any_out: bool,
}

impl Live {
    fn of(machine: &Machine) -> Live {
        let mut live = Live {
            states: [0; MAX_STATES],
            count: 0,
            any_out: false,
        };
        for (state, &mark) in machine.marks[..machine.head.n].iter().enumerate() {
            if mark == OPEN || mark == OUT {
                live.states[live.count] = state as u16;
                live.count += 1;
                live.any_out |= mark == OUT;
            }
        }
        live
    }

    fn states(&self) -> &[u16] {
        &self.states[..self.count]
    }
}

impl Machine {
    /// Opens a task, or gives the number of the first refusal that applies.
    pub fn open(head: Head, graph: Graph) -> Result<Machine, u32> {
        Machine::open_by(triangles::passing_over, head, graph)
    }

    /// The same with a sweep of check 7 over all triples, as before order 5.
    pub fn open_plainly(head: Head, graph: Graph) -> Result<Machine, u32> {
        Machine::open_by(triangles::plain, head, graph)
    }

    fn open_by(
        sweep: fn(usize, &[u32]) -> Sweep,
        head: Head,
        graph: Graph,
    ) -> Result<Machine, u32> {
        match opening_refusal(sweep, &head, graph) {
            Some(number) => Err(number),
            None => Ok(Machine::fresh(head, graph)),
        }
    }

    fn fresh(head: Head, graph: Graph) -> Machine {
        let mut machine = Machine {
            head,
            phase: SEARCHING,
            marks: [UNSEEN; MAX_STATES],
            labels: [0; MAX_STATES],
            vias: [NONE; MAX_STATES],
            held: [NONE; MAX_WORKERS],
            keys: [0; MAX_STATES],
        };
        machine.marks[head.start] = OPEN;
        machine.keys[head.start] = head.key(graph, head.start, 0);
        machine
    }

    pub fn call(&mut self, action: Action, graph: Graph, worker: usize) -> Reply {
        match action {
            Action::Take => self.take(graph, worker),
            Action::Bring => self.bring(graph, worker),
        }
    }

    pub fn take(&mut self, graph: Graph, worker: usize) -> Reply {
        if let Some(number) = self.call_refusal(graph, worker) {
            return Reply::Refused(number);
        }
        if self.held[worker] != NONE {
            return Reply::Refused(11);
        }
        let live = Live::of(self);
        let goal = self.head.goal;
        if self.marks[goal] == OPEN && self.is_safe(graph, live.states(), goal) {
            self.phase = FOUND;
            return Reply::Found(self.labels[goal]);
        }
        if live.count == 0 {
            self.phase = NO_PATH;
            return Reply::NoPath;
        }
        match self.best_safe(graph, live.states()) {
            Some(state) => {
                self.marks[state] = OUT;
                self.held[worker] = state as u16;
                Reply::Took(state as u32)
            }
            None if !live.any_out => Reply::Refused(12),
            None => {
                let state = self.waited_for(graph, live.states());
                Reply::Wait(state.expect("some state is out, and no open one is safe"))
            }
        }
    }

    pub fn bring(&mut self, graph: Graph, worker: usize) -> Reply {
        if let Some(number) = self.call_refusal(graph, worker) {
            return Reply::Refused(number);
        }
        if self.held[worker] == NONE {
            return Reply::Refused(11);
        }
        let state = self.held[worker];
        let count = self.relax(graph, usize::from(state));
        self.marks[usize::from(state)] = FINISHED;
        self.held[worker] = NONE;
        Reply::Brought(count)
    }

    /// Writes the path, start first, into `buffer` from place `at` on.
    pub fn path(&self, graph: Graph, buffer: &mut [u16], at: usize) -> Reply {
        if !self.fits(graph) {
            return Reply::Refused(8);
        }
        if self.phase != FOUND {
            return Reply::Refused(13);
        }
        let mut back = [0; MAX_STATES];
        let count = match self.walk_back(graph.passages, &mut back) {
            Some(count) => count,
            None => return Reply::Refused(14),
        };
        let tail = buffer.get_mut(at..).unwrap_or_default();
        let places = match tail.get_mut(..count) {
            Some(places) => places,
            None => return Reply::Refused(15),
        };
        for (place, &state) in places.iter_mut().zip(back[..count].iter().rev()) {
            *place = state;
        }
        Reply::Read(count as u32)
    }

    /// Refusals 8 to 10, which Take and Bring share.
    fn call_refusal(&self, graph: Graph, worker: usize) -> Option<u32> {
        if !self.fits(graph) {
            Some(8)
        } else if worker >= self.head.k {
            Some(9)
        } else if self.phase != SEARCHING {
            Some(10)
        } else {
            None
        }
    }

    /// Whether machine and lent slices fit. Of the estimates only those to the goal
    /// are looked at, for the keys; passage numbers are not, nor are places past n or
    /// workers past k.
    pub fn fits(&self, graph: Graph) -> bool {
        shared_refusal(&self.head, graph).is_none()
            && self.phase <= NO_PATH
            && self.marks[..self.head.n].iter().all(|&m| m <= FINISHED)
            && self.labels[..self.head.n].iter().all(|&l| l <= MAX_LABEL)
            && self.holdings_fit()
            && self.keys_fit(graph)
    }

    /// Whether the stored key of each state is the one that it has with its label and
    /// the lent estimates, and 0 where it is unseen.
    fn keys_fit(&self, graph: Graph) -> bool {
        (0..self.head.n).all(|state| {
            let key = match self.marks[state] {
                UNSEEN => 0,
                _ => self.head.key(graph, state, self.labels[state]),
            };
            self.keys[state] == key
        })
    }

    /// Whether workers hold only out states, and each out state has one holder.
    fn holdings_fit(&self) -> bool {
        let marks = &self.marks[..self.head.n];
        let mut has_holder = [false; MAX_STATES];
        let mut holders = 0;
        for &held in self.held[..self.head.k].iter().filter(|&&h| h != NONE) {
            let state = usize::from(held);
            if marks.get(state) != Some(&OUT) || has_holder[state] {
                return false;
            }
            has_holder[state] = true;
            holders += 1;
        }
        marks.iter().filter(|&&m| m == OUT).count() == holders
    }

    fn is_safe(&self, graph: Graph, live: &[u16], state: usize) -> bool {
        self.first_dependence(graph, live, state).is_none()
    }

    /// The lowest of `live` that `state` depends on. It may be one of them: each
    /// state is independent of itself, since 0 <= E * h.
    fn first_dependence(&self, graph: Graph, live: &[u16], state: usize) -> Option<u16> {
        let mut others = live.iter().copied();
        others.find(|&t| !self.is_independent(graph, state, t.into()))
    }

    /// 100 * (label s - label t) <= E * h(t,s); the left side may be negative.
    fn is_independent(&self, graph: Graph, s: usize, t: usize) -> bool {
        let [label_s, label_t] = [s, t].map(|state| i64::from(self.labels[state]));
        let h = i64::from(graph.estimates[t * self.head.n + s]);
        100 * (label_s - label_t) <= self.head.excess as i64 * h
    }

    /// The safe open state with the smallest key, the lowest among equals.
    fn best_safe(&self, graph: Graph, live: &[u16]) -> Option<usize> {
        let mut best = None;
        let mut best_key = u64::MAX;
        for state in live.iter().map(|&s| usize::from(s)) {
            if self.marks[state] != OPEN {
                continue;
            }
            let key = self.keys[state];
            if key < best_key && self.is_safe(graph, live, state) {
                best = Some(state);
                best_key = key;
            }
        }
        best
    }

    /// What Wait names. With something open, the lowest-numbered state that the
    /// smallest-key open state depends on (lowest number among equal keys); with
    /// nothing open, the lowest-numbered out state.
    fn waited_for(&self, graph: Graph, live: &[u16]) -> Option<u16> {
        let open = (0..self.head.n).filter(|&s| self.marks[s] == OPEN);
        match open.min_by_key(|&s| (self.keys[s], s)) {
            Some(smallest) => self.first_dependence(graph, live, smallest),
            // All that is live is out.
            None => live.first().copied(),
        }
    }

    /// Sets or lowers labels along the passages from `state`, all but the blocked
    /// ones, and the keys with them; says how often.
    fn relax(&mut self, graph: Graph, state: usize) -> u32 {
        let label = self.labels[state];
        let mut count = 0;
        for (number, passage) in graph.passages.chunks_exact(3).enumerate() {
            if passage[0] as usize != state || is_blocked(passage) {
                continue;
            }
            let to = passage[1] as usize;
            let sum = label + passage[2];
            let mark = self.marks[to];
            if mark == UNSEEN || (mark == OPEN && self.labels[to] > sum) {
                self.marks[to] = OPEN;
                self.labels[to] = sum;
                self.vias[to] = number as u16;
                self.keys[to] = self.head.key(graph, to, sum);
                count += 1;
            }
        }
        count
    }

    /// Lists the states from the goal back to the start; `None` is refusal 14.
    fn walk_back(&self, passages: &[u32], back: &mut [u16; MAX_STATES]) -> Option<usize> {
        let mut state = self.head.goal;
        for (met, place) in back[..self.head.n].iter_mut().enumerate() {
            *place = state as u16;
            if state == self.head.start && self.labels[state] == 0 {
                return Some(met + 1);
            }
            let first = usize::from(self.vias[state]) * 3;
            let passage = passages.get(first..first + 3)?;
            if passage[1] as usize != state || is_blocked(passage) {
                return None;
            }
            let from = passage[0] as usize;
            if self.labels[state] != self.labels[from] + passage[2] {
                return None;
            }
            state = from;
        }
        None
    }
}

/// The first of refusals 1 to 7, with a sweep for check 7.
fn opening_refusal(sweep: fn(usize, &[u32]) -> Sweep, head: &Head, graph: Graph) -> Option<u32> {
    if let Some(number) = shared_refusal(head, graph) {
        Some(number)
    } else if !estimates_in_range(head.n, graph.estimates) {
        Some(5)
    } else if !estimates_below_costs(head.n, graph) {
        Some(6)
    } else if !sweep(head.n, graph.estimates).holds {
        Some(7)
    } else {
        None
    }
}

/// The first of refusals 1 to 4, the conditions that each call asks for again.
fn shared_refusal(head: &Head, graph: Graph) -> Option<u32> {
    if !sizes_in_range(head, graph) {
        Some(1)
    } else if head.start >= head.n || head.goal >= head.n {
        Some(2)
    } else if !(100..=10_000).contains(&head.excess) || head.pull > head.excess {
        Some(3)
    } else if !passages_in_range(head.n, graph.passages) {
        Some(4)
    } else {
        None
    }
}

fn sizes_in_range(head: &Head, graph: Graph) -> bool {
    (1..=MAX_STATES).contains(&head.n)
        && (1..=MAX_WORKERS).contains(&head.k)
        && graph.passages.len() % 3 == 0
        && graph.passages.len() <= 3 * MAX_PASSAGES
        && graph.estimates.len() == head.n * head.n
}

fn passages_in_range(n: usize, passages: &[u32]) -> bool {
    passages.chunks_exact(3).all(|p| {
        let cost_fits = p[2] <= MAX_COST || is_blocked(p);
        (p[0] as usize) < n && (p[1] as usize) < n && cost_fits
    })
}

pub fn is_blocked(passage: &[u32]) -> bool {
    passage[2] == BLOCKED
}

fn estimates_in_range(n: usize, estimates: &[u32]) -> bool {
    estimates.iter().all(|&h| h <= MAX_LABEL) && estimates.iter().step_by(n + 1).all(|&h| h == 0)
}

/// Whether no estimate is above the cost of a passage; a blocked one has none.
fn estimates_below_costs(n: usize, graph: Graph) -> bool {
    graph
        .passages
        .chunks_exact(3)
        .filter(|passage| !is_blocked(passage))
        .all(|p| graph.estimates[p[0] as usize * n + p[1] as usize] <= p[2])
}
