//! The limited Take of order 7: "a limited Take, with Take's steps and Wait, whose
//! test compares a candidate only with states that are out or have a smaller key".
//! And, to be held against it, the comparisons of Take.

use super::{Graph, Live, Machine, Reply, FOUND, NONE, NO_PATH, OPEN, OUT};
use std::iter::successors;

/// A limited Take's reply, and how many comparisons it made.
#[derive(Clone, Copy, Debug, PartialEq, Eq)]
pub struct Limited {
    pub comparisons: usize,
    pub reply: Reply,
}

impl Machine {
    /// Refused, it reports no comparisons; cut, as many as the limit.
    pub fn take_limited(&mut self, graph: Graph, worker: usize, limit: usize) -> Limited {
        let refused = |number| Limited {
            comparisons: 0,
            reply: Reply::Refused(number),
        };
        if let Some(number) = self.call_refusal(graph, worker) {
            return refused(number);
        }
        if self.held[worker] != NONE {
            return refused(11);
        }
        let live = Live::of(self);
        let board = Board {
            machine: self,
            graph,
            live: live.states(),
        };
        let trial = board.try_candidates();
        if trial.safe.is_none() && live.count > 0 && !live.any_out {
            return refused(12);
        }
        if limit < trial.comparisons {
            return Limited {
                comparisons: limit,
                reply: Reply::Cut(limit as u32),
            };
        }
        Limited {
            comparisons: trial.comparisons,
            reply: self.act(worker, &trial, live.states()),
        }
    }

    /// Steps 1, 2, 3 and 5. Wait names, with something open, the state at which the test
    /// of the smallest-key open state stopped; with nothing open, the lowest-numbered
    /// out state.
    fn act(&mut self, worker: usize, trial: &Trial, live: &[u16]) -> Reply {
        match trial.safe {
            Some(state) if state == self.head.goal => {
                self.phase = FOUND;
                Reply::Found(self.labels[state])
            }
            Some(state) => {
                self.marks[state] = OUT;
                self.held[worker] = state as u16;
                Reply::Took(state as u32)
            }
            None => match trial.foremost_stopped.or(live.first().copied()) {
                Some(state) => Reply::Wait(state),
                None => {
                    self.phase = NO_PATH;
                    Reply::NoPath
                }
            },
        }
    }

    /// How many comparisons the tests of Take make, on a machine on which it isn't
    /// refused: one for each state that a candidate is compared with, by rising number,
    /// all other open and out states up to the first that it depends on. The goal is
    /// tested first if it is open; where it isn't safe, each other open state by rising
    /// number, but for those whose key can't win, since one with a key that isn't greater
    /// was safe. So none is tested twice.
    pub fn take_comparisons(&self, graph: Graph) -> usize {
        let goal = self.head.goal;
        let mut comparisons = 0;
        let mut is_safe = |state: usize| {
            let (safe, count) = self.whole_test(graph, state);
            comparisons += count;
            safe
        };
        if self.marks[goal] == OPEN && is_safe(goal) {
            return comparisons;
        }
        let mut best_key = u64::MAX;
        let open = (0..self.head.n).filter(|&s| self.marks[s] == OPEN);
        for state in open.filter(|&s| s != goal) {
            let key = self.keys[state];
            if key < best_key && is_safe(state) {
                best_key = key;
            }
        }
        comparisons
    }

    /// Whether a state is safe as document 01 tells it, and how many states it was
    /// compared with.
    fn whole_test(&self, graph: Graph, state: usize) -> (bool, usize) {
        let others = (0..self.head.n).filter(|&t| t != state);
        let others = others.filter(|&t| self.marks[t] == OPEN || self.marks[t] == OUT);
        let mut comparisons = 0;
        for t in others {
            comparisons += 1;
            if !self.is_independent(graph, state, t) {
                return (false, comparisons);
            }
        }
        (true, comparisons)
    }
}

/// What the tests of a limited Take came to: the first candidate that is safe, and
/// the state at which the test of the smallest-key open state stopped (lowest number
/// among equal keys), if it was made and stopped.
#[derive(Default)]
struct Trial {
    safe: Option<usize>,
    foremost_stopped: Option<u16>,
    comparisons: usize,
}

/// A machine and its open and out states by rising number.
struct Board<'a> {
    machine: &'a Machine,
    graph: Graph<'a>,
    live: &'a [u16],
}

impl Board<'_> {
    fn is_open(&self, state: usize) -> bool {
        self.machine.marks[state] == OPEN
    }

    /// Tests the candidates up to the first that is safe.
    fn try_candidates(&self) -> Trial {
        let foremost = self.next_after(None);
        let mut trial = Trial::default();
        for candidate in self.candidates() {
            let (stopped, comparisons) = self.test(candidate);
            trial.comparisons += comparisons;
            if foremost == Some(candidate) {
                trial.foremost_stopped = stopped;
            }
            if stopped.is_none() {
                trial.safe = Some(candidate);
                break;
            }
        }
        trial
    }

    /// "the goal first if open, then the other open states by key and number".
    fn candidates(&self) -> impl Iterator<Item = usize> + '_ {
        let goal = self.machine.head.goal;
        let first = Some(goal).filter(|&goal| self.is_open(goal));
        let all = successors(self.next_after(None), move |&s| self.next_after(Some(s)));
        first.into_iter().chain(all.filter(move |&s| s != goal))
    }

    /// The open state that follows another by key and number, or the first of all.
    fn next_after(&self, last: Option<usize>) -> Option<usize> {
        let rank = |state: usize| (self.machine.keys[state], state);
        let open = self.live.iter().map(|&s| usize::from(s));
        let later =
            open.filter(|&s| self.is_open(s) && last.map_or(true, |last| rank(last) < rank(s)));
        later.min_by_key(|&s| rank(s))
    }

    /// The state at which a candidate's test stops, and how many states it was compared
    /// with: "by rising number until a dependence".
    fn test(&self, candidate: usize) -> (Option<u16>, usize) {
        let keys = &self.machine.keys;
        let mut comparisons = 0;
        for &t in self.live {
            let state = usize::from(t);
            if self.is_open(state) && keys[state] >= keys[candidate] {
                continue;
            }
            comparisons += 1;
            if !self.machine.is_independent(self.graph, candidate, state) {
                return (Some(t), comparisons);
            }
        }
        (None, comparisons)
    }
}
