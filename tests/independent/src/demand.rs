//! What demand 3 asks of the calls on a task that opening accepted, checked
//! with an own Dijkstra: no state is dealt twice; a found path is a chain of the
//! task's passages from start to goal that adds up to its cost, and 100 * cost is
//! at most E * shortest; NoPath is given only where there is no route. A blocked
//! passage is no part of any route, and no label comes by one (order 4).
//!
//! And what document 02 asks on any machine: of a Wait (order 1), checked with own
//! sums, that it names the state that is waited for; of a morning (order 2) that
//! it leaves what as many single calls to the same desk leave. What order 3 asks
//! is in `maps`, what order 5 asks in `opening`, what order 6 asks in `files`, what
//! order 7 asks in `limited`, what order 8 asks in `keys`; demand 3 includes the
//! limited Take.

use crate::desk::{is_blocked, Graph, Machine, Reply, Task, MAX_STATES, NONE, OPEN, OUT};
use crate::morning::Event;
use crate::rows::{self, RowDesk, Shown, VIAS};

pub mod files;
pub mod keys;
pub mod limited;
pub mod maps;
pub mod opening;

/// Follows the replies to one task's calls.
pub struct Watch<'a> {
    task: &'a Task,
    shortest: Option<u64>,
    dealt: [bool; MAX_STATES],
}

impl<'a> Watch<'a> {
    pub fn new(task: &'a Task) -> Watch<'a> {
        Watch {
            task,
            shortest: shortest(task),
            dealt: [false; MAX_STATES],
        }
    }

    /// Takes in a reply of Take, limited Take, Bring or a path reading; says what is
    /// wrong with it.
    pub fn see(&mut self, reply: Reply) -> Result<(), String> {
        match reply {
            Reply::Took(state) => self.see_dealt(state as usize),
            Reply::Found(cost) => self.see_found(u64::from(cost)),
            Reply::NoPath => match self.shortest {
                Some(cost) => Err(format!("NoPath, but a route costs {cost}")),
                None => Ok(()),
            },
            Reply::Refused(number @ (8 | 12)) => {
                Err(format!("refusal {number} on a machine reached by calls"))
            }
            _ => Ok(()),
        }
    }

    fn see_dealt(&mut self, state: usize) -> Result<(), String> {
        match self.dealt.get_mut(state) {
            Some(dealt) if !*dealt => {
                *dealt = true;
                Ok(())
            }
            Some(_) => Err(format!("state {state} dealt twice")),
            None => Err(format!("state {state} dealt, which is none")),
        }
    }

    fn see_found(&self, cost: u64) -> Result<(), String> {
        match self.shortest {
            None => Err(format!("Found {cost}, but there is no route")),
            Some(shortest) if cost < shortest => {
                Err(format!("Found {cost}, but the shortest is {shortest}"))
            }
            Some(shortest) if 100 * cost > self.task.head.excess as u64 * shortest => {
                Err(format!("Found {cost}, too far above {shortest}"))
            }
            Some(_) => Ok(()),
        }
    }

    /// Checks that no label of the machine in `row` came by a blocked passage.
    pub fn see_labels(&self, row: &[u32]) -> Result<(), String> {
        let vias = row[VIAS..][..self.task.head.n].iter().enumerate();
        for (state, &number) in vias.filter(|(_, &number)| number != u32::from(NONE)) {
            if self.passage(number).map_or(true, is_blocked) {
                return Err(format!("state {state} came by {number}, blocked or none"));
            }
        }
        Ok(())
    }

    /// Checks the keys of the machine in `row`.
    pub fn see_keys(&self, row: &[u32]) -> Result<(), String> {
        keys::see_reached(row, self.task)
    }

    /// The passage of a number, if there is one.
    fn passage(&self, number: u32) -> Option<&[u32]> {
        self.task.passages.chunks_exact(3).nth(number as usize)
    }

    /// Checks a path read out of the machine in `row` after Found `cost`.
    pub fn see_path(&self, row: &[u32], path: &[u16], cost: u32) -> Result<(), String> {
        let head = &self.task.head;
        let ends = (path.first(), path.last());
        if ends != (Some(&(head.start as u16)), Some(&(head.goal as u16))) {
            return Err(format!("path {path:?} has wrong ends"));
        }
        let mut sum = 0;
        for pair in path.windows(2) {
            sum += self.step_cost(row, pair[0], pair[1])?;
        }
        match sum == u64::from(cost) {
            true => Ok(()),
            false => Err(format!("path {path:?} costs {sum}, not {cost}")),
        }
    }

    /// The cost of the passage that the machine came to `to` by.
    fn step_cost(&self, row: &[u32], from: u16, to: u16) -> Result<u64, String> {
        let number = row[VIAS + usize::from(to)];
        match self.passage(number) {
            Some(p) if p[..2] != [u32::from(from), u32::from(to)] => {
                Err(format!("passage {number} is none from {from} to {to}"))
            }
            Some(p) if is_blocked(p) => Err(format!("passage {number} is blocked")),
            Some(p) => Ok(u64::from(p[2])),
            None => Err(format!("there is no passage {number}")),
        }
    }
}

/// Checks the state that a Wait on the machine in `row` names.
pub fn see_wait(row: &[u32], graph: Graph, named: u16) -> Result<(), String> {
    see_waiting(row, graph, named, &[OPEN, OUT])
}

/// The same of a limited Take. No open state has a smaller key than the one with the
/// smallest, so that this one's test compares it with the out states alone.
pub fn see_limited_wait(row: &[u32], graph: Graph, named: u16) -> Result<(), String> {
    see_waiting(row, graph, named, &[OUT])
}

fn see_waiting(row: &[u32], graph: Graph, named: u16, compared: &[u8]) -> Result<(), String> {
    let machine = rows::decode(row).ok_or("Wait on a row that holds no machine")?;
    let waiting = Waiting {
        machine,
        estimates: graph.estimates,
        compared,
    };
    let named = usize::from(named);
    waiting
        .check(named)
        .map_err(|fault| format!("Wait {named}, {fault}"))
}

/// A machine that a call was told to wait on, with the lent estimates, and the marks
/// of the states that the open state with the smallest key is compared with.
struct Waiting<'a> {
    machine: Machine,
    estimates: &'a [u32],
    compared: &'a [u8],
}

impl Waiting<'_> {
    fn check(&self, named: usize) -> Result<(), String> {
        if self.marked(self.compared).all(|s| s != named) {
            return Err(match self.compared {
                [OUT] => "which isn't out".into(),
                _ => "which is neither open nor out".into(),
            });
        }
        let lowest_out = self.marked(&[OUT]).next().ok_or("but nothing is out")?;
        match self.marked(&[OPEN]).min_by_key(|&s| (self.key(s), s)) {
            Some(smallest) => self.check_dependence(smallest, named),
            None if named != lowest_out => Err(format!("but {lowest_out} is out, and none open")),
            None => Ok(()),
        }
    }

    /// The open state with the smallest key depends on the one that is named,
    /// another than itself, and on none that is lower.
    fn check_dependence(&self, smallest: usize, named: usize) -> Result<(), String> {
        if named == smallest {
            return Err("which has the smallest key itself".into());
        }
        if !self.depends(smallest, named) {
            return Err(format!("but {smallest} does not depend on it"));
        }
        let mut lower = self.marked(self.compared).take_while(|&s| s < named);
        match lower.find(|&s| self.depends(smallest, s)) {
            Some(lower) => Err(format!("but {smallest} depends on {lower}")),
            None => Ok(()),
        }
    }

    /// The states with one of these marks, by rising number.
    fn marked<'b>(&'b self, marks: &'b [u8]) -> impl Iterator<Item = usize> + 'b {
        (0..self.machine.head.n).filter(|&s| marks.contains(&self.machine.marks[s]))
    }

    fn key(&self, state: usize) -> u64 {
        let pull = self.machine.head.pull as u64;
        self.hundredfold(state) + pull * self.estimate(state, self.machine.head.goal)
    }

    /// Whether `state` is not independent of `other`; the label subtracted there
    /// is added here on the other side.
    fn depends(&self, state: usize, other: usize) -> bool {
        let excess = self.machine.head.excess as u64;
        self.hundredfold(state) > self.hundredfold(other) + excess * self.estimate(other, state)
    }

    /// 100 * label.
    fn hundredfold(&self, state: usize) -> u64 {
        100 * u64::from(self.machine.labels[state])
    }

    fn estimate(&self, from: usize, to: usize) -> u64 {
        u64::from(self.estimates[from * self.machine.head.n + to])
    }
}

/// A morning's list, and what it was lent to write to, before and after it.
pub struct Morning<'a> {
    pub graph: Graph<'a>,
    pub events: &'a [u32],
    pub row: [&'a [u32]; 2],
    pub replies: [&'a [u64]; 2],
}

/// Checks a morning that a desk answered with `reply`: once done it has left the
/// replies and the machine of as many single calls to this desk, and the places
/// past the last event as they were; refused, it has left everything so.
pub fn see_morning(desk: &dyn RowDesk, reply: Reply, morning: &Morning) -> Result<(), String> {
    let mut row = morning.row[0].to_vec();
    let mut replies = morning.replies[0].to_vec();
    if reply == Reply::Done {
        serve_singly(desk, morning, &mut row, &mut replies)?;
    }
    let mut pairs = replies.iter().zip(morning.replies[1]).enumerate();
    if let Some((place, (&singly, &left))) = pairs.find(|(_, (singly, left))| singly != left) {
        let (left, singly) = (Shown(left), Shown(singly));
        return Err(format!("morning leaves reply {place} {left}, not {singly}"));
    }
    match row == morning.row[1] {
        true => Ok(()),
        false => Err("morning leaves another machine than single calls".into()),
    }
}

/// Makes a morning's calls singly, and writes the replies one after the other.
fn serve_singly(
    desk: &dyn RowDesk,
    morning: &Morning,
    row: &mut [u32],
    replies: &mut [u64],
) -> Result<(), String> {
    for (number, &event) in morning.events.iter().enumerate() {
        let fault = || format!("morning done, but not its event {number}, {event:#x}");
        let place = replies.get_mut(number).ok_or_else(fault)?;
        let event = Event::of(event).ok_or_else(fault)?;
        *place = desk.call(event.action, row, morning.graph, event.worker.into());
    }
    Ok(())
}

/// The cost of a cheapest route, if there is a route (Dijkstra); blocked passages
/// are no part of one.
pub fn shortest(task: &Task) -> Option<u64> {
    let mut distance = vec![u64::MAX; task.head.n];
    let mut done = vec![false; task.head.n];
    distance[task.head.start] = 0;
    loop {
        let waiting = (0..task.head.n).filter(|&s| !done[s] && distance[s] != u64::MAX);
        let nearest = waiting.min_by_key(|&s| distance[s])?;
        if nearest == task.head.goal {
            return Some(distance[nearest]);
        }
        done[nearest] = true;
        let base = distance[nearest];
        for p in task
            .passages
            .chunks_exact(3)
            .filter(|p| p[0] as usize == nearest && !is_blocked(p))
        {
            let far = &mut distance[p[1] as usize];
            *far = (*far).min(base + u64::from(p[2]));
        }
    }
}
