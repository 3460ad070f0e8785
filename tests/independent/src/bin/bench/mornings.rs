//! Mornings, and the same calls made singly.

use crate::expect_fit;
use crate::growth::Size;
use crate::inputs::{ended_call, ended_task, opened_row, searching_call, searching_task};
use crate::timing::{black_box, on_copy, Go};
use independent::desk::{Action, Graph, Reply, Task};
use independent::desks::{Checked, Desks};
use independent::morning::Event;
use independent::rows::RowDesk;
use std::cell::RefCell;

/// A name, and the list of events that has it.
pub struct Morning {
    pub name: &'static str,
    list: fn() -> Checked<List>,
}

pub const MORNINGS: &[Morning] = &[
    Morning {
        name: "morning of 7000, all calls run",
        list: || Ok(List::of(searching_task(), searching_call)),
    },
    Morning {
        name: "morning of 7000, one search k=8",
        list: || Ok(List::of(ended_task(), ended_call)),
    },
    Morning {
        name: "morning of a search n=256 m=4096 k=1",
        list: || large_search(1),
    },
    Morning {
        name: "morning of a search n=256 m=4096 k=8",
        list: || large_search(8),
    },
    Morning {
        name: "morning of a search n=256 m=4096 k=32",
        list: || large_search(32),
    },
];

impl Morning {
    /// The list, once both desks have served it with the same replies and machines,
    /// in one call and singly.
    pub fn list(&self) -> Checked<List> {
        let list = (self.list)()?;
        list.check()
            .map_err(|fault| format!("{}: {fault}", self.name))?;
        Ok(list)
    }
}

/// The calls of the largest search by rounds.
fn large_search(k: usize) -> Checked<List> {
    let size = Size {
        n: 256,
        passages: 4096,
        k,
    };
    let search = size.search()?;
    Ok(List {
        task: search.task,
        events: search.events,
    })
}

/// A task, and the calls that are made from its opening on.
pub struct List {
    task: Task,
    pub events: Vec<Event>,
}

impl List {
    /// A list of 7,000 calls.
    fn of(task: Task, call: fn(usize) -> (Action, u8)) -> List {
        let events = (0..7000).map(call).map(|(action, worker)| Event {
            action,
            worker: worker.into(),
        });
        List {
            task,
            events: events.collect(),
        }
    }

    fn numbers(&self) -> Vec<u32> {
        self.events.iter().map(|event| event.number()).collect()
    }

    fn check(&self) -> Checked<()> {
        let mut desks = Desks::new(independent::library(), false);
        let mut row = opened_row(&self.task);
        let mut replies = vec![0; self.events.len()];
        let graph = self.task.graph();
        match desks.morning(&mut row, graph, &self.numbers(), &mut replies)? {
            Reply::Done => replies
                .iter()
                .try_for_each(|&code| expect_fit("event", code)),
            reply => Err(format!("{reply:?}")),
        }
    }

    /// A morning on the opened machine.
    pub fn morning(&self) -> Go {
        let numbers = self.numbers();
        self.serve(move |desk, row, graph, replies| {
            desk.morning(row, graph, black_box(&numbers), replies);
        })
    }

    /// The same calls made singly, with the same row for their replies.
    pub fn singly(&self) -> Go {
        let events = self.events.clone();
        self.serve(move |desk, row, graph, replies| {
            for (event, place) in black_box(&events).iter().zip(replies) {
                *place = desk.call(event.action, row, graph, event.worker.into());
            }
        })
    }

    /// A go that writes a reply for each event; gives the last one.
    fn serve(&self, go: impl Fn(&dyn RowDesk, &mut [u32], Graph, &mut [u64]) + 'static) -> Go {
        let task = self.task.clone();
        let replies = RefCell::new(vec![0; self.events.len()]);
        on_copy(opened_row(&task), move |desk, row| {
            let mut replies = replies.borrow_mut();
            go(desk, row, black_box(task.graph()), &mut replies);
            replies[replies.len() - 1]
        })
    }
}
