//! Single calls, whole searches with the workers in turn, files and maps: the
//! library against the independent desk.

use crate::inputs::{
    ended_file, faulty_file, map_task, map_text, opened_row, searching_call, searching_file,
    searching_task, spread_row,
};
use crate::timing::{black_box, on_copy, Go};
use independent::demand::files::lengths;
use independent::desk::{Graph, NONE, OUT};
use independent::desks::files::slices;
use independent::maker::file_of;
use independent::rows::{Independent, RowDesk, HELD, MARKS, PHASE, PRINT_ROOM, ROW};
use std::cell::RefCell;
use std::rc::Rc;

/// A name, and what sets up a go of it.
pub struct Workload {
    pub name: &'static str,
    pub set_up: fn() -> Go,
}

pub const WORKLOADS: &[Workload] = &[
    Workload {
        name: "open n=64 m=512",
        set_up: || opening(64, 512),
    },
    Workload {
        name: "open n=256 m=4096",
        set_up: || opening(256, 4096),
    },
    Workload {
        name: "row only (take refused, n=1)",
        set_up: row_only,
    },
    Workload {
        name: "take few open k=1 n=64",
        set_up: || take(64, 256, 1, 4),
    },
    Workload {
        name: "take few open k=32 n=64",
        set_up: || take(64, 256, 32, 4),
    },
    Workload {
        name: "take many open k=1 n=64",
        set_up: || take(64, 256, 1, 64),
    },
    Workload {
        name: "take many open k=32 n=64",
        set_up: || take(64, 256, 32, 64),
    },
    Workload {
        name: "take few open k=1 n=256",
        set_up: || take(256, 1024, 1, 4),
    },
    Workload {
        name: "take few open k=32 n=256",
        set_up: || take(256, 1024, 32, 4),
    },
    Workload {
        name: "take many open k=1 n=256",
        set_up: || take(256, 1024, 1, 256),
    },
    Workload {
        name: "take many open k=32 n=256",
        set_up: || take(256, 1024, 32, 256),
    },
    Workload {
        name: "take many open k=32 n=256 m=4096",
        set_up: || take(256, 4096, 32, 256),
    },
    Workload {
        name: "bring n=64 m=4096",
        set_up: || bring(64, 4096),
    },
    Workload {
        name: "bring n=256 m=4096",
        set_up: || bring(256, 4096),
    },
    Workload {
        name: "path n=256 m=4096",
        set_up: || path(256, 4096),
    },
    Workload {
        name: "run k=1 n=64 m=512",
        set_up: || whole_run(64, 512, 1),
    },
    Workload {
        name: "run k=32 n=64 m=512",
        set_up: || whole_run(64, 512, 32),
    },
    Workload {
        name: "run k=1 n=256 m=4096",
        set_up: || whole_run(256, 4096, 1),
    },
    Workload {
        name: "run k=32 n=256 m=4096",
        set_up: || whole_run(256, 4096, 32),
    },
    Workload {
        name: "print file of 65536, all calls run",
        set_up: || print(searching_file()),
    },
    Workload {
        name: "print file of 65536, fault in last record",
        set_up: || print(faulty_file()),
    },
    Workload {
        name: "print file of 65536, one search k=8",
        set_up: || print(ended_file()),
    },
    Workload {
        name: "read file of 65536 into slices",
        set_up: read_file,
    },
    Workload {
        name: "write file of 65536",
        set_up: write_file,
    },
    Workload {
        name: "map of 16 x 16, all open",
        set_up: || map(16, 16),
    },
    Workload {
        name: "map of 256 x 256, 256 cells open",
        set_up: || map(256, 256),
    },
];

fn opening(n: usize, passages: usize) -> Go {
    let task = map_task(n, passages, 4);
    let row = RefCell::new(vec![0; ROW]);
    Rc::new(move |desk| desk.open(black_box(&task), &mut row.borrow_mut()))
}

/// A call that does nothing but turn the row into a machine and back.
fn row_only() -> Go {
    let task = map_task(1, 0, 1);
    on_copy(opened_row(&task), move |desk, row| {
        desk.take(row, black_box(task.graph()), 1)
    })
}

/// A Take by the last worker, with `open` states open and all other workers out.
fn take(n: usize, passages: usize, k: usize, open: usize) -> Go {
    let task = map_task(n, passages, k);
    on_copy(spread_row(&task, open), move |desk, row| {
        desk.take(row, black_box(task.graph()), k - 1)
    })
}

fn bring(n: usize, passages: usize) -> Go {
    let task = map_task(n, passages, 1);
    let mut row = opened_row(&task);
    row[MARKS + task.head.start] = u32::from(OUT);
    row[HELD] = task.head.start as u32;
    on_copy(row, move |desk, row| {
        desk.bring(row, black_box(task.graph()), 0)
    })
}

/// The path of an ended search, read out.
fn path(n: usize, passages: usize) -> Go {
    let task = map_task(n, passages, 4);
    let mut row = opened_row(&task);
    run_to_end(&Independent, &mut row, task.graph());
    let buffer = RefCell::new(vec![0; n]);
    Rc::new(move |desk| desk.path(black_box(&row), task.graph(), &mut buffer.borrow_mut(), 0))
}

/// All calls of a search, the workers in turn, from the opened machine on.
fn whole_run(n: usize, passages: usize, k: usize) -> Go {
    let task = map_task(n, passages, k);
    on_copy(opened_row(&task), move |desk, row| {
        run_to_end(desk, row, black_box(task.graph()))
    })
}

fn print(file: Vec<u8>) -> Go {
    let out = RefCell::new(vec![0; PRINT_ROOM]);
    Rc::new(move |desk| desk.print(black_box(&file), &mut out.borrow_mut()) as u64)
}

/// A full file, read into slices that are just long enough.
fn read_file() -> Go {
    let file = searching_file();
    let lent = RefCell::new(
        lengths(&file)
            .unwrap_or([8, 0, 0, 0])
            .map(|length| vec![0; length]),
    );
    Rc::new(move |desk| desk.file_read(black_box(&file), slices(&mut lent.borrow_mut())))
}

/// The same file, written again.
fn write_file() -> Go {
    let task = searching_task();
    let bare = file_of(&task, &[]).len();
    let events: Vec<u32> = (0..(65_536 - bare) / 6)
        .map(|number| u32::from(searching_call(number).1))
        .collect();
    let buffer = RefCell::new(vec![0; 65_536]);
    Rc::new(move |desk| desk.file_write(black_box(&task), &events, &mut buffer.borrow_mut()))
}

/// A map with an open room of 16 x 16, read.
fn map(height: usize, width: usize) -> Go {
    let text = map_text(height, width);
    let lent = RefCell::new((vec![0; 3 * 2048], vec![0; 65_536]));
    Rc::new(move |desk| {
        let (passages, estimates) = &mut *lent.borrow_mut();
        desk.map(black_box(text.as_bytes()), passages, estimates)
    })
}

/// The workers in turn, until a call ends the search; gives its reply.
fn run_to_end(desk: &dyn RowDesk, row: &mut [u32], graph: Graph) -> u64 {
    let mut worker = 0;
    loop {
        let reply = match row[HELD + worker] == u32::from(NONE) {
            true => desk.take(row, graph, worker),
            false => desk.bring(row, graph, worker),
        };
        if row[PHASE] != 0 {
            return reply;
        }
        worker = (worker + 1) % row[1] as usize;
    }
}
