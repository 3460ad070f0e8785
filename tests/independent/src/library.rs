//! The proved desk's C interface, behind `RowDesk`. The only unsafe code here:
//! each function hands the library a pointer and the length of one slice.

use crate::desk::{Graph, Task};
use crate::rows::RowDesk;
use crate::taskfile::Lent;

extern "C" {
    fn desk_open(
        n: usize,
        k: usize,
        start: usize,
        goal: usize,
        pull: usize,
        excess: usize,
        passages: *const u32,
        passages_len: usize,
        estimates: *const u32,
        estimates_len: usize,
        machine: *mut u32,
        machine_len: usize,
    ) -> u64;

    fn desk_take(
        machine: *mut u32,
        machine_len: usize,
        passages: *const u32,
        passages_len: usize,
        estimates: *const u32,
        estimates_len: usize,
        worker: usize,
    ) -> u64;

    fn desk_take_limited(
        machine: *mut u32,
        machine_len: usize,
        passages: *const u32,
        passages_len: usize,
        estimates: *const u32,
        estimates_len: usize,
        worker: usize,
        limit: usize,
    ) -> u64;

    fn desk_bring(
        machine: *mut u32,
        machine_len: usize,
        passages: *const u32,
        passages_len: usize,
        estimates: *const u32,
        estimates_len: usize,
        worker: usize,
    ) -> u64;

    fn desk_path(
        machine: *const u32,
        machine_len: usize,
        passages: *const u32,
        passages_len: usize,
        estimates: *const u32,
        estimates_len: usize,
        buffer: *mut u16,
        buffer_len: usize,
        at: usize,
    ) -> u64;

    fn desk_morning(
        machine: *mut u32,
        machine_len: usize,
        passages: *const u32,
        passages_len: usize,
        estimates: *const u32,
        estimates_len: usize,
        events: *const u32,
        events_len: usize,
        replies: *mut u64,
        replies_len: usize,
    ) -> u64;

    fn desk_map(
        text: *const u8,
        text_len: usize,
        passages: *mut u32,
        passages_len: usize,
        estimates: *mut u32,
        estimates_len: usize,
    ) -> u64;

    fn desk_map_spot(text: *const u8, text_len: usize, state: usize) -> u32;

    fn desk_map_state(text: *const u8, text_len: usize, row: usize, column: usize) -> u32;

    fn desk_print(file: *const u8, file_len: usize, out: *mut u8, out_len: usize) -> usize;

    fn desk_file_write(
        n: usize,
        k: usize,
        start: usize,
        goal: usize,
        pull: usize,
        excess: usize,
        passages: *const u32,
        passages_len: usize,
        estimates: *const u32,
        estimates_len: usize,
        events: *const u32,
        events_len: usize,
        buffer: *mut u8,
        buffer_len: usize,
    ) -> u64;

    fn desk_file_read(
        file: *const u8,
        file_len: usize,
        numbers: *mut u32,
        numbers_len: usize,
        passages: *mut u32,
        passages_len: usize,
        estimates: *mut u32,
        estimates_len: usize,
        events: *mut u32,
        events_len: usize,
    ) -> u64;
}

/// The linked library.
pub struct Library;

impl RowDesk for Library {
    fn open(&self, task: &Task, row: &mut [u32]) -> u64 {
        let (head, graph) = (&task.head, task.graph());
        // SAFETY: each pointer goes with the length of the slice it comes from.
        unsafe {
            desk_open(
                head.n,
                head.k,
                head.start,
                head.goal,
                head.pull,
                head.excess,
                graph.passages.as_ptr(),
                graph.passages.len(),
                graph.estimates.as_ptr(),
                graph.estimates.len(),
                row.as_mut_ptr(),
                row.len(),
            )
        }
    }

    fn take(&self, row: &mut [u32], graph: Graph, worker: usize) -> u64 {
        // SAFETY: each pointer goes with the length of the slice it comes from.
        unsafe {
            desk_take(
                row.as_mut_ptr(),
                row.len(),
                graph.passages.as_ptr(),
                graph.passages.len(),
                graph.estimates.as_ptr(),
                graph.estimates.len(),
                worker,
            )
        }
    }

    fn take_limited(&self, row: &mut [u32], graph: Graph, worker: usize, limit: usize) -> u64 {
        // SAFETY: each pointer goes with the length of the slice it comes from.
        unsafe {
            desk_take_limited(
                row.as_mut_ptr(),
                row.len(),
                graph.passages.as_ptr(),
                graph.passages.len(),
                graph.estimates.as_ptr(),
                graph.estimates.len(),
                worker,
                limit,
            )
        }
    }

    fn bring(&self, row: &mut [u32], graph: Graph, worker: usize) -> u64 {
        // SAFETY: each pointer goes with the length of the slice it comes from.
        unsafe {
            desk_bring(
                row.as_mut_ptr(),
                row.len(),
                graph.passages.as_ptr(),
                graph.passages.len(),
                graph.estimates.as_ptr(),
                graph.estimates.len(),
                worker,
            )
        }
    }

    fn path(&self, row: &[u32], graph: Graph, buffer: &mut [u16], at: usize) -> u64 {
        // SAFETY: each pointer goes with the length of the slice it comes from.
        unsafe {
            desk_path(
                row.as_ptr(),
                row.len(),
                graph.passages.as_ptr(),
                graph.passages.len(),
                graph.estimates.as_ptr(),
                graph.estimates.len(),
                buffer.as_mut_ptr(),
                buffer.len(),
                at,
            )
        }
    }

    fn morning(&self, row: &mut [u32], graph: Graph, events: &[u32], replies: &mut [u64]) -> u64 {
        // SAFETY: each pointer goes with the length of the slice it comes from.
        unsafe {
            desk_morning(
                row.as_mut_ptr(),
                row.len(),
                graph.passages.as_ptr(),
                graph.passages.len(),
                graph.estimates.as_ptr(),
                graph.estimates.len(),
                events.as_ptr(),
                events.len(),
                replies.as_mut_ptr(),
                replies.len(),
            )
        }
    }

    fn map(&self, text: &[u8], passages: &mut [u32], estimates: &mut [u32]) -> u64 {
        // SAFETY: each pointer goes with the length of the slice it comes from.
        unsafe {
            desk_map(
                text.as_ptr(),
                text.len(),
                passages.as_mut_ptr(),
                passages.len(),
                estimates.as_mut_ptr(),
                estimates.len(),
            )
        }
    }

    fn map_spot(&self, text: &[u8], state: usize) -> u32 {
        // SAFETY: each pointer goes with the length of the slice it comes from.
        unsafe { desk_map_spot(text.as_ptr(), text.len(), state) }
    }

    fn map_state(&self, text: &[u8], row: usize, column: usize) -> u32 {
        // SAFETY: each pointer goes with the length of the slice it comes from.
        unsafe { desk_map_state(text.as_ptr(), text.len(), row, column) }
    }

    fn print(&self, file: &[u8], out: &mut [u8]) -> usize {
        // SAFETY: each pointer goes with the length of the slice it comes from.
        unsafe { desk_print(file.as_ptr(), file.len(), out.as_mut_ptr(), out.len()) }
    }

    fn file_write(&self, task: &Task, events: &[u32], buffer: &mut [u8]) -> u64 {
        let (head, graph) = (&task.head, task.graph());
        // SAFETY: each pointer goes with the length of the slice it comes from.
        unsafe {
            desk_file_write(
                head.n,
                head.k,
                head.start,
                head.goal,
                head.pull,
                head.excess,
                graph.passages.as_ptr(),
                graph.passages.len(),
                graph.estimates.as_ptr(),
                graph.estimates.len(),
                events.as_ptr(),
                events.len(),
                buffer.as_mut_ptr(),
                buffer.len(),
            )
        }
    }

    fn file_read(&self, file: &[u8], lent: Lent) -> u64 {
        let [numbers, passages, estimates, events] = lent;
        // SAFETY: each pointer goes with the length of the slice it comes from.
        unsafe {
            desk_file_read(
                file.as_ptr(),
                file.len(),
                numbers.as_mut_ptr(),
                numbers.len(),
                passages.as_mut_ptr(),
                passages.len(),
                estimates.as_mut_ptr(),
                estimates.len(),
                events.as_mut_ptr(),
                events.len(),
            )
        }
    }
}
