//! What order 5 asks of an opening: "No reply changes".

use crate::desk::{Machine, Reply, Task};

/// Checks that an opening replied as it would after a plain sweep.
pub fn see_opening(task: &Task, reply: Reply) -> Result<(), String> {
    let plain = match Machine::open_plainly(task.head, task.graph()) {
        Ok(_) => Reply::Opened,
        Err(number) => Reply::Refused(number),
    };
    match reply == plain {
        true => Ok(()),
        false => Err(format!("opening gives {reply:?}, a plain sweep {plain:?}")),
    }
}
