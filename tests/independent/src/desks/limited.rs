//! Limited Takes of both desks.

use super::{Checked, Desks};
use crate::demand::limited::{see_limited, LimitedTake};
use crate::demand::{keys, see_limited_wait};
use crate::desk::{Graph, Reply};
use crate::rows::{self, RowDesk};

impl Desks<'_> {
    /// A limited Take, held against order 7; `reached` says whether the task was
    /// accepted and calls led to the machine.
    pub fn take_limited(
        &mut self,
        row: &mut [u32],
        graph: Graph,
        worker: usize,
        limit: usize,
        reached: bool,
    ) -> Checked<Reply> {
        self.show(|| format!("Take limited to {limit}, worker {worker}"));
        let before = row.to_vec();
        let none: &mut [u8] = &mut [];
        let call = |desk: &dyn RowDesk, row: &mut [u32], _: &mut [u8]| {
            desk.take_limited(row, graph, worker, limit)
        };
        let code = self.both_lent("limited", rows::show_limited, (row, none), call)?;
        let limited = rows::limited(code).ok_or(format!("limited: no reply has code {code:#x}"))?;
        self.tally.add_reply("limited", limited.reply);
        let take = LimitedTake {
            graph,
            worker,
            limit,
            row: [&before, row],
            reached,
        };
        see_limited(self.checked(), limited, &take)?;
        keys::see_calls(take.row, graph.estimates, &[limited.reply])?;
        if let Reply::Wait(state) = limited.reply {
            see_limited_wait(row, graph, state)?;
        }
        Ok(limited.reply)
    }
}
