//! What order 7 asks of a limited Take: with a limit below the full count "it replies
//! Cut, reports the limit and leaves the machine"; its comparisons are 0 where it is
//! refused; and "On a task that opening accepted and a machine reached from it by
//! calls, it otherwise replies as Take does".

use crate::desk::{Graph, Limited, Reply};
use crate::rows::{self, RowDesk, Shown};

/// A limited Take's arguments, and the row before and after it.
pub struct LimitedTake<'a> {
    pub graph: Graph<'a>,
    pub worker: usize,
    pub limit: usize,
    pub row: [&'a [u32]; 2],
    /// Whether the task was accepted, and calls led to the machine.
    pub reached: bool,
}

/// Checks a limited Take that a desk answered with `limited`, against this desk's
/// without a limit and against its Take.
pub fn see_limited(desk: &dyn RowDesk, limited: Limited, take: &LimitedTake) -> Result<(), String> {
    let mut row = take.row[0].to_vec();
    let code = desk.take_limited(&mut row, take.graph, take.worker, usize::MAX);
    let full = rows::limited(code).ok_or(format!("no reply has code {code:#x}"))?;
    if take.reached {
        see_take(desk, full, &row, take)?;
    }
    if take.limit < full.comparisons {
        return see_cut(limited, take);
    }
    if matches!(limited.reply, Reply::Refused(_)) && limited.comparisons != 0 {
        return Err(format!("refused, but after {}", limited.comparisons));
    }
    match limited == full && row == take.row[1] {
        true => Ok(()),
        false => Err(format!(
            "limited to {}: {limited:?}, not {full:?}",
            take.limit
        )),
    }
}

fn see_cut(limited: Limited, take: &LimitedTake) -> Result<(), String> {
    let is_cut = limited.reply == Reply::Cut(take.limit as u32);
    match is_cut && limited.comparisons == take.limit && take.row[0] == take.row[1] {
        true => Ok(()),
        false => Err(format!("{limited:?}, not a cut at {}", take.limit)),
    }
}

/// Checks that the desk's Take replies as its limited Take without a limit does, and
/// leaves the same machine.
fn see_take(
    desk: &dyn RowDesk,
    full: Limited,
    after: &[u32],
    take: &LimitedTake,
) -> Result<(), String> {
    let mut row = take.row[0].to_vec();
    let code = desk.take(&mut row, take.graph, take.worker);
    match code == rows::code(full.reply) && row == after {
        true => Ok(()),
        false => Err(format!(
            "limited {:?}, but Take {}",
            full.reply,
            Shown(code)
        )),
    }
}
