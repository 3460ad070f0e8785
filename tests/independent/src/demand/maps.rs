//! What order 3 asks of a map beside its numbers: opening refuses its task for none
//! of 4 to 7, each passage has one back, and spots and states are each other's
//! inverse.

use crate::desk::Reply;
use crate::map::Cell;
use crate::rows::{RowDesk, NO_SPOT, NO_STATE};
use std::collections::BTreeSet;

/// Checks what opening replied to a map's task.
pub fn see_opening(reply: Reply) -> Result<(), String> {
    match reply {
        Reply::Refused(4..=7) => Err(format!("opening a map's task gives {reply:?}")),
        _ => Ok(()),
    }
}

/// Checks that each passage has one back at the same cost.
pub fn see_mirrors(passages: &[u32]) -> Result<(), String> {
    let all: BTreeSet<_> = passages
        .chunks_exact(3)
        .map(|p| (p[0], p[1], p[2]))
        .collect();
    match all
        .iter()
        .find(|&&(a, b, cost)| !all.contains(&(b, a, cost)))
    {
        Some((a, b, cost)) => Err(format!("no passage from {b} back to {a} at {cost}")),
        None => Ok(()),
    }
}

/// Checks that a state of a map with this many cells lies at a cell of that state,
/// and that a number past them lies nowhere.
pub fn see_spot(desk: &dyn RowDesk, text: &[u8], cells: usize, state: usize) -> Result<(), String> {
    let spot = desk.map_spot(text, state);
    let is_none = spot == NO_SPOT;
    if is_none != (state >= cells) {
        return Err(format!("state {state} of {cells} lies at {spot:#x}"));
    }
    let Cell { row, column } = cell_at(spot);
    match is_none || desk.map_state(text, row, column) as usize == state {
        true => Ok(()),
        false => Err(format!(
            "state {state} lies at {spot:#x}, which has another"
        )),
    }
}

/// Checks that the state of a cell, if it has one, lies at that cell.
pub fn see_state(desk: &dyn RowDesk, text: &[u8], cell: Cell) -> Result<(), String> {
    let state = desk.map_state(text, cell.row, cell.column);
    match state == NO_STATE || cell_at(desk.map_spot(text, state as usize)) == cell {
        true => Ok(()),
        false => Err(format!("{cell:?} has state {state}, which lies elsewhere")),
    }
}

/// The cell of a spot.
fn cell_at(spot: u32) -> Cell {
    Cell {
        row: spot as usize >> 16,
        column: spot as usize & 65_535,
    }
}
