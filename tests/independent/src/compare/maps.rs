//! The cases of order 3: maps and the tasks that they come to.

use super::{junk, search};
use crate::demand::maps;
use crate::desk::Reply;
use crate::desks::{Checked, Desks};
use crate::maker::{self, Rng};
use crate::map::Map;
use crate::rows::{self, ROW};

/// The most states of a task whose search is run too.
const SEARCHED: usize = 30;

/// A map's text, good or damaged, and slices that may be too short for it.
pub fn map(desks: &mut Desks, rng: &mut Rng) -> Checked<()> {
    let text = maker::map(rng);
    desks.show(|| format!("map {:?}", String::from_utf8_lossy(&text)));
    let map = Map::read(&text).ok();
    let wanted = match &map {
        Some(map) => [map.passages().len(), map.estimates().len()],
        None => [0, 0],
    };
    let [mut passages, mut estimates] = wanted.map(|count| maker::lent(rng, count));
    let read = desks.map(&text, &mut passages, &mut estimates)?;
    ask_spots(desks, rng, &text, map.as_ref())?;
    if let Ok((cells, _)) = rows::map_counts(read) {
        passages.truncate(wanted[0]);
        estimates.truncate(wanted[1]);
        use_task(desks, rng, cells, passages, estimates)?;
    }
    Ok(())
}

/// Where some states lie, and the states of some cells.
fn ask_spots(desks: &mut Desks, rng: &mut Rng, text: &[u8], map: Option<&Map>) -> Checked<()> {
    let cells = map.map_or(0, Map::cells);
    for _ in 0..rng.between(0, 3) {
        let state = maker::map_state(rng, cells);
        desks.map_spot(text, state)?;
        maps::see_spot(desks.checked(), text, cells, state)?;
        let cell = maker::map_cell(rng, map);
        desks.map_state(text, cell)?;
        maps::see_state(desks.checked(), text, cell)?;
    }
    Ok(())
}

/// The task of a good map with a random head: opened, and searched if it is small.
fn use_task(
    desks: &mut Desks,
    rng: &mut Rng,
    cells: usize,
    passages: Vec<u32>,
    estimates: Vec<u32>,
) -> Checked<()> {
    maps::see_mirrors(&passages)?;
    let task = maker::map_task(rng, cells, passages, estimates);
    let reply = desks.open(&task, &mut junk(ROW))?;
    maps::see_opening(reply)?;
    match reply == Reply::Opened && cells <= SEARCHED && rng.percent(30) {
        true => search(desks, rng, &task),
        false => Ok(()),
    }
}
