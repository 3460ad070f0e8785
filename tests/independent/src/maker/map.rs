//! Random maps: their texts, good and damaged, what is lent and asked with them,
//! and the tasks that they come to.

use super::{break_ends, break_weights, head, lent_len, Rng};
use crate::desk::Task;
use crate::map::{Cell, Map};

/// A map's text, whole or damaged.
pub fn map(rng: &mut Rng) -> Vec<u8> {
    let mut lines = good_lines(rng);
    if rng.percent(25) {
        for _ in 0..rng.pick(&[1, 1, 2]) {
            damage_lines(rng, &mut lines);
        }
    }
    let mut text = lines.concat();
    if rng.percent(20) {
        damage_text(rng, &mut text);
    }
    text
}

/// A slice with something in each place for this many numbers, or too short.
pub fn lent(rng: &mut Rng, count: usize) -> Vec<u32> {
    let len = lent_len(rng, count);
    (0..len).map(|_| rng.next() as u32).collect()
}

/// A state to ask for, most often one of this many.
pub fn map_state(rng: &mut Rng, cells: usize) -> usize {
    match rng.percent(70) {
        true => rng.below(cells.max(1)),
        false => rng.pick(&[cells, cells + 1, 255, 256, 65_535, 1 << 32, usize::MAX]),
    }
}

/// A cell to ask for: most often an open one of the map, if there is one, or one
/// that small maps have.
pub fn map_cell(rng: &mut Rng, map: Option<&Map>) -> Cell {
    let side = rng.pick(&[2, 4, 8, 24, 256]);
    let any = Cell {
        row: rng.below(side),
        column: rng.below(side),
    };
    let open = map.and_then(|map| map.spot(rng.below(map.cells())));
    let mut cell = open.filter(|_| rng.percent(70)).unwrap_or(any);
    let beyond = rng.pick(&[1, 8, 256, 1 << 16, 1 << 32, 1 << 63]);
    match rng.below(12) {
        0 => cell.row += beyond,
        1 => cell.column += beyond,
        2 => cell.row = usize::MAX,
        3 => cell.column = usize::MAX,
        _ => {}
    }
    cell
}

/// The task of a map with a head that opening mostly accepts.
pub fn map_task(rng: &mut Rng, cells: usize, passages: Vec<u32>, estimates: Vec<u32>) -> Task {
    let mut head = head(rng, cells);
    match rng.below(20) {
        0 => head.k = rng.pick(&[0, 33, 1 << 32]),
        1 => break_ends(rng, &mut head),
        2 => break_weights(rng, &mut head),
        _ => {}
    }
    Task {
        head,
        passages,
        estimates,
    }
}

// ---- Good maps ----

/// Which cells of a grid are open, row by row.
type Grid = Vec<Vec<bool>>;

/// The lines of a text, each with its line feed; nothing may be wrong with it but
/// the count of open cells, or a side of 257.
fn good_lines(rng: &mut Rng) -> Vec<Vec<u8>> {
    let grid = grid(rng);
    let mut lines = vec![
        b"type octile\n".to_vec(),
        format!("height {}\n", grid.len()).into(),
        format!("width {}\n", grid[0].len()).into(),
        b"map\n".to_vec(),
    ];
    lines.extend(grid.iter().map(|row| painted(rng, row)));
    lines
}

fn painted(rng: &mut Rng, row: &[bool]) -> Vec<u8> {
    let mut line: Vec<u8> = row
        .iter()
        .map(|&open| match open {
            true => rng.pick(b"...G"),
            false => rng.pick(b"@@OT"),
        })
        .collect();
    line.push(b'\n');
    line
}

/// A grid: mostly small; or of medium size, open or nearly so, with about as many
/// cells as are allowed; or one row or column; or large with a room in it.
fn grid(rng: &mut Rng) -> Grid {
    match rng.below(100) {
        0..=84 => {
            let (height, width) = (rng.between(1, 8), rng.between(1, 8));
            scattered(rng, height, width)
        }
        85..=91 => {
            let (height, width) = (rng.between(9, 20), rng.between(9, 20));
            scattered(rng, height, width)
        }
        92..=95 => {
            let length = rng.pick(&[17, 100, 255, 256, 256, 257]);
            let (height, width) = rng.pick(&[(1, length), (length, 1), (2, length)]);
            scattered(rng, height, width)
        }
        _ => room(rng),
    }
}

fn scattered(rng: &mut Rng, height: usize, width: usize) -> Grid {
    let open_percent = rng.pick(&[10, 50, 75, 90, 100]);
    let mut row = || (0..width).map(|_| rng.percent(open_percent)).collect();
    (0..height).map(|_| row()).collect()
}

/// A closed grid with an open room of about as many cells as are allowed, and a
/// few cells changed.
fn room(rng: &mut Rng) -> Grid {
    let any_side = rng.between(40, 256);
    let [height, width] = [0; 2].map(|_| rng.pick(&[40, 255, 256, any_side]));
    let (high, wide) = rng.pick(&[(16, 16), (15, 17), (32, 8), (8, 32), (5, 3), (16, 17)]);
    let (top, left) = (rng.between(0, height - high), rng.between(0, width - wide));
    let mut grid = vec![vec![false; width]; height];
    for row in &mut grid[top..top + high] {
        row[left..left + wide].fill(true);
    }
    for _ in 0..rng.pick(&[0, 0, 1, 2, 40]) {
        let cell = &mut grid[rng.below(height)][rng.below(width)];
        *cell = !*cell;
    }
    grid
}

// ---- Damaged maps ----

/// Changes some of the lines, mostly so that they are no map.
fn damage_lines(rng: &mut Rng, lines: &mut Vec<Vec<u8>>) {
    let last = match lines.len() {
        0 => return,
        len => len - 1,
    };
    let any = rng.between(0, last);
    let header = rng.below(4).min(last);
    let line = rng.pick(&[header, any, last]);
    match rng.below(12) {
        0 => drop(lines.remove(line)),
        1 => lines.insert(line, lines[any].clone()),
        2 => lines.swap(line, any),
        3 | 4 => lines[header] = odd_number(rng, header),
        5 => lines[header] = odd_line(rng),
        6 => end_with(&mut lines[line], b"\r\n"),
        7 => lines.iter_mut().for_each(|line| end_with(line, b"\r\n")),
        8 => end_with(&mut lines[line], b""),
        9 => end_with(&mut lines[line], b"\n\n"),
        10 => end_with(&mut lines[line], b".\n"),
        _ => {
            end_with(&mut lines[line], b"");
            lines[line].pop();
            end_with(&mut lines[line], b"\n");
        }
    }
}

/// Takes a line's own end off and gives it another.
fn end_with(line: &mut Vec<u8>, end: &[u8]) {
    while line.last() == Some(&b'\n') {
        line.pop();
    }
    line.extend(end);
}

/// A height or width, where it stands in the header, that is out of range, or
/// not the map's, or not written as it should be.
fn odd_number(rng: &mut Rng, line: usize) -> Vec<u8> {
    let word = if line <= 1 { "height" } else { "width" };
    let any = rng.between(1, 8).to_string();
    let number = rng.pick(&[
        "0",
        "257",
        "256",
        "01",
        "0256",
        "",
        "-1",
        "+1",
        "1 ",
        " 1",
        "1x",
        "1000",
        "65537",
        "4294967297",
        "18446744073709551617",
        &any,
        &any,
    ]);
    format!("{word} {number}\n").into()
}

/// A line that is none of a header, or at another place.
fn odd_line(rng: &mut Rng) -> Vec<u8> {
    let line = rng.pick(&[
        "type octile",
        "Type octile",
        "type  octile",
        "type octile ",
        "type tile",
        "height",
        "height1",
        "height\t1",
        "Width 1",
        "map",
        "map ",
        "MAP",
        "",
    ]);
    format!("{line}\n").into()
}

/// Changes, drops or doubles a byte, cuts the text off or adds to it.
fn damage_text(rng: &mut Rng, text: &mut Vec<u8>) {
    if text.is_empty() {
        return;
    }
    let place = match rng.percent(40) {
        true => rng.below(text.len().min(40)),
        false => rng.below(text.len()),
    };
    let byte = match rng.percent(80) {
        true => rng.pick(b"\n\r \t01.G@OTSWg\0"),
        false => rng.next() as u8,
    };
    match rng.below(7) {
        0..=2 => text[place] = byte,
        3 => drop(text.remove(place)),
        4 => text.insert(place, text[place]),
        5 => text.truncate(place),
        _ => text.push(byte),
    }
}
