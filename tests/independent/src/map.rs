//! The grid maps of order 3: reading a map's text line by line, and the passages
//! and estimates of its task.

use crate::desk::MAX_STATES;

/// The greatest height and width.
const MAX_SIDE: usize = 256;

const STRAIGHT: u32 = 1000;
const DIAGONAL: u32 = 1414;

/// The steps to a cell's neighbours, in rows down and columns to the right: N, NE,
/// E, SE, S, SW, W, NW.
const STEPS: [(isize, isize); 8] = [
    (-1, 0),
    (-1, 1),
    (0, 1),
    (1, 1),
    (1, 0),
    (1, -1),
    (0, -1),
    (-1, -1),
];

/// A cell of the grid; cells are ordered row by row.
#[derive(Clone, Copy, Debug, PartialEq, Eq, PartialOrd, Ord)]
pub struct Cell {
    pub row: usize,
    pub column: usize,
}

impl Cell {
    fn neighbour(self, (down, right): (isize, isize)) -> Option<Cell> {
        Some(Cell {
            row: usize::try_from(self.row as isize + down).ok()?,
            column: usize::try_from(self.column as isize + right).ok()?,
        })
    }
}

/// A map that was read: its open cells, each at its number as a state.
pub struct Map {
    cells: Vec<Cell>,
}

impl Map {
    /// Reads a map's text, or gives the number of the first refusal that applies.
    pub fn read(text: &[u8]) -> Result<Map, u32> {
        let mut lines = text.split_inclusive(|&byte| byte == b'\n');
        let (height, width) = read_header(&mut lines).ok_or(31_u32)?;
        let rows: Option<Vec<_>> = lines.map(|line| read_row(line, width)).collect();
        let rows = rows.filter(|rows| rows.len() == height).ok_or(32_u32)?;
        let cells = open_cells(&rows);
        match cells.len() {
            1..=MAX_STATES => Ok(Map { cells }),
            _ => Err(33),
        }
    }

    /// The count of cells, which are the task's states.
    pub fn cells(&self) -> usize {
        self.cells.len()
    }

    /// Where a state lies.
    pub fn spot(&self, state: usize) -> Option<Cell> {
        self.cells.get(state).copied()
    }

    /// The state of a cell, if that is open.
    pub fn state(&self, cell: Cell) -> Option<usize> {
        self.cells.binary_search(&cell).ok()
    }

    /// From each cell the passages to its neighbours, as (from, to, cost).
    pub fn passages(&self) -> Vec<u32> {
        let mut passages = Vec::new();
        for (from, &cell) in self.cells.iter().enumerate() {
            for step in STEPS {
                if let Some((to, cost)) = self.step(cell, step) {
                    passages.extend([from as u32, to as u32, cost]);
                }
            }
        }
        passages
    }

    /// Where a step from an open cell leads, and its cost; a diagonal goes only
    /// where both cells beside it are open.
    fn step(&self, from: Cell, step: (isize, isize)) -> Option<(usize, u32)> {
        let open = |step| self.state(from.neighbour(step)?);
        let to = open(step)?;
        let (down, right) = step;
        if down == 0 || right == 0 {
            return Some((to, STRAIGHT));
        }
        open((down, 0)).and(open((0, right)))?;
        Some((to, DIAGONAL))
    }

    /// h(a,b) for each a and b, row by row of the table.
    pub fn estimates(&self) -> Vec<u32> {
        let pairs = self
            .cells
            .iter()
            .flat_map(|&a| self.cells.iter().map(move |&b| (a, b)));
        pairs.map(|(a, b)| estimate(a, b)).collect()
    }
}

/// 1,000 times the larger gap and 414 times the smaller: the way without walls.
fn estimate(a: Cell, b: Cell) -> u32 {
    let gaps = [a.row.abs_diff(b.row), a.column.abs_diff(b.column)].map(|gap| gap as u32);
    let [smaller, larger] = [gaps[0].min(gaps[1]), gaps[0].max(gaps[1])];
    STRAIGHT * larger + (DIAGONAL - STRAIGHT) * smaller
}

/// Takes the four lines of the header, if they are that: height and width.
fn read_header<'a>(lines: &mut impl Iterator<Item = &'a [u8]>) -> Option<(usize, usize)> {
    let kind = lines.next()?;
    let height = header_number(lines.next()?, "height ")?;
    let width = header_number(lines.next()?, "width ")?;
    let last = lines.next()?;
    (kind == b"type octile\n" && last == b"map\n").then_some((height, width))
}

/// The number of a header line. It has no leading zero nor sign exactly where it
/// stands there as it would be printed.
fn header_number(line: &[u8], word: &str) -> Option<usize> {
    let line = std::str::from_utf8(line).ok()?;
    let digits = line.strip_prefix(word)?.strip_suffix('\n')?;
    let number: usize = digits.parse().ok()?;
    let fine = (1..=MAX_SIDE).contains(&number) && number.to_string() == digits;
    fine.then_some(number)
}

/// Which cells of a row are open, if it has the right length, line feed and
/// characters.
fn read_row(line: &[u8], width: usize) -> Option<Vec<bool>> {
    let row = line.strip_suffix(b"\n").filter(|row| row.len() == width)?;
    let open = row.iter().map(|cell| match cell {
        b'.' | b'G' => Some(true),
        b'@' | b'O' | b'T' => Some(false),
        _ => None,
    });
    open.collect()
}

fn open_cells(rows: &[Vec<bool>]) -> Vec<Cell> {
    let mut cells = Vec::new();
    for (row, places) in rows.iter().enumerate() {
        for (column, &open) in places.iter().enumerate() {
            if open {
                cells.push(Cell { row, column });
            }
        }
    }
    cells
}
