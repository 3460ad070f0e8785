//! Order 3: maps, and what would be wrong with one. The sentences of the order
//! themselves are among the documents' runs.

use super::*;
use crate::demand::maps::{see_mirrors, see_opening, see_spot, see_state};
use crate::map::{Cell, Map};
use crate::samples::check_maps;
use std::fs;
use std::path::{Path, PathBuf};

/// Which cells of a good text are open, row by row.
fn open_grid(text: &[u8]) -> Vec<Vec<bool>> {
    let rows = text.split(|&byte| byte == b'\n').skip(4);
    let open = |row: &[u8]| row.iter().map(|cell| b".G".contains(cell)).collect();
    rows.map(open).collect()
}

/// The passages of a map as order 3 words them, from all pairs of cells.
fn literal_passages(grid: &[Vec<bool>], cells: &[Cell]) -> Vec<u32> {
    let order = ["N", "NE", "E", "SE", "S", "SW", "W", "NW"];
    let mut passages = Vec::new();
    for (from, a) in cells.iter().enumerate() {
        for wanted in order {
            for (to, b) in cells.iter().enumerate() {
                let up_or_down = match b.row as i64 - a.row as i64 {
                    -1 => "N",
                    0 => "",
                    1 => "S",
                    _ => continue,
                };
                let left_or_right = match b.column as i64 - a.column as i64 {
                    -1 => "W",
                    0 => "",
                    1 => "E",
                    _ => continue,
                };
                let direction = format!("{up_or_down}{left_or_right}");
                let beside_open = grid[a.row][b.column] && grid[b.row][a.column];
                if direction == wanted && beside_open {
                    let cost = if direction.len() == 2 { 1414 } else { 1000 };
                    passages.extend([from as u32, to as u32, cost]);
                }
            }
        }
    }
    passages
}

#[test]
fn passages_are_the_literal_ones() {
    let mut with_diagonals = 0;
    for case in 0..400 {
        let text = maker::map(&mut Rng::new(12, case));
        let map = match Map::read(&text) {
            Ok(map) => map,
            Err(_) => continue,
        };
        let cells: Vec<_> = (0..map.cells())
            .filter_map(|state| map.spot(state))
            .collect();
        if cells.len() <= 40 {
            let wanted = literal_passages(&open_grid(&text), &cells);
            assert_eq!(map.passages(), wanted, "case {case}");
            with_diagonals += u32::from(wanted.contains(&1414));
        }
    }
    assert!(with_diagonals > 20, "only {with_diagonals} with diagonals");
}

/// The comparison sees a library that does anything else with maps than the
/// independent desk.
#[test]
fn comparison_sees_wrong_maps() {
    type Change = fn(&mut [u32], &mut [u32], u64) -> u64;
    let changes: &[Change] = &[
        // Other counts, another refusal.
        |_, _, counts| counts + (counts >> 32).min(1),
        |_, _, counts| counts + ((counts >> 32).min(1) << 32),
        |_, _, counts| counts + u64::from(counts == 31),
        |_, _, counts| counts + u64::from(counts == 34),
        // Another cost, another estimate.
        |passages, _, counts| {
            if counts > 34 && counts as u32 > 0 {
                passages[2] ^= 1;
            }
            counts
        },
        |_, estimates, counts| {
            if counts > 34 {
                estimates[0] = 1;
            }
            counts
        },
        // Something written behind, or though the text was refused.
        |passages, _, counts| {
            let behind = 3 * counts as u32 as usize;
            if let (true, Some(place)) = (counts > 34, passages.get_mut(behind)) {
                *place ^= 1;
            }
            counts
        },
        |_, estimates, counts| {
            if let (true, Some(place)) = (counts <= 34, estimates.first_mut()) {
                *place = 0;
            }
            counts
        },
    ];
    let mut wrongs: Vec<_> = changes.iter().map(|&map| Wrong { map, ..RIGHT }).collect();
    wrongs.push(Wrong {
        map_spot: |spot| spot ^ 1,
        ..RIGHT
    });
    wrongs.push(Wrong {
        map_state: |state| state / 2,
        ..RIGHT
    });
    for (line, wrong) in wrongs.iter().enumerate() {
        let (differences, _) = count_differences(Some(wrong), 400);
        assert!(differences > 0, "line {line} is not seen");
    }
}

const SQUARE: &[u8] = b"type octile\nheight 2\nwidth 2\nmap\n@.\n..\n";

#[test]
fn what_order_3_catches_in_a_task() {
    assert_eq!(see_opening(Reply::Opened), Ok(()));
    for number in 1..=8 {
        let caught = see_opening(Reply::Refused(number)).is_err();
        assert_eq!(caught, (4..=7).contains(&number), "refusal {number}");
    }
    assert_eq!(see_mirrors(&[]), Ok(()));
    assert_eq!(see_mirrors(&[0, 1, 1000, 1, 0, 1000]), Ok(()));
    assert!(see_mirrors(&[0, 1, 1000]).is_err());
    assert!(see_mirrors(&[0, 1, 1000, 1, 0, 1414]).is_err());
}

#[test]
fn what_order_3_catches_in_spots() {
    let cell = Cell { row: 1, column: 0 };
    for state in [0, 2, 3, usize::MAX] {
        assert_eq!(see_spot(&Independent, SQUARE, 3, state), Ok(()));
    }
    assert_eq!(see_state(&Independent, SQUARE, cell), Ok(()));
    assert_eq!(
        see_state(&Independent, SQUARE, Cell { row: 0, column: 0 }),
        Ok(())
    );
    // A state too many, and one too few.
    assert!(see_spot(&Independent, SQUARE, 4, 3).is_err());
    assert!(see_spot(&Independent, SQUARE, 2, 2).is_err());
    let other_spot = Wrong {
        map_spot: |spot| spot ^ 1,
        ..RIGHT
    };
    assert!(see_spot(&other_spot, SQUARE, 3, 1).is_err());
    assert!(see_state(&other_spot, SQUARE, cell).is_err());
}

// ---- Samples ----

fn check(folder: &Path) -> (usize, Vec<String>) {
    check_maps(&mut Desks::new(None, false), folder).expect("a folder of maps")
}

#[test]
fn sample_maps_come_to_their_counts() {
    let folder = Path::new(env!("CARGO_MANIFEST_DIR")).join("../../samples/maps");
    let (as_expected, faults) = check(&folder);
    assert_eq!(faults, Vec::<String>::new());
    assert!(as_expected > 20, "only {as_expected} maps");
}

/// A folder for a test, gone afterwards.
struct Folder(PathBuf);

impl Folder {
    fn new(name: &str) -> Folder {
        let name = format!("desk-{name}-{}", std::process::id());
        let path = std::env::temp_dir().join(name);
        fs::create_dir_all(&path).expect("a folder can be made");
        Folder(path)
    }

    fn put(&self, name: &str, contents: &[u8]) {
        fs::write(self.0.join(name), contents).expect("a file can be written");
    }
}

impl Drop for Folder {
    fn drop(&mut self) {
        fs::remove_dir_all(&self.0).expect("the folder can be removed");
    }
}

#[test]
fn samples_that_are_not_as_expected() {
    let folder = Folder::new("maps");
    folder.put("right.map", SQUARE);
    folder.put("right.counts", b"3 4\n");
    folder.put("wrong.map", SQUARE);
    folder.put("wrong.counts", b"3 6\n");
    folder.put("no-counts.map", SQUARE);
    folder.put("no-map.counts", b"3 6\n");
    let (as_expected, faults) = check(&folder.0);
    assert_eq!((as_expected, faults.len()), (1, 2));
    assert!(faults[0].contains("no-counts.map: its counts: "));
    assert!(faults[1].ends_with("wrong.map: is 3 4, not 3 6"));
    let none = folder.0.join("none");
    assert!(check_maps(&mut Desks::new(None, false), &none).is_err());
}
