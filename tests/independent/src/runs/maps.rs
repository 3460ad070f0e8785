//! Runs of order 3's sentences, on maps that are small enough to be worked out by
//! hand.

use super::Run;
use crate::rows::{self, RowDesk, NO_SPOT, NO_STATE};

pub const RUNS: &[Run] = &[
    Run {
        name: "order 3: a room of 2 x 2",
        check: |desk| {
            let passages = [
                [0, 1, 1000],
                [0, 3, 1414],
                [0, 2, 1000],
                [1, 3, 1000],
                [1, 2, 1414],
                [1, 0, 1000],
                [2, 0, 1000],
                [2, 1, 1414],
                [2, 3, 1000],
                [3, 1, 1000],
                [3, 2, 1000],
                [3, 0, 1414],
            ];
            let estimates = [
                [0, 1000, 1000, 1414],
                [1000, 0, 1414, 1000],
                [1000, 1414, 0, 1000],
                [1414, 1000, 1000, 0],
            ];
            let text = map_text(&["..", ".."]);
            expect_map(desk, &text, 4, &passages.concat(), &estimates.concat())
        },
    },
    Run {
        name: "order 3: the eight neighbours in their order",
        check: |desk| {
            let text = map_text(&["...", "...", "..."]);
            let (read, passages, _) = read_map(desk, &text, 120, 81);
            let from_middle: Vec<_> = passages.chunks(3).filter(|p| p[0] == 4).collect();
            let wanted = [
                [4, 1, 1000],
                [4, 2, 1414],
                [4, 5, 1000],
                [4, 8, 1414],
                [4, 7, 1000],
                [4, 6, 1414],
                [4, 3, 1000],
                [4, 0, 1414],
            ];
            match read == counts(9, 40) && from_middle == wanted {
                true => Ok(()),
                false => Err(format!("{}, {from_middle:?}", rows::show_map(read))),
            }
        },
    },
    Run {
        name: "order 3: a diagonal only where both cells beside it are open",
        check: |desk| {
            for (rows, passages) in [
                ([".@", "@."], &[][..]),
                (["@.", ".@"], &[]),
                (
                    [".@", ".."],
                    &[0, 1, 1000, 1, 0, 1000, 1, 2, 1000, 2, 1, 1000],
                ),
                (
                    ["@.", ".."],
                    &[0, 2, 1000, 1, 2, 1000, 2, 0, 1000, 2, 1, 1000],
                ),
                (
                    ["..", "@."],
                    &[0, 1, 1000, 1, 2, 1000, 1, 0, 1000, 2, 1, 1000],
                ),
                (
                    ["..", ".@"],
                    &[0, 1, 1000, 0, 2, 1000, 1, 0, 1000, 2, 0, 1000],
                ),
            ] {
                let (read, written, _) = read_map(desk, &map_text(&rows), passages.len(), 9);
                if rows::map_counts(read).map(|(_, count)| 3 * count) != Ok(passages.len())
                    || written != passages
                {
                    return Err(format!("{rows:?}: {}, {written:?}", rows::show_map(read)));
                }
            }
            Ok(())
        },
    },
    Run {
        name: "order 3: estimates by both gaps",
        check: |desk| {
            let text = map_text(&["@@@.@@", "@@@@@@", "@@@@@@", ".@@@@.", "@@@@@@"]);
            let estimates = [
                [0, 1000 * 3 + 414 * 3, 1000 * 3 + 414 * 2],
                [1000 * 3 + 414 * 3, 0, 1000 * 5],
                [1000 * 3 + 414 * 2, 1000 * 5, 0],
            ];
            expect_map(desk, &text, 3, &[], &estimates.concat())
        },
    },
    Run {
        name: "order 3: `.` and `G` are open, `@`, `O` and `T` closed",
        check: |desk| {
            let passages = [0, 1, 1000, 1, 0, 1000];
            let estimates = [0, 1000, 1000, 0];
            expect_map(desk, &map_text(&["@OT.G"]), 2, &passages, &estimates)
        },
    },
    Run {
        name: "order 3: refusals 31 to 33, in order",
        check: |desk| {
            let open = ".".repeat(256);
            for (number, text) in [
                (31, b"".to_vec()),
                (31, b"type octile".to_vec()),
                (31, b"type octile\nheight 1\nwidth 1\nmap".to_vec()),
                (31, b"type octile\nwidth 1\nheight 1\nmap\n.\n".to_vec()),
                (31, headed("type octile\r", "1", "1", ".\n")),
                (31, headed("Type octile", "1", "1", ".\n")),
                (31, headed("type octile", "0", "1", "")),
                (31, headed("type octile", "01", "1", ".\n")),
                (31, headed("type octile", "257", "1", &".\n".repeat(257))),
                (31, headed("type octile", " 1", "1", ".\n")),
                (31, headed("type octile", "1", "", "\n")),
                (31, headed("type octile", "1", "1 ", ".\n")),
                (31, headed("type octile", "1", "+1", ".\n")),
                (31, headed("type octile", "1", "257", &format!("{open}.\n"))),
                (32, headed("type octile", "1", "1", "")),
                (32, headed("type octile", "1", "1", ".")),
                (32, headed("type octile", "1", "1", ".\n.\n")),
                (32, headed("type octile", "1", "1", ".\n\n")),
                (32, headed("type octile", "2", "1", ".\n")),
                (32, headed("type octile", "1", "1", "..\n")),
                (32, headed("type octile", "1", "2", ".\n")),
                (32, headed("type octile", "1", "2", ".\r\n")),
                (32, headed("type octile", "1", "1", "S\n")),
                (
                    32,
                    headed("type octile", "2", "256", &format!("{open}\n{open}")),
                ),
                (32, headed("type octile", "1", "2", "@")),
                (33, headed("type octile", "2", "2", "@O\nT@\n")),
                (
                    33,
                    headed(
                        "type octile",
                        "2",
                        "256",
                        &format!("{open}\n.{}\n", "@".repeat(255)),
                    ),
                ),
            ] {
                expect_refused(desk, &text, number)?;
            }
            Ok(())
        },
    },
    Run {
        name: "order 3: 34 where a slice is too short, 256 open cells pass",
        check: |desk| {
            let row = map_text(&[&".".repeat(256)]);
            for (passages, estimates, wanted) in [
                (3 * 510, 65_536, counts(256, 510)),
                (3 * 510 - 1, 65_536, 34),
                (3 * 510, 65_535, 34),
                (0, 0, 34),
            ] {
                let (read, ..) = read_map(desk, &row, passages, estimates);
                if read != wanted {
                    return Err(format!(
                        "{passages} and {estimates}: {}",
                        rows::show_map(read)
                    ));
                }
            }
            expect_refused(desk, &row, 34)?;
            expect_map(desk, &map_text(&["G"]), 1, &[], &[0])
        },
    },
    Run {
        name: "order 3: where states lie",
        check: |desk| {
            let text = map_text(&["@.", ".."]);
            let spots = [0, 1, 2, 3, 65_536, usize::MAX].map(|state| desk.map_spot(&text, state));
            let wanted = [1, 65_536, 65_537, NO_SPOT, NO_SPOT, NO_SPOT];
            let cells = [
                (0, 0),
                (0, 1),
                (1, 0),
                (1, 1),
                (0, 2),
                (2, 0),
                (0, 65_537),
                (usize::MAX, 1),
            ];
            let states = cells.map(|(row, column)| desk.map_state(&text, row, column));
            let no = NO_STATE;
            match spots == wanted && states == [no, 0, 1, 2, no, no, no, no] {
                true => Ok(()),
                false => Err(format!("spots {spots:x?}, states {states:?}")),
            }
        },
    },
    Run {
        name: "order 3: a text that is no map has no states",
        check: |desk| {
            for text in [
                &b""[..],
                &headed("type octile", "1", "1", "S\n"),
                &map_text(&["@"]),
            ] {
                let (spot, state) = (desk.map_spot(text, 0), desk.map_state(text, 0, 0));
                if (spot, state) != (NO_SPOT, NO_STATE) {
                    return Err(format!("{text:?} has {spot:#x} and {state}"));
                }
            }
            Ok(())
        },
    },
];

/// The text of a map of these rows.
fn map_text(rows: &[&str]) -> Vec<u8> {
    let lines: String = rows.iter().map(|row| format!("{row}\n")).collect();
    let [height, width] = [rows.len(), rows[0].len()].map(|side| side.to_string());
    headed("type octile", &height, &width, &lines)
}

/// A text with a header of these parts.
fn headed(kind: &str, height: &str, width: &str, rows: &str) -> Vec<u8> {
    format!("{kind}\nheight {height}\nwidth {width}\nmap\n{rows}").into()
}

fn counts(cells: u64, passages: u64) -> u64 {
    cells << 32 | passages
}

/// What stands in the places of a lent slice.
const LENT: u32 = 9;

/// A map read into slices of these lengths: what that gives, and the slices.
fn read_map(
    desk: &dyn RowDesk,
    text: &[u8],
    passages: usize,
    estimates: usize,
) -> (u64, Vec<u32>, Vec<u32>) {
    let (mut passages, mut estimates) = (vec![LENT; passages], vec![LENT; estimates]);
    let read = desk.map(text, &mut passages, &mut estimates);
    (read, passages, estimates)
}

/// A map comes to these passages and estimates; two places past each stay.
fn expect_map(
    desk: &dyn RowDesk,
    text: &[u8],
    cells: u64,
    passages: &[u32],
    estimates: &[u32],
) -> Result<(), String> {
    let stays = |numbers: &[u32]| [numbers, &[LENT; 2]].concat();
    let got = read_map(desk, text, passages.len() + 2, estimates.len() + 2);
    let wanted = counts(cells, passages.len() as u64 / 3);
    match got == (wanted, stays(passages), stays(estimates)) {
        true => Ok(()),
        false => Err(format!(
            "{}, {:?}, {:?}",
            rows::show_map(got.0),
            got.1,
            got.2
        )),
    }
}

/// A text is refused with this number, into slices of a few places that stay.
fn expect_refused(desk: &dyn RowDesk, text: &[u8], number: u64) -> Result<(), String> {
    let got = read_map(desk, text, 4, 4);
    match got == (number, vec![LENT; 4], vec![LENT; 4]) {
        true => Ok(()),
        false => Err(format!(
            "{:?} is {}, not {number}",
            String::from_utf8_lossy(text),
            rows::show_map(got.0)
        )),
    }
}
