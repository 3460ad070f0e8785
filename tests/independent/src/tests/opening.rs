//! Order 5: the sweeps of check 7, their counts, and tables that show a sweep which
//! passes over too much. The sentences of the order themselves are among the
//! documents' runs.

use super::*;
use crate::demand::opening::see_opening;
use crate::map::Map;
use crate::triangles::{passing_over, plain, Sweep};

/// Both sweeps of a table: whether it passes, and the triples of each.
fn swept(n: usize, estimates: &[u32]) -> (bool, usize, usize) {
    let [all, some] = [plain, passing_over].map(|sweep| sweep(n, estimates));
    assert_eq!(all.holds, some.holds, "{estimates:?}");
    (all.holds, all.triples, some.triples)
}

#[test]
fn triples_are_counted() {
    assert_eq!(swept(1, &[0]), (true, 1, 0));
    assert_eq!(swept(2, &[0, 9, 4, 0]), (true, 8, 0));
    assert_eq!(swept(5, &[0; 25]), (true, 125, 0));
    // By 1 and by 2 in row 0, where 3 is the largest; by none in the other rows.
    let rows = [0, 1, 2, 3, 3, 0, 3, 3, 3, 3, 0, 3, 3, 3, 3, 0];
    assert_eq!(swept(4, &rows), (true, 64, 8));
    // Row 1 is the first with something to sweep; by 0 it fails: 1 > 0 + 0.
    let c4 = changed(|t| t.estimates[5 + 2] = 1);
    assert_eq!(swept(5, &c4.estimates), (false, 30, 5));
}

/// In a row of four cells in a square two others are nearer than the third. On the
/// map of five cells that docs/REFERENCE.md draws, 3, 3, 2, 3 and 3 others are
/// nearer than the farthest.
#[test]
fn triples_of_maps_are_counted() {
    for (rows, cells, sweeps) in [("..\n..\n", 4, 8), (".@\n..\nG.\n", 5, 14)] {
        let height = rows.len() / 3;
        let text = format!("type octile\nheight {height}\nwidth 2\nmap\n{rows}");
        let map = Map::read(text.as_bytes()).expect("a good map");
        let counts = (true, cells * cells * cells, sweeps * cells);
        assert_eq!(swept(cells, &map.estimates()), counts, "{rows}");
    }
}

/// A table that fails stops both sweeps after the same a and b.
#[test]
fn a_failing_sweep_is_the_last_one() {
    let mut table = vec![7; 16];
    table.iter_mut().step_by(5).for_each(|h| *h = 0);
    table[4 * 3] = 8;
    table[4 * 3 + 1] = 15;
    // Rows 0 to 2 have nothing to sweep; in row 3 it is by 0 and, failing, by 2.
    assert_eq!(swept(4, &table), (false, 3 * 16 + 3 * 4, 2 * 4));
    table[4 * 2 + 1] = 8;
    // Row 2 is then swept by 0 and by 3.
    assert_eq!(swept(4, &table), (true, 64, 2 * 4 + 2 * 4));
}

/// Check 7 as document 01 words it: the first a and b by which a triple fails.
fn literal_failure(n: usize, h: &[u32]) -> Option<(usize, usize)> {
    let pairs = (0..n).flat_map(|a| (0..n).map(move |b| (a, b)));
    let fails = |a: usize, b: usize, c: usize| {
        u64::from(h[a * n + c]) > u64::from(h[a * n + b]) + u64::from(h[b * n + c])
    };
    let mut failing = pairs.filter(|&(a, b)| (0..n).any(|c| fails(a, b, c)));
    failing.next()
}

/// What the sweep of the desk comes to as order 5 words it.
fn literal_sweep(n: usize, h: &[u32]) -> Sweep {
    let failure = literal_failure(n, h);
    let mut triples = 0;
    for (a, b) in (0..n).flat_map(|a| (0..n).map(move |b| (a, b))) {
        let row = (0..n).map(|c| h[a * n + c]);
        let at_least_the_largest = row.max() <= Some(h[a * n + b]);
        if a != b && !at_least_the_largest {
            triples += n;
        }
        if failure == Some((a, b)) {
            break;
        }
    }
    Sweep {
        holds: failure.is_none(),
        triples,
    }
}

/// All tables of three states with estimates up to 4, and those of the maker.
#[test]
fn sweeps_are_the_literal_ones() {
    let mut passing = 0;
    for number in 0..5_usize.pow(6) {
        let off = |digit: u32| (number / 5_usize.pow(digit) % 5) as u32;
        let table = [0, off(0), off(1), off(2), 0, off(3), off(4), off(5), 0];
        let (holds, ..) = swept(3, &table);
        assert_eq!(passing_over(3, &table), literal_sweep(3, &table));
        passing += u32::from(holds);
    }
    assert!(passing > 1000, "only {passing} pass");
    for case in 0..2000 {
        let task = maker::broken_task(&mut Rng::new(18, case));
        let n = task.head.n;
        if n <= 40 && matches!(opening(&task), None | Some(7)) {
            let estimates = &task.estimates;
            assert_eq!(passing_over(n, estimates), literal_sweep(n, estimates));
        }
    }
}

/// Whether a table passes a sweep that passes over the b for which this holds, given
/// row a, h(a,b) and row b.
fn passes(n: usize, h: &[u32], pass_over: fn(&[u32], u32, &[u32]) -> bool) -> bool {
    let row = |s: usize| &h[s * n..(s + 1) * n];
    let holds = |a: usize, b: usize| {
        let ab = row(a)[b];
        let mut ends = row(a).iter().zip(row(b));
        pass_over(row(a), ab, row(b)) || ends.all(|(ac, bc)| *ac <= ab + bc)
    };
    (0..n).all(|a| (0..n).all(|b| holds(a, b)))
}

fn largest(row: &[u32]) -> u32 {
    row.iter().copied().max().unwrap_or(0)
}

/// The comparison sees sweeps that pass over too much: all; what is one below the
/// largest; what is half of it; what is at least the largest of row b, or the first
/// of row a.
#[test]
fn comparison_sees_sweeps_that_pass_over_too_much() {
    let changes: &[OpenChange] = &[
        |task, _, reply| pass(task, reply, |_, _, _| true),
        |task, _, reply| pass(task, reply, |from_a, ab, _| ab + 1 >= largest(from_a)),
        |task, _, reply| pass(task, reply, |from_a, ab, _| ab >= largest(from_a) / 2),
        |task, _, reply| pass(task, reply, |_, ab, from_b| ab >= largest(from_b)),
        |task, _, reply| pass(task, reply, |from_a, ab, _| ab >= from_a[0]),
    ];
    for (line, &open) in changes.iter().enumerate() {
        let wrong = Wrong { open, ..RIGHT };
        let (differences, _) = count_differences(Some(&wrong), 2000);
        assert!(differences > 0, "line {line} is not seen");
    }
}

/// Opened instead of 7 where a sweep passes.
fn pass(task: &Task, reply: u64, pass_over: fn(&[u32], u32, &[u32]) -> bool) -> u64 {
    let is_7 = reply == rows::code(Reply::Refused(7));
    match is_7 && passes(task.head.n, &task.estimates, pass_over) {
        true => rows::code(Reply::Opened),
        false => reply,
    }
}

#[test]
fn what_order_5_catches() {
    let c4 = changed(|t| t.estimates[5 + 2] = 1);
    assert_eq!(see_opening(&task_a(), Reply::Opened), Ok(()));
    assert_eq!(see_opening(&c4, Reply::Refused(7)), Ok(()));
    let opened = "opening gives Opened, a plain sweep Refused(7)";
    assert_eq!(see_opening(&c4, Reply::Opened), Err(opened.into()));
    let refused = "opening gives Refused(7), a plain sweep Opened";
    assert_eq!(
        see_opening(&task_a(), Reply::Refused(7)),
        Err(refused.into())
    );
}
