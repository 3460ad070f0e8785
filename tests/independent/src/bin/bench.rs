//! `bench`: times the proved desk against the independent one, on the same
//! inputs, in one process, in turns; the least time of many repetitions. Then
//! mornings against as many single calls to the same desk, openings against one
//! with a plain sweep, limited Takes against Takes of the same desk, and how whole
//! searches grow with states, passages and workers.
//!
//! ```text
//! bench                                     all tables
//! bench growth                              the lines with `growth` in their name
//! bench opening --counts                    of these the exact counts alone
//! bench comparisons --counts                likewise
//! bench --list                              the names
//! bench --once NAME --side library --times 100
//! ```
//!
//! Exact counts need no clock and are the same on every machine. What is timed beside
//! them is timed on x86-64 alone, for which the proved desk is made.
//!
//! The column `self` is what the ratio would be were both sides the same: in each
//! line the second side is timed twice, as if it were two, and the one time divided
//! by the other. A ratio no further from 1 than they are says nothing. Before a
//! line is timed both sides make it once; where their replies differ, or are refusal 8,
//! which comes before all work, the bench ends with an error.
//!
//! `--once` runs one line of one side (`library` or `independent`) a fixed number
//! of times, for instruction counts under valgrind; `--times 0` counts what
//! setting up costs.
//!
//! Both sides are called by number rows, so both turn rows into machines and
//! back; `row only` shows what that costs, and the `print` lines are free of it. A
//! row that a call changes is first copied anew, in the time of both sides.
//! Buffers are not cleared between repetitions.

use counts::Counts;
use independent::desk::Reply;
use independent::desks::Checked;
use independent::rows::{self, Independent, RowDesk, Shown};
use mornings::MORNINGS;
use opening::{openings, Opening};
use std::process::ExitCode;
use table::{Line, Table};
use timing::{black_box, Comparison, Go, Side};
use workloads::WORKLOADS;

#[path = "bench/comparisons.rs"]
mod comparisons;
#[path = "bench/counts.rs"]
mod counts;
#[path = "bench/growth.rs"]
mod growth;
#[path = "bench/inputs.rs"]
mod inputs;
#[path = "bench/mornings.rs"]
mod mornings;
#[path = "bench/opening.rs"]
mod opening;
#[path = "bench/table.rs"]
mod table;
#[path = "bench/timing.rs"]
mod timing;
#[path = "bench/workloads.rs"]
mod workloads;

const INDEPENDENT: &dyn RowDesk = &Independent;

// ---- Tables ----

/// Whether what has exact counts is timed too.
const TIMED: bool = cfg!(target_arch = "x86_64");

/// All tables are set up before the first is timed, so that a fault shows at once.
fn print_tables(part: &str) -> Checked<()> {
    let counts = counts_tables(part)?;
    let mut tables = vec![
        desks_table(part)?,
        mornings_table(part)?,
        growth_table(part)?,
    ];
    if TIMED {
        tables.extend(opening_tables(part)?);
        tables.push(comparisons_table(part)?);
    }
    let counted: usize = counts.iter().map(|counts| counts.lines.len()).sum();
    let count: usize = tables.iter().map(|table| table.lines.len()).sum();
    if counted + count == 0 {
        return Err(no_line(part));
    }
    counts.iter().for_each(Counts::print);
    if counted > 0 && !TIMED {
        println!("no times of these: they are taken on x86-64 alone\n");
    }
    if count > 0 {
        eprintln!("timing {count} lines ..");
    }
    tables.into_iter().for_each(Table::print);
    Ok(())
}

/// The exact counts alone.
fn print_counts(part: &str) -> Checked<()> {
    let counts = counts_tables(part)?;
    if counts.iter().all(|counts| counts.lines.is_empty()) {
        return Err(no_line(part));
    }
    counts.iter().for_each(Counts::print);
    Ok(())
}

fn no_line(part: &str) -> String {
    format!("no line has {part} in its name, see --list")
}

fn counts_tables(part: &str) -> Checked<[Counts; 2]> {
    Ok([opening::counts(part)?, comparisons::counts(part)?])
}

/// The library against the independent desk.
fn desks_table(part: &str) -> Checked<Table> {
    let mut goes = Vec::new();
    for workload in WORKLOADS.iter().filter(|w| w.name.contains(part)) {
        goes.push((workload.name, (workload.set_up)()));
    }
    for morning in MORNINGS.iter().filter(|m| m.name.contains(part)) {
        goes.push((morning.name, morning.list()?.morning()));
    }
    let lines = goes.into_iter().map(|(name, go)| {
        Ok(Line {
            comparison: against_independent(name, go)?,
            name: name.into(),
            parts: 1,
            counts: vec![],
        })
    });
    Ok(Table {
        titles: ["name", "library ns", "independent ns"],
        counts: &[],
        noise: "independent against itself",
        lines: lines.collect::<Checked<_>>()?,
    })
}

/// The library, or the independent desk where there is none, held against itself.
fn alone() -> (&'static str, &'static dyn RowDesk) {
    match independent::library() {
        Some(library) => ("name (library alone)", library),
        None => ("name (independent alone)", &Independent),
    }
}

/// The mornings of one desk against as many single calls to it.
fn mornings_table(part: &str) -> Checked<Table> {
    let (title, desk) = alone();
    let side = |go| Side { go, desk };
    let lines = MORNINGS.iter().filter(|m| m.name.contains(part)).map(|m| {
        let list = m.list()?;
        Ok(Line {
            name: m.name.into(),
            comparison: Comparison::new(Some(side(list.morning())), side(list.singly())),
            parts: 1,
            counts: vec![list.events.len()],
        })
    });
    Ok(Table {
        titles: [title, "morning ns", "single calls ns"],
        counts: &["events"],
        noise: "single calls against themselves",
        lines: lines.collect::<Checked<_>>()?,
    })
}

/// The library's openings, if there is a library, and the independent desk's, both
/// against the latter's with a plain sweep.
fn opening_tables(part: &str) -> Checked<Vec<Table>> {
    let library = independent::library().map(|desk| ("library ns", desk));
    let desks = library.into_iter().chain([("independent ns", INDEPENDENT)]);
    let tables = desks.map(|(title, desk)| {
        let openings = openings().filter(|opening| opening.name().contains(part));
        let lines = openings.map(|opening| opening_line(&opening, desk));
        Ok(Table {
            titles: ["name", title, "plain sweep ns"],
            counts: &[],
            noise: "plain sweep against itself",
            lines: lines.collect::<Checked<_>>()?,
        })
    });
    tables.collect()
}

fn opening_line(opening: &Opening, desk: &'static dyn RowDesk) -> Checked<Line> {
    let sides = [opening.go()?, opening.plain_go()?].map(|go| Side { go, desk });
    let [reply, plain] = [0, 1].map(|side| (sides[side].go)(desk));
    if reply != plain {
        let (reply, plain) = (Shown(reply), Shown(plain));
        return Err(format!("{}: {reply}, plain {plain}", opening.name()));
    }
    let [first, second] = sides;
    Ok(Line {
        name: opening.name(),
        comparison: Comparison::new(Some(first), second),
        parts: 1,
        counts: vec![],
    })
}

/// The limited Takes of one desk against its Takes, with the comparisons of both.
fn comparisons_table(part: &str) -> Checked<Table> {
    let (title, desk) = alone();
    let side = |go| Side { go, desk };
    let timed = comparisons::timed().into_iter();
    let lines = timed
        .filter(|timed| timed.name().contains(part))
        .map(|timed| {
            Ok(Line {
                name: timed.name(),
                counts: timed.comparisons(desk)?.into(),
                comparison: Comparison::new(Some(side(timed.limited())), side(timed.take())),
                parts: 1,
            })
        });
    Ok(Table {
        titles: [title, "limited ns", "Take ns"],
        counts: &["Take", "limited"],
        noise: "Take against itself",
        lines: lines.collect::<Checked<_>>()?,
    })
}

/// Whole searches by rounds: the time of one call, and what the calls came to.
fn growth_table(part: &str) -> Checked<Table> {
    let sizes = growth::sizes().into_iter();
    let lines = sizes.filter(|size| size.name().contains(part)).map(|size| {
        let search = size.search()?;
        Ok(Line {
            name: size.name(),
            comparison: against_independent(&size.name(), search.go())?,
            parts: search.counts.calls,
            counts: search.counts.columns().into(),
        })
    });
    Ok(Table {
        titles: ["name (times of one call)", "library ns", "independent ns"],
        counts: growth::COLUMNS,
        noise: "independent against itself",
        lines: lines.collect::<Checked<_>>()?,
    })
}

/// A go with the library, if there is one, and with the independent desk; an error
/// where they reply differently.
fn against_independent(name: &str, go: Go) -> Checked<Comparison> {
    let library = independent::library();
    let ours = go(&Independent);
    expect_fit(name, ours)?;
    match library.map(|library| go(library)) {
        Some(theirs) if theirs != ours => {
            let [theirs, ours] = [theirs, ours].map(Shown);
            Err(format!("{name}: library {theirs}, independent {ours}"))
        }
        _ => {
            let side = |desk| Side {
                go: go.clone(),
                desk,
            };
            Ok(Comparison::new(library.map(side), side(&Independent)))
        }
    }
}

/// An error where a line's machine doesn't fit, so that it would time no more than that.
fn expect_fit(name: &str, reply: u64) -> Checked<()> {
    match reply == rows::code(Reply::Refused(8)) {
        true => Err(format!("{name}: refused with 8")),
        false => Ok(()),
    }
}

// ---- Options ----

fn main() -> ExitCode {
    let words: Vec<String> = std::env::args().skip(1).collect();
    let words: Vec<&str> = words.iter().map(String::as_str).collect();
    let done = match words[..] {
        [] => print_tables(""),
        ["--list"] => {
            names().iter().for_each(|name| println!("{name}"));
            Ok(())
        }
        ["--once", name, "--side", side, "--times", times] => once(name, side, times),
        ["--counts"] => print_counts(""),
        [part, "--counts"] => print_counts(part),
        [part] if !part.starts_with("--") => print_tables(part),
        _ => Err("bench [PART] [--counts] | --list | --once NAME --side SIDE --times N".into()),
    };
    match done {
        Ok(()) => ExitCode::SUCCESS,
        Err(fault) => {
            eprintln!("{fault}");
            ExitCode::from(2)
        }
    }
}

fn names() -> Vec<String> {
    let workloads = WORKLOADS.iter().map(|workload| workload.name.to_string());
    let mornings = MORNINGS.iter().map(|morning| morning.name.to_string());
    let openings = openings().map(|opening| opening.name());
    let sizes = growth::sizes().into_iter().map(|size| size.name());
    workloads
        .chain(mornings)
        .chain(openings)
        .chain(comparisons::names())
        .chain(sizes)
        .collect()
}

fn once(name: &str, side: &str, times: &str) -> Checked<()> {
    let go = go_of(name)?;
    let desk = match side {
        "library" => independent::library().ok_or("built without the library")?,
        "independent" => &Independent,
        _ => return Err(format!("no side {side}")),
    };
    let times: u32 = times.parse().map_err(|_| format!("{times} is no number"))?;
    if let Some(reply) = (0..times).map(|_| black_box(go(desk))).last() {
        println!("{}", Shown(reply));
    }
    Ok(())
}

/// One go of the line of that name.
fn go_of(name: &str) -> Checked<Go> {
    if let Some(workload) = WORKLOADS.iter().find(|workload| workload.name == name) {
        return Ok((workload.set_up)());
    }
    if let Some(morning) = MORNINGS.iter().find(|morning| morning.name == name) {
        return Ok(morning.list()?.morning());
    }
    if let Some(opening) = openings().find(|opening| opening.name() == name) {
        return opening.go();
    }
    if let Some(timed) = comparisons::timed().iter().find(|t| t.name() == name) {
        return Ok(timed.limited());
    }
    match growth::sizes().iter().find(|size| size.name() == name) {
        Some(size) => Ok(size.search()?.go()),
        None => Err(format!("no line {name} that is timed, see --list")),
    }
}
