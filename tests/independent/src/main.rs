//! `compare`: random comparison of the proved desk with the independent one.
//!
//! `--maps FOLDER` reads the sample maps of a folder instead, with the independent
//! reader and, where it is linked, the library's; `--samples FOLDER` reads the sample
//! task files, and writes those without fault back, byte for byte.
//! Options: `--cases N` (100000), `--seed S` (1), `--seconds LIMIT`,
//! `--case I` (replays one case of the seed, step by step), `--self` (compares
//! nothing: only the documents' runs, demand 3 and the orders' checks on the
//! independent desk), `--progress` (names each case before it is run, should the
//! library crash).
//! With 10,000 cases or more, something of orders 6 and 8 that none of them met is a
//! difference too.
//! The last line is `compared N cases, D differences`; status 1 where D > 0.

use independent::compare::{run_case, unmet};
use independent::desks::Desks;
use independent::rows::{Independent, RowDesk};
use independent::runs;
use independent::samples::{check_maps, check_tasks};
use std::path::{Path, PathBuf};
use std::process::ExitCode;
use std::time::{Duration, Instant};

struct Options {
    cases: u64,
    seed: u64,
    limit: Duration,
    only_case: Option<u64>,
    only_self: bool,
    progress: bool,
    maps: Option<PathBuf>,
    samples: Option<PathBuf>,
}

fn main() -> ExitCode {
    let options = match read_options(std::env::args().skip(1)) {
        Ok(options) => options,
        Err(fault) => {
            eprintln!("{fault}");
            return ExitCode::from(2);
        }
    };
    let library = independent::library().filter(|_| !options.only_self);
    let mut desks = Desks::new(library, options.only_case.is_some());
    if let Some(folder) = &options.maps {
        return report_maps(&mut desks, folder);
    }
    if let Some(folder) = &options.samples {
        return report_samples(&mut desks, folder);
    }
    if library.is_none() && !options.only_self {
        eprintln!("built without the library: set DESK_LIB_DIR and build, or use --self");
        return ExitCode::from(2);
    }
    let (compared, differences) = match options.only_case {
        Some(case) => (1, report_case(&mut desks, options.seed, case)),
        None => run_all(&mut desks, &options),
    };
    println!("compared {compared} cases, {differences} differences");
    ExitCode::from(u8::from(differences > 0))
}

fn read_options(mut words: impl Iterator<Item = String>) -> Result<Options, String> {
    let mut options = Options {
        cases: 100_000,
        seed: 1,
        limit: Duration::MAX,
        only_case: None,
        only_self: false,
        progress: false,
        maps: None,
        samples: None,
    };
    while let Some(word) = words.next() {
        let mut value = || words.next().ok_or(format!("{word} asks for a value"));
        let mut number = || {
            let text = value()?;
            text.parse::<u64>()
                .map_err(|_| format!("{word}: {text} is no number"))
        };
        match word.as_str() {
            "--cases" => options.cases = number()?,
            "--seed" => options.seed = number()?,
            "--seconds" => options.limit = Duration::from_secs(number()?),
            "--case" => options.only_case = Some(number()?),
            "--self" => options.only_self = true,
            "--progress" => options.progress = true,
            "--maps" => options.maps = Some(value()?.into()),
            "--samples" => options.samples = Some(value()?.into()),
            _ => return Err(format!("unknown option {word}")),
        }
    }
    Ok(options)
}

/// Runs the documents' runs and the random cases: how many cases and differences.
fn run_all(desks: &mut Desks, options: &Options) -> (u64, u64) {
    let mut differences = report_runs("independent", &Independent);
    if let Some(library) = desks.library {
        differences += report_runs("library", library);
    }
    let begin = Instant::now();
    let mut compared = 0;
    while compared < options.cases && begin.elapsed() < options.limit {
        if options.progress {
            eprintln!("--seed {} --case {compared}", options.seed);
        }
        differences += report_case(desks, options.seed, compared);
        compared += 1;
    }
    let seconds = begin.elapsed().as_secs_f64();
    let rate = compared as f64 / seconds.max(1e-9);
    println!("{}", desks.tally);
    for fault in unmet(&desks.tally, compared) {
        println!("difference: {fault}");
        differences += 1;
    }
    println!(
        "seed {}: {seconds:.1} s, {rate:.0} cases per second",
        options.seed
    );
    (compared, differences)
}

fn report_runs(name: &str, desk: &dyn RowDesk) -> u64 {
    let failures = runs::failures(desk);
    for failure in &failures {
        println!("difference: {name}: {failure}");
    }
    let all = runs::all().count();
    println!(
        "{name}: {} of {all} runs of the documents pass",
        all - failures.len()
    );
    failures.len() as u64
}

/// Reads the sample maps; status 1 where one isn't as expected, or there is none.
fn report_maps(desks: &mut Desks, folder: &Path) -> ExitCode {
    let (as_expected, faults) = match check_maps(desks, folder) {
        Ok(outcome) => outcome,
        Err(fault) => (0, vec![fault]),
    };
    for fault in &faults {
        println!("difference: {fault}");
    }
    println!("maps: {as_expected} read as expected");
    ExitCode::from(u8::from(as_expected == 0 || !faults.is_empty()))
}

/// Reads the sample task files and writes them back; status 1 where one comes out
/// otherwise, or none is without fault.
fn report_samples(desks: &mut Desks, folder: &Path) -> ExitCode {
    let (written, with_fault, wrong) = match check_tasks(desks, folder) {
        Ok(outcome) => outcome,
        Err(fault) => (0, 0, vec![fault]),
    };
    for fault in &wrong {
        println!("difference: {fault}");
    }
    println!("task files: {written} written back byte for byte, {with_fault} with a fault");
    ExitCode::from(u8::from(written == 0 || !wrong.is_empty()))
}

fn report_case(desks: &mut Desks, seed: u64, case: u64) -> u64 {
    match run_case(desks, seed, case) {
        Ok(()) => 0,
        Err(fault) => {
            println!("difference: --seed {seed} --case {case}: {fault}");
            1
        }
    }
}
