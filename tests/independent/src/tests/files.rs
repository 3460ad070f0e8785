//! Order 6: task files written and read into slices, and what would be wrong with
//! one. The sentences of the order themselves are among the documents' runs.

use super::*;
use crate::demand::files::{lengths, see_read, see_written, what_was_read};
use crate::desks::slices;
use crate::morning::Event;
use crate::samples::check_tasks;
use crate::taskfile::{write, CLAUSES};
use std::path::Path;

/// One state, a passage and T0, as the records above have it.
fn one_state() -> (Task, Vec<u32>) {
    let head = crate::desk::Head {
        n: 1,
        k: 1,
        start: 0,
        goal: 0,
        pull: 100,
        excess: 100,
    };
    let task = Task {
        head,
        passages: vec![0, 0, 1],
        estimates: vec![0],
    };
    (task, vec![0])
}

#[test]
fn files_are_written() {
    let (task, events) = one_state();
    let file = [&HEAD[..], &PASSAGE, &ROW_0, &TAKE_0].concat();
    let mut buffer = [7; 50];
    assert_eq!(write(&task, &events, &mut buffer), Ok(44));
    assert_eq!(buffer[..44], file);
    assert_eq!(buffer[44..], [7; 6]);
    let mut buffer = [7; 43];
    assert_eq!(write(&task, &events, &mut buffer), Err(26));
    assert_eq!(buffer, [7; 43]);
    assert_eq!(write(&task, &[256], &mut buffer), Err(24));
    assert_eq!(write(&task, &[131_072], &mut buffer), Err(24));
    assert_eq!(write(&task, &vec![0; 10_917], &mut buffer), Err(25));
    // 38 bytes before the calls: 10,916 of them make 65,534, one more 65,540
    assert_eq!(write(&task, &vec![0; 10_916], &mut buffer), Err(26));
}

/// Written by the maker's records too, whose files the reader is tried with.
#[test]
fn files_are_the_maker_s() {
    let (mut written, mut full) = (0, 0);
    for case in 0..1500 {
        let (task, events) = maker::writing(&mut Rng::new(19, case));
        let mut buffer = vec![0; MAX_FILE];
        if let Ok(length) = write(&task, &events, &mut buffer) {
            let calls = events.iter().filter_map(|&number| Event::of(number));
            let calls: Vec<_> = calls.map(|e| (e.action, e.worker as u8)).collect();
            assert_eq!(
                buffer[..length],
                maker::file_of(&task, &calls),
                "case {case}"
            );
            written += 1;
            full += u32::from(length == MAX_FILE);
        }
    }
    assert!(written > 600, "only {written} written");
    assert!(full > 2, "only {full} of 65,536 bytes");
}

/// Each clause of 24 is made alone.
#[test]
fn clauses_are_made() {
    let mut alone = vec![0; CLAUSES.len()];
    let (mut too_long, mut both) = (0, 0);
    for case in 0..3000 {
        let (task, events) = maker::writing(&mut Rng::new(20, case));
        let applies = |number: &usize| (CLAUSES[*number].applies)(&task, &events);
        let applying: Vec<_> = (0..CLAUSES.len()).filter(applies).collect();
        let refused = write(&task, &events, &mut vec![0; MAX_FILE]).err();
        assert_eq!(refused == Some(24), !applying.is_empty(), "case {case}");
        too_long += u32::from(refused == Some(25));
        both += u32::from(refused == Some(24) && events.len() > 10_919);
        if let [clause] = applying[..] {
            alone[clause] += 1;
        }
    }
    for (clause, count) in CLAUSES.iter().zip(alone) {
        assert!(count > 5, "{} alone only {count} times", clause.name);
    }
    assert!(too_long > 20, "25 only {too_long} times");
    assert!(both > 2, "24 with a list too long only {both} times");
}

/// The comparison sees a desk that does anything else than the independent one with
/// a file, wherever it hands it back.
#[test]
fn comparison_sees_wrong_files_written() {
    let changes: &[fn(&mut [u8], u64) -> u64] = &[
        // Another refusal, another length.
        |_, number| number + u64::from(number == 24 << 32) * (1 << 32),
        |_, number| number + u64::from(number == 25 << 32) * (1 << 32),
        |_, number| number - u64::from(number == 26 << 32) * (1 << 32),
        |_, number| number + u64::from(number == 65_536),
        |_, number| number - u64::from(number >> 32 == 0 && number < 65_536),
        // Another last byte, one behind it, and one though it was refused.
        |buffer, number| {
            if number >> 32 == 0 {
                buffer[number as usize - 1] ^= 1;
            }
            number
        },
        |buffer, number| {
            if let (0, Some(place)) = (number >> 32, buffer.get_mut(number as usize)) {
                *place ^= 1;
            }
            number
        },
        |buffer, number| {
            if let (25 | 26, Some(place)) = (number >> 32, buffer.first_mut()) {
                *place ^= 1;
            }
            number
        },
    ];
    for (line, &file_write) in changes.iter().enumerate() {
        let wrong = Wrong {
            file_write,
            ..RIGHT
        };
        let (differences, _) = count_differences(Some(&wrong), 1500);
        assert!(differences > 0, "line {line} is not seen");
    }
}

#[test]
fn comparison_sees_wrong_files_read() {
    let changes: &[fn(&mut Lent, u64) -> u64] = &[
        // Another fault, another offset.
        |_, number| number - u64::from(number == 27 << 32) * (4 << 32),
        |_, number| number + u64::from(number >> 32 == 22),
        |_, number| number + u64::from(number >> 32 == 27),
        // Another number, another event, a place behind what was read.
        |lent, number| {
            if number == 0 {
                lent[0][7] ^= 1;
            }
            number
        },
        |lent, number| {
            if let (0, Some(event)) = (number, lent[3].first_mut()) {
                *event ^= 65_536;
            }
            number
        },
        |lent, number| {
            if let (0, Some(place)) = (number, lent[0].get_mut(8)) {
                *place ^= 1;
            }
            number
        },
        // Something written though there was a fault.
        |lent, number| {
            if let (27, Some(place)) = (number >> 32, lent[1].first_mut()) {
                *place ^= 1;
            }
            number
        },
        |lent, number| {
            if let (21, Some(place)) = (number >> 32, lent[0].first_mut()) {
                *place ^= 1;
            }
            number
        },
    ];
    for (line, &file_read) in changes.iter().enumerate() {
        let wrong = Wrong { file_read, ..RIGHT };
        let (differences, _) = count_differences(Some(&wrong), 1500);
        assert!(differences > 0, "line {line} is not seen");
    }
}

#[test]
fn what_order_6_catches() {
    let (task, events) = one_state();
    let file = [&HEAD[..], &PASSAGE, &ROW_0, &TAKE_0].concat();
    assert_eq!(see_written(&Independent, &task, &events, &file), Ok(()));
    let mut other = file.clone();
    other[43] = 1;
    let fault = |file: &[u8]| see_written(&Independent, &task, &events, file).err();
    let otherwise = |what: &str| Some(format!("what was written reads otherwise: {what}"));
    assert_eq!(fault(&other), otherwise("read"));
    assert_eq!(fault(&file[..38]), otherwise("read"));
    assert_eq!(fault(&file[..43]), otherwise("fault 21 at 38"));
    let mut lent = lengths(&file).unwrap().map(|length| vec![0; length]);
    assert_eq!(Independent.file_read(&file, slices(&mut lent)), 0);
    assert_eq!(see_read(&Independent, &file, &lent), Ok(()));
    let fault = |file: &[u8], lent: &[_; 4]| see_read(&Independent, file, lent).err();
    let otherwise = |what: &str| Some(format!("what was read is written otherwise: {what}"));
    assert_eq!(fault(&other, &lent), otherwise("44 bytes"));
    assert_eq!(fault(&file[..38], &lent), otherwise("refused 26"));
    lent[3][0] = 256;
    assert_eq!(fault(&file, &lent), otherwise("refused 24"));
    lent[0][7] = 2;
    let short = Some("2 read into 1 places".into());
    assert_eq!(fault(&file, &lent), short);
}

#[test]
fn what_was_read_is_what_stands_at_the_front() {
    let lent = [
        vec![1, 2, 3, 4, 5, 6, 1, 2, 99],
        vec![7, 8, 9, 99],
        vec![10, 99],
        vec![11, 12, 99],
    ];
    let (task, events) = what_was_read(&lent).expect("all is there");
    assert_eq!(task.head.numbers(), [1, 2, 3, 4, 5, 6]);
    assert_eq!((task.passages, task.estimates), (vec![7, 8, 9], vec![10]));
    assert_eq!(events, [11, 12]);
}

fn samples(library: Option<&dyn RowDesk>) -> (usize, usize, Vec<String>) {
    let folder = Path::new(env!("CARGO_MANIFEST_DIR")).join("../../samples");
    let mut desks = Desks::new(library, false);
    check_tasks(&mut desks, &folder).expect("the samples")
}

#[test]
fn sample_tasks_are_written_back() {
    let (written, with_fault, wrong) = samples(None);
    assert_eq!(wrong, Vec::<String>::new());
    assert!(written > 5 && with_fault > 5, "{written} and {with_fault}");
    let longer = Wrong {
        file_write: |_, number| number + 1,
        ..RIGHT
    };
    let (still_written, _, wrong) = samples(Some(&longer));
    assert_eq!((still_written, wrong.len()), (0, written));
}
