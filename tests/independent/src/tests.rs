//! Self-tests of the independent desk, its file reader, the maker and the
//! checks of demand 3 and of Waits; they need no library. Those of orders 2 and
//! on stand in modules of their own.

use crate::compare::{run_case, unmet};
use crate::demand::{see_wait, shortest, Watch};
use crate::desk::{
    Action, Graph, Machine, Reply, Task, BLOCKED, FINISHED, FOUND, MAX_COST, MAX_LABEL,
    MAX_PASSAGES, NONE, OPEN, OUT, UNSEEN,
};
use crate::desks::Desks;
use crate::maker::{self, Rng, KEY_CHANGES};
use crate::rows::{self, Independent, RowDesk, KEYS, PRINT_ROOM, ROW};
use crate::runs::{self, task_a};
use crate::tally::Tally;
use crate::taskfile::{self, Fault, Lent, CLAUSES, MAX_FILE};

mod blocked;
mod files;
mod keys;
mod limited;
mod map;
mod morning;
mod opening;

type Change = fn(&mut Machine);

/// Gives a machine the right keys for what else it holds.
fn set_keys(machine: &mut Machine, graph: Graph) {
    let mut row = vec![0; ROW];
    rows::encode(machine, &mut row);
    maker::set_keys(&mut row, graph.estimates);
    machine.keys = std::array::from_fn(|state| rows::key(&row, state));
}

fn opened(task: &Task) -> Machine {
    Machine::open(task.head, task.graph()).expect("an accepted task")
}

fn opening(task: &Task) -> Option<u32> {
    Machine::open(task.head, task.graph()).err()
}

/// Task A after a change.
fn changed(change: impl FnOnce(&mut Task)) -> Task {
    let mut task = task_a();
    change(&mut task);
    task
}

#[test]
fn runs_of_the_documents() {
    assert_eq!(runs::failures(&Independent), Vec::<String>::new());
}

/// Each run of the orders fails on one of these desks.
#[test]
fn runs_of_the_orders_can_fail() {
    let wrongs = [
        Wrong {
            open: |_, row, reply| {
                if reply == 0 {
                    row[ROW - 1] ^= 1;
                }
                reply ^ 1
            },
            limited: |row, graph, worker, limit| {
                Independent.take_limited(row, graph, worker, limit) ^ 1 << 40
            },
            file_write: |_, number| number ^ 1 << 32,
            file_read: |_, number| number ^ 1 << 32,
            ..RIGHT
        },
        Wrong {
            morning: |_, _, _, reply| reply ^ 1,
            map: |_, _, counts| counts ^ 1,
            map_spot: |spot| spot ^ 1,
            print: |text, length| {
                text[0] ^= 1;
                length
            },
            ..RIGHT
        },
        Wrong {
            cost: |cost| if cost == BLOCKED { 1 } else { cost },
            ..RIGHT
        },
        Wrong {
            cost: |cost| if cost > MAX_COST { BLOCKED } else { cost },
            ..RIGHT
        },
        Wrong {
            stored: |_, row, graph| maker::set_keys(row, graph.estimates),
            bring: |_, row, reply| {
                if row.len() == ROW {
                    rows::set_key(row, 5, 0);
                }
                reply
            },
            ..RIGHT
        },
        Wrong {
            take: |row, reply| match row.len() {
                807 => rows::code(Reply::NoPath),
                _ => reply,
            },
            bring: |before, row, reply| {
                if let Some(keys) = row.get_mut(KEYS..) {
                    keys.copy_from_slice(&before[KEYS..]);
                }
                reply
            },
            ..RIGHT
        },
    ];
    let failures: Vec<_> = wrongs.iter().flat_map(|w| runs::failures(w)).collect();
    for run in runs::all().filter(|run| run.name.starts_with("order ")) {
        let begins = format!("run {}: ", run.name);
        let fails = failures.iter().any(|failure| failure.starts_with(&begins));
        assert!(fails, "run {} fails on none", run.name);
    }
}

// ---- Opening ----

#[test]
fn opening_refuses_by_number() {
    let long = vec![0; 3 * MAX_PASSAGES];
    let refused: Vec<(Option<u32>, Task)> = vec![
        (Some(1), changed(|t| t.head.n = 0)),
        (Some(1), changed(|t| t.head.n = 257)),
        (Some(1), changed(|t| t.head.n = usize::MAX)),
        (Some(1), changed(|t| t.head.k = 0)),
        (Some(1), changed(|t| t.head.k = 33)),
        (None, changed(|t| t.head.k = 32)),
        (Some(1), changed(|t| t.passages.push(0))),
        (None, changed(|t| t.passages = long.clone())),
        (
            Some(1),
            changed(|t| t.passages = [&long[..], &[0; 3]].concat()),
        ),
        (Some(1), changed(|t| t.estimates.push(0))),
        (Some(2), changed(|t| t.head.start = 5)),
        (Some(2), changed(|t| t.head.goal = 5)),
        (Some(3), changed(|t| t.head.excess = 99)),
        (Some(3), changed(|t| t.head.excess = 10_001)),
        (None, changed(|t| t.head.excess = 10_000)),
        (Some(3), changed(|t| t.head.pull = 101)),
        (Some(3), changed(|t| t.head.pull = 65_636)),
        (Some(3), changed(|t| t.head.excess = 65_636)),
        (Some(3), changed(|t| t.head.excess = (1 << 32) + 100)),
        (Some(3), changed(|t| t.head.excess = usize::MAX)),
        (Some(4), changed(|t| t.passages[0] = 5)),
        (Some(4), changed(|t| t.passages[1] = 5)),
        (Some(4), changed(|t| t.passages[2] = 1_000_001)),
        (Some(5), changed(|t| t.estimates[0] = 1)),
        (Some(5), changed(|t| t.estimates[24] = 1)),
        (Some(5), changed(|t| t.estimates[1] = MAX_LABEL + 1)),
        (Some(6), changed(|t| t.estimates[1] = 3)),
        (Some(7), changed(|t| t.estimates[20] = 1)),
    ];
    for (number, (wanted, task)) in refused.iter().enumerate() {
        assert_eq!(opening(task), *wanted, "line {number}");
    }
}

#[test]
fn opening_gives_the_first_refusal() {
    let mut task = task_a();
    task.estimates[5] = 9;
    assert_eq!(opening(&task), Some(7));
    task.estimates[1] = 3;
    assert_eq!(opening(&task), Some(6));
    task.estimates[0] = 1;
    assert_eq!(opening(&task), Some(5));
    task.passages[0] = 5;
    assert_eq!(opening(&task), Some(4));
    task.head.excess = 1;
    assert_eq!(opening(&task), Some(3));
    task.head.goal = 5;
    assert_eq!(opening(&task), Some(2));
    task.head.k = 0;
    assert_eq!(opening(&task), Some(1));
}

#[test]
fn highest_estimates_pass() {
    let mut task = changed(|t| t.passages.clear());
    task.estimates = (0..25)
        .map(|i| if i % 6 == 0 { 0 } else { MAX_LABEL })
        .collect();
    assert_eq!(opening(&task), None);
}

#[test]
fn opened_machine() {
    let machine = opened(&task_a());
    assert_eq!(machine.marks[0], OPEN);
    assert!(machine.marks[1..].iter().all(|&mark| mark == 0));
    assert!(machine.labels.iter().all(|&label| label == 0));
    assert!(machine.keys.iter().all(|&key| key == 0));
    assert!(machine
        .vias
        .iter()
        .chain(&machine.held)
        .all(|&number| number == NONE));
    assert_eq!(machine.phase, 0);
}

// ---- Calls ----

/// What Take answers to task A's opened machine after a change, with right keys.
fn take_after(change: impl FnOnce(&mut Machine)) -> Reply {
    let task = task_a();
    let mut machine = opened(&task);
    change(&mut machine);
    set_keys(&mut machine, task.graph());
    let before = machine.clone();
    let reply = machine.take(task.graph(), 0);
    if matches!(reply, Reply::Refused(_) | Reply::Wait(_)) {
        assert_eq!(machine, before);
    }
    reply
}

#[test]
fn machines_that_do_not_fit() {
    let changes: &[Change] = &[
        |m| m.head.n = 0,
        |m| m.head.n = 6,
        |m| m.head.k = 33,
        |m| m.head.goal = 5,
        |m| m.head.pull = 101,
        |m| m.phase = 3,
        |m| m.marks[4] = 4,
        |m| m.labels[4] = MAX_LABEL + 1,
        |m| m.held[1] = 0,
        |m| m.held[1] = 5,
        |m| m.held[1] = 65_534,
        |m| m.marks[1] = OUT,
        |m| {
            m.marks[1] = OUT;
            m.held[2] = 1;
        },
        |m| {
            m.marks[1] = OUT;
            m.held[..2].fill(1);
        },
        |m| {
            m.marks[1] = FINISHED;
            m.held[1] = 1;
        },
    ];
    for (number, change) in changes.iter().enumerate() {
        assert_eq!(take_after(change), Reply::Refused(8), "line {number}");
    }
}

#[test]
fn what_fitting_does_not_look_at() {
    let changes: &[Change] = &[
        |m| m.marks[5] = 255,
        |m| m.labels[5] = u32::MAX,
        |m| m.vias[0] = 6,
        |m| m.held[2] = 0,
        |m| m.labels[4] = MAX_LABEL,
    ];
    for (number, change) in changes.iter().enumerate() {
        assert_eq!(take_after(change), Reply::Took(0), "line {number}");
    }
}

#[test]
fn refusals_of_calls_come_in_order() {
    let task = task_a();
    let mut machine = opened(&task);
    machine.take(task.graph(), 0);
    assert_eq!(machine.take(task.graph(), 0), Reply::Refused(11));
    machine.phase = FOUND;
    assert_eq!(machine.take(task.graph(), 0), Reply::Refused(10));
    assert_eq!(machine.bring(task.graph(), 1), Reply::Refused(10));
    assert_eq!(machine.bring(task.graph(), 2), Reply::Refused(9));
    machine.held[0] = NONE;
    assert_eq!(machine.bring(task.graph(), 2), Reply::Refused(8));
}

#[test]
fn no_path_only_when_nothing_is_out() {
    let mut task = task_a();
    task.passages.clear();
    let mut machine = opened(&task);
    assert_eq!(machine.take(task.graph(), 0), Reply::Took(0));
    assert_eq!(machine.take(task.graph(), 1), Reply::Wait(0));
    assert_eq!(machine.bring(task.graph(), 0), Reply::Brought(0));
    assert_eq!(machine.take(task.graph(), 1), Reply::NoPath);
}

#[test]
fn parallel_passages_lower_a_label_twice() {
    let task = changed(|t| t.passages = vec![0, 1, 9, 0, 0, 0, 0, 1, 9, 0, 1, 4]);
    let mut machine = opened(&task);
    machine.take(task.graph(), 0);
    assert_eq!(machine.bring(task.graph(), 0), Reply::Brought(2));
    assert_eq!((machine.labels[1], machine.vias[1]), (4, 3));
}

/// Task A with h(2,4) = 9, which opening would refuse, and a machine that worker
/// 0's Take waits on: 1 has the smallest key and depends on 2 and on 3, which is
/// out; 2 depends on 3 alone. Then a change, and the keys that are right after it.
fn waiting(change: impl FnOnce(&mut Machine)) -> (Task, Machine) {
    let task = changed(|t| t.estimates[2 * 5 + 4] = 9);
    let mut machine = opened(&task_a());
    machine.head.k = 4;
    machine.marks[..5].copy_from_slice(&[FINISHED, OPEN, OPEN, OUT, UNSEEN]);
    machine.labels[1..3].copy_from_slice(&[10, 5]);
    machine.held[1] = 3;
    change(&mut machine);
    set_keys(&mut machine, task.graph());
    (task, machine)
}

/// Deals the open states of `waiting` to two more workers.
fn deal_all(machine: &mut Machine) {
    machine.marks[1..3].fill(OUT);
    machine.held[2..4].copy_from_slice(&[1, 2]);
}

/// What a Take on `waiting` waits for: as it is; when 1 does not depend on 2; when
/// 1 and 2 have equal keys; when 2 has the smaller key; when nothing is open.
const WAITS: &[(u16, Change)] = &[
    (2, |_| {}),
    (3, |m| m.labels[2] = 10),
    (2, |m| m.labels[1] = 14),
    (3, |m| m.labels[1] = 15),
    (1, deal_all),
];

#[test]
fn wait_names_a_state() {
    for (line, &(state, change)) in WAITS.iter().enumerate() {
        let (task, mut machine) = waiting(change);
        let reply = machine.take(task.graph(), 0);
        assert_eq!(reply, Reply::Wait(state), "line {line}");
    }
}

/// Take as document 01 words it, with order 1's Wait, without any shortcut.
fn literal_take(machine: &Machine, graph: Graph) -> Reply {
    let n = machine.head.n;
    let live = |t: usize| machine.marks[t] == OPEN || machine.marks[t] == OUT;
    let h = |a: usize, b: usize| i128::from(graph.estimates[a * n + b]);
    let label = |s: usize| i128::from(machine.labels[s]);
    let independent =
        |s: usize, t: usize| 100 * (label(s) - label(t)) <= machine.head.excess as i128 * h(t, s);
    let depends = |s: usize, t: usize| t != s && live(t) && !independent(s, t);
    let safe = |s: usize| !(0..n).any(|t| depends(s, t));
    let open = |s: usize| machine.marks[s] == OPEN;
    let out = |s: usize| machine.marks[s] == OUT;
    let goal = machine.head.goal;
    let key = |s: usize| 100 * label(s) + machine.head.pull as i128 * h(s, goal);
    if open(goal) && safe(goal) {
        return Reply::Found(machine.labels[goal]);
    }
    if !(0..n).any(live) {
        return Reply::NoPath;
    }
    let candidates = (0..n).filter(|&s| open(s) && safe(s));
    if let Some(state) = candidates.min_by_key(|&s| (key(s), s)) {
        return Reply::Took(state as u32);
    }
    if !(0..n).any(out) {
        return Reply::Refused(12);
    }
    let smallest = (0..n).filter(|&s| open(s)).min_by_key(|&s| (key(s), s));
    let waited_for = (0..n).find(|&t| smallest.map_or(out(t), |s| depends(s, t)));
    Reply::Wait(waited_for.expect("a state to wait for") as u16)
}

#[test]
fn take_is_the_literal_one() {
    let (mut compared, mut waits_for_open) = (0, 0);
    for case in 0..5000 {
        let (task, row) = maker::made_up(&mut Rng::new(11, case));
        let mut machine = match rows::decode(&row) {
            Some(machine) => machine,
            None => continue,
        };
        let idle = machine.held.iter().position(|&held| held == NONE);
        let worker = match idle {
            Some(worker) if machine.fits(task.graph()) => worker,
            _ => continue,
        };
        if worker < machine.head.k && machine.phase == 0 {
            let wanted = literal_take(&machine, task.graph());
            assert_eq!(machine.take(task.graph(), worker), wanted, "case {case}");
            compared += 1;
            if let Reply::Wait(state) = wanted {
                waits_for_open += u32::from(machine.marks[usize::from(state)] == OPEN);
            }
        }
    }
    assert!(compared > 500, "only {compared} compared");
    assert!(waits_for_open > 0, "no open state waited for");
}

// ---- Path reading ----

/// Task A's machine after run A1.
fn found_machine() -> Machine {
    let mut machine = opened(&task_a());
    machine.phase = FOUND;
    machine.marks[..5].copy_from_slice(&[3, 3, 3, 3, 1]);
    machine.labels[..5].copy_from_slice(&[0, 2, 3, 5, 6]);
    machine.vias[1..5].copy_from_slice(&[0, 2, 3, 5]);
    machine.keys[..5].copy_from_slice(&[0, 200, 300, 500, 600]);
    machine
}

/// What reading its path replies after a change, with right keys.
fn read_after(change: impl FnOnce(&mut Machine)) -> Reply {
    let mut machine = found_machine();
    change(&mut machine);
    set_keys(&mut machine, task_a().graph());
    machine.path(task_a().graph(), &mut [0; 5], 0)
}

#[test]
fn path_refusals() {
    let wanted: &[(u32, Change)] = &[
        (8, |m| m.phase = 3),
        (13, |m| m.phase = 0),
        (13, |m| m.phase = 2),
        (14, |m| m.vias[4] = NONE),
        (14, |m| m.vias[4] = 6),
        (14, |m| m.vias[4] = 3),
        (14, |m| m.labels[2] = 4),
        (14, |m| m.labels[0] = 1),
        (14, |m| m.labels[..5].copy_from_slice(&[1, 3, 4, 6, 7])),
    ];
    for (line, &(number, change)) in wanted.iter().enumerate() {
        assert_eq!(read_after(change), Reply::Refused(number), "line {line}");
    }
}

#[test]
fn path_reading_looks_at_no_marks_nor_at_the_start_s_passage() {
    assert_eq!(read_after(|m| m.marks[..5].fill(0)), Reply::Read(5));
    assert_eq!(read_after(|m| m.vias[0] = 1), Reply::Read(5));
    assert_eq!(read_after(|m| m.head.goal = 0), Reply::Read(1));
}

#[test]
fn a_ring_of_free_passages_is_14() {
    let task = changed(|t| t.passages = vec![3, 4, 0, 4, 3, 0]);
    let mut machine = opened(&task);
    machine.phase = FOUND;
    machine.vias[3..5].copy_from_slice(&[1, 0]);
    assert_eq!(
        machine.path(task.graph(), &mut [0; 9], 0),
        Reply::Refused(14)
    );
}

#[test]
fn buffers_too_short() {
    let machine = found_machine();
    for (len, at) in [
        (0, 0),
        (4, 0),
        (5, 1),
        (5, 5),
        (9, 5),
        (9, 10),
        (9, usize::MAX),
    ] {
        let mut buffer = vec![7; len];
        let reply = machine.path(task_a().graph(), &mut buffer, at);
        assert_eq!(reply, Reply::Refused(15), "{len} places from {at}");
        assert!(buffer.iter().all(|&place| place == 7));
    }
}

// ---- Rows ----

#[test]
fn rows_of_wrong_numbers_or_length() {
    let task = task_a();
    let mut good = vec![0; ROW];
    rows::encode(&opened(&task), &mut good);
    let refused = rows::code(Reply::Refused(8));
    for (place, number) in [
        (4, 65_536),
        (6, 256),
        (262, 256),
        (519, 65_536),
        (806, 65_536),
    ] {
        let mut row = good.clone();
        row[place] = number;
        let before = row.clone();
        assert_eq!(
            Independent.take(&mut row, task.graph(), 0),
            refused,
            "place {place}"
        );
        assert_eq!(row, before);
    }
    for len in [0, 806, 807, 808, 1318, 1320] {
        let mut row = vec![9; len];
        assert_eq!(Independent.open(&task, &mut row), refused);
        assert_eq!(Independent.bring(&mut row, task.graph(), 0), refused);
        assert_eq!(row, vec![9; len]);
    }
}

#[test]
fn codes_and_replies_go_both_ways() {
    let replies = [
        Reply::Opened,
        Reply::Took(3),
        Reply::Brought(0),
        Reply::Found(MAX_LABEL),
        Reply::NoPath,
        Reply::Wait(255),
        Reply::Read(9),
        Reply::Refused(12),
        Reply::Done,
        Reply::Cut(9),
    ];
    for (case, reply) in replies.into_iter().enumerate() {
        assert_eq!(rows::code(reply) >> 32, case as u64);
        assert_eq!(rows::reply(rows::code(reply)), Some(reply));
    }
    assert_eq!(rows::reply(4 << 32 | 1), None);
    assert_eq!(rows::reply(5 << 32 | 65_536), None);
    assert_eq!(rows::reply(8 << 32 | 1), None);
    assert_eq!(rows::reply(10 << 32), None);
}

// ---- Task files ----

const HEAD: [u8; 16] = [12, 0, 1, 0, 1, 0, 1, 0, 0, 0, 0, 0, 100, 0, 100, 0];
const PASSAGE: [u8; 12] = [8, 0, 2, 0, 0, 0, 0, 0, 1, 0, 0, 0];
const ROW_0: [u8; 10] = [6, 0, 3, 0, 0, 0, 0, 0, 0, 0];
const TAKE_0: [u8; 6] = [2, 0, 4, 0, 0, 0];

fn fault(parts: &[&[u8]]) -> Option<(u32, usize)> {
    let fault = taskfile::read(&parts.concat()).err();
    fault.map(|Fault { number, offset }| (number, offset))
}

#[test]
fn file_faults() {
    let mut no_states = HEAD;
    no_states[4] = 0;
    let mut many_states = HEAD;
    many_states[4] = 65;
    let passages = PASSAGE.repeat(512);
    assert_eq!(fault(&[&HEAD, &PASSAGE, &ROW_0, &TAKE_0]), None);
    assert_eq!(fault(&[&HEAD, &ROW_0]), None);
    assert_eq!(fault(&[]), Some((21, 0)));
    assert_eq!(fault(&[&HEAD]), Some((21, 16)));
    assert_eq!(fault(&[&HEAD, &PASSAGE]), Some((21, 28)));
    assert_eq!(fault(&[&HEAD, &ROW_0, &[2, 0, 9]]), Some((21, 26)));
    assert_eq!(fault(&[&HEAD, &ROW_0, &[2, 0, 9, 9]]), Some((21, 26)));
    assert_eq!(fault(&[&HEAD[..15]]), Some((21, 0)));
    assert_eq!(fault(&[&ROW_0]), Some((22, 0)));
    assert_eq!(fault(&[&HEAD, &HEAD]), Some((22, 16)));
    assert_eq!(fault(&[&HEAD, &TAKE_0]), Some((22, 16)));
    assert_eq!(fault(&[&HEAD, &ROW_0, &ROW_0]), Some((22, 26)));
    assert_eq!(fault(&[&HEAD, &ROW_0, &PASSAGE]), Some((22, 26)));
    assert_eq!(fault(&[&HEAD, &ROW_0, &TAKE_0, &ROW_0]), Some((22, 32)));
    assert_eq!(fault(&[&HEAD, &ROW_0, &[2, 0, 4, 0, 2, 0]]), Some((22, 26)));
    assert_eq!(fault(&[&HEAD, &ROW_0, &[1, 0, 4, 0, 1]]), Some((22, 26)));
    assert_eq!(fault(&[&HEAD, &[0, 0, 0, 0]]), Some((22, 16)));
    assert_eq!(fault(&[&HEAD, &[0, 0, 5, 0]]), Some((22, 16)));
    assert_eq!(fault(&[&[11, 0, 1, 0], &[0; 11]]), Some((22, 0)));
    assert_eq!(fault(&[&no_states, &ROW_0]), Some((23, 0)));
    assert_eq!(fault(&[&many_states]), Some((23, 0)));
    assert_eq!(fault(&[&HEAD, &passages, &ROW_0]), None);
    assert_eq!(fault(&[&HEAD, &passages, &PASSAGE]), Some((23, 6160)));
    assert_eq!(fault(&[&vec![0; MAX_FILE + 1]]), Some((23, MAX_FILE)));
    assert_eq!(fault(&[&vec![0; MAX_FILE]]), Some((22, 0)));
}

#[test]
fn printed_faults_and_refusals() {
    let mut no_workers = HEAD;
    no_workers[6] = 0;
    assert_eq!(taskfile::deskrun(&HEAD), "file 21 16\n");
    assert_eq!(
        taskfile::deskrun(&[no_workers.as_slice(), &ROW_0].concat()),
        "opening 1\n"
    );
    assert_eq!(taskfile::deskrun(&[HEAD.as_slice(), &ROW_0].concat()), "");
    let calls = [TAKE_0, [2, 0, 4, 0, 1, 0], [2, 0, 4, 0, 0, 200]].concat();
    let text = taskfile::deskrun(&[HEAD.as_slice(), &ROW_0, &calls].concat());
    assert_eq!(text, "found 0 0\npath 0\nrefused 0 10\nrefused 200 9\n");
}

#[test]
fn print_asks_for_room() {
    let mut out = vec![b'.'; PRINT_ROOM - 1];
    assert_eq!(Independent.print(&HEAD, &mut out), 0);
    assert!(out.iter().all(|&byte| byte == b'.'));
    out.push(b'.');
    assert_eq!(Independent.print(&HEAD, &mut out), 11);
    assert_eq!(&out[..13], b"file 21 16\n..");
}

/// The longest text fits the room that `print` asks for.
#[test]
fn longest_file_prints_within_the_room() {
    let calls = (MAX_FILE - 26) / 6;
    let file = [HEAD.as_slice(), &ROW_0, &[2, 0, 4, 0, 0, 255].repeat(calls)].concat();
    assert_eq!(
        taskfile::deskrun(&file).len(),
        calls * "refused 255 9\n".len()
    );
}

// ---- Demand 3, the maker, and all together ----

#[test]
fn demand_3_catches_wrong_runs() {
    let task = task_a();
    assert_eq!(shortest(&task), Some(6));
    let mut watch = Watch::new(&task);
    assert!(watch.see(Reply::Took(2)).is_ok());
    assert!(watch.see(Reply::Took(2)).is_err());
    assert!(watch.see(Reply::NoPath).is_err());
    assert!(watch.see(Reply::Found(11)).is_err());
    assert!(watch.see(Reply::Found(5)).is_err());
    assert!(watch.see(Reply::Found(6)).is_ok());
    let mut row = vec![0; ROW];
    rows::encode(&found_machine(), &mut row);
    assert!(watch.see_path(&row, &[0, 1, 2, 3, 4], 6).is_ok());
    assert!(watch.see_path(&row, &[0, 1, 2, 3, 4], 7).is_err());
    assert!(watch.see_path(&row, &[0, 2, 3, 4], 8).is_err());
    assert!(watch.see_path(&row, &[1, 2, 3, 4], 4).is_err());
    let cut = changed(|t| t.passages.truncate(12));
    assert!(Watch::new(&cut).see(Reply::Found(6)).is_err());
    assert!(Watch::new(&cut).see(Reply::NoPath).is_ok());
}

/// What is wrong with a Wait that names a state on `waiting` after a change.
fn wait_fault(named: u16, change: Change) -> Option<String> {
    let (task, machine) = waiting(change);
    let mut row = vec![0; ROW];
    rows::encode(&machine, &mut row);
    see_wait(&row, task.graph(), named).err()
}

#[test]
fn wrong_waits_are_caught() {
    for (line, &(named, change)) in WAITS.iter().enumerate() {
        assert_eq!(wait_fault(named, change), None, "line {line}");
    }
    let wrong: &[(u16, &str, Change)] = &[
        (0, "which is neither open nor out", |_| {}),
        (4, "which is neither open nor out", |_| {}),
        (5, "which is neither open nor out", |m| m.marks[5] = OUT),
        (NONE, "which is neither open nor out", |_| {}),
        (2, "but nothing is out", |m| m.marks[3] = FINISHED),
        (1, "which has the smallest key itself", |_| {}),
        (2, "but 1 does not depend on it", |m| m.labels[2] = 10),
        (3, "but 1 depends on 2", |_| {}),
        (3, "but 1 depends on 2", |m| m.labels[1] = 14),
        (2, "but 1 is out, and none open", deal_all),
    ];
    for &(named, fault, change) in wrong {
        let fault = format!("Wait {named}, {fault}");
        assert_eq!(wait_fault(named, change), Some(fault));
    }
    assert!(see_wait(&[], task_a().graph(), 0).is_err());
}

/// A stand-in for a library: the independent desk with something wrong in what a
/// call hands back. The last number that each change is given is what the call
/// returns.
struct Wrong {
    /// With the task and the row.
    open: OpenChange,
    take: fn(&mut [u32], u64) -> u64,
    /// With the row before and after.
    bring: BringChange,
    /// All of the call.
    limited: fn(&mut [u32], Graph, usize, usize) -> u64,
    /// With the machine's row, the events and the row of replies.
    morning: fn(&mut [u32], &[u32], &mut [u64], u64) -> u64,
    /// With the slices of passages and estimates.
    map: fn(&mut [u32], &mut [u32], u64) -> u64,
    map_spot: fn(u32) -> u32,
    map_state: fn(u32) -> u32,
    /// With the text.
    print: fn(&mut [u8], usize) -> usize,
    /// With the buffer.
    file_write: fn(&mut [u8], u64) -> u64,
    /// With the lent slices.
    file_read: fn(&mut Lent, u64) -> u64,
    /// What it takes a passage's cost for, but in files.
    cost: fn(u32) -> u32,
    /// What it takes a weight for, but in files.
    weight: fn(usize) -> usize,
    /// What it takes the row for in a call of this name, with the lent slices.
    stored: fn(&str, &mut [u32], Graph),
}

type OpenChange = fn(&Task, &mut [u32], u64) -> u64;
type BringChange = fn(&[u32], &mut [u32], u64) -> u64;

/// A stand-in with nothing wrong, to be changed.
const RIGHT: Wrong = Wrong {
    open: |_, _, reply| reply,
    take: |_, reply| reply,
    bring: |_, _, reply| reply,
    limited: |row, graph, worker, limit| Independent.take_limited(row, graph, worker, limit),
    morning: |_, _, _, reply| reply,
    map: |_, _, counts| counts,
    map_spot: |spot| spot,
    map_state: |state| state,
    print: |_, length| length,
    file_write: |_, number| number,
    file_read: |_, number| number,
    cost: |cost| cost,
    weight: |weight| weight,
    stored: |_, _, _| {},
};

impl Wrong {
    /// The passages as this desk takes them.
    fn passages(&self, passages: &[u32]) -> Vec<u32> {
        let mut passages = passages.to_vec();
        for passage in passages.chunks_exact_mut(3) {
            passage[2] = (self.cost)(passage[2]);
        }
        passages
    }

    /// Makes a call of this name on the row as this desk takes it, with the passages as
    /// it takes them. Refused, it leaves the row.
    fn on_row(
        &self,
        name: &str,
        row: &mut [u32],
        graph: Graph,
        call: impl FnOnce(&mut [u32], Graph) -> u64,
    ) -> u64 {
        let passages = self.passages(graph.passages);
        let graph = Graph {
            passages: &passages,
            ..graph
        };
        let mut taken = row.to_vec();
        (self.stored)(name, &mut taken, graph);
        let code = call(&mut taken, graph);
        if code >> 32 & 255 != 7 {
            row.copy_from_slice(&taken);
        }
        code
    }
}

impl RowDesk for Wrong {
    fn open(&self, task: &Task, row: &mut [u32]) -> u64 {
        let mut task = task.clone();
        task.passages = self.passages(&task.passages);
        task.head.pull = (self.weight)(task.head.pull);
        task.head.excess = (self.weight)(task.head.excess);
        let reply = Independent.open(&task, row);
        (self.open)(&task, row, reply)
    }
    fn take(&self, row: &mut [u32], graph: Graph, worker: usize) -> u64 {
        let reply = self.on_row("take", row, graph, |row, graph| {
            Independent.take(row, graph, worker)
        });
        (self.take)(row, reply)
    }
    fn take_limited(&self, row: &mut [u32], graph: Graph, worker: usize, limit: usize) -> u64 {
        self.on_row("limited", row, graph, |row, graph| {
            (self.limited)(row, graph, worker, limit)
        })
    }
    fn bring(&self, row: &mut [u32], graph: Graph, worker: usize) -> u64 {
        let before = row.to_vec();
        let reply = self.on_row("bring", row, graph, |row, graph| {
            Independent.bring(row, graph, worker)
        });
        (self.bring)(&before, row, reply)
    }
    fn path(&self, row: &[u32], graph: Graph, buffer: &mut [u16], at: usize) -> u64 {
        self.on_row("path", &mut row.to_vec(), graph, |row, graph| {
            Independent.path(row, graph, buffer, at)
        })
    }
    fn morning(&self, row: &mut [u32], graph: Graph, events: &[u32], replies: &mut [u64]) -> u64 {
        let reply = self.on_row("morning", row, graph, |row, graph| {
            Independent.morning(row, graph, events, replies)
        });
        (self.morning)(row, events, replies, reply)
    }
    fn map(&self, text: &[u8], passages: &mut [u32], estimates: &mut [u32]) -> u64 {
        let counts = Independent.map(text, passages, estimates);
        (self.map)(passages, estimates, counts)
    }
    fn map_spot(&self, text: &[u8], state: usize) -> u32 {
        (self.map_spot)(Independent.map_spot(text, state))
    }
    fn map_state(&self, text: &[u8], row: usize, column: usize) -> u32 {
        (self.map_state)(Independent.map_state(text, row, column))
    }
    fn print(&self, file: &[u8], out: &mut [u8]) -> usize {
        let length = Independent.print(file, out);
        (self.print)(out, length)
    }
    fn file_write(&self, task: &Task, events: &[u32], buffer: &mut [u8]) -> u64 {
        let number = Independent.file_write(task, events, buffer);
        (self.file_write)(buffer, number)
    }
    fn file_read(&self, file: &[u8], mut lent: Lent) -> u64 {
        let [numbers, passages, estimates, events] = &mut lent;
        let number = Independent.file_read(file, [numbers, passages, estimates, events]);
        (self.file_read)(&mut lent, number)
    }
}

fn count_differences(library: Option<&dyn RowDesk>, cases: u64) -> (usize, Tally) {
    let mut desks = Desks::new(library, false);
    let differing = (0..cases).filter(|&case| run_case(&mut desks, 3, case).is_err());
    let count = differing.count();
    (count, desks.tally)
}

#[test]
fn comparison_sees_a_wrong_reply_and_a_wrong_number() {
    assert_eq!(count_differences(Some(&RIGHT), 300).0, 0);
    let changes: &[fn(&mut [u32], u64) -> u64] = &[
        // Another refusal, another Wait, a phase forgotten.
        |_, reply| reply + u64::from(reply == 7 << 32 | 9),
        |_, reply| reply + u64::from(reply >> 32 == 5),
        |row, reply| {
            if reply >> 32 == 4 {
                row[6] = 0;
            }
            reply
        },
    ];
    for &take in changes {
        let wrong = Wrong { take, ..RIGHT };
        assert!(count_differences(Some(&wrong), 300).0 > 0);
    }
}

#[test]
fn comparison_sees_weights_that_are_cut() {
    let cuts: &[fn(usize) -> usize] = &[|weight| weight % 65_536, |weight| weight as u32 as usize];
    for &weight in cuts {
        let wrong = Wrong { weight, ..RIGHT };
        assert!(count_differences(Some(&wrong), 3000).0 > 0);
    }
}

/// The cases meet every reply and every refusal and fault but 12: the open state of
/// the smallest label depends on no open one, so that is not met on any machine.
#[test]
fn cases_meet_everything() {
    let (faults, tally) = count_differences(None, 4000);
    assert_eq!(faults, 0);
    let met = |call, word, numbers: &[u32]| {
        for &number in numbers {
            assert!(
                tally.count(call, word, number) > 0,
                "{call} {word} {number}"
            );
        }
    };
    for (call, words) in [
        ("open", ["opened"].as_slice()),
        ("take", &["took", "found", "nopath", "wait"]),
        ("limited", &["took", "found", "nopath", "wait", "cut"]),
        ("bring", &["brought"]),
        ("path", &["read"]),
        ("morning", &["done"]),
        ("event", &["took", "brought", "found", "nopath", "wait"]),
        ("map", &["read"]),
        ("map_spot", &["given", "none"]),
        ("map_state", &["given", "none"]),
        ("print", &["run", "nothing"]),
        ("file_write", &["written"]),
        ("file_read", &["read"]),
    ] {
        words.iter().for_each(|word| met(call, word, &[0]));
    }
    met("open", "refused", &[1, 2, 3, 4, 5, 6, 7, 8]);
    met("open-wide", "refused", &[1, 2, 3]);
    met("take", "refused", &[8, 9, 10, 11]);
    met("limited", "refused", &[8, 9, 10, 11]);
    met("bring", "refused", &[8, 9, 10, 11]);
    met("path", "refused", &[8, 13, 14, 15]);
    met("morning", "refused", &[8, 16, 18]);
    met("event", "refused", &[8, 9, 10, 11]);
    met("map", "refused", &[31, 32, 33, 34]);
    met("print", "file", &[21, 22, 23]);
    met("file_write", "refused", &[24, 25, 26]);
    met("file_read", "fault", &[21, 22, 23, 27]);
    met("print", "opening", &[1, 2, 3]);
    assert_eq!(unmet(&tally, 10_000), Vec::<String>::new());
}

/// Something of orders 6 and 8 that was not met is said, with cases enough for it.
#[test]
fn what_is_unmet_is_said() {
    let missing = unmet(&Tally::default(), 10_000);
    let (files, keys) = (CLAUSES.len() + 2 + 3 + 4, KEY_CHANGES.len() + 3);
    assert_eq!(missing.len(), files + keys);
    assert_eq!(missing[0], "file_write-24 n 0 was never met");
    assert_eq!(missing[files], "keys-wrong one-up 0 was never met");
    assert!(unmet(&Tally::default(), 9_999).is_empty());
}

#[test]
fn made_files_read_back() {
    let task = task_a();
    let file = maker::file_of(&task, &[(Action::Bring, 7)]);
    let (read, calls) = taskfile::read(&file).expect("a good file");
    assert_eq!(read.head, task.head);
    assert_eq!(
        (read.passages, read.estimates),
        (task.passages, task.estimates)
    );
    assert_eq!(
        (calls.len(), calls[0].action, calls[0].worker),
        (1, Action::Bring, 7)
    );
}
