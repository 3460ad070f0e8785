//! Order 4: blocked passages, and what would be wrong with their use. The sentences
//! of the order themselves are among the documents' runs.

use super::*;
use crate::desk::is_blocked;
use crate::rows::{LABELS, VIAS};

/// Task A with passages blocked.
fn blocked_a(numbers: &[usize]) -> Task {
    changed(|task| {
        for number in numbers {
            task.passages[3 * number + 2] = BLOCKED;
        }
    })
}

fn has_blocked(task: &Task) -> bool {
    task.passages.chunks_exact(3).any(is_blocked)
}

// ---- The desk, held against the words ----

/// Bring as document 01 and orders 4 and 8 word it.
fn literal_bring(machine: &Machine, graph: Graph, worker: usize) -> (Machine, Reply) {
    let mut after = machine.clone();
    let state = usize::from(machine.held[worker]);
    let mut count = 0;
    for number in 0..graph.passages.len() / 3 {
        let [from, to, cost] = [0, 1, 2].map(|part| graph.passages[3 * number + part]);
        let to = to as usize;
        let sum = i128::from(machine.labels[state]) + i128::from(cost);
        let unseen = after.marks[to] == UNSEEN;
        let lowered = after.marks[to] == OPEN && i128::from(after.labels[to]) > sum;
        if from as usize == state && cost != 4_294_967_295 && (unseen || lowered) {
            after.marks[to] = OPEN;
            after.labels[to] = sum as u32;
            after.vias[to] = number as u16;
            let h = i128::from(graph.estimates[to * machine.head.n + machine.head.goal]);
            after.keys[to] = (100 * sum + machine.head.pull as i128 * h) as u64;
            count += 1;
        }
    }
    after.marks[state] = FINISHED;
    after.held[worker] = NONE;
    (after, Reply::Brought(count))
}

#[test]
fn bring_is_the_literal_one() {
    let (mut compared, mut over_blocked) = (0, 0);
    for case in 0..5000 {
        let (task, row) = maker::made_up(&mut Rng::new(14, case));
        let mut machine = match rows::decode(&row) {
            Some(machine) => machine,
            None => continue,
        };
        let busy = machine.held.iter().position(|&held| held != NONE);
        let worker = match busy {
            Some(worker) if machine.fits(task.graph()) => worker,
            _ => continue,
        };
        if worker < machine.head.k && machine.phase == 0 {
            let held = u32::from(machine.held[worker]);
            let (after, wanted) = literal_bring(&machine, task.graph(), worker);
            assert_eq!(machine.bring(task.graph(), worker), wanted, "case {case}");
            assert_eq!(machine, after, "case {case}");
            compared += 1;
            let mut from_held = task.passages.chunks_exact(3).filter(|p| p[0] == held);
            over_blocked += u32::from(from_held.any(is_blocked));
        }
    }
    assert!(compared > 300, "only {compared} compared");
    assert!(
        over_blocked > 100,
        "only {over_blocked} with blocked passages"
    );
}

/// What a far end's label must be, given the near label and the cost.
type FarLabel = fn(u32, u32) -> Option<u32>;

/// As document 01 and order 4 word it.
const HONEST: FarLabel = |near, cost| match cost {
    4_294_967_295 => None,
    _ => Some(near + cost),
};

/// As a desk would have it that knows no blocked passages and adds in 32 bits.
const WRAPPED: FarLabel = |near, cost| Some(near.wrapping_add(cost));

/// The states of a path from the goal back, if it can be read.
fn literal_path(machine: &Machine, graph: Graph, far_label: FarLabel) -> Option<Vec<usize>> {
    let mut back = vec![machine.head.goal];
    loop {
        let state = *back.last()?;
        if state == machine.head.start && machine.labels[state] == 0 {
            return Some(back);
        }
        let number = usize::from(machine.vias[state]);
        let passage = graph.passages.chunks_exact(3).nth(number)?;
        let near = passage[0] as usize;
        let label = far_label(machine.labels[near], passage[2]);
        let leads_here = passage[1] as usize == state && label == Some(machine.labels[state]);
        if !leads_here || back.len() == machine.head.n {
            return None;
        }
        back.push(near);
    }
}

#[test]
fn path_is_the_literal_one() {
    let (mut read, mut wrapped) = (0, 0);
    for case in 0..8000 {
        let (task, row) = maker::made_up(&mut Rng::new(15, case));
        let mut machine = match rows::decode(&row) {
            Some(machine) => machine,
            None => continue,
        };
        machine.phase = FOUND;
        if !machine.fits(task.graph()) {
            continue;
        }
        let mut buffer = [0; 256];
        let reply = machine.path(task.graph(), &mut buffer, 0);
        match literal_path(&machine, task.graph(), HONEST) {
            Some(back) => {
                assert_eq!(reply, Reply::Read(back.len() as u32), "case {case}");
                let states = buffer[..back.len()].iter().map(|&state| usize::from(state));
                assert!(states.eq(back.into_iter().rev()), "case {case}");
                read += 1;
            }
            None => {
                assert_eq!(reply, Reply::Refused(14), "case {case}");
                let wrongly = literal_path(&machine, task.graph(), WRAPPED);
                wrapped += u32::from(wrongly.is_some());
            }
        }
    }
    assert!(read > 500, "only {read} read");
    assert!(wrapped > 20, "only {wrapped} that 32 bits would read");
}

// ---- The checks ----

#[test]
fn routes_have_no_blocked_passages() {
    assert_eq!(shortest(&blocked_a(&[])), Some(6));
    assert_eq!(shortest(&blocked_a(&[2])), Some(8));
    assert_eq!(shortest(&blocked_a(&[2, 1])), Some(11));
    assert_eq!(shortest(&blocked_a(&[4, 5])), None);
    let ring = changed(|task| {
        task.head.goal = 0;
        task.passages = vec![0, 0, BLOCKED];
    });
    assert_eq!(shortest(&ring), Some(0));
}

#[test]
fn demand_3_catches_blocked_passages() {
    let mut row = vec![0; ROW];
    rows::encode(&found_machine(), &mut row);
    let path = [0, 1, 2, 3, 4];
    let fault = |task: &Task| Watch::new(task).see_path(&row, &path, 6).err();
    assert_eq!(fault(&blocked_a(&[1, 4])), None);
    let blocked = Some("passage 5 is blocked".into());
    assert_eq!(fault(&blocked_a(&[5])), blocked);
    let task = blocked_a(&[2]);
    assert!(Watch::new(&task).see(Reply::Found(6)).is_err());
    assert!(Watch::new(&task).see(Reply::Found(8)).is_ok());
    assert!(Watch::new(&task).see(Reply::NoPath).is_err());
    assert!(Watch::new(&blocked_a(&[4, 5])).see(Reply::NoPath).is_ok());
}

#[test]
fn labels_that_came_by_blocked_passages_are_caught() {
    let mut row = vec![0; ROW];
    rows::encode(&found_machine(), &mut row);
    let fault = |task: &Task, row: &[u32]| Watch::new(task).see_labels(row).err();
    assert_eq!(fault(&blocked_a(&[1, 4]), &row), None);
    let blocked = "state 3 came by 3, blocked or none";
    assert_eq!(fault(&blocked_a(&[3]), &row), Some(blocked.into()));
    row[VIAS + 3] = 6;
    let none = "state 3 came by 6, blocked or none";
    assert_eq!(fault(&blocked_a(&[]), &row), Some(none.into()));
}

/// The comparison sees a library that goes over blocked passages as over ones of
/// the highest cost, as document 01 had it; one that refuses them; and one that
/// takes other high costs for blocked.
#[test]
fn comparison_sees_other_costs() {
    let costs: &[fn(u32) -> u32] = &[
        |cost| if cost == BLOCKED { 1_000_000 } else { cost },
        |cost| if cost == BLOCKED { 1_000_001 } else { cost },
        |cost| if cost > 1_000_000 { BLOCKED } else { cost },
    ];
    for (line, &cost) in costs.iter().enumerate() {
        let wrong = Wrong { cost, ..RIGHT };
        let (differences, _) = count_differences(Some(&wrong), 1500);
        assert!(differences > 0, "line {line} is not seen");
    }
}

// ---- The maker ----

#[test]
fn blocked_passages_are_made() {
    let (mut accepted, mut other_routes, mut cut_off) = (0, 0, 0);
    let mut refused = [0; 9];
    for case in 0..3000 {
        let mut rng = Rng::new(16, case);
        let task = maker::task(&mut rng);
        if has_blocked(&task) {
            assert_eq!(opening(&task), None, "case {case}");
            let (now, before) = (shortest(&task), shortest(&unblocked(&task)));
            accepted += 1;
            other_routes += u32::from(now.is_some() && now != before);
            cut_off += u32::from(now.is_none() && before.is_some());
        }
        let broken = maker::broken_task(&mut rng);
        if has_blocked(&broken) {
            refused[opening(&broken).unwrap_or(0) as usize] += 1;
        }
    }
    assert!(accepted > 1000, "only {accepted} accepted");
    assert!(other_routes > 100, "only {other_routes} with other routes");
    assert!(cut_off > 200, "only {cut_off} cut off");
    for number in [4, 6, 7] {
        assert!(
            refused[number] > 10,
            "{number} only {} times",
            refused[number]
        );
    }
}

/// The task with its blocked passages free of cost.
fn unblocked(task: &Task) -> Task {
    let mut task = task.clone();
    let passages = task.passages.chunks_exact_mut(3);
    for passage in passages.filter(|passage| is_blocked(passage)) {
        passage[2] = 0;
    }
    task
}

/// Paths that were found and then blocked: also with the goal's label such that
/// the sum of 32 bits is right.
#[test]
fn found_paths_are_blocked() {
    let (mut blocked, mut wrapped) = (0, 0);
    for case in 0..300 {
        let mut task = task_a();
        let mut row = vec![0; ROW];
        rows::encode(&found_machine(), &mut row);
        maker::damage_found(&mut Rng::new(17, case), &mut row, &mut task);
        let goal_blocked = task.passages[3 * 5 + 2] == BLOCKED;
        blocked += u32::from(goal_blocked);
        wrapped += u32::from(goal_blocked && row[LABELS + 4] == 4);
    }
    assert!(
        blocked > 10 && wrapped > 5,
        "{blocked} blocked, {wrapped} wrapped"
    );
}
