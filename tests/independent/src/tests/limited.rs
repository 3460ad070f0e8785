//! Order 7: limited Takes, their counts, and what would be wrong with one. The
//! sentences of the order themselves are among the documents' runs.

use super::*;
use crate::demand::limited::{see_limited, LimitedTake};
use crate::demand::see_limited_wait;
use crate::desk::Limited;
use crate::rows::{limited, limited_code};

// ---- The desk, held against the words ----

/// A limited Take without a limit as order 7 words it, without any shortcut.
pub fn literal_limited(machine: &Machine, graph: Graph) -> Limited {
    let n = machine.head.n;
    let h = |a: usize, b: usize| i128::from(graph.estimates[a * n + b]);
    let label = |s: usize| i128::from(machine.labels[s]);
    let independent =
        |s: usize, t: usize| 100 * (label(s) - label(t)) <= machine.head.excess as i128 * h(t, s);
    let open = |s: usize| machine.marks[s] == OPEN;
    let out = |s: usize| machine.marks[s] == OUT;
    let goal = machine.head.goal;
    let key = |s: usize| 100 * label(s) + machine.head.pull as i128 * h(s, goal);
    let mut comparisons = 0;
    // The state at which the test of `s` stops.
    let mut test = |s: usize| {
        let compared = (0..n).filter(|&t| out(t) || (open(t) && key(t) < key(s)));
        let mut compared = compared.inspect(|_| comparisons += 1);
        compared.find(|&t| !independent(s, t))
    };
    let mut stops = vec![None; n];
    let mut safe = None;
    if open(goal) {
        stops[goal] = test(goal);
        safe = Some(goal).filter(|_| stops[goal].is_none());
    }
    while safe.is_none() {
        let untried = (0..n).filter(|&s| open(s) && s != goal && stops[s].is_none());
        match untried.min_by_key(|&s| (key(s), s)) {
            Some(s) => {
                stops[s] = test(s);
                safe = Some(s).filter(|_| stops[s].is_none());
            }
            None => break,
        }
    }
    let smallest = (0..n).filter(|&s| open(s)).min_by_key(|&s| (key(s), s));
    let reply = match safe {
        Some(state) if state == goal => Reply::Found(machine.labels[goal]),
        Some(state) => Reply::Took(state as u32),
        None if !(0..n).any(|s| open(s) || out(s)) => Reply::NoPath,
        None => {
            let waited_for = smallest.map_or_else(|| (0..n).find(|&t| out(t)), |s| stops[s]);
            Reply::Wait(waited_for.expect("a state to wait for") as u16)
        }
    };
    Limited { comparisons, reply }
}

/// The maker's machines on which a Take is not refused, with a worker for it.
fn takes(
    seed: u64,
    make: fn(&mut Rng) -> (Task, Vec<u32>),
) -> impl Iterator<Item = (Task, Machine, usize)> {
    (0..8000).filter_map(move |case| {
        let (task, row) = make(&mut Rng::new(seed, case));
        let machine = rows::decode(&row).filter(|m| m.fits(task.graph()) && m.phase == 0)?;
        let mut workers = machine.held[..machine.head.k].iter();
        let worker = workers.position(|&held| held == NONE)?;
        Some((task, machine, worker))
    })
}

#[test]
fn limited_take_is_the_literal_one() {
    let (mut compared, mut other_replies, mut other_waits, mut cuts) = (0, 0, 0, 0);
    let all = takes(21, maker::made_up).chain(takes(21, maker::ranked_otherwise));
    for (task, machine, worker) in all {
        let full = literal_limited(&machine, task.graph());
        for limit in [0, 1, full.comparisons.saturating_sub(1), full.comparisons] {
            let mut after = machine.clone();
            let limited = after.take_limited(task.graph(), worker, limit);
            if limit < full.comparisons {
                assert_eq!(limited.reply, Reply::Cut(limit as u32));
                assert_eq!((limited.comparisons, &after), (limit, &machine));
                cuts += 1;
            } else {
                assert_eq!(limited, full);
            }
        }
        let take = literal_take(&machine, task.graph());
        compared += 1;
        match (full.reply, take) {
            (Reply::Wait(a), Reply::Wait(b)) => other_waits += u32::from(a != b),
            (a, b) => other_replies += u32::from(a != b),
        }
    }
    assert!(compared > 3000, "only {compared} compared");
    assert!(cuts > 3000, "only {cuts} cut");
    assert!(other_replies > 200, "only {other_replies} unlike Take's");
    assert!(other_waits > 200, "only {other_waits} Waits unlike Take's");
}

/// Theorem 2 of source 002: with a table that opening accepts, a state is independent
/// of all whose key isn't smaller. So a limited Take replies as Take does, also on
/// machines that no calls led to, and leaves the same.
#[test]
fn accepted_tables_make_no_difference() {
    let (mut compared, mut waits) = (0, 0);
    for (mut task, machine, worker) in takes(22, maker::made_up) {
        task.passages.clear();
        if task.estimates.len() > 1600 || opening(&task).is_some() {
            continue;
        }
        let (mut one, mut other) = (machine.clone(), machine);
        let limited = one.take_limited(task.graph(), worker, usize::MAX);
        assert_eq!(limited.reply, other.take(task.graph(), worker));
        assert_eq!(one, other);
        compared += 1;
        waits += u32::from(matches!(limited.reply, Reply::Wait(_)));
    }
    assert!(compared > 300 && waits > 50, "{compared}, {waits} Waits");
}

/// On the machine of `waiting`: 1 has the smallest key, 2 another, 3 is out.
#[test]
fn comparisons_are_counted() {
    let counts = |change: Change| {
        let (task, mut machine) = waiting(change);
        let take = machine.take_comparisons(task.graph());
        (take, machine.take_limited(task.graph(), 0, usize::MAX))
    };
    let of = |comparisons, reply| Limited { comparisons, reply };
    // 1 stops at 2, or limited at 3; 2 is independent of 1 and stops at 3.
    assert_eq!(counts(|_| {}), (1 + 2, of(3, Reply::Wait(3))));
    // 1 and 2 have equal keys: limited, 2 is not compared with 1.
    let equal = counts(|m| m.labels[1] = 14);
    assert_eq!(equal, (1 + 2, of(2, Reply::Wait(3))));
    // Nothing open.
    assert_eq!(counts(deal_all), (0, of(0, Reply::Wait(1))));
    // 3 has the higher label: 1 stops at 2, or limited is safe after 3; 2 is safe after 1
    // and 3.
    let later = counts(|m| m.labels[3] = 20);
    assert_eq!(later, (1 + 2, of(1, Reply::Took(1))));
    // The goal, with the smallest label of all, is safe after all others, or after the
    // out one.
    let goal = counts(|m| {
        m.marks[4] = OPEN;
        m.labels[3] = 20;
    });
    assert_eq!(goal, (3, of(1, Reply::Found(0))));
    // The goal, with 12, depends on 1, where its test stops; limited it has a smaller key
    // than 2, and stops at 1 too. 1 is safe limited, after 3.
    let goal = counts(|m| {
        m.marks[4] = OPEN;
        m.labels[3..5].copy_from_slice(&[20, 12]);
    });
    assert_eq!(goal, (1 + 1 + 3, of(1 + 1, Reply::Took(1))));
}

#[test]
fn limited_codes() {
    let cut = Limited {
        comparisons: 65_279,
        reply: Reply::Cut(65_279),
    };
    assert_eq!(limited_code(cut), 65_279 << 40 | 9 << 32 | 65_279);
    assert_eq!(limited(limited_code(cut)), Some(cut));
    let wait = Limited {
        comparisons: 3,
        reply: Reply::Wait(1),
    };
    assert_eq!(limited(3 << 40 | 5 << 32 | 1), Some(wait));
    assert_eq!(limited(3 << 40 | 10 << 32), None);
}

// ---- The checks ----

/// The comparison sees a limited Take that does anything else than the independent
/// one, wherever it hands it back.
#[test]
fn comparison_sees_wrong_limited_takes() {
    type Take = fn(&mut [u32], Graph, usize, usize) -> u64;
    let changes: &[Take] = &[
        // Another count, or one where it is refused.
        |row, graph, worker, limit| {
            let code = Independent.take_limited(row, graph, worker, limit);
            code + u64::from(code >> 40 > 0) * (1 << 40)
        },
        |row, graph, worker, limit| {
            let code = Independent.take_limited(row, graph, worker, limit);
            code + u64::from(code >> 32 == 7) * (1 << 40)
        },
        // Cut already where the count is the limit, only where it is two more, or never.
        |row, graph, worker, limit| {
            Independent.take_limited(row, graph, worker, limit.saturating_sub(1))
        },
        |row, graph, worker, limit| {
            Independent.take_limited(row, graph, worker, limit.saturating_add(1))
        },
        |row, graph, worker, _| Independent.take_limited(row, graph, worker, usize::MAX),
        // A limit that is cut to 32 bits.
        |row, graph, worker, limit| {
            Independent.take_limited(row, graph, worker, limit as u32 as usize)
        },
        // A cut that changes the machine.
        |row, graph, worker, limit| {
            let code = Independent.take_limited(row, graph, worker, limit);
            if code >> 32 & 255 == 9 {
                Independent.take(row, graph, worker);
            }
            code
        },
        // Take's reply, with the right count.
        |row, graph, worker, limit| {
            let code = Independent.take_limited(&mut row.to_vec(), graph, worker, limit);
            match code >> 32 & 255 {
                9 => code,
                _ => (code >> 40) << 40 | Independent.take(row, graph, worker),
            }
        },
        // Of Waits, the state that Take waits for.
        |row, graph, worker, limit| {
            let code = Independent.take_limited(row, graph, worker, limit);
            match code >> 32 & 255 {
                5 => (code >> 40) << 40 | Independent.take(row, graph, worker),
                _ => code,
            }
        },
    ];
    for (line, &limited) in changes.iter().enumerate() {
        let wrong = Wrong { limited, ..RIGHT };
        let (differences, _) = count_differences(Some(&wrong), 1500);
        assert!(differences > 0, "line {line} is not seen");
    }
}

/// What is wrong with worker 1's limited Take after T0 T1 B0 T0 on task A, which makes
/// one comparison and waits for 1, after a change to what it replied and left.
fn limited_fault(limit: usize, change: fn(&mut Limited, &mut [u32])) -> Option<String> {
    seen_fault(&Independent, limit, change)
}

fn seen_fault(
    desk: &dyn RowDesk,
    limit: usize,
    change: fn(&mut Limited, &mut [u32]),
) -> Option<String> {
    let task = task_a();
    let mut machine = opened(&task);
    machine.take(task.graph(), 0);
    machine.bring(task.graph(), 0);
    machine.take(task.graph(), 0);
    let mut before = vec![0; ROW];
    rows::encode(&machine, &mut before);
    let mut limited = machine.take_limited(task.graph(), 1, limit);
    let mut after = vec![0; ROW];
    rows::encode(&machine, &mut after);
    change(&mut limited, &mut after);
    let take = LimitedTake {
        graph: task.graph(),
        worker: 1,
        limit,
        row: [&before, &after],
        reached: true,
    };
    see_limited(desk, limited, &take).err()
}

#[test]
fn what_order_7_catches() {
    for limit in [0, 1, 2, usize::MAX] {
        assert_eq!(limited_fault(limit, |_, _| {}), None);
        assert!(limited_fault(limit, |l, _| l.comparisons += 1).is_some());
        assert!(limited_fault(limit, |l, _| l.reply = Reply::Wait(2)).is_some());
        assert!(limited_fault(limit, |l, _| l.reply = Reply::Cut(3)).is_some());
        assert!(limited_fault(limit, |_, row| row[7] = 0).is_some());
    }
    let uncut = limited_fault(0, |l, _| {
        l.reply = Reply::Wait(1);
        l.comparisons = 1;
    });
    let uncut = uncut.expect("a fault");
    assert!(uncut.ends_with("not a cut at 0"), "{uncut}");
}

/// A desk whose limited Takes are right, but not as its own Takes.
#[test]
fn limited_takes_are_held_against_the_desk_s_own_takes() {
    let take = |_: &mut [u32], reply: u64| reply + u64::from(reply >> 32 == 5);
    let wrong = Wrong { take, ..RIGHT };
    let other = "limited Wait(1), but Take Wait(2)".into();
    assert_eq!(seen_fault(&wrong, 1, |_, _| {}), Some(other));
}

/// Demand 3 follows limited Takes as it does Takes.
#[test]
fn demand_3_includes_limited_takes() {
    let task = task_a();
    let mut watch = Watch::new(&task);
    assert!(watch.see(Reply::Cut(0)).is_ok());
    assert!(watch.see(Reply::Took(2)).is_ok());
    assert!(watch.see(Reply::Cut(5)).is_ok());
    assert!(watch.see(Reply::Took(2)).is_err());
}

#[test]
fn wrong_limited_waits_are_caught() {
    let fault = |named: u16, change: Change| {
        let (task, machine) = waiting(change);
        let mut row = vec![0; ROW];
        rows::encode(&machine, &mut row);
        see_limited_wait(&row, task.graph(), named).err()
    };
    assert_eq!(fault(3, |_| {}), None);
    assert_eq!(fault(3, |m| m.labels[1] = 15), None);
    assert_eq!(fault(1, deal_all), None);
    assert_eq!(fault(2, |_| {}), Some("Wait 2, which isn't out".into()));
    let later = |m: &mut Machine| m.labels[3] = 20;
    let independent = "Wait 3, but 1 does not depend on it";
    assert_eq!(fault(3, later), Some(independent.into()));
    let lower = |m: &mut Machine| {
        m.marks[0] = OUT;
        m.held[2] = 0;
    };
    let depends = "Wait 3, but 1 depends on 0";
    assert_eq!(fault(3, lower), Some(depends.into()));
}
