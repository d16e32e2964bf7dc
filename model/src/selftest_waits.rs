//! Waits, worked out by hand: who is in the way on fresh arenas and on arenas of any words, room
//! for the second row, and that wrong waits are told.

use crate::arena::*;
use crate::bench::{bench, evaluate, Outcome};
use crate::run::{run_traced, Room, Trace};
use crate::selftest::{fresh, Checks};
use crate::selftest_refusals::{SHAPE, WORDS};
use crate::turn::{turn, Report};
use crate::waits::check_waits;

/// Worker 0 holds Head; worker 1 waits in its second call, worker 2 in its first, by turns. Then
/// worker 2 has Head, finds that the chain has changed and gives it back, and worker 1 takes it.
const BY_TURNS_INPUT: &str = "\
board 3 4
add 0 5 2
turn 0 4
contains 1 5
turn 1 5
add 1 7 65528
turn 1 4
remove 2 5
turn 2 4
turn 1 1
turn 0 10
turn 2 2
turn 1 1
turn 2 5
turn 1 3
turn 2 4
";
const BY_TURNS_OUTPUT: &str = "\
entries 47 refused 0 waits 5 calls 4
0 add 5 1 29 32 yes
1 contains 5 6 6 11 no
1 add 7 12 0 0 open
wait 16 0 0
wait 22 0 0
wait 35 0 2
2 remove 5 17 0 0 open
wait 21 0 0
wait 47 0 1
roll 5
";
/// The same as they stand in the second row: call, time, node, worker.
const BY_TURNS_ROW: [[u16; 4]; 5] = [
    [2, 16, 0, 0],
    [3, 21, 0, 0],
    [2, 22, 0, 0],
    [2, 35, 0, 2],
    [3, 47, 0, 1],
];

/// Worker 0 is about to give back Tail when worker 1 wants it: a wait at stage 7.
const AT_TAIL_INPUT: &str = "\
board 2 3
add 1 5 1
turn 1 3
add 0 5 2
turn 0 12
turn 1 3
turn 0 2
turn 1 1
";
const AT_TAIL_OUTPUT: &str = "\
entries 23 refused 0 waits 2 calls 2
1 add 5 1 0 0 open
wait 19 1 0
wait 20 1 0
0 add 5 5 16 22 yes
roll 5
";

pub fn waits(checks: &mut Checks) {
    for (input, output) in [
        (BY_TURNS_INPUT, BY_TURNS_OUTPUT),
        (AT_TAIL_INPUT, AT_TAIL_OUTPUT),
    ] {
        checks.check(output, bench(input.as_bytes()) == output.as_bytes());
    }
    let row: Vec<_> = by_turns().waits.iter().map(|wait| wait.words()).collect();
    checks.check("waits by time", row == BY_TURNS_ROW);
    any_owner(checks);
    room_for_waits(checks);
    wrong_waits(checks);
}

fn by_turns() -> Trace {
    match evaluate(BY_TURNS_INPUT.as_bytes()) {
        Outcome::Ran(trace, _) => *trace,
        _ => Trace::default(),
    }
}

/// On an arena of any words the worker is the owner word less 1: it may be one that is not there,
/// or the waiting worker itself. The other node's owner is not looked at, and nothing changes.
fn any_owner(checks: &mut Checks) {
    let shape = SHAPE;
    let stages = [(6, PRED, CURR), (7, CURR, PRED)];
    let owners = [(1, 0), (2, 1), (3, 2), (9, 8), (65_535, 65_534)];
    for (stage, wanted, other) in stages {
        for (owner, worker) in owners {
            for node in 0..shape.nodes {
                let mut arena = fresh(shape);
                let at = shape.worker_at(0);
                let other_node = (node + 1) % shape.nodes;
                arena[at..at + 3].copy_from_slice(&[stage, REMOVE, 5]);
                arena[at + wanted] = node;
                arena[at + other] = other_node;
                arena[shape.node_at(node) + OWNER] = owner;
                arena[shape.node_at(other_node) + OWNER] = 7;
                let before = arena.clone();
                let report = turn(&mut arena, 0);
                let name = format!("stage {stage} node {node} owner {owner}: {report:?}");
                let is_due = report == Ok(Report::Waits { node, worker });
                checks.check(&name, is_due && arena == before);
            }
        }
    }
}

/// Two starts and three turns, one of each refused, and two entries with an act above 3.
const ROOM_SCHEDULE: [u16; 28] = [
    0, 1, 5, 1, 0, 0, 0, 0, 9, 3, 5, 0, 0, 4, 5, 0, 9, 0, 0, 0, 0, 65_535, 5, 0, 0, 0, 0, 0,
];

/// Refusal 8 by either row, at the limit and one below, and after 10, 9 and 1.
fn room_for_waits(checks: &mut Checks) {
    let (shape, total) = (SHAPE, WORDS);
    let mut row = |due: Result<(), u16>, workers, schedule: &[u16], words, calls, waits| {
        let mut arena = vec![7; words];
        let room = Room { calls, waits };
        let run = run_traced(&mut arena, workers, shape.nodes, schedule, room).map(|_| ());
        let name = format!("room for {calls} calls and {waits} waits: {run:?}");
        let is_untouched = run.is_ok() || arena.iter().all(|&word| word == 7);
        checks.check(&name, run == due && is_untouched);
    };
    let good = &ROOM_SCHEDULE[..];
    for (due, calls, waits) in [
        (Ok(()), 2, 3),
        (Ok(()), 9, 9),
        (Err(8), 2, 2),
        (Err(8), 9, 2),
        (Err(8), 2, 0),
        (Err(8), 1, 3),
        (Err(8), 1, 9),
        (Err(8), 1, 2),
    ] {
        row(due, 2, good, total, calls, waits);
    }
    // A fault less in each row.
    row(Err(10), 9, &good[1..], total - 1, 2, 2);
    row(Err(9), 2, &good[1..], total - 1, 2, 2);
    row(Err(1), 2, good, total - 1, 2, 2);
    row(Err(8), 2, good, total, 2, 2);
    row(Ok(()), 2, &[0; 16_000], total, 0, 4_000);
    row(Err(8), 2, &[0; 16_000], total, 0, 3_999);
    row(Ok(()), 2, &[0, 4, 5, 0], total, 0, 0);
    row(Ok(()), 2, &[], total, 0, 0);
}

/// The waits of the run pass; with something wrong in them they don't.
fn wrong_waits(checks: &mut Checks) {
    checks.check("waits", check_waits(&by_turns()).is_ok());
    checks.check("no run, no waits", check_waits(&Trace::default()).is_ok());
    let mut wrong = |name: &str, change: fn(&mut Trace)| {
        let mut trace = by_turns();
        change(&mut trace);
        checks.check(name, check_waits(&trace).is_err());
    };
    wrong("a wait left out", |trace| {
        trace.waits.remove(2);
    });
    wrong("a wait doubled", |trace| {
        trace.waits.insert(2, trace.waits[2]);
        trace.totals.waits += 1;
    });
    wrong("waits swapped", |trace| trace.waits.swap(1, 2));
    wrong("another's call", |trace| trace.waits[0].call = 3);
    wrong("an earlier call", |trace| trace.waits[0].call = 1);
    wrong("no call", |trace| trace.waits[0].call = 4);
    wrong("time of a start", |trace| trace.waits[0].time = 12);
    wrong("another's time", |trace| trace.waits[0].time = 17);
    wrong("time 0", |trace| trace.waits[0].time = 0);
    wrong("time past the end", |trace| trace.waits[4].time = 48);
    wrong("no node", |trace| trace.waits[0].node = 4);
    wrong("in its own way", |trace| trace.waits[0].worker = 1);
    wrong("no worker", |trace| trace.waits[0].worker = 3);
    wrong("not busy yet", |trace| trace.waits[0].worker = 2);
    wrong("not busy any more", |trace| trace.waits[3].worker = 0);
    wrong("after its point", |trace| trace.calls[2].point = 16);
    wrong("after its finish", |trace| trace.calls[2].finish = 16);
    wrong("of a look-up", |trace| trace.calls[2].operation = CONTAINS);
    wrong("for a look-up", |trace| trace.calls[0].operation = CONTAINS);
}
