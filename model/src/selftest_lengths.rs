//! Lengths, worked out by hand from document 02, and that wrong lengths are told.

use crate::arena::*;
use crate::linearizable::explained;
use crate::run::{run_traced, Call, Room};
use crate::selftest::{fresh, history, Checks};
use crate::selftest_refusals::{at_stage, SHAPE, STAGES};
use crate::sequential;
use crate::turn::{turn, Report};

const ROOM: Room = Room {
    calls: 100,
    waits: 4_000,
};

pub fn lengths(checks: &mut Checks) {
    starts(checks);
    taken_node(checks);
    eighth_word(checks);
    kept_length(checks);
    lengths_of_entries(checks);
    wrong_lengths(checks);
}

/// Operation, key, length, and whether a start may carry it.
const STARTS: [(u16, u16, u16, bool); 20] = [
    (ADD, 5, 0, false),
    (ADD, 5, 1, true),
    (ADD, 1, 65_534, true),
    (ADD, 1, 65_535, false),
    (ADD, 2, 65_533, true),
    (ADD, 2, 65_534, false),
    (ADD, 5, 65_530, true),
    (ADD, 5, 65_531, false),
    (ADD, 65_534, 1, true),
    (ADD, 65_534, 2, false),
    (ADD, 65_534, 65_535, false),
    (ADD, 40_000, 25_535, true),
    (ADD, 40_000, 40_000, false),
    (ADD, 0, 1, false),
    (ADD, 65_535, 0, false),
    (REMOVE, 5, 0, true),
    (REMOVE, 5, 1, false),
    (CONTAINS, 5, 0, true),
    (CONTAINS, 5, 65_535, false),
    (4, 5, 0, false),
];

/// A bad length is refused with 5, after all else; a good one stands in the record.
fn starts(checks: &mut Checks) {
    for (operation, key, length, is_good) in STARTS {
        let mut arena = fresh(SHAPE);
        let mut expected = arena.clone();
        let first_stage = if operation == CONTAINS { 22 } else { 1 };
        let record = [first_stage, operation, key, NONE, NONE, NONE, 0, length];
        if is_good {
            expected[SHAPE.worker_at(1)..][..WORKER_WORDS].copy_from_slice(&record);
        }
        let due = if is_good { Ok(()) } else { Err(BAD_CALL) };
        let started = start(&mut arena, 1, operation, key, length);
        let name = format!("operation {operation} key {key} length {length}");
        checks.check(&name, started == due && arena == expected);
    }
}

/// Words that a worker's eighth word may hold at 14; a start would take some of them from no add.
const EIGHTH_WORDS: [u16; 5] = [0, 1, 7, 65_534, 65_535];

/// Stage 14 writes the worker's eighth word as it stands, and no other node.
fn taken_node(checks: &mut Checks) {
    let shape = SHAPE;
    for length in EIGHTH_WORDS {
        let mut arena = at_stage(14, ADD);
        arena[shape.node_at(0)..].fill(6);
        arena[shape.node_at(HEAD) + NEXT] = TAIL;
        arena[shape.node_at(TAIL) + NEXT] = TAIL;
        let worker = [14, ADD, 5, NONE, TAIL, NONE, 0, length];
        arena[shape.worker_at(0)..][..WORKER_WORDS].copy_from_slice(&worker);
        let mut expected = arena.clone();
        let record = [5, TAIL, 0, 0, length];
        expected[shape.node_at(2)..][..5].copy_from_slice(&record);
        let worker = [15, ADD, 5, NONE, TAIL, 2, 0, length];
        expected[shape.worker_at(0)..][..WORKER_WORDS].copy_from_slice(&worker);
        let report = turn(&mut arena, 0);
        let name = format!("stage 14 takes length {length}");
        checks.check(&name, report == Ok(Report::Moved(15)) && arena == expected);
    }
}

/// No turn changes the eighth word but the one that makes the record idle; none but stage 14 looks
/// at it.
fn eighth_word(checks: &mut Checks) {
    let eighth = SHAPE.worker_at(0) + CALL_LENGTH;
    for (stage, operations, _) in STAGES {
        let mut plain = at_stage(stage, operations[0]);
        let plain_report = turn(&mut plain, 0);
        for length in EIGHTH_WORDS {
            let mut arena = at_stage(stage, operations[0]);
            arena[eighth] = length;
            let report = turn(&mut arena, 0);
            let due = if stage == 21 { 0 } else { length };
            let name = format!("stage {stage} keeps length {length}");
            checks.check(&name, arena[eighth] == due && report == plain_report);
            arena[eighth] = 0;
            checks.check(&name, stage == 14 || arena == plain);
        }
    }
}

/// A call of worker 0, alone, to its end.
fn whole_call(arena: &mut [u16], operation: u16, key: u16, length: u16) -> bool {
    let started = start(arena, 0, operation, key, length).is_ok();
    started && (0..20).any(|_| matches!(turn(arena, 0), Ok(Report::Finished(_))))
}

/// A removed node keeps its length until it is taken again.
fn kept_length(checks: &mut Checks) {
    let shape = Shape::new(1, 3).expect("a good shape");
    let mut arena = fresh(shape);
    let at = shape.node_at(2);
    let mut after = |operation, key, length| {
        let done = whole_call(&mut arena, operation, key, length);
        done.then(|| arena[at..at + 5].to_vec())
    };
    checks.check("added", after(ADD, 5, 3) == Some(vec![5, 1, 0, 0, 3]));
    checks.check("no", after(ADD, 5, 4) == Some(vec![5, 1, 0, 0, 3]));
    checks.check("full", after(ADD, 6, 4) == Some(vec![5, 1, 0, 0, 3]));
    checks.check("removed", after(REMOVE, 5, 0) == Some(vec![5, 1, 1, 0, 3]));
    checks.check("again", after(ADD, 6, 9) == Some(vec![6, 1, 0, 0, 9]));
}

/// Entries of four words: a bad length is a refused entry, and a turn's is not looked at.
fn lengths_of_entries(checks: &mut Checks) {
    let start = |act, key, length| [0, act, key, length];
    let entries = [
        start(ADD, 5, 0),
        start(ADD, 5, 65_531),
        start(REMOVE, 5, 1),
        start(CONTAINS, 5, 1),
        start(4, 5, 1),
        start(ADD, 5, 65_530),
    ];
    let turns = [[0, 0, 65_535, 65_535]; 14];
    let schedule = [&entries.concat()[..], &turns.concat()].concat();
    let mut arena = vec![7; 44];
    let trace = run_traced(&mut arena, 2, 4, &schedule, ROOM).unwrap_or_default();
    checks.check("refused lengths", trace.refusals[5] == 5);
    checks.check("four for the length alone", trace.refused_lengths == 4);
    let label = Label {
        key: 5,
        length: 65_530,
    };
    checks.check("what is stored", set(&arena) == [label]);
    checks.check("a run lays layout 2", arena[..6] == [2, 2, 4, 8, 24, 44]);
    let call = trace.calls.first().map(Call::label);
    checks.check("a call's length", call == Some(label));
}

/// 5 is stored with length 3, and later again with 8; 7 once, and an add of it says no.
const LENGTHS_INPUT: &str = "\
board 1 4
add 0 5 3
turn 0 14
remove 0 5
turn 0 15
add 0 7 2
turn 0 14
add 0 5 8
turn 0 14
add 0 7 6
turn 0 20
";

/// Another length in the last set, or of a call that stored it, is told; that of a call which
/// stored nothing, or nothing that stayed, is not.
fn wrong_lengths(checks: &mut Checks) {
    let (calls, last_set) = history(LENGTHS_INPUT);
    let pairs: Vec<_> = last_set.iter().map(|l| (l.key, l.length)).collect();
    checks.check("last labels", pairs == [(5, 8), (7, 2)] && calls.len() == 5);
    let told = |calls: &[Call], set: &[Label]| {
        let by_points = sequential::check(calls, set).is_err();
        (by_points == (explained(calls, set) == Some(false))).then_some(by_points)
    };
    checks.check("right lengths", told(&calls, &last_set) == Some(false));
    for place in 0..last_set.len() {
        for length in [0, 1, 3, 6] {
            let mut wrong = last_set.clone();
            wrong[place].length = length;
            checks.check("wrong label", told(&calls, &wrong) == Some(true));
        }
    }
    let stores_what_stays = [false, false, true, true, false];
    for (place, due) in stores_what_stays.into_iter().enumerate() {
        let mut wrong = calls.clone();
        wrong[place].length = 77;
        checks.check("wrong call", told(&wrong, &last_set) == Some(due));
    }
}
