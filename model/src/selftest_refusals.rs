//! Checks of the refusals, each on arenas where the later ones would apply too.

use crate::arena::*;
use crate::run::{run_traced, Room, Trace};
use crate::selftest::{fresh, good_start, Checks};
use crate::turn::turn;

/// The arenas here, with their words: 8 + 16 and five to a node.
pub const SHAPE: Shape = Shape {
    workers: 2,
    nodes: 4,
};
pub const WORDS: usize = 44;
/// The good header of layout 1 with these counts.
pub const OLD_HEADER: [u16; HEADER_WORDS] = [1, 2, 4, 8, 24, 40, 0, 0];

pub fn refusals(checks: &mut Checks) {
    order_of_init(checks);
    order_of_run(checks);
    order_of_start(checks);
    order_of_turn(checks);
    order_of_snapshot(checks);
    headers(checks);
    records(checks);
    links(checks);
}

/// Makes a call that must be refused with this number and must write nothing.
pub fn refused<T>(
    checks: &mut Checks,
    name: &str,
    number: u16,
    mut arena: Vec<u16>,
    call: impl FnOnce(&mut [u16]) -> Result<T, u16>,
) {
    let before = arena.clone();
    let report = call(&mut arena).err();
    checks.check(
        &format!("{name} {number}, got {report:?}"),
        report == Some(number) && arena == before,
    );
}

/// A run with room for so many calls, and for any number of waits.
fn run(
    arena: &mut [u16],
    workers: u16,
    nodes: u16,
    schedule: &[u16],
    calls: usize,
) -> Result<Trace, u16> {
    let waits = usize::MAX;
    run_traced(arena, workers, nodes, schedule, Room { calls, waits })
}

/// In each row one more fault is repaired.
fn order_of_init(checks: &mut Checks) {
    for (number, words, workers, nodes) in [
        (10, WORDS - 1, 0, 4),
        (10, WORDS - 1, 2, 1_025),
        (1, WORDS - 1, 2, 4),
    ] {
        refused(checks, "init", number, vec![7; words], |a| {
            init(a, workers, nodes)
        });
    }
    let done = init(&mut [7; WORDS], 2, 4);
    checks.check("init accepted", done.is_ok());
}

/// In each row one more fault is repaired.
fn order_of_run(checks: &mut Checks) {
    let words = |count| vec![7; count];
    let odd = [0, 1, 5];
    let even = [0, 1, 5, 1];
    refused(checks, "run", 10, words(43), |a| run(a, 9, 4, &odd, 0));
    for length in [1, 2, 3, 6, 9, 15, 11_999, 15_999, 16_004, 48_000] {
        let schedule = vec![0; length];
        refused(checks, "run", 9, words(43), |a| run(a, 2, 4, &schedule, 0));
    }
    refused(checks, "run", 1, words(43), |a| run(a, 2, 4, &even, 0));
    refused(checks, "run", 8, words(44), |a| run(a, 2, 4, &even, 0));
    let done = run(&mut words(44), 2, 4, &even, 1);
    checks.check(
        "run accepted",
        done.is_ok_and(|trace| trace.totals.calls == 1),
    );
    // A refused start needs a record too, but an act above 3 and a turn need none.
    let others = [9, 0, 0, 0, 0, 4, 5, 0, 0, 65_535, 5, 1];
    let done = run(&mut words(44), 2, 4, &others, 0);
    checks.check(
        "run, bad acts",
        done.is_ok_and(|trace| trace.totals.refused == 3),
    );
    let refused_start = [9, 3, 5, 0];
    refused(checks, "run", 8, words(44), |a| {
        run(a, 2, 4, &refused_start, 0)
    });
    let long = run(&mut words(44), 2, 4, &[0; 16_000], 0);
    checks.check(
        "run of 4000",
        long.is_ok_and(|trace| trace.totals.entries == 4_000),
    );
}

/// An arena with the faults of a row: so many words, the header's first word, its worker 1 at a stage,
/// and a link to no node. A first word of 1 makes the header odd, one of 0 stands for a good old one.
fn spoiled(words: usize, first: u16, stage: u16) -> Vec<u16> {
    let mut arena = fresh(SHAPE);
    let at = SHAPE.worker_at(1);
    arena[at..at + 4].copy_from_slice(&[stage, ADD, 5, HEAD]);
    arena[SHAPE.node_at(HEAD) + NEXT] = SHAPE.nodes;
    match first {
        0 => arena[..HEADER_WORDS].copy_from_slice(&OLD_HEADER),
        _ => arena[0] = first,
    }
    arena.truncate(words);
    arena
}

/// Number due, words, first word, worker, stage: a fault less in each row.
type Fault = (u16, usize, u16, u16, u16);

/// Where the header decides, whatever worker and stage are.
const BY_HEADER: [Fault; 7] = [
    (1, WORDS - 1, 1, 2, 26),
    (1, 39, 0, 2, 26),
    (2, WORDS, 1, 2, 26),
    (12, WORDS, 0, 2, 26),
    (12, WORDS, 0, 1, 26),
    (12, WORDS, 0, 1, 2),
    (12, WORDS, 0, 1, 0),
];

fn order_of_start(checks: &mut Checks) {
    let behind: [Fault; 4] = [
        (3, WORDS, 2, 2, 26),
        (6, WORDS, 2, 1, 26),
        (4, WORDS, 2, 1, 25),
        (5, WORDS, 2, 1, 0),
    ];
    for (number, words, first, worker, stage) in BY_HEADER.into_iter().chain(behind) {
        let arena = spoiled(words, first, stage);
        for (act, key, length) in [(4, 5, 0), (ADD, 0, 1), (ADD, 5, 65_535), (REMOVE, 5, 1)] {
            let call = |a: &mut [u16]| start(a, worker, act, key, length);
            refused(checks, "start", number, arena.clone(), call);
        }
    }
}

fn order_of_turn(checks: &mut Checks) {
    let behind: [Fault; 3] = [
        (3, WORDS, 2, 2, 26),
        (6, WORDS, 2, 1, 26),
        (7, WORDS, 2, 1, 2),
    ];
    for (number, words, first, worker, stage) in BY_HEADER.into_iter().chain(behind) {
        let arena = spoiled(words, first, stage);
        refused(checks, "turn", number, arena, |a| turn(a, worker));
    }
}

/// An arena whose nodes have these links and keys.
fn chain(links: [u16; 4], keys: [u16; 4]) -> Vec<u16> {
    let mut arena = fresh(SHAPE);
    for (node, (link, key)) in (0..).zip(links.into_iter().zip(keys)) {
        let at = SHAPE.node_at(node);
        (arena[at + NEXT], arena[at + KEY]) = (link, key);
    }
    arena
}

fn order_of_snapshot(checks: &mut Checks) {
    let broken = chain([2, 1, 3, 4], [0, 65_535, 5, 7]);
    let mut odd = broken.clone();
    odd[7] = 1;
    let short = odd[..odd.len() - 1].to_vec();
    refused(checks, "snapshot", 1, short, |a| snapshot(a, &mut []));
    refused(checks, "snapshot", 2, odd, |a| snapshot(a, &mut []));
    let mut old = broken.clone();
    old[..HEADER_WORDS].copy_from_slice(&OLD_HEADER);
    refused(checks, "snapshot", 12, old, |a| snapshot(a, &mut []));
    refused(checks, "snapshot", 7, broken, |a| snapshot(a, &mut []));
    let equal_keys = chain([2, 1, 3, 1], [0, 65_535, 5, 5]);
    refused(checks, "snapshot", 7, equal_keys, |a| snapshot(a, &mut []));
    let head_high = chain([2, 1, 3, 1], [5, 65_535, 5, 7]);
    refused(checks, "snapshot", 7, head_high, |a| snapshot(a, &mut []));
    let to_head = chain([2, 1, 0, 1], [0, 65_535, 5, 7]);
    refused(checks, "snapshot", 7, to_head, |a| snapshot(a, &mut []));
    // Tail's key and link don't count.
    let good = chain([2, 9, 3, 1], [0, 0, 5, 7]);
    let mut out = [8; 3];
    checks.check(
        "snapshot",
        snapshot(&good, &mut out) == Ok(2) && out == [5, 7, 8],
    );
    refused(checks, "snapshot", 8, good.clone(), |a| {
        snapshot(a, &mut [0])
    });
    let past_tail = chain([1, 2, 3, 0], [0, 65_535, 5, 7]);
    checks.check("nothing past Tail", set(&past_tail).is_empty());
    let keys: Vec<u16> = set(&good).iter().map(|label| label.key).collect();
    checks.check("set", keys == [5, 7]);
}

fn headers(checks: &mut Checks) {
    let shape = SHAPE;
    refused(checks, "turn", 1, vec![1; 7], |a| turn(a, 0));
    for word in 0..HEADER_WORDS {
        let mut arena = fresh(shape);
        arena[COUNT] = shape.max_count();
        arena[word] += 1;
        let number = if word == 5 { 1 } else { 2 };
        refused(checks, "header", number, arena.clone(), |a| turn(a, 0));
        arena.push(0);
        refused(checks, "header", 2, arena, |a| good_start(a, 0, ADD, 5));
    }
    let mut long = fresh(shape);
    long.push(0);
    checks.check("longer arena", check_header(&long) == Ok(shape));
}

/// Stage, operations that belong to it, and which of pred, curr and spare it reads.
pub const STAGES: [(u16, &[u16], &[usize]); 25] = [
    (1, &[ADD, REMOVE], &[]),
    (2, &[ADD, REMOVE], &[PRED]),
    (3, &[ADD, REMOVE], &[CURR]),
    (4, &[ADD, REMOVE], &[CURR]),
    (5, &[ADD, REMOVE], &[CURR]),
    (6, &[ADD, REMOVE], &[PRED]),
    (7, &[ADD, REMOVE], &[CURR]),
    (8, &[ADD, REMOVE], &[PRED]),
    (9, &[ADD, REMOVE], &[CURR]),
    (10, &[ADD, REMOVE], &[PRED, CURR]),
    (11, &[ADD, REMOVE], &[PRED]),
    (12, &[ADD, REMOVE], &[CURR]),
    (13, &[ADD, REMOVE], &[CURR]),
    (14, &[ADD], &[CURR]),
    (15, &[ADD], &[PRED, SPARE]),
    (16, &[REMOVE], &[CURR]),
    (17, &[REMOVE], &[CURR]),
    (18, &[REMOVE], &[PRED, SPARE]),
    (19, &[ADD, REMOVE], &[PRED]),
    (20, &[ADD, REMOVE], &[CURR]),
    (21, &[ADD, REMOVE, CONTAINS], &[]),
    (22, &[CONTAINS], &[]),
    (23, &[CONTAINS], &[CURR]),
    (24, &[CONTAINS], &[CURR]),
    (25, &[CONTAINS], &[CURR]),
];

/// An arena whose worker 0 stands at a stage, on good nodes. Its count can go up and down.
pub fn at_stage(stage: u16, operation: u16) -> Vec<u16> {
    let mut arena = fresh(SHAPE);
    arena[COUNT] = 1;
    let at = SHAPE.worker_at(0);
    arena[at..at + WORKER_WORDS].copy_from_slice(&[stage, operation, 5, 0, 2, 3, 1, 0]);
    arena
}

/// Each reason for refusal 6, at each stage.
fn records(checks: &mut Checks) {
    let mut one_word = |stage: u16, operation: u16, word: usize, value: u16, bad: bool| {
        let mut arena = at_stage(stage, operation);
        arena[SHAPE.worker_at(0) + word] = value;
        let report = turn(&mut arena, 0);
        let name = format!("stage {stage} word {word} is {value}: {report:?}");
        checks.check(&name, (report == Err(6)) == bad);
    };
    for (stage, operations, reads) in STAGES {
        let operation = operations[0];
        for other in [0, ADD, REMOVE, CONTAINS, 4] {
            one_word(
                stage,
                operation,
                OPERATION,
                other,
                !operations.contains(&other),
            );
        }
        for word in [PRED, CURR, SPARE] {
            for node in [SHAPE.nodes, NONE] {
                one_word(stage, operation, word, node, reads.contains(&word));
            }
            one_word(stage, operation, word, SHAPE.nodes - 1, false);
        }
        for answer in [0, 4] {
            one_word(stage, operation, ANSWER, answer, (19..=21).contains(&stage));
        }
        one_word(stage, operation, CALL_KEY, 0, true);
        one_word(stage, operation, CALL_KEY, 65_535, true);
        one_word(stage, operation, CALL_KEY, 65_534, false);
    }
    one_word(26, ADD, ANSWER, 1, true);
    one_word(65_535, ADD, ANSWER, 1, true);
}

/// Refusal 7 is for the links read at 2, 5, 17 and 24 alone.
fn links(checks: &mut Checks) {
    for (stage, operations, _) in STAGES {
        let mut arena = at_stage(stage, operations[0]);
        for node in 0..SHAPE.nodes {
            arena[SHAPE.node_at(node) + NEXT] = SHAPE.nodes;
        }
        let broken = turn(&mut arena, 0) == Err(7);
        let name = format!("stage {stage} and a broken link");
        checks.check(&name, broken == matches!(stage, 2 | 5 | 17 | 24));
    }
}
