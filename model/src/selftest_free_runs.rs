//! The longest free run, worked out by hand from document 02.

use crate::arena::*;
use crate::free_run::{longest_free_run, FreeRun};
use crate::selftest::{fresh, Checks};
use crate::selftest_refusals::{refused, OLD_HEADER, SHAPE};
use crate::turn::{turn, Report};

const MARKS: [u16; 4] = [1, 2, 256, 65_535];

pub fn free_runs(checks: &mut Checks) {
    for cases in [&FEW_LABELS[..], &OVERLAPS, &LIMITS, &ANY_LENGTHS] {
        for &(name, labels, last_cell, first, length) in cases {
            found(checks, name, &labelled(labels), last_cell, (first, length));
        }
    }
    moving_end(checks);
    marked_nodes(checks);
    half_removed(checks);
    other_words(checks);
    broken_chains(checks);
    order_of_refusals(checks);
}

fn found(checks: &mut Checks, name: &str, arena: &[u16], last_cell: u16, run: (u16, u16)) {
    let got = longest_free_run(arena, last_cell);
    let (first, length) = run;
    let name = format!("{name}: {first} and {length} up to {last_cell}, got {got:?}");
    checks.check(&name, got == Ok(FreeRun { first, length }));
}

/// Key and length.
type Cells = (u16, u16);

/// An arena whose set has these labels; their nodes are linked from the last one down.
fn labelled(labels: &[Cells]) -> Vec<u16> {
    let nodes = 2 + labels.len().max(2) as u16;
    let shape = Shape { nodes, ..SHAPE };
    let mut arena = fresh(shape);
    let mut last = HEAD;
    for (node, &(key, length)) in (2..nodes).rev().zip(labels) {
        let at = shape.node_at(node);
        arena[shape.node_at(last) + NEXT] = node;
        arena[at..at + NODE_WORDS].copy_from_slice(&[key, TAIL, 0, 0, length]);
        last = node;
    }
    arena
}

/// A name, labels, the last cell, and the first cell and length that are due.
type Case<'a> = (&'a str, &'a [Cells], u16, u16, u16);

const FEW_LABELS: [Case; 22] = [
    ("no label", &[], 1, 1, 1),
    ("no label", &[], 10, 1, 10),
    ("no label", &[], 65_534, 1, 65_534),
    ("all covered", &[(1, 10)], 10, 0, 0),
    ("all covered", &[(1, 1), (2, 1), (3, 8)], 10, 0, 0),
    ("all covered", &[(1, 65_534)], 65_534, 0, 0),
    ("one cell left", &[(1, 10)], 11, 11, 1),
    ("the first cell left", &[(2, 10)], 11, 1, 1),
    ("before the label", &[(5, 3)], 10, 1, 4),
    ("behind the label", &[(5, 3)], 12, 8, 5),
    ("between labels", &[(2, 1), (9, 1)], 10, 3, 6),
    ("between two of three", &[(2, 1), (4, 1), (9, 1)], 10, 5, 4),
    ("side by side", &[(2, 2), (4, 2)], 7, 6, 2),
    ("a cell between", &[(1, 2), (4, 2)], 5, 3, 1),
    ("as long before and behind", &[(5, 3)], 11, 1, 4),
    ("three as long", &[(3, 1), (6, 1)], 8, 1, 2),
    ("two as long", &[(2, 1), (5, 1)], 7, 3, 2),
    ("two cells as long", &[(1, 1), (3, 1)], 4, 2, 1),
    ("a longer one last", &[(3, 1), (6, 1)], 9, 7, 3),
    ("a longer one first", &[(4, 1), (7, 1)], 9, 1, 3),
    ("label 1", &[(1, 1)], 4, 2, 3),
    ("rising gaps", &[(2, 1), (5, 1), (9, 1), (14, 1)], 18, 10, 4),
];

/// Labels that overlap, lie in one another, or end together.
const OVERLAPS: [Case; 11] = [
    ("overlap", &[(2, 4), (4, 5)], 9, 1, 1),
    ("overlap", &[(2, 4), (4, 5)], 10, 9, 2),
    ("in the last cell", &[(2, 4), (5, 4)], 12, 9, 4),
    ("inner label", &[(2, 8), (4, 2)], 12, 10, 3),
    ("inner label", &[(2, 8), (4, 2)], 9, 1, 1),
    ("in the outer's first cells", &[(2, 8), (3, 1)], 12, 10, 3),
    ("with the outer's end", &[(2, 8), (8, 2)], 12, 10, 3),
    ("a cell past the outer", &[(2, 8), (8, 3)], 13, 11, 3),
    ("two inner ones", &[(3, 9), (4, 1), (6, 2)], 14, 12, 3),
    ("one in another", &[(3, 9), (4, 6), (6, 2)], 14, 12, 3),
    ("inner, then apart", &[(2, 8), (4, 2), (12, 1)], 12, 10, 2),
];

/// The last cell, and where it stands beside the labels.
const LIMITS: [Case; 22] = [
    ("cell 1 covered", &[(1, 1)], 1, 0, 0),
    ("cell 1 free", &[(2, 1)], 1, 1, 1),
    ("cell 2 last", &[(1, 1)], 2, 2, 1),
    ("label behind the last cell", &[(20, 3)], 10, 1, 10),
    ("label right behind it", &[(11, 3)], 10, 1, 10),
    ("label in it", &[(10, 3)], 10, 1, 9),
    ("it is inside a label", &[(4, 5)], 6, 1, 3),
    ("it is inside a label", &[(1, 5)], 3, 0, 0),
    ("inside one, others behind", &[(5, 99), (50, 1)], 60, 1, 4),
    ("two behind it", &[(3, 1), (9, 1), (20, 1)], 7, 4, 4),
    ("it cuts a longer one off", &[(5, 1), (50, 1)], 8, 1, 4),
    ("65534 free", &[], 65_534, 1, 65_534),
    ("65534 covered", &[(65_534, 1)], 65_534, 1, 65_533),
    ("65534 alone", &[(1, 65_533)], 65_534, 65_534, 1),
    ("1 alone", &[(2, 65_533)], 65_534, 1, 1),
    ("2 to 65534", &[(1, 1)], 65_534, 2, 65_533),
    ("the half behind", &[(30_000, 1)], 65_534, 30_001, 35_534),
    ("the half before", &[(40_000, 1)], 65_534, 1, 39_999),
    ("key 65535", &[(65_535, 9)], 65_534, 1, 65_534),
    ("key 65535, length 0", &[(65_535, 0)], 65_534, 1, 65_534),
    ("the longest for it", &[(65_535, 65_535)], 65_534, 1, 65_534),
    (
        "before key 65535",
        &[(9, 1), (65_535, 1)],
        65_534,
        10,
        65_525,
    ),
];

/// Lengths that no add has: 0 covers nothing and parts nothing; others run past 65,535.
const ANY_LENGTHS: [Case; 16] = [
    ("length 0", &[(5, 0)], 10, 1, 10),
    ("length 0 in cell 1", &[(1, 0)], 1, 1, 1),
    ("length 0 in the last cell", &[(10, 0)], 10, 1, 10),
    ("length 0 alone", &[(3, 0), (5, 0), (6, 0)], 10, 1, 10),
    ("length 0 in a label", &[(2, 5), (4, 0)], 10, 7, 4),
    ("length 0 behind a label", &[(2, 2), (4, 0)], 8, 4, 5),
    ("length 0 before a label", &[(5, 0), (6, 1)], 8, 1, 5),
    ("length 0 makes no equals", &[(4, 1), (7, 0)], 9, 5, 5),
    ("end 65535", &[(10, 65_525)], 65_534, 1, 9),
    ("end 65536", &[(10, 65_526)], 65_534, 1, 9),
    ("end 65537", &[(10, 65_527)], 65_534, 1, 9),
    ("end 65545", &[(10, 65_535)], 20, 1, 9),
    ("far behind", &[(40_000, 65_535)], 65_534, 1, 39_999),
    ("a cell behind", &[(65_534, 2)], 65_534, 1, 65_533),
    ("all, and more", &[(1, 65_535)], 65_534, 0, 0),
    ("another in it", &[(3, 65_535), (7, 1)], 65_534, 1, 2),
];

/// Two labels, and a last cell that goes past them: 1 to 3 are free, 4 to 8 not, 9 to 12, not 13.
fn moving_end(checks: &mut Checks) {
    let arena = labelled(&[(4, 5), (13, 1)]);
    for last_cell in 1..=20 {
        let run = match last_cell {
            1..=3 => (1, last_cell),
            4..=11 => (1, 3),
            12..=17 => (9, 4),
            _ => (14, last_cell - 13),
        };
        found(checks, "moving end", &arena, last_cell, run);
    }
}

/// Marks a node of the arena, told by its key.
fn mark(arena: &mut [u16], key: u16, mark: u16) {
    let shape = check_header(arena).expect("a good header");
    for node in 2..shape.nodes {
        let at = shape.node_at(node);
        if arena[at + KEY] == key {
            arena[at + MARK] = mark;
        }
    }
}

/// Labels of marked nodes cover nothing, whatever the mark word is, if not 0.
fn marked_nodes(checks: &mut Checks) {
    for word in MARKS {
        for (labels, marked, last_cell, run) in [
            (&[(3, 5)][..], &[3][..], 10, (1, 10)),
            (&[(2, 1), (4, 4), (9, 1)], &[4], 10, (3, 6)),
            (&[(2, 1), (4, 4), (9, 1)], &[2], 10, (1, 3)),
            (&[(2, 1), (4, 4), (9, 1)], &[9], 10, (8, 3)),
            (&[(2, 9), (4, 2)], &[2], 10, (6, 5)),
            (&[(2, 9), (4, 2)], &[4], 10, (1, 1)),
            (&[(2, 9), (4, 2)], &[2, 4], 10, (1, 10)),
        ] {
            let mut arena = labelled(labels);
            marked.iter().for_each(|&key| mark(&mut arena, key, word));
            found(checks, "marked nodes", &arena, last_cell, run);
        }
    }
}

/// Labels 3, 5 and 9 are added, and 5 is removed, turn by turn: its cells are free from the turn at
/// 16 on, which marks it.
fn half_removed(checks: &mut Checks) {
    let mut arena = fresh(Shape { nodes: 6, ..SHAPE });
    for (key, length) in [(9, 2), (5, 4), (3, 1)] {
        let started = start(&mut arena, 0, ADD, key, length);
        checks.check("an add starts", started.is_ok());
        let ends = (0..20).any(|_| matches!(turn(&mut arena, 0), Ok(Report::Finished(_))));
        checks.check("an add ends", ends);
    }
    checks.check(
        "a remove starts",
        start(&mut arena, 1, REMOVE, 5, 0) == Ok(()),
    );
    // Past one key it takes 18 turns.
    for _ in 0..=18 {
        let stage = arena[SHAPE.worker_at(1) + STAGE];
        let is_marked = (17..=21).contains(&stage) || stage == 0;
        let run = if is_marked { (4, 5) } else { (1, 2) };
        let name = format!("remove at {stage}");
        found(checks, &name, &arena, 12, run);
        checks.check(&name, turn(&mut arena, 1).is_ok());
    }
    checks.check("removed", turn(&mut arena, 1) == Ok(Report::Idle));
}

/// Head and Tail have no label, and Tail's key and link do not count; nor do nodes off the chain,
/// owners, workers and words past the total.
fn other_words(checks: &mut Checks) {
    let mut arena = labelled(&[(4, 2), (6, 1), (9, 1)]);
    let shape = check_header(&arena).expect("a good header");
    mark(&mut arena, 6, 1);
    arena[HEADER_WORDS..shape.node_at(0)].fill(9);
    for node in 0..shape.nodes {
        arena[shape.node_at(node) + OWNER] = 9;
    }
    for (end, key) in [(HEAD, 3), (TAIL, 2)] {
        let at = shape.node_at(end);
        (arena[at + KEY], arena[at + MARK], arena[at + LENGTH]) = (key, 0, 99);
    }
    arena[shape.node_at(TAIL) + NEXT] = 2;
    arena.extend([9; 9]);
    found(checks, "other words", &arena, 8, (1, 3));
    found(checks, "other words", &arena, 20, (10, 11));
    let mut off_chain = labelled(&[(4, 2), (9, 9)]);
    let at = SHAPE.node_at(3);
    off_chain[at + NEXT] = TAIL;
    found(checks, "off the chain", &off_chain, 20, (6, 15));
}

/// Broken as for the roll, also behind the last cell and at a marked node.
fn broken_chains(checks: &mut Checks) {
    let far = labelled(&[(4, 2), (9, 9), (500, 1)]);
    let shape = check_header(&far).expect("a good header");
    // On the chain are nodes 4, 3 and 2.
    for (node, place, word) in [
        (2, NEXT, shape.nodes),
        (2, NEXT, NONE),
        (2, NEXT, HEAD),
        (2, NEXT, 2),
        (2, NEXT, 4),
        (2, KEY, 9),
        (2, KEY, 8),
        (3, KEY, 500),
        (3, KEY, 4),
        (4, KEY, 0),
        (4, NEXT, shape.nodes + 1),
        (HEAD, KEY, 4),
        (HEAD, NEXT, NONE),
    ] {
        for mark in [0, 1] {
            let mut arena = far.clone();
            arena[shape.node_at(node) + MARK] = mark;
            arena[shape.node_at(node) + place] = word;
            let name = format!("node {node}, word {place} is {word}");
            refused(checks, &name, BROKEN_CHAIN, arena, |a| {
                longest_free_run(a, 6)
            });
        }
    }
}

const ORDER: [u16; 5] = [SHORT_ARENA, ODD_HEADER, OLD_LAYOUT, BAD_CALL, BROKEN_CHAIN];

/// Every choice of faults: the first one in order refuses, and none accepts.
fn order_of_refusals(checks: &mut Checks) {
    for choice in 0..1 << ORDER.len() {
        let is_due = |number: u16| {
            let place = ORDER.iter().position(|&other| other == number);
            place.is_some_and(|place| choice >> place & 1 == 1)
        };
        let mut arena = fresh(SHAPE);
        if is_due(OLD_LAYOUT) {
            arena[..HEADER_WORDS].copy_from_slice(&OLD_HEADER);
        }
        arena[7] = is_due(ODD_HEADER).into();
        if is_due(BROKEN_CHAIN) {
            arena[SHAPE.node_at(HEAD) + NEXT] = SHAPE.nodes;
        }
        // Word 5 has the total of either layout.
        arena.truncate(usize::from(arena[5]) - usize::from(is_due(SHORT_ARENA)));
        let last_cells = if is_due(BAD_CALL) {
            [0, 65_535]
        } else {
            [1, 65_534]
        };
        let first = ORDER.into_iter().find(|&number| is_due(number));
        for last_cell in last_cells {
            match first {
                Some(number) => refused(checks, "free run", number, arena.clone(), |a| {
                    longest_free_run(a, last_cell)
                }),
                None => found(checks, "accepted", &arena, last_cell, (1, last_cell)),
            }
        }
    }
    refused(checks, "free run", SHORT_ARENA, vec![0; 7], |a| {
        longest_free_run(a, 5)
    });
}
