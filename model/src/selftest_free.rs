//! The search for a free node, its answer and its reads, worked out by hand.

use crate::arena::*;
use crate::free::{find_free, Found};
use crate::selftest::{fresh, good_start, Checks};
use crate::selftest_refusals::{refused, STAGES};
use crate::turn::{turn, Report};

pub fn free_nodes(checks: &mut Checks) {
    let shape = |workers, nodes| Shape { workers, nodes };
    three_nodes(checks, shape(1, 3));
    many_nodes(checks, shape(MAX_WORKERS, MAX_NODES));
    let six = shape(2, 6);
    all_found(checks, six, &CIRCLES);
    all_found(checks, six, &JOINS);
    links(checks, six);
    roots(checks, six);
    left_over(checks, six);
    other_words(checks, six);
    refusals(checks, six);
}

fn found(checks: &mut Checks, name: &str, arena: &[u16], node: Option<u16>, reads: u16) {
    let got = find_free(arena);
    let name = format!("{name}: {node:?} and {reads} reads, got {got:?}");
    checks.check(&name, got == Ok(Found { node, reads }));
}

/// Node and next.
type Link = (u16, u16);
/// Worker, place in its record, node.
type Root = (u16, usize, u16);

/// A fresh arena with some links, and words of idle workers, written over.
fn linked(shape: Shape, links: &[Link], roots: &[Root]) -> Vec<u16> {
    let mut arena = fresh(shape);
    for &(node, next) in links {
        arena[shape.node_at(node) + NEXT] = next;
    }
    for &(worker, place, node) in roots {
        arena[shape.worker_at(worker) + place] = node;
    }
    arena
}

/// A name, what is written over a fresh arena, the free node and the reads that are due.
type Case<'a> = (&'a str, &'a [Link], &'a [Root], Option<u16>, u16);

fn all_found(checks: &mut Checks, shape: Shape, cases: &[Case]) {
    for &(name, links, roots, node, reads) in cases {
        found(checks, name, &linked(shape, links, roots), node, reads);
    }
}

/// Head and Tail, and the one node that there is to take.
fn three_nodes(checks: &mut Checks, shape: Shape) {
    let mut arena = fresh(shape);
    found(checks, "fresh", &arena, Some(2), 2);
    // The turn at 14 takes the node.
    let is_free = |stage: u16| (1..=14).contains(&stage);
    whole_call(checks, &mut arena, shape, ADD, is_free);
    // The turn at 18 takes it off the chain, but the worker stands on it up to its finish.
    whole_call(checks, &mut arena, shape, REMOVE, |_| false);
    found(checks, "removed", &arena, Some(2), 2);
}

/// A call of worker 0, alone, with a search at each of its stages: node 2 is free, or none is.
fn whole_call(
    checks: &mut Checks,
    arena: &mut [u16],
    shape: Shape,
    operation: u16,
    is_free: impl Fn(u16) -> bool,
) {
    let started = good_start(arena, 0, operation, 5);
    checks.check("a call starts", started.is_ok());
    loop {
        let stage = arena[shape.worker_at(0) + STAGE];
        let node = is_free(stage).then_some(2);
        let reads = node.unwrap_or(3);
        found(checks, &format!("call at {stage}"), arena, node, reads);
        let report = turn(arena, 0);
        if !matches!(report, Ok(Report::Moved(_))) {
            let is_finish = matches!(report, Ok(Report::Finished(_)));
            return checks.check("a call finishes", is_finish);
        }
    }
}

/// Arenas of 1,024 nodes.
fn many_nodes(checks: &mut Checks, shape: Shape) {
    let (all, last) = (shape.nodes, shape.nodes - 1);
    let row: Vec<Link> = (2..last).map(|node| (node, node + 1)).collect();
    let up_to_last = linked(shape, &row, &[(7, SPARE, 2)]);
    found(checks, "a row of all", &up_to_last, None, all);
    let circle = linked(shape, &[(last, 2)], &[]);
    found(checks, "no root leads there", &circle, Some(2), 2);
    let mut circle = up_to_last;
    circle[shape.node_at(last) + NEXT] = 2;
    found(checks, "a circle of all", &circle, None, all);
    for end in [2, 3, 511, last - 1] {
        circle[shape.node_at(end) + NEXT] = NONE;
        found(checks, "a row", &circle, Some(end + 1), end + 1);
        circle[shape.node_at(end) + NEXT] = end + 1;
    }
    circle[shape.worker_at(7) + SPARE] = 3;
    circle[shape.node_at(last) + NEXT] = last;
    found(checks, "all but 2", &circle, Some(2), all - 1);
}

/// Links in circles on and off the chain. A circle that no root leads into is free, and nothing of
/// it is read, wherever its links lead.
const CIRCLES: [Case; 11] = [
    ("a circle", &[(3, 4), (4, 3)], &[], Some(2), 2),
    ("a spare's", &[(3, 4), (4, 3)], &[(1, SPARE, 4)], Some(2), 4),
    (
        "a way in",
        &[(2, 3), (3, 4), (4, 3)],
        &[(0, PRED, 2)],
        Some(5),
        5,
    ),
    (
        "past the way in",
        &[(2, 3), (3, 4), (4, 3)],
        &[(0, CURR, 3)],
        Some(2),
        4,
    ),
    ("itself", &[(3, 3)], &[(0, CURR, 3)], Some(2), 3),
    ("itself, no root", &[(2, 2)], &[], Some(2), 2),
    ("Head itself", &[(HEAD, HEAD)], &[], Some(2), 2),
    ("Head and 2", &[(HEAD, 2), (2, HEAD)], &[], Some(3), 3),
    ("Tail and 2", &[(TAIL, 2), (2, TAIL)], &[], Some(3), 3),
    (
        "not to Tail",
        &[(HEAD, 3), (3, 3), (TAIL, 4)],
        &[],
        Some(2),
        4,
    ),
    (
        "all",
        &[(0, 2), (2, 3), (3, 4), (4, 5), (5, 1), (1, 0)],
        &[],
        None,
        6,
    ),
];

/// Where walks from several roots meet, nothing is read again.
const JOINS: [Case; 6] = [
    (
        "pred is curr",
        &[],
        &[(0, PRED, 3), (0, CURR, 3)],
        Some(2),
        3,
    ),
    (
        "pred to curr",
        &[(2, 3)],
        &[(0, PRED, 2), (0, CURR, 3)],
        Some(4),
        4,
    ),
    (
        "curr to pred",
        &[(2, 3)],
        &[(0, PRED, 3), (0, CURR, 2)],
        Some(4),
        4,
    ),
    ("two at 5", &[], &[(0, SPARE, 5), (1, PRED, 5)], Some(2), 3),
    (
        "two ways to 4",
        &[(2, 4), (3, 4)],
        &[(0, CURR, 2), (1, CURR, 3)],
        Some(5),
        5,
    ),
    (
        "on the chain",
        &[(HEAD, 2), (2, 3), (3, 1)],
        &[(1, PRED, 3)],
        Some(4),
        4,
    ),
];

/// A link of N or more is read and leads nowhere; one of N less 1 leads to the last node.
fn links(checks: &mut Checks, shape: Shape) {
    let last = shape.nodes - 1;
    for link in [shape.nodes, shape.nodes + 1, MAX_NODES, NONE] {
        let cases: [Case; 7] = [
            ("Head's", &[(HEAD, link)], &[], Some(2), 2),
            ("Tail's", &[(TAIL, link)], &[], Some(2), 2),
            ("2's", &[(HEAD, 2), (2, link)], &[], Some(3), 3),
            (
                "the last node's",
                &[(HEAD, last), (last, link)],
                &[],
                Some(2),
                3,
            ),
            ("a pred's", &[(4, link)], &[(1, PRED, 4)], Some(2), 3),
            (
                "behind a spare",
                &[(4, 5), (5, link)],
                &[(1, SPARE, 4)],
                Some(2),
                4,
            ),
            ("free nodes'", &[(2, link), (4, link)], &[], Some(2), 2),
        ];
        all_found(checks, shape, &cases);
    }
}

/// Each word of each worker is a root, unless it is N or more.
fn roots(checks: &mut Checks, shape: Shape) {
    let last = shape.nodes - 1;
    for worker in 0..shape.workers {
        for place in [PRED, CURR, SPARE] {
            for (root, node, reads) in [
                (HEAD, 2, 2),
                (TAIL, 2, 2),
                (2, 3, 3),
                (3, 2, 3),
                (last, 2, 3),
                (shape.nodes, 2, 2),
                (shape.nodes + 1, 2, 2),
                (NONE, 2, 2),
            ] {
                let arena = linked(shape, &[], &[(worker, place, root)]);
                let name = format!("worker {worker}, word {place}, root {root}");
                found(checks, &name, &arena, Some(node), reads);
            }
        }
    }
}

/// A removed node that a worker's word still names is not free, nor what it leads to, at whatever
/// stage the worker is: idle too.
fn left_over(checks: &mut Checks, shape: Shape) {
    let stages = STAGES.map(|(stage, _, _)| stage);
    for stage in stages.into_iter().chain([0, 26, NONE]) {
        for place in [PRED, CURR, SPARE] {
            let mut arena = linked(shape, &[(2, 3), (3, TAIL)], &[(1, place, 2)]);
            arena[shape.worker_at(1) + STAGE] = stage;
            for node in [2, 3] {
                arena[shape.node_at(node) + MARK] = 1;
            }
            let name = format!("stage {stage}, left over in {place}");
            found(checks, &name, &arena, Some(4), 4);
        }
    }
}

/// No other word counts: keys, marks, owners and lengths of nodes, those of workers, words past the
/// total.
fn other_words(checks: &mut Checks, shape: Shape) {
    let mut arena = linked(shape, &[(HEAD, 3), (3, TAIL)], &[(0, CURR, 3)]);
    for worker in 0..shape.workers {
        for place in [STAGE, OPERATION, CALL_KEY, ANSWER, CALL_LENGTH] {
            arena[shape.worker_at(worker) + place] = 2;
        }
    }
    for node in 0..shape.nodes {
        for place in (0..NODE_WORDS).filter(|&place| place != NEXT) {
            arena[shape.node_at(node) + place] = 2;
        }
    }
    arena.extend([2; 9]);
    found(checks, "other words", &arena, Some(2), 3);
}

/// 1 comes before 2, and nothing else is refused.
fn refusals(checks: &mut Checks, shape: Shape) {
    let mut odd = fresh(shape);
    odd[7] = 1;
    let short = odd[..odd.len() - 1].to_vec();
    refused(checks, "find_free", SHORT_ARENA, short, |a| find_free(a));
    refused(checks, "find_free", SHORT_ARENA, vec![0; 7], |a| {
        find_free(a)
    });
    refused(checks, "find_free", ODD_HEADER, odd, |a| find_free(a));
    refused(checks, "find_free", ODD_HEADER, vec![0; 8], |a| {
        find_free(a)
    });
    let mut broken = fresh(shape);
    broken[HEADER_WORDS..].fill(NONE);
    found(checks, "nothing but the header", &broken, Some(2), 2);
}
