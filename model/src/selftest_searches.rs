//! The search for a free node beside a second way to find one: backwards, and with no row of marks.

use std::collections::BTreeSet;

use crate::arena::*;
use crate::free::{find_free, Found};
use crate::rng::Rng;
use crate::selftest::{fresh, good_start, Checks};
use crate::turn::{turn, Report};

pub fn searches(checks: &mut Checks) {
    at_every_time(checks);
    any_words(checks);
}

fn roots_of(arena: &[u16], shape: Shape) -> BTreeSet<u16> {
    let records = (0..shape.workers).map(|worker| shape.worker_at(worker));
    let words = records.flat_map(|at| [PRED, CURR, SPARE].map(|place| arena[at + place]));
    words.chain([HEAD, TAIL]).collect()
}

/// Whether a node is free: all that lead to it are gathered, until they are no more, and no root is
/// among them.
fn is_free(arena: &[u16], shape: Shape, node: u16) -> bool {
    let mut leading = BTreeSet::from([node]);
    loop {
        let leads = |from: &u16| leading.contains(&arena[shape.node_at(*from) + NEXT]);
        let before: Vec<u16> = (0..shape.nodes).filter(leads).collect();
        let count = leading.len();
        leading.extend(before);
        if leading.len() == count {
            return leading.is_disjoint(&roots_of(arena, shape));
        }
    }
}

/// What a search must answer.
fn due(arena: &[u16], shape: Shape) -> Found {
    let is_free = |&node: &u16| is_free(arena, shape, node);
    let (free, others): (Vec<u16>, Vec<u16>) = (0..shape.nodes).partition(is_free);
    Found {
        node: free.first().copied(),
        reads: others.len() as u16,
    }
}

/// Two workers' calls in short bursts: the search is right at every time, and stage 14 takes what
/// it finds.
fn at_every_time(checks: &mut Checks) {
    let shape = Shape::new(2, 6).expect("a good shape");
    let mut arena = fresh(shape);
    let mut rng = Rng::new(4, 4);
    let (mut is_right, mut is_taken) = (true, true);
    let (mut taken, mut full) = (0, 0);
    for _ in 0..5_000 {
        let worker = rng.word(0, 1);
        let operation = *rng.pick(&[ADD, ADD, REMOVE]);
        // Refused if the worker is busy.
        let _ = good_start(&mut arena, worker, operation, rng.word(1, 6));
        for _ in 0..rng.range(1, 9) {
            let expected = due(&arena, shape);
            is_right &= find_free(&arena) == Ok(expected);
            let at = shape.worker_at(worker);
            let is_search = arena[at + STAGE] == 14;
            let report = turn(&mut arena, worker);
            is_right &= report.is_ok();
            if is_search {
                let to = if expected.node.is_some() { 15 } else { 19 };
                is_taken &= report == Ok(Report::Moved(to));
                is_taken &= arena[at + SPARE] == expected.node.unwrap_or(NONE);
                taken += u32::from(expected.node.is_some());
                full += u32::from(expected.node.is_none());
            }
        }
    }
    checks.check("the search at every time", is_right);
    checks.check("the node found is taken", is_taken);
    let name = format!("{taken} nodes are taken, {full} times none is free");
    checks.check(&name, taken > 100 && full > 50);
}

/// How the words of an arena that count for a search are chosen.
struct Choice {
    /// Percent of roots, and of links, that lead somewhere.
    roots: u64,
    links: u64,
    /// None if some are and some are not.
    all_idle: Option<bool>,
}

impl Choice {
    fn any(rng: &mut Rng) -> Choice {
        Choice {
            roots: *rng.pick(&[0, 10, 30, 100]),
            links: *rng.pick(&[50, 90, 100]),
            all_idle: *rng.pick(&[Some(true), Some(false), None]),
        }
    }
}

fn some_node(rng: &mut Rng, shape: Shape, percent: u64) -> u16 {
    match rng.range(0, 3) {
        _ if rng.chance(percent) => rng.word(0, shape.nodes - 1),
        0 => rng.word(shape.nodes, NONE),
        1 => shape.nodes,
        _ => NONE,
    }
}

/// A good header, and any words behind it.
fn any_arena(rng: &mut Rng, shape: Shape, choice: &Choice) -> Vec<u16> {
    let words = shape.total() + rng.index(4);
    let mut arena: Vec<u16> = (0..words).map(|_| rng.word(0, NONE)).collect();
    let count = rng.word(0, shape.max_count());
    arena[..HEADER_WORDS].copy_from_slice(&shape.header(count));
    for worker in 0..shape.workers {
        let at = shape.worker_at(worker);
        let is_idle = choice.all_idle.unwrap_or_else(|| rng.chance(50));
        arena[at + STAGE] = if is_idle { 0 } else { rng.word(1, 26) };
        for place in [PRED, CURR, SPARE] {
            arena[at + place] = some_node(rng, shape, choice.roots);
        }
    }
    for node in 0..shape.nodes {
        arena[shape.node_at(node) + NEXT] = some_node(rng, shape, choice.links);
    }
    arena
}

/// On any words both ways find the same; none is free just where all N links are read.
fn any_words(checks: &mut Checks) {
    let mut rng = Rng::new(8, 8);
    let (mut is_right, mut is_bounded) = (true, true);
    // None free, a free node below one that is not, one that only roots of idle workers keep.
    let mut met = [0; 3];
    for _ in 0..6_000 {
        let shape = Shape {
            workers: *rng.pick(&[1, 2, 8]),
            nodes: *rng.pick(&[3, 5, 9, 20]),
        };
        let choice = Choice::any(&mut rng);
        let arena = any_arena(&mut rng, shape, &choice);
        let Ok(got) = find_free(&arena) else {
            return checks.check("a good header", false);
        };
        is_right &= got == due(&arena, shape);
        is_bounded &= got.reads <= shape.nodes;
        is_bounded &= (got.reads == shape.nodes) == got.node.is_none();
        let mut without_workers = arena.clone();
        without_workers[HEADER_WORDS..shape.node_at(0)].fill(NONE);
        let kept = got.reads - due(&without_workers, shape).reads;
        met[0] += u32::from(got.node.is_none());
        met[1] += u32::from(got.node.is_some_and(|node| node < got.reads));
        met[2] += u32::from(choice.all_idle == Some(true) && kept != 0);
    }
    checks.check("the search on any words", is_right);
    checks.check("all links are read where none is free", is_bounded);
    let all_met = met.iter().all(|&count| count > 200);
    checks.check(&format!("searches on any words {met:?}"), all_met);
}
