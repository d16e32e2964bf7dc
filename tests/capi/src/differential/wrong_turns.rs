//! Turns with one fault each: the model's turn, and then some words or the reply changed.

use model::arena::*;

use super::roots::worker_roots;
use crate::library::{Library, Model, Values, IDLE, MOVED, WAITS};

const IDLE_REPLY: u64 = reply(IDLE, 0, 0);

const fn reply(report: u8, first: u16, second: u16) -> u64 {
    Values {
        report,
        first,
        second,
    }
    .number()
}

pub const fn moved(stage: u16) -> u64 {
    reply(MOVED, stage, 0)
}

/// The node and the worker of a turn that waits.
fn waits(reply: u64) -> Option<(u16, u16)> {
    let values = Values::read(reply).filter(|values| values.report == WAITS)?;
    Some((values.first, values.second))
}

/// The shape, and where the worker's record is; None if a turn looks at no record.
fn record_at(arena: &[u16], worker: u16) -> Option<(Shape, usize)> {
    let shape = check_header(arena).ok()?;
    (worker < shape.workers).then(|| (shape, shape.worker_at(worker)))
}

/// Runs the model, then the fault, which gets the words before, the words after, the shape, where
/// the record is, and the reply. It gives the wrong reply.
pub fn then(
    arena: &mut [u16],
    worker: u16,
    fault: impl Fn(&[u16], &mut [u16], Shape, usize, u64) -> u64,
) -> u64 {
    let before = arena.to_vec();
    let reply = Model.turn(arena, worker);
    match record_at(&before, worker) {
        Some((shape, at)) => fault(&before, arena, shape, at, reply),
        None => reply,
    }
}

/// A reply where 2 comes before 1.
pub fn header_first(arena: &[u16], right: u64) -> u64 {
    let is_odd = Shape::read(arena).is_none() && OldShape::read(arena).is_none();
    if right == u64::from(SHORT_ARENA) && arena.len() >= HEADER_WORDS && is_odd {
        u64::from(ODD_HEADER)
    } else {
        right
    }
}

pub fn turn_header_first(arena: &mut [u16], worker: u16) -> u64 {
    let reply = Model.turn(arena, worker);
    header_first(arena, reply)
}

pub fn turn_seven_words(arena: &mut [u16], worker: u16) -> u64 {
    let Some(&word) = arena.get(7) else {
        return Model.turn(arena, worker);
    };
    arena[7] = 0;
    let reply = Model.turn(arena, worker);
    arena[7] = word;
    reply
}

pub fn turn_one_more_worker(arena: &mut [u16], worker: u16) -> u64 {
    match check_header(arena) {
        Ok(shape) if shape.workers == worker => IDLE_REPLY,
        _ => Model.turn(arena, worker),
    }
}

pub fn turn_chain_first(arena: &mut [u16], worker: u16) -> u64 {
    then(arena, worker, |before, _, shape, at, reply| {
        let node = match before[at + STAGE] {
            2 => before[at + PRED],
            5 | 17 | 24 => before[at + CURR],
            _ => NONE,
        };
        let broken = node < shape.nodes && before[shape.node_at(node) + NEXT] >= shape.nodes;
        if broken {
            u64::from(BROKEN_CHAIN)
        } else {
            reply
        }
    })
}

pub fn turn_own_node(arena: &mut [u16], worker: u16) -> u64 {
    then(arena, worker, |before, after, shape, at, reply| {
        let at_seven = before[at + STAGE] == 7 && waits(reply).is_some();
        if at_seven && before[shape.node_at(before[at + CURR]) + OWNER] == worker + 1 {
            after[at + STAGE] = 8;
            return moved(8);
        }
        reply
    })
}

pub fn turn_no_mark(arena: &mut [u16], worker: u16) -> u64 {
    then(arena, worker, |before, after, _, at, reply| {
        if before[at + STAGE] == 8 && reply == moved(11) {
            after[at + STAGE] = 9;
            return moved(9);
        }
        reply
    })
}

pub fn turn_mark_one(arena: &mut [u16], worker: u16) -> u64 {
    then(arena, worker, |before, after, shape, at, reply| {
        let node = before[at + CURR];
        if before[at + STAGE] == 9 && reply == moved(11) {
            let mark = before[shape.node_at(node) + MARK];
            after[at + STAGE] = if mark == 1 { 11 } else { 10 };
            return moved(after[at + STAGE]);
        }
        reply
    })
}

pub fn turn_pred_at_14(arena: &mut [u16], worker: u16) -> u64 {
    then(arena, worker, |before, after, shape, at, reply| {
        if before[at + STAGE] == 14 && before[at + PRED] >= shape.nodes {
            after.copy_from_slice(before);
            return u64::from(BROKEN_RECORD);
        }
        reply
    })
}

pub fn turn_no_unlink(arena: &mut [u16], worker: u16) -> u64 {
    then(arena, worker, |before, after, shape, at, reply| {
        if before[at + STAGE] == 18 {
            let nodes = shape.node_at(0)..shape.total();
            after[nodes.clone()].copy_from_slice(&before[nodes]);
        }
        reply
    })
}

pub fn turn_eighth_word(arena: &mut [u16], worker: u16) -> u64 {
    then(arena, worker, |before, after, _, at, reply| {
        if after[at + STAGE] != before[at + STAGE] {
            after[at + CALL_LENGTH] = 0;
        }
        reply
    })
}

/// A turn that tells its waits in a way of its own: from its record, the shape, and the node and
/// the worker that are right.
fn told_by(
    arena: &mut [u16],
    worker: u16,
    tell: impl Fn(&[u16], Shape, u16, u16) -> (u16, u16),
) -> u64 {
    then(arena, worker, |before, _, shape, at, right| {
        let Some((node, in_the_way)) = waits(right) else {
            return right;
        };
        let record = &before[at..at + WORKER_WORDS];
        let (node, in_the_way) = tell(record, shape, node, in_the_way);
        reply(WAITS, node, in_the_way)
    })
}

pub fn turn_other_node(arena: &mut [u16], worker: u16) -> u64 {
    told_by(arena, worker, |record, _, _, in_the_way| {
        let other = if record[STAGE] == 6 { CURR } else { PRED };
        (record[other], in_the_way)
    })
}

pub fn turn_owner_word(arena: &mut [u16], worker: u16) -> u64 {
    told_by(arena, worker, |_, _, node, in_the_way| {
        (node, in_the_way + 1)
    })
}

pub fn turn_own_number(arena: &mut [u16], worker: u16) -> u64 {
    told_by(arena, worker, |_, _, node, _| (node, worker))
}

pub fn turn_no_second(arena: &mut [u16], worker: u16) -> u64 {
    told_by(arena, worker, |_, _, node, _| (node, 0))
}

/// Right on every arena that is reached from a fresh one.
pub fn turn_known_worker(arena: &mut [u16], worker: u16) -> u64 {
    told_by(arena, worker, |_, shape, node, in_the_way| {
        (node, in_the_way.min(shape.workers - 1))
    })
}

/// Nodes that a search starts from besides Head and Tail: where workers stand.
fn stood_on(arena: &[u16], shape: Shape) -> Vec<u16> {
    worker_roots(arena, shape).map(|root| root.node).collect()
}

/// Which nodes are not free, following at most so many links from each root.
pub fn reached<const LAYOUT: u16>(
    arena: &[u16],
    shape: ShapeIn<LAYOUT>,
    roots: &[u16],
    most_links: usize,
) -> Vec<bool> {
    let mut reached = vec![false; shape.nodes as usize];
    for &root in roots {
        let mut node = root;
        for _ in 0..=most_links {
            if node < shape.nodes {
                reached[node as usize] = true;
                node = arena[shape.node_at(node) + NEXT];
            }
        }
    }
    reached
}

/// A turn whose stage 14 looks for a free node in a way of its own.
fn search_by(
    arena: &mut [u16],
    worker: u16,
    search: impl Fn(&[u16], Shape) -> Option<usize>,
) -> u64 {
    then(arena, worker, |before, after, shape, at, reply| {
        if before[at + STAGE] != 14 || (reply != moved(15) && reply != moved(19)) {
            return reply;
        }
        after.copy_from_slice(before);
        let Some(node) = search(before, shape) else {
            (after[at + STAGE], after[at + ANSWER]) = (19, 3);
            return moved(19);
        };
        let (key, length) = (before[at + CALL_KEY], before[at + CALL_LENGTH]);
        let record = [key, before[at + CURR], 0, 0, length];
        after[shape.node_at(node as u16)..][..NODE_WORDS].copy_from_slice(&record);
        (after[at + STAGE], after[at + SPARE]) = (15, node as u16);
        moved(15)
    })
}

pub fn all_roots(arena: &[u16], shape: Shape) -> Vec<u16> {
    [vec![HEAD, TAIL], stood_on(arena, shape)].concat()
}

pub fn turn_highest(arena: &mut [u16], worker: u16) -> u64 {
    search_by(arena, worker, |arena, shape| {
        let taken = reached(arena, shape, &all_roots(arena, shape), MAX_NODES as usize);
        taken.iter().rposition(|&taken| !taken)
    })
}

/// Document 01's trap: another removed node may still lead to it.
pub fn turn_nobody_there(arena: &mut [u16], worker: u16) -> u64 {
    search_by(arena, worker, |arena, shape| {
        let on_chain = reached(arena, shape, &[HEAD, TAIL], MAX_NODES as usize);
        let stood_on = reached(arena, shape, &stood_on(arena, shape), 0);
        let mut both = on_chain.iter().zip(&stood_on);
        both.position(|(&on_chain, &stood_on)| !on_chain && !stood_on)
    })
}

pub fn turn_without_tail(arena: &mut [u16], worker: u16) -> u64 {
    search_by(arena, worker, |arena, shape| {
        let roots = [vec![HEAD], stood_on(arena, shape)].concat();
        let mut taken = reached(arena, shape, &roots, MAX_NODES as usize);
        taken[TAIL as usize] = true;
        taken.iter().position(|&taken| !taken)
    })
}

/// Links are read where those of layout 1 would stand.
pub fn turn_narrow_search(arena: &mut [u16], worker: u16) -> u64 {
    search_by(arena, worker, |arena, shape| {
        let (roots, old) = (all_roots(arena, shape), shape.in_layout::<LAYOUT_1>());
        let taken = reached(arena, old, &roots, MAX_NODES as usize);
        taken.iter().position(|&taken| !taken)
    })
}

pub fn turn_few_links(arena: &mut [u16], worker: u16) -> u64 {
    search_by(arena, worker, |arena, shape| {
        let taken = reached(arena, shape, &all_roots(arena, shape), 1_000);
        taken.iter().position(|&taken| !taken)
    })
}
