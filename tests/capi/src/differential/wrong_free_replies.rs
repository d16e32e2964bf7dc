//! The search for the longest free run with one fault each: in how it tells its answer, in what it
//! refuses and in which order, and in the words that it reads.

use model::arena::*;

use super::chain::Chain;
use super::wrong_turns::header_first;
use crate::library::{Library, Model, Values, MOVED};

fn right(arena: &[u16], last_cell: u16) -> u64 {
    Model.longest_free_run(arena, last_cell)
}

/// Runs the model, then the fault, which gets the first cell and the length. Refusals are right.
pub fn then(arena: &[u16], last_cell: u16, fault: impl Fn(u16, u16) -> Values) -> u64 {
    let reply = right(arena, last_cell);
    match Values::read(reply) {
        Some(values) => fault(values.first, values.second).number(),
        None => reply,
    }
}

pub fn told(first: u16, second: u16) -> Values {
    Values {
        first,
        second,
        ..Values::default()
    }
}

pub fn longest_swapped(arena: &[u16], last_cell: u16) -> u64 {
    then(arena, last_cell, |first, length| told(length, first))
}

pub fn longest_reports(arena: &[u16], last_cell: u16) -> u64 {
    then(arena, last_cell, |first, length| Values {
        report: MOVED,
        ..told(first, length)
    })
}

/// Each value stands where the next one should.
pub fn longest_shifted(arena: &[u16], last_cell: u16) -> u64 {
    let reply = right(arena, last_cell);
    if Values::read(reply).is_some() {
        reply << 16
    } else {
        reply
    }
}

pub fn longest_no_length(arena: &[u16], last_cell: u16) -> u64 {
    then(arena, last_cell, |first, _| told(first, 0))
}

pub fn longest_tells_last(arena: &[u16], last_cell: u16) -> u64 {
    then(arena, last_cell, |first, length| {
        told(first, first + length.saturating_sub(1))
    })
}

/// Right wherever a cell is free, as the next two.
pub fn longest_none_behind(arena: &[u16], last_cell: u16) -> u64 {
    none_as(arena, last_cell, last_cell.wrapping_add(1))
}

pub fn longest_none_1(arena: &[u16], last_cell: u16) -> u64 {
    none_as(arena, last_cell, 1)
}

pub fn longest_none_65535(arena: &[u16], last_cell: u16) -> u64 {
    none_as(arena, last_cell, NONE)
}

fn none_as(arena: &[u16], last_cell: u16, none: u16) -> u64 {
    then(arena, last_cell, |first, length| match length {
        0 => told(none, 0),
        _ => told(first, length),
    })
}

fn is_bad(last_cell: u16) -> bool {
    last_cell == 0 || last_cell == 65_535
}

pub fn longest_7_before_5(arena: &[u16], last_cell: u16) -> u64 {
    let is_broken = snapshot(arena, &mut [0; MAX_NODES as usize]) == Err(BROKEN_CHAIN);
    match right(arena, last_cell) {
        reply if reply == u64::from(BAD_CALL) && is_broken => u64::from(BROKEN_CHAIN),
        reply => reply,
    }
}

pub fn longest_5_first(arena: &[u16], last_cell: u16) -> u64 {
    if is_bad(last_cell) {
        return u64::from(BAD_CALL);
    }
    right(arena, last_cell)
}

pub fn longest_5_before_2(arena: &[u16], last_cell: u16) -> u64 {
    let reply = right(arena, last_cell);
    if reply == u64::from(ODD_HEADER) && is_bad(last_cell) {
        return u64::from(BAD_CALL);
    }
    reply
}

pub fn longest_header_first(arena: &[u16], last_cell: u16) -> u64 {
    header_first(arena, right(arena, last_cell))
}

pub fn longest_whole_arena(arena: &[u16], last_cell: u16) -> u64 {
    match check_header(arena) {
        Ok(shape) if arena.len() > shape.total() => u64::from(ODD_HEADER),
        _ => right(arena, last_cell),
    }
}

/// No cell is looked at.
pub fn longest_takes_0(arena: &[u16], last_cell: u16) -> u64 {
    let instead = right(arena, last_cell.max(1));
    match Values::read(instead) {
        Some(_) if last_cell == 0 => Values::default().number(),
        _ => instead,
    }
}

pub fn longest_takes_65535(arena: &[u16], last_cell: u16) -> u64 {
    right(arena, last_cell.min(65_534))
}

pub fn longest_refuses_1(arena: &[u16], last_cell: u16) -> u64 {
    right(arena, if last_cell == 1 { 0 } else { last_cell })
}

pub fn longest_refuses_65534(arena: &[u16], last_cell: u16) -> u64 {
    let instead = if last_cell == 65_534 {
        65_535
    } else {
        last_cell
    };
    right(arena, instead)
}

/// A search that refuses some arenas which are to be answered.
fn refuses(
    arena: &[u16],
    last_cell: u16,
    refusal: u16,
    is_refused: impl Fn(&Chain) -> bool,
) -> u64 {
    let reply = right(arena, last_cell);
    match (Values::read(reply), Chain::of(arena)) {
        (Some(_), Some(chain)) if is_refused(&chain) => u64::from(refusal),
        _ => reply,
    }
}

/// Right on every arena that is reached from a fresh one, as the next four.
pub fn longest_refuses_length(arena: &[u16], last_cell: u16) -> u64 {
    refuses(arena, last_cell, BAD_CALL, |_| {
        let is_good = |label: &Label| is_call_length(ADD, label.key, label.length);
        !set(arena).iter().all(is_good)
    })
}

pub fn longest_refuses_stage(arena: &[u16], last_cell: u16) -> u64 {
    refuses(arena, last_cell, BROKEN_RECORD, |chain| {
        let mut workers = 0..chain.shape.workers;
        workers.any(|worker| arena[chain.shape.worker_at(worker) + STAGE] > 25)
    })
}

pub fn longest_refuses_65535(arena: &[u16], last_cell: u16) -> u64 {
    refuses(arena, last_cell, BROKEN_CHAIN, |chain| {
        let mut nodes = chain.nodes.iter();
        nodes.any(|&node| chain.word(node, KEY) == TAIL_KEY)
    })
}

pub fn longest_tail_key(arena: &[u16], last_cell: u16) -> u64 {
    refuses(arena, last_cell, BROKEN_CHAIN, |chain| {
        let last = chain.before(chain.nodes.len());
        chain.word(TAIL, KEY) < chain.word(last, KEY)
    })
}

pub fn longest_head_mark(arena: &[u16], last_cell: u16) -> u64 {
    refuses(arena, last_cell, BROKEN_CHAIN, |chain| {
        chain.is_marked(HEAD)
    })
}

/// What the model answers once some words of an arena with a good header are changed.
fn changed(arena: &[u16], last_cell: u16, change: impl Fn(&mut [u16], Chain)) -> u64 {
    let mut words = arena.to_vec();
    if let Some(chain) = Chain::of(arena) {
        change(&mut words, chain);
    }
    right(&words, last_cell)
}

/// A search that takes the first such node, told by its place, for the last one of the chain.
fn ends_at(arena: &[u16], last_cell: u16, is_last: impl Fn(&Chain, usize) -> bool) -> u64 {
    changed(arena, last_cell, |words, chain| {
        let mut places = 0..chain.nodes.len();
        if let Some(place) = places.find(|&place| is_last(&chain, place)) {
            words[chain.shape.node_at(chain.nodes[place]) + NEXT] = TAIL;
        }
    })
}

/// No more than the first label behind the last cell is checked.
pub fn longest_stops_behind(arena: &[u16], last_cell: u16) -> u64 {
    ends_at(arena, last_cell, |chain, place| {
        chain.word(chain.nodes[place], KEY) > last_cell
    })
}

pub fn longest_few_labels(arena: &[u16], last_cell: u16) -> u64 {
    ends_at(arena, last_cell, |_, place| place == 1_000)
}

/// Where the chain breaks it ends.
pub fn longest_unchecked(arena: &[u16], last_cell: u16) -> u64 {
    changed(arena, last_cell, |words, chain| {
        let last = chain.before(chain.nodes.len());
        words[chain.shape.node_at(last) + NEXT] = TAIL;
    })
}

/// The first key is compared with 0.
pub fn longest_head_key(arena: &[u16], last_cell: u16) -> u64 {
    changed(arena, last_cell, |words, chain| {
        words[chain.shape.node_at(HEAD) + KEY] = HEAD_KEY;
    })
}

pub fn longest_owner_for_length(arena: &[u16], last_cell: u16) -> u64 {
    changed(arena, last_cell, |words, chain| {
        for &node in &chain.nodes {
            let at = chain.shape.node_at(node);
            words[at + LENGTH] = words[at + OWNER];
        }
    })
}
