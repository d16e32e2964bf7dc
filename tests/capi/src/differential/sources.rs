//! Arenas to convert: those of the comparison, mostly brought to rest and with lengths that a converter
//! may keep or drop, or with one thing about them that it refuses.

use model::arena::*;
use model::rng::Rng;
use model::turn::turn;

use super::arenas::Kind;
use super::chain::{Chain, End};
use super::damaged::break_at_mark;
use super::layouts::old_words;
use super::placed::{some_mark, words_past_total};
use super::spread::any_length;

pub struct Source {
    pub words: Vec<u16>,
    /// Whether starts, turns and conversions alone have led to it from a fresh arena.
    pub is_reached: bool,
}

/// How many come out of the old layout.
const PERCENT_OLD: u64 = 50;
/// A turn for each worker, so often that every call has ended.
const MOST_ROUNDS: u32 = 20_000;

pub fn source(rng: &mut Rng, kind: Kind, words: &[u16]) -> Source {
    let mut words = words.to_vec();
    let Ok(shape) = check_header(&words) else {
        let is_reached = false;
        return Source { words, is_reached };
    };
    // Large ones take many turns.
    let percent_ended = if kind == Kind::LargeReached { 5 } else { 35 };
    let is_ended = kind.is_reached() && rng.chance(percent_ended);
    let is_as_found = !is_ended && rng.chance(7);
    if is_ended {
        end_calls(&mut words, shape);
    } else if !is_as_found {
        change(rng, &mut words, shape);
    }
    if rng.chance(PERCENT_OLD) {
        words = old_words(&words);
    }
    if !is_ended && !is_as_found {
        change_length(rng, &mut words);
    }
    let is_reached = kind.is_reached() && (is_ended || is_as_found);
    Source { words, is_reached }
}

/// Gives each worker turns until all are idle: of those that are busy, one does not wait.
fn end_calls(words: &mut [u16], shape: Shape) {
    let is_at_rest = |words: &[u16]| {
        let mut workers = 0..shape.workers;
        workers.all(|worker| words[shape.worker_at(worker) + STAGE] == 0)
    };
    for _ in 0..MOST_ROUNDS {
        if is_at_rest(words) {
            return;
        }
        for worker in 0..shape.workers {
            turn(words, worker).expect("no turn from a fresh arena is refused");
        }
    }
    panic!("calls end");
}

fn change(rng: &mut Rng, words: &mut [u16], shape: Shape) {
    rest(rng, words, shape);
    if rng.chance(30) {
        spoil_idle_record(rng, words, shape);
    }
    if rng.chance(25) {
        mark_some(rng, words);
    }
    if rng.chance(8) {
        raise_last_key(rng, words);
    }
    if rng.chance(60) {
        spoil_others(rng, words, shape);
    }
    if rng.chance(85) {
        shorten_labels(rng, words);
    }
    match rng.range(0, 99) {
        0..=3 => break_at_mark(rng, words),
        4..=9 => break_chain(rng, words),
        _ => {}
    }
}

fn change_length(rng: &mut Rng, words: &mut Vec<u16>) {
    match rng.range(0, 49) {
        0 => words.truncate(usize::from(words[5]) - 1),
        1 => words.truncate(rng.index(HEADER_WORDS)),
        2..=9 => words_past_total(rng, words),
        _ => {}
    }
}

/// Makes all workers idle, or all but one or two, and leaves their other words.
fn rest(rng: &mut Rng, words: &mut [u16], shape: Shape) {
    let kind = rng.range(0, 99);
    if kind < 8 {
        return;
    }
    for worker in 0..shape.workers {
        words[shape.worker_at(worker) + STAGE] = 0;
    }
    // Any worker, but the first and the last one often.
    let last = shape.workers - 1;
    let any = rng.word(0, last);
    let one = shape.worker_at(*rng.pick(&[0, last, any]));
    let other = shape.worker_at(rng.word(0, last));
    let busy = *rng.pick(&[1, 14, 25, 25]);
    let above = *rng.pick(&[26, 26, 27, NONE]);
    match kind {
        8..=14 => words[one + STAGE] = busy,
        15..=21 => words[one + STAGE] = above,
        22..=26 => {
            words[other + STAGE] = busy;
            words[one + STAGE] = above;
        }
        _ => {}
    }
}

/// Any words in one worker's record but for its stage.
fn spoil_idle_record(rng: &mut Rng, words: &mut [u16], shape: Shape) {
    let at = shape.worker_at(rng.word(0, shape.workers - 1));
    for word in &mut words[at + 1..at + WORKER_WORDS] {
        *word = rng.word(0, 65_535);
    }
}

fn mark_some(rng: &mut Rng, words: &mut [u16]) {
    let chain = Chain::of(words).expect("a good header so far");
    let (nodes, shape) = (chain.nodes, chain.shape);
    for node in nodes {
        if rng.chance(30) {
            words[shape.node_at(node) + MARK] = some_mark(rng);
        }
    }
}

/// The last key of the chain becomes 65,535, which no add stores, or 65,534.
fn raise_last_key(rng: &mut Rng, words: &mut [u16]) {
    let chain = Chain::of(words).expect("a good header so far");
    let last = chain.before(chain.nodes.len());
    if last != HEAD {
        words[chain.shape.node_at(last) + KEY] = *rng.pick(&[65_535, 65_535, 65_534]);
    }
}

/// Words that a converter copies and does not look at: nodes off the chain, some of them unmarked,
/// Tail, and owners.
fn spoil_others(rng: &mut Rng, words: &mut [u16], shape: Shape) {
    let chain = Chain::of(words).expect("a good header so far");
    let row = chain.row_of(&chain.nodes);
    for (node, is_on_chain) in (0..).zip(row) {
        let record = &mut words[shape.node_at(node)..][..NODE_WORDS];
        if !is_on_chain && node != HEAD && rng.chance(60) {
            record.fill_with(|| rng.word(0, 65_535));
            record[MARK] *= rng.word(0, 1);
        }
        if rng.chance(10) {
            record[OWNER] = rng.word(0, 65_535);
        }
    }
}

/// Gives each label of the set length 1, so that they all may be dropped, and then perhaps one of them
/// another length.
fn shorten_labels(rng: &mut Rng, words: &mut [u16]) {
    let chain = Chain::of(words).expect("a good header so far");
    let (shape, listed) = (chain.shape, chain.listed_nodes());
    for &node in &listed {
        words[shape.node_at(node) + LENGTH] = 1;
    }
    if !listed.is_empty() && rng.chance(15) {
        let node = *some_of(rng, &listed);
        let other = *rng.pick(&[0, 0, 2, 2, 257, 65_535]);
        words[shape.node_at(node) + LENGTH] = if rng.chance(80) {
            other
        } else {
            any_length(rng)
        };
    }
}

/// The first one, the last one, or any.
pub fn some_of<'a>(rng: &mut Rng, nodes: &'a [u16]) -> &'a u16 {
    let (any, last) = (rng.index(nodes.len()), nodes.len() - 1);
    &nodes[*rng.pick(&[0, last, any])]
}

/// A link to no node, or a key that does not rise, at some node of the chain or behind it.
fn break_chain(rng: &mut Rng, words: &mut [u16]) {
    let chain = Chain::of(words).expect("a good header so far");
    if chain.end != End::Tail {
        return;
    }
    let (shape, place) = (chain.shape, rng.index(chain.nodes.len() + 1));
    let before = shape.node_at(chain.before(place));
    match chain.nodes.get(place) {
        Some(&node) if rng.chance(50) => {
            words[shape.node_at(node) + KEY] = words[before + KEY].saturating_sub(rng.word(0, 1));
        }
        _ => words[before + NEXT] = *rng.pick(&[shape.nodes, NONE, HEAD]),
    }
}
