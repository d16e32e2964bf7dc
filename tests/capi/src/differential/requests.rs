//! What a library is asked: an entry point with its arguments, chosen at random.

use std::fmt;

use model::arena::*;
use model::rng::Rng;

use super::arenas::Arenas;
use super::chain::Chain;
use super::schedules;
use crate::library::{Start, CALL_WORDS, WAIT_WORDS};

#[derive(Clone, Copy, Debug, PartialEq, Eq)]
pub enum EntryPoint {
    Init,
    Start,
    Turn,
    Snapshot,
    FindFree,
    LongestFreeRun,
    Stored,
    ToLayout2,
    ToLayout1,
    Run,
}

pub enum Request {
    Init {
        workers: u16,
        nodes: u16,
    },
    Start {
        worker: u16,
        call: Start,
    },
    Turn {
        worker: u16,
    },
    /// With room for so many keys.
    Snapshot {
        room: usize,
    },
    FindFree,
    LongestFreeRun {
        last_cell: u16,
    },
    Stored,
    /// With what the target holds before.
    ToLayout2 {
        lengths: Vec<u16>,
        target: Vec<u16>,
    },
    ToLayout1 {
        target: Vec<u16>,
    },
    /// With so many words for the history and for the waits.
    Run {
        workers: u16,
        nodes: u16,
        schedule: Vec<u16>,
        history_length: usize,
        waits_length: usize,
    },
}

impl Request {
    pub fn entry_point(&self) -> EntryPoint {
        match self {
            Request::Init { .. } => EntryPoint::Init,
            Request::Start { .. } => EntryPoint::Start,
            Request::Turn { .. } => EntryPoint::Turn,
            Request::Snapshot { .. } => EntryPoint::Snapshot,
            Request::FindFree => EntryPoint::FindFree,
            Request::LongestFreeRun { .. } => EntryPoint::LongestFreeRun,
            Request::Stored => EntryPoint::Stored,
            Request::ToLayout2 { .. } => EntryPoint::ToLayout2,
            Request::ToLayout1 { .. } => EntryPoint::ToLayout1,
            Request::Run { .. } => EntryPoint::Run,
        }
    }
}

impl fmt::Display for Request {
    fn fmt(&self, out: &mut fmt::Formatter) -> fmt::Result {
        match self {
            Request::Init { workers, nodes } => {
                write!(out, "init workers {workers} nodes {nodes}")
            }
            Request::Start { worker, call } => {
                let Start {
                    operation,
                    key,
                    length,
                } = call;
                write!(out, "start worker {worker} operation {operation} ")?;
                write!(out, "key {key} length {length}")
            }
            Request::Turn { worker } => write!(out, "turn worker {worker}"),
            Request::Snapshot { room } => write!(out, "snapshot into {room} words"),
            Request::FindFree => write!(out, "find_free"),
            Request::LongestFreeRun { last_cell } => {
                write!(out, "longest_free_run up to cell {last_cell}")
            }
            Request::Stored => write!(out, "stored"),
            Request::ToLayout2 { lengths, target } => {
                let room = target.len();
                write!(out, "to_layout_2 into {room} words, ")?;
                write!(out, "{} lengths {lengths:?}", lengths.len())
            }
            Request::ToLayout1 { target } => {
                write!(out, "to_layout_1 into {} words", target.len())
            }
            Request::Run {
                workers,
                nodes,
                schedule,
                history_length,
                waits_length,
            } => {
                let length = schedule.len();
                write!(out, "run workers {workers} nodes {nodes}, ")?;
                write!(out, "{history_length} words of history, ")?;
                write!(out, "{waits_length} words of waits, ")?;
                write!(out, "{length} words of schedule {schedule:?}")
            }
        }
    }
}

/// The likely worker, another one of the arena, or one that it does not have.
fn worker(rng: &mut Rng, arenas: &Arenas, percent_likely: u64) -> u16 {
    if rng.chance(percent_likely) {
        return arenas.likely_worker;
    }
    match rng.range(0, 9) {
        0..=5 => rng.word(0, arenas.workers - 1),
        6 => arenas.workers,
        7..=8 => rng.word(0, 9),
        _ => rng.word(0, 65_535),
    }
}

pub fn turn(rng: &mut Rng, arenas: &Arenas) -> Request {
    Request::Turn {
        worker: worker(rng, arenas, 60),
    }
}

/// Keys of calls: few enough to meet those on the chain, and the edges of the range.
pub fn call_key(rng: &mut Rng) -> u16 {
    match rng.range(0, 9) {
        0..=6 => rng.word(1, 20),
        7 => rng.word(0, 65_535),
        _ => *rng.pick(&[0, 1, 65_533, 65_534, 65_535]),
    }
}

/// Lengths of calls: mostly one that this start may carry, else at an edge of the range, where it
/// ends with the key, or any.
pub fn call_length(rng: &mut Rng, operation: u16, key: u16) -> u16 {
    let has_length = operation == ADD;
    let last = TAIL_KEY - key;
    match rng.range(0, 9) {
        0..=4 if has_length => rng.word(1, 20).min(last),
        0..=5 if !has_length => 0,
        6..=8 => *rng.pick(&[0, 1, 65_534, 65_535, last, last.wrapping_add(1)]),
        _ => rng.word(0, 65_535),
    }
}

/// Mostly an idle worker, if there is one: a busy one is refused before its call is looked at.
fn start_worker(rng: &mut Rng, arenas: &Arenas) -> u16 {
    let words = &arenas.words;
    let Ok(shape) = check_header(words) else {
        return worker(rng, arenas, 30);
    };
    let first = rng.word(0, shape.workers - 1);
    let mut workers = (0..shape.workers).map(|place| (first + place) % shape.workers);
    let idle = workers.find(|&worker| words[shape.worker_at(worker) + STAGE] == 0);
    match idle {
        Some(idle) if rng.chance(60) => idle,
        _ => worker(rng, arenas, 30),
    }
}

pub fn start(rng: &mut Rng, arenas: &Arenas) -> Request {
    let operation = *rng.pick(&[0, ADD, ADD, ADD, REMOVE, REMOVE, CONTAINS, 4]);
    let key = call_key(rng);
    let length = call_length(rng, operation, key);
    Request::Start {
        worker: start_worker(rng, arenas),
        call: Start {
            operation,
            key,
            length,
        },
    }
}

/// Room for about as many keys as are listed, or as the chain has with the marked ones, which are
/// passed over.
pub fn snapshot(rng: &mut Rng, chain: Option<&Chain>) -> Request {
    let count = match chain {
        Some(chain) if rng.chance(50) => chain.nodes.len(),
        Some(chain) => chain.listed(),
        None => 2,
    };
    let room = match rng.range(0, 3) {
        0 => count,
        1 => count.saturating_sub(1),
        2 => count + 1,
        _ => rng.index(2 * count + 3),
    };
    Request::Snapshot { room }
}

/// Up to a cell beside an edge of some label, among the lowest, at an edge of the range, or any.
pub fn longest_free_run(rng: &mut Rng, chain: Option<&Chain>) -> Request {
    let few = rng.word(1, 40);
    let chain = chain.filter(|chain| !chain.nodes.is_empty());
    let last_cell = match rng.range(0, 99) {
        0..=4 => *rng.pick(&[0, 65_535]),
        5..=8 => *rng.pick(&[1, 2, 65_533, 65_534]),
        9..=11 => rng.word(1, 65_534),
        12..=84 => chain.map_or(few, |chain| label_edge(rng, chain)),
        _ => few,
    };
    // The model marks every cell, so many cells are rare.
    let is_slow = (1_000..65_535).contains(&last_cell) && rng.chance(60);
    Request::LongestFreeRun {
        last_cell: if is_slow { few } else { last_cell },
    }
}

/// Where a label on the chain begins or ends, a marked node's too, or a few cells away. Mostly one of
/// the farther labels, so that others are before it.
fn label_edge(rng: &mut Rng, chain: &Chain) -> u16 {
    let count = chain.nodes.len();
    let place = rng.index(count).max(rng.index(count));
    let label = chain.label(chain.nodes[place]);
    let end = label.key.wrapping_add(label.length);
    match rng.range(0, 4) {
        0 => label.key.wrapping_sub(rng.word(0, 1)),
        1 => end.wrapping_sub(rng.word(1, 2)),
        _ => end.wrapping_add(rng.word(0, 9)),
    }
}

/// Counts, mostly good and small ones, else at an edge of their ranges.
fn counts(rng: &mut Rng) -> (u16, u16) {
    if rng.chance(75) {
        return (rng.word(1, 4), rng.word(3, 7));
    }
    let workers = *rng.pick(&[0, 1, 1, 8, 8, 9, 65_535]);
    let nodes = *rng.pick(&[0, 2, 3, 3, 1_024, 1_024, 1_025, 65_535]);
    (workers, nodes)
}

/// A number of words about as large as these counts need, or as they needed in the old layout.
fn arena_length(rng: &mut Rng, workers: u16, nodes: u16) -> usize {
    let shape = Shape { workers, nodes };
    // Counts far outside the ranges need no arena that fits them.
    let needed = shape.total().min(2 * MAX_WORDS);
    let old = shape.in_layout::<LAYOUT_1>().total();
    match rng.range(0, 9) {
        0..=3 => needed,
        4..=6 => needed + rng.index(9),
        7 => old.min(needed),
        8 => needed - 1,
        _ => rng.index(needed),
    }
}

/// Gives the request with the length of the arena for it.
pub fn init(rng: &mut Rng) -> (usize, Request) {
    let (workers, nodes) = counts(rng);
    let request = Request::Init { workers, nodes };
    (arena_length(rng, workers, nodes), request)
}

/// Gives the request with the length of the arena for it.
pub fn run(rng: &mut Rng) -> (usize, Request) {
    let (workers, nodes) = counts(rng);
    let schedule = schedules::schedule(rng, workers);
    let needed = schedules::needed(&schedule);
    let history_length = schedules::row_length(rng, needed.calls, CALL_WORDS);
    let waits_length = schedules::row_length(rng, needed.waits, WAIT_WORDS);
    let length = arena_length(rng, workers, nodes);
    let request = Request::Run {
        workers,
        nodes,
        schedule,
        history_length,
        waits_length,
    };
    (length, request)
}
