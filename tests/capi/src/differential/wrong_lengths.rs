//! Faults with node records, totals and lengths, one each.

use model::arena::*;
use model::run::{run_traced, ENTRY_WORDS, MAX_SCHEDULE_WORDS};

use super::layouts::{new_words, old_words};
use super::wrong_turns::{moved, then};
use crate::library::{Library, Model, Run, Start};

const ACCEPTED: u64 = 0;
/// Where the header has the total.
const TOTAL: usize = 5;

fn old_total(shape: Shape) -> u16 {
    shape.in_layout::<LAYOUT_1>().total() as u16
}

pub fn init_old_total(arena: &mut [u16], workers: u16, nodes: u16) -> u64 {
    let reply = Model.init(arena, workers, nodes);
    if let (ACCEPTED, Ok(shape)) = (reply, check_header(arena)) {
        arena[TOTAL] = old_total(shape);
    }
    reply
}

pub fn init_keeps_lengths(arena: &mut [u16], workers: u16, nodes: u16) -> u64 {
    let before = arena.to_vec();
    let reply = Model.init(arena, workers, nodes);
    if let (ACCEPTED, Ok(shape)) = (reply, check_header(arena)) {
        for node in 0..nodes {
            let at = shape.node_at(node) + LENGTH;
            arena[at] = before[at];
        }
    }
    reply
}

fn is_good_length(call: Start) -> bool {
    is_call_length(call.operation, call.key, call.length)
}

pub fn start_bad_length_first(arena: &mut [u16], worker: u16, call: Start) -> u64 {
    let reply = Model.start(arena, worker, call);
    if reply == u64::from(BUSY) && !is_good_length(call) {
        return u64::from(BAD_CALL);
    }
    reply
}

/// A start that takes some bad lengths, if nothing else is wrong.
fn start_takes(
    arena: &mut [u16],
    worker: u16,
    call: Start,
    is_taken: impl Fn(Start) -> bool,
) -> u64 {
    if is_good_length(call) || !is_taken(call) {
        return Model.start(arena, worker, call);
    }
    // With a good length first; then the bad one is put in its place.
    let length = u16::from(call.operation == ADD);
    let reply = Model.start(arena, worker, Start { length, ..call });
    if reply == ACCEPTED {
        arena[HEADER_WORDS + WORKER_WORDS * worker as usize + CALL_LENGTH] = call.length;
    }
    reply
}

pub fn start_remove_length(arena: &mut [u16], worker: u16, call: Start) -> u64 {
    start_takes(arena, worker, call, |call| call.operation == REMOVE)
}

pub fn start_contains_length(arena: &mut [u16], worker: u16, call: Start) -> u64 {
    start_takes(arena, worker, call, |call| call.operation == CONTAINS)
}

pub fn start_no_length(arena: &mut [u16], worker: u16, call: Start) -> u64 {
    start_takes(arena, worker, call, |call| call.length == 0)
}

fn end(call: Start) -> u32 {
    u32::from(call.key) + u32::from(call.length)
}

pub fn start_end_65536(arena: &mut [u16], worker: u16, call: Start) -> u64 {
    start_takes(arena, worker, call, |call| {
        call.operation == ADD && end(call) == 65_536
    })
}

/// Every sum is less than 65,536 in 16 bits.
pub fn start_short_sum(arena: &mut [u16], worker: u16, call: Start) -> u64 {
    start_takes(arena, worker, call, |call| {
        call.operation == ADD && (1..=65_534).contains(&call.length)
    })
}

pub fn start_end_65534(arena: &mut [u16], worker: u16, call: Start) -> u64 {
    let before = arena.to_vec();
    let reply = Model.start(arena, worker, call);
    if reply == ACCEPTED && call.length != 0 && end(call) == 65_535 {
        arena.copy_from_slice(&before);
        return u64::from(BAD_CALL);
    }
    reply
}

pub fn start_forgets_length(arena: &mut [u16], worker: u16, call: Start) -> u64 {
    let reply = Model.start(arena, worker, call);
    if reply == ACCEPTED {
        arena[HEADER_WORDS + WORKER_WORDS * worker as usize + CALL_LENGTH] = 0;
    }
    reply
}

/// Makes a call as if each node had four words, as in layout 1. The header stays, but for its count.
pub fn narrow(arena: &mut [u16], call: impl FnOnce(&mut [u16]) -> u64) -> u64 {
    let Ok(shape) = check_header(arena) else {
        return call(arena);
    };
    let old: OldShape = shape.in_layout();
    let mut words = arena.to_vec();
    words[..HEADER_WORDS].copy_from_slice(&old.header(0));
    let mut wide = new_words(&words);
    wide[COUNT] = arena[COUNT];
    let reply = call(&mut wide);
    let records = HEADER_WORDS..old.total();
    arena[records.clone()].copy_from_slice(&old_words(&wide)[records]);
    arena[COUNT] = wide[COUNT];
    reply
}

pub fn turn_narrow(arena: &mut [u16], worker: u16) -> u64 {
    narrow(arena, |arena| Model.turn(arena, worker))
}

pub fn snapshot_narrow(arena: &[u16], keys: &mut [u16]) -> u64 {
    narrow(&mut arena.to_vec(), |arena| Model.snapshot(arena, keys))
}

/// A turn on an arena whose header word is this one, with another in its place.
fn turn_with(arena: &mut [u16], worker: u16, place: usize, word: u16, instead: u16) -> u64 {
    if arena.get(place) != Some(&word) {
        return Model.turn(arena, worker);
    }
    arena[place] = instead;
    let reply = Model.turn(arena, worker);
    arena[place] = word;
    reply
}

pub fn turn_old_total(arena: &mut [u16], worker: u16) -> u64 {
    let header = arena.first_chunk::<HEADER_WORDS>();
    let shape = header.and_then(|header| Shape::new(header[1], header[2]));
    match shape {
        Some(shape) if arena[0] == LAYOUT_2 && arena.len() >= shape.total() => {
            let total = shape.total() as u16;
            turn_with(arena, worker, TOTAL, old_total(shape), total)
        }
        _ => Model.turn(arena, worker),
    }
}

pub fn turn_layout_3(arena: &mut [u16], worker: u16) -> u64 {
    turn_with(arena, worker, 0, 3, LAYOUT_2)
}

/// A turn that, having taken a node at stage 14, writes another length, told from the words before, where
/// the record is, and where the length stands.
fn taken_with(arena: &mut [u16], worker: u16, length: impl Fn(&[u16], usize, usize) -> u16) -> u64 {
    then(arena, worker, |before, after, shape, at, reply| {
        if before[at + STAGE] == 14 && reply == moved(15) {
            let place = shape.node_at(after[at + SPARE]) + LENGTH;
            after[place] = length(before, at, place);
        }
        reply
    })
}

pub fn turn_no_length(arena: &mut [u16], worker: u16) -> u64 {
    taken_with(arena, worker, |before, _, place| before[place])
}

pub fn turn_key_for_length(arena: &mut [u16], worker: u16) -> u64 {
    taken_with(arena, worker, |before, at, _| before[at + CALL_KEY])
}

/// Right wherever worker 0 adds alone.
pub fn turn_first_length(arena: &mut [u16], worker: u16) -> u64 {
    taken_with(arena, worker, |before, _, _| {
        before[HEADER_WORDS + CALL_LENGTH]
    })
}

/// Right on every arena that is reached from a fresh one.
pub fn turn_refuses_length(arena: &mut [u16], worker: u16) -> u64 {
    then(arena, worker, |before, after, _, at, reply| {
        let (key, length) = (before[at + CALL_KEY], before[at + CALL_LENGTH]);
        let is_good = is_call_length(ADD, key, length);
        if before[at + STAGE] == 14 && reply == moved(15) && !is_good {
            after.copy_from_slice(before);
            return u64::from(BROKEN_RECORD);
        }
        reply
    })
}

pub fn turn_clears_length(arena: &mut [u16], worker: u16) -> u64 {
    then(arena, worker, |before, after, shape, at, reply| {
        if reply == moved(17) {
            after[shape.node_at(before[at + CURR]) + LENGTH] = 0;
        }
        reply
    })
}

pub fn turn_leaves_length(arena: &mut [u16], worker: u16) -> u64 {
    then(arena, worker, |before, after, _, at, reply| {
        after[at + CALL_LENGTH] = before[at + CALL_LENGTH];
        reply
    })
}

/// What is left over is not looked at.
pub fn run_multiple_of_3(mut run: Run) -> u64 {
    let length = run.schedule.len();
    let whole = if length.is_multiple_of(3) {
        length / ENTRY_WORDS * ENTRY_WORDS
    } else {
        length
    };
    let schedule = &run.schedule[..whole];
    Model.run(Run {
        schedule,
        ..run.again()
    })
}

/// The limit of document 01.
pub fn run_12000_words(mut run: Run) -> u64 {
    let is_long = (12_001..=MAX_SCHEDULE_WORDS).contains(&run.schedule.len());
    let has_good_counts = Shape::new(run.workers, run.nodes).is_some();
    if is_long && has_good_counts {
        return u64::from(BAD_SCHEDULE);
    }
    Model.run(run.again())
}

pub fn run_layout_1(mut run: Run) -> u64 {
    let reply = Model.run(run.again());
    if let (ACCEPTED, Some(shape)) = (reply, OldShape::new(run.workers, run.nodes)) {
        run.arena[..HEADER_WORDS].copy_from_slice(&shape.header(0));
    }
    reply
}

/// A run of the same schedule with other entries in their places.
fn run_changed(mut run: Run, change: impl Fn(&mut [u16])) -> u64 {
    let mut schedule = run.schedule.to_vec();
    schedule.chunks_exact_mut(ENTRY_WORDS).for_each(change);
    Model.run(Run {
        schedule: &schedule,
        ..run.again()
    })
}

/// A turn with a length is refused.
pub fn run_turn_length(run: Run) -> u64 {
    run_changed(run, |entry| {
        if entry[1] == 0 && entry[3] != 0 {
            entry[0] = NONE;
        }
    })
}

pub fn run_length_1(run: Run) -> u64 {
    run_changed(run, |entry| {
        if entry[1] == ADD && is_call_length(ADD, entry[2], entry[3]) {
            entry[3] = 1;
        }
    })
}

/// With 5, as the start would be.
pub fn run_bad_length(run: Run) -> u64 {
    let mut copy = run.arena.to_vec();
    let done = run_traced(&mut copy, run.workers, run.nodes, run.schedule, run.room());
    if done.is_ok_and(|trace| trace.refused_lengths != 0) {
        return u64::from(BAD_CALL);
    }
    Model.run(run)
}
