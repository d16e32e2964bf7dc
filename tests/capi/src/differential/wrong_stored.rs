//! The count with one fault each outside of turns: in what is told of it, in what lays it, and in the
//! header tests of the others.

use model::arena::*;

use super::chain::{Chain, End};
use super::wrong_turns::header_first;
use crate::library::{Library, Model, Run, Start, Values, MOVED};

const ACCEPTED: u64 = 0;

/// Runs the model, then the fault, which gets the shape and what is told. Refusals are right.
fn then(arena: &[u16], fault: impl Fn(Shape, Values) -> u64) -> u64 {
    let reply = Model.stored(arena);
    match (check_header(arena), Values::read(reply)) {
        (Ok(shape), Some(values)) => fault(shape, values),
        _ => reply,
    }
}

fn count_told(count: u16) -> u64 {
    let first = count;
    Values {
        first,
        ..Values::default()
    }
    .number()
}

fn size_of_set(arena: &[u16]) -> u16 {
    set(arena).len() as u16
}

/// Right on every arena that is reached from a fresh one.
pub fn stored_walks(arena: &[u16]) -> u64 {
    then(arena, |_, _| count_told(size_of_set(arena)))
}

/// Right where nothing is stored.
pub fn stored_0(arena: &[u16]) -> u64 {
    then(arena, |_, _| count_told(0))
}

pub fn stored_second(arena: &[u16]) -> u64 {
    then(arena, |_, values| {
        let (first, second) = (0, values.first);
        Values {
            first,
            second,
            ..values
        }
        .number()
    })
}

pub fn stored_reports(arena: &[u16]) -> u64 {
    then(arena, |_, values| {
        Values {
            report: MOVED,
            ..values
        }
        .number()
    })
}

/// Right on every arena that is reached from a fresh one, as the next.
pub fn stored_7(arena: &[u16]) -> u64 {
    then(arena, |_, values| match Chain::of(arena) {
        Some(chain) if chain.end != End::Tail => u64::from(BROKEN_CHAIN),
        _ => values.number(),
    })
}

pub fn stored_14(arena: &[u16]) -> u64 {
    then(arena, |_, values| {
        if values.first != size_of_set(arena) {
            u64::from(BROKEN_COUNT)
        } else {
            values.number()
        }
    })
}

pub fn stored_header_first(arena: &[u16]) -> u64 {
    header_first(arena, Model.stored(arena))
}

pub fn stored_whole_arena(arena: &[u16]) -> u64 {
    then(arena, |shape, values| {
        if arena.len() > shape.total() {
            u64::from(ODD_HEADER)
        } else {
            values.number()
        }
    })
}

pub fn init_keeps_count(arena: &mut [u16], workers: u16, nodes: u16) -> u64 {
    let old = arena.get(COUNT).copied();
    let reply = Model.init(arena, workers, nodes);
    if let (ACCEPTED, Some(old)) = (reply, old) {
        arena[COUNT] = old;
    }
    reply
}

/// Head and Tail are counted too.
pub fn init_counts_ends(arena: &mut [u16], workers: u16, nodes: u16) -> u64 {
    let reply = Model.init(arena, workers, nodes);
    if reply == ACCEPTED {
        arena[COUNT] = 2;
    }
    reply
}

/// Its turns count on from what was there.
pub fn run_keeps_count(mut run: Run) -> u64 {
    let old = run.arena.get(COUNT).copied();
    let reply = Model.run(run.again());
    if let (ACCEPTED, Some(old)) = (reply, old) {
        run.arena[COUNT] = run.arena[COUNT].wrapping_add(old);
    }
    reply
}

pub fn run_never_counts(mut run: Run) -> u64 {
    let reply = Model.run(run.again());
    if reply == ACCEPTED {
        run.arena[COUNT] = 0;
    }
    reply
}

/// The words for a header test that takes any count of layout 2.
fn with_good_count(arena: &[u16]) -> Vec<u16> {
    let mut words = arena.to_vec();
    if let (Some(&LAYOUT_2), Some(count)) = (arena.first(), words.get_mut(COUNT)) {
        *count = 0;
    }
    words
}

pub fn start_any_count(arena: &mut [u16], worker: u16, call: Start) -> u64 {
    let mut words = with_good_count(arena);
    let reply = Model.start(&mut words, worker, call);
    if reply == ACCEPTED {
        arena[HEADER_WORDS..].copy_from_slice(&words[HEADER_WORDS..]);
    }
    reply
}

pub fn snapshot_any_count(arena: &[u16], keys: &mut [u16]) -> u64 {
    Model.snapshot(&with_good_count(arena), keys)
}

pub fn free_any_count(arena: &[u16]) -> u64 {
    Model.find_free(&with_good_count(arena))
}

pub fn longest_any_count(arena: &[u16], last_cell: u16) -> u64 {
    Model.longest_free_run(&with_good_count(arena), last_cell)
}

pub fn stored_any_count(arena: &[u16]) -> u64 {
    match Values::read(Model.stored(&with_good_count(arena))) {
        Some(_) => count_told(arena[COUNT]),
        None => Model.stored(arena),
    }
}

/// The refusal of a header test that compares the count with the set. Each that has it is right on every
/// arena that is reached from a fresh one.
fn other_than_set(arena: &[u16]) -> Option<u64> {
    check_header(arena).ok()?;
    let is_other = arena[COUNT] != size_of_set(arena);
    is_other.then_some(u64::from(ODD_HEADER))
}

pub fn turn_count_of_set(arena: &mut [u16], worker: u16) -> u64 {
    other_than_set(arena).unwrap_or_else(|| Model.turn(arena, worker))
}

pub fn start_count_of_set(arena: &mut [u16], worker: u16, call: Start) -> u64 {
    other_than_set(arena).unwrap_or_else(|| Model.start(arena, worker, call))
}

pub fn snapshot_count_of_set(arena: &[u16], keys: &mut [u16]) -> u64 {
    other_than_set(arena).unwrap_or_else(|| Model.snapshot(arena, keys))
}

pub fn free_count_of_set(arena: &[u16]) -> u64 {
    other_than_set(arena).unwrap_or_else(|| Model.find_free(arena))
}

pub fn longest_count_of_set(arena: &[u16], last_cell: u16) -> u64 {
    other_than_set(arena).unwrap_or_else(|| Model.longest_free_run(arena, last_cell))
}
