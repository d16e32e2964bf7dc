//! Libraries that tell old arenas wrong: by the header alone, each fault in every function that works on
//! an arena, and functions that work on old arenas as they did before.

use model::arena::*;

use super::layouts::{new_words, old_words, AnyShape};
use super::wrong_library::*;
use crate::library::{count_values, Library, Model, Start, Values};

const OLD: u64 = OLD_LAYOUT as u64;
/// What the longest free run of an old arena was refused with.
const LENGTHS_MISSING: u64 = 13;

pub fn all() -> impl Iterator<Item = &'static Wrong> {
    BY_HEADER.iter().flatten().chain(&AS_BEFORE)
}

/// A fault in all functions that work on an arena. It gets the words, and gives a reply that does not
/// look behind the header, or None for the model's.
macro_rules! in_all {
    ($fault:literal, $judge:expr) => {
        [
            wrong_start(concat!("start ", $fault), |arena, worker, call| {
                $judge(arena).unwrap_or_else(|| Model.start(arena, worker, call))
            }),
            wrong_turn(concat!("turn ", $fault), |arena, worker| {
                $judge(arena).unwrap_or_else(|| Model.turn(arena, worker))
            }),
            wrong_snapshot(concat!("snapshot ", $fault), |arena, keys| {
                $judge(arena).unwrap_or_else(|| Model.snapshot(arena, keys))
            }),
            wrong_search(concat!("find_free ", $fault), |arena| {
                $judge(arena).unwrap_or_else(|| Model.find_free(arena))
            }),
            wrong_longest(concat!("free run ", $fault), |arena, last_cell| {
                $judge(arena).unwrap_or_else(|| Model.longest_free_run(arena, last_cell))
            }),
            wrong_stored(concat!("stored ", $fault), |arena| {
                $judge(arena).unwrap_or_else(|| Model.stored(arena))
            }),
        ]
    };
}

static BY_HEADER: [[Wrong; 6]; 9] = [
    in_all!("is refused 2 for an old arena", old_as_2),
    in_all!("is refused 12 for every odd old header", odd_as_12),
    in_all!("does not look at an old header's word 6", any_word_6),
    in_all!("does not look at an old header's word 7", any_word_7),
    in_all!("does not look at an old header's total", any_total),
    in_all!("does not look at an old header's places", any_places),
    in_all!("does not look at an old header's counts", any_counts),
    in_all!("takes layout 0 for layout 1", layout_0),
    in_all!("is refused 12 before 1", before_1),
];

fn is_old(arena: &[u16]) -> bool {
    check_header(arena) == Err(OLD_LAYOUT)
}

fn old_as_2(arena: &[u16]) -> Option<u64> {
    is_old(arena).then_some(ODD_HEADER.into())
}

fn is_odd(arena: &[u16]) -> bool {
    AnyShape::check(arena) == Err(ODD_HEADER)
}

pub fn odd_as_12(arena: &[u16]) -> Option<u64> {
    (is_odd(arena) && arena[0] == LAYOUT_1).then_some(OLD)
}

/// 12 for an odd header that is a good old one once something is put right.
fn once_right(arena: &[u16], repair: impl Fn(&mut [u16], OldShape)) -> Option<u64> {
    let mut header = *arena.first_chunk::<HEADER_WORDS>()?;
    let (workers, nodes) = (header[1], header[2]);
    repair(&mut header, OldShape { workers, nodes });
    let is_right = OldShape::read(&header).is_some();
    (is_odd(arena) && is_right).then_some(OLD)
}

fn any_word_6(arena: &[u16]) -> Option<u64> {
    once_right(arena, |header, _| header[COUNT] = 0)
}

fn any_word_7(arena: &[u16]) -> Option<u64> {
    once_right(arena, |header, _| header[7] = 0)
}

/// The one of layout 2 among them.
fn any_total(arena: &[u16]) -> Option<u64> {
    once_right(arena, |header, shape| header[5] = shape.total() as u16)
}

fn any_places(arena: &[u16]) -> Option<u64> {
    once_right(arena, |header, shape| {
        header[3..5].copy_from_slice(&shape.header(0)[3..5]);
    })
}

/// Whatever they are, if the rest goes by them.
fn any_counts(arena: &[u16]) -> Option<u64> {
    let header = *arena.first_chunk::<HEADER_WORDS>()?;
    let (workers, nodes) = (header[1], header[2]);
    let is_right = header == OldShape { workers, nodes }.header(0);
    (is_odd(arena) && is_right).then_some(OLD)
}

fn layout_0(arena: &[u16]) -> Option<u64> {
    once_right(arena, |header, _| header[0] = header[0].max(LAYOUT_1))
}

fn before_1(arena: &[u16]) -> Option<u64> {
    OldShape::read(arena).map(|_| OLD)
}

static AS_BEFORE: [Wrong; 9] = [
    wrong_start("start takes an old arena", start_takes_old),
    wrong_turn("turn takes an old arena", turn_takes_old),
    wrong_snapshot("snapshot takes an old arena", |arena, keys| {
        Model.snapshot(&in_use(arena), keys)
    }),
    wrong_search("find_free takes an old arena", |arena| {
        Model.find_free(&in_use(arena))
    }),
    wrong_longest("free run: 13 behind 5 and 7", |arena, last_cell| {
        told_of_old(arena, last_cell, LENGTHS_MISSING)
    }),
    wrong_longest(
        "free run: all cells of an old arena are free",
        |arena, last_cell| {
            let (first, second) = (1, last_cell);
            let all = Values {
                first,
                second,
                ..Values::default()
            };
            told_of_old(arena, last_cell, all.number())
        },
    ),
    wrong_stored("stored tells 65,535 of an old arena", |arena| {
        count_of_old(arena, |_| 65_535)
    }),
    wrong_stored("stored tells an old arena's word 6", |arena| {
        count_of_old(arena, |_| 0)
    }),
    wrong_stored("stored walks an old arena's chain", |arena| {
        count_of_old(arena, |new| set(new).len())
    }),
];

/// An old arena as if its layout were in use; any other one as it is.
fn in_use(arena: &[u16]) -> Vec<u16> {
    if is_old(arena) {
        new_words(arena)
    } else {
        arena.to_vec()
    }
}

/// No add has a length.
fn start_takes_old(arena: &mut [u16], worker: u16, call: Start) -> u64 {
    if !is_old(arena) {
        return Model.start(arena, worker, call);
    }
    let mut new = new_words(arena);
    let is_good = call.length == 0;
    let length = u16::from(is_good == (call.operation == ADD));
    let reply = Model.start(&mut new, worker, Start { length, ..call });
    if reply == 0 {
        new[HEADER_WORDS + WORKER_WORDS * usize::from(worker) + CALL_LENGTH] = 0;
        arena.copy_from_slice(&old_words(&new));
    }
    reply
}

/// Nothing is counted, so no turn is refused for a count.
fn turn_takes_old(arena: &mut [u16], worker: u16) -> u64 {
    let record = HEADER_WORDS + WORKER_WORDS * usize::from(worker);
    if !is_old(arena) {
        return Model.turn(arena, worker);
    }
    let mut new = new_words(arena);
    new[COUNT] = u16::from(arena.get(record + STAGE) == Some(&16));
    let reply = Model.turn(&mut new, worker);
    if Values::read(reply).is_some() {
        arena.copy_from_slice(&old_words(&new));
    }
    reply
}

/// What is told of an old arena behind 5 and 7.
fn told_of_old(arena: &[u16], last_cell: u16, told: u64) -> u64 {
    let reply = Model.longest_free_run(&in_use(arena), last_cell);
    if is_old(arena) && Values::read(reply).is_some() {
        told
    } else {
        reply
    }
}

/// It gets the words in layout 2.
fn count_of_old(arena: &[u16], count: impl Fn(&[u16]) -> usize) -> u64 {
    if is_old(arena) {
        count_values(count(&new_words(arena))).number()
    } else {
        Model.stored(arena)
    }
}
