//! Libraries that judge an old layout too late, behind what they are to look at after it, and some that
//! lay it still.

use model::arena::*;

use super::layouts::{new_words, old_words};
use super::wrong_free_replies::longest_7_before_5;
use super::wrong_library::*;
use crate::library::{Library, Model, Start};

const ACCEPTED: u64 = 0;

pub fn all() -> impl Iterator<Item = &'static Wrong> {
    LATE.iter().chain(&LAID)
}

static LATE: [Wrong; 15] = [
    wrong_start("start: 12 after 3", |arena, worker, call| {
        start_late(arena, worker, call, &[3])
    }),
    wrong_start("start: 12 after 6", |arena, worker, call| {
        start_late(arena, worker, call, &[3, 6])
    }),
    wrong_start("start: 12 after 4", |arena, worker, call| {
        start_late(arena, worker, call, &[3, 6, 4])
    }),
    wrong_start("start: 12 after 5", |arena, worker, call| {
        start_late(arena, worker, call, &[3, 6, 4, 5])
    }),
    wrong_start("start: 5 before 12", |arena, worker, call| {
        start_late(arena, worker, call, &[5])
    }),
    wrong_turn("turn: 12 after 3", |arena, worker| {
        turn_late(arena, worker, &[3])
    }),
    wrong_turn("turn: 12 after 6", |arena, worker| {
        turn_late(arena, worker, &[3, 6])
    }),
    wrong_turn("turn: 12 after 7", |arena, worker| {
        turn_late(arena, worker, &[3, 6, 7])
    }),
    wrong_snapshot("snapshot: 12 after 7", |arena, keys| {
        snapshot_late(arena, keys, &[7])
    }),
    wrong_snapshot("snapshot: 12 after 8", |arena, keys| {
        snapshot_late(arena, keys, &[7, 8])
    }),
    wrong_longest("free run: 12 after 5", |arena, last_cell| {
        longest_late(arena, last_cell, &[5])
    }),
    wrong_longest("free run: 12 after 7", |arena, last_cell| {
        longest_late(arena, last_cell, &[5, 7])
    }),
    wrong_longest("free run: 7 before 12 and 5", longest_7_12_5),
    wrong_longest("free run: 7, 5, 12", |arena, last_cell| {
        late(
            arena,
            Model.longest_free_run(arena, last_cell),
            &[7, 5],
            |new| longest_7_before_5(new, last_cell),
        )
    }),
    wrong_turn(
        "turn of an idle worker is not refused 12",
        |arena, worker| turn_late(arena, worker, &[0]),
    ),
];

/// A reply in which some others come before 12: those of the same arena in layout 2.
fn late(arena: &[u16], right: u64, before: &[u64], in_use: impl Fn(&mut [u16]) -> u64) -> u64 {
    if right != u64::from(OLD_LAYOUT) {
        return right;
    }
    let reply = in_use(&mut new_words(arena));
    if before.contains(&reply) {
        reply
    } else {
        right
    }
}

fn start_late(arena: &mut [u16], worker: u16, call: Start, before: &[u64]) -> u64 {
    let right = Model.start(arena, worker, call);
    late(arena, right, before, |new| Model.start(new, worker, call))
}

fn turn_late(arena: &mut [u16], worker: u16, before: &[u64]) -> u64 {
    let right = Model.turn(arena, worker);
    late(arena, right, before, |new| Model.turn(new, worker))
}

fn snapshot_late(arena: &[u16], keys: &mut [u16], before: &[u64]) -> u64 {
    let right = Model.snapshot(arena, keys);
    late(arena, right, before, |new| {
        Model.snapshot(new, &mut keys.to_vec())
    })
}

fn longest_late(arena: &[u16], last_cell: u16, before: &[u64]) -> u64 {
    let right = Model.longest_free_run(arena, last_cell);
    late(arena, right, before, |new| {
        Model.longest_free_run(new, last_cell)
    })
}

/// As for the roll, whatever the last cell is.
fn longest_7_12_5(arena: &[u16], last_cell: u16) -> u64 {
    let right = Model.longest_free_run(arena, last_cell);
    late(arena, right, &[7], |new| Model.longest_free_run(new, 1))
}

static LAID: [Wrong; 4] = [
    wrong_init("init lays layout 1", init_old),
    wrong_init("init writes layout 1's header", init_old_header),
    wrong_init("init writes 1 for the layout", init_old_layout),
    wrong_init("init wants layout 1's words", init_old_room),
];

fn init_old(arena: &mut [u16], workers: u16, nodes: u16) -> u64 {
    let mut new = arena.to_vec();
    let reply = Model.init(&mut new, workers, nodes);
    if reply == ACCEPTED {
        let old = old_words(&new);
        let total = usize::from(old[5]);
        arena[..total].copy_from_slice(&old[..total]);
    }
    reply
}

fn init_old_header(arena: &mut [u16], workers: u16, nodes: u16) -> u64 {
    let reply = Model.init(arena, workers, nodes);
    if reply == ACCEPTED {
        let header = OldShape { workers, nodes }.header(0);
        arena[..HEADER_WORDS].copy_from_slice(&header);
    }
    reply
}

fn init_old_layout(arena: &mut [u16], workers: u16, nodes: u16) -> u64 {
    let reply = Model.init(arena, workers, nodes);
    if reply == ACCEPTED {
        arena[0] = LAYOUT_1;
    }
    reply
}

/// Where there are too few for layout 2, the last ones are not written.
fn init_old_room(arena: &mut [u16], workers: u16, nodes: u16) -> u64 {
    let reply = Model.init(arena, workers, nodes);
    let old = OldShape::new(workers, nodes);
    match old.filter(|old| reply == u64::from(SHORT_ARENA) && arena.len() >= old.total()) {
        Some(old) => {
            let mut whole = vec![0; old.in_layout::<LAYOUT_2>().total()];
            let reply = Model.init(&mut whole, workers, nodes);
            let length = arena.len();
            arena.copy_from_slice(&whole[..length]);
            reply
        }
        None => reply,
    }
}
