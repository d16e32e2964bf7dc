//! Starts and turns, one by one.

use model::arena::*;
use model::rng::Rng;
use model::turn::{turn, Answer};

use super::arenas::{fresh, full, shape_of, with_keys};
use super::{any_call, deal, start_on, whole_call, LENGTH, MANY_ENTRIES, REPEATS, SEED, WORKERS};
use crate::benchmark::measure::Words;
use crate::benchmark::workloads::{Act, Entries, Fill, SameAct, WholeCalls};
use crate::library::Start;

/// Starts and turns of all workers, on an arena that has been in use for a while.
pub fn mixed(nodes: u16, greatest_key: u16) -> Entries {
    let mut rng = Rng::new(SEED, 1);
    let mut arena = fresh(nodes);
    deal(&mut arena, &mut rng, MANY_ENTRIES, any_call(greatest_key));
    let words = Words::new(arena.clone(), 0);
    let entries = deal(&mut arena, &mut rng, MANY_ENTRIES, any_call(greatest_key));
    Entries { words, entries }
}

/// Look-ups of a key behind the whole chain: workers 0 and up take turns by turns, up to the one
/// that decides the answer.
pub fn lookups(nodes: u16, walkers: u16) -> Entries {
    let keys = nodes - 2;
    let mut arena = full(nodes);
    for worker in 0..walkers {
        start_on(&mut arena, worker, CONTAINS, 2 * keys + 1);
    }
    // Stage 22; 23 and 24 at Head and at each key; 23 at Tail.
    let turns_each = 1 + 2 * (1 + keys) + 1;
    let round = (0..walkers).map(|worker| [worker, 0, 0, 0]);
    let entries = (0..turns_each).flat_map(|_| round.clone()).collect();
    Entries {
        words: Words::new(arena, 0),
        entries,
    }
}

/// Calls that change no node's key, link or mark, on the first six keys of a full chain: the same
/// entries whatever the number of nodes is, and none of them at stage 14.
pub fn ordinary_turns(nodes: u16) -> Entries {
    let mut arena = full(nodes);
    let words = Words::new(arena.clone(), 0);
    let harmless_call = |rng: &mut Rng| match rng.word(ADD, CONTAINS) {
        ADD => (ADD, 2 * rng.word(1, 6)),
        REMOVE => (REMOVE, 2 * rng.word(1, 6) - 1),
        _ => (CONTAINS, rng.word(1, 12)),
    };
    let mut rng = Rng::new(SEED, 2);
    let entries = deal(&mut arena, &mut rng, MANY_ENTRIES, harmless_call);
    Entries { words, entries }
}

/// Starts of an add that are accepted.
pub fn starts(nodes: u16) -> SameAct {
    let add = Start {
        operation: ADD,
        key: 1,
        length: LENGTH,
    };
    let arena = full(nodes);
    SameAct {
        record_at: Some(shape_of(&arena).worker_at(0)),
        ..same_act(arena, 0, Act::Start(add))
    }
}

/// An add behind a chain of so many keys, at stage 14.
pub fn stage_14(nodes: u16, keys: u16) -> SameAct {
    let mut arena = with_keys(nodes, keys);
    start_on(&mut arena, 0, ADD, 2 * keys + 1);
    turns_up_to(&mut arena, 0, 14);
    let shape = shape_of(&arena);
    // The node behind the chain will be taken; of a full chain no node changes.
    let taken = 2 + keys;
    SameAct {
        record_at: Some(shape.worker_at(0)),
        node_at: (taken < nodes).then(|| shape.node_at(taken)),
        ..same_act(arena, 0, Act::Turn)
    }
}

/// Turns of an idle worker.
pub fn idle_turns(nodes: u16) -> SameAct {
    same_act(full(nodes), 0, Act::Turn)
}

/// Turns of worker 0, who wants Head, which worker 1 has.
pub fn waiting_turns(nodes: u16) -> SameAct {
    let mut arena = full(nodes);
    for worker in 0..2 {
        start_on(&mut arena, worker, ADD, 1);
        turns_up_to(&mut arena, worker, 6);
    }
    turn(&mut arena, 1).expect("a sound arena");
    same_act(arena, 0, Act::Turn)
}

/// Turns of a worker that is not there: refusal 3.
pub fn turns_of_nobody(nodes: u16) -> SameAct {
    same_act(full(nodes), WORKERS, Act::Turn)
}

/// Turns of worker 0, who stands at stage 3 on no node: refusal 6.
pub fn turns_on_no_node(nodes: u16) -> SameAct {
    let mut arena = full(nodes);
    start_on(&mut arena, 0, ADD, 1);
    turns_up_to(&mut arena, 0, 3);
    let at = shape_of(&arena).worker_at(0);
    arena[at + CURR] = nodes;
    same_act(arena, 0, Act::Turn)
}

/// One that changes nothing.
fn same_act(arena: Vec<u16>, worker: u16, act: Act) -> SameAct {
    SameAct {
        words: Words::new(arena, 0),
        worker,
        act,
        record_at: None,
        node_at: None,
        repeats: REPEATS,
    }
}

/// Gives a worker turns until it stands at the stage.
fn turns_up_to(arena: &mut [u16], worker: u16, stage: u16) {
    let at = shape_of(arena).worker_at(worker);
    while arena[at + STAGE] != stage {
        turn(arena, worker).expect("a sound arena");
    }
}

/// Adds by worker 0, one after another on a fresh arena, until one is answered full. Each key is the
/// lowest so far, so that no add walks along the chain.
pub fn filling(nodes: u16) -> Fill {
    let mut arena = fresh(nodes);
    let words = Words::new(arena.clone(), 0);
    let mut calls = Vec::new();
    for key in (1..nodes).rev() {
        let (call, answer) = whole_call(&mut arena, 0, ADD, key);
        calls.push(call);
        if answer == Answer::Full {
            break;
        }
    }
    Fill {
        adds: WholeCalls { words, calls },
    }
}
