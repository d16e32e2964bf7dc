//! Days of a printer: whole calls one after another, on a list that stays about as long as it is.

use model::arena::*;
use model::rng::Rng;

use super::arenas::fresh;
use super::{whole_call, MANY_ENTRIES, SEED, WORKERS};
use crate::benchmark::measure::Words;
use crate::benchmark::workloads::WholeCalls;

/// Calls by the workers in turn on the largest arena with about so many labels, whose keys lie all
/// over: half of them look-ups, the others adds where fewer are stored, and else removes.
pub fn day(labels: u16) -> WholeCalls {
    let mut rng = Rng::new(SEED, 5);
    let mut arena = fresh(MAX_NODES);
    while arena[COUNT] < labels {
        whole_call(&mut arena, 0, ADD, any_key(&mut rng));
    }
    let words = Words::new(arena.clone(), 0);
    let (mut calls, mut turns) = (Vec::new(), 0);
    for worker in (0..WORKERS).cycle() {
        let (operation, key) = pick_call(&arena, &mut rng, labels);
        let (call, _) = whole_call(&mut arena, worker, operation, key);
        turns += call.turns;
        calls.push(call);
        if turns >= MANY_ENTRIES {
            break;
        }
    }
    WholeCalls { words, calls }
}

/// A remove takes out a stored label, and every other look-up looks for one.
fn pick_call(arena: &[u16], rng: &mut Rng, labels: u16) -> (u16, u16) {
    let wanted = rng.word(labels - labels / 10, labels + labels / 10);
    match rng.word(0, 3) {
        0 => (CONTAINS, any_key(rng)),
        1 => (CONTAINS, stored_key(arena, rng)),
        _ if arena[COUNT] < wanted => (ADD, any_key(rng)),
        _ => (REMOVE, stored_key(arena, rng)),
    }
}

fn any_key(rng: &mut Rng) -> u16 {
    rng.word(HEAD_KEY + 1, TAIL_KEY - 1)
}

fn stored_key(arena: &[u16], rng: &mut Rng) -> u16 {
    rng.pick(&set(arena)).key
}
