//! Calls that leave the words as they find them, or write the same anew.

use model::arena::*;
use model::convert::to_layout_1;
use model::rng::Rng;

use super::arenas::{fresh, full, shape_of, with_labels};
use super::{REPEATS, SEED, WORKERS};
use crate::benchmark::measure::Words;
use crate::benchmark::workloads::{Call, Repeated};

/// The same call again and again, on an arena and so many words beside it.
fn repeated(arena: Vec<u16>, out: usize, call: Call) -> Repeated {
    Repeated {
        words: Words::new(arena, out),
        call,
        repeats: REPEATS,
    }
}

/// Layings of a fresh arena.
pub fn inits(nodes: u16) -> Repeated {
    let init = Call::Init(WORKERS, nodes);
    repeated(vec![0; fresh(nodes).len()], 0, init)
}

/// Snapshots of a full chain.
pub fn snapshots(nodes: u16) -> Repeated {
    repeated(full(nodes), (nodes - 2).into(), Call::Snapshot)
}

/// Searches of a full chain.
pub fn searches(nodes: u16) -> Repeated {
    repeated(full(nodes), 0, Call::FindFree)
}

/// Readings of the count of a full chain.
pub fn counts(nodes: u16) -> Repeated {
    repeated(full(nodes), 0, Call::Stored)
}

/// Searches for the longest free run of all cells, where so many labels are spread over them, most of
/// them ending before the next one begins.
pub fn free_runs(labels: u16) -> Repeated {
    let mut rng = Rng::new(SEED, 3);
    let last_cell = 65_534;
    let step = last_cell / labels;
    let label = |place| {
        let key = 1 + place * step;
        let length = rng.word(1, step + step / 4).min(TAIL_KEY - key);
        Label { key, length }
    };
    let arena = with_labels(MAX_NODES, (0..labels).map(label));
    repeated(arena, 0, Call::LongestFreeRun(last_cell))
}

/// One for each node of the largest arena.
fn some_lengths() -> Vec<u16> {
    let mut rng = Rng::new(SEED, 4);
    (0..MAX_NODES).map(|_| rng.word(1, 60)).collect()
}

/// The arena of layout 2 with so many labels of length 1, and the same in layout 1.
fn in_both_layouts(labels: u16) -> [Vec<u16>; 2] {
    let label = |place| Label {
        key: 2 * place,
        length: 1,
    };
    let new = with_labels(MAX_NODES, (1..=labels).map(label));
    let mut old = vec![0; shape_of(&new).in_layout::<LAYOUT_1>().total()];
    to_layout_1(&new, &mut old).expect("labels of length 1");
    [old, new]
}

/// Conversions of an arena of layout 1 with so many labels, each with a length of its own.
pub fn to_layout_2_of(labels: u16) -> Repeated {
    let [old, new] = in_both_layouts(labels);
    let mut repeated = repeated(old, new.len(), Call::ToLayout2);
    repeated.words.lengths = some_lengths();
    repeated
}

/// Conversions of an arena of layout 2 with so many labels.
pub fn to_layout_1_of(labels: u16) -> Repeated {
    let [old, new] = in_both_layouts(labels);
    repeated(new, old.len(), Call::ToLayout1)
}
