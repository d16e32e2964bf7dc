//! Arenas and schedules for all sides, made with the model and from fixed seeds.

mod arenas;
pub mod calls;
pub mod days;
pub mod runs;
pub mod turns;

use model::arena::*;
use model::rng::Rng;
use model::turn::{turn, Answer, Report};

use crate::benchmark::workloads::{Entry, WholeCall};
use crate::library::Start;

const SEED: u64 = 5;
const WORKERS: u16 = MAX_WORKERS;
/// Entries of a pass, in runs too: too many for a processor to learn by heart.
const MANY_ENTRIES: usize = 64_000;
const REPEATS: usize = 1_000;

/// A label's length where none is wanted in particular: one that every key may have.
const LENGTH: u16 = 1;

/// Starts a call on an idle worker.
fn start_on(arena: &mut [u16], worker: u16, operation: u16, key: u16) -> Start {
    let length = if operation == ADD { LENGTH } else { 0 };
    start(arena, worker, operation, key, length).expect("an idle worker and a good call");
    Start {
        operation,
        key,
        length,
    }
}

/// Makes a call from its start to its finish.
fn whole_call(arena: &mut [u16], worker: u16, operation: u16, key: u16) -> (WholeCall, Answer) {
    let start = start_on(arena, worker, operation, key);
    for turns in 1.. {
        if let Report::Finished(answer) = turn(arena, worker).expect("a sound arena") {
            let call = WholeCall {
                worker,
                start,
                turns,
            };
            return (call, answer);
        }
    }
    unreachable!("nobody is in its way");
}

/// Deals entries to random workers and makes them: an idle worker gets a call, any other a turn. So
/// none is refused. A worker that waits is mostly passed over, or a fresh arena, where all calls
/// meet at Head, would see little else.
fn deal(
    arena: &mut [u16],
    rng: &mut Rng,
    count: usize,
    call: impl Fn(&mut Rng) -> (u16, u16),
) -> Vec<Entry> {
    let shape = arenas::shape_of(arena);
    let mut entries = Vec::with_capacity(count);
    while entries.len() < count {
        let worker = rng.word(0, WORKERS - 1);
        if arena[shape.worker_at(worker) + STAGE] == 0 {
            let (operation, key) = call(rng);
            let start = start_on(arena, worker, operation, key);
            entries.push([worker, operation, key, start.length]);
        } else {
            let report = turn(arena, worker).expect("a sound arena");
            if !matches!(report, Report::Waits { .. }) || rng.chance(10) {
                entries.push([worker, 0, 0, 0]);
            }
        }
    }
    entries
}

/// A call with any key up to the greatest one; half of them look up.
fn any_call(greatest_key: u16) -> impl Fn(&mut Rng) -> (u16, u16) {
    move |rng| {
        let operation = *rng.pick(&[ADD, REMOVE, CONTAINS, CONTAINS]);
        (operation, rng.word(1, greatest_key))
    }
}
