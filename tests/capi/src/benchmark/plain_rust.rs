//! The Rust side: what one would write for use, behind the same interface as the proved library.

use model::plain;
use model::plain_convert;
use model::plain_free_run;

use crate::library::{
    free_run_values, nothing_told, number, total_words, Library, Model, Run, Start,
};

/// Calls of the proved library cannot be inlined, so these are not either. Where the model's way is one
/// for use, it is taken: header test, turns and with them the count.
pub struct PlainRust;

impl Library for PlainRust {
    #[inline(never)]
    fn init(&self, arena: &mut [u16], workers: u16, nodes: u16) -> u64 {
        Model.init(arena, workers, nodes)
    }

    #[inline(never)]
    fn start(&self, arena: &mut [u16], worker: u16, call: Start) -> u64 {
        Model.start(arena, worker, call)
    }

    #[inline(never)]
    fn turn(&self, arena: &mut [u16], worker: u16) -> u64 {
        Model.turn(arena, worker)
    }

    #[inline(never)]
    fn snapshot(&self, arena: &[u16], keys: &mut [u16]) -> u64 {
        Model.snapshot(arena, keys)
    }

    #[inline(never)]
    fn find_free(&self, arena: &[u16]) -> u64 {
        Model.find_free(arena)
    }

    /// Not the model's, which marks every cell.
    #[inline(never)]
    fn longest_free_run(&self, arena: &[u16], last_cell: u16) -> u64 {
        number(plain_free_run::longest_free_run(arena, last_cell).map(free_run_values))
    }

    #[inline(never)]
    fn stored(&self, arena: &[u16]) -> u64 {
        Model.stored(arena)
    }

    /// Not the model's, which gathers the set.
    #[inline(never)]
    fn to_layout_2(&self, source: &mut [u16], lengths: &mut [u16], target: &mut [u16]) -> u64 {
        nothing_told(plain_convert::to_layout_2(source, lengths, target))
    }

    /// As the last one.
    #[inline(never)]
    fn to_layout_1(&self, source: &mut [u16], target: &mut [u16]) -> u64 {
        nothing_told(plain_convert::to_layout_1(source, target))
    }

    /// Not the model's, which keeps the set at every time.
    #[inline(never)]
    fn run(&self, run: Run) -> u64 {
        let (workers, nodes) = (run.workers, run.nodes);
        let (schedule, history, waits) = (run.schedule, run.history, run.waits);
        match plain::run(run.arena, workers, nodes, schedule, history, waits) {
            Ok(counts) => {
                *run.totals = total_words(counts);
                0
            }
            Err(refusal) => u64::from(refusal),
        }
    }
}
