//! The C side: start and turn as C would have them, behind the same interface as the proved library.

use crate::library::{Library, Model, Run, Start};

mod c {
    extern "C" {
        pub fn plain_list_start(
            words: *mut u16,
            length: usize,
            worker: u16,
            operation: u16,
            key: u16,
            label_length: u16,
        ) -> u64;
        pub fn plain_list_turn(words: *mut u16, length: usize, worker: u16) -> u64;
    }
}

/// The files in c/. For the calls that they have not the model stands in, so that this is a library.
pub struct PlainC;

impl Library for PlainC {
    fn init(&self, arena: &mut [u16], workers: u16, nodes: u16) -> u64 {
        Model.init(arena, workers, nodes)
    }

    fn start(&self, arena: &mut [u16], worker: u16, call: Start) -> u64 {
        let (words, length) = (arena.as_mut_ptr(), arena.len());
        let Start {
            operation,
            key,
            length: label_length,
        } = call;
        unsafe { c::plain_list_start(words, length, worker, operation, key, label_length) }
    }

    fn turn(&self, arena: &mut [u16], worker: u16) -> u64 {
        unsafe { c::plain_list_turn(arena.as_mut_ptr(), arena.len(), worker) }
    }

    fn snapshot(&self, arena: &[u16], keys: &mut [u16]) -> u64 {
        Model.snapshot(arena, keys)
    }

    fn find_free(&self, arena: &[u16]) -> u64 {
        Model.find_free(arena)
    }

    fn longest_free_run(&self, arena: &[u16], last_cell: u16) -> u64 {
        Model.longest_free_run(arena, last_cell)
    }

    fn stored(&self, arena: &[u16]) -> u64 {
        Model.stored(arena)
    }

    fn to_layout_2(&self, source: &mut [u16], lengths: &mut [u16], target: &mut [u16]) -> u64 {
        Model.to_layout_2(source, lengths, target)
    }

    fn to_layout_1(&self, source: &mut [u16], target: &mut [u16]) -> u64 {
        Model.to_layout_1(source, target)
    }

    fn run(&self, run: Run) -> u64 {
        Model.run(run)
    }
}

#[cfg(test)]
mod tests {
    use super::*;
    use crate::differential::Comparison;

    /// On arenas of every kind, sound and damaged.
    #[test]
    fn does_what_the_model_does() {
        let comparison = Comparison {
            library: &PlainC,
            seed: 1,
            count: 100_000,
        };
        let tally = comparison.run();
        tally.print_mismatches();
        assert_eq!(tally.failed, 0);
    }
}
