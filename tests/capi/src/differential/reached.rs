//! Arenas that concurrent use leads to: a fresh one, and then starts and turns by the model.

use model::arena::*;
use model::rng::Rng;
use model::turn::turn;

use super::placed::{fresh, words_past_total};

/// An arena in use. Every state that it goes through is an arena to compare on.
#[derive(Default)]
pub struct Reached {
    pub words: Vec<u16>,
    shape: Shape,
    /// Keys of calls are mostly 1 to this one.
    keys: u16,
    longest_burst: u64,
    /// The worker whose turn it is, and for how many entries still.
    worker: u16,
    burst_left: u64,
    /// After so many entries it is time for another fresh arena.
    entries_left: u64,
}

impl Reached {
    pub fn is_used_up(&self) -> bool {
        self.entries_left == 0
    }

    /// Few nodes and few keys, so that workers meet, wait, begin again and find no node free.
    pub fn small(rng: &mut Rng) -> Reached {
        let shape = Shape {
            workers: *rng.pick(&[1, 2, 2, 3, 3, 4, 5, 8]),
            nodes: rng.word(3, 8),
        };
        let mut reached = Reached {
            shape,
            keys: rng.word(1, 5),
            longest_burst: *rng.pick(&[1, 3, 8, 16]),
            entries_left: rng.range(50, 600),
            ..Reached::default()
        };
        fresh(shape, &mut reached.words);
        words_past_total(rng, &mut reached.words);
        reached
    }

    /// A long chain, which adds have built from its far end since that takes the fewest turns.
    pub fn large(rng: &mut Rng) -> Reached {
        let shape = Shape {
            workers: *rng.pick(&[2, 3, 8, 8]),
            nodes: *rng.pick(&[64, 200, 512, 1_023, 1_024, 1_024, 1_024]),
        };
        let all = shape.nodes - 2;
        let chain = *rng.pick(&[all, all, all - 1, all / 2, 20]);
        let step = rng.word(1, 64);
        let mut reached = Reached {
            shape,
            keys: 5 * step,
            longest_burst: 40,
            entries_left: u64::MAX,
            ..Reached::default()
        };
        fresh(shape, &mut reached.words);
        for place in (1..=chain).rev() {
            reached.whole_add(place * step);
        }
        words_past_total(rng, &mut reached.words);
        reached
    }

    /// An add by worker 0, alone, up to its finish: below the first key it takes 14 turns.
    fn whole_add(&mut self, key: u16) {
        let length = 1 + key % 9;
        start(&mut self.words, 0, ADD, key, length).expect("worker 0 is idle");
        for _ in 0..14 {
            turn(&mut self.words, 0).expect("no turn from a fresh arena is refused");
        }
    }

    /// Makes one entry: a start if the worker is idle, else a turn. None of them should be refused;
    /// the comparison that follows would tell.
    pub fn entry(&mut self, rng: &mut Rng) {
        if self.burst_left == 0 {
            self.worker = rng.word(0, self.shape.workers - 1);
            self.burst_left = rng.range(1, self.longest_burst);
        }
        self.burst_left -= 1;
        self.entries_left -= 1;
        let at = self.shape.worker_at(self.worker);
        if self.words[at + STAGE] == 0 {
            let operation = *rng.pick(&[ADD, ADD, ADD, ADD, REMOVE, REMOVE, REMOVE, CONTAINS]);
            let key = match rng.range(0, 39) {
                0 => 65_534,
                _ => rng.word(1, self.keys),
            };
            // Mostly so short that some cells between labels are left.
            let most = if rng.chance(75) {
                self.keys + 1
            } else {
                TAIL_KEY
            };
            let length = match operation {
                ADD => rng.word(1, most.min(TAIL_KEY - key)),
                _ => 0,
            };
            let _ = start(&mut self.words, self.worker, operation, key, length);
        } else {
            let _ = turn(&mut self.words, self.worker);
        }
    }
}
