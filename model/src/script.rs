//! Writes an input line by line and plays it at the same time, so that the generator knows which
//! workers are busy.

use crate::arena::*;
use crate::bench::{MAX_BYTES, MAX_ENTRIES};
use crate::rng::Rng;
use crate::turn::{turn, Report};

pub struct Script {
    pub text: String,
    pub entries: usize,
    pub starts: usize,
    pub shape: Shape,
    arena: Vec<u16>,
}

impl Script {
    /// For good counts only.
    pub fn new(workers: u16, nodes: u16) -> Script {
        let shape = Shape::new(workers, nodes).expect("good counts");
        let mut arena = vec![0; shape.total()];
        init(&mut arena, workers, nodes).expect("words enough");
        Script {
            text: format!("board {workers} {nodes}\n"),
            entries: 0,
            starts: 0,
            shape,
            arena,
        }
    }

    pub fn into_bytes(self) -> Vec<u8> {
        self.text.into_bytes()
    }

    /// Whether a few more lines fit into the limits of the bench.
    pub fn has_room(&self) -> bool {
        self.entries + 1 < MAX_ENTRIES && self.text.len() + 64 < MAX_BYTES
    }

    pub fn entries_left(&self) -> usize {
        MAX_ENTRIES.saturating_sub(self.entries)
    }

    /// An add gets a length that a good key may have: short, since an input has few bytes, and
    /// mostly another one than the add before.
    pub fn start(&mut self, worker: u16, operation: u16, key: u16) {
        let word = match operation {
            ADD => {
                let length = 1 + self.starts as u16 % 9;
                return self.add(worker, key, length.min(TAIL_KEY - key));
            }
            REMOVE => "remove",
            _ => "contains",
        };
        self.text.push_str(&format!("{word} {worker} {key}\n"));
        self.play_start(worker, operation, key, 0);
    }

    /// An add of any length.
    pub fn add(&mut self, worker: u16, key: u16, length: u16) {
        self.text
            .push_str(&format!("add {worker} {key} {length}\n"));
        self.play_start(worker, ADD, key, length);
    }

    fn play_start(&mut self, worker: u16, operation: u16, key: u16, length: u16) {
        // A refused start is wanted in the input too.
        let _ = start(&mut self.arena, worker, operation, key, length);
        self.entries += 1;
        self.starts += 1;
    }

    pub fn turns(&mut self, worker: u16, count: usize) {
        self.text.push_str(&format!("turn {worker} {count}\n"));
        for _ in 0..count {
            let _ = turn(&mut self.arena, worker);
        }
        self.entries += count;
    }

    /// As many turns as fit, at most `count`.
    pub fn turns_that_fit(&mut self, worker: u16, count: usize) {
        let count = count.min(self.entries_left());
        if count > 0 {
            self.turns(worker, count);
        }
    }

    pub fn is_idle(&self, worker: u16) -> bool {
        self.stage(worker) == 0
    }

    pub fn stage(&self, worker: u16) -> u16 {
        self.arena[self.shape.worker_at(worker) + STAGE]
    }

    /// Turns until the worker's call is over, or until it waits.
    pub fn finish(&mut self, worker: u16) {
        self.advance(worker, 0);
    }

    /// Turns until the worker comes to a stage, or until it waits or is idle.
    pub fn advance(&mut self, worker: u16, stage: u16) {
        let mut ahead = self.arena.clone();
        let mut count = 0;
        while count < MAX_ENTRIES && ahead[self.shape.worker_at(worker) + STAGE] != stage {
            match turn(&mut ahead, worker) {
                Ok(Report::Moved(_) | Report::Finished(_)) => count += 1,
                _ => break,
            }
        }
        self.turns_that_fit(worker, count);
    }

    pub fn whole_call(&mut self, worker: u16, operation: u16, key: u16) {
        self.start(worker, operation, key);
        self.finish(worker);
    }
}

/// How random lines are drawn.
pub struct Style {
    pub keys: u16,
    /// Longest run of turns in one line.
    pub burst: u64,
    /// Percentage of entries that are to be refused or pointless.
    pub odd: u64,
    /// A worker that is seldom given a turn, so that others overtake it.
    pub slow: Option<u16>,
}

impl Style {
    pub fn random_line(&self, rng: &mut Rng, script: &mut Script) {
        if rng.chance(self.odd) {
            return self.odd_line(rng, script);
        }
        let mut worker = rng.word(0, script.shape.workers - 1);
        if Some(worker) == self.slow && !script.is_idle(worker) && rng.chance(80) {
            worker = (worker + 1) % script.shape.workers;
        }
        if script.is_idle(worker) && rng.chance(95) {
            let operation = *rng.pick(&[ADD, ADD, ADD, REMOVE, REMOVE, CONTAINS, CONTAINS]);
            let key = rng.word(1, self.keys);
            script.start(worker, operation, key);
        } else {
            let count = rng.range(1, self.burst) as usize;
            script.turns_that_fit(worker, count);
        }
    }

    /// An entry with a bad worker, a bad key, a length at its limits, or (most likely) a busy
    /// worker.
    fn odd_line(&self, rng: &mut Rng, script: &mut Script) {
        let workers = script.shape.workers;
        let worker = rng.word(0, workers - 1);
        let outside = *rng.pick(&[workers, workers + 1, 8, 65_535]);
        let operation = rng.word(ADD, CONTAINS);
        let key = rng.word(1, self.keys);
        let last_length = TAIL_KEY - key;
        let length = *rng.pick(&[0, last_length, last_length + 1, 65_535]);
        match rng.range(0, 6) {
            0 => script.start(outside, operation, key),
            1 => script.turns_that_fit(outside, 1),
            2 => script.start(worker, operation, 0),
            3 => script.start(worker, operation, 65_535),
            4 => script.add(worker, key, length),
            _ => script.start(worker, operation, key),
        }
    }
}
