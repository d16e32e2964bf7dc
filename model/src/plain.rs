//! The run of a schedule as it would be written for use and not for checking: nothing is allocated,
//! and no set is kept for looking back. The benchmark holds the proved library against it; the self
//! test holds it against the traced run.

use crate::arena::*;
use crate::run::{Totals, ENTRY_WORDS, MAX_SCHEDULE_WORDS};
use crate::turn::{turn, Answer, Report};

/// Words of a call in the history: worker, operation, key, start, point, finish, answer.
pub const CALL_WORDS: usize = 7;
/// Words of a wait: the call's number, time, node, the worker in the way.
pub const WAIT_WORDS: usize = 4;

// Places of the words of a call that are not known at its start.
const POINT: usize = 4;
const FINISH: usize = 5;
const CALL_ANSWER: usize = 6;

/// Runs a schedule on an arena that it inits itself; history and waits are in flat
/// words, and words past their records stay. Refusals 10, 9, 1, 8.
pub fn run(
    arena: &mut [u16],
    workers: u16,
    nodes: u16,
    schedule: &[u16],
    history: &mut [u16],
    waits: &mut [u16],
) -> Result<Totals, u16> {
    let shape = Shape::new(workers, nodes).ok_or(BAD_COUNTS)?;
    if !schedule.len().is_multiple_of(ENTRY_WORDS) || schedule.len() > MAX_SCHEDULE_WORDS {
        return Err(BAD_SCHEDULE);
    }
    if arena.len() < shape.total() {
        return Err(SHORT_ARENA);
    }
    let (starts, turns) = count_acts(schedule);
    if starts > history.len() / CALL_WORDS || turns > waits.len() / WAIT_WORDS {
        return Err(NO_ROOM);
    }
    init(arena, workers, nodes)?;
    let mut run = Run {
        arena,
        shape,
        history,
        waits,
        totals: Totals::default(),
        open: [OpenCall::default(); MAX_WORKERS as usize],
    };
    for entry in schedule.chunks_exact(ENTRY_WORDS) {
        run.entry(entry);
    }
    Ok(run.totals)
}

/// How many entries have an operation, and how many are turns.
fn count_acts(schedule: &[u16]) -> (usize, usize) {
    let (mut starts, mut turns) = (0, 0);
    for entry in schedule.chunks_exact(ENTRY_WORDS) {
        match entry[1] {
            0 => turns += 1,
            ADD..=CONTAINS => starts += 1,
            _ => {}
        }
    }
    (starts, turns)
}

/// What is kept of a worker's call beside its record in the arena.
#[derive(Clone, Copy, Default)]
struct OpenCall {
    /// Calls are numbered from 0 in order of start.
    number: u16,
    /// Of a contains, the first time at which its key was absent, or 0 up to then.
    absent: u16,
}

impl OpenCall {
    /// Where its words begin in the history.
    fn at(self) -> usize {
        CALL_WORDS * self.number as usize
    }
}

struct Run<'a> {
    arena: &'a mut [u16],
    shape: Shape,
    history: &'a mut [u16],
    waits: &'a mut [u16],
    totals: Totals,
    /// Only a worker that is not idle has an open call; what stands here for others is old.
    open: [OpenCall; MAX_WORKERS as usize],
}

impl Run<'_> {
    fn entry(&mut self, entry: &[u16]) {
        let (worker, act) = (entry[0], entry[1]);
        self.totals.entries += 1;
        let done = if act == 0 {
            self.turn_entry(worker)
        } else {
            self.start_entry(worker, act, entry[2], entry[3])
        };
        if done.is_err() {
            self.totals.refused += 1;
        }
    }

    /// The number of entries made so far.
    fn time(&self) -> u16 {
        self.totals.entries
    }

    fn start_entry(
        &mut self,
        worker: u16,
        operation: u16,
        key: u16,
        length: u16,
    ) -> Result<(), u16> {
        start(self.arena, worker, operation, key, length)?;
        let time = self.time();
        let misses = operation == CONTAINS && !self.is_present(key);
        let call = OpenCall {
            number: self.totals.calls,
            absent: if misses { time } else { 0 },
        };
        let words = [worker, operation, key, time, 0, 0, 0];
        self.history[call.at()..][..CALL_WORDS].copy_from_slice(&words);
        self.totals.calls += 1;
        self.open[worker as usize] = call;
        Ok(())
    }

    fn turn_entry(&mut self, worker: u16) -> Result<(), u16> {
        if worker >= self.shape.workers {
            return Err(NO_SUCH_WORKER);
        }
        let stage = self.arena[self.shape.worker_at(worker) + STAGE];
        match turn(self.arena, worker)? {
            Report::Idle => {}
            Report::Waits {
                node,
                worker: owner,
            } => self.waited(worker, node, owner),
            Report::Moved(to) => self.moved(worker, stage, to),
            Report::Finished(_) => {
                let call = self.open[worker as usize].at();
                self.history[call + FINISH] = self.time();
            }
        }
        Ok(())
    }

    fn waited(&mut self, worker: u16, node: u16, owner: u16) {
        let at = WAIT_WORDS * self.totals.waits as usize;
        let words = [self.open[worker as usize].number, self.time(), node, owner];
        self.waits[at..at + WAIT_WORDS].copy_from_slice(&words);
        self.totals.waits += 1;
    }

    /// Where the move shows that an answer was decided, the call gets its point and answer.
    fn moved(&mut self, worker: u16, stage: u16, to: u16) {
        if !matches!((stage, to), (13..=15, 19) | (16, 17) | (23 | 25, 21)) {
            return;
        }
        let at = self.shape.worker_at(worker);
        let answer = self.arena[at + ANSWER];
        if stage == 16 {
            self.miss(self.arena[at + CALL_KEY]);
        }
        let call = self.open[worker as usize];
        let looks_back = stage >= 23 && answer == Answer::No.number();
        let point = if looks_back { call.absent } else { self.time() };
        self.history[call.at() + POINT] = point;
        self.history[call.at() + CALL_ANSWER] = answer;
    }

    /// The key has just left the set: an open contains that has not missed it yet misses it now.
    fn miss(&mut self, key: u16) {
        let time = self.time();
        for worker in 0..self.shape.workers {
            let at = self.shape.worker_at(worker);
            let looks_for_it =
                self.arena[at + OPERATION] == CONTAINS && self.arena[at + CALL_KEY] == key;
            let call = &mut self.open[worker as usize];
            if looks_for_it && call.absent == 0 {
                call.absent = time;
            }
        }
    }

    /// Keys rise along the chain from Head's, below every call's key, to Tail's, above it.
    fn is_present(&self, key: u16) -> bool {
        let mut at = self.shape.node_at(HEAD);
        while self.arena[at + KEY] < key {
            at = self.shape.node_at(self.arena[at + NEXT]);
        }
        self.arena[at + KEY] == key && self.arena[at + MARK] == 0
    }
}
