//! Runs of schedules: totals, history and, for the checks, everything seen on the way.

use crate::arena::*;
use crate::turn::{turn, Answer, Report};

/// Words of an entry: worker, act, key, length.
pub const ENTRY_WORDS: usize = 4;
pub const MAX_SCHEDULE_WORDS: usize = 16_000;

/// One call record of the history; 0 where a point, finish or answer is not reached. The length is
/// no part of the record: it is kept for the sequential set.
#[derive(Clone, Copy, Debug, Default, PartialEq, Eq)]
pub struct Call {
    pub worker: u16,
    pub operation: u16,
    pub key: u16,
    pub length: u16,
    pub start: u16,
    pub point: u16,
    pub finish: u16,
    pub answer: u16,
}

impl Call {
    /// Contains calls with this answer have their point fixed by looking back.
    pub fn is_contains_no(&self) -> bool {
        self.operation == CONTAINS && self.answer == Answer::No.number()
    }

    /// What the sequential set is fed besides the operation.
    pub fn label(&self) -> Label {
        Label {
            key: self.key,
            length: self.length,
        }
    }
}

/// One record of the waits: the turn at `time` waited for `node`, which `worker` owns.
#[derive(Clone, Copy, Debug, PartialEq, Eq)]
pub struct Wait {
    /// The number of the waiting worker's open call, from 0 in order of start.
    pub call: u16,
    pub time: u16,
    pub node: u16,
    pub worker: u16,
}

impl Wait {
    /// As they stand in the second row.
    pub fn words(self) -> [u16; 4] {
        [self.call, self.time, self.node, self.worker]
    }
}

/// How many records the two lent rows hold.
#[derive(Clone, Copy, Debug)]
pub struct Room {
    pub calls: usize,
    pub waits: usize,
}

impl Room {
    /// Whether a schedule fits: a record for each entry with act 1 to 3 and one for each turn,
    /// refused or not.
    pub fn is_enough(self, schedule: &[u16]) -> bool {
        let acts = || schedule.chunks(ENTRY_WORDS).map(|entry| entry[1]);
        let starts = acts().filter(|act| (ADD..=CONTAINS).contains(act)).count();
        let turns = acts().filter(|&act| act == 0).count();
        starts <= self.calls && turns <= self.waits
    }
}

#[derive(Clone, Copy, Debug, Default, PartialEq, Eq)]
pub struct Totals {
    pub entries: u16,
    pub refused: u16,
    pub waits: u16,
    pub calls: u16,
}

/// A run with all that the checks and the table want to know of it.
#[derive(Debug, Default)]
pub struct Trace {
    pub shape: Shape,
    pub totals: Totals,
    pub calls: Vec<Call>,
    /// In order of time.
    pub waits: Vec<Wait>,
    /// The worker that each entry names; the first is that of time 1.
    pub entry_workers: Vec<u16>,
    /// Per call the time of the turn that decided its answer, or 0.
    pub decided: Vec<u16>,
    /// Per call the answer that its worker reported at its finish, or 0.
    pub told: Vec<u16>,
    /// The set at every time (document 01: moment); time 0 is the fresh arena.
    pub sets: Vec<Vec<Label>>,
    /// The header's count at every time.
    pub counts: Vec<u16>,
    /// Refused entries by refusal number.
    pub refusals: [u32; BROKEN_COUNT as usize + 1],
    /// Starts refused for their length alone.
    pub refused_lengths: u32,
    /// Turns at stage 11.
    pub retries: u32,
    /// Nodes taken again by an add after an earlier add had taken them.
    pub reused_nodes: u32,
    /// Nodes marked and still on the chain at the end: a remove has marked each and not unlinked it.
    pub half_removed: u32,
    /// Per worker its unfinished call, as a place in `calls`.
    current: [Option<usize>; MAX_WORKERS as usize],
    taken_nodes: Vec<u16>,
}

/// Runs a schedule on an arena that it inits itself. Refusals 10, 9, 1, 8.
pub fn run_traced(
    arena: &mut [u16],
    workers: u16,
    nodes: u16,
    schedule: &[u16],
    room: Room,
) -> Result<Trace, u16> {
    let shape = Shape::new(workers, nodes).ok_or(BAD_COUNTS)?;
    if !schedule.len().is_multiple_of(ENTRY_WORDS) || schedule.len() > MAX_SCHEDULE_WORDS {
        return Err(BAD_SCHEDULE);
    }
    if arena.len() < shape.total() {
        return Err(SHORT_ARENA);
    }
    if !room.is_enough(schedule) {
        return Err(NO_ROOM);
    }
    init(arena, workers, nodes)?;
    let mut trace = Trace {
        shape,
        ..Trace::default()
    };
    trace.keep(arena);
    for entry in schedule.chunks(ENTRY_WORDS) {
        trace.entry(arena, entry);
    }
    Ok(trace)
}

impl Trace {
    fn entry(&mut self, arena: &mut [u16], entry: &[u16]) {
        let (worker, act) = (entry[0], entry[1]);
        self.totals.entries += 1;
        self.entry_workers.push(worker);
        let done = if act == 0 {
            self.turn_entry(arena, worker)
        } else {
            self.start_entry(arena, worker, act, entry[2], entry[3])
        };
        if let Err(number) = done {
            self.totals.refused += 1;
            self.refusals[number as usize] += 1;
            self.keep(arena);
        }
    }

    /// Keeps what is stored at this time, for looking back.
    fn keep(&mut self, arena: &[u16]) {
        self.sets.push(set(arena));
        self.counts.push(arena[COUNT]);
    }

    /// The number of entries made so far.
    fn time(&self) -> u16 {
        self.totals.entries
    }

    fn start_entry(
        &mut self,
        arena: &mut [u16],
        worker: u16,
        operation: u16,
        key: u16,
        length: u16,
    ) -> Result<(), u16> {
        let started = start(arena, worker, operation, key, length);
        let has_good_key = (ADD..=CONTAINS).contains(&operation) && is_call_key(key);
        if started == Err(BAD_CALL) && has_good_key {
            self.refused_lengths += 1;
        }
        started?;
        self.keep(arena);
        self.totals.calls += 1;
        self.current[worker as usize] = Some(self.calls.len());
        self.calls.push(Call {
            worker,
            operation,
            key,
            length,
            start: self.time(),
            ..Call::default()
        });
        self.decided.push(0);
        self.told.push(0);
        Ok(())
    }

    fn turn_entry(&mut self, arena: &mut [u16], worker: u16) -> Result<(), u16> {
        let shape = self.shape;
        let stage_before = if worker < shape.workers {
            arena[shape.worker_at(worker) + STAGE]
        } else {
            0
        };
        let report = turn(arena, worker)?;
        self.keep(arena);
        self.totals.waits += u16::from(matches!(report, Report::Waits { .. }));
        match (report, self.current[worker as usize]) {
            (Report::Waits { node, worker }, Some(call)) => self.waits.push(Wait {
                call: call as u16,
                time: self.time(),
                node,
                worker,
            }),
            (Report::Finished(answer), Some(call)) => {
                self.calls[call].finish = self.time();
                self.told[call] = answer.number();
                self.current[worker as usize] = None;
            }
            (Report::Moved(_), Some(call)) => {
                let at = shape.worker_at(worker);
                let record = &arena[at..at + WORKER_WORDS];
                self.settle(call, stage_before, record[ANSWER]);
                self.note(stage_before, record);
            }
            _ => {}
        }
        Ok(())
    }

    /// Gives the call its answer and point if this turn decides them.
    fn settle(&mut self, call: usize, stage_before: u16, answer: u16) {
        let time = self.time();
        let point = match (stage_before, Answer::from_number(answer)) {
            (13, Some(Answer::No)) | (14, Some(Answer::Full)) => time,
            (15 | 16 | 25, Some(Answer::Yes)) => time,
            (23 | 25, Some(Answer::No)) => {
                let Call { start, key, .. } = self.calls[call];
                self.first_absent(key, start, time)
            }
            _ => return,
        };
        self.calls[call].point = point;
        self.calls[call].answer = answer;
        self.decided[call] = time;
    }

    /// The first time from `start` on at which the key is not in the set. Document 01 implies that
    /// there is one; 0 otherwise, which the checks of the history would refuse.
    fn first_absent(&self, key: u16, start: u16, now: u16) -> u16 {
        (start..=now)
            .find(|&time| length_in(&self.sets[time as usize], key).is_none())
            .unwrap_or(0)
    }

    /// Counts for the table alone.
    fn note(&mut self, stage_before: u16, record: &[u16]) {
        if stage_before == 11 {
            self.retries += 1;
        }
        if stage_before == 14 && record[STAGE] == 15 {
            let node = record[SPARE];
            if self.taken_nodes.contains(&node) {
                self.reused_nodes += 1;
            }
            self.taken_nodes.push(node);
        }
        match stage_before {
            16 => self.half_removed += 1,
            18 => self.half_removed -= 1,
            _ => {}
        }
    }
}
