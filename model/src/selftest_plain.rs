//! The plain run beside the one that is written for checking.

use std::ops::RangeInclusive;

use crate::arena::*;
use crate::plain;
use crate::plain::{CALL_WORDS, WAIT_WORDS};
use crate::rng::Rng;
use crate::run::{run_traced, Call, Room, Trace, ENTRY_WORDS, MAX_SCHEDULE_WORDS};
use crate::selftest::Checks;

const INPUTS: u64 = 500;
/// Lent words hold this before, so that a word written without need shows.
const UNTOUCHED: u16 = 9_999;

struct Input {
    workers: u16,
    nodes: u16,
    arena_words: usize,
    schedule: Vec<u16>,
    history_words: usize,
    waits_words: usize,
}

/// A whole number that is mostly good, and else one from a short list.
fn mostly(rng: &mut Rng, good: u16, others: &[u16]) -> u16 {
    if rng.chance(97) {
        good
    } else {
        *rng.pick(others)
    }
}

/// Few keys, and every other worker slow and mostly looking up: it is overtaken by whole calls of
/// the others.
fn random_schedule(rng: &mut Rng, workers: u16) -> Vec<u16> {
    let entries = rng.index(2_000);
    let keys = rng.word(1, 4);
    let mut schedule = Vec::new();
    while schedule.len() < ENTRY_WORDS * entries {
        let worker = rng.word(0, workers - 1);
        let is_slow = worker % 2 == 1;
        let worker = mostly(rng, worker, &[workers, 65_535]);
        if rng.chance(60) {
            let looks_up = rng.chance(if is_slow { 80 } else { 10 });
            let operation = if looks_up {
                CONTAINS
            } else {
                rng.word(ADD, REMOVE)
            };
            let key = rng.word(1, keys);
            schedule.push(worker);
            schedule.push(mostly(rng, operation, &[4, 65_535]));
            schedule.push(mostly(rng, key, &[0, 65_534, 65_535]));
            let length = if operation == ADD { rng.word(1, 9) } else { 0 };
            schedule.push(mostly(rng, length, &[0, 1, 65_535 - key, 65_535]));
        }
        for _ in 0..rng.word(1, if is_slow { 2 } else { 35 }) {
            schedule.extend([worker, 0, rng.word(0, 65_535), rng.word(0, 65_535)]);
        }
    }
    schedule
}

fn random_input(rng: &mut Rng) -> Input {
    let workers = rng.word(1, MAX_WORKERS);
    let nodes = rng.word(3, 9);
    let mut schedule = random_schedule(rng, workers);
    if rng.chance(2) {
        schedule.resize(MAX_SCHEDULE_WORDS + ENTRY_WORDS, 0);
    }
    let history_words = row_words(rng, &schedule, ADD..=CONTAINS, CALL_WORDS);
    let waits_words = row_words(rng, &schedule, 0..=0, WAIT_WORDS);
    let missing_words = if rng.chance(3) { 4 } else { 0 };
    if rng.chance(3) {
        schedule.resize(schedule.len() + 1 + rng.index(3), 0);
    }
    let shape = Shape::new(workers, nodes).expect("a good shape");
    Input {
        workers: mostly(rng, workers, &[0, 9, 65_535]),
        nodes: mostly(rng, nodes, &[0, 2, 1_025, 65_535]),
        arena_words: shape.total() + rng.index(4) - missing_words,
        schedule,
        history_words,
        waits_words,
    }
}

/// Words of a row with a record for each entry with such an act: now and then more, or one too few.
fn row_words(
    rng: &mut Rng,
    schedule: &[u16],
    acts: RangeInclusive<u16>,
    record_words: usize,
) -> usize {
    let entries = schedule.chunks(ENTRY_WORDS);
    let needed = entries.filter(|entry| acts.contains(&entry[1])).count();
    let spare = *rng.pick(&[0, 1, 5]);
    let missing = usize::from(rng.chance(5));
    let records = (needed + spare).saturating_sub(missing);
    record_words * records + rng.index(record_words)
}

fn call_words(call: &Call) -> [u16; CALL_WORDS] {
    [
        call.worker,
        call.operation,
        call.key,
        call.start,
        call.point,
        call.finish,
        call.answer,
    ]
}

/// What the inputs are meant to meet.
#[derive(Default)]
struct Met {
    refusals: [u32; 11],
    /// Look-ups that answer no since their key was taken out while they ran.
    overtaken: u32,
    /// Those of them whose key was back when they answered.
    overtaken_twice: u32,
    waits: usize,
    refused_lengths: u32,
}

impl Met {
    fn note(&mut self, trace: &Trace) {
        self.waits += trace.waits.len();
        self.refused_lengths += trace.refused_lengths;
        for (call, decided) in trace.calls.iter().zip(&trace.decided) {
            if call.is_contains_no() && call.point > call.start {
                self.overtaken += 1;
                let set = &trace.sets[*decided as usize];
                self.overtaken_twice += u32::from(length_in(set, call.key).is_some());
            }
        }
    }
}

/// True if both runs answer and write the same.
fn same_run(input: &Input, met: &mut Met) -> bool {
    let mut lent = Lent::new(input);
    let mut expected = Lent::new(input);
    let room = Room {
        calls: input.history_words / CALL_WORDS,
        waits: input.waits_words / WAIT_WORDS,
    };
    let (workers, nodes, schedule) = (input.workers, input.nodes, &input.schedule);
    let traced = run_traced(&mut expected.arena, workers, nodes, schedule, room);
    let Lent {
        arena,
        history,
        waits,
    } = &mut lent;
    let answer = plain::run(arena, workers, nodes, schedule, history, waits);
    match &traced {
        Err(number) => met.refusals[*number as usize] += 1,
        Ok(trace) => {
            met.note(trace);
            expected.write(trace);
        }
    }
    answer == traced.map(|trace| trace.totals) && lent == expected
}

/// The words that a run is lent.
#[derive(PartialEq, Eq)]
struct Lent {
    arena: Vec<u16>,
    history: Vec<u16>,
    waits: Vec<u16>,
}

impl Lent {
    fn new(input: &Input) -> Lent {
        Lent {
            arena: vec![UNTOUCHED; input.arena_words],
            history: vec![UNTOUCHED; input.history_words],
            waits: vec![UNTOUCHED; input.waits_words],
        }
    }

    fn write(&mut self, trace: &Trace) {
        for (words, call) in self.history.chunks_mut(CALL_WORDS).zip(&trace.calls) {
            words.copy_from_slice(&call_words(call));
        }
        for (words, wait) in self.waits.chunks_mut(WAIT_WORDS).zip(&trace.waits) {
            words.copy_from_slice(&wait.words());
        }
    }
}

pub fn plain_runs(checks: &mut Checks) {
    let mut met = Met::default();
    for number in 0..INPUTS {
        let mut rng = Rng::new(11, number);
        let input = random_input(&mut rng);
        checks.check("plain run as traced run", same_run(&input, &mut met));
    }
    for refusal in [SHORT_ARENA, NO_ROOM, BAD_SCHEDULE, BAD_COUNTS] {
        let seen = met.refusals[refusal as usize];
        checks.check("plain run meets each refusal", seen > 0);
    }
    checks.check("plain run meets overtaken look-ups", met.overtaken > 100);
    checks.check("and with the key back", met.overtaken_twice > 10);
    checks.check("plain run meets waits", met.waits > 10_000);
    checks.check("plain run meets bad lengths", met.refused_lengths > 100);
}
