//! Runs with one fault each: the model's run, and then some words changed, or its room.

use model::arena::{NO_ROOM, SHORT_ARENA};
use model::run::{run_traced, ENTRY_WORDS};

use crate::library::{Library, Model, Run, CALL_WORDS, WAIT_WORDS};

const ACCEPTED: u64 = 0;

// Places of the totals, of the words of a call and of those of a wait.
const WAITS_TOTAL: usize = 2;
const CALLS_TOTAL: usize = 3;
const WORKER: usize = 0;
const START: usize = 3;
const POINT: usize = 4;
const CALL: usize = 0;
const TIME: usize = 1;
const IN_THE_WAY: usize = 3;

pub fn run_swaps_totals(mut run: Run) -> u64 {
    let reply = Model.run(run.again());
    if reply == ACCEPTED {
        run.totals.swap(WAITS_TOTAL, CALLS_TOTAL);
    }
    reply
}

/// Document 01's trap: by then the key may have been put back.
pub fn run_late_no(mut run: Run) -> u64 {
    let mut copy = run.arena.to_vec();
    let trace = run_traced(&mut copy, run.workers, run.nodes, run.schedule, run.room());
    let reply = Model.run(run.again());
    if let Ok(trace) = trace {
        for (place, call) in trace.calls.iter().enumerate() {
            if call.is_contains_no() {
                run.history[CALL_WORDS * place + POINT] = trace.decided[place];
            }
        }
    }
    reply
}

/// Runs the model, then the fault on each wait; it gets the calls too.
fn change_waits(mut run: Run, fault: impl Fn(&mut [u16], &[&[u16]])) -> u64 {
    let reply = Model.run(run.again());
    if reply == ACCEPTED {
        let calls: Vec<_> = run.history.chunks_exact(CALL_WORDS).collect();
        let calls = &calls[..run.totals[CALLS_TOTAL] as usize];
        let count = run.totals[WAITS_TOTAL] as usize;
        let waits = run.waits.chunks_exact_mut(WAIT_WORDS);
        waits.take(count).for_each(|wait| fault(wait, calls));
    }
    reply
}

pub fn run_next_call(run: Run) -> u64 {
    change_waits(run, |wait, _| wait[CALL] += 1)
}

/// The last call of a worker that had begun by a time.
fn last_call(calls: &[&[u16]], worker: u16, time: u16) -> Option<usize> {
    let has_begun = |call: &&[u16]| call[WORKER] == worker && call[START] < time;
    calls.iter().rposition(has_begun)
}

pub fn run_call_in_the_way(run: Run) -> u64 {
    change_waits(run, |wait, calls| {
        if let Some(call) = last_call(calls, wait[IN_THE_WAY], wait[TIME]) {
            wait[CALL] = call as u16;
        }
    })
}

pub fn run_first_call(run: Run) -> u64 {
    change_waits(run, |wait, calls| {
        let worker = calls[wait[CALL] as usize][WORKER];
        if let Some(first) = calls.iter().position(|call| call[WORKER] == worker) {
            wait[CALL] = first as u16;
        }
    })
}

pub fn run_early_wait(run: Run) -> u64 {
    change_waits(run, |wait, _| wait[TIME] -= 1)
}

pub fn run_waiting_worker(run: Run) -> u64 {
    change_waits(run, |wait, calls| {
        wait[IN_THE_WAY] = calls[wait[CALL] as usize][WORKER];
    })
}

/// As the bench prints them, and not by time.
pub fn run_waits_by_call(mut run: Run) -> u64 {
    let reply = Model.run(run.again());
    if reply == ACCEPTED {
        let used = WAIT_WORDS * run.totals[WAITS_TOTAL] as usize;
        let waits = run.waits[..used].chunks_exact(WAIT_WORDS);
        let mut waits: Vec<_> = waits.map(<[u16]>::to_vec).collect();
        waits.sort_by_key(|wait| wait[CALL]);
        run.waits[..used].copy_from_slice(&waits.concat());
    }
    reply
}

/// The last wait's words stay as they were.
pub fn run_lost_wait(mut run: Run) -> u64 {
    let before = run.waits.to_vec();
    let reply = Model.run(run.again());
    if reply == ACCEPTED && run.totals[WAITS_TOTAL] != 0 {
        let last = WAIT_WORDS * (run.totals[WAITS_TOTAL] as usize - 1);
        run.waits[last..last + WAIT_WORDS].copy_from_slice(&before[last..last + WAIT_WORDS]);
    }
    reply
}

pub fn run_past_waits(mut run: Run) -> u64 {
    let reply = Model.run(run.again());
    if reply == ACCEPTED {
        let used = WAIT_WORDS * run.totals[WAITS_TOTAL] as usize;
        if let Some(word) = run.waits.get_mut(used) {
            *word = 0;
        }
    }
    reply
}

pub fn run_no_room_first(mut run: Run) -> u64 {
    let reply = Model.run(run.again());
    if reply == u64::from(SHORT_ARENA) && !run.room().is_enough(run.schedule) {
        return u64::from(NO_ROOM);
    }
    reply
}

/// A run with this much room for waits, of which those are written that fit.
fn with_waits_room(mut run: Run, records: usize) -> u64 {
    let mut waits = run.waits.to_vec();
    waits.resize(WAIT_WORDS * records, 0);
    let reply = Model.run(Run {
        waits: &mut waits,
        ..run.again()
    });
    if reply == ACCEPTED {
        let written = waits.len().min(run.waits.len());
        run.waits[..written].copy_from_slice(&waits[..written]);
    }
    reply
}

pub fn run_short_waits(run: Run) -> u64 {
    let most = run.schedule.len();
    with_waits_room(run, most)
}

/// Right wherever no turn is refused, and where there is room enough.
pub fn run_refused_turns(run: Run) -> u64 {
    let is_refused = |entry: &&[u16]| entry[1] == 0 && entry[0] >= run.workers;
    let refused = run
        .schedule
        .chunks_exact(ENTRY_WORDS)
        .filter(is_refused)
        .count();
    let records = run.room().waits + refused;
    with_waits_room(run, records)
}
