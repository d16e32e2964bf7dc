//! What the waits of a history keep to, where the run began on a fresh arena.

use crate::arena::CONTAINS;
use crate::run::{Call, Trace, Wait};

/// As many waits as were counted, in order of time; each names the open call of the worker whose
/// turn it was, and another worker that is busy then.
pub fn check_waits(trace: &Trace) -> Result<(), String> {
    let (count, total) = (trace.waits.len(), trace.totals.waits);
    if count != total as usize {
        return Err(format!("{count} waits, {total} counted"));
    }
    let mut last_time = 0;
    for wait in &trace.waits {
        let call = trace.calls.get(wait.call as usize);
        let is_good = call.is_some_and(|call| is_own_call(trace, wait, call))
            && is_in_the_way(trace, wait, call)
            && wait.time > last_time;
        if !is_good {
            return Err(format!("{wait:?} of {call:?}"));
        }
        last_time = wait.time;
    }
    Ok(())
}

/// Whether the call has nodes to take or to give back at this time, and it is another one's turn or
/// one that waits: then its start and its finish stand at other times.
fn is_open(call: &Call, time: u16) -> bool {
    let is_unfinished = call.finish == 0 || time < call.finish;
    call.operation != CONTAINS && call.start < time && is_unfinished
}

/// The worker's turn it was, and its call had not come to its point: both nodes are taken before.
fn is_own_call(trace: &Trace, wait: &Wait, call: &Call) -> bool {
    let place = (wait.time as usize).checked_sub(1);
    let turn_of = place.and_then(|place| trace.entry_workers.get(place));
    let is_undecided = call.point == 0 || wait.time < call.point;
    turn_of == Some(&call.worker) && is_open(call, wait.time) && is_undecided
}

/// Another worker of the arena, busy then, and a node that is there.
fn is_in_the_way(trace: &Trace, wait: &Wait, call: Option<&Call>) -> bool {
    let is_busy = |other: &Call| other.worker == wait.worker && is_open(other, wait.time);
    wait.node < trace.shape.nodes
        && wait.worker < trace.shape.workers
        && call.is_some_and(|call| call.worker != wait.worker)
        && trace.calls.iter().any(is_busy)
}
