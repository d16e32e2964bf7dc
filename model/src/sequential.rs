//! The sequential set (document 01: the plain set), fed a history in the order of its points.

use std::collections::BTreeMap;

use crate::arena::{Label, ADD, CONTAINS};
use crate::run::Call;
use crate::turn::Answer;

/// A set of keys without nodes, workers or room of its own. It remembers with each key the length
/// of the add that put it there.
#[derive(Clone, Debug, Default)]
pub struct SequentialSet {
    lengths: BTreeMap<u16, u16>,
}

impl SequentialSet {
    /// Makes one whole call; `told_full` says whether an add found no room.
    pub fn call(&mut self, operation: u16, label: Label, told_full: bool) -> Answer {
        let present = self.lengths.contains_key(&label.key);
        match (operation, present) {
            (ADD, true) => Answer::No,
            (ADD, false) if told_full => Answer::Full,
            (ADD, false) => {
                self.lengths.insert(label.key, label.length);
                Answer::Yes
            }
            (CONTAINS, true) => Answer::Yes,
            (_, false) => Answer::No,
            (_, true) => {
                self.lengths.remove(&label.key);
                Answer::Yes
            }
        }
    }

    /// By rising keys.
    pub fn labels(&self) -> Vec<Label> {
        let label = |(&key, &length)| Label { key, length };
        self.lengths.iter().map(label).collect()
    }
}

/// The calls with a point, in the order in which the sequential set is fed: by point, in one time
/// the call whose turn it was first, then contains calls with answer no by worker number.
pub fn in_feeding_order(calls: &[Call]) -> Vec<Call> {
    let mut fed: Vec<Call> = calls.iter().filter(|c| c.point != 0).copied().collect();
    fed.sort_by_key(|call| {
        let looked_back = call.is_contains_no();
        let worker = if looked_back { call.worker } else { 0 };
        (call.point, looked_back, worker)
    });
    fed
}

/// The sequential set at the end, if it gives every answer that was given.
fn fed(calls: &[Call]) -> Result<SequentialSet, String> {
    let mut state = SequentialSet::default();
    let mut last_turn = 0;
    for call in in_feeding_order(calls) {
        // One turn is made at a time, so it can't be the point of two calls.
        if !call.is_contains_no() {
            if call.point == last_turn {
                return Err(format!(
                    "a second call with its turn at the time of {call:?}"
                ));
            }
            last_turn = call.point;
        }
        let told_full = call.operation == ADD && call.answer == Answer::Full.number();
        let answer = state.call(call.operation, call.label(), told_full);
        if answer.number() != call.answer {
            return Err(format!("the sequential set answers {answer:?} to {call:?}"));
        }
    }
    Ok(state)
}

/// Compares every answer and the last set with those of the sequential set.
pub fn check(calls: &[Call], last_set: &[Label]) -> Result<(), String> {
    let labels = fed(calls)?.labels();
    if labels != last_set {
        return Err(format!("sequential set {labels:?}, arena {last_set:?}"));
    }
    Ok(())
}

/// Compares the roll at the end with the keys of the sequential set, which knows of no marked nodes.
pub fn check_roll(calls: &[Call], roll: &[u16]) -> Result<(), String> {
    let labels = fed(calls)?.labels();
    let keys: Vec<u16> = labels.iter().map(|label| label.key).collect();
    if keys != roll {
        return Err(format!("sequential set {keys:?}, roll {roll:?}"));
    }
    Ok(())
}
