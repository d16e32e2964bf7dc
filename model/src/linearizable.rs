//! A search for some order that explains a history, knowing nothing of points; and the limits that
//! points and reported answers must keep to.

use std::collections::HashSet;

use crate::arena::Label;
use crate::run::Call;
use crate::sequential::SequentialSet;
use crate::turn::Answer;

/// Histories with more decided calls than this are not searched.
pub const MAX_SEARCHED: usize = 9;

/// Points stand between start and finish, and answer, point and finish stand together.
pub fn check_times(calls: &[Call]) -> Result<(), String> {
    let mut last_start = 0;
    for call in calls {
        let decided = call.answer != 0;
        let in_order = call.start > last_start;
        let together = decided == (call.point != 0) && (decided || call.finish == 0);
        let after_start = !decided || call.start <= call.point;
        let before_finish = call.finish == 0 || call.point < call.finish;
        if !(in_order && together && after_start && before_finish) {
            return Err(format!("times out of order in {call:?}"));
        }
        last_start = call.start;
    }
    Ok(())
}

/// A finished call's worker reported the answer of the call's record, and no other call's reported any.
pub fn check_told(calls: &[Call], told: &[u16]) -> Result<(), String> {
    if calls.len() != told.len() {
        return Err(format!("{} calls, {} told", calls.len(), told.len()));
    }
    for (call, &told) in calls.iter().zip(told) {
        let answer = if call.finish == 0 { 0 } else { call.answer };
        if told != answer {
            return Err(format!("told {told} at the finish of {call:?}"));
        }
    }
    Ok(())
}

/// The calls that have their answer; the others have changed nothing yet.
pub fn decided_calls(calls: &[Call]) -> Vec<Call> {
    calls.iter().filter(|c| c.answer != 0).copied().collect()
}

/// Some(true) if some order of the decided calls explains every answer and the last set and keeps
/// real time; None if there are too many calls to search.
pub fn explained(calls: &[Call], last_set: &[Label]) -> Option<bool> {
    let decided = decided_calls(calls);
    if decided.len() > MAX_SEARCHED {
        return None;
    }
    let mut search = Search {
        last_set: last_set.to_vec(),
        dead_ends: HashSet::new(),
        calls: decided,
    };
    Some(search.can_go_on(0, &SequentialSet::default()))
}

/// Whether a was over before b began.
fn precedes(a: &Call, b: &Call) -> bool {
    a.finish != 0 && a.finish < b.start
}

struct Search {
    calls: Vec<Call>,
    last_set: Vec<Label>,
    /// Calls already ordered (a bit each) and the set reached, from where there is no way on.
    dead_ends: HashSet<(u32, Vec<Label>)>,
}

impl Search {
    fn can_go_on(&mut self, ordered: u32, state: &SequentialSet) -> bool {
        let labels = state.labels();
        if ordered.count_ones() as usize == self.calls.len() {
            return labels == self.last_set;
        }
        if self.dead_ends.contains(&(ordered, labels.clone())) {
            return false;
        }
        for next in 0..self.calls.len() {
            if !self.may_come_next(ordered, next) {
                continue;
            }
            let call = self.calls[next];
            let mut after = state.clone();
            let told_full = call.answer == Answer::Full.number();
            let answer = after.call(call.operation, call.label(), told_full);
            if answer.number() == call.answer && self.can_go_on(ordered | 1 << next, &after) {
                return true;
            }
        }
        self.dead_ends.insert((ordered, labels));
        false
    }

    /// Not yet ordered, and nothing left that was over before it began.
    fn may_come_next(&self, ordered: u32, next: usize) -> bool {
        let is_left = |call: usize| ordered & 1 << call == 0;
        is_left(next)
            && (0..self.calls.len())
                .filter(|&other| other != next && is_left(other))
                .all(|other| !precedes(&self.calls[other], &self.calls[next]))
    }
}
