//! Counts of what the comparison has met; a count of 0 is a failed check.

use std::collections::{BTreeMap, HashMap, HashSet};

use crate::arena::{length_in, ADD, HEAD, TAIL};
use crate::bench::Outcome;
use crate::damage::{DAMAGES, SEVERAL};
use crate::generate::{Generated, Kind};
use crate::run::{Trace, Wait};
use crate::turn::Answer;

pub const SEQUENTIAL: &str = "histories fed to the sequential set";
pub const SEARCHED: &str = "histories searched by brute force";
const BAD_LINE: &str = "bad line";
const BAD_LINE_0: &str = "bad line 0";
const REFUSED_8: &str = "refused 8";
const ENTRY_REFUSED: [(&str, usize); 3] = [
    ("entries refused 3", 3),
    ("entries refused 4", 4),
    ("entries refused 5", 5),
];
const BAD_LENGTH: &str = "entries refused for their length alone";
const OTHER_LENGTH: &str = "adds of a stored key, of another length";
const STORED_AGAIN: &str = "keys stored again, of another length";
const WAITS: &str = "waits";
const WAITED_AGAIN: &str = "calls with several waits";
const WAITED_FOR_MORE: &str = "calls that waited for several workers";
const NOT_LAST: &str = "waits of a call that is not the last";
const LATER_CALL: &str = "waits of a worker's later call";
const BY_TURNS: &str = "waits after one of a later call";
const FOR_HEAD: &str = "waits for Head";
const FOR_TAIL: &str = "waits for Tail";
const FOR_OTHERS: &str = "waits for other nodes";
const RETRIES: &str = "retries (turns at 11)";
const REUSED: &str = "nodes reused";
const FULL: &str = "full answers";
const OPEN: &str = "open calls without a point";
const OPEN_DECIDED: &str = "unfinished calls with a point";
const LATE: &str = "points before the deciding turn";
const OVERTAKEN: &str = "overtaken look-ups (key back again)";
const PASSED_OVER: &str = "rolls that pass over a marked node";
const PASSED_OVER_MORE: &str = "rolls that pass over several";

/// What must be met besides kinds, damages and refused entries.
const MET: [&str; 26] = [
    SEQUENTIAL,
    SEARCHED,
    BAD_LINE,
    BAD_LINE_0,
    REFUSED_8,
    BAD_LENGTH,
    OTHER_LENGTH,
    STORED_AGAIN,
    WAITS,
    WAITED_AGAIN,
    WAITED_FOR_MORE,
    NOT_LAST,
    LATER_CALL,
    BY_TURNS,
    FOR_HEAD,
    FOR_TAIL,
    FOR_OTHERS,
    RETRIES,
    REUSED,
    FULL,
    OPEN,
    OPEN_DECIDED,
    LATE,
    OVERTAKEN,
    PASSED_OVER,
    PASSED_OVER_MORE,
];

type Counts = BTreeMap<&'static str, u64>;

pub struct Tally {
    kinds: Counts,
    bad_lines_by_damage: Counts,
    met: Counts,
    largest: Counts,
    pub passed: u64,
    pub failed: u64,
}

impl Tally {
    /// All that must be met, at 0.
    pub fn new() -> Tally {
        let damages = DAMAGES.iter().map(|(name, _)| *name).chain([SEVERAL]);
        let refused = ENTRY_REFUSED.map(|(name, _)| name);
        Tally {
            kinds: Kind::ALL.iter().map(|kind| (kind.name(), 0)).collect(),
            bad_lines_by_damage: damages.map(|name| (name, 0)).collect(),
            met: MET
                .into_iter()
                .chain(refused)
                .map(|name| (name, 0))
                .collect(),
            largest: Counts::new(),
            passed: 0,
            failed: 0,
        }
    }

    pub fn check(&mut self, good: bool) {
        if good {
            self.passed += 1;
        } else {
            self.failed += 1;
        }
    }

    pub fn met(&mut self, name: &'static str, count: u64) {
        *self.met.entry(name).or_insert(0) += count;
    }

    fn largest(&mut self, name: &'static str, size: usize) {
        let known = self.largest.entry(name).or_insert(0);
        *known = (*known).max(size as u64);
    }

    pub fn note(&mut self, generated: &Generated, outcome: &Outcome) {
        *self.kinds.entry(generated.kind.name()).or_insert(0) += 1;
        match outcome {
            Outcome::BadLine(line) => {
                self.met(BAD_LINE, 1);
                self.met(BAD_LINE_0, u64::from(*line == 0));
                if generated.kind == Kind::Damaged {
                    *self
                        .bad_lines_by_damage
                        .entry(generated.detail)
                        .or_insert(0) += 1;
                }
            }
            Outcome::Refused(_) => self.met(REFUSED_8, 1),
            Outcome::Ran(trace, keys) => {
                self.largest("bytes of a good input", generated.input.len());
                self.largest("keys in a roll", keys.len());
                self.note_run(trace);
            }
        }
        self.largest("bytes", generated.input.len());
    }

    fn note_run(&mut self, trace: &Trace) {
        self.largest("entries", trace.totals.entries as usize);
        self.largest("calls", trace.calls.len());
        self.largest("waits", trace.waits.len());
        self.note_waits(trace);
        self.note_lengths(trace);
        self.met(RETRIES, u64::from(trace.retries));
        self.met(REUSED, u64::from(trace.reused_nodes));
        self.met(PASSED_OVER, u64::from(trace.half_removed > 0));
        self.met(PASSED_OVER_MORE, u64::from(trace.half_removed > 1));
        for (name, number) in ENTRY_REFUSED {
            self.met(name, u64::from(trace.refusals[number]));
        }
        for (call, &decided) in trace.calls.iter().zip(&trace.decided) {
            let full = call.answer == Answer::Full.number();
            let late = call.point < decided;
            let back_again = length_in(&trace.sets[decided as usize], call.key).is_some();
            self.met(FULL, u64::from(full));
            self.met(OPEN, u64::from(call.answer == 0));
            self.met(
                OPEN_DECIDED,
                u64::from(call.answer != 0 && call.finish == 0),
            );
            self.met(LATE, u64::from(late));
            self.met(OVERTAKEN, u64::from(call.is_contains_no() && back_again));
        }
    }

    fn note_lengths(&mut self, trace: &Trace) {
        self.met(BAD_LENGTH, u64::from(trace.refused_lengths));
        let mut last_stored = HashMap::new();
        for (call, &decided) in trace.calls.iter().zip(&trace.decided) {
            let is_other = |length: u16| u64::from(length != call.length);
            match (call.operation, Answer::from_number(call.answer)) {
                (ADD, Some(Answer::No)) => {
                    let stored = length_in(&trace.sets[decided as usize], call.key);
                    self.met(OTHER_LENGTH, stored.map_or(0, is_other));
                }
                (ADD, Some(Answer::Yes)) => {
                    let earlier = last_stored.insert(call.key, call.length);
                    self.met(STORED_AGAIN, earlier.map_or(0, is_other));
                }
                _ => {}
            }
        }
    }

    fn note_waits(&mut self, trace: &Trace) {
        let mut last_of_calls: Vec<Option<Wait>> = vec![None; trace.calls.len()];
        let (mut again, mut for_more) = (HashSet::new(), HashSet::new());
        for wait in &trace.waits {
            let number = wait.call as usize;
            let worker = trace.calls[number].worker;
            let is_later = trace.calls[..number].iter().any(|c| c.worker == worker);
            self.met(WAITS, 1);
            self.met(NOT_LAST, u64::from(number + 1 < trace.calls.len()));
            self.met(LATER_CALL, u64::from(is_later));
            self.met(FOR_HEAD, u64::from(wait.node == HEAD));
            self.met(FOR_TAIL, u64::from(wait.node == TAIL));
            self.met(
                FOR_OTHERS,
                u64::from(wait.node != HEAD && wait.node != TAIL),
            );
            if let Some(last) = last_of_calls[number].replace(*wait) {
                again.insert(number);
                if last.worker != wait.worker {
                    for_more.insert(number);
                }
            }
        }
        let is_after_later = |pair: &&[Wait]| pair[0].call > pair[1].call;
        let by_turns = trace.waits.windows(2).filter(is_after_later).count();
        self.met(BY_TURNS, by_turns as u64);
        self.met(WAITED_AGAIN, again.len() as u64);
        self.met(WAITED_FOR_MORE, for_more.len() as u64);
    }

    pub fn merge(&mut self, other: &Tally) {
        let sums = [
            (&mut self.kinds, &other.kinds),
            (&mut self.bad_lines_by_damage, &other.bad_lines_by_damage),
            (&mut self.met, &other.met),
        ];
        for (mine, theirs) in sums {
            for (name, count) in theirs {
                *mine.entry(name).or_insert(0) += count;
            }
        }
        for (name, &size) in &other.largest {
            self.largest(name, size as usize);
        }
        self.passed += other.passed;
        self.failed += other.failed;
    }

    /// Prints the table and counts one check for each line that must not be 0.
    pub fn print_and_check(&mut self) {
        let parts = [
            ("inputs", &self.kinds),
            ("bad lines by damage", &self.bad_lines_by_damage),
            ("met", &self.met),
            ("largest", &self.largest),
        ];
        let mut good = Vec::new();
        for (title, counts) in parts {
            println!("{title}");
            for (name, &count) in counts {
                let note = if count == 0 { "  NOT MET" } else { "" };
                println!("  {name:40} {count:9}{note}");
                good.push(count != 0);
            }
        }
        for met in good {
            self.check(met);
        }
    }
}

impl Default for Tally {
    fn default() -> Tally {
        Tally::new()
    }
}
