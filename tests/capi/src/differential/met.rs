//! What must have been met besides every reply: large arenas, lent words of every length, and all
//! that a history can hold.

use std::collections::BTreeMap;

use model::arena::*;
use model::run::{ENTRY_WORDS, MAX_SCHEDULE_WORDS};

use super::comparer::Written;
use super::met_conversions;
use super::met_counts;
use super::met_free_runs;
use super::met_lengths;
use super::met_rolls;
use super::met_searches;
use super::requests::Request;
use super::schedules::needed;
use crate::library::{self, Values, CALL_WORDS, WAIT_WORDS};

const LARGEST: &str = "arenas of 8 workers and 1,024 nodes";
const LARGEST_OLD: &str = "old arenas of 8 workers and 1,024 nodes";
const ALL_NODES: &str = "snapshots of 1,022 keys";
const KEYS_FIT: &str = "snapshots with no word to spare";
const KEYS_SPARE: &str = "snapshots with words to spare";
const LONGEST: &str = "runs of 4,000 entries";
const REFUSED: &str = "runs with refused entries";
const NO_WORKER: &str = "waits for a worker that is not there";
const WORKER_65534: &str = "waits for worker 65,534";
const OWN_NODE: &str = "waits for a node of the worker's own";
const HISTORY_SHORT: &str = "runs refused for the history alone";
const WAITS_SHORT: &str = "runs refused for the waits alone";
const BOTH_SHORT: &str = "runs refused for both";
const ONE_WAIT_SHORT: &str = "runs refused for one record of the waits";
const CALLS_FIT: &str = "histories with no word to spare";
const CALLS_SPARE: &str = "histories with words to spare";
const NOT_WHOLE: &str = "histories of no whole number of records";
const WAITS_FIT: &str = "waits with just a record for each turn";
const WAITS_NOT_WHOLE: &str = "waits of no whole number of records";
const WAITS: &str = "runs with waits";
const WAITED_AGAIN: &str = "waits after one of the same call";
const BY_TURNS: &str = "waits after one of a later call";
const LATER_CALL: &str = "waits of a worker's later call";
const NO_POINT: &str = "calls without a point";
const UNFINISHED: &str = "unfinished calls with a point";
const YES: &str = "calls answered yes";
const NO: &str = "calls answered no";
const FULL: &str = "calls answered full";
const LOST: &str = "look-ups that lost their key on the way";
const CAME_BACK: &str = "look-ups whose key came back before they ended";

/// In the order in which they are printed.
const ALL: [&str; 30] = [
    LARGEST,
    LARGEST_OLD,
    ALL_NODES,
    KEYS_FIT,
    KEYS_SPARE,
    NO_WORKER,
    WORKER_65534,
    OWN_NODE,
    HISTORY_SHORT,
    WAITS_SHORT,
    BOTH_SHORT,
    ONE_WAIT_SHORT,
    LONGEST,
    REFUSED,
    CALLS_FIT,
    CALLS_SPARE,
    NOT_WHOLE,
    WAITS_FIT,
    WAITS_NOT_WHOLE,
    WAITS,
    WAITED_AGAIN,
    BY_TURNS,
    LATER_CALL,
    NO_POINT,
    UNFINISHED,
    YES,
    NO,
    FULL,
    LOST,
    CAME_BACK,
];

/// A turn on these words that waits.
pub struct TurnWait<'a> {
    words: &'a [u16],
    worker: u16,
    for_worker: u16,
}

impl<'a> TurnWait<'a> {
    /// None if the request is no turn, or the turn does not wait.
    pub fn read(words: &'a [u16], request: &Request, reply: u64) -> Option<TurnWait<'a>> {
        let values = Values::read(reply).filter(|values| values.report == library::WAITS)?;
        match *request {
            Request::Turn { worker } => Some(TurnWait {
                words,
                worker,
                for_worker: values.second,
            }),
            _ => None,
        }
    }

    fn is_for_known(&self) -> bool {
        check_header(self.words).is_ok_and(|shape| self.for_worker < shape.workers)
    }

    pub fn is_for_other_busy(&self) -> bool {
        let at = HEADER_WORDS + WORKER_WORDS * self.for_worker as usize;
        self.is_for_known() && self.for_worker != self.worker && self.words[at + STAGE] != 0
    }
}

#[derive(Default)]
pub struct Met(BTreeMap<&'static str, u64>);

impl Met {
    pub fn add(&mut self, name: &'static str, is_met: bool) {
        if is_met {
            *self.0.entry(name).or_insert(0) += 1;
        }
    }

    pub fn note_arena(&mut self, words: &[u16]) {
        let largest = Shape::new(MAX_WORKERS, MAX_NODES);
        self.add(LARGEST, Shape::read(words) == largest);
        let largest = largest.map(Shape::in_layout);
        self.add(LARGEST_OLD, OldShape::read(words) == largest);
        self.note_totals(words);
    }

    pub fn note_wait(&mut self, wait: &TurnWait) {
        self.add(NO_WORKER, !wait.is_for_known());
        self.add(WORKER_65534, wait.for_worker == 65_534);
        self.add(OWN_NODE, wait.for_worker == wait.worker);
    }

    /// Notes what the model replied, and wrote in the last run.
    pub fn note_reply(&mut self, request: &Request, reply: u64, written: Written) {
        match (request, Values::read(reply)) {
            (&Request::Snapshot { room }, Some(values)) => {
                self.note_snapshot(room, values.first as usize);
            }
            (Request::Run { schedule, .. }, Some(_)) => self.note_run(schedule, written),
            (Request::Run { schedule, .. }, None) if reply == u64::from(NO_ROOM) => {
                self.note_no_room(schedule, written);
            }
            _ => {}
        }
    }

    fn note_no_room(&mut self, schedule: &[u16], written: Written) {
        let needed = needed(schedule);
        let waits_room = written.waits.len() / WAIT_WORDS;
        let history_short = written.history.len() / CALL_WORDS < needed.calls;
        let waits_short = waits_room < needed.waits;
        self.add(HISTORY_SHORT, history_short && !waits_short);
        self.add(WAITS_SHORT, waits_short && !history_short);
        self.add(BOTH_SHORT, history_short && waits_short);
        let one_short = waits_room + 1 == needed.waits;
        self.add(ONE_WAIT_SHORT, one_short && !history_short);
    }

    fn note_snapshot(&mut self, room: usize, count: usize) {
        self.add(ALL_NODES, count == MAX_NODES as usize - 2);
        self.add(KEYS_FIT, count == room);
        self.add(KEYS_SPARE, count < room);
    }

    fn note_run(&mut self, schedule: &[u16], written: Written) {
        let &[entries, refused, waits, calls] = written.totals else {
            return;
        };
        self.add(
            LONGEST,
            entries as usize == MAX_SCHEDULE_WORDS / ENTRY_WORDS,
        );
        self.add(REFUSED, refused != 0);
        let (history, used) = (written.history, CALL_WORDS * calls as usize);
        self.add(CALLS_FIT, used == history.len());
        self.add(CALLS_SPARE, used < history.len());
        self.add(NOT_WHOLE, !history.len().is_multiple_of(CALL_WORDS));
        let history = &history[..used];
        for call in history.chunks_exact(CALL_WORDS) {
            self.note_call(call, history);
        }
        let row = written.waits;
        let waits_fit = row.len() == WAIT_WORDS * needed(schedule).waits;
        self.add(WAITS_FIT, waits_fit && waits != 0);
        self.add(WAITS_NOT_WHOLE, !row.len().is_multiple_of(WAIT_WORDS));
        self.add(WAITS, waits != 0);
        self.note_waits(&row[..WAIT_WORDS * waits as usize], history);
    }

    fn note_waits(&mut self, waits: &[u16], history: &[u16]) {
        let mut last_call = None;
        for wait in waits.chunks_exact(WAIT_WORDS) {
            let call = wait[0];
            self.add(WAITED_AGAIN, last_call == Some(call));
            self.add(BY_TURNS, last_call > Some(call));
            last_call = Some(call);
            let (earlier, this) = history.split_at(CALL_WORDS * call as usize);
            let mut earlier = earlier.chunks_exact(CALL_WORDS);
            self.add(LATER_CALL, earlier.any(|call| call[0] == this[0]));
        }
    }

    fn note_call(&mut self, call: &[u16], history: &[u16]) {
        let &[_, operation, key, start, point, finish, answer] = call else {
            return;
        };
        self.add(NO_POINT, point == 0);
        self.add(UNFINISHED, point != 0 && finish == 0);
        self.add(YES, answer == 1);
        self.add(NO, answer == 2);
        self.add(FULL, answer == 3);
        if operation == CONTAINS && answer == 2 {
            let puts_back = |other: &[u16]| {
                let &[_, operation, other_key, _, other_point, _, answer] = other else {
                    return false;
                };
                let is_add = operation == ADD && other_key == key && answer == 1;
                is_add && (point..finish).contains(&other_point)
            };
            self.add(LOST, point > start);
            let came_back = history.chunks_exact(CALL_WORDS).any(puts_back);
            self.add(CAME_BACK, came_back);
        }
    }

    pub fn merge(&mut self, other: &Met) {
        for (name, more) in &other.0 {
            *self.0.entry(name).or_insert(0) += more;
        }
    }

    /// Prints the table and gives for each line whether it is not 0.
    pub fn print_and_check(&self) -> Vec<bool> {
        println!("also met");
        let line = |name| {
            let count = self.0.get(name).copied().unwrap_or(0);
            let note = if count == 0 { "  NOT MET" } else { "" };
            println!("  {name:46} {count:10}{note}");
            count != 0
        };
        let all = ALL.into_iter().chain(met_lengths::ALL);
        let all = all.chain(met_rolls::ALL).chain(met_searches::ALL);
        let all = all.chain(met_free_runs::ALL).chain(met_counts::ALL);
        let all = all.chain(met_conversions::all());
        all.map(line).collect()
    }
}
