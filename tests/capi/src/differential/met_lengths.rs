//! What must have been met of totals and lengths.

use model::arena::*;
use model::run::{ENTRY_WORDS, MAX_SCHEDULE_WORDS};

use super::met::Met;
use super::requests::Request;
use crate::library::{self, Start, Values};

const OTHER_TOTAL: [&str; 2] = [
    "headers of layout 1 with the other's total",
    "headers of layout 2 with the other's total",
];
const NO_ADD: [&str; 2] = [
    "removes refused for a length",
    "look-ups refused for a length",
];
const NO_LENGTH: &str = "adds refused for length 0";
const LENGTH_1: &str = "adds of length 1";
const LENGTH_65534: &str = "adds of length 65,534";
const LENGTH_65535: &str = "adds refused for length 65,535";
const END_65535: &str = "adds with key and length 65,535";
const END_65536: &str = "adds refused for 65,536 together";
const TAKEN_BAD: &str = "nodes taken with a bad length";
const ENTRIES_OF_3: &str = "runs refused for entries of three words";
const BAD_LENGTHS: &str = "runs with an entry of a bad length alone";

/// In the order in which they are printed.
pub const ALL: [&str; 13] = [
    OTHER_TOTAL[0],
    OTHER_TOTAL[1],
    NO_ADD[0],
    NO_ADD[1],
    NO_LENGTH,
    LENGTH_1,
    LENGTH_65534,
    LENGTH_65535,
    END_65535,
    END_65536,
    TAKEN_BAD,
    ENTRIES_OF_3,
    BAD_LENGTHS,
];

fn has_good_key(call: Start) -> bool {
    (ADD..=CONTAINS).contains(&call.operation) && is_call_key(call.key)
}

/// Whether the words would begin with this layout's header, had it not the other one's total.
fn has_other_total<const LAYOUT: u16, const OTHER: u16>(words: &[u16]) -> bool {
    let Some(&header) = words.first_chunk::<HEADER_WORDS>() else {
        return false;
    };
    let Some(shape) = ShapeIn::<LAYOUT>::new(header[1], header[2]) else {
        return false;
    };
    let mut repaired = header;
    repaired[5] = shape.total() as u16;
    header[5] == shape.in_layout::<OTHER>().total() as u16 && shape.is_header(&repaired)
}

/// Whether some start of a schedule would be good with another length.
fn has_bad_length(schedule: &[u16]) -> bool {
    let is_bad = |entry: &[u16]| {
        let &[_, operation, key, length] = entry else {
            return false;
        };
        let call = Start {
            operation,
            key,
            length,
        };
        has_good_key(call) && !is_call_length(operation, key, length)
    };
    schedule.chunks_exact(ENTRY_WORDS).any(is_bad)
}

impl Met {
    pub fn note_totals(&mut self, words: &[u16]) {
        self.add(OTHER_TOTAL[0], has_other_total::<LAYOUT_1, LAYOUT_2>(words));
        self.add(OTHER_TOTAL[1], has_other_total::<LAYOUT_2, LAYOUT_1>(words));
    }

    /// Notes lengths at their limits, and where no start would have them.
    pub fn note_length(&mut self, words: &[u16], request: &Request, reply: u64) {
        match request {
            Request::Start { call, .. } => {
                let is_accepted = Values::read(reply).is_some();
                if is_accepted || (reply == u64::from(BAD_CALL) && has_good_key(*call)) {
                    self.note_start(*call, is_accepted);
                }
            }
            Request::Turn { worker } => self.note_turn(words, *worker, reply),
            Request::Run { schedule, .. } => {
                let (length, is_refused) = (schedule.len(), reply == u64::from(BAD_SCHEDULE));
                let of_3 = length.is_multiple_of(3) && length <= MAX_SCHEDULE_WORDS;
                self.add(ENTRIES_OF_3, is_refused && of_3);
                let is_run = Values::read(reply).is_some();
                self.add(BAD_LENGTHS, is_run && has_bad_length(schedule));
            }
            _ => {}
        }
    }

    /// A start that is accepted, or refused for its length alone.
    fn note_start(&mut self, call: Start, is_accepted: bool) {
        let Start {
            operation,
            key,
            length,
        } = call;
        let end = u32::from(key) + u32::from(length);
        match (operation, is_accepted) {
            (ADD, true) => {
                self.add(LENGTH_1, length == 1);
                self.add(LENGTH_65534, length == 65_534);
                self.add(END_65535, end == 65_535);
            }
            (ADD, false) => {
                self.add(NO_LENGTH, length == 0);
                self.add(LENGTH_65535, length == 65_535);
                self.add(END_65536, end == 65_536);
            }
            (_, false) => self.add(NO_ADD[operation as usize - 2], true),
            _ => {}
        }
    }

    fn note_turn(&mut self, words: &[u16], worker: u16, reply: u64) {
        let moved_to = Values::read(reply).map(|values| (values.report, values.first));
        let (Ok(shape), Some((library::MOVED, 15))) = (check_header(words), moved_to) else {
            return;
        };
        let record = &words[shape.worker_at(worker)..][..WORKER_WORDS];
        let (key, length) = (record[CALL_KEY], record[CALL_LENGTH]);
        let is_good = is_call_length(ADD, key, length);
        self.add(TAKEN_BAD, !is_good);
    }
}
