//! What must have been met of free runs: labels in every place beside one another and beside the
//! last cell, and refusals where a later one would apply too.

use model::arena::*;

use super::chain::{Chain, End};
use super::free_runs::{Cells, FreeRuns};
use super::met::Met;

const NO_LABEL: &str = "free runs where no label is";
const BEFORE: &str = "free runs before the first label";
const BETWEEN: &str = "free runs between labels";
const BEHIND: &str = "free runs behind the last label";
const UP_TO_LAST: &str = "free runs cut off by the last cell";
const ALL_FREE: &str = "free runs of all cells, a label behind";
const ONE_CELL: &str = "free runs of one cell";
const EQUALS: &str = "free runs: another one is as long";
const EQUAL_LAST: &str = "free runs: one up to the last cell is as long";
const ALL_BY_ONE: &str = "free runs: one label covers all cells";
const ALL_BY_MORE: &str = "free runs: several labels cover all cells";
const OVERLAP: &str = "free runs: a label begins in one and ends behind";
const INNER: &str = "free runs: a label ends in an earlier one";
const INNER_APART: &str = "free runs: and another begins behind both";
const SAME_END: &str = "free runs: a label ends with an earlier one";
const TOUCH: &str = "free runs: a label begins right behind one";
const EMPTY_IN_RUN: &str = "free runs: length 0 in the answer";
const EMPTY_IN_LABEL: &str = "free runs: length 0 in a label";
const EMPTY_ALONE: &str = "free runs: no label has a length";
const LAST_IN_LABEL: &str = "free runs: the last cell is inside a label";
const LAST_OF_LABEL: &str = "free runs: the last cell is a label's last";
const LAST_IS_KEY: &str = "free runs: the last cell is a label's first";
const LAST_BEFORE: &str = "free runs: the last cell is right before a label";
const LAST_1: &str = "free runs up to cell 1";
const LAST_65534: &str = "free runs up to cell 65,534";
const END_65536: &str = "free runs: a label's end is 65,536";
const PAST_ALL: &str = "free runs: a label's end is above 65,536";
const KEY_65535: &str = "free runs: a node has key 65,535";
const MARKED: &str = "free runs: a marked node's label in the answer";
const MARKED_FRESH: &str = "free runs from fresh: a marked node's label in it";
const HEAD_LABEL: &str = "free runs: Head has a length";
const LABELS_1022: &str = "free runs of 1,022 labels";
const FRESH_INNER: &str = "free runs from fresh: a label ends in another";
const FRESH_BETWEEN: &str = "free runs from fresh between labels";
const BAD_LAST: [&str; 2] = [
    "free runs refused for last cell 0",
    "free runs refused for last cell 65,535",
];
const BAD_LAST_BROKEN: &str = "free runs refused 5, the chain broken too";
const BROKEN_BEHIND: &str = "free runs refused 7 behind the last cell";
const MARKED_LINK: &str = "free runs refused for a marked node's link";
const MARKED_KEY: &str = "free runs refused for a marked node's key";

/// In the order in which they are printed.
pub const ALL: [&str; 40] = [
    NO_LABEL,
    BEFORE,
    BETWEEN,
    BEHIND,
    UP_TO_LAST,
    ALL_FREE,
    ONE_CELL,
    EQUALS,
    EQUAL_LAST,
    ALL_BY_ONE,
    ALL_BY_MORE,
    OVERLAP,
    INNER,
    INNER_APART,
    SAME_END,
    TOUCH,
    EMPTY_IN_RUN,
    EMPTY_IN_LABEL,
    EMPTY_ALONE,
    LAST_IN_LABEL,
    LAST_OF_LABEL,
    LAST_IS_KEY,
    LAST_BEFORE,
    LAST_1,
    LAST_65534,
    END_65536,
    PAST_ALL,
    KEY_65535,
    MARKED,
    MARKED_FRESH,
    HEAD_LABEL,
    LABELS_1022,
    FRESH_INNER,
    FRESH_BETWEEN,
    BAD_LAST[0],
    BAD_LAST[1],
    BAD_LAST_BROKEN,
    BROKEN_BEHIND,
    MARKED_LINK,
    MARKED_KEY,
];

/// Where the last cell may stand beside what a label covers.
type IsSuch = fn(&Cells, u32) -> bool;
const LAST_CELLS: [(&str, IsSuch); 4] = [
    (LAST_IN_LABEL, |cells, last| {
        cells.start < last && last + 1 < cells.end
    }),
    (LAST_OF_LABEL, |cells, last| cells.end == last + 1),
    (LAST_IS_KEY, |cells, last| cells.start == last),
    (LAST_BEFORE, |cells, last| cells.start == last + 1),
];

/// How some label lies beside earlier ones.
#[derive(Default)]
struct Neighbours {
    overlap: bool,
    inner: bool,
    /// A label behind an inner one and the outer one.
    apart: bool,
    same_end: bool,
    touch: bool,
    /// A label without length, inside another.
    empty_in: bool,
}

fn overlap(one: &Cells, other: &Cells) -> bool {
    one.start.max(other.start) < one.end.min(other.end)
}

impl Met {
    /// Notes an accepted search; `reached` is for arenas reached from a fresh one.
    pub fn note_free_run(&mut self, runs: &FreeRuns, reached: bool) {
        let chain = &runs.chain;
        self.add(NO_LABEL, runs.labels.is_empty());
        self.add(LABELS_1022, runs.labels.len() == MAX_NODES as usize - 2);
        self.add(HEAD_LABEL, chain.label(HEAD).length != 0);
        let has_key = |&node: &u16| chain.label(node).key == TAIL_KEY;
        self.add(KEY_65535, chain.nodes.iter().any(has_key));
        self.note_answer(runs, reached);
        self.note_neighbours(runs, reached);
        self.note_last_cell(runs);
    }

    fn note_answer(&mut self, runs: &FreeRuns, reached: bool) {
        let end = runs.last_cell + 1;
        let Some(answer) = runs.answer() else {
            let covers_all = |cells: &Cells| cells.start == 1 && cells.end >= end;
            let is_by_one = runs.covering().any(covers_all);
            self.add(ALL_BY_ONE, is_by_one);
            return self.add(ALL_BY_MORE, !is_by_one);
        };
        let has_before = runs.covering().any(|cells| cells.end <= answer.start);
        let has_behind = runs.covering().any(|cells| cells.start >= answer.end);
        // Up to a label, and not to the last cell.
        let is_parted = answer.end < end;
        self.add(BEFORE, !has_before && is_parted);
        self.add(BETWEEN, has_before && is_parted);
        self.add(FRESH_BETWEEN, reached && has_before && is_parted);
        self.add(BEHIND, has_before && !has_behind);
        self.add(UP_TO_LAST, has_before && has_behind && !is_parted);
        self.add(ALL_FREE, !has_before && has_behind && !is_parted);
        self.add(ONE_CELL, answer.len() == 1);
        let is_equal = |run: &&Cells| run.len() == answer.len() && *run != answer;
        self.add(EQUALS, runs.runs.iter().any(|run| is_equal(&run)));
        let last = runs.runs.last().filter(is_equal);
        self.add(EQUAL_LAST, last.is_some_and(|run| run.end == end));
        let is_empty_in = |cells: &Cells| {
            cells.is_empty() && (answer.start + 1..answer.end).contains(&cells.start)
        };
        self.add(EMPTY_IN_RUN, runs.labels.iter().any(is_empty_in));
        let is_marked = runs.marked.iter().any(|cells| overlap(cells, answer));
        self.add(MARKED, is_marked);
        self.add(MARKED_FRESH, is_marked && reached);
    }

    /// Labels that begin up to the last cell, beside one another.
    fn note_neighbours(&mut self, runs: &FreeRuns, reached: bool) {
        let last = runs.last_cell;
        let mut met = Neighbours::default();
        // The cell behind all earlier labels.
        let mut end = 1;
        for cells in runs.labels.iter().filter(|cells| cells.start <= last) {
            // Where the earlier ones cover all, no later one counts.
            let begins_in = cells.start < end && end <= last;
            if cells.is_empty() {
                met.empty_in |= begins_in && cells.start + 1 < end;
                continue;
            }
            met.apart |= met.inner && cells.start > end;
            met.touch |= end != 1 && cells.start == end;
            met.overlap |= begins_in && cells.end > end;
            met.same_end |= begins_in && cells.end == end;
            met.inner |= begins_in && cells.end < end;
            end = end.max(cells.end);
        }
        self.add(OVERLAP, met.overlap);
        self.add(INNER, met.inner);
        self.add(FRESH_INNER, met.inner && reached);
        self.add(INNER_APART, met.apart);
        self.add(SAME_END, met.same_end);
        self.add(TOUCH, met.touch);
        self.add(EMPTY_IN_LABEL, met.empty_in);
        let is_empty = runs.covering().next().is_none();
        self.add(EMPTY_ALONE, is_empty && !runs.labels.is_empty());
        let has_end = |is_such: fn(u32) -> bool| runs.labels.iter().any(|cells| is_such(cells.end));
        self.add(END_65536, has_end(|end| end == 65_536));
        self.add(PAST_ALL, has_end(|end| end > 65_536));
    }

    fn note_last_cell(&mut self, runs: &FreeRuns) {
        let last = runs.last_cell;
        for (name, is_such) in LAST_CELLS {
            self.add(name, runs.covering().any(|cells| is_such(cells, last)));
        }
        self.add(LAST_1, last == 1);
        self.add(LAST_65534, last == 65_534);
    }

    /// Notes a refused search.
    pub fn note_no_free_run(&mut self, words: &[u16], last_cell: u16, reply: u64) {
        let Some(chain) = Chain::of(words) else {
            return;
        };
        let refusal = reply as u16;
        if refusal == BAD_CALL {
            self.add(BAD_LAST[0], last_cell == 0);
            self.add(BAD_LAST[1], last_cell == 65_535);
            self.add(BAD_LAST_BROKEN, chain.end != End::Tail);
        }
        if refusal == BROKEN_CHAIN && !chain.nodes.is_empty() {
            let last = chain.before(chain.nodes.len());
            self.add(BROKEN_BEHIND, chain.word(last, KEY) > last_cell);
            let is_link = chain.end == End::Link;
            self.add(MARKED_LINK, is_link && chain.is_marked(last));
        }
        if let (End::Key(node), BROKEN_CHAIN) = (chain.end, refusal) {
            self.add(MARKED_KEY, chain.is_marked(node));
        }
    }
}
