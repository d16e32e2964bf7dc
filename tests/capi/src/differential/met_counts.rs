//! What must have been met of counts: both ends of their range and what is beside them, in headers and
//! at the turns that count, and counts that are not the set's size.

use model::arena::*;

use super::chain::{Chain, End};
use super::layouts::AnyShape;
use super::met::Met;
use super::requests::{EntryPoint, Request};
use crate::library::Values;

const TOLD: [&str; 4] = [
    "stored: a count of 0",
    "stored: a count of 1",
    "stored: a count of N less 3",
    "stored: a count of N less 2",
];
const TOLD_1022: &str = "stored: a count of 1,022";
const BELOW: &str = "stored: a count below the set's size";
const ABOVE: &str = "stored: a count above the set's size";
const BROKEN: &str = "stored: the chain is broken";
const FRESH_MOST: &str = "stored from fresh: N less 2";
const FRESH_MARKED: &str = "stored from fresh: a marked node on the chain";
const ODD_COUNT: [&str; 3] = [
    "headers refused for a count of N less 1 alone",
    "headers refused for a count of N alone",
    "headers refused for a count of 65,535 alone",
];
const ODD_IN_1: [&str; 3] = [
    "layout 1: headers refused for word 6, 1, alone",
    "layout 1: headers refused for word 6, N less 2",
    "layout 1: headers refused for word 6, 65,535",
];
const ODD_LAST: [&str; 2] = [
    "layout 1: headers refused for word 7 alone",
    "layout 2: headers refused for word 7 alone",
];
const UP: [&str; 4] = [
    "turns at 15 from a count of 0",
    "turns at 15 from one of N less 3",
    "turns at 15 refused 14, N less 2",
    "turns at 15 refused 14, 1,022",
];
const DOWN: [&str; 3] = [
    "turns at 16 from a count of N less 2",
    "turns at 16 from a count of 1",
    "turns at 16 refused 14, 0",
];
const WRONG: [&str; 2] = [
    "turns at 15 that count on from a wrong count",
    "turns at 16 that count on from a wrong count",
];
const RIGHT_REFUSED: &str = "turns refused 14 though the count is right";
const RECORD: [&str; 2] = [
    "turns at 15 refused 6 on a count of N less 2",
    "turns at 16 refused 6 on a count of 0",
];
const LINK: [&str; 2] = [
    "adds refused 7 on a count of N less 2",
    "removes refused 7 on a count of 0",
];
const TAKEN: &str = "turns at 14 that take a node, N less 2";
const UNLINKED: &str = "turns at 18 on a count of 0";
const ON_WRONG: [(EntryPoint, &str); 4] = [
    (EntryPoint::Start, "starts on a wrong count"),
    (EntryPoint::Snapshot, "snapshots on a wrong count"),
    (EntryPoint::FindFree, "searches on a wrong count"),
    (EntryPoint::LongestFreeRun, "free runs on a wrong count"),
];
const LAID_OVER: &str = "init over a word 6 that is not 0";
const RUN_OVER: &str = "runs over a word 6 that is not 0";

/// In the order in which they are printed.
pub const ALL: [&str; 40] = [
    TOLD[0],
    TOLD[1],
    TOLD[2],
    TOLD[3],
    TOLD_1022,
    BELOW,
    ABOVE,
    BROKEN,
    FRESH_MOST,
    FRESH_MARKED,
    ODD_COUNT[0],
    ODD_COUNT[1],
    ODD_COUNT[2],
    ODD_IN_1[0],
    ODD_IN_1[1],
    ODD_IN_1[2],
    ODD_LAST[0],
    ODD_LAST[1],
    UP[0],
    UP[1],
    UP[2],
    UP[3],
    DOWN[0],
    DOWN[1],
    DOWN[2],
    WRONG[0],
    WRONG[1],
    RIGHT_REFUSED,
    RECORD[0],
    RECORD[1],
    LINK[0],
    LINK[1],
    TAKEN,
    UNLINKED,
    ON_WRONG[0].1,
    ON_WRONG[1].1,
    ON_WRONG[2].1,
    ON_WRONG[3].1,
    LAID_OVER,
    RUN_OVER,
];

/// A good header's count, and the size of the set.
#[derive(Clone, Copy)]
struct Counted {
    shape: Shape,
    count: u16,
    size: u16,
}

impl Counted {
    fn of(words: &[u16]) -> Option<Counted> {
        let shape = check_header(words).ok()?;
        Some(Counted {
            shape,
            count: words[COUNT],
            size: set(words).len() as u16,
        })
    }

    fn is_most(&self) -> bool {
        self.count == self.shape.max_count()
    }

    fn is_wrong(&self) -> bool {
        self.count != self.size
    }
}

/// The shape of a header that is odd for this word alone, which should be 0.
fn odd_alone(words: &[u16], place: usize) -> Option<AnyShape> {
    let mut repaired = words.to_vec();
    *repaired.get_mut(place)? = 0;
    let is_odd = AnyShape::check(words).is_err();
    AnyShape::check(&repaired).ok().filter(|_| is_odd)
}

impl Met {
    /// Notes what the count has to do with a reply; `reached` is for arenas reached from a fresh one.
    pub fn note_count(&mut self, words: &[u16], request: &Request, reply: u64, reached: bool) {
        let is_accepted = Values::read(reply).is_some();
        let old_word = words.get(COUNT).is_some_and(|&word| word != 0);
        match *request {
            Request::Stored if is_accepted => self.note_stored(words, reached),
            Request::Stored => self.note_odd(words, reply),
            Request::Turn { worker } => self.note_counting(words, worker, reply),
            Request::Init { .. } => self.add(LAID_OVER, is_accepted && old_word),
            Request::Run { .. } => self.add(RUN_OVER, is_accepted && old_word),
            _ if is_accepted => {
                let counted = Counted::of(words);
                let is_wrong = counted.is_some_and(|counted| counted.is_wrong());
                for (entry_point, name) in ON_WRONG {
                    self.add(name, is_wrong && entry_point == request.entry_point());
                }
            }
            _ => {}
        }
    }

    fn note_stored(&mut self, words: &[u16], reached: bool) {
        let chain = Chain::of(words).expect("the header was not refused");
        let is_broken = chain.end != End::Tail;
        let counted = Counted::of(words).expect("the header was not refused");
        let Counted { shape, count, size } = counted;
        let ends = [0, 1, shape.nodes - 3, shape.nodes - 2];
        for (name, end) in TOLD.into_iter().zip(ends) {
            self.add(name, count == end);
        }
        self.add(TOLD_1022, count == MAX_NODES - 2);
        self.add(BELOW, count < size);
        self.add(ABOVE, count > size);
        self.add(BROKEN, is_broken);
        self.add(FRESH_MOST, reached && counted.is_most());
        self.add(FRESH_MARKED, reached && chain.listed() < chain.nodes.len());
    }

    fn note_odd(&mut self, words: &[u16], reply: u64) {
        if reply != u64::from(ODD_HEADER) {
            return;
        }
        if let Some(shape) = odd_alone(words, COUNT) {
            let nodes = shape.nodes;
            let (names, edges) = match shape.layout {
                LAYOUT_1 => (ODD_IN_1, [1, nodes - 2, NONE]),
                _ => (ODD_COUNT, [nodes - 1, nodes, NONE]),
            };
            for (name, edge) in names.into_iter().zip(edges) {
                self.add(name, words[COUNT] == edge);
            }
        }
        if let Some(shape) = odd_alone(words, HEADER_WORDS - 1) {
            self.add(ODD_LAST[shape.layout as usize - 1], true);
        }
    }

    fn note_counting(&mut self, words: &[u16], worker: u16, reply: u64) {
        let Some(counted) = Counted::of(words).filter(|counted| worker < counted.shape.workers)
        else {
            return;
        };
        let record = &words[counted.shape.worker_at(worker)..][..WORKER_WORDS];
        let (stage, operation) = (record[STAGE], record[OPERATION]);
        let (is_most, is_none) = (counted.is_most(), counted.count == 0);
        let is_refused = |refusal: u16| reply == u64::from(refusal);
        if Values::read(reply).is_some() {
            let moves_to_15 = stage == 14 && Values::read(reply).is_some_and(|v| v.first == 15);
            self.add(TAKEN, moves_to_15 && is_most);
            self.add(UNLINKED, stage == 18 && is_none);
            self.note_counted(stage, &counted);
        } else if is_refused(BROKEN_COUNT) {
            self.add(UP[2], stage == 15);
            self.add(UP[3], stage == 15 && counted.count == MAX_NODES - 2);
            self.add(DOWN[2], stage == 16);
            self.add(RIGHT_REFUSED, !counted.is_wrong());
        }
        self.add(
            RECORD[0],
            is_refused(BROKEN_RECORD) && stage == 15 && is_most,
        );
        self.add(
            RECORD[1],
            is_refused(BROKEN_RECORD) && stage == 16 && is_none,
        );
        let is_broken = is_refused(BROKEN_CHAIN);
        self.add(LINK[0], is_broken && operation == ADD && is_most);
        self.add(LINK[1], is_broken && operation == REMOVE && is_none);
    }

    /// An accepted turn; at 15 and 16 it counts.
    fn note_counted(&mut self, stage: u16, counted: &Counted) {
        let Counted { shape, count, .. } = *counted;
        self.add(UP[0], stage == 15 && count == 0);
        self.add(UP[1], stage == 15 && count == shape.nodes - 3);
        self.add(DOWN[0], stage == 16 && counted.is_most());
        self.add(DOWN[1], stage == 16 && count == 1);
        for (name, counts_at) in WRONG.into_iter().zip([15, 16]) {
            self.add(name, stage == counts_at && counted.is_wrong());
        }
    }
}
