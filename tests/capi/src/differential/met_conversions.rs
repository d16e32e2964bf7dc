//! What must have been met of accepted conversions, of the way back, and of work on what was converted.

use model::arena::*;

use super::chain::Chain;
use super::layouts::AnyShape;
use super::met::Met;
use super::met_conversion_refusals as refusals;
use super::requests::Request;
use crate::library::{Values, FINISHED};

// By way: to layout 2, and to layout 1.
const EMPTY: [&str; 2] = ["to 2: no label", "to 1: no label"];
const ONE: [&str; 2] = ["to 2: one label", "to 1: one label"];
const FULL: [&str; 2] = ["to 2: N less 2 labels", "to 1: N less 2 labels"];
const LARGEST: [&str; 2] = [
    "to 2: 1,022 labels, 8 workers",
    "to 1: 1,022 labels, 8 workers",
];
const FROM_FRESH: [&str; 2] = ["to 2: labels, from fresh", "to 1: labels, from fresh"];
const UNORDERED: [&str; 2] = [
    "to 2: chain not by node numbers",
    "to 1: chain not by node numbers",
];
const MARKED: [&str; 2] = [
    "to 2: a marked node on the chain",
    "to 1: a marked node on the chain",
];
const MARKED_ALONE: [&str; 2] = [
    "to 2: marked nodes alone on the chain",
    "to 1: marked nodes alone on the chain",
];
const IDLE: [&str; 2] = [
    "to 2: an idle worker with odd words",
    "to 1: an idle worker with odd words",
];
const EIGHTH: [&str; 2] = [
    "to 2: an idle worker's eighth word",
    "to 1: an idle worker's eighth word",
];
const OFF_CHAIN: [&str; 2] = [
    "to 2: an unmarked node off the chain, odd words",
    "to 1: an unmarked node off the chain, odd words",
];
const OFF_MARKED: [&str; 2] = [
    "to 2: a marked node off the chain, odd words",
    "to 1: a marked node off the chain, odd words",
];
const OWNED: [&str; 2] = ["to 2: an owner on the chain", "to 1: an owner on the chain"];
const TAIL_WORDS: [&str; 2] = ["to 2: Tail's words odd", "to 1: Tail's words odd"];
const ALL_LONGER: [&str; 2] = [
    "to 2: source and target longer than totals",
    "to 1: source and target longer than totals",
];
const FITS: [&str; 2] = [
    "to 2: target of just the total",
    "to 1: target of just the total",
];
const ARENA_BEFORE: [&str; 2] = [
    "to 2: target that was an arena",
    "to 1: target that was an arena",
];
const OTHERS_BAD: [[&str; 5]; 2] = [
    [
        "to 2: a bad length of a marked node",
        "to 2: a bad length of an unmarked one off it",
        "to 2: a bad length of a marked one off it",
        "to 2: a bad length of Head",
        "to 2: a bad length of Tail",
    ],
    [
        "to 1: another length of a marked node",
        "to 1: another length of an unmarked one off it",
        "to 1: another length of a marked one off it",
        "to 1: another length of Head",
        "to 1: another length of Tail",
    ],
];
const JUST_N: &str = "to 2: N lengths";
const MORE: &str = "to 2: more than N lengths";
const ALL_ONES: &str = "to 2: labels, each of length 1";
const ALL_OTHERS: &str = "to 2: labels, none of length 1";
const LENGTHS_DIFFER: &str = "to 2: labels of different lengths";
const LONGEST: &str = "to 2: a label of length 65,534";
const END_65535: &str = "to 2: key and length 65,535";
const END_AT_65534: &str = "to 2: key 65,534";
const SHORTER: &str = "to 1: target shorter than the source";
const COUNT_WRONG: [&str; 4] = [
    "to 1: a count below the set's size",
    "to 1: a count above the set's size",
    "to 1: a count of 0 with labels",
    "to 1: a count of N less 2, fewer labels",
];
const BACK: [&str; 3] = [
    "back from 2, each label of length 1",
    "back from 2, some label longer",
    "back from 1",
];
const WORK: [&str; 3] = [
    "from 1 to 2, then an add answered yes",
    "from 1 to 2, then a remove answered yes",
    "from 1 to 2, then a contains answered yes",
];
const NO_WORK: [&str; 2] = [
    "from 2 to 1, then a start refused 12",
    "from 2 to 1, then a turn refused 12",
];

const BOTH_WAYS: [[&str; 2]; 17] = [
    EMPTY,
    ONE,
    FULL,
    LARGEST,
    FROM_FRESH,
    UNORDERED,
    MARKED,
    MARKED_ALONE,
    IDLE,
    EIGHTH,
    OFF_CHAIN,
    OFF_MARKED,
    OWNED,
    TAIL_WORDS,
    ALL_LONGER,
    FITS,
    ARENA_BEFORE,
];
const ONE_WAY: [&str; 13] = [
    JUST_N,
    MORE,
    ALL_ONES,
    ALL_OTHERS,
    LENGTHS_DIFFER,
    LONGEST,
    END_65535,
    END_AT_65534,
    SHORTER,
    COUNT_WRONG[0],
    COUNT_WRONG[1],
    COUNT_WRONG[2],
    COUNT_WRONG[3],
];

/// In the order in which they are printed.
pub fn all() -> impl Iterator<Item = &'static str> {
    let accepted = BOTH_WAYS.into_iter().flatten();
    let accepted = accepted.chain(OTHERS_BAD.into_iter().flatten());
    let accepted = accepted
        .chain(ONE_WAY)
        .chain(BACK)
        .chain(WORK)
        .chain(NO_WORK);
    accepted.chain(refusals::all())
}

/// A request for a conversion, and the chain of its source.
pub struct Conversion<'a> {
    /// 0 to layout 2, 1 to layout 1.
    pub way: usize,
    pub source: &'a [u16],
    /// None are lent on the way back.
    pub lengths: &'a [u16],
    pub target: &'a [u16],
    /// None if the header is not good.
    pub chain: Option<Chain<'a>>,
}

impl<'a> Conversion<'a> {
    /// None for another request.
    pub fn of(source: &'a [u16], request: &'a Request) -> Option<Conversion<'a>> {
        let (way, lengths, target) = match request {
            Request::ToLayout2 { lengths, target } => (0, &lengths[..], target),
            Request::ToLayout1 { target } => (1, &[][..], target),
            _ => return None,
        };
        Some(Conversion {
            way,
            source,
            lengths,
            target,
            chain: Chain::of_any(source),
        })
    }

    /// The length of a node: the one lent for it, or on the way back its fifth word. One that is missing
    /// is not a bad one.
    pub fn length(&self, chain: &Chain, node: u16) -> u16 {
        match self.way {
            0 => self.lengths.get(usize::from(node)).copied().unwrap_or(1),
            _ => chain.label(node).length,
        }
    }

    /// Whether a label may have this length.
    pub fn is_good(&self, label: Label) -> bool {
        let Label { key, length } = label;
        is_call_length(ADD, key, length) && (self.way == 0 || length == 1)
    }

    /// The labels of the set as the conversion has them.
    pub fn labels(&self, chain: &Chain) -> Vec<Label> {
        let label = |node: u16| Label {
            key: chain.word(node, KEY),
            length: self.length(chain, node),
        };
        chain.listed_nodes().into_iter().map(label).collect()
    }
}

impl Met {
    /// Notes a conversion and its reply; `reached` is for sources reached from a fresh arena.
    pub fn note_conversion(&mut self, conversion: &Conversion, reply: u64, reached: bool) {
        match &conversion.chain {
            Some(chain) if reply == 0 => {
                self.note_sets(conversion, chain, reached);
                self.note_others(conversion, chain);
                self.note_rooms(conversion, chain);
                if conversion.way == 0 {
                    self.note_lengths(conversion, chain);
                } else {
                    self.note_dropped_count(conversion, chain);
                }
            }
            _ => self.note_no_conversion(conversion, reply),
        }
    }

    fn note_sets(&mut self, conversion: &Conversion, chain: &Chain, reached: bool) {
        let (way, shape, size) = (conversion.way, chain.shape, chain.listed());
        let is_full = size == usize::from(shape.nodes) - 2;
        self.add(EMPTY[way], chain.nodes.is_empty());
        self.add(ONE[way], size == 1);
        self.add(FULL[way], is_full);
        let is_largest = (shape.workers, shape.nodes) == (MAX_WORKERS, MAX_NODES);
        self.add(LARGEST[way], is_full && is_largest);
        self.add(FROM_FRESH[way], reached && size != 0);
        self.add(UNORDERED[way], !chain.nodes.is_sorted());
        self.add(MARKED[way], size != 0 && size < chain.nodes.len());
        self.add(MARKED_ALONE[way], size == 0 && !chain.nodes.is_empty());
    }

    /// What is copied, or dropped, and not looked at.
    fn note_others(&mut self, conversion: &Conversion, chain: &Chain) {
        let (way, shape) = (conversion.way, chain.shape);
        for worker in 0..shape.workers {
            let record = &conversion.source[shape.worker_at(worker)..][..WORKER_WORDS];
            self.add(IDLE[way], record != IDLE_WORKER);
            self.add(EIGHTH[way], record[CALL_LENGTH] != 0);
        }
        let row = chain.row_of(&chain.nodes);
        for (node, is_on_chain) in (0..).zip(row) {
            let is_end = node == HEAD || node == TAIL;
            let is_marked = chain.is_marked(node);
            let is_odd = [KEY, NEXT, OWNER]
                .iter()
                .all(|&place| chain.word(node, place) > 9);
            let is_off = !is_on_chain && !is_end;
            self.add(OFF_CHAIN[way], is_off && !is_marked && is_odd);
            self.add(OFF_MARKED[way], is_off && is_marked && is_odd);
            self.add(OWNED[way], is_on_chain && chain.word(node, OWNER) != 0);
            self.add(TAIL_WORDS[way], node == TAIL && is_odd);
            let length = conversion.length(chain, node);
            let key = chain.word(node, KEY);
            let is_bad = !conversion.is_good(Label { key, length });
            let [marked, off, off_marked, head, tail] = OTHERS_BAD[way];
            self.add(marked, is_bad && is_on_chain && is_marked);
            self.add(off, is_bad && is_off && !is_marked);
            self.add(off_marked, is_bad && is_off && is_marked);
            self.add(head, is_bad && node == HEAD);
            self.add(tail, node == TAIL && length != 1);
        }
    }

    fn note_rooms(&mut self, conversion: &Conversion, chain: &Chain) {
        let (way, source, target) = (conversion.way, conversion.source, conversion.target);
        let total = chain.shape.other().total();
        let is_longer = source.len() > chain.shape.total() && target.len() > total;
        self.add(ALL_LONGER[way], is_longer);
        self.add(FITS[way], target.len() == total);
        self.add(ARENA_BEFORE[way], AnyShape::check(target).is_ok());
        self.add(SHORTER, way == 1 && target.len() < source.len());
    }

    fn note_lengths(&mut self, conversion: &Conversion, chain: &Chain) {
        let lent = conversion.lengths.len();
        self.add(JUST_N, lent == usize::from(chain.shape.nodes));
        self.add(MORE, lent > usize::from(chain.shape.nodes));
        let labels = conversion.labels(chain);
        if let Some(first) = labels.first() {
            let ones = labels.iter().filter(|label| label.length == 1).count();
            self.add(ALL_ONES, ones == labels.len());
            self.add(ALL_OTHERS, ones == 0);
            let differs = |label: &Label| label.length != first.length;
            self.add(LENGTHS_DIFFER, labels.iter().any(differs));
        }
        for Label { key, length } in labels {
            self.add(LONGEST, length == 65_534);
            self.add(END_65535, u32::from(key) + u32::from(length) == MAX_END);
            self.add(END_AT_65534, key == 65_534);
        }
    }

    fn note_dropped_count(&mut self, conversion: &Conversion, chain: &Chain) {
        let count = usize::from(conversion.source[COUNT]);
        let (size, most) = (chain.listed(), usize::from(chain.shape.max_count()));
        self.add(COUNT_WRONG[0], count < size);
        self.add(COUNT_WRONG[1], count > size);
        self.add(COUNT_WRONG[2], count == 0 && size != 0);
        self.add(COUNT_WRONG[3], count == most && size < most);
    }

    /// Notes a conversion of what was converted from this layout, and whether it was to be accepted.
    pub fn note_way_back(&mut self, layout: u16, is_due: bool) {
        let place = match (layout, is_due) {
            (LAYOUT_2, _) => 2,
            (_, is_due) => usize::from(!is_due),
        };
        self.add(BACK[place], true);
    }

    /// Notes a call that ends on a converted arena, by what its worker's record held, and any entry in the
    /// old layout.
    pub fn note_work(&mut self, words: &[u16], shape: AnyShape, request: &Request, reply: u64) {
        let is_refused = reply == u64::from(OLD_LAYOUT);
        match (request, Values::read(reply)) {
            (&Request::Turn { worker }, Some(values)) => {
                let operation = words[shape.worker_at(worker) + OPERATION];
                let is_yes = (values.report, values.first) == (FINISHED, 1);
                for (name, call) in WORK.into_iter().zip(ADD..=CONTAINS) {
                    self.add(name, is_yes && operation == call);
                }
            }
            (Request::Start { .. }, _) => self.add(NO_WORK[0], is_refused),
            _ => self.add(NO_WORK[1], is_refused),
        }
    }
}
