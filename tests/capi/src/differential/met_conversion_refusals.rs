//! What must have been met of refused conversions: each limit, each worker and label that may be the
//! one, and faults that come later in the order.

use model::arena::*;

use super::chain::{Chain, End};
use super::layouts::AnyShape;
use super::met::Met;
use super::met_conversions::Conversion;

// By way: to layout 2, and to layout 1.
const SHORT: [[&str; 2]; 2] = [
    [
        "to 2 refused 1: one word short",
        "to 2 refused 1: fewer than 8 words",
    ],
    [
        "to 1 refused 1: one word short",
        "to 1 refused 1: fewer than 8 words",
    ],
];
const HEADER: [[&str; 3]; 2] = [
    [
        "to 2 refused 2: a good header of layout 2",
        "to 2 refused 2: word 6 in layout 1",
        "to 2 refused 2: busy workers too",
    ],
    [
        "to 1 refused 2: a good header of layout 1",
        "to 1 refused 2: a count of N less 1",
        "to 1 refused 2: busy workers too",
    ],
];
const ABOVE_25: [[&str; 6]; 2] = [
    [
        "to 2 refused 6: worker 0 alone",
        "to 2 refused 6: the last of some workers alone",
        "to 2 refused 6: a busy worker before it",
        "to 2 refused 6: a busy worker behind it",
        "to 2 refused 6: no stage above 26",
        "to 2 refused 6: a broken chain too",
    ],
    [
        "to 1 refused 6: worker 0 alone",
        "to 1 refused 6: the last of some workers alone",
        "to 1 refused 6: a busy worker before it",
        "to 1 refused 6: a busy worker behind it",
        "to 1 refused 6: no stage above 26",
        "to 1 refused 6: a broken chain too",
    ],
];
const BUSY_AT: [[&str; 5]; 2] = [
    [
        "to 2 refused 4: worker 0 alone",
        "to 2 refused 4: the last of some workers alone",
        "to 2 refused 4: at 1 alone",
        "to 2 refused 4: at 25 alone",
        "to 2 refused 4: a broken chain too",
    ],
    [
        "to 1 refused 4: worker 0 alone",
        "to 1 refused 4: the last of some workers alone",
        "to 1 refused 4: at 1 alone",
        "to 1 refused 4: at 25 alone",
        "to 1 refused 4: a broken chain too",
    ],
];
const CHAIN: [[&str; 5]; 2] = [
    [
        "to 2 refused 7: a link",
        "to 2 refused 7: a key",
        "to 2 refused 7: at a marked node",
        "to 2 refused 7: a short target too",
        "to 2 refused 7: a bad length before it too",
    ],
    [
        "to 1 refused 7: a link",
        "to 1 refused 7: a key",
        "to 1 refused 7: at a marked node",
        "to 1 refused 7: a short target too",
        "to 1 refused 7: a bad length before it too",
    ],
];
const ROOM: [[&str; 4]; 2] = [
    [
        "to 2 refused 8: target one word short",
        "to 2 refused 8: no target",
        "to 2 refused 8: room for the source",
        "to 2 refused 8: a bad length too",
    ],
    [
        "to 1 refused 8: target one word short",
        "to 1 refused 8: no target",
        "to 1 refused 8: room for fewer nodes",
        "to 1 refused 8: a bad length too",
    ],
];
const FEW: [&str; 4] = [
    "to 2 refused 8: N less 1 lengths alone",
    "to 2 refused 8: no lengths alone",
    "to 2 refused 8: lengths for all labels",
    "to 2 refused 8: both too short",
];
const BAD: [[&str; 7]; 2] = [
    [
        "to 2 refused 5: length 0 alone",
        "to 2 refused 5: length 65,535 alone",
        "to 2 refused 5: key and length 65,536 alone",
        "to 2 refused 5: the first of some labels alone",
        "to 2 refused 5: the last of some labels alone",
        "to 2 refused 5: key 65,535",
        "to 2 refused 5: key 65,535, length 1, alone",
    ],
    [
        "to 1 refused 5: length 0 alone",
        "to 1 refused 5: length 65,535 alone",
        "to 1 refused 5: length 2 alone",
        "to 1 refused 5: the first of some labels alone",
        "to 1 refused 5: the last of some labels alone",
        "to 1 refused 5: key 65,535",
        "to 1 refused 5: key 65,535, length 1, alone",
    ],
];

/// In the order in which they are printed.
pub fn all() -> impl Iterator<Item = &'static str> {
    let sources = SHORT
        .into_iter()
        .flatten()
        .chain(HEADER.into_iter().flatten());
    let workers = ABOVE_25
        .into_iter()
        .flatten()
        .chain(BUSY_AT.into_iter().flatten());
    let rooms = CHAIN
        .into_iter()
        .flatten()
        .chain(ROOM.into_iter().flatten());
    let lengths = FEW.into_iter().chain(BAD.into_iter().flatten());
    sources.chain(workers).chain(rooms).chain(lengths)
}

impl Met {
    pub fn note_no_conversion(&mut self, conversion: &Conversion, reply: u64) {
        let Conversion { way, source, .. } = *conversion;
        let Some(chain) = &conversion.chain else {
            return self.note_bad_header(way, source, reply);
        };
        match reply as u16 {
            ODD_HEADER => {
                self.add(HEADER[way][0], true);
                let is_busy = stages(source, chain.shape).iter().any(|&stage| stage != 0);
                self.add(HEADER[way][2], is_busy);
            }
            BROKEN_RECORD => self.note_broken_record(way, source, chain),
            BUSY => self.note_busy(way, source, chain),
            BROKEN_CHAIN => self.note_broken_chain(conversion, chain),
            NO_ROOM => self.note_no_target(conversion, chain),
            BAD_CALL => self.note_bad_label(conversion, chain),
            _ => {}
        }
    }

    fn note_bad_header(&mut self, way: usize, source: &[u16], reply: u64) {
        let is_short = reply == u64::from(SHORT_ARENA);
        self.add(SHORT[way][1], is_short && source.len() < HEADER_WORDS);
        let Some(&header) = source.first_chunk::<HEADER_WORDS>() else {
            return;
        };
        let Some(shape) = Shape::new(header[1], header[2]) else {
            return;
        };
        let shape: AnyShape = match way {
            0 => shape.in_layout::<LAYOUT_1>().into(),
            _ => shape.into(),
        };
        let is_good = header == shape.header(header[COUNT]);
        self.add(SHORT[way][0], is_good && source.len() + 1 == shape.total());
        let edge = if way == 0 { 1 } else { shape.nodes - 1 };
        let is_odd_count = header == shape.header(edge);
        self.add(HEADER[way][1], !is_short && is_odd_count);
    }

    fn note_broken_record(&mut self, way: usize, source: &[u16], chain: &Chain) {
        let stages = stages(source, chain.shape);
        let [first_alone, last_alone, before, behind, at_26, broken] = ABOVE_25[way];
        let above = places(&stages, |&stage| stage > 25);
        let busy = places(&stages, |&stage| (1..=25).contains(&stage));
        let last = stages.len() - 1;
        self.add(first_alone, above == [0] && last != 0);
        self.add(last_alone, above == [last] && last != 0);
        let first = above.first();
        self.add(before, !busy.is_empty() && busy.first() < first);
        self.add(behind, busy.last() > first);
        self.add(at_26, stages.iter().all(|&stage| stage <= 26));
        self.add(broken, chain.end != End::Tail);
    }

    fn note_busy(&mut self, way: usize, source: &[u16], chain: &Chain) {
        let stages = stages(source, chain.shape);
        let [first_alone, last_alone, at_1, at_25, broken] = BUSY_AT[way];
        let busy = places(&stages, |&stage| stage != 0);
        let last = stages.len() - 1;
        self.add(first_alone, busy == [0] && last != 0);
        self.add(last_alone, busy == [last] && last != 0);
        let is_alone_at = |wanted: u16| busy.len() == 1 && stages[busy[0]] == wanted;
        self.add(at_1, is_alone_at(1));
        self.add(at_25, is_alone_at(25));
        self.add(broken, chain.end != End::Tail);
    }

    fn note_broken_chain(&mut self, conversion: &Conversion, chain: &Chain) {
        let [link, key, marked, short, bad] = CHAIN[conversion.way];
        let last = chain.before(chain.nodes.len());
        self.add(link, chain.end == End::Link);
        self.add(key, matches!(chain.end, End::Key(_)));
        let is_marked = match chain.end {
            End::Key(node) => chain.is_marked(node),
            _ => last != HEAD && chain.is_marked(last),
        };
        self.add(marked, is_marked);
        self.add(short, conversion.target.len() < chain.shape.other().total());
        self.add(bad, has_bad(conversion, chain));
    }

    fn note_no_target(&mut self, conversion: &Conversion, chain: &Chain) {
        let [one_short, empty, some, bad] = ROOM[conversion.way];
        let (room, lent) = (conversion.target.len(), conversion.lengths.len());
        let (shape, new_shape) = (chain.shape, chain.shape.other());
        let is_short = room < new_shape.total();
        self.add(one_short, room + 1 == new_shape.total());
        self.add(empty, room == 0);
        let room_for_source = conversion.way == 0 && room >= shape.total();
        let room_for_fewer = conversion.way == 1 && room >= new_shape.node_at(2);
        self.add(some, is_short && (room_for_source || room_for_fewer));
        self.add(bad, has_bad(conversion, chain));
        if conversion.way == 0 {
            let nodes = usize::from(shape.nodes);
            self.add(FEW[0], !is_short && lent + 1 == nodes);
            self.add(FEW[1], !is_short && lent == 0);
            let needed = chain
                .listed_nodes()
                .into_iter()
                .max()
                .map_or(0, |node| node + 1);
            self.add(FEW[2], !is_short && lent >= needed.into());
            self.add(FEW[3], is_short && lent < nodes);
        }
    }

    fn note_bad_label(&mut self, conversion: &Conversion, chain: &Chain) {
        let [no_length, greatest, beside, first, last, key, key_alone] = BAD[conversion.way];
        let labels = conversion.labels(chain);
        let bad = places(&labels, |&label| !conversion.is_good(label));
        self.add(
            key,
            labels.last().is_some_and(|label| label.key == TAIL_KEY),
        );
        let &[place] = &bad[..] else {
            return;
        };
        let Label { key, length } = labels[place];
        let end = u32::from(key) + u32::from(length);
        self.add(no_length, length == 0);
        self.add(greatest, length == 65_535);
        let is_beside = if conversion.way == 0 {
            end == MAX_END + 1 && key != TAIL_KEY
        } else {
            length == 2 && key != TAIL_KEY
        };
        self.add(beside, is_beside);
        self.add(first, place == 0 && labels.len() > 1);
        self.add(last, place != 0 && place + 1 == labels.len());
        self.add(key_alone, key == TAIL_KEY && length == 1);
    }
}

fn stages(source: &[u16], shape: AnyShape) -> Vec<u16> {
    let workers = 0..shape.workers;
    workers
        .map(|worker| source[shape.worker_at(worker) + STAGE])
        .collect()
}

/// Where such things stand in the row.
fn places<T>(row: &[T], is_such: impl Fn(&T) -> bool) -> Vec<usize> {
    (0..row.len())
        .filter(|&place| is_such(&row[place]))
        .collect()
}

fn has_bad(conversion: &Conversion, chain: &Chain) -> bool {
    let labels = conversion.labels(chain);
    labels.iter().any(|&label| !conversion.is_good(label))
}
