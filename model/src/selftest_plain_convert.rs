//! The converters both ways that they are written, on many arenas, and beside document 02's own words:
//! which word of a target is which, the way back, and the set.

use crate::arena::*;
use crate::convert;
use crate::plain_convert;
use crate::rng::Rng;
use crate::selftest::{fresh, Checks};
use crate::selftest_convert::{in_layout_1, in_layout_2, keys, old_words};

const INPUTS: u64 = 20_000;

pub fn plain_converters(checks: &mut Checks) {
    let mut met = Met::default();
    let (mut is_same, mut is_due) = (true, true);
    for number in 0..INPUTS {
        let mut rng = Rng::new(17, number);
        let source = any_source(&mut rng);
        let lengths = any_lengths(&mut rng, &source);
        let room = any_room(&mut rng, &source);
        let mut target: Vec<u16> = (0..room).map(|_| rng.word(0, 65_535)).collect();
        let before = target.clone();
        let to_2 = source[0] == LAYOUT_1;
        let reply = if to_2 {
            convert::to_layout_2(&source, &lengths, &mut target)
        } else {
            convert::to_layout_1(&source, &mut target)
        };
        let mut plain_target = before.clone();
        let plain_reply = if to_2 {
            plain_convert::to_layout_2(&source, &lengths, &mut plain_target)
        } else {
            plain_convert::to_layout_1(&source, &mut plain_target)
        };
        is_same &= plain_reply == reply && plain_target == target;
        met.note(&source, &target, reply);
        is_due &= match reply {
            Ok(()) => is_converted(&source, &lengths, &before, &target),
            Err(_) => target == before,
        };
    }
    checks.check("both ways of each converter do the same", is_same);
    checks.check("each word of a target is as documented", is_due);
    met.check(checks);
}

/// An arena of either layout: mostly at rest with a good chain, its other words any.
fn any_source(rng: &mut Rng) -> Vec<u16> {
    let shape = Shape {
        workers: rng.word(1, 4),
        nodes: *rng.pick(&[3, 4, 6, 9, 20]),
    };
    let mut source = fresh(shape);
    source[COUNT] = rng.word(0, shape.max_count());
    for word in &mut source[HEADER_WORDS..] {
        *word = rng.word(0, 65_535);
    }
    for worker in 0..shape.workers {
        let stage = if rng.chance(4) { rng.word(0, 27) } else { 0 };
        source[shape.worker_at(worker) + STAGE] = stage;
    }
    let last = shape.node_at(link_chain(rng, &mut source, shape));
    match rng.range(0, 29) {
        0 => source[last + NEXT] = rng.word(0, shape.nodes + 1),
        1..=2 => source[last + KEY] = TAIL_KEY,
        _ => {}
    }
    if rng.chance(50) {
        source = old_words(&source);
    }
    match rng.range(0, 29) {
        0 => source[7] = 1,
        1 => source.truncate(source.len() - 1),
        2..=4 => source.push(7),
        _ => {}
    }
    source
}

/// Labels over some nodes in any order, a few of them marked; gives the last node of the chain.
fn link_chain(rng: &mut Rng, source: &mut [u16], shape: Shape) -> u16 {
    let mut order: Vec<u16> = (2..shape.nodes).collect();
    for place in (1..order.len()).rev() {
        order.swap(place, rng.index(place + 1));
    }
    order.truncate(rng.index(order.len() + 1));
    let step = *rng.pick(&[1, 9, 3_000]);
    let (mut last, mut key) = (HEAD, 0);
    source[shape.node_at(HEAD) + KEY] = key;
    for &node in &order {
        key += rng.word(1, step);
        let at = shape.node_at(node);
        source[at + KEY] = key;
        if rng.chance(15) {
            source[at + MARK] = rng.word(1, 65_535);
        } else {
            source[at + MARK] = 0;
            source[at + LENGTH] = if rng.chance(5) { rng.word(0, 3) } else { 1 };
        }
        source[shape.node_at(last) + NEXT] = node;
        last = node;
    }
    source[shape.node_at(last) + NEXT] = TAIL;
    last
}

/// For an arena of layout 1: mostly good ones, at any edge of their range.
fn any_lengths(rng: &mut Rng, source: &[u16]) -> Vec<u16> {
    let Some(shape) = OldShape::read(source) else {
        return vec![1; 9];
    };
    let bad = *rng.pick(&[0, 0, 10]);
    let length = |node: u16| {
        let end = TAIL_KEY - source[shape.node_at(node) + KEY];
        match rng.range(0, 99) {
            number if number < bad => *rng.pick(&[0, end.wrapping_add(1), 65_535]),
            number if number < 30 => end.clamp(1, 65_534),
            _ => rng.word(1, end.clamp(1, 65_534)),
        }
    };
    let mut lengths: Vec<u16> = (0..shape.nodes).map(length).collect();
    match rng.range(0, 19) {
        0 => lengths.truncate(rng.index(lengths.len())),
        1 => lengths.extend([0; 3]),
        2..=4 => lengths.fill(1),
        _ => {}
    }
    lengths
}

/// Mostly as much as the converted arena takes, or more.
fn any_room(rng: &mut Rng, source: &[u16]) -> usize {
    let new = OldShape::read(source).map(|shape| shape.in_layout::<LAYOUT_2>().total());
    let old = Shape::read(source).map(|shape| shape.in_layout::<LAYOUT_1>().total());
    let total = new.or(old).unwrap_or(30);
    match rng.range(0, 19) {
        0 => total - 1,
        1 => rng.index(total),
        2..=9 => total + rng.index(9),
        _ => total,
    }
}

/// Whether each word of the target is what document 02 has there.
fn is_converted(source: &[u16], lengths: &[u16], before: &[u16], target: &[u16]) -> bool {
    match (OldShape::read(source), Shape::read(source)) {
        (Some(old), _) => {
            is_copied(source, old, before, target, old.in_layout::<LAYOUT_2>())
                && has_lengths(source, old, lengths, target)
                && goes_back(source, old, lengths, target)
        }
        (_, Some(new)) => {
            is_copied(source, new, before, target, new.in_layout::<LAYOUT_1>())
                && target[COUNT] == 0
                && set(source).iter().all(|label| label.length == 1)
                && goes_on(source, new, target)
        }
        _ => false,
    }
}

/// Whether the target has all words that both layouts have, the same set, and its words past the total.
fn is_copied<const FROM: u16, const TO: u16>(
    source: &[u16],
    old: ShapeIn<FROM>,
    before: &[u16],
    target: &[u16],
    new: ShapeIn<TO>,
) -> bool {
    let is_kept = |node: u16| {
        let (from, to) = (old.node_at(node), new.node_at(node));
        source[from..from + 4] == target[to..to + 4]
    };
    let records_at = HEADER_WORDS..old.node_at(0);
    ShapeIn::read(target) == Some(new)
        && target.len() == before.len()
        && target[new.total()..] == before[new.total()..]
        && target[records_at.clone()] == source[records_at]
        && (0..old.nodes).all(is_kept)
        && keys(source) == keys(target)
}

/// The count is the set's size, and each of its nodes has its length, which is a good one; of others it
/// is 0. Where keys rise, none of the set's is a second time on the chain.
fn has_lengths(source: &[u16], old: OldShape, lengths: &[u16], target: &[u16]) -> bool {
    let set = set(target);
    let new: Shape = old.in_layout();
    let chain = chain_of(source, old);
    let is_right = |node: u16| {
        let record = &target[new.node_at(node)..];
        let is_stored = chain.contains(&node) && record[MARK] == 0;
        let due = if is_stored {
            lengths[usize::from(node)]
        } else {
            0
        };
        record[LENGTH] == due
    };
    let is_good = |label: &Label| is_call_length(ADD, label.key, label.length);
    usize::from(target[COUNT]) == set.len()
        && set.iter().all(is_good)
        && (0..new.nodes).all(is_right)
}

/// The nodes between Head and Tail.
fn chain_of<const LAYOUT: u16>(source: &[u16], shape: ShapeIn<LAYOUT>) -> Vec<u16> {
    let next = |node: u16| source[shape.node_at(node) + NEXT];
    let mut chain = Vec::new();
    let mut node = next(HEAD);
    while node != TAIL && chain.len() < 1_024 {
        chain.push(node);
        node = next(node);
    }
    chain
}

/// With every length 1, to layout 2 and back gives the source's words; another way back gives none.
fn goes_back(source: &[u16], old: OldShape, lengths: &[u16], target: &[u16]) -> bool {
    let words = &source[..old.total()];
    let target = &target[..usize::from(target[5])];
    let has_ones = set(target).iter().all(|label| label.length == 1);
    let due = if has_ones {
        Ok(words.to_vec())
    } else {
        Err(BAD_CALL)
    };
    let ones = vec![1; lengths.len()];
    let with_ones = in_layout_2(source, &ones, target.len()).and_then(Result::ok);
    let back = with_ones.and_then(|new| in_layout_1(&new, old.total()));
    in_layout_1(target, old.total()) == Some(due) && back == Some(Ok(words.to_vec()))
}

/// Back in layout 2, count and other nodes' lengths are put in order.
fn goes_on(source: &[u16], new: Shape, target: &[u16]) -> bool {
    let ones = vec![1; usize::from(new.nodes)];
    let again = in_layout_2(target, &ones, new.total()).and_then(Result::ok);
    again.is_some_and(|again| set(&again) == set(source))
}

/// What the inputs are meant to meet.
#[derive(Default)]
struct Met {
    refusals: [[u32; 9]; 2],
    accepted: [u32; 2],
    marked: [u32; 2],
    odd_records: [u32; 2],
    longest: u32,
}

impl Met {
    fn note(&mut self, source: &[u16], target: &[u16], reply: Result<(), u16>) {
        let way = usize::from(source[0] == LAYOUT_2);
        if let Err(number) = reply {
            self.refusals[way][usize::from(number)] += 1;
            return;
        }
        let old_chain = OldShape::read(source).map(|shape| chain_of(source, shape));
        let chain = old_chain.or(Shape::read(source).map(|shape| chain_of(source, shape)));
        let has_marked = chain.is_some_and(|chain| keys(source).len() < chain.len());
        self.accepted[way] += 1;
        self.marked[way] += u32::from(has_marked);
        self.odd_records[way] += u32::from(source[HEADER_WORDS + OPERATION] > CONTAINS);
        let ends = |label: &Label| u32::from(label.key) + u32::from(label.length) == MAX_END;
        self.longest += u32::from(way == 0 && set(target).iter().any(ends));
    }

    fn check(&self, checks: &mut Checks) {
        for way in [0, 1] {
            for number in [1, 2, 6, 4, 7, 8, 5] {
                let count = self.refusals[way][number];
                let name = format!("way {way} refused {number}: {count}");
                checks.check(&name, count > 50);
            }
            for (name, counts) in [
                ("accepted", self.accepted),
                ("a marked node on the chain", self.marked),
                ("odd records", self.odd_records),
            ] {
                let name = format!("way {way}, {name}: {}", counts[way]);
                checks.check(&name, counts[way] > 500);
            }
        }
        let name = format!("key and length 65,535: {}", self.longest);
        checks.check(&name, self.longest > 500);
    }
}
