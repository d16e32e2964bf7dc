//! The converters, worked out by hand from document 02: what is rewritten, what is copied, and whose
//! lengths are judged and kept.

use crate::arena::*;
use crate::convert::{to_layout_1, to_layout_2};
use crate::count::stored;
use crate::free_run::longest_free_run;
use crate::selftest::{fresh, good_start, Checks};
use crate::turn::{turn, Report};

/// What a target holds before.
pub const UNTOUCHED: u16 = 4_321;

pub fn converters(checks: &mut Checks) {
    by_hand(checks);
    lengths_by_number(checks);
    marks(checks);
    counts(checks);
    idle_records(checks);
    between_calls(checks);
    goes_on(checks);
}

/// The whole target of so many words, or the refusal; None if a word past the total was written, or,
/// by a refusal, any.
pub fn in_layout_2(source: &[u16], lengths: &[u16], room: usize) -> Option<Result<Vec<u16>, u16>> {
    let mut target = vec![UNTOUCHED; room];
    let reply = to_layout_2(source, lengths, &mut target);
    unharmed(reply, target)
}

/// The same for the way back.
pub fn in_layout_1(source: &[u16], room: usize) -> Option<Result<Vec<u16>, u16>> {
    let mut target = vec![UNTOUCHED; room];
    let reply = to_layout_1(source, &mut target);
    unharmed(reply, target)
}

fn unharmed(reply: Result<(), u16>, mut target: Vec<u16>) -> Option<Result<Vec<u16>, u16>> {
    let total = reply.map_or(0, |()| usize::from(target[5]));
    let past = target.split_off(total);
    let is_unharmed = past.iter().all(|&word| word == UNTOUCHED);
    is_unharmed.then_some(reply.map(|()| target))
}

/// An arena of layout 1 as a depot may hold it, with nodes 3, 4 and 2 on the chain. Node 4 is marked,
/// node 5 is off the chain, owners are left over, and the idle worker's record holds other words.
#[rustfmt::skip]
const OLD: [u16; 40] = [
    1, 1, 6, 8, 16, 40, 0, 0,
    0, 7, 9, 3, 65_535, 12, 2, 44,
    0, 3, 0, 0,
    65_535, 1, 0, 0,
    9, 1, 0, 6,
    4, 4, 0, 0,
    7, 2, 1, 65_535,
    3, 77, 0, 8,
];

/// One for each node number, and more.
const LENGTHS: [u16; 8] = [11, 12, 5, 3, 14, 15, 99, 98];

/// The same arena in layout 2, with those lengths.
#[rustfmt::skip]
const NEW: [u16; 46] = [
    2, 1, 6, 8, 16, 46, 2, 0,
    0, 7, 9, 3, 65_535, 12, 2, 44,
    0, 3, 0, 0, 0,
    65_535, 1, 0, 0, 0,
    9, 1, 0, 6, 5,
    4, 4, 0, 0, 3,
    7, 2, 1, 65_535, 0,
    3, 77, 0, 8, 0,
];

fn by_hand(checks: &mut Checks) {
    let (old, new) = (OLD.to_vec(), NEW.to_vec());
    for room in [46, 47, 90] {
        let got = in_layout_2(&OLD, &LENGTHS, room);
        checks.check("to layout 2", got == Some(Ok(new.clone())));
    }
    checks.check(
        "just N lengths",
        in_layout_2(&OLD, &LENGTHS[..6], 46) == Some(Ok(new.clone())),
    );
    let longer = [&OLD[..], &[2, 1, 6]].concat();
    let got = in_layout_2(&longer, &LENGTHS, 50);
    checks.check("a longer source", got == Some(Ok(new)));
    checks.check("lengths 5 and 3", in_layout_1(&NEW, 46) == Some(Err(5)));
    // Back, only the set's lengths must be 1, and the count need not be right.
    let mut ones = NEW;
    for (node, length) in (0..).zip([0, 65_535, 1, 1, 9, 0]) {
        ones[16 + 5 * node + LENGTH] = length;
    }
    for count in 0..=4 {
        ones[COUNT] = count;
        for room in [40, 41, 90] {
            let got = in_layout_1(&ones, room);
            checks.check("to layout 1", got == Some(Ok(old.clone())));
        }
        let longer = [&ones[..], &[1, 1]].concat();
        let got = in_layout_1(&longer, 40);
        checks.check("a longer source", got == Some(Ok(old.clone())));
    }
    checks.check("1 is no 2", in_layout_2(&NEW, &[1; 6], 90) == Some(Err(2)));
    checks.check("2 is no 1", in_layout_1(&OLD, 90) == Some(Err(2)));
    checks.check("set of the old", keys(&OLD) == [4, 9]);
    checks.check("set of the new", keys(&NEW) == [4, 9]);
    checks.check("its lengths", set(&NEW).iter().map(|l| l.length).eq([3, 5]));
}

/// The keys of the set of an arena of either layout.
pub fn keys(arena: &[u16]) -> Vec<u16> {
    let old = OldShape::read(arena).map(|shape| set_places(arena, shape));
    let new = Shape::read(arena).map(|shape| set_places(arena, shape));
    let places = old.or(new).unwrap_or_default().into_iter();
    places.map(|at| arena[at + KEY]).collect()
}

/// The words in layout 1: another header, and no node has a fifth word.
pub fn old_words(new: &[u16]) -> Vec<u16> {
    let shape = Shape::read(new).expect("a good header");
    let old: OldShape = shape.in_layout();
    let mut words = [&old.header(0), &new[HEADER_WORDS..shape.node_at(0)]].concat();
    for record in new[shape.node_at(0)..].chunks_exact(NODE_WORDS) {
        words.extend(&record[..LENGTH]);
    }
    words
}

/// An arena of layout 1 whose chain goes through these nodes, with keys 10, 20, and so on.
pub fn chained(nodes: u16, chain: &[u16]) -> Vec<u16> {
    let shape = OldShape { workers: 3, nodes };
    let mut arena = old_words(&fresh(shape.in_layout()));
    let at = |node: u16| shape.node_at(node);
    let mut last = HEAD;
    for (place, &node) in (1..).zip(chain) {
        arena[at(last) + NEXT] = node;
        arena[at(node)..at(node) + 4].copy_from_slice(&[10 * place, TAIL, 0, 0]);
        last = node;
    }
    arena
}

/// The fifth words of all nodes.
fn fifth_words(converted: Option<Result<Vec<u16>, u16>>) -> Vec<u16> {
    let arena = converted.and_then(Result::ok).unwrap_or_default();
    let records = arena.get(32..).unwrap_or_default();
    records.chunks(5).map(|record| record[LENGTH]).collect()
}

/// A length goes by its node's number, wherever that stands in the chain; others are 0.
fn lengths_by_number(checks: &mut Checks) {
    let lengths = [1, 2, 3, 4, 5, 6, 7];
    for (chain, due) in [
        (&[][..], [0; 7]),
        (&[2], [0, 0, 3, 0, 0, 0, 0]),
        (&[6], [0, 0, 0, 0, 0, 0, 7]),
        (&[2, 3, 4, 5, 6], [0, 0, 3, 4, 5, 6, 7]),
        (&[6, 5, 4, 3, 2], [0, 0, 3, 4, 5, 6, 7]),
        (&[4, 2, 6], [0, 0, 3, 0, 5, 0, 7]),
    ] {
        let got = fifth_words(in_layout_2(&chained(7, chain), &lengths, 67));
        checks.check(&format!("{chain:?}: {got:?}"), got == due);
    }
}

/// A marked node's length is 0, whatever the mark word is, and it is not counted.
fn marks(checks: &mut Checks) {
    for mark in [1, 2, 256, 65_535] {
        for marked in 2..6_u16 {
            let mut source = chained(6, &[5, 2, 4, 3]);
            source[32 + 4 * usize::from(marked) + MARK] = mark;
            let mut lengths = [7; 6];
            // Not judged there, nor at the ends.
            for node in [HEAD, TAIL, marked] {
                lengths[usize::from(node)] = *[0, 65_535].get(usize::from(node)).unwrap_or(&0);
            }
            let converted = in_layout_2(&source, &lengths, 62);
            let counted = converted.clone().and_then(Result::ok).map(|a| a[COUNT]);
            checks.check("three are counted", counted == Some(3));
            let due = (0..6).map(|node| if node < 2 || node == marked { 0 } else { 7 });
            checks.check(
                "lengths of the three",
                fifth_words(converted).into_iter().eq(due),
            );
        }
    }
    // All of them marked, and Head too, which does not count.
    let mut source = chained(4, &[2, 3]);
    for node in [HEAD, 2, 3] {
        source[32 + 4 * usize::from(node) + MARK] = 1;
    }
    let converted = in_layout_2(&source, &[0; 4], 52);
    checks.check("no label", fifth_words(converted) == [0; 4]);
    source[32 + 4 * 2 + MARK] = 0;
    let converted = in_layout_2(&source, &[0, 0, 6, 0], 52);
    checks.check("one label", fifth_words(converted) == [0, 0, 6, 0]);
}

/// The count is the size of the set: up to N less 2, which a header may hold.
fn counts(checks: &mut Checks) {
    for nodes in [3, 4, 9, MAX_NODES] {
        for size in [0, 1, nodes / 2 - 1, nodes - 3, nodes - 2] {
            let chain: Vec<u16> = (nodes - size..nodes).collect();
            let source = chained(nodes, &chain);
            let lengths = vec![1; usize::from(nodes)];
            let total = 32 + 5 * usize::from(nodes);
            let converted = in_layout_2(&source, &lengths, total);
            let converted = converted.and_then(Result::ok).unwrap_or_default();
            let name = format!("{size} of {nodes} nodes");
            checks.check(&name, stored(&converted) == Ok(size));
            checks.check(&name, set(&converted).len() == usize::from(size));
            let back = in_layout_1(&converted, source.len());
            checks.check(&name, back == Some(Ok(source)));
        }
    }
}

/// A worker at stage 0 is idle, whatever its record holds, and that is copied.
fn idle_records(checks: &mut Checks) {
    for worker in 0..3 {
        for place in 1..WORKER_WORDS {
            let mut source = chained(5, &[3]);
            let at = 8 + 8 * worker + place;
            source[at] = 26 + at as u16;
            let new = in_layout_2(&source, &[1; 5], 57).and_then(Result::ok);
            let new = new.unwrap_or_default();
            let records = new.get(8..32).unwrap_or_default();
            checks.check("records are copied", *records == source[8..32]);
            checks.check("and back", in_layout_1(&new, 52) == Some(Ok(source)));
        }
    }
}

/// A call of worker 0 to its end; adds have length 1.
fn whole_call(arena: &mut [u16], operation: u16, key: u16) -> bool {
    good_start(arena, 0, operation, key).is_ok()
        && (0..60).any(|_| matches!(turn(arena, 0), Ok(Report::Finished(_))))
}

/// Between calls, whose adds have length 1, an arena has its words in layout 1, and from there back all
/// but the lengths that removed nodes keep.
fn between_calls(checks: &mut Checks) {
    let shape = Shape {
        workers: 2,
        nodes: 5,
    };
    let mut new = fresh(shape);
    for (operation, key) in [
        (ADD, 5),
        (ADD, 3),
        (ADD, 9),
        (REMOVE, 5),
        (ADD, 3),
        (ADD, 7),
        (REMOVE, 9),
    ] {
        let ended = whole_call(&mut new, operation, key);
        checks.check("a call ends", ended);
        let old = old_words(&new);
        let got = in_layout_1(&new, old.len());
        checks.check("to layout 1", got == Some(Ok(old.clone())));
        let mut due = new.clone();
        let is_stored = |node: u16| keys(&new).contains(&new[shape.node_at(node) + KEY]);
        let removed = (2..5).filter(|&node| !is_stored(node));
        removed.for_each(|node| due[shape.node_at(node) + LENGTH] = 0);
        let got = in_layout_2(&old, &[1; 5], new.len());
        checks.check("to layout 2", got == Some(Ok(due)));
    }
}

/// Labels of a converted arena are removed, added and measured as on any other.
fn goes_on(checks: &mut Checks) {
    let old = chained(6, &[4, 2, 5]);
    let new = in_layout_2(&old, &[0, 0, 15, 0, 8, 1], 62);
    let mut new = new.and_then(Result::ok).unwrap_or_default();
    let label = |key, length| Label { key, length };
    let due = [label(10, 8), label(20, 15), label(30, 1)];
    checks.check("three labels", set(&new) == due);
    let run = longest_free_run(&new, 40).map(|run| (run.first, run.length));
    checks.check("cells from 1 to 9", run == Ok((1, 9)));
    checks.check("20 goes", whole_call(&mut new, REMOVE, 20));
    checks.check("two are counted", stored(&new) == Ok(2));
    let run = longest_free_run(&new, 40).map(|run| (run.first, run.length));
    checks.check("cells from 18 to 29", run == Ok((18, 12)));
    checks.check("25 comes", whole_call(&mut new, ADD, 25));
    checks.check("three again", stored(&new) == Ok(3));
    let due = [label(10, 8), label(25, 1), label(30, 1)];
    checks.check("its length is 1", set(&new) == due);
    checks.check("10 is too long", in_layout_1(&new, 56) == Some(Err(5)));
    checks.check("10 goes", whole_call(&mut new, REMOVE, 10));
    // The node of 10 keeps its length of 8, and is no label.
    let back = in_layout_1(&new, 56).and_then(Result::ok);
    let back = back.unwrap_or_default();
    checks.check("25 and 30", keys(&back) == [25, 30]);
}
