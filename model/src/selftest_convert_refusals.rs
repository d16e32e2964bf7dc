//! The converters' refusals: each at its limits, and each choice of them in order.

use crate::arena::*;
use crate::selftest::Checks;
use crate::selftest_convert::{chained, in_layout_1, in_layout_2};

/// Words of the arenas here, with 3 workers and 6 nodes, in either layout.
const WORDS: [usize; 2] = [56, 62];
const LENGTHS: [u16; 6] = [1; 6];
/// Where the node records begin.
const NODES_AT: usize = 32;
/// On the chain, in this order. Node 2 is off it.
const CHAIN: [u16; 3] = [4, 3, 5];

pub fn refusals(checks: &mut Checks) {
    for layout in [LAYOUT_1, LAYOUT_2] {
        short_sources(checks, layout);
        headers(checks, layout);
        stages(checks, layout);
        chains(checks, layout);
        targets(checks, layout);
        order(checks, layout);
    }
    lent_lengths(checks);
    bad_lengths(checks);
    bad_lengths_back(checks);
}

/// An arena at rest with keys 10, 20 and 30; in layout 2 all of length 1.
fn good(layout: u16) -> Vec<u16> {
    let old = chained(6, &CHAIN);
    match layout {
        LAYOUT_1 => old,
        _ => in_layout_2(&old, &LENGTHS, WORDS[1])
            .and_then(Result::ok)
            .expect("a good arena"),
    }
}

fn node_at(layout: u16, node: u16) -> usize {
    NODES_AT + if layout == LAYOUT_1 { 4 } else { 5 } * usize::from(node)
}

/// Out of this layout, into a target with room for it; what is refused, or None.
fn refusal(layout: u16, source: &[u16]) -> Option<u16> {
    refusal_with(layout, source, &LENGTHS, WORDS[1])
}

/// A word written where none should be shows as 99.
fn refusal_with(layout: u16, source: &[u16], lengths: &[u16], room: usize) -> Option<u16> {
    let converted = match layout {
        LAYOUT_1 => in_layout_2(source, lengths, room),
        _ => in_layout_1(source, room),
    };
    converted.map_or(Some(99), Result::err)
}

fn due(checks: &mut Checks, name: &str, got: Option<u16>, due: Option<u16>) {
    checks.check(&format!("{name}: {due:?} is due, got {got:?}"), got == due);
}

fn short_sources(checks: &mut Checks, layout: u16) {
    let source = good(layout);
    for words in 0..source.len() {
        due(checks, "short", refusal(layout, &source[..words]), Some(1));
    }
    for words in [source.len() as u16 + 1, 65_535] {
        let mut source = source.clone();
        source[5] = words;
        due(checks, "word 5", refusal(layout, &source), Some(1));
    }
    due(checks, "words enough", refusal(layout, &source), None);
}

fn headers(checks: &mut Checks, layout: u16) {
    for place in 0..HEADER_WORDS {
        for word in [0, 1, 2, 3, 4, 5, 8, 24, 32, 65_535] {
            let mut source = good(layout);
            let old = source[place];
            source[place] = word;
            source.resize(70_000, 0);
            let is_good = word == old || (place == COUNT && layout == LAYOUT_2 && word <= 4);
            let name = format!("layout {layout}, header word {place} is {word}");
            let number = if is_good { None } else { Some(2) };
            due(checks, &name, refusal(layout, &source), number);
        }
    }
    let other = good(3 - layout);
    due(checks, "wrong layout", refusal(layout, &other), Some(2));
    let short = &other[..other.len() - 1];
    due(
        checks,
        "wrong layout, short",
        refusal(layout, short),
        Some(1),
    );
}

/// Of each worker the stage alone is judged, and 6 of all of them before 4 of any.
fn stages(checks: &mut Checks, layout: u16) {
    for worker in 0..3 {
        for stage in (0..=40).chain([255, 256, 32_768, 65_535]) {
            let mut source = good(layout);
            source[8 + 8 * worker] = stage;
            let number = match stage {
                0 => None,
                1..=25 => Some(4),
                _ => Some(6),
            };
            let name = format!("stage {stage} of worker {worker}");
            due(checks, &name, refusal(layout, &source), number);
            let other = 8 + 8 * ((worker + 1) % 3);
            source[other] = 26;
            due(checks, &name, refusal(layout, &source), Some(6));
            source[other] = 25;
            let with_busy = number.or(Some(4));
            due(checks, &name, refusal(layout, &source), with_busy);
        }
    }
}

/// Broken as for the roll, also at marked nodes.
fn chains(checks: &mut Checks, layout: u16) {
    for (node, place, word, is_broken) in [
        (HEAD, NEXT, 6, true),
        (HEAD, NEXT, NONE, true),
        (HEAD, NEXT, HEAD, true),
        (HEAD, NEXT, TAIL, false),
        (HEAD, KEY, 9, false),
        (HEAD, KEY, 10, true),
        (4, NEXT, 6, true),
        (4, NEXT, 4, true),
        (4, NEXT, 5, false),
        (4, KEY, 0, true),
        (4, KEY, 1, false),
        (4, KEY, 20, true),
        (3, KEY, 10, true),
        (3, KEY, 30, true),
        (3, NEXT, HEAD, true),
        (3, NEXT, 4, true),
        (5, NEXT, NONE, true),
        (5, KEY, 20, true),
        (5, KEY, 65_534, false),
        (TAIL, KEY, 0, false),
        (TAIL, NEXT, NONE, false),
        (2, KEY, 65_535, false),
        (2, NEXT, NONE, false),
    ] {
        for mark in [0, 1, 65_535] {
            let mut source = good(layout);
            source[node_at(layout, node) + place] = word;
            source[node_at(layout, node) + MARK] = mark;
            let name = format!("node {node}, word {place} is {word}, mark {mark}");
            let number = if is_broken { Some(7) } else { None };
            due(checks, &name, refusal(layout, &source), number);
        }
    }
}

fn targets(checks: &mut Checks, layout: u16) {
    let source = good(layout);
    let total = WORDS[usize::from(2 - layout)];
    for room in 0..total + 9 {
        let number = if room < total { Some(8) } else { None };
        let got = refusal_with(layout, &source, &LENGTHS, room);
        due(checks, &format!("{room} words"), got, number);
    }
}

fn lent_lengths(checks: &mut Checks) {
    let source = good(LAYOUT_1);
    for lent in 0..12 {
        let number = if lent < 6 { Some(8) } else { None };
        let lengths = vec![1; lent];
        let got = refusal_with(LAYOUT_1, &source, &lengths, WORDS[1]);
        due(checks, &format!("{lent} lengths"), got, number);
        // No label needs one, and they are missed all the same.
        let empty = chained(6, &[]);
        let got = refusal_with(LAYOUT_1, &empty, &lengths, WORDS[1]);
        due(checks, &format!("{lent} lengths, no label"), got, number);
    }
}

/// Key, length, and whether document 02 has such a label.
const LABELS: [(u16, u16, bool); 18] = [
    (1, 0, false),
    (1, 1, true),
    (1, 65_533, true),
    (1, 65_534, true),
    (1, 65_535, false),
    (2, 65_533, true),
    (2, 65_534, false),
    (30_000, 35_535, true),
    (30_000, 35_536, false),
    (32_768, 32_767, true),
    (32_768, 32_768, false),
    (65_533, 2, true),
    (65_533, 3, false),
    (65_534, 1, true),
    (65_534, 2, false),
    (65_535, 0, false),
    (65_535, 1, false),
    (65_535, 65_535, false),
];

/// Of the one label of a set the length is judged; of marked nodes, nodes off the chain and both ends
/// it is not, nor their keys'.
fn bad_lengths(checks: &mut Checks) {
    for (key, length, is_good) in LABELS {
        let mut source = chained(6, &[4]);
        source[node_at(LAYOUT_1, 4) + KEY] = key;
        for node in 0..6_u16 {
            let mut lengths = LENGTHS;
            lengths[usize::from(node)] = length;
            let key_is_good = node == 4 || key < 65_535;
            let length_is_good = node != 4 || is_good;
            let is_refused = !(key_is_good && length_is_good);
            let number = is_refused.then_some(5);
            let name = format!("key {key}, length {length} of node {node}");
            due(
                checks,
                &name,
                refusal_with(LAYOUT_1, &source, &lengths, 62),
                number,
            );
            source[node_at(LAYOUT_1, 4) + MARK] = 7;
            due(
                checks,
                &name,
                refusal_with(LAYOUT_1, &source, &lengths, 62),
                None,
            );
            source[node_at(LAYOUT_1, 4) + MARK] = 0;
        }
    }
    // At each place of the chain.
    for node in CHAIN {
        for length in [0, 65_535, 65_534] {
            let mut lengths = LENGTHS;
            lengths[usize::from(node)] = length;
            let got = refusal_with(LAYOUT_1, &good(LAYOUT_1), &lengths, 62);
            due(
                checks,
                &format!("length {length} of node {node}"),
                got,
                Some(5),
            );
        }
    }
}

/// Back, a label's length must be 1 and its key below 65,535.
fn bad_lengths_back(checks: &mut Checks) {
    for node in 0..6 {
        for length in [0, 1, 2, 255, 256, 257, 65_534, 65_535] {
            let mut source = good(LAYOUT_2);
            let at = node_at(LAYOUT_2, node);
            source[at + LENGTH] = length;
            let is_bad = CHAIN.contains(&node) && length != 1;
            let number = if is_bad { Some(5) } else { None };
            let name = format!("length {length} of node {node}");
            due(checks, &name, refusal(LAYOUT_2, &source), number);
            source[at + MARK] = 1;
            due(checks, &name, refusal(LAYOUT_2, &source), None);
        }
    }
    for (key, number) in [(65_534, None), (65_535, Some(5))] {
        let mut source = good(LAYOUT_2);
        let at = node_at(LAYOUT_2, 5);
        source[at + KEY] = key;
        due(
            checks,
            &format!("key {key}"),
            refusal(LAYOUT_2, &source),
            number,
        );
        source[at + MARK] = 1;
        due(checks, "marked", refusal(LAYOUT_2, &source), None);
    }
}

const ORDER: [u16; 7] = [1, 2, 6, 4, 7, 8, 5];

/// Every choice of faults: the first one in order refuses, and none accepts. Of each fault there are
/// two kinds, which take turns.
fn order(checks: &mut Checks, layout: u16) {
    for choice in 0..1 << ORDER.len() {
        let is_due = |number: u16| {
            let place = ORDER.iter().position(|&other| other == number);
            place.is_some_and(|place| choice >> place & 1 == 1)
        };
        let first = ORDER.into_iter().find(|&number| is_due(number));
        for kind in [0, 1] {
            let mut source = good(layout);
            let mut lengths = LENGTHS.to_vec();
            if is_due(5) {
                lengths[4] = [0, 65_535][kind];
                if layout == LAYOUT_2 {
                    source[node_at(layout, 4) + LENGTH] = [0, 2][kind];
                }
            }
            if is_due(7) {
                // Behind the label whose length is bad.
                source[node_at(layout, 5) + [NEXT, KEY][kind]] = [6, 20][kind];
            }
            // One of the two before the other.
            source[8 + 16 * kind] = if is_due(6) { 26 } else { 0 };
            source[24 - 16 * kind] = if is_due(4) { 25 } else { 0 };
            if is_due(2) {
                (source[7], source[0]) = [(1, layout), (0, 3 - layout)][kind];
            }
            source.truncate(source.len() - usize::from(is_due(1)));
            let mut room = WORDS[usize::from(2 - layout)];
            match (layout, kind) {
                (LAYOUT_1, 1) => lengths.truncate(6 - usize::from(is_due(8))),
                _ => room -= usize::from(is_due(8)),
            }
            let got = refusal_with(layout, &source, &lengths, room);
            due(
                checks,
                &format!("faults {choice:b}, kind {kind}"),
                got,
                first,
            );
        }
    }
}
