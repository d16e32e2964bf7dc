//! What the converters are lent beside a source: lengths and a target.

use model::arena::*;
use model::rng::Rng;

use super::chain::Chain;
use super::layouts::AnyShape;
use super::requests::Request;
use super::sources::some_of;
use super::spread::any_length;

/// Mostly out of the layout that the source has.
pub fn conversion(rng: &mut Rng, source: &[u16]) -> Request {
    let is_in_2 = source.first() == Some(&LAYOUT_2);
    let target = target(rng, source);
    if is_in_2 == rng.chance(88) {
        Request::ToLayout1 { target }
    } else {
        let lengths = lengths(rng, source);
        Request::ToLayout2 { lengths, target }
    }
}

/// About as many words as the converted arena takes, with any content.
fn target(rng: &mut Rng, source: &[u16]) -> Vec<u16> {
    let shape = AnyShape::check(source).unwrap_or(AnyShape {
        layout: LAYOUT_1,
        workers: 1,
        nodes: 3,
    });
    let needed = shape.other().total();
    let room = match rng.range(0, 39) {
        0..=15 => needed,
        16..=32 => needed + rng.index(12),
        33..=35 => needed - 1,
        36 => shape.total(),
        37 => 0,
        _ => rng.index(needed),
    };
    let first = rng.word(0, 65_535);
    match rng.range(0, 9) {
        0 => vec![0; room],
        // As if it were an arena already.
        1..=2 => source
            .iter()
            .chain(&[first])
            .cycle()
            .take(room)
            .copied()
            .collect(),
        _ => (0..room)
            .map(|place| first.wrapping_sub(place as u16))
            .collect(),
    }
}

/// Lengths that the labels may have, and any for the other nodes; then perhaps one of a label that it
/// may not have, 1 for all, or another number of lengths.
fn lengths(rng: &mut Rng, source: &[u16]) -> Vec<u16> {
    let Some(chain) = Chain::of_any(source) else {
        return vec![1; rng.index(9)];
    };
    let mut lengths = any_lengths(rng, chain.shape.nodes);
    let listed = chain.listed_nodes();
    for &node in &listed {
        lengths[usize::from(node)] = good_length(rng, chain.word(node, KEY));
    }
    if !listed.is_empty() && rng.chance(18) {
        let node = *some_of(rng, &listed);
        let end = TAIL_KEY - chain.word(node, KEY);
        let bad = *rng.pick(&[0, 65_535, end.wrapping_add(1), end.wrapping_add(1)]);
        lengths[usize::from(node)] = bad;
    }
    if rng.chance(12) {
        lengths.fill(1);
    }
    let nodes = lengths.len();
    match rng.range(0, 39) {
        0..=2 => lengths.truncate(nodes - 1),
        3 => lengths.clear(),
        4 => lengths.truncate(rng.index(nodes)),
        5..=8 => lengths.extend(any_lengths(rng, 1 + nodes as u16 / 2)),
        _ => {}
    }
    lengths
}

/// All 1, all bad, or each of its own.
fn any_lengths(rng: &mut Rng, count: u16) -> Vec<u16> {
    let same = *rng.pick(&[1, 1, 0, 65_535]);
    let is_same = rng.chance(30);
    (0..count)
        .map(|_| if is_same { same } else { any_length(rng) })
        .collect()
}

/// One that a label with this key may have, if there is one.
fn good_length(rng: &mut Rng, key: u16) -> u16 {
    let most = (TAIL_KEY - key).clamp(1, 65_534);
    match rng.range(0, 9) {
        0..=3 => 1,
        4..=5 => most,
        6..=7 => rng.word(1, most.min(9)),
        _ => rng.word(1, most),
    }
}
