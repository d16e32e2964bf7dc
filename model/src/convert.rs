//! Arenas taken from one layout to the other, into a second buffer (document 02, A7).

use crate::arena::*;

/// The first words of a node record, which both layouts have.
pub const SHARED_WORDS: usize = LENGTH;

/// Writes an arena of layout 1 anew in layout 2, with the lent lengths, one for each node number.
/// Refusals 1, 2, 6, 4, 7, 8, 5.
pub fn to_layout_2(source: &[u16], lengths: &[u16], target: &mut [u16]) -> Result<(), u16> {
    let (shape, set) = set_at_rest::<LAYOUT_1>(source)?;
    let nodes = shape.nodes as usize;
    let new_shape: Shape = shape.in_layout();
    if target.len() < new_shape.total() || lengths.len() < nodes {
        return Err(NO_ROOM);
    }
    let key = |node: u16| source[shape.node_at(node) + KEY];
    let is_good = |&node: &u16| is_call_length(ADD, key(node), lengths[node as usize]);
    if !set.iter().all(is_good) {
        return Err(BAD_CALL);
    }
    let mut kept = vec![0; nodes];
    for &node in &set {
        kept[node as usize] = lengths[node as usize];
    }
    rewrite(source, shape, target, new_shape, set.len() as u16);
    for (node, length) in (0..).zip(kept) {
        target[new_shape.node_at(node) + LENGTH] = length;
    }
    Ok(())
}

/// Writes an arena of layout 2 anew in layout 1, which has neither count nor lengths: each label of
/// the set must be 1 cell long. Refusals 1, 2, 6, 4, 7, 8, 5.
pub fn to_layout_1(source: &[u16], target: &mut [u16]) -> Result<(), u16> {
    let (shape, set) = set_at_rest::<LAYOUT_2>(source)?;
    let new_shape: OldShape = shape.in_layout();
    if target.len() < new_shape.total() {
        return Err(NO_ROOM);
    }
    let label = |node: u16| Label::read(source, shape.node_at(node));
    let is_good = |Label { key, length }| length == 1 && is_call_length(ADD, key, length);
    if !set.iter().all(|&node| is_good(label(node))) {
        return Err(BAD_CALL);
    }
    rewrite(source, shape, target, new_shape, 0);
    Ok(())
}

/// The shape of an arena of this layout on which every worker is idle, and the nodes of its set.
/// Of a worker the stage alone is judged. Refusals 1, 2, 6, 4, 7.
fn set_at_rest<const LAYOUT: u16>(source: &[u16]) -> Result<(ShapeIn<LAYOUT>, Vec<u16>), u16> {
    let shape = check_layout(source)?;
    let workers = 0..shape.workers;
    let stages: Vec<u16> = workers
        .map(|worker| source[shape.worker_at(worker) + STAGE])
        .collect();
    if stages.iter().any(|&stage| stage > 25) {
        return Err(BROKEN_RECORD);
    }
    if stages.iter().any(|&stage| stage != 0) {
        return Err(BUSY);
    }
    let mut set = Vec::new();
    walk_set(source, shape, |at| {
        let node = (at - shape.node_at(0)) / ShapeIn::<LAYOUT>::NODE_WORDS;
        set.push(node as u16);
    })?;
    Ok((shape, set))
}

/// Copies all words that both layouts have, behind a header of the new shape.
fn rewrite<const FROM: u16, const TO: u16>(
    source: &[u16],
    shape: ShapeIn<FROM>,
    target: &mut [u16],
    new_shape: ShapeIn<TO>,
    count: u16,
) {
    target[..HEADER_WORDS].copy_from_slice(&new_shape.header(count));
    let workers = HEADER_WORDS..shape.node_at(0);
    target[workers.clone()].copy_from_slice(&source[workers]);
    for node in 0..shape.nodes {
        let record = &source[shape.node_at(node)..][..SHARED_WORDS];
        target[new_shape.node_at(node)..][..SHARED_WORDS].copy_from_slice(record);
    }
}
