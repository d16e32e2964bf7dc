//! The converters as they would be written for use: one pass along the chain, one over the records, and
//! nothing is allocated. The benchmark holds the proved library against them; the self test holds them
//! against the others.

use crate::arena::*;
use crate::convert::SHARED_WORDS;

/// Writes an arena of layout 1 anew in layout 2. Refusals 1, 2, 6, 4, 7, 8, 5.
pub fn to_layout_2(source: &[u16], lengths: &[u16], target: &mut [u16]) -> Result<(), u16> {
    let shape: OldShape = shape_at_rest(source)?;
    let new_shape: Shape = shape.in_layout();
    // Kept aside, since a refusal writes nothing, and a second walk takes longer.
    let mut set = [0; MAX_NODES as usize];
    let (mut count, mut all_good) = (0, true);
    walk_set(source, shape, |at| {
        let node = (at - shape.node_at(0)) / SHARED_WORDS;
        set[count] = node as u16;
        count += 1;
        // Where lengths are missing, 8 comes before any of them is judged.
        let length = lengths.get(node).copied().unwrap_or(1);
        all_good &= is_call_length(ADD, source[at + KEY], length);
    })?;
    let lent = target.get_mut(..new_shape.total()).ok_or(NO_ROOM)?;
    if lengths.len() < shape.nodes as usize {
        return Err(NO_ROOM);
    }
    if !all_good {
        return Err(BAD_CALL);
    }
    let nodes = copy_workers(source, shape, lent, new_shape.header(count as u16));
    let old_records = source[shape.node_at(0)..].chunks_exact(SHARED_WORDS);
    for (record, old) in nodes.chunks_exact_mut(NODE_WORDS).zip(old_records) {
        record[..SHARED_WORDS].copy_from_slice(old);
        record[LENGTH] = 0;
    }
    for &node in &set[..count] {
        let node = usize::from(node);
        nodes[NODE_WORDS * node + LENGTH] = lengths[node];
    }
    Ok(())
}

/// Writes an arena of layout 2 anew in layout 1. Refusals 1, 2, 6, 4, 7, 8, 5.
pub fn to_layout_1(source: &[u16], target: &mut [u16]) -> Result<(), u16> {
    let shape: Shape = shape_at_rest(source)?;
    let new_shape: OldShape = shape.in_layout();
    let mut all_good = true;
    walk_set(source, shape, |at| {
        all_good &= source[at + LENGTH] == 1 && source[at + KEY] < TAIL_KEY;
    })?;
    let lent = target.get_mut(..new_shape.total()).ok_or(NO_ROOM)?;
    if !all_good {
        return Err(BAD_CALL);
    }
    let nodes = copy_workers(source, shape, lent, new_shape.header(0));
    let old_records = source[shape.node_at(0)..].chunks_exact(NODE_WORDS);
    for (record, old) in nodes.chunks_exact_mut(SHARED_WORDS).zip(old_records) {
        record.copy_from_slice(&old[..SHARED_WORDS]);
    }
    Ok(())
}

/// The shape of an arena of this layout on which every worker is idle. Refusals 1, 2, 6, 4.
fn shape_at_rest<const LAYOUT: u16>(source: &[u16]) -> Result<ShapeIn<LAYOUT>, u16> {
    let shape: ShapeIn<LAYOUT> = check_layout(source)?;
    let records = source[HEADER_WORDS..shape.node_at(0)].chunks_exact(WORKER_WORDS);
    match records.map(|record| record[STAGE]).max() {
        Some(1..=25) => Err(BUSY),
        Some(26..) => Err(BROKEN_RECORD),
        _ => Ok(shape),
    }
}

/// Writes the header and copies the worker records; gives back the place for the node records.
fn copy_workers<'a, const LAYOUT: u16>(
    source: &[u16],
    shape: ShapeIn<LAYOUT>,
    target: &'a mut [u16],
    header: [u16; HEADER_WORDS],
) -> &'a mut [u16] {
    let nodes_at = shape.node_at(0);
    target[..HEADER_WORDS].copy_from_slice(&header);
    target[HEADER_WORDS..nodes_at].copy_from_slice(&source[HEADER_WORDS..nodes_at]);
    &mut target[nodes_at..]
}
