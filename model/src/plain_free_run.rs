//! The longest free run as it would be looked for in use: in one pass along the chain, whatever the
//! last cell is, and nothing is allocated. The benchmark holds the proved library against it; the self
//! test holds it against the marking of every cell.

use crate::arena::*;
use crate::free_run::{FreeRun, MAX_LAST_CELL};

/// The longest free run of the cells from 1 to the last one. Refusals 1, 2, 12, 5, 7.
pub fn longest_free_run(arena: &[u16], last_cell: u16) -> Result<FreeRun, u16> {
    let shape = check_header(arena)?;
    if !(1..=MAX_LAST_CELL).contains(&last_cell) {
        return Err(BAD_CALL);
    }
    // A label may end behind every cell, so these have more than 16 bits.
    let all_end = u32::from(last_cell) + 1;
    // Keys rise, so a gap before this cell can no longer grow, and none begins before it.
    let mut from = 1;
    let (mut first, mut length) = (0, 0);
    let mut note_gap = |from: u32, end: u32| {
        let end = end.min(all_end);
        if end > from + length {
            (first, length) = (from, end - from);
        }
    };
    walk_set(arena, shape, |at| {
        let label = Label::read(arena, at);
        // A label without length parts no cells.
        if label.length != 0 {
            let key = u32::from(label.key);
            note_gap(from, key);
            from = from.max(key + u32::from(label.length));
        }
    })?;
    note_gap(from, all_end);
    Ok(FreeRun {
        first: first as u16,
        length: length as u16,
    })
}
