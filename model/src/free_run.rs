//! Where a long label fits (document 02, A5): the longest run of cells that lie in no label of the
//! set, found by marking every cell that lies in one.

use crate::arena::*;

/// The greatest number of the last cell that is looked at.
pub const MAX_LAST_CELL: u16 = 65_534;

/// Cells side by side, none of them in a label; 0 and 0 for no cell.
#[derive(Clone, Copy, Debug, Default, PartialEq, Eq)]
pub struct FreeRun {
    pub first: u16,
    pub length: u16,
}

/// The longest free run of the cells from 1 to the last one; the lower first cell decides between
/// equals. Refusals 1, 2, 12, 5, 7.
pub fn longest_free_run(arena: &[u16], last_cell: u16) -> Result<FreeRun, u16> {
    let shape = check_header(arena)?;
    if !(1..=MAX_LAST_CELL).contains(&last_cell) {
        return Err(BAD_CALL);
    }
    let is_covered = covered_cells(arena, shape, last_cell)?;
    let mut longest = FreeRun::default();
    let mut first = 1;
    // Neighbours that are free alike, or covered alike, together.
    for cells in is_covered[1..].chunk_by(|cell, next| cell == next) {
        if !cells[0] && cells.len() > longest.length as usize {
            longest = FreeRun {
                first: first as u16,
                length: cells.len() as u16,
            };
        }
        first += cells.len();
    }
    Ok(longest)
}

/// For each cell from 0 to the last one whether it lies in a label of the set: from the key on as
/// many cells as it is long, which on some arenas are none, or run past all. Refusal 7.
fn covered_cells(arena: &[u16], shape: Shape, last_cell: u16) -> Result<Vec<bool>, u16> {
    let cells = last_cell as usize + 1;
    let mut is_covered = vec![false; cells];
    walk_set(arena, shape, |at| {
        let label = Label::read(arena, at);
        let from = label.key as usize;
        let end = from + label.length as usize;
        is_covered[from.min(cells)..end.min(cells)].fill(true);
    })?;
    Ok(is_covered)
}
