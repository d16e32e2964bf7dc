//! The count (document 02, A6): the size of the set, kept in header word 6, so that nobody has to walk
//! along the chain for it.

use crate::arena::*;

/// How many labels are stored, as the header has it and whatever the chain holds. Refusals 1, 2, 12.
pub fn stored(arena: &[u16]) -> Result<u16, u16> {
    check_header(arena)?;
    Ok(arena[COUNT])
}

/// Counts a label that comes in, or one that goes out, on from whatever the header has. The count must
/// stay one that a header may hold. Refusal 14.
pub fn count_change(arena: &mut [u16], shape: Shape, change: i16) -> Result<(), u16> {
    let counted = arena[COUNT].checked_add_signed(change);
    let good = counted.filter(|&count| count <= shape.max_count());
    arena[COUNT] = good.ok_or(BROKEN_COUNT)?;
    Ok(())
}

/// Compares the header's word at every time since a fresh arena with the set of that time.
pub fn check_counts(sets: &[Vec<Label>], counts: &[u16]) -> Result<(), String> {
    if sets.len() != counts.len() {
        return Err(format!("{} sets, {} counts", sets.len(), counts.len()));
    }
    for (time, (set, &count)) in sets.iter().zip(counts).enumerate() {
        let due = set.len();
        if usize::from(count) != due {
            return Err(format!("count {count} at time {time}, {due} is due"));
        }
    }
    Ok(())
}
