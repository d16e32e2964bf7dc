//! The search for a free node (document 01: the hunt), on an arena of any content.

use crate::arena::*;

/// What a search answers.
#[derive(Clone, Copy, Debug, PartialEq, Eq)]
pub struct Found {
    /// The lowest-numbered free node, if there is one.
    pub node: Option<u16>,
    /// How many next words it has read.
    pub reads: u16,
}

/// Searches for a free node. Refusals 1, 2, 12.
pub fn find_free(arena: &[u16]) -> Result<Found, u16> {
    let shape = check_header(arena)?;
    Ok(find_free_in(arena, shape))
}

/// The same behind the header test. A node is free that no run of next links leads to from Head,
/// Tail, or the pred, curr or spare of any worker.
pub fn find_free_in(arena: &[u16], shape: Shape) -> Found {
    let mut reached = [false; MAX_NODES as usize];
    let mut reads = 0;
    let mut read_next = |node: u16| {
        reads += 1;
        arena[shape.node_at(node) + NEXT]
    };
    // A node has one link, so each root is walked until the walk joins an earlier one.
    let mut walk = |root: u16| {
        let mut node = root;
        while node < shape.nodes && !reached[node as usize] {
            reached[node as usize] = true;
            node = read_next(node);
        }
    };
    walk(HEAD);
    walk(TAIL);
    for worker in 0..shape.workers {
        let at = shape.worker_at(worker);
        walk(arena[at + PRED]);
        walk(arena[at + CURR]);
        walk(arena[at + SPARE]);
    }
    let node = (0..shape.nodes).find(|&node| !reached[node as usize]);
    Found { node, reads }
}
