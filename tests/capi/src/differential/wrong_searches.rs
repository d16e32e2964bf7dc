//! Searches for a free node with one fault each.

use std::collections::BTreeSet;

use model::arena::*;
use model::free::{find_free, Found};

use super::roots::{worker_roots, Root, ROOTS};
use super::wrong_lengths::narrow;
use super::wrong_turns::{all_roots, header_first, reached};
use crate::library::{found_values, Library, Model, Values, MOVED};

/// Runs the model, then the fault, which gets what was found and the shape. Refusals are right.
fn then(arena: &[u16], fault: impl Fn(Found, Shape) -> Values) -> u64 {
    match (find_free(arena), check_header(arena)) {
        (Ok(found), Ok(shape)) => fault(found, shape).number(),
        _ => Model.find_free(arena),
    }
}

/// The node is right.
fn counts(arena: &[u16], reads: impl Fn(Found, Shape) -> u16) -> u64 {
    then(arena, |found, shape| {
        let reads = reads(found, shape);
        found_values(Found { reads, ..found })
    })
}

pub fn free_swapped(arena: &[u16]) -> u64 {
    then(arena, |found, _| {
        let Values { first, second, .. } = found_values(found);
        Values {
            first: second,
            second: first,
            ..Values::default()
        }
    })
}

pub fn free_reports(arena: &[u16]) -> u64 {
    then(arena, |found, _| Values {
        report: MOVED,
        ..found_values(found)
    })
}

pub fn free_none_is_n(arena: &[u16]) -> u64 {
    then(arena, |found, shape| {
        let node = found.node.or(Some(shape.nodes));
        found_values(Found { node, ..found })
    })
}

pub fn free_no_count(arena: &[u16]) -> u64 {
    counts(arena, |_, _| 0)
}

/// Right wherever a node is free.
pub fn free_full_unread(arena: &[u16]) -> u64 {
    counts(arena, |found, _| found.node.map_or(0, |_| found.reads))
}

/// Right where none is free.
pub fn free_counts_all(arena: &[u16]) -> u64 {
    counts(arena, |_, shape| shape.nodes)
}

/// Right unless a node above the answer is not free.
pub fn free_counts_below(arena: &[u16]) -> u64 {
    counts(arena, |found, shape| found.node.unwrap_or(shape.nodes))
}

pub fn free_counts_answer(arena: &[u16]) -> u64 {
    counts(arena, |found, _| {
        found.reads + u16::from(found.node.is_some())
    })
}

pub fn free_forgets_head(arena: &[u16]) -> u64 {
    counts(arena, |found, _| found.reads - 1)
}

/// A root's walk: the nodes that it is the first to reach, and the number that it ends at, which
/// is no node's, or a node's that was reached before.
struct Walk {
    nodes: Vec<u16>,
    end: u16,
}

/// A node on a walk whose link is to be followed.
struct Step {
    node: u16,
    mark: u16,
    /// How many nodes the walk has reached.
    count: usize,
    is_from_worker: bool,
}

/// How a search goes, for faults with roots, links and reads.
struct Search {
    ends: &'static [u16],
    is_root: fn(&Root, Shape) -> bool,
    goes_on: fn(Step) -> bool,
    reads: fn(&[Walk], Shape) -> usize,
}

/// As the documents have it.
const RIGHT_SEARCH: Search = Search {
    ends: &[HEAD, TAIL],
    is_root: |_, _| true,
    goes_on: |_| true,
    reads: |walks, _| walks.iter().map(|walk| walk.nodes.len()).sum(),
};

impl Search {
    fn walks(&self, arena: &[u16], shape: Shape) -> Vec<Walk> {
        let mut taken = vec![false; shape.nodes as usize];
        let mut walk = |root: u16, is_from_worker: bool| {
            let (mut nodes, mut end) = (Vec::new(), root);
            while end < shape.nodes && !taken[end as usize] {
                let (node, at) = (end, shape.node_at(end));
                taken[node as usize] = true;
                nodes.push(node);
                let step = Step {
                    node,
                    mark: arena[at + MARK],
                    count: nodes.len(),
                    is_from_worker,
                };
                end = if (self.goes_on)(step) {
                    arena[at + NEXT]
                } else {
                    NONE
                };
            }
            Walk { nodes, end }
        };
        let mut walks: Vec<_> = self.ends.iter().map(|&end| walk(end, false)).collect();
        let roots = worker_roots(arena, shape).filter(|root| (self.is_root)(root, shape));
        walks.extend(roots.map(|root| walk(root.node, true)));
        walks
    }

    fn find(&self, arena: &[u16], shape: Shape) -> u64 {
        let walks = self.walks(arena, shape);
        let reads = (self.reads)(&walks, shape) as u16;
        let node = free_nodes(&walks, shape).first().copied();
        found_values(Found { node, reads }).number()
    }

    fn reply(&self, arena: &[u16]) -> u64 {
        match check_header(arena) {
            Ok(shape) => self.find(arena, shape),
            Err(refusal) => u64::from(refusal),
        }
    }
}

/// Those that no walk has reached, rising.
fn free_nodes(walks: &[Walk], shape: Shape) -> Vec<u16> {
    let reached: BTreeSet<_> = walks.iter().flat_map(|walk| &walk.nodes).collect();
    let nodes = (0..shape.nodes).filter(|node| !reached.contains(node));
    nodes.collect()
}

/// No fault yet: what the faults below begin with.
pub fn free_walks(arena: &[u16]) -> u64 {
    RIGHT_SEARCH.reply(arena)
}

/// A search that counts in a way of its own.
fn reads_by(arena: &[u16], reads: fn(&[Walk], Shape) -> usize) -> u64 {
    let search = Search {
        reads,
        ..RIGHT_SEARCH
    };
    search.reply(arena)
}

fn right_reads(walks: &[Walk], shape: Shape) -> usize {
    (RIGHT_SEARCH.reads)(walks, shape)
}

/// A link is read before the mark of its node is looked at.
pub fn free_reads_joins(arena: &[u16]) -> u64 {
    reads_by(arena, |walks, shape| {
        let joins = walks.iter().filter(|walk| walk.end < shape.nodes);
        right_reads(walks, shape) + joins.count()
    })
}

/// Each root has a row of marks of its own.
pub fn free_reads_again(arena: &[u16]) -> u64 {
    counts(arena, |_, shape| {
        let roots = all_roots(arena, shape);
        let rows = roots.chunks(1).map(|root| {
            let row = reached(arena, shape, root, MAX_NODES as usize);
            row.iter().filter(|&&is_reached| is_reached).count()
        });
        rows.sum::<usize>() as u16
    })
}

pub fn free_forgets_last(arena: &[u16]) -> u64 {
    reads_by(arena, |walks, _| {
        let counted = walks.iter().map(|walk| walk.nodes.len().saturating_sub(1));
        counted.sum()
    })
}

/// Right wherever the chain leads to Tail.
pub fn free_forgets_tail(arena: &[u16]) -> u64 {
    reads_by(arena, |walks, shape| {
        let from_tail = &walks[1].nodes;
        right_reads(walks, shape) - usize::from(!from_tail.is_empty())
    })
}

pub fn free_counts_links(arena: &[u16]) -> u64 {
    reads_by(arena, |walks, shape| {
        let is_link = |walk: &&Walk| walk.end >= shape.nodes && !walk.nodes.is_empty();
        right_reads(walks, shape) + walks.iter().filter(is_link).count()
    })
}

pub fn free_counts_roots(arena: &[u16]) -> u64 {
    reads_by(arena, |walks, shape| {
        let is_root = |walk: &&Walk| walk.end >= shape.nodes && walk.nodes.is_empty();
        right_reads(walks, shape) + walks.iter().filter(is_root).count()
    })
}

/// The node is right.
pub fn free_counts_chain(arena: &[u16]) -> u64 {
    reads_by(arena, |walks, shape| {
        right_reads(&walks[..RIGHT_SEARCH.ends.len()], shape)
    })
}

pub fn free_highest(arena: &[u16]) -> u64 {
    then(arena, |found, shape| {
        let walks = RIGHT_SEARCH.walks(arena, shape);
        let node = free_nodes(&walks, shape).last().copied();
        found_values(Found { node, ..found })
    })
}

pub fn free_without_tail(arena: &[u16]) -> u64 {
    let search = Search {
        ends: &[HEAD],
        ..RIGHT_SEARCH
    };
    search.reply(arena)
}

/// A search with fewer roots.
fn roots_by(arena: &[u16], is_root: fn(&Root, Shape) -> bool) -> u64 {
    let search = Search {
        is_root,
        ..RIGHT_SEARCH
    };
    search.reply(arena)
}

pub fn free_without_pred(arena: &[u16]) -> u64 {
    roots_by(arena, |root, _| ROOTS[root.place] != PRED)
}

pub fn free_without_curr(arena: &[u16]) -> u64 {
    roots_by(arena, |root, _| ROOTS[root.place] != CURR)
}

pub fn free_without_spare(arena: &[u16]) -> u64 {
    roots_by(arena, |root, _| ROOTS[root.place] != SPARE)
}

/// Right on every arena that is reached from a fresh one.
pub fn free_without_idle(arena: &[u16]) -> u64 {
    roots_by(arena, |root, _| !root.is_idle)
}

pub fn free_without_last(arena: &[u16]) -> u64 {
    roots_by(arena, |root, shape| root.worker + 1 != shape.workers)
}

/// A search that does not follow every link.
fn links_by(arena: &[u16], goes_on: fn(Step) -> bool) -> u64 {
    let search = Search {
        goes_on,
        ..RIGHT_SEARCH
    };
    search.reply(arena)
}

/// As the chain does.
pub fn free_ends_at_tail(arena: &[u16]) -> u64 {
    links_by(arena, |step| step.node != TAIL)
}

pub fn free_ends_at_mark(arena: &[u16]) -> u64 {
    links_by(arena, |step| step.mark == 0)
}

/// Document 01's trap: another removed node may still lead to it.
pub fn free_nobody_there(arena: &[u16]) -> u64 {
    links_by(arena, |step| !step.is_from_worker)
}

pub fn free_few_links(arena: &[u16]) -> u64 {
    links_by(arena, |step| step.count < 1_000)
}

pub fn free_narrow(arena: &[u16]) -> u64 {
    narrow(&mut arena.to_vec(), |arena| Model.find_free(arena))
}

/// Node N less 1 is out of range.
pub fn free_last_node(arena: &[u16]) -> u64 {
    match check_header(arena) {
        Ok(Shape { workers, nodes }) => {
            let nodes = nodes - 1;
            RIGHT_SEARCH.find(arena, Shape { workers, nodes })
        }
        Err(refusal) => u64::from(refusal),
    }
}

pub fn free_refusals_swapped(arena: &[u16]) -> u64 {
    match check_header(arena) {
        Err(SHORT_ARENA) => u64::from(ODD_HEADER),
        Err(ODD_HEADER) => u64::from(SHORT_ARENA),
        _ => Model.find_free(arena),
    }
}

pub fn free_header_first(arena: &[u16]) -> u64 {
    header_first(arena, Model.find_free(arena))
}

pub fn free_whole_arena(arena: &[u16]) -> u64 {
    match check_header(arena) {
        Ok(shape) if arena.len() > shape.total() => u64::from(ODD_HEADER),
        _ => Model.find_free(arena),
    }
}

/// Right on every arena that is reached from a fresh one, as the next.
pub fn free_refuses_stage(arena: &[u16]) -> u64 {
    let is_broken = |shape: Shape| {
        let mut workers = 0..shape.workers;
        workers.any(|worker| arena[shape.worker_at(worker) + STAGE] > 25)
    };
    match check_header(arena) {
        Ok(shape) if is_broken(shape) => u64::from(BROKEN_RECORD),
        _ => Model.find_free(arena),
    }
}

pub fn free_refuses_link(arena: &[u16]) -> u64 {
    let is_broken = |shape: Shape| {
        let walks = RIGHT_SEARCH.walks(arena, shape);
        let mut walks = walks.iter().filter(|walk| !walk.nodes.is_empty());
        walks.any(|walk| walk.end >= shape.nodes)
    };
    match check_header(arena) {
        Ok(shape) if is_broken(shape) => u64::from(BROKEN_CHAIN),
        _ => Model.find_free(arena),
    }
}
