//! The search for the longest free run with one fault each: in what labels cover, what a run is, and
//! which one is taken.

use model::arena::*;

use super::free_runs::{cells_of, Cells};
use super::wrong_free_replies::{then, told};
use super::wrong_others::{Walk, RIGHT_WALK};
use crate::library::{Library, Model, Values};

const MAX_LAST_CELL: u16 = 65_534;

/// How the search goes, for faults with cells and labels.
struct Pass {
    walk: Walk,
    first_cell: u32,
    /// The cell behind those that are looked at, by the last cell.
    end: fn(u32) -> u32,
    /// What a label covers, by that cell too.
    cells: fn(Label, u32) -> Cells,
    /// Whether a label parts the cells before and behind it.
    parts: fn(&Cells) -> bool,
    /// The cell behind all labels so far, by what it was before the last one and what that covers.
    behind: fn(u32, &Cells) -> u32,
    /// Leaves some runs out. There is one before each label, often an empty one, and one behind all.
    leave: fn(&mut Vec<Cells>),
    /// Whether a run of so many cells is better than the best one so far.
    is_better: fn(usize, usize) -> bool,
}

/// As document 02 has it.
const RIGHT_PASS: Pass = Pass {
    walk: RIGHT_WALK,
    first_cell: 1,
    end: |last_cell| last_cell + 1,
    cells: |label, _| cells_of(label),
    parts: |cells| !cells.is_empty(),
    behind: |so_far, cells| so_far.max(cells.end),
    leave: |_| {},
    is_better: |length, best| length > best,
};

/// The labels of the set, if nothing is to be refused.
fn judged(walk: Walk, arena: &[u16], last_cell: u16) -> Result<Vec<Label>, u16> {
    check_header(arena)?;
    if last_cell == 0 || last_cell > MAX_LAST_CELL {
        return Err(BAD_CALL);
    }
    walk.go(arena).map(|found| found.listed)
}

impl Pass {
    fn runs(&self, labels: &[Label], last_cell: u16) -> Vec<Cells> {
        let end = (self.end)(last_cell.into());
        let mut from = self.first_cell;
        let mut runs = Vec::new();
        for &label in labels {
            let cells = (self.cells)(label, end);
            if (self.parts)(&cells) {
                runs.push(from..cells.start.min(end));
                from = (self.behind)(from, &cells);
            }
        }
        runs.push(from..end);
        (self.leave)(&mut runs);
        runs
    }

    fn longest(&self, labels: &[Label], last_cell: u16) -> u64 {
        let mut best = 0..0;
        for run in self.runs(labels, last_cell) {
            if !run.is_empty() && (self.is_better)(run.len(), best.len()) {
                best = run;
            }
        }
        values(best).number()
    }

    fn reply(&self, arena: &[u16], last_cell: u16) -> u64 {
        match judged(self.walk, arena, last_cell) {
            Ok(labels) => self.longest(&labels, last_cell),
            Err(refusal) => u64::from(refusal),
        }
    }
}

fn values(run: Cells) -> Values {
    told(run.start as u16, run.len() as u16)
}

/// No fault yet: what the faults below begin with.
pub fn longest_passes(arena: &[u16], last_cell: u16) -> u64 {
    RIGHT_PASS.reply(arena, last_cell)
}

/// The answer goes on behind the last cell, as far as no label is.
pub fn longest_goes_on(arena: &[u16], last_cell: u16) -> u64 {
    then(arena, last_cell, |first, length| {
        let labels = judged(RIGHT_WALK, arena, last_cell).unwrap_or_default();
        let runs = RIGHT_PASS.runs(&labels, MAX_LAST_CELL);
        let mut whole = runs.iter().filter(|run| run.start == u32::from(first));
        match whole.find(|run| !run.is_empty()) {
            Some(run) if length != 0 => values(run.clone()),
            _ => told(first, length),
        }
    })
}

/// A search that looks at other cells, by the last one.
fn end_by(arena: &[u16], last_cell: u16, end: fn(u32) -> u32) -> u64 {
    let pass = Pass { end, ..RIGHT_PASS };
    pass.reply(arena, last_cell)
}

pub fn longest_without_last(arena: &[u16], last_cell: u16) -> u64 {
    end_by(arena, last_cell, |last_cell| last_cell)
}

pub fn longest_one_more(arena: &[u16], last_cell: u16) -> u64 {
    end_by(arena, last_cell, |last_cell| last_cell + 2)
}

pub fn longest_of_all(arena: &[u16], last_cell: u16) -> u64 {
    end_by(arena, last_cell, |_| u32::from(MAX_LAST_CELL) + 1)
}

pub fn longest_cell_0(arena: &[u16], last_cell: u16) -> u64 {
    let pass = Pass {
        first_cell: 0,
        ..RIGHT_PASS
    };
    pass.reply(arena, last_cell)
}

/// A search that takes labels for other cells.
fn cells_by(arena: &[u16], last_cell: u16, cells: fn(Label, u32) -> Cells) -> u64 {
    let pass = Pass {
        cells,
        ..RIGHT_PASS
    };
    pass.reply(arena, last_cell)
}

pub fn longest_label_short(arena: &[u16], last_cell: u16) -> u64 {
    cells_by(arena, last_cell, |label, _| {
        let cells = cells_of(label);
        cells.start..cells.end - u32::from(label.length != 0)
    })
}

pub fn longest_label_long(arena: &[u16], last_cell: u16) -> u64 {
    cells_by(arena, last_cell, |label, _| {
        let cells = cells_of(label);
        cells.start..cells.end + u32::from(label.length != 0)
    })
}

/// Right wherever no label has length 0.
pub fn longest_length_0_is_1(arena: &[u16], last_cell: u16) -> u64 {
    cells_by(arena, last_cell, |label, _| {
        let cells = cells_of(label);
        cells.start..cells.end.max(cells.start + 1)
    })
}

/// From the key less 1 on.
pub fn longest_starts_early(arena: &[u16], last_cell: u16) -> u64 {
    cells_by(arena, last_cell, |label, _| {
        let cells = cells_of(label);
        cells.start - u32::from(label.length != 0)..cells.end
    })
}

/// Right on every arena that is reached from a fresh one, as the next.
pub fn longest_short_sum(arena: &[u16], last_cell: u16) -> u64 {
    cells_by(arena, last_cell, |label, _| {
        u32::from(label.key)..u32::from(label.key.wrapping_add(label.length))
    })
}

pub fn longest_good_lengths(arena: &[u16], last_cell: u16) -> u64 {
    cells_by(arena, last_cell, |label, _| {
        if is_call_length(ADD, label.key, label.length) {
            cells_of(label)
        } else {
            0..0
        }
    })
}

/// A label counts only as a whole.
pub fn longest_whole_labels(arena: &[u16], last_cell: u16) -> u64 {
    cells_by(arena, last_cell, |label, end| {
        let cells = cells_of(label);
        if cells.end <= end {
            cells
        } else {
            0..0
        }
    })
}

/// Right wherever no label has length 0.
pub fn longest_length_0_parts(arena: &[u16], last_cell: u16) -> u64 {
    let pass = Pass {
        parts: |_| true,
        ..RIGHT_PASS
    };
    pass.reply(arena, last_cell)
}

/// Right wherever no label ends in an earlier one.
pub fn longest_inner_ends(arena: &[u16], last_cell: u16) -> u64 {
    let pass = Pass {
        behind: |_, cells| cells.end,
        ..RIGHT_PASS
    };
    pass.reply(arena, last_cell)
}

/// The lengths of labels that overlap are added up.
pub fn longest_adds_up(arena: &[u16], last_cell: u16) -> u64 {
    let pass = Pass {
        behind: |so_far, cells| so_far.max(cells.start) + cells.len() as u32,
        ..RIGHT_PASS
    };
    pass.reply(arena, last_cell)
}

/// A search that leaves some runs out.
fn leave_by(arena: &[u16], last_cell: u16, leave: fn(&mut Vec<Cells>)) -> u64 {
    let pass = Pass {
        leave,
        ..RIGHT_PASS
    };
    pass.reply(arena, last_cell)
}

pub fn longest_forgets_last(arena: &[u16], last_cell: u16) -> u64 {
    leave_by(arena, last_cell, |runs| {
        runs.pop();
    })
}

/// Right where no label is.
pub fn longest_forgets_first(arena: &[u16], last_cell: u16) -> u64 {
    leave_by(arena, last_cell, |runs| {
        if runs.len() > 1 {
            runs.remove(0);
        }
    })
}

pub fn longest_ends_alone(arena: &[u16], last_cell: u16) -> u64 {
    leave_by(arena, last_cell, |runs| {
        if runs.len() > 2 {
            runs.drain(1..runs.len() - 1);
        }
    })
}

/// A search that takes another run.
fn better_by(arena: &[u16], last_cell: u16, is_better: fn(usize, usize) -> bool) -> u64 {
    let pass = Pass {
        is_better,
        ..RIGHT_PASS
    };
    pass.reply(arena, last_cell)
}

pub fn longest_last_of_equals(arena: &[u16], last_cell: u16) -> u64 {
    better_by(arena, last_cell, |length, best| length >= best)
}

pub fn longest_takes_first(arena: &[u16], last_cell: u16) -> u64 {
    better_by(arena, last_cell, |_, best| best == 0)
}

pub fn longest_takes_last(arena: &[u16], last_cell: u16) -> u64 {
    better_by(arena, last_cell, |_, _| true)
}

/// A run must be longer than one cell.
pub fn longest_two_cells(arena: &[u16], last_cell: u16) -> u64 {
    better_by(arena, last_cell, |length, best| length > best.max(1))
}

/// A search in which one end of the chain has a label like the other nodes.
fn with_end(arena: &[u16], last_cell: u16, end: u16) -> u64 {
    match (judged(RIGHT_WALK, arena, last_cell), check_header(arena)) {
        (Ok(mut labels), Ok(shape)) => {
            labels.push(Label::read(arena, shape.node_at(end)));
            labels.sort_by_key(|label| label.key);
            RIGHT_PASS.longest(&labels, last_cell)
        }
        _ => Model.longest_free_run(arena, last_cell),
    }
}

/// Right on every arena that is reached from a fresh one, as the next.
pub fn longest_head_label(arena: &[u16], last_cell: u16) -> u64 {
    with_end(arena, last_cell, HEAD)
}

pub fn longest_tail_label(arena: &[u16], last_cell: u16) -> u64 {
    with_end(arena, last_cell, TAIL)
}

/// A search along the chain with faults at marked nodes.
fn walk_by(arena: &[u16], last_cell: u16, walk: Walk) -> u64 {
    let pass = Pass { walk, ..RIGHT_PASS };
    pass.reply(arena, last_cell)
}

pub fn longest_marked_cover(arena: &[u16], last_cell: u16) -> u64 {
    let walk = Walk {
        is_marked: |_| false,
        ..RIGHT_WALK
    };
    walk_by(arena, last_cell, walk)
}

/// Right on every arena that is reached from a fresh one.
pub fn longest_mark_one(arena: &[u16], last_cell: u16) -> u64 {
    let walk = Walk {
        is_marked: |mark| mark == 1,
        ..RIGHT_WALK
    };
    walk_by(arena, last_cell, walk)
}

pub fn longest_marked_link(arena: &[u16], last_cell: u16) -> u64 {
    let walk = Walk {
        checks_link: false,
        ..RIGHT_WALK
    };
    walk_by(arena, last_cell, walk)
}

/// The next key must be above it all the same.
pub fn longest_marked_key(arena: &[u16], last_cell: u16) -> u64 {
    let walk = Walk {
        checks_key: false,
        ..RIGHT_WALK
    };
    walk_by(arena, last_cell, walk)
}

/// It is checked itself, but the next key is compared with the last label's.
pub fn longest_last_label(arena: &[u16], last_cell: u16) -> u64 {
    let walk = Walk {
        keeps_key: false,
        ..RIGHT_WALK
    };
    walk_by(arena, last_cell, walk)
}

pub fn longest_no_marked_keys(arena: &[u16], last_cell: u16) -> u64 {
    let walk = Walk {
        checks_key: false,
        keeps_key: false,
        ..RIGHT_WALK
    };
    walk_by(arena, last_cell, walk)
}
