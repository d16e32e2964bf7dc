//! The labels of a set and the free runs that they leave: to tell what the search for the longest
//! one met, and what it must answer.

use std::ops::Range;

use model::arena::*;

use super::chain::{Chain, End};
use crate::library::Values;

/// Cells side by side, the first one and the one behind the last; that may be above 65,535.
pub type Cells = Range<u32>;

/// What a label covers.
pub fn cells_of(label: Label) -> Cells {
    let first = u32::from(label.key);
    first..first + u32::from(label.length)
}

pub struct FreeRuns<'a> {
    pub chain: Chain<'a>,
    /// What the labels of the set cover, in chain order; nothing, if they have no length.
    pub labels: Vec<Cells>,
    /// What the labels of marked nodes would cover.
    pub marked: Vec<Cells>,
    pub last_cell: u32,
    /// From cell 1 to the last one, in rising order.
    pub runs: Vec<Cells>,
}

impl<'a> FreeRuns<'a> {
    /// None if the arena has a bad header or a broken chain.
    pub fn of(words: &'a [u16], last_cell: u16) -> Option<FreeRuns<'a>> {
        let chain = Chain::of(words).filter(|chain| chain.end == End::Tail)?;
        let cells = |&node: &u16| cells_of(chain.label(node));
        let (marked, listed): (Vec<u16>, Vec<u16>) =
            chain.nodes.iter().partition(|&&node| chain.is_marked(node));
        let labels: Vec<Cells> = listed.iter().map(cells).collect();
        let marked = marked.iter().map(cells).collect();
        let last_cell = u32::from(last_cell);
        let runs = free_runs(&labels, last_cell);
        Some(FreeRuns {
            chain,
            labels,
            marked,
            last_cell,
            runs,
        })
    }

    /// The first of the longest ones, if there is a free cell.
    pub fn answer(&self) -> Option<&Cells> {
        // Of several it gives the last one.
        self.runs.iter().rev().max_by_key(|run| run.len())
    }

    /// What the search must answer.
    pub fn longest(&self) -> Values {
        let run = self.answer().cloned().unwrap_or(0..0);
        Values {
            first: run.start as u16,
            second: run.len() as u16,
            ..Values::default()
        }
    }

    /// Those that cover something.
    pub fn covering(&self) -> impl Iterator<Item = &Cells> {
        self.labels.iter().filter(|cells| !cells.is_empty())
    }
}

/// What rising labels leave free from cell 1 to the last one.
fn free_runs(labels: &[Cells], last_cell: u32) -> Vec<Cells> {
    let behind_last = last_cell + 1..last_cell + 2;
    let covering = labels.iter().filter(|cells| !cells.is_empty());
    let mut runs = Vec::new();
    let mut from = 1;
    for cells in covering.chain([&behind_last]) {
        let run = from..cells.start.min(behind_last.start);
        if !run.is_empty() {
            runs.push(run);
        }
        from = from.max(cells.end);
    }
    runs
}
