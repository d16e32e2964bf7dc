//! A library that is the model but for one entry point.

use super::wrong_conversions::Converter;
use crate::library::{Library, Model, Run, Start};

/// An arena, workers and nodes.
pub type Init = fn(&mut [u16], u16, u16) -> u64;

/// The model with some entry points replaced.
pub struct Wrong {
    pub name: &'static str,
    pub init: Init,
    pub start: fn(&mut [u16], u16, Start) -> u64,
    pub turn: fn(&mut [u16], u16) -> u64,
    pub snapshot: fn(&[u16], &mut [u16]) -> u64,
    pub find_free: fn(&[u16]) -> u64,
    pub longest_free_run: fn(&[u16], u16) -> u64,
    pub stored: fn(&[u16]) -> u64,
    /// None is the model's.
    pub to_layout_2: Option<Converter>,
    pub to_layout_1: Option<Converter>,
    pub run: fn(Run) -> u64,
}

pub const RIGHT: Wrong = Wrong {
    name: "the model itself",
    init: |arena, workers, nodes| Model.init(arena, workers, nodes),
    start: |arena, worker, call| Model.start(arena, worker, call),
    turn: |arena, worker| Model.turn(arena, worker),
    snapshot: |arena, keys| Model.snapshot(arena, keys),
    find_free: |arena| Model.find_free(arena),
    longest_free_run: |arena, last_cell| Model.longest_free_run(arena, last_cell),
    stored: |arena| Model.stored(arena),
    to_layout_2: None,
    to_layout_1: None,
    run: |run| Model.run(run),
};

pub const fn wrong_init(name: &'static str, init: Init) -> Wrong {
    Wrong {
        name,
        init,
        ..RIGHT
    }
}

pub const fn wrong_start(name: &'static str, start: fn(&mut [u16], u16, Start) -> u64) -> Wrong {
    Wrong {
        name,
        start,
        ..RIGHT
    }
}

pub const fn wrong_turn(name: &'static str, turn: fn(&mut [u16], u16) -> u64) -> Wrong {
    Wrong {
        name,
        turn,
        ..RIGHT
    }
}

pub const fn wrong_snapshot(name: &'static str, snapshot: fn(&[u16], &mut [u16]) -> u64) -> Wrong {
    Wrong {
        name,
        snapshot,
        ..RIGHT
    }
}

pub const fn wrong_search(name: &'static str, find_free: fn(&[u16]) -> u64) -> Wrong {
    Wrong {
        name,
        find_free,
        ..RIGHT
    }
}

pub const fn wrong_longest(name: &'static str, longest_free_run: fn(&[u16], u16) -> u64) -> Wrong {
    Wrong {
        name,
        longest_free_run,
        ..RIGHT
    }
}

pub const fn wrong_stored(name: &'static str, stored: fn(&[u16]) -> u64) -> Wrong {
    Wrong {
        name,
        stored,
        ..RIGHT
    }
}

pub const fn wrong_to_2(name: &'static str, converter: Converter) -> Wrong {
    Wrong {
        name,
        to_layout_2: Some(converter),
        ..RIGHT
    }
}

pub const fn wrong_to_1(name: &'static str, converter: Converter) -> Wrong {
    Wrong {
        name,
        to_layout_1: Some(converter),
        ..RIGHT
    }
}

pub const fn wrong_run(name: &'static str, run: fn(Run) -> u64) -> Wrong {
    Wrong { name, run, ..RIGHT }
}

impl Library for Wrong {
    fn init(&self, arena: &mut [u16], workers: u16, nodes: u16) -> u64 {
        (self.init)(arena, workers, nodes)
    }

    fn start(&self, arena: &mut [u16], worker: u16, call: Start) -> u64 {
        (self.start)(arena, worker, call)
    }

    fn turn(&self, arena: &mut [u16], worker: u16) -> u64 {
        (self.turn)(arena, worker)
    }

    fn snapshot(&self, arena: &[u16], keys: &mut [u16]) -> u64 {
        (self.snapshot)(arena, keys)
    }

    fn find_free(&self, arena: &[u16]) -> u64 {
        (self.find_free)(arena)
    }

    fn longest_free_run(&self, arena: &[u16], last_cell: u16) -> u64 {
        (self.longest_free_run)(arena, last_cell)
    }

    fn stored(&self, arena: &[u16]) -> u64 {
        (self.stored)(arena)
    }

    fn to_layout_2(&self, source: &mut [u16], lengths: &mut [u16], target: &mut [u16]) -> u64 {
        match &self.to_layout_2 {
            Some(converter) => converter.convert(source, Some(lengths), target),
            None => Model.to_layout_2(source, lengths, target),
        }
    }

    fn to_layout_1(&self, source: &mut [u16], target: &mut [u16]) -> u64 {
        match &self.to_layout_1 {
            Some(converter) => converter.convert(source, None, target),
            None => Model.to_layout_1(source, target),
        }
    }

    fn run(&self, run: Run) -> u64 {
        (self.run)(run)
    }
}
