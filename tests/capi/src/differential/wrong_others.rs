//! Init, start and snapshot with one fault each.

use model::arena::*;

use super::layouts::AnyShape;
use crate::library::{Library, Model, Start};

const ACCEPTED: u64 = 0;
/// Of a snapshot's count, which is the first value.
const ONE_KEY: u64 = 1 << 16;

pub fn init_past_total(arena: &mut [u16], workers: u16, nodes: u16) -> u64 {
    let reply = Model.init(arena, workers, nodes);
    if reply == ACCEPTED {
        let total = arena[5] as usize;
        if let Some(word) = arena.get_mut(total) {
            *word = 0;
        }
    }
    reply
}

pub fn start_too_long(arena: &mut [u16], worker: u16, call: Start) -> u64 {
    let reply = Model.start(arena, worker, call);
    if reply == ACCEPTED {
        arena[HEADER_WORDS + WORKER_WORDS * (worker as usize + 1)] = 0;
    }
    reply
}

pub fn start_bad_call_first(arena: &mut [u16], worker: u16, call: Start) -> u64 {
    let reply = Model.start(arena, worker, call);
    let good = (ADD..=CONTAINS).contains(&call.operation) && is_call_key(call.key);
    if reply == u64::from(BUSY) && !good {
        return u64::from(BAD_CALL);
    }
    reply
}

/// The keys that are listed, however many.
fn all_keys(arena: &[u16]) -> Vec<u16> {
    let mut keys = vec![0; MAX_NODES as usize];
    let count = snapshot(arena, &mut keys).unwrap_or(0);
    keys.truncate(count);
    keys
}

pub fn snapshot_skips(arena: &[u16], keys: &mut [u16]) -> u64 {
    let count = all_keys(arena).len();
    if count == 0 || count > keys.len() {
        return Model.snapshot(arena, keys);
    }
    let last = keys[count - 1];
    let reply = Model.snapshot(arena, keys);
    keys[count - 1] = last;
    reply - ONE_KEY
}

pub fn snapshot_no_room(arena: &[u16], keys: &mut [u16]) -> u64 {
    for (word, key) in keys.iter_mut().zip(all_keys(arena)) {
        *word = key;
    }
    Model.snapshot(arena, keys)
}

pub fn snapshot_tail_key(arena: &[u16], keys: &mut [u16]) -> u64 {
    if let (Ok(shape), Some(&last)) = (check_header(arena), all_keys(arena).last()) {
        if arena[shape.node_at(TAIL) + KEY] <= last {
            return u64::from(BROKEN_CHAIN);
        }
    }
    Model.snapshot(arena, keys)
}

/// How a snapshot, or the search for a free run, goes along the chain, for faults with marked nodes.
#[derive(Clone, Copy)]
pub struct Walk {
    /// By the mark word.
    pub is_marked: fn(u16) -> bool,
    /// Whether a marked node's link must lead to a node.
    pub checks_link: bool,
    /// Whether a marked node's key must be above the one before.
    pub checks_key: bool,
    /// Whether the key behind a marked node must be above its own.
    pub keeps_key: bool,
}

/// As document 02 has it.
pub const RIGHT_WALK: Walk = Walk {
    is_marked: |mark| mark != 0,
    checks_link: true,
    checks_key: true,
    keeps_key: true,
};

/// What a walk finds on the chain.
#[derive(Default)]
pub struct Found {
    /// Labels of the set.
    pub listed: Vec<Label>,
    nodes: usize,
    /// Of the last node, if it is marked.
    last_marked_key: Option<u16>,
}

impl Walk {
    pub fn go(&self, arena: &[u16]) -> Result<Found, u16> {
        check_header(arena).and_then(|shape| self.go_in(arena, shape.into()))
    }

    /// In either layout.
    pub fn go_in(&self, arena: &[u16], shape: AnyShape) -> Result<Found, u16> {
        let mut found = Found::default();
        let mut at = shape.node_at(HEAD);
        let mut last_key = arena[at + KEY];
        loop {
            let node = arena[at + NEXT];
            let ends_unchecked = found.last_marked_key.is_some() && !self.checks_link;
            if node == TAIL || (node >= shape.nodes && ends_unchecked) {
                return Ok(found);
            }
            // Where keys are not checked, there may be a circle.
            if node >= shape.nodes || found.nodes == shape.nodes as usize {
                return Err(BROKEN_CHAIN);
            }
            at = shape.node_at(node);
            let (key, is_marked) = (arena[at + KEY], (self.is_marked)(arena[at + MARK]));
            if key <= last_key && (self.checks_key || !is_marked) {
                return Err(BROKEN_CHAIN);
            }
            if self.keeps_key || !is_marked {
                last_key = key;
            }
            found.note(shape.label(arena, node), is_marked);
        }
    }

    fn snapshot(&self, arena: &[u16], keys: &mut [u16]) -> u64 {
        let found = match self.go(arena) {
            Ok(found) => found,
            Err(refusal) => return u64::from(refusal),
        };
        let count = found.listed.len();
        let Some(room) = keys.get_mut(..count) else {
            return u64::from(NO_ROOM);
        };
        for (word, label) in room.iter_mut().zip(&found.listed) {
            *word = label.key;
        }
        ONE_KEY * count as u64
    }
}

impl Found {
    fn note(&mut self, label: Label, is_marked: bool) {
        self.nodes += 1;
        self.last_marked_key = is_marked.then_some(label.key);
        if !is_marked {
            self.listed.push(label);
        }
    }
}

/// No fault yet: what the faults below begin with.
pub fn snapshot_walks(arena: &[u16], keys: &mut [u16]) -> u64 {
    RIGHT_WALK.snapshot(arena, keys)
}

/// As it was before document 02's request.
pub fn snapshot_lists_marked(arena: &[u16], keys: &mut [u16]) -> u64 {
    let walk = Walk {
        is_marked: |_| false,
        ..RIGHT_WALK
    };
    walk.snapshot(arena, keys)
}

/// Right on every arena that is reached from a fresh one.
pub fn snapshot_mark_one(arena: &[u16], keys: &mut [u16]) -> u64 {
    let walk = Walk {
        is_marked: |mark| mark == 1,
        ..RIGHT_WALK
    };
    walk.snapshot(arena, keys)
}

/// The chain ends where it leads to no node.
pub fn snapshot_marked_link(arena: &[u16], keys: &mut [u16]) -> u64 {
    let walk = Walk {
        checks_link: false,
        ..RIGHT_WALK
    };
    walk.snapshot(arena, keys)
}

/// The next key must be above it all the same.
pub fn snapshot_marked_key(arena: &[u16], keys: &mut [u16]) -> u64 {
    let walk = Walk {
        checks_key: false,
        ..RIGHT_WALK
    };
    walk.snapshot(arena, keys)
}

/// It is checked itself, but the next key is compared with the last listed one.
pub fn snapshot_last_listed(arena: &[u16], keys: &mut [u16]) -> u64 {
    let walk = Walk {
        keeps_key: false,
        ..RIGHT_WALK
    };
    walk.snapshot(arena, keys)
}

pub fn snapshot_no_marked_keys(arena: &[u16], keys: &mut [u16]) -> u64 {
    let walk = Walk {
        checks_key: false,
        keeps_key: false,
        ..RIGHT_WALK
    };
    walk.snapshot(arena, keys)
}

pub fn snapshot_room_for_all(arena: &[u16], keys: &mut [u16]) -> u64 {
    match RIGHT_WALK.go(arena) {
        Ok(found) if found.nodes > keys.len() => u64::from(NO_ROOM),
        _ => Model.snapshot(arena, keys),
    }
}

/// The keys are right.
pub fn snapshot_counts_all(arena: &[u16], keys: &mut [u16]) -> u64 {
    let reply = Model.snapshot(arena, keys);
    match RIGHT_WALK.go(arena) {
        Ok(found) if reply != u64::from(NO_ROOM) => ONE_KEY * found.nodes as u64,
        _ => reply,
    }
}

/// It is written before its mark is looked at, and not counted: behind the last listed key it stays.
pub fn snapshot_past_listed(arena: &[u16], keys: &mut [u16]) -> u64 {
    let reply = Model.snapshot(arena, keys);
    if let (Ok(found), false) = (RIGHT_WALK.go(arena), reply == u64::from(NO_ROOM)) {
        let past = keys.get_mut(found.listed.len());
        if let (Some(word), Some(key)) = (past, found.last_marked_key) {
            *word = key;
        }
    }
    reply
}

/// Right on every arena that is reached from a fresh one.
pub fn snapshot_head_mark(arena: &[u16], keys: &mut [u16]) -> u64 {
    match check_header(arena) {
        Ok(shape) if arena[shape.node_at(HEAD) + MARK] != 0 => u64::from(BROKEN_CHAIN),
        _ => Model.snapshot(arena, keys),
    }
}
