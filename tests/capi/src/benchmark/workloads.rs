//! The kinds of work that are timed.

use std::ops::Range;

use model::arena::{NODE_WORDS, WORKER_WORDS};
use model::run::ENTRY_WORDS;

use crate::benchmark::measure::{Words, Workload};
use crate::library::{Library, Run, Start};

/// Worker, act, key, length.
pub type Entry = [u16; ENTRY_WORDS];

/// Starts and turns one by one, as a print loop deals them.
pub struct Entries {
    /// At first.
    pub words: Words,
    /// An act of 0 is a turn.
    pub entries: Vec<Entry>,
}

impl Workload for Entries {
    fn words(&self) -> &Words {
        &self.words
    }

    fn operations(&self) -> usize {
        self.entries.len()
    }

    fn is_in_c(&self) -> bool {
        true
    }

    fn pass<L: Library>(&self, library: &L, words: &mut Words, mut reply: impl FnMut(u64)) {
        for &[worker, operation, key, length] in &self.entries {
            let call = Start {
                operation,
                key,
                length,
            };
            reply(match operation {
                0 => library.turn(&mut words.arena, worker),
                _ => library.start(&mut words.arena, worker, call),
            });
        }
    }
}

/// A call from its start to its finish, with nobody in its way.
pub struct WholeCall {
    /// Who makes it.
    pub worker: u16,
    /// How it begins.
    pub start: Start,
    /// As many as it takes.
    pub turns: usize,
}

/// Whole calls one after another. A turn is the operation; the starts are in its time.
pub struct WholeCalls {
    /// At first.
    pub words: Words,
    /// In their order.
    pub calls: Vec<WholeCall>,
}

impl Workload for WholeCalls {
    fn words(&self) -> &Words {
        &self.words
    }

    fn operations(&self) -> usize {
        self.calls.iter().map(|call| call.turns).sum()
    }

    fn is_in_c(&self) -> bool {
        true
    }

    fn pass<L: Library>(&self, library: &L, words: &mut Words, mut reply: impl FnMut(u64)) {
        for call in &self.calls {
            reply(library.start(&mut words.arena, call.worker, call.start));
            for _ in 0..call.turns {
                reply(library.turn(&mut words.arena, call.worker));
            }
        }
    }
}

/// An arena filled from fresh, as one operation.
pub struct Fill {
    /// The last one is answered full.
    pub adds: WholeCalls,
}

impl Workload for Fill {
    fn words(&self) -> &Words {
        self.adds.words()
    }

    fn operations(&self) -> usize {
        1
    }

    fn is_in_c(&self) -> bool {
        self.adds.is_in_c()
    }

    fn pass<L: Library>(&self, library: &L, words: &mut Words, reply: impl FnMut(u64)) {
        self.adds.pass(library, words, reply);
    }
}

/// What a worker does again and again.
pub enum Act {
    /// Starts this call.
    Start(Start),
    /// Takes a turn.
    Turn,
}

/// The same start or turn again and again. What it changes, a worker's record and a node at most, is put
/// back each time; all sides pay for that alike, a nanosecond or two.
pub struct SameAct {
    /// Before it.
    pub words: Words,
    /// Who does it, be there such a worker or not.
    pub worker: u16,
    /// What it does.
    pub act: Act,
    /// Where the record stands, if it changes.
    pub record_at: Option<usize>,
    /// Where the node stands, if one changes.
    pub node_at: Option<usize>,
    /// How often.
    pub repeats: usize,
}

impl Workload for SameAct {
    fn words(&self) -> &Words {
        &self.words
    }

    fn operations(&self) -> usize {
        self.repeats
    }

    fn is_in_c(&self) -> bool {
        true
    }

    fn pass<L: Library>(&self, library: &L, words: &mut Words, mut reply: impl FnMut(u64)) {
        let (arena, first) = (&mut words.arena, &self.words.arena);
        for _ in 0..self.repeats {
            // Before the call, so that what the last one wrote is there to be compared.
            if let Some(at) = self.record_at {
                put_back::<WORKER_WORDS>(arena, first, at);
            }
            if let Some(at) = self.node_at {
                put_back::<NODE_WORDS>(arena, first, at);
            }
            reply(match self.act {
                Act::Start(call) => library.start(arena, self.worker, call),
                Act::Turn => library.turn(arena, self.worker),
            });
        }
    }
}

/// Of a number of words that the compiler knows, or copying would take longer than some calls.
fn put_back<const COUNT: usize>(arena: &mut [u16], first: &[u16], at: usize) {
    arena[at..at + COUNT].copy_from_slice(&first[at..at + COUNT]);
}

/// Whole runs, each of another schedule and with a history of its own.
pub struct Runs {
    /// What all of them are lent.
    pub words: Words,
    /// Of the arena that a run lays.
    pub workers: u16,
    /// As well.
    pub nodes: u16,
    /// In flat words.
    pub schedules: Vec<Vec<u16>>,
    /// Of each run.
    pub history_words: usize,
    /// Where the waits of each run are lent.
    pub waits_rows: Vec<Range<usize>>,
}

impl Workload for Runs {
    fn words(&self) -> &Words {
        &self.words
    }

    fn operations(&self) -> usize {
        self.schedules.len()
    }

    fn is_in_c(&self) -> bool {
        false
    }

    fn pass<L: Library>(&self, library: &L, words: &mut Words, mut reply: impl FnMut(u64)) {
        let Words {
            arena,
            out,
            waits,
            totals,
            ..
        } = words;
        let histories = out.chunks_exact_mut(self.history_words);
        let rows = histories.zip(&self.waits_rows);
        for (schedule, (history, waits_row)) in self.schedules.iter().zip(rows) {
            reply(library.run(Run {
                arena,
                workers: self.workers,
                nodes: self.nodes,
                schedule,
                history,
                waits: &mut waits[waits_row.clone()],
                totals,
            }));
            for total in *totals {
                reply(total.into());
            }
        }
    }
}

/// A call that leaves the words as it finds them, or writes the same anew.
pub enum Call {
    /// With the numbers of workers and nodes.
    Init(u16, u16),
    /// Into the words beside the arena.
    Snapshot,
    /// On the arena alone.
    FindFree,
    /// Up to this cell.
    LongestFreeRun(u16),
    /// On the arena alone.
    Stored,
    /// Into the words beside the arena, with the lengths lent.
    ToLayout2,
    /// Into the words beside the arena.
    ToLayout1,
}

/// The same call again and again.
pub struct Repeated {
    /// Before it and, but for what it writes anew, behind it.
    pub words: Words,
    /// Which one.
    pub call: Call,
    /// How often.
    pub repeats: usize,
}

impl Repeated {
    /// Called where it is known which call it is, so that no side finds that out again each time.
    fn again(&self, mut reply: impl FnMut(u64), mut call: impl FnMut() -> u64) {
        for _ in 0..self.repeats {
            reply(call());
        }
    }
}

impl Workload for Repeated {
    fn words(&self) -> &Words {
        &self.words
    }

    fn operations(&self) -> usize {
        self.repeats
    }

    fn is_in_c(&self) -> bool {
        false
    }

    fn pass<L: Library>(&self, library: &L, words: &mut Words, reply: impl FnMut(u64)) {
        let Words {
            arena,
            out,
            lengths,
            ..
        } = words;
        match self.call {
            Call::Init(workers, nodes) => self.again(reply, || library.init(arena, workers, nodes)),
            Call::Snapshot => self.again(reply, || library.snapshot(arena, out)),
            Call::FindFree => self.again(reply, || library.find_free(arena)),
            Call::LongestFreeRun(last_cell) => {
                self.again(reply, || library.longest_free_run(arena, last_cell))
            }
            Call::Stored => self.again(reply, || library.stored(arena)),
            Call::ToLayout2 => self.again(reply, || library.to_layout_2(arena, lengths, out)),
            Call::ToLayout1 => self.again(reply, || library.to_layout_1(arena, out)),
        }
    }
}
