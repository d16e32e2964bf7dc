//! The entry points of include/lazy_list.h, of the proved library and of the model.

use model::arena;
use model::convert;
use model::count;
use model::free;
use model::free_run;
use model::run;
use model::turn;

/// Words of a call in a history.
pub const CALL_WORDS: usize = 7;
/// Words of a wait.
pub const WAIT_WORDS: usize = 4;

/// The C interface: lent words are changed in place, and a reply is one number.
pub trait Library: Sync {
    fn init(&self, arena: &mut [u16], workers: u16, nodes: u16) -> u64;
    fn start(&self, arena: &mut [u16], worker: u16, call: Start) -> u64;
    fn turn(&self, arena: &mut [u16], worker: u16) -> u64;
    fn snapshot(&self, arena: &[u16], keys: &mut [u16]) -> u64;
    fn find_free(&self, arena: &[u16]) -> u64;
    fn longest_free_run(&self, arena: &[u16], last_cell: u16) -> u64;
    fn stored(&self, arena: &[u16]) -> u64;
    /// Source and lengths are lent for writing, so that a library that writes them is only wrong.
    fn to_layout_2(&self, source: &mut [u16], lengths: &mut [u16], target: &mut [u16]) -> u64;
    /// So is the source here.
    fn to_layout_1(&self, source: &mut [u16], target: &mut [u16]) -> u64;
    fn run(&self, run: Run) -> u64;
}

/// The call that a worker is to start.
#[derive(Clone, Copy, Debug)]
pub struct Start {
    pub operation: u16,
    pub key: u16,
    /// Of the label.
    pub length: u16,
}

/// What a run is given and lent.
pub struct Run<'a> {
    pub arena: &'a mut [u16],
    pub workers: u16,
    pub nodes: u16,
    pub schedule: &'a [u16],
    pub history: &'a mut [u16],
    pub waits: &'a mut [u16],
    pub totals: &'a mut [u16; 4],
}

impl Run<'_> {
    /// The same for a library, while what it leaves in the lent words is still wanted.
    pub fn again(&mut self) -> Run<'_> {
        Run {
            arena: self.arena,
            workers: self.workers,
            nodes: self.nodes,
            schedule: self.schedule,
            history: self.history,
            waits: self.waits,
            totals: self.totals,
        }
    }

    /// How many records the two rows hold.
    pub fn room(&self) -> run::Room {
        run::Room {
            calls: self.history.len() / CALL_WORDS,
            waits: self.waits.len() / WAIT_WORDS,
        }
    }
}

mod c {
    extern "C" {
        pub fn lazy_list_init(arena: *mut u16, length: usize, workers: u16, nodes: u16) -> u64;
        pub fn lazy_list_start(
            arena: *mut u16,
            length: usize,
            worker: u16,
            operation: u16,
            key: u16,
            label_length: u16,
        ) -> u64;
        pub fn lazy_list_turn(arena: *mut u16, length: usize, worker: u16) -> u64;
        pub fn lazy_list_snapshot(
            arena: *const u16,
            length: usize,
            keys: *mut u16,
            keys_length: usize,
        ) -> u64;
        pub fn lazy_list_find_free(arena: *const u16, length: usize) -> u64;
        pub fn lazy_list_longest_free_run(arena: *const u16, length: usize, last_cell: u16) -> u64;
        pub fn lazy_list_stored(arena: *const u16, length: usize) -> u64;
        pub fn lazy_list_to_layout_2(
            source: *const u16,
            source_length: usize,
            label_lengths: *const u16,
            label_lengths_length: usize,
            target: *mut u16,
            target_length: usize,
        ) -> u64;
        pub fn lazy_list_to_layout_1(
            source: *const u16,
            source_length: usize,
            target: *mut u16,
            target_length: usize,
        ) -> u64;
        pub fn lazy_list_run(
            arena: *mut u16,
            length: usize,
            workers: u16,
            nodes: u16,
            schedule: *const u16,
            schedule_length: usize,
            history: *mut u16,
            history_length: usize,
            waits: *mut u16,
            waits_length: usize,
            totals: *mut u16,
        ) -> u64;
    }
}

/// The proved library. Its functions have no conditions on their words; a slice is a pointer and a
/// length, and borrowing keeps lent slices apart.
pub struct Proved;

impl Library for Proved {
    fn init(&self, arena: &mut [u16], workers: u16, nodes: u16) -> u64 {
        unsafe { c::lazy_list_init(arena.as_mut_ptr(), arena.len(), workers, nodes) }
    }

    fn start(&self, arena: &mut [u16], worker: u16, call: Start) -> u64 {
        let Start {
            operation,
            key,
            length,
        } = call;
        unsafe {
            c::lazy_list_start(
                arena.as_mut_ptr(),
                arena.len(),
                worker,
                operation,
                key,
                length,
            )
        }
    }

    fn turn(&self, arena: &mut [u16], worker: u16) -> u64 {
        unsafe { c::lazy_list_turn(arena.as_mut_ptr(), arena.len(), worker) }
    }

    fn snapshot(&self, arena: &[u16], keys: &mut [u16]) -> u64 {
        unsafe { c::lazy_list_snapshot(arena.as_ptr(), arena.len(), keys.as_mut_ptr(), keys.len()) }
    }

    fn find_free(&self, arena: &[u16]) -> u64 {
        unsafe { c::lazy_list_find_free(arena.as_ptr(), arena.len()) }
    }

    fn longest_free_run(&self, arena: &[u16], last_cell: u16) -> u64 {
        unsafe { c::lazy_list_longest_free_run(arena.as_ptr(), arena.len(), last_cell) }
    }

    fn stored(&self, arena: &[u16]) -> u64 {
        unsafe { c::lazy_list_stored(arena.as_ptr(), arena.len()) }
    }

    fn to_layout_2(&self, source: &mut [u16], lengths: &mut [u16], target: &mut [u16]) -> u64 {
        unsafe {
            c::lazy_list_to_layout_2(
                source.as_mut_ptr(),
                source.len(),
                lengths.as_mut_ptr(),
                lengths.len(),
                target.as_mut_ptr(),
                target.len(),
            )
        }
    }

    fn to_layout_1(&self, source: &mut [u16], target: &mut [u16]) -> u64 {
        unsafe {
            c::lazy_list_to_layout_1(
                source.as_mut_ptr(),
                source.len(),
                target.as_mut_ptr(),
                target.len(),
            )
        }
    }

    fn run(&self, run: Run) -> u64 {
        unsafe {
            c::lazy_list_run(
                run.arena.as_mut_ptr(),
                run.arena.len(),
                run.workers,
                run.nodes,
                run.schedule.as_ptr(),
                run.schedule.len(),
                run.history.as_mut_ptr(),
                run.history.len(),
                run.waits.as_mut_ptr(),
                run.waits.len(),
                run.totals.as_mut_ptr(),
            )
        }
    }
}

/// The independent model behind the same interface.
pub struct Model;

/// What an accepted call replies; what it does not have is 0.
#[derive(Clone, Copy, Debug, Default, PartialEq, Eq)]
pub struct Values {
    /// Of a turn.
    pub report: u8,
    pub first: u16,
    pub second: u16,
}

impl Values {
    /// Report in the second byte, then the values in 16 bits each.
    pub const fn number(self) -> u64 {
        (self.report as u64) << 8 | (self.first as u64) << 16 | (self.second as u64) << 32
    }

    /// None for a refusal, or if some other bit is set.
    pub fn read(reply: u64) -> Option<Values> {
        let values = Values {
            report: (reply >> 8) as u8,
            first: (reply >> 16) as u16,
            second: (reply >> 32) as u16,
        };
        (values.number() == reply).then_some(values)
    }
}

// The numbers of the reports of a turn.
pub const IDLE: u8 = 0;
pub const MOVED: u8 = 1;
pub const WAITS: u8 = 2;
pub const FINISHED: u8 = 3;

/// A reply as one number: a refusal's own number, or the values.
pub fn number(reply: Result<Values, u16>) -> u64 {
    match reply {
        Ok(values) => values.number(),
        Err(refusal) => u64::from(refusal),
    }
}

/// The reply of a call that has no values.
pub fn nothing_told(done: Result<(), u16>) -> u64 {
    number(done.map(|()| Values::default()))
}

fn report_values(report: turn::Report) -> Values {
    let (report, first, second) = match report {
        turn::Report::Idle => (IDLE, 0, 0),
        turn::Report::Moved(stage) => (MOVED, stage, 0),
        turn::Report::Waits { node, worker } => (WAITS, node, worker),
        turn::Report::Finished(answer) => (FINISHED, answer.number(), 0),
    };
    Values {
        report,
        first,
        second,
    }
}

pub fn count_values(count: usize) -> Values {
    Values {
        first: count as u16,
        ..Values::default()
    }
}

/// The node, or 65,535 for none; the next words read.
pub fn found_values(found: free::Found) -> Values {
    Values {
        first: found.node.unwrap_or(arena::NONE),
        second: found.reads,
        ..Values::default()
    }
}

/// The first cell; the length.
pub fn free_run_values(run: free_run::FreeRun) -> Values {
    Values {
        first: run.first,
        second: run.length,
        ..Values::default()
    }
}

impl Library for Model {
    fn init(&self, arena: &mut [u16], workers: u16, nodes: u16) -> u64 {
        nothing_told(arena::init(arena, workers, nodes))
    }

    fn start(&self, arena: &mut [u16], worker: u16, call: Start) -> u64 {
        let Start {
            operation,
            key,
            length,
        } = call;
        nothing_told(arena::start(arena, worker, operation, key, length))
    }

    fn turn(&self, arena: &mut [u16], worker: u16) -> u64 {
        number(turn::turn(arena, worker).map(report_values))
    }

    fn snapshot(&self, arena: &[u16], keys: &mut [u16]) -> u64 {
        number(arena::snapshot(arena, keys).map(count_values))
    }

    fn find_free(&self, arena: &[u16]) -> u64 {
        number(free::find_free(arena).map(found_values))
    }

    fn longest_free_run(&self, arena: &[u16], last_cell: u16) -> u64 {
        number(free_run::longest_free_run(arena, last_cell).map(free_run_values))
    }

    fn stored(&self, arena: &[u16]) -> u64 {
        number(count::stored(arena).map(|count| count_values(count.into())))
    }

    fn to_layout_2(&self, source: &mut [u16], lengths: &mut [u16], target: &mut [u16]) -> u64 {
        nothing_told(convert::to_layout_2(source, lengths, target))
    }

    fn to_layout_1(&self, source: &mut [u16], target: &mut [u16]) -> u64 {
        nothing_told(convert::to_layout_1(source, target))
    }

    fn run(&self, run: Run) -> u64 {
        let room = run.room();
        let done = run::run_traced(run.arena, run.workers, run.nodes, run.schedule, room);
        number(done.map(|trace| {
            *run.totals = total_words(trace.totals);
            for (words, call) in run.history.chunks_exact_mut(CALL_WORDS).zip(trace.calls) {
                words.copy_from_slice(&call_words(call));
            }
            for (words, wait) in run.waits.chunks_exact_mut(WAIT_WORDS).zip(trace.waits) {
                words.copy_from_slice(&wait.words());
            }
            Values::default()
        }))
    }
}

/// The totals of a run, in the order of the interface.
pub fn total_words(counts: run::Totals) -> [u16; 4] {
    [counts.entries, counts.refused, counts.waits, counts.calls]
}

fn call_words(call: run::Call) -> [u16; CALL_WORDS] {
    let run::Call {
        worker,
        operation,
        key,
        start,
        point,
        finish,
        answer,
        length: _,
    } = call;
    [worker, operation, key, start, point, finish, answer]
}
