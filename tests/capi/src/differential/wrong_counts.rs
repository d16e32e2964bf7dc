//! Turns that have one fault each in how they count: in what their header test takes, in which of them
//! count, and in which of them are refused for it.

use model::arena::*;

use super::wrong_turns::moved;
use crate::library::{Library, Model, Values};

/// A turn of a worker of the arena, on a header that is taken.
struct Step<'a> {
    before: &'a [u16],
    shape: Shape,
    stage: u16,
    operation: u16,
    count: u16,
    /// The model's, on a count that is at neither end of its range for this turn.
    reply: u64,
}

impl Step<'_> {
    fn is_accepted(&self) -> bool {
        Values::read(self.reply).is_some()
    }

    fn is_most(&self) -> bool {
        self.count == self.shape.max_count()
    }

    /// Whether an add is about to count past the greatest count, or a remove below 0.
    fn is_at_end(&self) -> bool {
        match self.operation {
            ADD => self.is_most(),
            REMOVE => self.count == 0,
            _ => false,
        }
    }

    fn counts(&self) -> bool {
        self.is_accepted() && matches!(self.stage, 15 | 16)
    }
}

/// How turns count, for faults with it.
struct Counting {
    /// Whether a header is taken with this count.
    takes: fn(Shape, u16) -> bool,
    /// Whether the turn is refused with 14.
    is_refused: fn(&Step) -> bool,
    /// Whether the turn's words are written even so.
    writes_refused: bool,
    /// By how much the count changes if it is not.
    change: fn(&Step) -> i16,
}

fn is_refused(step: &Step) -> bool {
    step.counts() && step.is_at_end()
}

fn change(step: &Step) -> i16 {
    change_at(step, 15, 16)
}

/// One more by the turn at one stage, one less by that at another.
fn change_at(step: &Step, more: u16, less: u16) -> i16 {
    i16::from(step.stage == more) - i16::from(step.stage == less)
}

/// As document 02 has it.
const RIGHT_COUNTING: Counting = Counting {
    takes: |shape, count| count <= shape.max_count(),
    is_refused,
    writes_refused: false,
    change,
};

/// The shape of an arena whose header is good with count 0.
fn shape_but_count(arena: &[u16]) -> Option<Shape> {
    let mut words = arena.to_vec();
    *words.get_mut(COUNT)? = 0;
    check_header(&words).ok()
}

/// The model's turn on a count that is not at its end for this stage; the count stays as it is.
fn on_other_count(arena: &mut [u16], worker: u16, stage: u16) -> u64 {
    let count = arena[COUNT];
    arena[COUNT] = u16::from(stage == 16);
    let reply = Model.turn(arena, worker);
    arena[COUNT] = count;
    reply
}

impl Counting {
    fn turn(&self, arena: &mut [u16], worker: u16) -> u64 {
        let Some(shape) = shape_but_count(arena) else {
            return Model.turn(arena, worker);
        };
        let count = arena[COUNT];
        if !(self.takes)(shape, count) {
            return u64::from(ODD_HEADER);
        }
        if worker >= shape.workers {
            return u64::from(NO_SUCH_WORKER);
        }
        let before = arena.to_vec();
        let record = &before[shape.worker_at(worker)..];
        let (stage, operation) = (record[STAGE], record[OPERATION]);
        let step = Step {
            before: &before,
            shape,
            stage,
            operation,
            count,
            reply: on_other_count(arena, worker, stage),
        };
        if (self.is_refused)(&step) {
            if !self.writes_refused {
                arena.copy_from_slice(&before);
            }
            return u64::from(BROKEN_COUNT);
        }
        if step.is_accepted() {
            arena[COUNT] = count.wrapping_add_signed((self.change)(&step));
        }
        step.reply
    }
}

/// No fault yet: what the faults below begin with.
pub fn turn_counts(arena: &mut [u16], worker: u16) -> u64 {
    RIGHT_COUNTING.turn(arena, worker)
}

/// A turn whose header test takes other counts.
fn taken_by(arena: &mut [u16], worker: u16, takes: fn(Shape, u16) -> bool) -> u64 {
    let counting = Counting {
        takes,
        ..RIGHT_COUNTING
    };
    counting.turn(arena, worker)
}

pub fn turn_any_count(arena: &mut [u16], worker: u16) -> u64 {
    taken_by(arena, worker, |_, _| true)
}

pub fn turn_count_below_nodes(arena: &mut [u16], worker: u16) -> u64 {
    taken_by(arena, worker, |shape, count| count < shape.nodes)
}

pub fn turn_count_below_most(arena: &mut [u16], worker: u16) -> u64 {
    taken_by(arena, worker, |shape, count| {
        count == 0 || count < shape.max_count()
    })
}

/// As it was before document 02's request.
pub fn turn_count_0(arena: &mut [u16], worker: u16) -> u64 {
    taken_by(arena, worker, |_, count| count == 0)
}

/// A turn that counts otherwise.
fn changed_by(arena: &mut [u16], worker: u16, change: fn(&Step) -> i16) -> u64 {
    let counting = Counting {
        change,
        ..RIGHT_COUNTING
    };
    counting.turn(arena, worker)
}

pub fn turn_never_counts(arena: &mut [u16], worker: u16) -> u64 {
    changed_by(arena, worker, |_| 0)
}

/// When the node is taken, and not when it is linked.
pub fn turn_counts_at_14(arena: &mut [u16], worker: u16) -> u64 {
    changed_by(arena, worker, |step| {
        if step.stage == 14 && step.reply != moved(15) {
            0
        } else {
            change_at(step, 14, 16)
        }
    })
}

/// When the node is off the chain, and not when it is marked.
pub fn turn_counts_at_18(arena: &mut [u16], worker: u16) -> u64 {
    changed_by(arena, worker, |step| change_at(step, 15, 18))
}

pub fn turn_counts_down_twice(arena: &mut [u16], worker: u16) -> u64 {
    changed_by(arena, worker, |step| {
        change(step) - i16::from(step.stage == 18)
    })
}

pub fn turn_counts_up_alone(arena: &mut [u16], worker: u16) -> u64 {
    changed_by(arena, worker, |step| change(step).max(0))
}

pub fn turn_counts_down_alone(arena: &mut [u16], worker: u16) -> u64 {
    changed_by(arena, worker, |step| change(step).min(0))
}

/// The count becomes the size of the set: right on every arena that is reached from a fresh one.
pub fn turn_counts_anew(arena: &mut [u16], worker: u16) -> u64 {
    changed_by(arena, worker, |step| {
        let size = set(step.before).len() as i16;
        match change(step) {
            0 => 0,
            one => size + one - step.count as i16,
        }
    })
}

/// A turn that is refused with 14 elsewhere.
fn refused_by(arena: &mut [u16], worker: u16, is_refused: fn(&Step) -> bool) -> u64 {
    let counting = Counting {
        is_refused,
        ..RIGHT_COUNTING
    };
    counting.turn(arena, worker)
}

/// The count goes on below 0 and above N less 2.
pub fn turn_no_14(arena: &mut [u16], worker: u16) -> u64 {
    refused_by(arena, worker, |_| false)
}

/// There it stops.
pub fn turn_stops_counting(arena: &mut [u16], worker: u16) -> u64 {
    let counting = Counting {
        is_refused: |_| false,
        change: |step| if is_refused(step) { 0 } else { change(step) },
        ..RIGHT_COUNTING
    };
    counting.turn(arena, worker)
}

pub fn turn_no_14_at_16(arena: &mut [u16], worker: u16) -> u64 {
    refused_by(arena, worker, |step| is_refused(step) && step.stage != 16)
}

/// A header holds no count of N less 1, so an add is never refused.
pub fn turn_14_by_nodes(arena: &mut [u16], worker: u16) -> u64 {
    refused_by(arena, worker, |step| {
        let is_most = step.count == step.shape.nodes - 1;
        is_refused(step) && (step.stage == 16 || is_most)
    })
}

/// One that would fill the last node, too.
pub fn turn_14_early(arena: &mut [u16], worker: u16) -> u64 {
    refused_by(arena, worker, |step| {
        let is_next = step.count == step.shape.nodes - 3;
        is_refused(step) || (step.counts() && step.stage == 15 && is_next)
    })
}

pub fn turn_14_at_14(arena: &mut [u16], worker: u16) -> u64 {
    refused_by(arena, worker, |step| {
        let takes_node = step.stage == 14 && step.reply == moved(15);
        is_refused(step) || (takes_node && step.is_most())
    })
}

/// Not only where it would count.
pub fn turn_14_at_once(arena: &mut [u16], worker: u16) -> u64 {
    refused_by(arena, worker, |step| {
        let is_busy = (1..=16).contains(&step.stage) && step.is_accepted();
        is_busy && step.is_at_end()
    })
}

/// Whether a turn that is to be refused with this number has a count at its end.
fn before(step: &Step, refusal: u16) -> bool {
    step.reply == u64::from(refusal) && step.is_at_end()
}

pub fn turn_14_before_6(arena: &mut [u16], worker: u16) -> u64 {
    refused_by(arena, worker, |step| {
        let is_counting = matches!(step.stage, 15 | 16);
        is_refused(step) || (is_counting && before(step, BROKEN_RECORD))
    })
}

/// The stages that count read no link, so this one looks at the count of others too.
pub fn turn_14_before_7(arena: &mut [u16], worker: u16) -> u64 {
    refused_by(arena, worker, |step| {
        is_refused(step) || before(step, BROKEN_CHAIN)
    })
}

/// Right on every arena that is reached from a fresh one.
pub fn turn_14_by_set(arena: &mut [u16], worker: u16) -> u64 {
    refused_by(arena, worker, |step| {
        let is_wrong = step.count != set(step.before).len() as u16;
        is_refused(step) || (step.counts() && is_wrong)
    })
}

pub fn turn_14_writes(arena: &mut [u16], worker: u16) -> u64 {
    let counting = Counting {
        writes_refused: true,
        ..RIGHT_COUNTING
    };
    counting.turn(arena, worker)
}
