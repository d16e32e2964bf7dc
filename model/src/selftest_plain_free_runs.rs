//! The longest free run three ways: by marking every cell, by one pass along the chain, and, up to
//! few cells, by document 02's own words.

use crate::arena::*;
use crate::free_run::{longest_free_run, FreeRun};
use crate::plain_free_run;
use crate::rng::Rng;
use crate::selftest::{fresh, Checks};
use crate::turn::turn;

const INPUTS: u64 = 20_000;
/// Up to so many cells every run is tried.
const FEW_CELLS: u16 = 30;

pub fn plain_free_runs(checks: &mut Checks) {
    let mut met = Met::default();
    let (mut is_same, mut is_due) = (true, true);
    for number in 0..INPUTS {
        let mut rng = Rng::new(13, number);
        let arena = any_arena(&mut rng);
        let last_cell = any_last_cell(&mut rng, &arena);
        let marked = longest_free_run(&arena, last_cell);
        is_same &= plain_free_run::longest_free_run(&arena, last_cell) == marked;
        match marked {
            Ok(run) => {
                let set = set(&arena);
                is_due &= last_cell > FEW_CELLS || is_longest(&set, last_cell, run);
                met.note(&set, last_cell, run);
            }
            Err(number) => met.refusals[number as usize] += 1,
        }
        let roll_is_broken = snapshot(&arena, &mut [0; 64]) == Err(BROKEN_CHAIN);
        let is_good_cell = (1..=65_534).contains(&last_cell);
        is_due &= (marked == Err(BROKEN_CHAIN)) == (roll_is_broken && is_good_cell);
    }
    checks.check("one pass finds what the cells show", is_same);
    checks.check("the run is the longest", is_due);
    met.check(checks);
    at_every_time(checks);
}

/// Whether this is the answer that document 02 has for these labels.
fn is_longest(set: &[Label], last_cell: u16, run: FreeRun) -> bool {
    let last_cell = u32::from(last_cell);
    let lies_in = |cell: u32, label: &Label| {
        let key = u32::from(label.key);
        key <= cell && cell < key + u32::from(label.length)
    };
    let is_free = |cell: u32| !set.iter().any(|label| lies_in(cell, label));
    let is_free_run = |first: u32, length: u32| {
        let mut cells = first..first + length;
        cells.end <= last_cell + 1 && cells.all(is_free)
    };
    let (first, length) = (u32::from(run.first), u32::from(run.length));
    let is_none_longer = (1..=last_cell).all(|other| !is_free_run(other, length + 1));
    let is_none_lower = (1..first).all(|other| !is_free_run(other, length));
    let is_some = first >= 1 && length >= 1 && is_free_run(first, length);
    is_none_longer && is_none_lower && (is_some || run == FreeRun::default())
}

/// Labels on a chain, mostly good: lengths below and above the steps from key to key, so that labels
/// lie apart, overlap and lie in one another; 0, and lengths that run past 65,535.
fn any_arena(rng: &mut Rng) -> Vec<u16> {
    let shape = Shape {
        workers: 1,
        nodes: *rng.pick(&[3, 4, 6, 9, 20]),
    };
    let mut arena = fresh(shape);
    let chain = rng.word(0, shape.nodes - 2);
    let largest_step = *rng.pick(&[1, 3, 9, 60, 3_000]);
    let longest = *rng.pick(&[1, largest_step, 3 * largest_step, 65_535]);
    let (mut last, mut key) = (HEAD, 0);
    if rng.chance(20) {
        key = TAIL_KEY - largest_step * chain;
    }
    for node in 2..2 + chain {
        key += rng.word(1, largest_step);
        let length = match rng.range(0, 9) {
            0 => 0,
            1 => *rng.pick(&[1, TAIL_KEY - key, 65_534, 65_535]),
            _ => rng.word(1, longest),
        };
        let mark = u16::from(rng.chance(10));
        let record = [key, TAIL, mark, 0, length];
        arena[shape.node_at(last) + NEXT] = node;
        arena[shape.node_at(node)..][..NODE_WORDS].copy_from_slice(&record);
        last = node;
    }
    if rng.chance(5) {
        let node = rng.word(0, 1 + chain);
        let place = *rng.pick(&[KEY, NEXT]);
        arena[shape.node_at(node) + place] = *rng.pick(&[0, 2, shape.nodes, NONE]);
    }
    if rng.chance(3) {
        let old: OldShape = shape.in_layout();
        arena[..HEADER_WORDS].copy_from_slice(&old.header(0));
    }
    arena.truncate(usize::from(arena[5]) - usize::from(rng.chance(2)));
    arena[7] = u16::from(rng.chance(2));
    arena
}

/// Beside an edge of a label, among few cells, or any.
fn any_last_cell(rng: &mut Rng, arena: &[u16]) -> u16 {
    let set = set(arena);
    match rng.range(0, 9) {
        0..=3 if !set.is_empty() => {
            let label = rng.pick(&set);
            let edge = *rng.pick(&[label.key, label.key.wrapping_add(label.length)]);
            edge.wrapping_sub(rng.word(0, 2))
        }
        0..=7 => rng.word(1, FEW_CELLS),
        8 => *rng.pick(&[0, 1, 65_534, 65_535]),
        _ => rng.word(1, 65_534),
    }
}

/// What the inputs are meant to meet.
#[derive(Default)]
struct Met {
    refusals: [u32; 13],
    none: u32,
    all: u32,
    /// The answer begins with cell 1, or ends with the last one, and not both.
    at_start: u32,
    at_end: u32,
    between: u32,
    /// A label begins in an earlier one and ends with it or behind it, or before its end.
    overlaps: u32,
    inner: u32,
    no_length: u32,
    past_all: u32,
    key_65535: u32,
}

impl Met {
    fn note(&mut self, set: &[Label], last_cell: u16, run: FreeRun) {
        let begins = run.first == 1;
        let ends = run.length != 0 && run.first + (run.length - 1) == last_cell;
        self.none += u32::from(run == FreeRun::default());
        self.all += u32::from(begins && ends);
        self.at_start += u32::from(begins && !ends);
        self.at_end += u32::from(ends && !begins);
        self.between += u32::from(run.first > 1 && !ends);
        let end = |label: &Label| u32::from(label.key) + u32::from(label.length);
        let mut pairs = set.windows(2).map(|pair| (pair[0], pair[1]));
        let is_in = |(one, next): (Label, Label)| u32::from(next.key) < end(&one);
        let ends_in = |(one, next): (Label, Label)| end(&next) < end(&one);
        let is_inner = pairs.clone().any(|pair| is_in(pair) && ends_in(pair));
        self.inner += u32::from(is_inner);
        self.overlaps += u32::from(pairs.any(|pair| is_in(pair) && !ends_in(pair)));
        self.no_length += u32::from(set.iter().any(|label| label.length == 0));
        self.past_all += u32::from(set.iter().any(|label| end(label) > 65_536));
        self.key_65535 += u32::from(set.iter().any(|label| label.key == TAIL_KEY));
    }

    fn check(&self, checks: &mut Checks) {
        for refusal in [1, 2, OLD_LAYOUT, BAD_CALL, BROKEN_CHAIN] {
            let count = self.refusals[refusal as usize];
            checks.check(&format!("free runs refused {refusal}: {count}"), count > 50);
        }
        for (name, count) in [
            ("no cell", self.none),
            ("all cells", self.all),
            ("the first cells", self.at_start),
            ("the last cells", self.at_end),
            ("cells between", self.between),
            ("overlapping labels", self.overlaps),
            ("labels in labels", self.inner),
            ("length 0", self.no_length),
            ("labels past 65,535", self.past_all),
            ("key 65,535", self.key_65535),
        ] {
            checks.check(&format!("free runs, {name}: {count}"), count > 100);
        }
    }
}

/// Two workers' calls in short bursts: both ways are right at every time.
fn at_every_time(checks: &mut Checks) {
    let mut arena = fresh(Shape {
        workers: 2,
        nodes: 6,
    });
    let mut rng = Rng::new(6, 6);
    let mut is_due = true;
    for _ in 0..5_000 {
        let worker = rng.word(0, 1);
        let operation = *rng.pick(&[ADD, ADD, REMOVE]);
        let length = if operation == ADD { rng.word(1, 9) } else { 0 };
        // Refused if the worker is busy.
        let _ = start(&mut arena, worker, operation, rng.word(1, 20), length);
        for _ in 0..rng.range(1, 9) {
            is_due &= turn(&mut arena, worker).is_ok();
            let last_cell = rng.word(1, FEW_CELLS);
            let marked = longest_free_run(&arena, last_cell);
            is_due &= marked.is_ok_and(|run| is_longest(&set(&arena), last_cell, run));
            is_due &= plain_free_run::longest_free_run(&arena, last_cell) == marked;
        }
    }
    checks.check("the longest free run at every time", is_due);
}
