//! The count, worked out by hand from document 02 and held against the set at every time.

use crate::arena::*;
use crate::bench::{evaluate, Outcome};
use crate::count::{check_counts, stored};
use crate::free::find_free;
use crate::free_run::longest_free_run;
use crate::rng::Rng;
use crate::selftest::{fresh, good_start, Checks};
use crate::selftest_refusals::{at_stage, refused, SHAPE, STAGES, WORDS};
use crate::turn::{turn, Report};

pub fn counts(checks: &mut Checks) {
    for nodes in [3, 4, 5, MAX_NODES] {
        headers(checks, Shape::new(1, nodes).expect("good counts"));
    }
    at_every_time(checks);
    by_hand(checks);
    stages(checks);
    after_6_and_7(checks);
    order_of_turn(checks);
    wrong_number(checks);
    wrong_counts(checks);
}

/// Word 6 is at most N less 2; each function says so, and none compares it with the chain.
fn headers(checks: &mut Checks, shape: Shape) {
    let nodes = shape.nodes;
    for word in [0, 1, nodes - 3, nodes - 2, nodes - 1, nodes, NONE] {
        let mut arena = fresh(shape);
        arena[COUNT] = word;
        let is_good = word <= nodes - 2;
        let due = if is_good { Ok(()) } else { Err(ODD_HEADER) };
        let name = format!("count {word} of {shape:?}");
        let told = stored(&arena);
        checks.check(&name, told == due.map(|()| word));
        let free = find_free(&arena).map(|found| found.node);
        checks.check(&name, free == due.map(|()| Some(2)));
        checks.check(&name, snapshot(&arena, &mut []) == due.map(|()| 0));
        let run = longest_free_run(&arena, 9).map(|run| run.length);
        checks.check(&name, run == due.map(|()| 9));
        let report = turn(&mut arena, 0);
        checks.check(&name, report == due.map(|()| Report::Idle));
        checks.check(&name, good_start(&mut arena, 0, ADD, 5) == due);
        checks.check(&name, arena[COUNT] == word);
    }
}

/// Turns of worker 0 up to a stage, or until it is idle.
fn advance(arena: &mut [u16], shape: Shape, stage: u16) -> bool {
    let at = shape.worker_at(0) + STAGE;
    (0..60).any(|_| turn(arena, 0).is_err() || arena[at] == stage)
}

/// One label comes in by the turn at 15 and goes out by the turn at 16, which marks it.
fn by_hand(checks: &mut Checks) {
    let shape = SHAPE;
    let mut arena = fresh(shape);
    for (operation, stage, count) in [
        (ADD, 15, 0),
        (ADD, 19, 1),
        (ADD, 0, 1),
        (REMOVE, 16, 1),
        (REMOVE, 17, 0),
        (REMOVE, 18, 0),
        (REMOVE, 0, 0),
        // The node that was removed is taken again.
        (ADD, 14, 0),
        (ADD, 0, 1),
    ] {
        let at = shape.worker_at(0) + STAGE;
        if arena[at] == 0 {
            let started = good_start(&mut arena, 0, operation, 5);
            checks.check("a call starts", started.is_ok());
        }
        let name = format!("operation {operation} at {stage}");
        checks.check(&name, advance(&mut arena, shape, stage));
        checks.check(&name, arena[at] == stage && arena[COUNT] == count);
    }
}

/// A turn at 15 or 16 counts, or is refused at the end of the range; no other turn looks at the count.
fn stages(checks: &mut Checks) {
    for (stage, operations, _) in STAGES {
        let mut usual = at_stage(stage, operations[0]);
        let usual_report = turn(&mut usual, 0);
        for count in 0..=2 {
            let mut arena = at_stage(stage, operations[0]);
            arena[COUNT] = count;
            let before = arena.clone();
            let due = match stage {
                15 => (count < 2).then(|| count + 1),
                16 => count.checked_sub(1),
                _ => Some(count),
            };
            let report = turn(&mut arena, 0);
            let name = format!("stage {stage}, count {count}: {report:?}");
            if let Some(due) = due {
                checks.check(&name, report == usual_report && arena[COUNT] == due);
                arena[COUNT] = usual[COUNT];
                checks.check(&name, arena == usual);
            } else {
                checks.check(&name, report == Err(BROKEN_COUNT) && arena == before);
            }
        }
    }
}

/// At the end of the range a broken record is refused with 6, and a broken link with 7: stages that
/// read a link do not count.
fn after_6_and_7(checks: &mut Checks) {
    let shape = SHAPE;
    for (stage, count) in [(15, 2), (16, 0)] {
        let operation = if stage == 15 { ADD } else { REMOVE };
        let broken = [(OPERATION, CONTAINS), (CALL_KEY, 0), (CALL_KEY, TAIL_KEY)];
        let nodes: &[usize] = if stage == 15 { &[PRED, SPARE] } else { &[CURR] };
        let nodes = nodes.iter().map(|&word| (word, shape.nodes));
        for (word, value) in broken.into_iter().chain(nodes) {
            let mut arena = at_stage(stage, operation);
            arena[COUNT] = count;
            arena[shape.worker_at(0) + word] = value;
            refused(checks, "6 before 14", BROKEN_RECORD, arena, |a| turn(a, 0));
        }
    }
    for (stage, operation) in [(2, ADD), (2, REMOVE), (5, ADD), (17, REMOVE)] {
        for count in [0, 2] {
            let mut arena = at_stage(stage, operation);
            arena[COUNT] = count;
            for node in 0..shape.nodes {
                arena[shape.node_at(node) + NEXT] = NONE;
            }
            refused(checks, "7 on any count", BROKEN_CHAIN, arena, |a| {
                turn(a, 0)
            });
        }
    }
}

/// In each row one more fault is repaired.
fn order_of_turn(checks: &mut Checks) {
    let (shape, words) = (SHAPE, WORDS);
    for (stage, operation, count) in [(15, ADD, 2), (16, REMOVE, 0)] {
        for (number, words, last_word, worker, key) in [
            (1, words - 1, 1, 2, 0),
            (2, words, 1, 2, 0),
            (3, words, 0, 2, 0),
            (6, words, 0, 0, 0),
            (14, words, 0, 0, 5),
        ] {
            let mut arena = at_stage(stage, operation);
            (arena[COUNT], arena[7]) = (count, last_word);
            arena[shape.worker_at(0) + CALL_KEY] = key;
            arena.truncate(words);
            refused(checks, "order of turn", number, arena, |a| turn(a, worker));
        }
    }
}

/// On an arena whose count is wrong a turn counts on from it, whatever the chain holds, and an add that
/// is refused goes on once another worker has taken a label out.
fn wrong_number(checks: &mut Checks) {
    let shape = Shape::new(2, 6).expect("good counts");
    let mut arena = fresh(shape);
    let added = good_start(&mut arena, 0, ADD, 5);
    checks.check("an add", added.is_ok() && advance(&mut arena, shape, 0));
    arena[COUNT] = 3;
    let added = good_start(&mut arena, 0, ADD, 6);
    checks.check("another", added.is_ok() && advance(&mut arena, shape, 0));
    checks.check("counted on to 4", stored(&arena) == Ok(4));
    checks.check("two are stored", set(&arena).len() == 2);
    let added = good_start(&mut arena, 0, ADD, 9);
    checks.check("a third", added.is_ok() && advance(&mut arena, shape, 15));
    for _ in 0..2 {
        refused(checks, "4 is full", BROKEN_COUNT, arena.clone(), |a| {
            turn(a, 0)
        });
    }
    // Worker 0 holds the nodes of 6 and of Tail; this one needs Head's and that of 5.
    let removed = good_start(&mut arena, 1, REMOVE, 5);
    checks.check("a remove", removed.is_ok());
    let ends = (0..60).any(|_| matches!(turn(&mut arena, 1), Ok(Report::Finished(_))));
    checks.check("it ends", ends && stored(&arena) == Ok(3));
    checks.check("goes on", turn(&mut arena, 0) == Ok(Report::Moved(19)));
    checks.check("counted again", stored(&arena) == Ok(4));
}

/// Two workers' calls in short bursts on a fresh arena: at every time the count is the size of the set,
/// and no turn is refused.
fn at_every_time(checks: &mut Checks) {
    let shape = Shape::new(3, 6).expect("good counts");
    let mut arena = fresh(shape);
    let mut rng = Rng::new(6, 6);
    let (mut is_size, mut is_accepted) = (true, true);
    let mut sizes = [0; 5];
    for _ in 0..8_000 {
        let worker = rng.word(0, 2);
        let operation = *rng.pick(&[ADD, ADD, REMOVE]);
        // Refused if the worker is busy.
        let _ = good_start(&mut arena, worker, operation, rng.word(1, 6));
        for _ in 0..rng.range(1, 9) {
            is_accepted &= turn(&mut arena, worker).is_ok();
            let size = set(&arena).len();
            sizes[size] += 1;
            is_size &= stored(&arena) == Ok(size as u16);
        }
    }
    checks.check("the count is the size of the set", is_size);
    checks.check("no turn is refused", is_accepted);
    let all_met = sizes.iter().all(|&times| times > 100);
    checks.check(&format!("sizes of sets {sizes:?}"), all_met);
}

/// Two labels come in, and one of them goes out.
const COUNTED_INPUT: &str = "\
board 1 4
add 0 5 1
turn 0 14
add 0 3 2
turn 0 14
remove 0 5
turn 0 17
";

/// The counts of a run pass; with one of them wrong, left out or late they don't.
fn wrong_counts(checks: &mut Checks) {
    let Outcome::Ran(trace, _) = evaluate(COUNTED_INPUT.as_bytes()) else {
        return checks.check("a run with counts", false);
    };
    let (sets, counts) = (&trace.sets, &trace.counts);
    let is_told = |counts: &[u16]| check_counts(sets, counts).is_err();
    checks.check("its counts", !is_told(counts));
    checks.check("up to two and down", counts.contains(&2) && counts[48] == 1);
    checks.check("one left out", is_told(&counts[1..]));
    for place in 0..counts.len() {
        for wrong in [0, 1, 2, 3, NONE] {
            let mut other = counts.clone();
            other[place] = wrong;
            let is_same = counts[place] == wrong;
            checks.check("wrong count", is_told(&other) != is_same);
        }
    }
    let late = [&[0], &counts[..counts.len() - 1]].concat();
    checks.check("an entry late", is_told(&late));
}
