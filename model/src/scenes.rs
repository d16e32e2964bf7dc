//! Schedules that lead workers into the situations that document 01 warns of; chance alone seldom
//! finds them.

use crate::arena::*;
use crate::rng::Rng;
use crate::script::{Script, Style};

/// A contains stands still on its way while its key, or the node before it, goes out and its key
/// comes back: it may answer no although the key is there again.
pub fn overtaken(rng: &mut Rng) -> Script {
    let workers = rng.word(2, 3);
    let mut script = Script::new(workers, rng.word(4, 6));
    let slow = workers - 1;
    let key = rng.word(2, 4);
    let before = rng.word(1, key - 1);
    let with_before = rng.chance(50);
    if with_before {
        script.whole_call(0, ADD, before);
    }
    if rng.chance(70) {
        script.whole_call(0, ADD, key);
    }
    script.start(slow, CONTAINS, key);
    let steps = rng.range(1, 6) as usize;
    script.turns(slow, steps);
    script.whole_call(0, REMOVE, key);
    if with_before && rng.chance(70) {
        script.whole_call(0, REMOVE, before);
    }
    script.whole_call(0, ADD, key);
    if rng.chance(30) {
        script.whole_call(0, REMOVE, key);
    }
    let style = Style {
        keys: 4,
        burst: 3,
        odd: 2,
        slow: Some(slow),
    };
    for _ in 0..rng.range(0, 3) {
        style.random_line(rng, &mut script);
    }
    if rng.chance(90) {
        script.finish(slow);
    }
    script
}

/// A node is off the chain, or not yet on it, but not free: whether adds find room shows it.
pub fn held_nodes(rng: &mut Rng) -> Script {
    if rng.chance(60) {
        held_by_removed(rng)
    } else {
        held_by_spare(rng)
    }
}

/// A slow worker stands on a node; it and the nodes behind it are removed, so that it still leads
/// to them; then others take all nodes that they can get.
fn held_by_removed(rng: &mut Rng) -> Script {
    let workers = rng.word(2, 3);
    let nodes = rng.word(4, 7);
    let mut script = Script::new(workers, nodes);
    let slow = workers - 1;
    let stored = rng.word(2, nodes - 2);
    for key in (1..=stored).rev() {
        script.whole_call(0, ADD, 2 * key);
    }
    let operation = *rng.pick(&[ADD, REMOVE, CONTAINS, CONTAINS]);
    script.start(slow, operation, 2 * stored + rng.word(0, 1));
    let steps = rng.range(3, 9) as usize;
    script.turns(slow, steps);
    for key in 1..=stored {
        if rng.chance(85) {
            script.whole_call(0, REMOVE, 2 * key);
        }
    }
    for _ in 0..nodes {
        script.whole_call(0, ADD, rng.word(1, 2 * stored + 3));
        if rng.chance(15) {
            let step = rng.range(1, 4) as usize;
            script.turns(slow, step);
        }
    }
    script.finish(slow);
    script.finish(0);
    script.finish(slow);
    script
}

/// A worker stops in the middle of a change, most often with a node taken but not yet linked,
/// while another one far from it on the chain looks for a node.
fn held_by_spare(rng: &mut Rng) -> Script {
    let nodes = rng.word(5, 6);
    let mut script = Script::new(rng.word(2, 4), nodes);
    for key in [6, 3] {
        script.whole_call(0, ADD, key);
    }
    script.start(0, *rng.pick(&[ADD, ADD, REMOVE]), rng.word(1, 3));
    script.advance(0, *rng.pick(&[15, 15, 17, 18, 19]));
    for _ in 0..rng.range(1, 3) {
        script.whole_call(1, ADD, rng.word(7, 9));
    }
    script.finish(0);
    script.finish(1);
    script
}

/// Again and again one worker stands still with a node or two in its hands, and others run into it
/// and wait; then it goes on, and they are in each other's way.
pub fn in_the_way(rng: &mut Rng) -> Script {
    let workers = rng.word(2, 5);
    let mut script = Script::new(workers, rng.word(4, 14));
    let greatest_key = rng.word(2, 8);
    for key in (2..=greatest_key).step_by(2) {
        script.whole_call(0, ADD, key);
    }
    for _ in 0..rng.range(1, 8) {
        let holder = rng.word(0, workers - 1);
        let stage = *rng.pick(&[7, 8, 10, 15, 17, 19, 20]);
        change_near(rng, &mut script, holder, greatest_key, stage);
        for _ in 0..rng.range(1, 4) {
            let other = rng.word(0, workers - 1);
            change_near(rng, &mut script, other, greatest_key, 0);
            if !script.is_idle(other) {
                let waits = rng.range(1, 3) as usize;
                script.turns_that_fit(other, waits);
            }
        }
        if rng.chance(80) {
            script.finish(holder);
        }
    }
    script
}

/// Workers stop about where they have marked their nodes, most often before these are off the chain:
/// a roll at the end passes over them. Another worker comes along, and some of them may go on.
pub fn half_removed(rng: &mut Rng) -> Script {
    let workers = rng.word(2, 5);
    let stored = rng.word(1, 9);
    let mut script = Script::new(workers, stored + rng.word(2, 4));
    for key in (1..=stored).rev() {
        script.whole_call(0, ADD, 2 * key);
    }
    let last = workers - 1;
    for worker in 0..last {
        script.start(worker, REMOVE, 2 * rng.word(1, stored));
        script.advance(worker, *rng.pick(&[16, 17, 17, 18, 18, 19]));
    }
    for _ in 0..rng.range(0, 3) {
        let operation = rng.word(ADD, CONTAINS);
        script.whole_call(last, operation, rng.word(1, 2 * stored + 1));
    }
    for worker in 0..last {
        if rng.chance(20) {
            script.finish(worker);
        }
    }
    script
}

/// Takes a worker's add or remove, a new one if it is idle, up to a stage or to where it waits.
fn change_near(rng: &mut Rng, script: &mut Script, worker: u16, greatest_key: u16, stage: u16) {
    if script.is_idle(worker) {
        let operation = rng.word(ADD, REMOVE);
        script.start(worker, operation, rng.word(1, greatest_key));
    }
    script.advance(worker, stage);
}
