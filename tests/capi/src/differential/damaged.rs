//! Arenas with something broken in them, and large ones with links in any order.

use model::arena::*;
use model::rng::Rng;

use super::chain::Chain;
use super::placed::*;

/// Changes one to three words of a good arena, its layout, its length, its count, or its chain at a
/// marked node. A changed link may lead nowhere, past some keys, or into a circle.
pub fn damage(rng: &mut Rng, words: &mut Vec<u16>) {
    match rng.range(0, 99) {
        0..=9 => change_length(rng, words),
        10..=19 => change_layout(rng, words),
        20..=34 => break_at_mark(rng, words),
        35..=46 => change_count(rng, words),
        _ => change_words(rng, words),
    }
}

/// Marks a node of the chain and breaks the chain there: its link leads to no node, its key is not
/// above the one before, or the next key, if there is one, is not above its own.
pub fn break_at_mark(rng: &mut Rng, words: &mut [u16]) {
    let chain = Chain::of(words).expect("a good header so far");
    if chain.nodes.is_empty() {
        return;
    }
    let place = rng.index(chain.nodes.len());
    let (node, shape) = (chain.nodes[place], chain.shape);
    let key_before = chain.word(chain.before(place), KEY);
    let next = chain.word(node, NEXT).min(shape.nodes - 1);
    let next_key = chain.word(next, KEY);
    let at = shape.node_at(node);
    words[at + MARK] = some_mark(rng);
    match rng.range(0, 2) {
        0 => words[at + NEXT] = *rng.pick(&[shape.nodes, shape.nodes + 1, NONE]),
        1 => words[at + KEY] = key_before.saturating_sub(rng.word(0, 1)),
        _ => words[at + KEY] = next_key.saturating_add(rng.word(0, 1)),
    }
}

/// Another layout's number, the old one's total, or its whole header over the records as they stand.
fn change_layout(rng: &mut Rng, words: &mut [u16]) {
    let shape = check_header(words).expect("a good arena so far");
    let old: OldShape = shape.in_layout();
    match rng.range(0, 2) {
        0 => words[0] = *rng.pick(&[0, 1, 3]),
        1 => words[5] = old.total() as u16,
        _ => words[..HEADER_WORDS].copy_from_slice(&old.header(0)),
    }
}

/// A count at an edge of its range or beside one, in the range, or any.
fn change_count(rng: &mut Rng, words: &mut [u16]) {
    let nodes = check_header(words).expect("a good arena so far").nodes;
    words[COUNT] = match rng.range(0, 9) {
        0..=6 => *rng.pick(&[0, 1, nodes - 3, nodes - 2, nodes - 1, nodes, NONE]),
        7..=8 => rng.word(0, nodes - 2),
        _ => rng.word(0, NONE),
    };
}

fn change_words(rng: &mut Rng, words: &mut [u16]) {
    for _ in 0..rng.range(1, 3) {
        let Some(shape) = Shape::new(words[1], words[2]) else {
            return;
        };
        let at = match rng.range(0, 9) {
            0..=1 => rng.index(HEADER_WORDS),
            2..=4 => HEADER_WORDS + rng.index(WORKER_WORDS * shape.workers as usize),
            5..=7 => shape.node_at(node_in_use(rng, words, shape)) + NEXT,
            _ => shape.node_at(rng.word(0, shape.nodes - 1)) + rng.index(NODE_WORDS),
        };
        // A damaged header may tell of more than is there.
        if let Some(word) = words.get_mut(at) {
            *word = other_word(rng, *word, shape);
        }
    }
}

/// Mostly a node that some worker stands on.
fn node_in_use(rng: &mut Rng, words: &[u16], shape: Shape) -> u16 {
    let at = shape.worker_at(rng.word(0, shape.workers - 1));
    match words.get(at + *rng.pick(&[PRED, CURR])) {
        Some(&node) if node < shape.nodes => node,
        _ => rng.word(0, shape.nodes - 1),
    }
}

/// A word near what was there, near what would be allowed, or any.
fn other_word(rng: &mut Rng, word: u16, shape: Shape) -> u16 {
    match rng.range(0, 9) {
        0 => word.wrapping_add(1),
        1 => word.wrapping_sub(1),
        2..=4 => rng.word(0, shape.nodes - 1),
        5..=6 => *rng.pick(&[0, 1, 2, 4, 25, 26]),
        7..=8 => *rng.pick(&[shape.nodes, shape.nodes + 1, NONE]),
        _ => rng.word(0, 65_535),
    }
}

fn change_length(rng: &mut Rng, words: &mut Vec<u16>) {
    if rng.chance(30) {
        words.resize(words.len() + 1 + rng.index(8), NONE);
    } else if rng.chance(50) {
        words.truncate(words.len() - 1 - rng.index(6));
    } else {
        words.truncate(rng.index(words.len()));
    }
}

/// A large arena whose links form a chain in any order, a circle of all nodes, or circles with
/// ways into them and joins.
pub fn large(rng: &mut Rng, words: &mut Vec<u16>) {
    let nodes = *rng.pick(&[100, 512, 1_023, 1_024, 1_024]);
    let workers = *rng.pick(&[1, 7, 8, 8]);
    let shape = Shape { workers, nodes };
    fresh(shape, words);
    match rng.range(0, 3) {
        0..=1 => build_chain(rng, words, shape),
        2 => link_all(words, shape, |node| ((node + 1) % nodes).max(2)),
        _ => link_all(words, shape, |_| rng.word(0, nodes - 1)),
    }
    write_count(rng, words, shape);
    words_past_total(rng, words);
}

/// Gives every node but Tail a link, and a key that mostly rises with its number.
fn link_all(words: &mut [u16], shape: Shape, mut next: impl FnMut(u16) -> u16) {
    for node in (0..shape.nodes).filter(|&node| node != TAIL) {
        words[shape.node_at(node) + KEY] = 3 * node;
        words[shape.node_at(node) + NEXT] = next(node);
    }
}

/// Goes on with a large arena: another worker at another stage, now and then another link, which
/// may cut nodes off, join them on again or close a circle. Gives back the worker.
pub fn change_large(rng: &mut Rng, words: &mut [u16]) -> u16 {
    let shape = check_header(words).expect("a large arena has a good header");
    let worker = rng.word(0, shape.workers - 1);
    if rng.chance(30) {
        search_from_head(rng, words, shape, worker);
    } else {
        place_worker(rng, words, shape, worker);
    }
    if rng.chance(30) {
        let node = rng.word(0, shape.nodes - 1);
        words[shape.node_at(node) + NEXT] = rng.word(0, shape.nodes - 1);
    }
    worker
}

/// Puts a worker at stage 14 behind Head, and makes the others idle: where many workers stand,
/// hardly a node is reached by a long way alone.
fn search_from_head(rng: &mut Rng, words: &mut [u16], shape: Shape, worker: u16) {
    for other in 0..shape.workers {
        words[shape.worker_at(other)..][..WORKER_WORDS].copy_from_slice(&IDLE_WORKER);
    }
    let key = rng.word(1, 65_534);
    let first = words[shape.node_at(HEAD) + NEXT];
    let length = rng.word(0, 65_535);
    let record = [14, ADD, key, HEAD, first, NONE, 0, length];
    words[shape.worker_at(worker)..][..WORKER_WORDS].copy_from_slice(&record);
}
