//! Arenas written word by word, with no history behind them.

use model::arena::*;
use model::rng::Rng;

use super::requests::call_key;
use super::spread::{any_length, Spread};

/// Words of any length and content; their header is hardly ever good.
pub fn arbitrary(rng: &mut Rng, words: &mut Vec<u16>) {
    let length = rng.index(81);
    let highest = *rng.pick(&[1, 8, 30, 65_535]);
    words.clear();
    for _ in 0..length {
        let word = if rng.chance(95) { highest } else { NONE };
        words.push(rng.word(0, word));
    }
}

/// A good header with arbitrary records and nodes behind it, skewed towards words that mean
/// something, or nearly every turn would be refused. Gives a worker back.
pub fn good_header(rng: &mut Rng, words: &mut Vec<u16>) -> u16 {
    let shape = small_shape(rng);
    words.clear();
    words.extend(shape.header(some_count(rng, shape)));
    for _ in 0..shape.workers {
        words.extend(arbitrary_worker(rng, shape));
    }
    for _ in 0..shape.nodes {
        words.extend(arbitrary_node(rng, shape));
    }
    words_past_total(rng, words);
    let likely = rng.word(0, shape.workers - 1);
    if rng.chance(50) {
        place_worker(rng, words, shape, likely);
    }
    likely
}

/// A count that the header may hold, mostly at an end of its range or beside one.
fn some_count(rng: &mut Rng, shape: Shape) -> u16 {
    let most = shape.max_count();
    if rng.chance(30) {
        rng.word(0, most)
    } else {
        let near_end = *rng.pick(&[0, 1, most.saturating_sub(1), most]);
        near_end.min(most)
    }
}

/// The size of the set for a count, or another one, since nothing compares it with the chain.
pub fn write_count(rng: &mut Rng, words: &mut [u16], shape: Shape) {
    words[COUNT] = if rng.chance(40) {
        shape.max_count().min(set(words).len() as u16)
    } else {
        some_count(rng, shape)
    };
}

/// Counts in their ranges, mostly small.
pub fn small_shape(rng: &mut Rng) -> Shape {
    let most_workers = *rng.pick(&[2, 4, 8]);
    let most_nodes = *rng.pick(&[3, 5, 5, 8, 12, 12, 12, 40]);
    Shape {
        workers: rng.word(1, most_workers),
        nodes: rng.word(3, most_nodes),
    }
}

pub fn words_past_total(rng: &mut Rng, words: &mut Vec<u16>) {
    for _ in 0..rng.range(0, 4) {
        words.push(rng.word(0, 65_535));
    }
}

/// Mostly a node that is there.
fn node_number(rng: &mut Rng, nodes: u16) -> u16 {
    match rng.range(0, 99) {
        0..=91 => rng.word(0, nodes - 1),
        92..=96 => *rng.pick(&[nodes, nodes + 1, NONE]),
        _ => rng.word(0, 65_535),
    }
}

/// Mostly 0 to `usual`, sometimes any word.
fn usually(rng: &mut Rng, usual: u16) -> u16 {
    if rng.chance(94) {
        rng.word(0, usual)
    } else {
        rng.word(0, 65_535)
    }
}

/// Often 0, as marks and owners are.
fn often_zero(rng: &mut Rng, usual: u16) -> u16 {
    if rng.chance(60) {
        0
    } else {
        usually(rng, usual)
    }
}

fn arbitrary_worker(rng: &mut Rng, shape: Shape) -> [u16; WORKER_WORDS] {
    let stage = usually(rng, 26);
    let operation = usually(rng, 4);
    let key = call_key(rng);
    let [pred, curr, spare] = [(); 3].map(|()| node_number(rng, shape.nodes));
    let answer = usually(rng, 4);
    let length = any_length(rng);
    [stage, operation, key, pred, curr, spare, answer, length]
}

fn arbitrary_node(rng: &mut Rng, shape: Shape) -> [u16; NODE_WORDS] {
    let key = usually(rng, 24);
    let next = node_number(rng, shape.nodes);
    let (mark, owner) = (often_zero(rng, 2), often_zero(rng, 9));
    [key, next, mark, owner, any_length(rng)]
}

/// A good chain and, on a random worker (which is given back), a record at a random stage.
pub fn placed(rng: &mut Rng, words: &mut Vec<u16>) -> u16 {
    let shape = small_shape(rng);
    fresh(shape, words);
    build_chain(rng, words, shape);
    write_count(rng, words, shape);
    words_past_total(rng, words);
    for worker in 0..shape.workers {
        if rng.chance(40) {
            place_worker(rng, words, shape, worker);
        }
    }
    let likely = rng.word(0, shape.workers - 1);
    place_worker(rng, words, shape, likely);
    likely
}

pub fn fresh(shape: Shape, words: &mut Vec<u16>) {
    words.clear();
    words.resize(shape.total(), 0);
    init(words, shape.workers, shape.nodes).expect("counts in their ranges");
}

/// A chain of rising keys over some or all nodes in any order, a few of them marked; the other
/// nodes stay unused or look like removed ones, whose links still lead somewhere. One chain in ten
/// ends in a circle.
pub fn build_chain(rng: &mut Rng, words: &mut [u16], shape: Shape) {
    let mut order: Vec<u16> = (2..shape.nodes).collect();
    for place in (1..order.len()).rev() {
        order.swap(place, rng.index(place + 1));
    }
    let length = if rng.chance(30) {
        order.len()
    } else {
        rng.index(order.len() + 1)
    };
    let mut spread = Spread::new(rng, length as u16);
    let mut last = HEAD;
    for (place, &node) in order.iter().enumerate() {
        let record = if place < length {
            let label = spread.next_label(rng);
            words[shape.node_at(last) + NEXT] = node;
            last = node;
            let mark = if rng.chance(12) { some_mark(rng) } else { 0 };
            [label.key, TAIL, mark, 0, label.length]
        } else if rng.chance(50) {
            let leads_to = rng.word(0, shape.nodes - 1);
            [usually(rng, 24), leads_to, 1, 0, any_length(rng)]
        } else {
            continue;
        };
        words[shape.node_at(node)..][..NODE_WORDS].copy_from_slice(&record);
    }
    match rng.range(0, 9) {
        0 => words[shape.node_at(TAIL) + NEXT] = node_number(rng, shape.nodes),
        1 => {
            // What Tail leads to is not free, even where nothing leads to Tail.
            words[shape.node_at(last) + NEXT] = order[0];
            words[shape.node_at(TAIL) + NEXT] = order[order.len() - 1];
        }
        _ => {}
    }
}

/// Puts a worker at a random stage on two neighbours, with a record that mostly belongs there.
pub fn place_worker(rng: &mut Rng, words: &mut [u16], shape: Shape, worker: u16) {
    // Stage 14 looks at the whole arena, so it needs the most trials; 15 and 16 count.
    let stage = match rng.range(0, 99) {
        0..=9 => 14,
        10..=17 => rng.word(15, 16),
        _ => rng.word(0, 26),
    };
    let near = rng.word(0, shape.nodes - 1);
    let far = words[shape.node_at(near) + NEXT];
    let mut or_any = |node: u16| match rng.range(0, 19) {
        0 => NONE,
        1..=2 => node_number(rng, shape.nodes),
        _ => node,
    };
    let (pred, curr) = (or_any(near), or_any(far));
    let spare = node_number(rng, shape.nodes);
    let key_of = |node: u16| words[shape.node_at(node.min(shape.nodes - 1)) + KEY];
    let key = match rng.range(0, 9) {
        0..=3 => key_of(curr),
        4..=6 => key_of(pred).wrapping_add(1),
        7 => key_of(curr).wrapping_add(1),
        _ => call_key(rng),
    };
    let operation = operation_at(rng, stage);
    let answer = match stage {
        17..=21 => *rng.pick(&[1, 1, 1, 2, 2, 3, 3, 0, 4]),
        _ => often_zero(rng, 4),
    };
    let length = any_length(rng);
    let record = [stage, operation, key, pred, curr, spare, answer, length];
    words[shape.worker_at(worker)..][..WORKER_WORDS].copy_from_slice(&record);
    for node in [pred, curr].into_iter().filter(|&node| node < shape.nodes) {
        own_or_mark(rng, &mut words[shape.node_at(node)..], worker);
    }
}

/// Changes owner and mark of a node, now and then: its worker's own, another's, or nobody's.
fn own_or_mark(rng: &mut Rng, node: &mut [u16], worker: u16) {
    if rng.chance(50) {
        node[OWNER] = *rng.pick(&[0, 0, worker + 1, worker + 1, 1, 2, NONE]);
    }
    if rng.chance(10) {
        node[MARK] = some_mark(rng);
    }
}

/// The mark that a turn writes, or another one.
pub fn some_mark(rng: &mut Rng) -> u16 {
    *rng.pick(&[1, 1, 2, 256, NONE])
}

/// Mostly an operation that belongs to the stage.
fn operation_at(rng: &mut Rng, stage: u16) -> u16 {
    if rng.chance(6) {
        return rng.word(0, 4);
    }
    match stage {
        14 | 15 => ADD,
        16..=18 => REMOVE,
        22..=25 => CONTAINS,
        21 => rng.word(ADD, CONTAINS),
        _ => rng.word(ADD, REMOVE),
    }
}
