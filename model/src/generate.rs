//! Inputs for the bench, each from a seed and a number alone.

use crate::arena::*;
use crate::bench::MAX_ENTRIES;
use crate::damage;
use crate::limits;
use crate::rng::Rng;
use crate::scenes;
use crate::script::{Script, Style};

#[derive(Clone, Copy, Debug, PartialEq, Eq)]
pub enum Kind {
    Small,
    Overtaken,
    HeldNodes,
    InTheWay,
    HalfRemoved,
    Crowded,
    Long,
    Limit,
    Damaged,
    RandomBytes,
    TokenSoup,
}

impl Kind {
    pub const ALL: [Kind; 11] = [
        Kind::Small,
        Kind::Overtaken,
        Kind::HeldNodes,
        Kind::InTheWay,
        Kind::HalfRemoved,
        Kind::Crowded,
        Kind::Long,
        Kind::Limit,
        Kind::Damaged,
        Kind::RandomBytes,
        Kind::TokenSoup,
    ];

    pub fn name(self) -> &'static str {
        match self {
            Kind::Small => "small schedule",
            Kind::Overtaken => "overtaken look-up",
            Kind::HeldNodes => "held nodes",
            Kind::InTheWay => "workers in the way",
            Kind::HalfRemoved => "half-removed keys",
            Kind::Crowded => "crowded schedule",
            Kind::Long => "long schedule",
            Kind::Limit => "at a limit",
            Kind::Damaged => "damaged",
            Kind::RandomBytes => "random bytes",
            Kind::TokenSoup => "token soup",
        }
    }
}

pub struct Generated {
    pub kind: Kind,
    /// Which limit or which damage, if it is a single one.
    pub detail: &'static str,
    pub input: Vec<u8>,
}

/// The kinds take turns in this order, so that every kind is met in a short comparison too.
const ROUND: [Kind; 23] = [
    Kind::Small,
    Kind::Damaged,
    Kind::Limit,
    Kind::Crowded,
    Kind::Small,
    Kind::Overtaken,
    Kind::Damaged,
    Kind::TokenSoup,
    Kind::Small,
    Kind::Limit,
    Kind::InTheWay,
    Kind::Damaged,
    Kind::Small,
    Kind::Crowded,
    Kind::Damaged,
    Kind::Overtaken,
    Kind::HeldNodes,
    Kind::RandomBytes,
    Kind::HalfRemoved,
    Kind::HeldNodes,
    Kind::InTheWay,
    Kind::Small,
    Kind::Long,
];

/// The input with this number.
pub fn generate(seed: u64, number: u64) -> Generated {
    let mut rng = Rng::new(seed, number);
    let place = (number % ROUND.len() as u64) as usize;
    let kind = ROUND[place];
    // How many inputs of this kind came before: limits and damages are gone through in order.
    let per_round = ROUND.iter().filter(|&&k| k == kind).count();
    let earlier = ROUND[..place].iter().filter(|&&k| k == kind).count();
    let turn_of_kind = number as usize / ROUND.len() * per_round + earlier;
    let mut detail = "";
    let input = match kind {
        Kind::Small => small(&mut rng).into_bytes(),
        Kind::Overtaken => scenes::overtaken(&mut rng).into_bytes(),
        Kind::HeldNodes => scenes::held_nodes(&mut rng).into_bytes(),
        Kind::InTheWay => scenes::in_the_way(&mut rng).into_bytes(),
        Kind::HalfRemoved => scenes::half_removed(&mut rng).into_bytes(),
        Kind::Crowded => crowded(&mut rng).into_bytes(),
        Kind::Long => long(&mut rng).into_bytes(),
        Kind::Limit => {
            let case = &limits::CASES[turn_of_kind % limits::CASES.len()];
            detail = case.name;
            (case.make)(&mut rng)
        }
        Kind::Damaged => {
            let base = small(&mut rng).into_bytes();
            let (name, input) = damage::damaged(&mut rng, base, turn_of_kind);
            detail = name;
            input
        }
        Kind::RandomBytes => random_bytes(&mut rng),
        Kind::TokenSoup => token_soup(&mut rng),
    };
    Generated {
        kind,
        detail,
        input,
    }
}

/// Few workers, nodes and keys, short bursts of turns: workers meet often.
pub fn small(rng: &mut Rng) -> Script {
    let workers = rng.word(1, 3);
    let mut script = Script::new(workers, rng.word(3, 6));
    let style = Style {
        keys: rng.word(1, 4),
        burst: *rng.pick(&[2, 4, 8, 15]),
        odd: *rng.pick(&[0, 5, 10]),
        slow: rng.chance(40).then(|| workers - 1),
    };
    let entries = rng.range(10, 90) as usize;
    while script.entries < entries {
        style.random_line(rng, &mut script);
    }
    script
}

/// Many workers and few nodes: adds find no room, workers wait and begin again.
fn crowded(rng: &mut Rng) -> Script {
    let workers = rng.word(4, 8);
    let mut script = Script::new(workers, rng.word(3, 7));
    let style = Style {
        keys: rng.word(1, 6),
        burst: *rng.pick(&[1, 2, 3, 6]),
        odd: 3,
        slow: rng.chance(50).then(|| workers - 1),
    };
    let entries = rng.range(100, 700) as usize;
    while script.entries < entries && script.has_room() {
        style.random_line(rng, &mut script);
    }
    script
}

/// A long chain, built from its far end since that takes the fewest turns, and then random calls
/// along it, up to about as many entries as the bench takes.
fn long(rng: &mut Rng) -> Script {
    let workers = rng.word(1, 8);
    let nodes = *rng.pick(&[48, 128, 300, 512, 1_024]);
    let mut script = Script::new(workers, nodes);
    let chain = rng.word(20, 265);
    let step = rng.word(1, 65_534 / 265);
    for place in (1..=chain).rev() {
        if script.has_room() && script.entries_left() > 16 {
            script.whole_call(place % workers, ADD, place * step);
        }
    }
    let style = Style {
        keys: chain * step,
        burst: 60,
        odd: 2,
        slow: None,
    };
    while script.has_room() {
        style.random_line(rng, &mut script);
    }
    let most_left = rng.range(0, 3) as usize;
    let left = script.entries_left().saturating_sub(most_left);
    script.turns_that_fit(0, left.min(MAX_ENTRIES));
    script
}

fn random_bytes(rng: &mut Rng) -> Vec<u8> {
    let mut input = Vec::new();
    if rng.chance(50) {
        input.extend_from_slice(b"board 2 4\n");
    }
    for _ in 0..rng.range(0, 300) {
        input.push(rng.next_u64() as u8);
    }
    input
}

/// Words of the format in any order; every other soup starts well and keeps the form of lines.
fn token_soup(rng: &mut Rng) -> Vec<u8> {
    const WORDS: [&str; 8] = [
        "board", "add", "remove", "contains", "turn", "roll", "open", "turn",
    ];
    const NUMBERS: [&str; 12] = [
        "0", "1", "2", "3", "5", "8", "1024", "4000", "4001", "65534", "65535", "65536",
    ];
    let mut text = String::new();
    let in_lines = rng.chance(70);
    if in_lines {
        text.push_str("board 3 5\n");
    }
    for _ in 0..rng.range(0, 40) {
        if in_lines && rng.chance(97) {
            let word = *rng.pick(&WORDS[1..5]);
            let (first, second) = (rng.pick(&NUMBERS[..6]), rng.pick(&NUMBERS[1..7]));
            text.push_str(&format!("{word} {first} {second}"));
            // Now and then an add has no length, or another line has one.
            if (word == "add") != rng.chance(2) {
                text.push_str(&format!(" {}", rng.pick(&NUMBERS[..11])));
            }
            text.push('\n');
        } else {
            let (word, number) = (*rng.pick(&WORDS), *rng.pick(&NUMBERS));
            let tokens = [word, number, " ", "\n"];
            text.push_str(tokens[rng.index(tokens.len())]);
        }
    }
    text.into_bytes()
}
