//! Checks on arenas of any words.

use crate::arena::*;
use crate::convert::{to_layout_1, to_layout_2};
use crate::rng::Rng;
use crate::selftest::Checks;
use crate::selftest_convert::keys;
use crate::selftest_refusals::{OLD_HEADER, SHAPE, WORDS};
use crate::turn::{turn, Report};

/// What holds on words of any kind, and how many turns were accepted.
struct Met {
    unharmed: bool,
    rolls_are_sets: bool,
    accepted: u32,
}

/// On words of any kind nothing panics, and refusals, waits and idle turns write nothing.
pub fn any_words(checks: &mut Checks) {
    let mut rng = Rng::new(7, 7);
    let mut met = Met {
        unharmed: true,
        rolls_are_sets: true,
        accepted: 0,
    };
    for _ in 0..8_000 {
        let mut arena = any_arena(&mut rng);
        met.entry(&mut rng, &mut arena);
        let mut out = [3; 2];
        match snapshot(&arena, &mut out) {
            Ok(count) => met.rolls_are_sets &= out[..count] == keys(&arena),
            Err(_) => met.unharmed &= out == [3; 2],
        }
        met.unharmed &= set(&arena).len() <= MAX_NODES as usize;
        met.conversion(&arena);
    }
    checks.check("refusals on any words write nothing", met.unharmed);
    checks.check("rolls of any words are sets", met.rolls_are_sets);
    checks.check("turns on any words", met.accepted > 50);
}

/// Too few words, or a good header of either layout and any words behind it.
fn any_arena(rng: &mut Rng) -> Vec<u16> {
    let words = if rng.chance(30) {
        rng.index(WORDS)
    } else {
        WORDS + rng.index(4)
    };
    let highest = *rng.pick(&[1, 5, 30, 65_535]);
    let mut arena: Vec<u16> = (0..words).map(|_| rng.word(0, highest)).collect();
    if words >= WORDS {
        let new_header = SHAPE.header(rng.word(0, 2));
        let header = *rng.pick(&[new_header, new_header, OLD_HEADER]);
        arena[..HEADER_WORDS].copy_from_slice(&header);
    }
    arena
}

impl Met {
    /// A turn and a start.
    fn entry(&mut self, rng: &mut Rng, arena: &mut [u16]) {
        let before = arena.to_vec();
        let worker = rng.word(0, 2);
        let report = turn(arena, worker);
        if !matches!(report, Ok(Report::Moved(_) | Report::Finished(_))) {
            self.unharmed &= arena == before;
        } else {
            self.accepted += 1;
        }
        self.unharmed &= before.get(WORDS..) == arena.get(WORDS..);
        let before = arena.to_vec();
        if start(arena, worker, rng.word(0, 4), 5, rng.word(0, 1)).is_err() {
            self.unharmed &= arena == before;
        }
    }

    fn conversion(&mut self, arena: &[u16]) {
        let mut target = [3; 60];
        let converted = to_layout_2(arena, &[1; 4], &mut target);
        let converted = converted.or_else(|_| to_layout_1(arena, &mut target));
        self.rolls_are_sets &= converted.is_err() || keys(&target) == keys(arena);
        self.unharmed &= converted.is_ok() || target == [3; 60];
    }
}
