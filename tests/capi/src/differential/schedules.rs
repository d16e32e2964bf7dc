//! Schedules for runs, and room for their calls and waits.

use model::arena::*;
use model::rng::Rng;
use model::run::{Room, ENTRY_WORDS, MAX_SCHEDULE_WORDS};

use super::requests::call_length;

const MAX_ENTRIES: usize = MAX_SCHEDULE_WORDS / ENTRY_WORDS;

/// Mostly short; a few just at the greatest length, just above it, or not whole entries.
pub fn schedule(rng: &mut Rng, workers: u16) -> Vec<u16> {
    let entries = match rng.range(0, 999) {
        0..=199 => rng.index(12),
        200..=899 => 12 + rng.index(110),
        900..=989 => 120 + rng.index(280),
        990..=993 => MAX_ENTRIES,
        _ => MAX_ENTRIES + 1,
    };
    let mut words = Vec::with_capacity(ENTRY_WORDS * entries + ENTRY_WORDS);
    let style = Style::new(rng, workers);
    while words.len() < ENTRY_WORDS * entries {
        style.burst(rng, &mut words);
    }
    words.truncate(ENTRY_WORDS * entries);
    match rng.range(0, 99) {
        0..=4 => words.resize(words.len() + 1 + rng.index(ENTRY_WORDS - 1), 0),
        // As many words as entries of three would take.
        5..=6 => words.truncate(words.len() / ENTRY_WORDS * 3),
        _ => {}
    }
    words
}

/// What the entries of one schedule have in common.
struct Style {
    workers: u16,
    /// Keys of calls are mostly 1 to this one.
    keys: u16,
    longest_burst: u64,
}

impl Style {
    fn new(rng: &mut Rng, workers: u16) -> Style {
        Style {
            workers: workers.clamp(1, MAX_WORKERS),
            keys: rng.word(1, 4),
            longest_burst: *rng.pick(&[3, 8, 18]),
        }
    }

    /// A start and then turns of the same worker; mostly not as many as its call takes.
    fn burst(&self, rng: &mut Rng, words: &mut Vec<u16>) {
        let worker = if rng.chance(96) {
            rng.word(0, self.workers - 1)
        } else {
            rng.word(0, 9)
        };
        if rng.chance(60) {
            let act = *rng.pick(&[1, 1, 1, 1, 2, 2, 2, 3, 3, 3, 4, 5]);
            let key = if rng.chance(95) {
                rng.word(1, self.keys)
            } else {
                *rng.pick(&[0, 65_534, 65_535])
            };
            let length = if rng.chance(90) {
                u16::from(act == ADD) * rng.word(1, 9).min(TAIL_KEY - key)
            } else {
                call_length(rng, act, key)
            };
            words.extend([worker, act, key, length]);
        }
        for _ in 0..rng.range(0, self.longest_burst) {
            // The key and the length of a turn are not looked at.
            words.extend([worker, 0, rng.word(0, 65_535), rng.word(0, 65_535)]);
        }
    }
}

/// The room that a schedule needs: a record for each start, and one for each turn.
pub fn needed(schedule: &[u16]) -> Room {
    let acts = || schedule.chunks_exact(ENTRY_WORDS).map(|entry| entry[1]);
    Room {
        calls: acts().filter(|act| (ADD..=CONTAINS).contains(act)).count(),
        waits: acts().filter(|&act| act == 0).count(),
    }
}

/// About as many words as these records take: too few, exact, more, or not whole records. There are
/// two rows, and the fewest runs should be refused for one, so too few words are rare.
pub fn row_length(rng: &mut Rng, records: usize, record_words: usize) -> usize {
    let needed = record_words * records;
    match rng.range(0, 19) {
        0..=8 => needed,
        9..=12 => needed + record_words * rng.index(4),
        13..=17 => needed + rng.index(3 * record_words),
        18 => needed.saturating_sub(1),
        _ => rng.index(needed + 1),
    }
}
