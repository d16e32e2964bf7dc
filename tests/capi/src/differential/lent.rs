//! Words lent to a library, with guard words before and behind them.
//!
//! A library that writes outside the words lent to it would change a guard word.

use std::fmt;
use std::hint::black_box;

/// An odd number, so that lent words stand at addresses that only suit 16-bit words.
const GUARD_COUNT: usize = 17;

/// All different, so that a guard word copied to another place shows too.
const GUARD_WORDS: [u16; GUARD_COUNT] = guard_words();

const fn guard_words() -> [u16; GUARD_COUNT] {
    let mut words = [0; GUARD_COUNT];
    let mut place = 0;
    while place < GUARD_COUNT {
        words[place] = 0xa5c3 - 0x0107 * place as u16;
        place += 1;
    }
    words
}

pub struct Lent {
    /// Guard words, the lent words, guard words.
    buffer: Vec<u16>,
}

impl Default for Lent {
    /// No words lent.
    fn default() -> Lent {
        let mut lent = Lent { buffer: Vec::new() };
        lent.lend(&[]);
        lent
    }
}

impl Lent {
    /// Puts a copy of the words between new guard words.
    pub fn lend(&mut self, words: &[u16]) {
        self.buffer.clear();
        self.buffer.extend_from_slice(&GUARD_WORDS);
        self.buffer.extend_from_slice(words);
        self.buffer.extend_from_slice(&GUARD_WORDS);
    }

    pub fn words(&self) -> &[u16] {
        &self.buffer[GUARD_COUNT..self.buffer.len() - GUARD_COUNT]
    }

    pub fn words_mut(&mut self) -> &mut [u16] {
        let end = self.buffer.len() - GUARD_COUNT;
        &mut self.buffer[GUARD_COUNT..end]
    }
}

/// The first word that two libraries left different.
#[derive(Clone, Copy)]
pub struct Difference {
    name: &'static str,
    place: usize,
    length: usize,
    tested: u16,
    model: u16,
}

/// Compares what two libraries left of the same lent words, guard words included: the model is
/// safe Rust, so its guard words stand.
pub fn difference(name: &'static str, tested: &Lent, model: &Lent) -> Option<Difference> {
    // The compiler must not reason that nobody could have written the guard words.
    let (tested, model) = (black_box(&tested.buffer), black_box(&model.buffer));
    if tested == model {
        return None;
    }
    let place = tested.iter().zip(model).position(|(a, b)| a != b)?;
    Some(Difference {
        name,
        place,
        length: model.len() - 2 * GUARD_COUNT,
        tested: tested[place],
        model: model[place],
    })
}

impl fmt::Display for Difference {
    fn fmt(&self, out: &mut fmt::Formatter) -> fmt::Result {
        let Difference { name, length, .. } = self;
        match self.place.checked_sub(GUARD_COUNT) {
            None => {
                let before = GUARD_COUNT - self.place;
                write!(out, "{name}: {before} words before its {length} words")?;
            }
            Some(place) if place < *length => {
                write!(out, "{name}: word {place} of its {length} words")?;
            }
            Some(place) => {
                write!(out, "{name}: word {place}, behind its {length} words,")?;
            }
        }
        write!(out, " is {}, the model's {}", self.tested, self.model)
    }
}

#[cfg(test)]
mod tests {
    use super::*;

    /// A word changed in the middle, or just before or behind, is told with its place.
    #[test]
    fn changes_are_told() {
        let (mut tested, mut model) = (Lent::default(), Lent::default());
        for (place, told) in [
            (GUARD_COUNT, "word 0 of its 3 words"),
            (GUARD_COUNT - 1, "1 words before its 3 words"),
            (GUARD_COUNT + 3, "word 3, behind its 3 words"),
        ] {
            tested.lend(&[5, 6, 7]);
            model.lend(&[5, 6, 7]);
            assert!(difference("arena", &tested, &model).is_none());
            tested.buffer[place] ^= 1;
            let told_as = difference("arena", &tested, &model).map(|found| found.to_string());
            assert!(told_as.is_some_and(|text| text.contains(told)));
        }
    }
}
