//! How the labels of a chain lie over the cells: apart, side by side, overlapping, in one another.

use model::arena::*;
use model::rng::Rng;

/// Labels in rising order, their lengths below and above the steps from key to key.
pub struct Spread {
    last_key: u16,
    largest_step: u16,
    longest: u16,
    /// In percent, how many have a length that no step limits.
    any_lengths: u64,
}

impl Spread {
    /// For so many labels: from the lowest keys on or, now and then, up to about the highest ones.
    pub fn new(rng: &mut Rng, labels: u16) -> Spread {
        let widest = TAIL_KEY / labels.max(1);
        let largest_step = *rng.pick(&[1, 3, 3, 9, 9, 60, widest]);
        let largest_step = largest_step.min(widest);
        let last_key = if rng.chance(15) {
            TAIL_KEY - largest_step * labels
        } else {
            HEAD_KEY
        };
        let longest = largest_step.saturating_mul(rng.word(1, 6));
        Spread {
            last_key,
            largest_step,
            longest: *rng.pick(&[largest_step.div_ceil(2), longest, longest, longest]),
            any_lengths: *rng.pick(&[0, 0, 10, 50]),
        }
    }

    pub fn next_label(&mut self, rng: &mut Rng) -> Label {
        self.last_key += rng.word(1, self.largest_step);
        let key = self.last_key;
        let length = if rng.chance(self.any_lengths) {
            any_length(rng)
        } else {
            let shortest = rng.word(0, 1);
            rng.word(shortest, self.longest)
        };
        Label { key, length }
    }
}

/// Lengths in records, where any word may stand.
pub fn any_length(rng: &mut Rng) -> u16 {
    match rng.range(0, 9) {
        0..=1 => 0,
        2..=6 => rng.word(1, 30),
        7..=8 => rng.word(0, 65_535),
        _ => *rng.pick(&[1, 65_534, 65_535]),
    }
}
