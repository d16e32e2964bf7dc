//! The arenas to compare on. Each follows from the seed and its number, a reached one also from
//! those before it in its block.

use model::arena::{check_header, Shape, STAGE};
use model::rng::Rng;

use super::damaged;
use super::layouts::age;
use super::placed;
use super::reached::Reached;

#[derive(Clone, Copy, Debug, PartialEq, Eq)]
pub enum Kind {
    Arbitrary,
    GoodHeader,
    Placed,
    Reached,
    Damaged,
    LargeReached,
    LargeLinks,
}

impl Kind {
    pub const ALL: [Kind; 7] = [
        Kind::Arbitrary,
        Kind::GoodHeader,
        Kind::Placed,
        Kind::Reached,
        Kind::Damaged,
        Kind::LargeReached,
        Kind::LargeLinks,
    ];

    pub fn name(self) -> &'static str {
        match self {
            Kind::Arbitrary => "arbitrary words",
            Kind::GoodHeader => "good header, arbitrary records",
            Kind::Placed => "worker placed at a stage",
            Kind::Reached => "reached from fresh",
            Kind::Damaged => "damaged",
            Kind::LargeReached => "large, reached from fresh",
            Kind::LargeLinks => "large, arbitrary links",
        }
    }

    /// On these, document 01 promises more.
    pub fn is_reached(self) -> bool {
        matches!(self, Kind::Reached | Kind::LargeReached)
    }

    /// The kinds take turns in this order, so that every kind is met in a short comparison too;
    /// large arenas are slow, so they are rare.
    pub fn of(number: u64) -> Kind {
        match number % 20 {
            0 => Kind::Arbitrary,
            1 | 6 | 11 => Kind::GoodHeader,
            2 | 5 | 8 | 12 | 15 => Kind::Placed,
            3 | 13 | 17 => Kind::Damaged,
            10 => Kind::LargeReached,
            18 => Kind::LargeLinks,
            _ => Kind::Reached,
        }
    }
}

/// How many of the good ones are brought into the old layout, whose headers are refused.
const PERCENT_OLD: u64 = 15;

/// Makes the arenas of one block, in order.
#[derive(Default)]
pub struct Arenas {
    /// The arena made last.
    pub words: Vec<u16>,
    /// How many workers it has; some number if its header does not tell.
    pub workers: u16,
    /// The worker that a turn is most worth trying with.
    pub likely_worker: u16,
    reached: Reached,
    large_reached: Option<Reached>,
    large_links: Vec<u16>,
}

impl Arenas {
    pub fn make(&mut self, kind: Kind, rng: &mut Rng) {
        let mut placed_worker = None;
        match kind {
            Kind::Arbitrary => placed::arbitrary(rng, &mut self.words),
            Kind::GoodHeader => placed_worker = Some(placed::good_header(rng, &mut self.words)),
            Kind::Placed => placed_worker = Some(placed::placed(rng, &mut self.words)),
            Kind::Reached => self.next_reached(rng),
            Kind::Damaged => {
                if rng.chance(50) {
                    placed_worker = Some(placed::placed(rng, &mut self.words));
                } else {
                    self.next_reached(rng);
                }
                damaged::damage(rng, &mut self.words);
            }
            Kind::LargeReached => self.next_large_reached(rng),
            Kind::LargeLinks => placed_worker = Some(self.next_large_links(rng)),
        }
        let shape = check_header(&self.words).ok();
        self.workers = shape.map_or(3, |shape| shape.workers);
        self.likely_worker = placed_worker.unwrap_or_else(|| self.busy_worker(rng, shape));
        if shape.is_some() && rng.chance(PERCENT_OLD) {
            age(rng, &mut self.words);
        }
    }

    /// A random worker; after three idle or waiting ones, whichever it is.
    fn busy_worker(&self, rng: &mut Rng, shape: Option<Shape>) -> u16 {
        let mut worker = rng.word(0, self.workers - 1);
        if let Some(shape) = shape {
            for _ in 0..3 {
                if matches!(self.words[shape.worker_at(worker) + STAGE], 0 | 6 | 7) {
                    worker = rng.word(0, self.workers - 1);
                }
            }
        }
        worker
    }

    fn next_reached(&mut self, rng: &mut Rng) {
        if self.reached.is_used_up() {
            self.reached = Reached::small(rng);
        }
        self.reached.entry(rng);
        self.words.clone_from(&self.reached.words);
    }

    fn next_large_reached(&mut self, rng: &mut Rng) {
        let reached = match &mut self.large_reached {
            Some(reached) => reached,
            none => none.insert(Reached::large(rng)),
        };
        for _ in 0..rng.range(1, 60) {
            reached.entry(rng);
        }
        self.words.clone_from(&reached.words);
    }

    /// Gives back the worker that was placed.
    fn next_large_links(&mut self, rng: &mut Rng) -> u16 {
        if self.large_links.is_empty() || rng.chance(10) {
            damaged::large(rng, &mut self.large_links);
        }
        let worker = damaged::change_large(rng, &mut self.large_links);
        self.words.clone_from(&self.large_links);
        worker
    }
}
