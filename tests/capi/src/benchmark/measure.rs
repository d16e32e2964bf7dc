//! Timing the same work on all sides, in short rounds by turns, and comparing what they did.

use std::fmt;
use std::hint::black_box;
use std::time::{Duration, Instant};

use crate::benchmark::plain_c::PlainC;
use crate::benchmark::plain_rust::PlainRust;
use crate::library::{Library, Proved};

/// A round takes about this long on each side: short, so that a change of the machine's speed meets
/// all sides alike, and long beside a reading of the clock.
const ROUND: Duration = Duration::from_millis(2);

/// All words that a side is lent.
#[derive(Clone, PartialEq, Eq)]
pub struct Words {
    /// Of either layout.
    pub arena: Vec<u16>,
    /// Room for the keys of a snapshot, for the histories of runs or for a converted arena.
    pub out: Vec<u16>,
    /// Of labels, for a converter.
    pub lengths: Vec<u16>,
    /// Room for the waits of runs.
    pub waits: Vec<u16>,
    /// Of a run.
    pub totals: [u16; 4],
}

impl Words {
    /// An arena and so many words beside it.
    pub fn new(arena: Vec<u16>, out_words: usize) -> Words {
        Words {
            arena,
            out: vec![0; out_words],
            lengths: Vec::new(),
            waits: Vec::new(),
            totals: [0; 4],
        }
    }

    /// Keeps the place in memory, so that all sides work at the same addresses.
    fn reset(&mut self, first: &Words) {
        self.arena.copy_from_slice(&first.arena);
        self.out.copy_from_slice(&first.out);
        self.lengths.copy_from_slice(&first.lengths);
        self.waits.copy_from_slice(&first.waits);
        self.totals = first.totals;
    }
}

/// Work that each side can do, or each but plain C.
pub trait Workload {
    /// The lent words before each pass.
    fn words(&self) -> &Words;

    /// How many operations a pass makes; times are given for one.
    fn operations(&self) -> usize;

    /// Whether it is made of starts and turns alone, which plain C has too.
    fn is_in_c(&self) -> bool;

    /// The timed part. It hands on every reply.
    fn pass<L: Library>(&self, library: &L, words: &mut Words, reply: impl FnMut(u64));
}

/// Who does the work.
#[derive(Clone, Copy)]
pub enum Side {
    /// The proved library.
    Proved,
    /// `PlainRust`.
    Rust,
    /// `PlainC`.
    C,
}

impl Side {
    fn of(work: &impl Workload) -> &'static [Side] {
        if work.is_in_c() {
            &[Side::Proved, Side::Rust, Side::C]
        } else {
            &[Side::Proved, Side::Rust]
        }
    }

    /// The time of so many passes.
    fn time(self, work: &impl Workload, words: &mut Words, passes: u32) -> Duration {
        match self {
            Side::Proved => time_passes(work, &Proved, words, passes),
            Side::Rust => time_passes(work, &PlainRust, words, passes),
            Side::C => time_passes(work, &PlainC, words, passes),
        }
    }

    /// The replies of a pass and the words that it leaves.
    fn record(self, work: &impl Workload) -> (Vec<u64>, Words) {
        match self {
            Side::Proved => recorded(work, &Proved),
            Side::Rust => recorded(work, &PlainRust),
            Side::C => recorded(work, &PlainC),
        }
    }
}

impl fmt::Display for Side {
    fn fmt(&self, out: &mut fmt::Formatter) -> fmt::Result {
        out.write_str(match self {
            Side::Proved => "the proved library",
            Side::Rust => "plain Rust",
            Side::C => "plain C",
        })
    }
}

/// Nanoseconds for an operation on each side, in the best round.
#[derive(Clone, Copy)]
pub struct Times {
    /// Of the proved library.
    pub proved: f64,
    /// Of plain Rust.
    pub rust: f64,
    /// Where plain C has the calls.
    pub c: Option<f64>,
}

impl Times {
    /// How long the proved library takes beside plain Rust.
    pub fn of_rust(self) -> f64 {
        self.proved / self.rust
    }

    /// The same beside plain C.
    pub fn of_c(self) -> Option<f64> {
        self.c.map(|c| self.proved / c)
    }

    /// The better ones of two measurements.
    fn best(self, other: Times) -> Times {
        Times {
            proved: self.proved.min(other.proved),
            rust: self.rust.min(other.rust),
            c: self.c.zip(other.c).map(|(one, two)| one.min(two)),
        }
    }

    /// The times of a part of an operation, where it has so many alike.
    pub fn shared_by(self, parts: usize) -> Times {
        let parts = parts as f64;
        Times {
            proved: self.proved / parts,
            rust: self.rust / parts,
            c: self.c.map(|c| c / parts),
        }
    }
}

/// A side did not do what the proved library did, so their times say nothing.
#[derive(Clone, Copy)]
pub enum Difference {
    /// Its replies are others.
    Replies(Side),
    /// The words that it leaves are others.
    Words(Side),
}

impl fmt::Display for Difference {
    fn fmt(&self, out: &mut fmt::Formatter) -> fmt::Result {
        let proved = Side::Proved;
        match self {
            Difference::Replies(side) => write!(out, "{side} and {proved} reply differently"),
            Difference::Words(side) => write!(out, "{side} and {proved} leave different words"),
        }
    }
}

/// The times, if the sides did the same.
pub type Measured = Result<Times, Difference>;

/// The better times of two measurements of the same work.
pub fn best_of(one: Measured, two: Measured) -> Measured {
    Ok(one?.best(two?))
}

/// Compares one pass, then times rounds of all sides by turns.
pub fn measure(work: &impl Workload, rounds: usize) -> Measured {
    compare(work)?;
    let sides = Side::of(work);
    let mut words = work.words().clone();
    let passes = passes_in_a_round(work, &mut words);
    let mut best = [Duration::MAX; 3];
    for round in 0..rounds {
        for place in 0..sides.len() {
            // No side is always the first one.
            let at = (round + place) % sides.len();
            let time = sides[at].time(work, &mut words, passes);
            best[at] = time.min(best[at]);
        }
    }
    let operations = passes as f64 * work.operations() as f64;
    let [proved, rust, c] = best.map(|time| time.as_secs_f64() * 1e9 / operations);
    let c = work.is_in_c().then_some(c);
    Ok(Times { proved, rust, c })
}

fn compare(work: &impl Workload) -> Result<(), Difference> {
    let (proved_replies, proved_words) = Side::Proved.record(work);
    for &side in Side::of(work) {
        let (replies, words) = side.record(work);
        if replies != proved_replies {
            return Err(Difference::Replies(side));
        }
        if words != proved_words {
            return Err(Difference::Words(side));
        }
    }
    Ok(())
}

fn recorded(work: &impl Workload, library: &impl Library) -> (Vec<u64>, Words) {
    let mut words = work.words().clone();
    let mut replies = Vec::new();
    work.pass(library, &mut words, |reply| replies.push(reply));
    (replies, words)
}

/// The same number for all sides.
fn passes_in_a_round(work: &impl Workload, words: &mut Words) -> u32 {
    let pass = Side::Rust.time(work, words, 3) / 3;
    (ROUND.as_nanos() / pass.as_nanos().max(1)).max(1) as u32
}

/// Putting the words back is not timed.
fn time_passes(
    work: &impl Workload,
    library: &impl Library,
    words: &mut Words,
    passes: u32,
) -> Duration {
    let mut total = Duration::ZERO;
    for _ in 0..passes {
        words.reset(work.words());
        let start = Instant::now();
        work.pass(library, black_box(words), |reply| {
            black_box(reply);
        });
        total += start.elapsed();
    }
    total
}
