//! Goes through the arenas and compares a library with the model on each.

mod arenas;
mod chain;
mod comparer;
mod conversions;
mod converted;
mod coverage;
mod damaged;
mod free_runs;
mod layouts;
mod lent;
mod met;
mod met_conversion_refusals;
mod met_conversions;
mod met_counts;
mod met_free_runs;
mod met_lengths;
mod met_rolls;
mod met_searches;
mod placed;
mod reached;
mod refused_old;
mod requests;
mod roots;
mod schedules;
mod sources;
mod spread;
pub mod tally;
pub mod wrong;
mod wrong_conversion_lengths;
mod wrong_conversion_orders;
mod wrong_conversion_refusals;
mod wrong_conversion_words;
mod wrong_conversions;
mod wrong_counts;
mod wrong_free_replies;
mod wrong_free_runs;
mod wrong_lengths;
mod wrong_library;
mod wrong_old;
mod wrong_old_orders;
mod wrong_others;
mod wrong_runs;
mod wrong_searches;
mod wrong_stored;
mod wrong_turns;

use std::sync::atomic::{AtomicU64, Ordering};
use std::thread;

use model::arena::{check_header, set, OLD_LAYOUT, STAGE};
use model::rng::Rng;

use crate::library::{count_values, Library, Values};
use arenas::{Arenas, Kind};
use chain::Chain;
use comparer::{Comparer, Outcome};
use coverage::Column;
use free_runs::FreeRuns;
use layouts::{new_words, AnyShape};
use met::TurnWait;
use requests::Request;
use roots::Rooted;
use tally::Tally;

const THREADS: usize = 2;
/// Arenas of a block. One thread makes them in order, so that nothing depends on timing.
const BLOCK: u64 = 1_000;

pub struct Comparison<'a> {
    pub library: &'a dyn Library,
    pub seed: u64,
    pub count: u64,
}

impl<'a> Comparison<'a> {
    /// Goes through all arenas, two blocks at a time.
    pub fn run(&self) -> Tally {
        let next_block = AtomicU64::new(0);
        let go_through = || {
            let mut examiner = Examiner::new(self);
            loop {
                let block = next_block.fetch_add(1, Ordering::Relaxed);
                if block * BLOCK >= self.count {
                    return examiner.tally;
                }
                self.block(block, |number, arenas, rng| {
                    examiner.arena(number, arenas, rng);
                    true
                });
            }
        };
        let mut all = Tally::default();
        thread::scope(|scope| {
            let threads: Vec<_> = (0..THREADS).map(|_| scope.spawn(go_through)).collect();
            for thread in threads {
                all.merge(thread.join().expect("a comparing thread ends well"));
            }
        });
        all
    }

    /// After how many arenas the first mismatch is found.
    pub fn first_mismatch(&self) -> Option<u64> {
        let mut examiner = Examiner::new(self);
        let mut arenas_done = 0;
        for block in 0..self.count.div_ceil(BLOCK) {
            self.block(block, |number, arenas, rng| {
                examiner.arena(number, arenas, rng);
                arenas_done = number + 1;
                examiner.tally.failed == 0
            });
            if examiner.tally.failed != 0 {
                return Some(arenas_done);
            }
        }
        None
    }

    /// One arena alone, for a closer look; those before it in its block are made all the same.
    pub fn only(&self, wanted: u64) -> Tally {
        let mut examiner = Examiner::new(self);
        examiner.tells_all = true;
        self.block(wanted / BLOCK, |number, arenas, rng| {
            if number == wanted {
                println!("number {number}, {}", Kind::of(number).name());
                println!("{} words: {:?}", arenas.words.len(), arenas.words);
                examiner.arena(number, arenas, rng);
            }
            number < wanted
        });
        examiner.tally
    }

    /// Makes the arenas of a block and shows each, as long as `go_on` wants more.
    fn block(&self, block: u64, mut go_on: impl FnMut(u64, &Arenas, &mut Rng) -> bool) {
        let mut arenas = Arenas::default();
        for number in block * BLOCK..self.count.min((block + 1) * BLOCK) {
            let mut rng = Rng::new(self.seed, number);
            arenas.make(Kind::of(number), &mut rng);
            if !go_on(number, &arenas, &mut rng) {
                return;
            }
        }
    }
}

/// What one thread works with.
struct Examiner<'a> {
    seed: u64,
    comparer: Comparer<'a>,
    tally: Tally,
    /// Whether every comparison is printed, and not only mismatches.
    tells_all: bool,
}

impl<'a> Examiner<'a> {
    fn new(comparison: &Comparison<'a>) -> Examiner<'a> {
        Examiner {
            seed: comparison.seed,
            comparer: Comparer::new(comparison.library),
            tally: Tally::default(),
            tells_all: false,
        }
    }

    /// Compares on one arena: turn (twice, since it has the most cases), start, those that write nothing
    /// in it and a converter always; init and run, which do not look at what an arena holds, now and then.
    fn arena(&mut self, number: u64, arenas: &Arenas, rng: &mut Rng) {
        let words = &arenas.words;
        let chain = Chain::of(words);
        let chain = chain.as_ref();
        self.tally.arena(Kind::of(number), words);
        self.compare(number, words, &requests::turn(rng, arenas));
        self.compare(number, words, &requests::turn(rng, arenas));
        self.compare(number, words, &requests::start(rng, arenas));
        self.compare(number, words, &requests::snapshot(rng, chain));
        self.compare(number, words, &Request::FindFree);
        self.compare(number, words, &requests::longest_free_run(rng, chain));
        self.compare(number, words, &Request::Stored);
        self.convert(number, words, rng);
        if rng.chance(5) {
            let (length, init) = requests::init(rng);
            self.compare(number, &fitted(words, length), &init);
        }
        if rng.chance(20) {
            let (length, run) = requests::run(rng);
            self.compare(number, &fitted(words, length), &run);
        }
    }

    fn compare(&mut self, number: u64, words: &[u16], request: &Request) {
        let is_reached = Kind::of(number).is_reached();
        self.compare_from(number, is_reached, words, request);
    }

    /// On words that came from the arena of this number; gives the model's reply.
    fn compare_from(
        &mut self,
        number: u64,
        is_reached: bool,
        words: &[u16],
        request: &Request,
    ) -> u64 {
        let outcome = self.comparer.compare(words, request);
        let reply = outcome.model_reply;
        self.note(is_reached, words, request, reply);
        if self.tells_all {
            println!("{request}: the model's reply is {reply}");
        }
        let kind = Kind::of(number);
        self.tally.comparison(kind, outcome.is_same());
        if !outcome.is_same() {
            let seed = self.seed;
            self.tally
                .mismatch(number, || describe(seed, number, request, &outcome));
        }
        reply
    }

    /// Notes what the model was asked last, and replied.
    fn note(&mut self, reached: bool, words: &[u16], request: &Request, reply: u64) {
        let Tally {
            coverage,
            refused_old,
            met,
            ..
        } = &mut self.tally;
        let stage = stage_before(words, request);
        let entry_point = request.entry_point();
        coverage.note(entry_point, reply, stage, column(words, request, reached));
        let is_old = AnyShape::check(words).is_ok_and(AnyShape::is_old);
        if is_old && reply == u64::from(OLD_LAYOUT) {
            let in_use = self.comparer.model_reply(&new_words(words), request);
            refused_old.note(entry_point, in_use);
        }
        if let Some(wait) = TurnWait::read(words, request, reply) {
            if reached {
                coverage.note_wait(wait.is_for_other_busy());
            }
            met.note_wait(&wait);
        }
        match (request, Values::read(reply)) {
            (_, Some(values)) => self.note_told(words, request, values, reached),
            (&Request::LongestFreeRun { last_cell }, None) => {
                met.note_no_free_run(words, last_cell, reply);
            }
            _ => {}
        }
        let met = &mut self.tally.met;
        met.note_reply(request, reply, self.comparer.last_run());
        met.note_length(words, request, reply);
        met.note_count(words, request, reply, reached);
        met.note_roll(words, request, reply, reached);
    }

    /// Notes what the model told of an arena, beside another way to find it.
    fn note_told(&mut self, words: &[u16], request: &Request, values: Values, reached: bool) {
        let Tally { coverage, met, .. } = &mut self.tally;
        match *request {
            Request::Snapshot { .. } => {
                let keys = &self.comparer.last_keys()[..values.first as usize];
                coverage.note_roll(is_set_of(words, keys));
            }
            Request::FindFree => {
                let rooted = Rooted::of(words).expect("the header was not refused");
                coverage.note_search(rooted.found() == values);
                met.note_search(&rooted, reached);
            }
            Request::LongestFreeRun { last_cell } => {
                let runs = FreeRuns::of(words, last_cell).expect("the arena was not refused");
                coverage.note_free_run(runs.longest() == values);
                met.note_free_run(&runs, reached);
            }
            Request::Stored if reached => {
                coverage.note_count(values == count_values(set(words).len()));
            }
            _ => {}
        }
    }
}

/// The arena's words cut off, or repeated, to the length that is wanted.
fn fitted(words: &[u16], length: usize) -> Vec<u16> {
    let repeated = words.iter().chain(&[7]).cycle();
    repeated.take(length).copied().collect()
}

/// Whether these are the keys of the set that the arena stands for.
fn is_set_of(words: &[u16], keys: &[u16]) -> bool {
    let set = set(words);
    set.iter().map(|label| label.key).eq(keys.iter().copied())
}

/// Where the reply is counted.
fn column(words: &[u16], request: &Request, reached: bool) -> Column {
    match request {
        Request::Init { .. } | Request::Run { .. } => Column::LAID,
        _ => Column::of(words, reached),
    }
}

/// The stage of the worker that gets a turn; of no use if the turn is refused.
fn stage_before(words: &[u16], request: &Request) -> u16 {
    match (request, check_header(words)) {
        (&Request::Turn { worker }, Ok(shape)) if worker < shape.workers => {
            words[shape.worker_at(worker) + STAGE]
        }
        _ => 0,
    }
}

/// A mismatch in one line; a long schedule is cut off, since `only` tells it whole.
fn describe(seed: u64, number: u64, request: &Request, outcome: &Outcome) -> String {
    let kind = Kind::of(number).name();
    let request: String = request.to_string().chars().take(200).collect();
    let (tested, model) = (outcome.tested_reply, outcome.model_reply);
    let mut text = format!("--seed {seed} --only {number} ({kind}): {request}: ");
    text += &format!("reply {tested}, the model's {model}");
    if let Some(difference) = outcome.difference {
        text += &format!("; {difference}");
    }
    text
}
