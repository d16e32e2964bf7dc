//! Converters, compared on a source of their own, and what follows an accepted conversion: the way
//! back, and work on the converted arena.

use model::arena::*;
use model::rng::Rng;

use super::arenas::Kind;
use super::chain::Chain;
use super::conversions;
use super::layouts::AnyShape;
use super::met_conversions::Conversion;
use super::requests::{self, Request};
use super::sources::{self, Source};
use super::Examiner;
use crate::library::Start;

impl Examiner<'_> {
    /// One conversion, mostly out of the layout that the arena has.
    pub fn convert(&mut self, number: u64, words: &[u16], rng: &mut Rng) {
        let source = sources::source(rng, Kind::of(number), words);
        let request = conversions::conversion(rng, &source.words);
        let Some(converted) = self.converted(number, &source, &request) else {
            return;
        };
        if rng.chance(60) {
            self.convert_back(number, &source, &converted);
        }
        if rng.chance(10) {
            self.work_on(number, converted, rng);
        }
    }

    /// Compares, and gives what the model left in the target if it accepted.
    fn converted(&mut self, number: u64, source: &Source, request: &Request) -> Option<Source> {
        let (words, is_reached) = (&source.words, source.is_reached);
        if self.tells_all {
            println!("source, {} words: {words:?}", words.len());
        }
        let reply = self.compare_from(number, is_reached, words, request);
        let conversion = Conversion::of(words, request)?;
        let met = &mut self.tally.met;
        met.note_conversion(&conversion, reply, is_reached);
        if reply != 0 {
            return None;
        }
        let words = self.comparer.last_target().to_vec();
        let is_right = is_same_set(&source.words, request, &words);
        self.tally.coverage.note_conversion(is_right);
        Some(Source { words, is_reached })
    }

    /// What was converted goes back into just as many words as the source had, with length 1 for all:
    /// from layout 1 and back that gives the source, if its labels got length 1.
    fn convert_back(&mut self, number: u64, source: &Source, converted: &Source) {
        let shape = AnyShape::check(&source.words).expect("it was accepted");
        let target = vec![7; shape.total()];
        let request = if shape.is_old() {
            Request::ToLayout1 { target }
        } else {
            let lengths = vec![1; shape.nodes.into()];
            Request::ToLayout2 { lengths, target }
        };
        let is_due = !shape.is_old() || has_ones(&converted.words);
        let back = self.converted(number, converted, &request);
        let is_source = back
            .as_ref()
            .is_some_and(|back| is_same_arena(source, back));
        self.tally.coverage.note_way_back(back.is_some() == is_due);
        self.tally.coverage.note_way_back(is_source == is_due);
        self.tally.met.note_way_back(shape.layout, is_due);
    }

    /// Starts and turns on the converted arena, beside the model's, and what is told of it on the way. In
    /// the old layout all of it is refused.
    fn work_on(&mut self, number: u64, converted: Source, rng: &mut Rng) {
        let Source {
            mut words,
            is_reached,
        } = converted;
        let shape = AnyShape::check(&words).expect("a converted arena");
        let (rounds, most_entries) = if shape.is_old() { (1, 6) } else { (6, 25) };
        for _ in 0..rng.range(rounds.min(2), rounds) {
            let worker = rng.word(0, shape.workers - 1);
            for _ in 0..rng.range(5, most_entries) {
                let request = next_entry(rng, &words, shape, worker);
                let reply = self.compare_from(number, is_reached, &words, &request);
                self.tally.met.note_work(&words, shape, &request, reply);
                words = self.comparer.last_arena().to_vec();
            }
            let chain = Chain::of(&words);
            let chain = chain.as_ref();
            for request in [
                requests::snapshot(rng, chain),
                Request::FindFree,
                requests::longest_free_run(rng, chain),
                Request::Stored,
            ] {
                self.compare_from(number, is_reached, &words, &request);
            }
        }
    }
}

/// A turn, or a start if the worker is idle: with a key of the chain, or one beside it.
fn next_entry(rng: &mut Rng, words: &[u16], shape: AnyShape, worker: u16) -> Request {
    if words[shape.worker_at(worker) + STAGE] != 0 || rng.chance(3) {
        return Request::Turn { worker };
    }
    let operation = *rng.pick(&[ADD, ADD, REMOVE, REMOVE, CONTAINS]);
    let chain = Chain::of_any(words).expect("a converted arena");
    let key = match chain.nodes.get(rng.index(4)) {
        Some(&node) => chain.word(node, KEY).saturating_sub(rng.word(0, 1)),
        None => rng.word(1, 9),
    };
    let length = match operation {
        ADD => rng.word(1, 3),
        _ => 0,
    };
    let call = Start {
        operation,
        key,
        length,
    };
    Request::Start { worker, call }
}

/// Whether the converted arena has the set of the source, with the lengths that were lent for it.
fn is_same_set(source: &[u16], request: &Request, converted: &[u16]) -> bool {
    let chain = Chain::of_any(source).expect("it was accepted");
    let label = |node: u16| Label {
        key: chain.word(node, KEY),
        length: match request {
            Request::ToLayout2 { lengths, .. } => lengths[usize::from(node)],
            _ => 0,
        },
    };
    let labels = chain.listed_nodes().into_iter().map(label);
    set_in_any(converted).into_iter().eq(labels)
}

/// The labels of the set, without lengths in the old layout.
fn set_in_any(converted: &[u16]) -> Vec<Label> {
    match OldShape::read(converted) {
        Some(old) => {
            let (places, length) = (set_places(converted, old).into_iter(), 0);
            let key = |at: usize| converted[at + KEY];
            places
                .map(|at| Label {
                    key: key(at),
                    length,
                })
                .collect()
        }
        None => set(converted),
    }
}

fn has_ones(converted: &[u16]) -> bool {
    set(converted).iter().all(|label| label.length == 1)
}

/// Whether the arena that was sent there and back has the source's words: all of layout 1, and of
/// layout 2 all but the count and the lengths of nodes that are not in the set.
fn is_same_arena(source: &Source, back: &Source) -> bool {
    let shape = AnyShape::check(&source.words).expect("it was accepted");
    let mut due = source.words[..shape.total()].to_vec();
    if let Some(chain) = Chain::of(&source.words) {
        let listed = chain.listed_nodes();
        for (node, is_listed) in (0..).zip(chain.row_of(&listed)) {
            due[shape.node_at(node) + LENGTH] *= u16::from(is_listed);
        }
        due[COUNT] = listed.len() as u16;
    }
    back.words == due
}
