//! What converters with one fault are made of.

use model::arena::*;

use super::chain::{Chain, End};
use super::layouts::AnyShape;

/// What a converter is given, behind the test of its source's header.
pub struct Case<'a> {
    converter: &'a Converter,
    pub source: &'a [u16],
    /// None are lent on the way back.
    pub lengths: Option<&'a [u16]>,
    /// What the target holds before.
    pub target: &'a [u16],
    pub shape: AnyShape,
    pub chain: Chain<'a>,
}

impl Case<'_> {
    pub fn is_to_2(&self) -> bool {
        self.lengths.is_some()
    }

    pub fn new_shape(&self) -> AnyShape {
        AnyShape {
            layout: if self.is_to_2() { LAYOUT_2 } else { LAYOUT_1 },
            ..self.shape
        }
    }

    /// Where the record of a node stands in the converted arena.
    pub fn new_at(&self, node: u16) -> usize {
        self.new_shape().node_at(node)
    }

    pub fn word(&self, node: u16, place: usize) -> u16 {
        self.chain.word(node, place)
    }

    /// The one lent for it, or on the way back its fifth word; 1 if it is missing.
    pub fn length(&self, node: u16) -> u16 {
        match self.lengths {
            Some(lengths) => lengths.get(usize::from(node)).copied().unwrap_or(1),
            None => self.chain.label(node).length,
        }
    }

    pub fn stages(&self) -> Vec<u16> {
        let workers = 0..self.shape.workers;
        workers
            .map(|worker| self.source[self.shape.worker_at(worker) + STAGE])
            .collect()
    }

    /// Nodes neither on the chain nor an end of it.
    pub fn off_chain(&self) -> Vec<u16> {
        let row = self.chain.row_of(&self.chain.nodes);
        let mut nodes: Vec<u16> = (2..self.shape.nodes).collect();
        nodes.retain(|&node| !row[usize::from(node)]);
        nodes
    }

    pub fn is_room_short(&self) -> bool {
        self.target.len() < self.new_shape().total()
    }

    pub fn lent_fewer_than(&self, lengths: usize) -> bool {
        self.lengths.is_some_and(|lent| lent.len() < lengths)
    }

    /// All words of the converted arena, as document 02 has them.
    fn converted(&self) -> Vec<u16> {
        let in_set = self.chain.row_of(&self.chain.listed_nodes());
        let count = if self.is_to_2() {
            self.chain.listed()
        } else {
            0
        };
        let mut words = self.new_shape().header(count as u16).to_vec();
        words.extend(&self.source[HEADER_WORDS..self.shape.node_at(0)]);
        for (node, is_in_set) in (0..).zip(in_set) {
            words.extend(&self.source[self.shape.node_at(node)..][..LENGTH]);
            if self.is_to_2() {
                words.push(if is_in_set { self.length(node) } else { 0 });
            }
        }
        words
    }
}

/// A reason to refuse, or none.
pub type Test = fn(&Case) -> Option<u16>;

pub fn broken_record(case: &Case) -> Option<u16> {
    let mut stages = case.stages().into_iter();
    stages.any(|stage| stage > 25).then_some(BROKEN_RECORD)
}

pub fn busy(case: &Case) -> Option<u16> {
    let mut stages = case.stages().into_iter();
    stages.any(|stage| stage != 0).then_some(BUSY)
}

pub fn broken_chain(case: &Case) -> Option<u16> {
    (case.chain.end != End::Tail).then_some(BROKEN_CHAIN)
}

pub fn no_room(case: &Case) -> Option<u16> {
    let is_short = case.is_room_short() || case.lent_fewer_than(case.shape.nodes.into());
    is_short.then_some(NO_ROOM)
}

pub fn bad_length(case: &Case) -> Option<u16> {
    let Converter {
        judged, is_good, ..
    } = case.converter;
    let is_bad = |&node: &u16| !is_good(case.word(node, KEY), case.length(node));
    judged(case).iter().any(is_bad).then_some(BAD_CALL)
}

/// What an add may store.
pub fn is_add_length(key: u16, length: u16) -> bool {
    let end = u32::from(key) + u32::from(length);
    (1..=65_534).contains(&length) && end <= MAX_END
}

/// How a converter goes.
#[derive(Clone, Copy)]
pub struct Converter {
    /// The words to convert, out of this layout, or a refusal.
    pub header: fn(&[u16], u16) -> Result<Vec<u16>, u16>,
    /// In their order.
    pub tests: [Test; 5],
    /// The nodes whose length is judged.
    pub judged: fn(&Case) -> Vec<u16>,
    /// By key and length.
    pub is_good: fn(u16, u16) -> bool,
    /// How many words are written even if this refuses.
    pub writes_refused: fn(u16) -> usize,
    /// Changes the right words before they are written.
    pub edit: fn(&Case, &mut Vec<u16>),
    /// What is replied if nothing refuses.
    pub reply: fn(&Case) -> u64,
    /// Writes source and lengths when all is done.
    pub harm: fn(&mut [u16], &mut [u16]),
}

/// To layout 2, as document 02 has it.
pub const RIGHT_TO_2: Converter = Converter {
    header,
    tests: [broken_record, busy, broken_chain, no_room, bad_length],
    judged: |case| case.chain.listed_nodes(),
    is_good: is_add_length,
    writes_refused: |_| 0,
    edit: |_, _| {},
    reply: |_| 0,
    harm: |_, _| {},
};

/// And back.
pub const RIGHT_TO_1: Converter = Converter {
    is_good: |key, length| is_add_length(key, length) && length == 1,
    ..RIGHT_TO_2
};

pub fn header(source: &[u16], layout: u16) -> Result<Vec<u16>, u16> {
    let shape = AnyShape::check(source)?;
    if shape.layout == layout {
        Ok(source.to_vec())
    } else {
        Err(ODD_HEADER)
    }
}

impl Converter {
    pub fn convert(
        &self,
        source: &mut [u16],
        lengths: Option<&mut [u16]>,
        target: &mut [u16],
    ) -> u64 {
        let reply = self.reply(source, lengths.as_deref(), target);
        // With a report or a value it is accepted too.
        if reply.is_multiple_of(256) {
            (self.harm)(source, lengths.unwrap_or_default());
        }
        reply
    }

    fn reply(&self, source: &[u16], lengths: Option<&[u16]>, target: &mut [u16]) -> u64 {
        let layout = if lengths.is_some() {
            LAYOUT_1
        } else {
            LAYOUT_2
        };
        let source = match (self.header)(source, layout) {
            Ok(source) => source,
            Err(refusal) => return refusal.into(),
        };
        let before = target.to_vec();
        let chain = Chain::of_any(&source).expect("a header that was taken");
        let case = Case {
            converter: self,
            source: &source,
            lengths,
            target: &before,
            shape: chain.shape,
            chain,
        };
        let refusal = self.tests.iter().find_map(|test| test(&case));
        let written = refusal.map_or(usize::MAX, self.writes_refused);
        if written != 0 {
            let mut words = case.converted();
            (self.edit)(&case, &mut words);
            words.truncate(written.min(target.len()));
            target[..words.len()].copy_from_slice(&words);
        }
        refusal.map_or_else(|| (self.reply)(&case), u64::from)
    }
}

/// A fault on both ways; lengths are judged as is right on each.
macro_rules! both {
    ($fault:literal, $converter:expr) => {
        [
            wrong_to_2(concat!("to_layout_2 ", $fault), $converter),
            wrong_to_1(
                concat!("to_layout_1 ", $fault),
                Converter {
                    is_good: RIGHT_TO_1.is_good,
                    ..$converter
                },
            ),
        ]
    };
}
pub(super) use both;
