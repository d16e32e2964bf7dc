//! Converters with one fault each in the order of their refusals, and in how they judge headers and
//! workers.

use model::arena::*;

use super::layouts::AnyShape;
use super::wrong_conversions::*;
use super::wrong_library::{wrong_to_1, wrong_to_2, Wrong};
use super::wrong_old::odd_as_12;
use super::wrong_turns::header_first;

pub fn all() -> impl Iterator<Item = &'static Wrong> {
    ON_BOTH_WAYS.iter().flatten().chain(&TO_2).chain(&TO_1)
}

const fn order(tests: [Test; 5]) -> Converter {
    Converter {
        tests,
        ..RIGHT_TO_2
    }
}

/// Other tests of workers.
const fn workers(broken_record: Test, busy: Test) -> Converter {
    order([broken_record, busy, broken_chain, no_room, bad_length])
}

const fn takes(header: fn(&[u16], u16) -> Result<Vec<u16>, u16>) -> Converter {
    Converter {
        header,
        ..RIGHT_TO_2
    }
}

static ON_BOTH_WAYS: [[Wrong; 2]; 30] = [
    both!(
        "judges 4 before 6",
        order([busy, broken_record, broken_chain, no_room, bad_length])
    ),
    both!(
        "judges 7 before 4",
        order([broken_record, broken_chain, busy, no_room, bad_length])
    ),
    both!(
        "judges 7 before 6",
        order([broken_chain, broken_record, busy, no_room, bad_length])
    ),
    both!(
        "judges 8 before 7",
        order([broken_record, busy, no_room, broken_chain, bad_length])
    ),
    both!(
        "judges 8 before 6",
        order([no_room, broken_record, busy, broken_chain, bad_length])
    ),
    both!(
        "judges 5 before 8",
        order([broken_record, busy, broken_chain, bad_length, no_room])
    ),
    both!(
        "judges 5 before 7",
        order([broken_record, busy, bad_length, broken_chain, no_room])
    ),
    both!(
        "judges 6 of worker 0 alone",
        workers(|case| any_above(&case.stages()[..1], 25), busy)
    ),
    both!(
        "judges 6 of the last worker alone",
        workers(|case| any_above(last(&case.stages()), 25), busy)
    ),
    both!(
        "judges 4 of worker 0 alone",
        workers(broken_record, |case| any_busy(&case.stages()[..1]))
    ),
    both!(
        "judges 4 of the last worker alone",
        workers(broken_record, |case| any_busy(last(&case.stages())))
    ),
    both!(
        "judges 6 and 4 worker by worker",
        workers(worker_by_worker, busy)
    ),
    both!(
        "is refused 6 from stage 25 on",
        workers(|case| any_above(&case.stages(), 24), busy)
    ),
    both!(
        "is refused 6 from stage 27 on",
        workers(|case| any_above(&case.stages(), 26), busy)
    ),
    both!("is never refused 6", workers(|_| None, busy)),
    both!("is never refused 4", workers(broken_record, |_| None)),
    both!(
        "is refused 4 for an idle record's operation",
        workers(broken_record, |case| {
            busy(case).or_else(|| any_record(case, BUSY, |record| record[OPERATION] != 0))
        })
    ),
    both!(
        "is refused 6 for an odd idle record",
        workers(broken_record, |case| {
            busy(case).or_else(|| any_record(case, BROKEN_RECORD, |record| record != IDLE_WORKER))
        })
    ),
    both!(
        "is refused 4 for a node with an owner",
        workers(broken_record, |case| busy(case).or_else(|| any_owned(case)))
    ),
    both!(
        "takes the wrong layout",
        Converter {
            edit: copy_same_layout,
            ..takes(|source, _| AnyShape::check(source).map(|_| source.to_vec()))
        }
    ),
    both!(
        "is refused 12 for the wrong layout",
        takes(|source, layout| other_layout_is(source, layout, OLD_LAYOUT))
    ),
    both!(
        "is refused 12 for an odd old header",
        takes(|source, layout| match odd_as_12(source) {
            Some(_) => Err(OLD_LAYOUT),
            None => header(source, layout),
        })
    ),
    both!(
        "is refused 12 for layout 1",
        takes(|source, layout| match check_header(source) {
            Err(OLD_LAYOUT) => Err(OLD_LAYOUT),
            _ => header(source, layout),
        })
    ),
    both!(
        "is refused 2 for either layout",
        takes(|source, _| AnyShape::check(source).and(Err(ODD_HEADER)))
    ),
    both!(
        "is refused 10 for the wrong layout",
        takes(|source, layout| other_layout_is(source, layout, BAD_COUNTS))
    ),
    both!(
        "judges 2 before 1",
        takes(|source, layout| header(source, layout)
            .map_err(|refusal| header_first(source, refusal.into()) as u16))
    ),
    both!(
        "judges the wrong layout before 1",
        takes(|source, layout| match source.first() {
            Some(&first) if first == LAYOUT_1 + LAYOUT_2 - layout => Err(ODD_HEADER),
            _ => header(source, layout),
        })
    ),
    both!(
        "judges the wrong layout after 8",
        Converter {
            tests: [broken_record, busy, broken_chain, no_room, same_layout],
            ..takes(|source, _| AnyShape::check(source).map(|_| source.to_vec()))
        }
    ),
    both!(
        "does not look at header word 7",
        takes(|source, layout| {
            let mut words = source.to_vec();
            words.iter_mut().skip(7).take(1).for_each(|word| *word = 0);
            header(&words, layout)
        })
    ),
    both!(
        "wants no words past the source's total",
        takes(|source, layout| match header(source, layout) {
            Ok(_) if source.len() > usize::from(source[5]) => Err(ODD_HEADER),
            other => other,
        })
    ),
];

static TO_2: [Wrong; 3] = [
    wrong_to_2(
        "to_layout_2 judges the target before 7",
        order([broken_record, busy, short_first, no_room, bad_length]),
    ),
    wrong_to_2(
        "to_layout_2 judges the lengths' number before 7",
        order([broken_record, busy, few_first, no_room, bad_length]),
    ),
    wrong_to_2(
        "to_layout_2 wants as many words as layout 2 takes",
        takes(|source, layout| {
            let words = header(source, layout)?;
            let shape = AnyShape::check(source)?;
            if words.len() < shape.other().total() {
                Err(SHORT_ARENA)
            } else {
                Ok(words)
            }
        }),
    ),
];

static TO_1: [Wrong; 2] = [
    wrong_to_1(
        "to_layout_1 takes any count",
        Converter {
            is_good: RIGHT_TO_1.is_good,
            ..takes(|source, layout| {
                let mut words = source.to_vec();
                if let (Some(&LAYOUT_2), Some(count)) = (source.first(), words.get_mut(COUNT)) {
                    *count = 0;
                }
                header(&words, layout)
            })
        },
    ),
    wrong_to_1(
        "to_layout_1 wants the set's count",
        Converter {
            is_good: RIGHT_TO_1.is_good,
            ..takes(|source, layout| match header(source, layout) {
                Ok(_) if usize::from(source[COUNT]) != set(source).len() => Err(ODD_HEADER),
                other => other,
            })
        },
    ),
];

fn last(stages: &[u16]) -> &[u16] {
    &stages[stages.len() - 1..]
}

fn any_above(stages: &[u16], greatest: u16) -> Option<u16> {
    let mut stages = stages.iter();
    stages
        .any(|&stage| stage > greatest)
        .then_some(BROKEN_RECORD)
}

/// Right where no stage is above 25, which is judged before.
fn any_busy(stages: &[u16]) -> Option<u16> {
    stages.iter().any(|&stage| stage != 0).then_some(BUSY)
}

/// The first worker that is not idle decides.
fn worker_by_worker(case: &Case) -> Option<u16> {
    let stage = case.stages().into_iter().find(|&stage| stage != 0)?;
    Some(if stage > 25 { BROKEN_RECORD } else { BUSY })
}

fn any_record(case: &Case, refusal: u16, is_such: impl Fn(&[u16]) -> bool) -> Option<u16> {
    let records = &case.source[HEADER_WORDS..case.shape.node_at(0)];
    let mut records = records.chunks_exact(WORKER_WORDS);
    records.any(is_such).then_some(refusal)
}

fn any_owned(case: &Case) -> Option<u16> {
    let mut nodes = 0..case.shape.nodes;
    nodes
        .any(|node| case.word(node, OWNER) != 0)
        .then_some(BUSY)
}

fn other_layout_is(source: &[u16], layout: u16, refusal: u16) -> Result<Vec<u16>, u16> {
    match AnyShape::check(source) {
        Ok(shape) if shape.layout != layout => Err(refusal),
        _ => header(source, layout),
    }
}

fn short_first(case: &Case) -> Option<u16> {
    if case.is_room_short() {
        Some(NO_ROOM)
    } else {
        broken_chain(case)
    }
}

fn few_first(case: &Case) -> Option<u16> {
    if case.lent_fewer_than(case.shape.nodes.into()) {
        Some(NO_ROOM)
    } else {
        broken_chain(case)
    }
}

/// The last test of all, since lengths mean nothing in the wrong layout.
fn same_layout(case: &Case) -> Option<u16> {
    if case.shape.layout == case.new_shape().layout {
        Some(ODD_HEADER)
    } else {
        bad_length(case)
    }
}

/// An arena that has the layout already is copied.
fn copy_same_layout(case: &Case, words: &mut Vec<u16>) {
    if case.shape.layout == case.new_shape().layout {
        *words = case.source[..case.shape.total()].to_vec();
    }
}
