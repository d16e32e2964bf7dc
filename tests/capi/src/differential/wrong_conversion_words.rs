//! Converters with one fault each in what they write, where, and when.

use model::arena::*;

use super::wrong_conversions::*;
use super::wrong_library::{wrong_to_1, wrong_to_2, Wrong};

pub fn all() -> impl Iterator<Item = &'static Wrong> {
    ON_BOTH_WAYS.iter().flatten()
}

const fn edit(edit: fn(&Case, &mut Vec<u16>)) -> Converter {
    Converter { edit, ..RIGHT_TO_2 }
}

const fn writes(writes_refused: fn(u16) -> usize) -> Converter {
    Converter {
        writes_refused,
        ..RIGHT_TO_2
    }
}

static ON_BOTH_WAYS: [[Wrong; 2]; 38] = [
    both!(
        "leaves the layout",
        edit(|case, words| words[0] = case.source[0])
    ),
    both!(
        "leaves word 5",
        edit(|case, words| words[5] = case.source[5])
    ),
    both!(
        "does not write the count",
        edit(|case, words| words[COUNT] = case.target[COUNT])
    ),
    both!(
        "does not write word 7",
        edit(|case, words| words[7] = case.target[7])
    ),
    both!(
        "writes a word past the total",
        edit(|_, words| words.push(0))
    ),
    both!(
        "clears the words past the total",
        edit(|case, words| words.resize(case.target.len().max(words.len()), 0))
    ),
    both!(
        "copies the source's words past its total",
        edit(|case, words| words.extend(&case.source[case.shape.total()..]))
    ),
    both!(
        "makes an idle record fresh",
        edit(|case, words| {
            for worker in 0..case.shape.workers {
                let at = case.shape.worker_at(worker);
                words[at..at + WORKER_WORDS].copy_from_slice(&IDLE_WORKER);
            }
        })
    ),
    both!(
        "drops an idle record's eighth word",
        edit(|case, words| every_record(case, words, CALL_LENGTH))
    ),
    both!(
        "drops an idle record's operation",
        edit(|case, words| every_record(case, words, OPERATION))
    ),
    both!(
        "drops an idle record's spare",
        edit(|case, words| every_record(case, words, SPARE))
    ),
    both!(
        "copies no record but the first",
        edit(|case, words| {
            let others = case.shape.worker_at(1)..case.shape.node_at(0);
            words[others.clone()].copy_from_slice(&case.target[others]);
        })
    ),
    both!(
        "drops the key of a node off the chain",
        edit(|case, words| off_chain(case, words, KEY))
    ),
    both!(
        "drops the link of a node off the chain",
        edit(|case, words| off_chain(case, words, NEXT))
    ),
    both!(
        "drops the mark of a node off the chain",
        edit(|case, words| off_chain(case, words, MARK))
    ),
    both!(
        "drops the owner of a node off the chain",
        edit(|case, words| off_chain(case, words, OWNER))
    ),
    both!(
        "does not copy nodes off the chain",
        edit(|case, words| {
            for node in case.off_chain() {
                let record = case.new_at(node)..case.new_at(node) + LENGTH;
                words[record.clone()].copy_from_slice(&case.target[record]);
            }
        })
    ),
    both!(
        "writes mark 1 for any mark",
        edit(|case, words| every_node(case, words, MARK, |mark| mark.min(1)))
    ),
    both!(
        "drops owners",
        edit(|case, words| every_node(case, words, OWNER, |_| 0))
    ),
    both!(
        "drops marks",
        edit(|case, words| every_node(case, words, MARK, |_| 0))
    ),
    both!(
        "unlinks marked nodes",
        edit(|case, words| unlinked(case, words))
    ),
    both!(
        "writes Tail anew",
        edit(|case, words| {
            let at = case.new_at(TAIL);
            words[at..at + LENGTH].copy_from_slice(&[TAIL_KEY, TAIL, 0, 0]);
        })
    ),
    both!(
        "writes Head's key anew",
        edit(|case, words| words[case.new_at(HEAD)] = HEAD_KEY)
    ),
    both!(
        "copies the node records as they stand",
        edit(|case, words| {
            let old = case.source[case.shape.node_at(0)..case.shape.total()].iter();
            let new = words[case.shape.node_at(0)..].iter_mut();
            new.zip(old).for_each(|(word, &old)| *word = old);
        })
    ),
    both!(
        "does not copy the last node",
        edit(|case, words| {
            let last = case.new_at(case.shape.nodes - 1)..words.len();
            words[last.clone()].copy_from_slice(&case.target[last]);
        })
    ),
    both!(
        "copies 1,000 nodes only",
        edit(|case, words| {
            let others = case.new_at(case.shape.nodes.min(1_000))..words.len();
            words[others.clone()].copy_from_slice(&case.target[others]);
        })
    ),
    both!(
        "writes the header before 8",
        writes(|refusal| if refusal == NO_ROOM { HEADER_WORDS } else { 0 })
    ),
    both!(
        "writes all that fits before 8",
        writes(|refusal| if refusal == NO_ROOM { MAX_WORDS } else { 0 })
    ),
    both!(
        "writes the target before 5",
        writes(|refusal| if refusal == BAD_CALL { MAX_WORDS } else { 0 })
    ),
    both!(
        "writes a word before 5",
        writes(|refusal| if refusal == BAD_CALL { 1 } else { 0 })
    ),
    both!(
        "writes the workers before 7",
        writes(|refusal| if refusal == BROKEN_CHAIN { 16 } else { 0 })
    ),
    both!(
        "writes the header before 4",
        writes(|refusal| if refusal == BUSY { HEADER_WORDS } else { 0 })
    ),
    both!(
        "writes the header before 6",
        writes(|refusal| if refusal == BROKEN_RECORD {
            HEADER_WORDS
        } else {
            0
        })
    ),
    both!(
        "writes the source's layout",
        Converter {
            harm: |source, _| source[0] = LAYOUT_1 + LAYOUT_2 - source[0],
            ..RIGHT_TO_2
        }
    ),
    both!(
        "writes the source's count",
        Converter {
            harm: |source, _| source[COUNT] = u16::from(source[COUNT] == 0),
            ..RIGHT_TO_2
        }
    ),
    both!(
        "writes a word past the source's total",
        Converter {
            harm: |source, _| {
                let total = usize::from(source[5]);
                source.iter_mut().skip(total).for_each(|word| *word = 0);
            },
            ..RIGHT_TO_2
        }
    ),
    both!(
        "tells the size of the set",
        Converter {
            reply: |case| (case.chain.listed() as u64) << 16,
            ..RIGHT_TO_2
        }
    ),
    both!(
        "has a report",
        Converter {
            reply: |_| 1 << 8,
            ..RIGHT_TO_2
        }
    ),
];

/// Writes 0 for one word of each worker's record.
fn every_record(case: &Case, words: &mut [u16], place: usize) {
    for worker in 0..case.shape.workers {
        words[case.shape.worker_at(worker) + place] = 0;
    }
}

fn every_node(case: &Case, words: &mut [u16], place: usize, change: fn(u16) -> u16) {
    for node in 0..case.shape.nodes {
        let word = &mut words[case.new_at(node) + place];
        *word = change(*word);
    }
}

/// Writes 0 for one word of each node off the chain.
fn off_chain(case: &Case, words: &mut [u16], place: usize) {
    for node in case.off_chain() {
        words[case.new_at(node) + place] = 0;
    }
}

/// The set stays the same.
fn unlinked(case: &Case, words: &mut [u16]) {
    let mut last = HEAD;
    for node in case.chain.listed_nodes().into_iter().chain([TAIL]) {
        words[case.new_at(last) + NEXT] = node;
        last = node;
    }
}
