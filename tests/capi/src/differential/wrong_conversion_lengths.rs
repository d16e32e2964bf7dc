//! Converters with one fault each in the count or in the lengths that they write, or drop.

use model::arena::*;

use super::wrong_conversions::*;
use super::wrong_library::{wrong_to_1, wrong_to_2, Wrong};

pub fn all() -> impl Iterator<Item = &'static Wrong> {
    TO_2.iter().chain(&TO_1)
}

const fn edit(edit: fn(&Case, &mut Vec<u16>)) -> Converter {
    Converter { edit, ..RIGHT_TO_2 }
}

const fn edit_back(edit: fn(&Case, &mut Vec<u16>)) -> Converter {
    Converter { edit, ..RIGHT_TO_1 }
}

static TO_2: [Wrong; 22] = [
    wrong_to_2("to_layout_2 counts 0", edit(|_, words| words[COUNT] = 0)),
    wrong_to_2(
        "to_layout_2 counts marked nodes too",
        edit(|case, words| words[COUNT] = case.chain.nodes.len() as u16),
    ),
    wrong_to_2(
        "to_layout_2 counts all nodes",
        edit(|case, words| words[COUNT] = case.shape.nodes),
    ),
    wrong_to_2(
        "to_layout_2 counts N less 2",
        edit(|case, words| words[COUNT] = case.new_shape().max_count()),
    ),
    wrong_to_2(
        "to_layout_2 counts both ends",
        edit(|_, words| words[COUNT] += 2),
    ),
    wrong_to_2(
        "to_layout_2 counts in 8 bits",
        edit(|_, words| words[COUNT] %= 256),
    ),
    wrong_to_2(
        "to_layout_2 counts unmarked nodes off the chain",
        edit(|case, words| words[COUNT] += unmarked_off_chain(case).len() as u16),
    ),
    wrong_to_2(
        "to_layout_2 keeps lengths of marked nodes",
        edit(|case, words| lend(case, words, &case.chain.nodes)),
    ),
    wrong_to_2(
        "to_layout_2 keeps lengths of all nodes",
        edit(|case, words| {
            let all: Vec<u16> = (0..case.shape.nodes).collect();
            lend(case, words, &all);
        }),
    ),
    wrong_to_2(
        "to_layout_2 keeps lengths of all nodes but both ends",
        edit(|case, words| lend(case, words, &case.off_chain())),
    ),
    wrong_to_2(
        "to_layout_2 keeps lengths of unmarked nodes off the chain",
        edit(|case, words| lend(case, words, &unmarked_off_chain(case))),
    ),
    wrong_to_2(
        "to_layout_2 keeps Head's length",
        edit(|case, words| lend(case, words, &[HEAD])),
    ),
    wrong_to_2(
        "to_layout_2 keeps Tail's length",
        edit(|case, words| lend(case, words, &[TAIL])),
    ),
    wrong_to_2(
        "to_layout_2 writes length 1 for other nodes",
        edit(|case, words| {
            for node in case.off_chain() {
                words[case.new_at(node) + LENGTH] = 1;
            }
        }),
    ),
    wrong_to_2(
        "to_layout_2 leaves the fifth word of other nodes",
        edit(|case, words| {
            for node in case.off_chain() {
                let at = case.new_at(node) + LENGTH;
                words[at] = case.target[at];
            }
        }),
    ),
    wrong_to_2(
        "to_layout_2 leaves the fifth word of marked nodes",
        edit(|case, words| {
            for &node in &case.chain.nodes {
                let at = case.new_at(node) + LENGTH;
                if case.chain.is_marked(node) {
                    words[at] = case.target[at];
                }
            }
        }),
    ),
    wrong_to_2(
        "to_layout_2 takes lengths in chain order",
        edit(|case, words| number_lengths(case, words, |_, place| place)),
    ),
    wrong_to_2(
        "to_layout_2 takes lengths from node 2 on",
        edit(|case, words| number_lengths(case, words, |node, _| node - 2)),
    ),
    wrong_to_2(
        "to_layout_2 takes the length of the next node",
        edit(|case, words| number_lengths(case, words, |node, _| node + 1)),
    ),
    wrong_to_2(
        "to_layout_2 takes the first label's length for all",
        edit(|case, words| {
            let first = case.chain.listed_nodes().first().copied().unwrap_or(HEAD);
            number_lengths(case, words, |_, _| first);
        }),
    ),
    wrong_to_2(
        "to_layout_2 writes every length 1",
        edit(|case, words| {
            for node in case.chain.listed_nodes() {
                words[case.new_at(node) + LENGTH] = 1;
            }
        }),
    ),
    wrong_to_2(
        "to_layout_2 writes the lengths lent",
        Converter {
            harm: |_, lengths| lengths.iter_mut().for_each(|length| *length ^= 1),
            ..RIGHT_TO_2
        },
    ),
];

static TO_1: [Wrong; 3] = [
    wrong_to_1(
        "to_layout_1 keeps the count",
        edit_back(|case, words| words[COUNT] = case.source[COUNT]),
    ),
    wrong_to_1(
        "to_layout_1 counts the set",
        edit_back(|case, words| words[COUNT] = case.chain.listed() as u16),
    ),
    wrong_to_1(
        "to_layout_1 writes the count of a layout 2 arena",
        Converter {
            harm: |source, _| source[COUNT] = set(source).len() as u16,
            ..RIGHT_TO_1
        },
    ),
];

fn unmarked_off_chain(case: &Case) -> Vec<u16> {
    let mut nodes = case.off_chain();
    nodes.retain(|&node| case.word(node, MARK) == 0);
    nodes
}

/// These nodes keep the lengths lent for them.
fn lend(case: &Case, words: &mut [u16], nodes: &[u16]) {
    for &node in nodes {
        words[case.new_at(node) + LENGTH] = case.length(node);
    }
}

/// The labels get the lengths lent for other numbers, by node and place in the chain.
fn number_lengths(case: &Case, words: &mut [u16], number: impl Fn(u16, u16) -> u16) {
    for (place, node) in (0..).zip(case.chain.listed_nodes()) {
        words[case.new_at(node) + LENGTH] = case.length(number(node, place));
    }
}
