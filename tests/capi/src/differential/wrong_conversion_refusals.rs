//! Converters with one fault each in how they judge the chain, the room and the lengths.

use model::arena::*;

use super::chain::End;
use super::wrong_conversions::*;
use super::wrong_library::{wrong_to_1, wrong_to_2, Wrong};
use super::wrong_others::{Walk, RIGHT_WALK};

pub fn all() -> impl Iterator<Item = &'static Wrong> {
    ON_BOTH_WAYS.iter().flatten().chain(&TO_2).chain(&TO_1)
}

/// Another test of the chain.
const fn chain(test: Test) -> Converter {
    Converter {
        tests: [broken_record, busy, test, no_room, bad_length],
        ..RIGHT_TO_2
    }
}

/// Another test of the target and the lengths' number.
const fn room(test: Test) -> Converter {
    Converter {
        tests: [broken_record, busy, broken_chain, test, bad_length],
        ..RIGHT_TO_2
    }
}

const fn judged(judged: fn(&Case) -> Vec<u16>) -> Converter {
    Converter {
        judged,
        ..RIGHT_TO_2
    }
}

const fn is_good(is_good: fn(u16, u16) -> bool) -> Converter {
    Converter {
        is_good,
        ..RIGHT_TO_2
    }
}

static ON_BOTH_WAYS: [[Wrong; 2]; 20] = [
    both!("is never refused 7", chain(|_| None)),
    both!(
        "does not check a marked link",
        chain(|case| walked(
            case,
            Walk {
                checks_link: false,
                ..RIGHT_WALK
            }
        ))
    ),
    both!(
        "does not check a marked key",
        chain(|case| walked(
            case,
            Walk {
                checks_key: false,
                ..RIGHT_WALK
            }
        ))
    ),
    both!(
        "forgets a marked key",
        chain(|case| walked(
            case,
            Walk {
                keeps_key: false,
                ..RIGHT_WALK
            }
        ))
    ),
    both!(
        "looks at Tail's key",
        chain(|case| {
            let last = case.chain.before(case.chain.nodes.len());
            let is_low = case.word(TAIL, KEY) <= case.word(last, KEY);
            broken_chain(case).or(is_low.then_some(BROKEN_CHAIN))
        })
    ),
    both!(
        "looks at Head's mark",
        chain(|case| {
            let is_marked = case.word(HEAD, MARK) != 0;
            broken_chain(case).or(is_marked.then_some(BROKEN_CHAIN))
        })
    ),
    both!(
        "does not look at Head's key",
        chain(|case| match case.chain.end {
            End::Key(_) if case.chain.nodes.is_empty() => None,
            _ => broken_chain(case),
        })
    ),
    both!(
        "is refused 7 for key 65,535",
        chain(|case| {
            let last = case.chain.before(case.chain.nodes.len());
            let is_high = case.word(last, KEY) == TAIL_KEY;
            broken_chain(case).or(is_high.then_some(BROKEN_CHAIN))
        })
    ),
    both!(
        "wants the source's total of the target",
        room(|case| {
            let is_short = case.target.len() < case.shape.total();
            let nodes = case.shape.nodes.into();
            (is_short || case.lent_fewer_than(nodes)).then_some(NO_ROOM)
        })
    ),
    both!(
        "takes a target one word short",
        room(|case| {
            let is_short = case.target.len() + 1 < case.new_shape().total();
            let nodes = case.shape.nodes.into();
            (is_short || case.lent_fewer_than(nodes)).then_some(NO_ROOM)
        })
    ),
    both!(
        "wants a target one word longer",
        room(|case| {
            let is_short = case.target.len() <= case.new_shape().total();
            no_room(case).or(is_short.then_some(NO_ROOM))
        })
    ),
    both!(
        "wants no words past the target's total",
        room(|case| {
            let is_longer = case.target.len() > case.new_shape().total();
            no_room(case).or(is_longer.then_some(NO_ROOM))
        })
    ),
    both!("takes any target", room(|_| None)),
    both!(
        "is refused 1 for a short target",
        room(|case| { no_room(case).map(|_| SHORT_ARENA) })
    ),
    both!("judges no length", judged(|_| Vec::new())),
    both!(
        "does not judge the first label",
        judged(|case| case.chain.listed_nodes().into_iter().skip(1).collect())
    ),
    both!(
        "does not judge the last label",
        judged(|case| {
            let mut listed = case.chain.listed_nodes();
            listed.pop();
            listed
        })
    ),
    both!(
        "judges marked nodes on the chain",
        judged(|case| case.chain.nodes.clone())
    ),
    both!(
        "judges unmarked nodes off the chain",
        judged(|case| {
            let mut nodes = case.off_chain();
            nodes.retain(|&node| case.word(node, MARK) == 0);
            nodes.extend(case.chain.listed_nodes());
            nodes
        })
    ),
    both!(
        "judges all nodes but both ends",
        judged(|case| (2..case.shape.nodes).collect())
    ),
];

static TO_2: [Wrong; 16] = [
    wrong_to_2(
        "to_layout_2 takes N less 1 lengths",
        room(|case| fewer_lengths(case, usize::from(case.shape.nodes) - 1)),
    ),
    wrong_to_2(
        "to_layout_2 takes N less 2 lengths",
        room(|case| fewer_lengths(case, usize::from(case.shape.nodes) - 2)),
    ),
    wrong_to_2(
        "to_layout_2 takes lengths for all labels",
        room(|case| {
            let labels = case.chain.listed_nodes().into_iter();
            fewer_lengths(case, labels.max().map_or(0, |node| node + 1).into())
        }),
    ),
    wrong_to_2(
        "to_layout_2 takes as many lengths as labels",
        room(|case| fewer_lengths(case, case.chain.listed())),
    ),
    wrong_to_2(
        "to_layout_2 takes any number of lengths",
        room(|case| fewer_lengths(case, 0)),
    ),
    wrong_to_2(
        "to_layout_2 wants just N lengths",
        room(|case| {
            let nodes = usize::from(case.shape.nodes);
            no_room(case).or((!case.lent_fewer_than(nodes + 1)).then_some(NO_ROOM))
        }),
    ),
    wrong_to_2(
        "to_layout_2 takes length 0",
        is_good(|key, length| length == 0 || is_add_length(key, length)),
    ),
    wrong_to_2(
        "to_layout_2 takes length 65,535",
        is_good(|key, length| length == 65_535 || is_add_length(key, length)),
    ),
    wrong_to_2(
        "to_layout_2 takes key and length 65,536",
        is_good(|key, length| {
            is_add_length(key, length) || u32::from(key) + u32::from(length) == MAX_END + 1
        }),
    ),
    wrong_to_2(
        "to_layout_2 takes key and length up to 65,534",
        is_good(|key, length| {
            is_add_length(key, length) && u32::from(key) + u32::from(length) != MAX_END
        }),
    ),
    wrong_to_2(
        "to_layout_2 takes no length 65,534",
        is_good(|key, length| is_add_length(key, length) && length != 65_534),
    ),
    wrong_to_2(
        "to_layout_2 takes no length 1",
        is_good(|key, length| is_add_length(key, length) && length != 1),
    ),
    wrong_to_2(
        "to_layout_2 adds in 16 bits",
        is_good(|key, length| {
            (1..=65_534).contains(&length) && u32::from(key.wrapping_add(length)) <= MAX_END
        }),
    ),
    wrong_to_2(
        "to_layout_2 takes no key 65,534",
        is_good(|key, length| is_add_length(key, length) && key != 65_534),
    ),
    wrong_to_2(
        "to_layout_2 takes key 65,535",
        is_good(|key, length| key == TAIL_KEY || is_add_length(key, length)),
    ),
    wrong_to_2(
        "to_layout_2 judges Head",
        Converter {
            judged: |case| {
                let mut nodes = case.chain.listed_nodes();
                nodes.push(HEAD);
                nodes
            },
            ..RIGHT_TO_2
        },
    ),
];

static TO_1: [Wrong; 9] = [
    wrong_to_1("to_layout_1 takes an add's lengths", is_good(is_add_length)),
    wrong_to_1(
        "to_layout_1 takes length 0",
        is_good(|key, length| length <= 1 && key < TAIL_KEY),
    ),
    wrong_to_1(
        "to_layout_1 takes length 2",
        is_good(|key, length| (1..=2).contains(&length) && key < TAIL_KEY),
    ),
    wrong_to_1(
        "to_layout_1 takes length 65,535",
        is_good(|key, length| [1, 65_535].contains(&length) && key < TAIL_KEY),
    ),
    wrong_to_1(
        "to_layout_1 looks at a length's lowest byte",
        is_good(|key, length| length % 256 == 1 && key < TAIL_KEY),
    ),
    wrong_to_1(
        "to_layout_1 takes key 65,535",
        is_good(|_, length| length == 1),
    ),
    wrong_to_1(
        "to_layout_1 takes no key 65,534",
        is_good(|key, length| length == 1 && key < 65_534),
    ),
    wrong_to_1(
        "to_layout_1 judges Head",
        Converter {
            judged: |case| {
                let mut nodes = case.chain.listed_nodes();
                nodes.push(HEAD);
                nodes
            },
            ..RIGHT_TO_1
        },
    ),
    wrong_to_1(
        "to_layout_1 judges other nodes' lengths for 0 or 1",
        Converter {
            tests: [broken_record, busy, broken_chain, no_room, |case| {
                let is_long = |node: u16| case.length(node) > 1;
                let mut others = case.off_chain().into_iter();
                bad_length(case).or_else(|| others.any(is_long).then_some(BAD_CALL))
            }],
            ..RIGHT_TO_1
        },
    ),
];

/// A walk that does not check something at marked nodes.
fn walked(case: &Case, walk: Walk) -> Option<u16> {
    walk.go_in(case.source, case.shape).err()
}

/// 8 for a short target, or fewer lengths than these.
fn fewer_lengths(case: &Case, enough: usize) -> Option<u16> {
    let is_short = case.is_room_short() || case.lent_fewer_than(enough);
    is_short.then_some(NO_ROOM)
}
