//! Arenas of layout 1, which is withdrawn: a good one is refused with 12, right after 2, by all that
//! works on an arena; an odd one with 2. Headers by hand, and arenas that were converted.

use crate::arena::*;
use crate::count::stored;
use crate::free::find_free;
use crate::free_run::longest_free_run;
use crate::selftest::{fresh, good_start, Checks};
use crate::selftest_convert::{in_layout_1, in_layout_2, old_words};
use crate::selftest_refusals::{refused, OLD_HEADER, SHAPE, STAGES};
use crate::turn::{turn, Report};

pub fn old_arenas(checks: &mut Checks) {
    good_headers(checks);
    odd_headers(checks);
    short_arenas(checks);
    in_use(checks);
    converted(checks);
}

/// Each function that works on an arena refuses this one, whatever the worker, call, room or cell.
fn all_refuse(checks: &mut Checks, name: &str, number: u16, arena: &[u16]) {
    let mut refuses = |function: &str, call: &dyn Fn(&mut [u16]) -> Option<u16>| {
        let mut words = arena.to_vec();
        let got = call(&mut words);
        let name = format!("{name}: {function} {number}, got {got:?}");
        checks.check(&name, got == Some(number) && words == arena);
    };
    for worker in [0, 1, 8, 65_535] {
        refuses("turn", &|words| turn(words, worker).err());
        for (operation, key, length) in [
            (ADD, 5, 1),
            (ADD, 5, 0),
            (REMOVE, 5, 0),
            (CONTAINS, 0, 9),
            (4, 5, 0),
        ] {
            refuses("start", &|words| {
                start(words, worker, operation, key, length).err()
            });
        }
    }
    for room in [0, 2_000] {
        refuses("snapshot", &|words| {
            snapshot(words, &mut vec![0; room]).err()
        });
    }
    for last_cell in [0, 1, 65_534, 65_535] {
        refuses("free run", &|words| {
            longest_free_run(words, last_cell).err()
        });
    }
    refuses("find_free", &|words| find_free(words).err());
    refuses("stored", &|words| stored(words).err());
}

/// A good header of layout 1, with nothing but these words behind it, and some past its total.
fn good_headers(checks: &mut Checks) {
    for (header, words) in [
        ([1, 1, 3, 8, 16, 28, 0, 0], 28),
        ([1, 1, 3, 8, 16, 28, 0, 0], 31),
        ([1, 2, 4, 8, 24, 40, 0, 0], 40),
        ([1, 8, 3, 8, 72, 84, 0, 0], 90),
        ([1, 1, 1_024, 8, 16, 4_112, 0, 0], 4_112),
        ([1, 8, 1_024, 8, 72, 4_168, 0, 0], 5_192),
    ] {
        for word in [0, 1, 26, 65_535] {
            let mut arena = vec![word; words];
            arena[..HEADER_WORDS].copy_from_slice(&header);
            all_refuse(checks, "old header", OLD_LAYOUT, &arena);
        }
    }
}

/// A place in the header, and a word that it has in no good header with the others.
const ODD_WORDS: [(usize, u16); 20] = [
    (0, 0),
    (0, 2),
    (0, 3),
    (0, 257),
    (1, 1),
    (1, 3),
    (2, 3),
    (2, 5),
    (3, 0),
    (3, 7),
    (4, 23),
    (4, 25),
    (5, 0),
    (5, 39),
    (5, 44),
    (6, 1),
    (6, 2),
    (6, 65_535),
    (7, 1),
    (7, 65_535),
];

/// Counts outside their ranges, and the total of layout 2 with a count as it has one.
const ODD_HEADERS: [[u16; HEADER_WORDS]; 5] = [
    [1, 0, 4, 8, 8, 24, 0, 0],
    [1, 9, 4, 8, 80, 96, 0, 0],
    [1, 2, 2, 8, 24, 32, 0, 0],
    [1, 2, 1_025, 8, 24, 4_124, 0, 0],
    [1, 2, 4, 8, 24, 44, 1, 0],
];

/// These are 2, and not 12.
fn odd_headers(checks: &mut Checks) {
    let odd_words = ODD_WORDS.map(|(place, word)| {
        let mut header = OLD_HEADER;
        header[place] = word;
        header
    });
    for header in odd_words.into_iter().chain(ODD_HEADERS) {
        let mut arena = vec![0; 4_200];
        arena[..HEADER_WORDS].copy_from_slice(&header);
        all_refuse(checks, "odd old header", ODD_HEADER, &arena);
    }
}

/// 1 comes before 12, and before 2.
fn short_arenas(checks: &mut Checks) {
    let old = old_words(&fresh(SHAPE));
    for words in [0, 1, 7, 8, 9, 39] {
        all_refuse(checks, "short", SHORT_ARENA, &old[..words]);
    }
    let mut odd = old;
    odd[7] = 1;
    all_refuse(checks, "short and odd", SHORT_ARENA, &odd[..39]);
}

/// Workers at any stage, where a turn would move or wait if the layout were in use.
fn in_use(checks: &mut Checks) {
    for (stage, operations, _) in STAGES {
        let mut arena = old_words(&fresh(SHAPE));
        arena[8..16].copy_from_slice(&[stage, operations[0], 5, 0, 1, 2, 1, 0]);
        for arena in [&arena[..], &[&arena[..], &[7; 9]].concat()] {
            all_refuse(checks, "in use", OLD_LAYOUT, arena);
        }
    }
}

/// A call of worker 0 to its end.
fn whole_call(arena: &mut [u16], operation: u16, key: u16) -> bool {
    good_start(arena, 0, operation, key).is_ok()
        && (0..60).any(|_| matches!(turn(arena, 0), Ok(Report::Finished(_))))
}

/// What was converted to layout 1 cannot be worked on, only converted back; then it can.
fn converted(checks: &mut Checks) {
    let mut new = fresh(SHAPE);
    for keys in [&[][..], &[5], &[5, 9]] {
        for &key in keys {
            checks.check("an add ends", whole_call(&mut new, ADD, key));
        }
        let old = in_layout_1(&new, 40).and_then(Result::ok);
        let old = old.unwrap_or_default();
        all_refuse(checks, "converted", OLD_LAYOUT, &old);
        let again = in_layout_2(&old, &[1; 4], 44);
        checks.check("and back", again == Some(Ok(new.clone())));
        checks.check("is no layout 2", in_layout_1(&old, 44) == Some(Err(2)));
        let listed = snapshot(&new, &mut [0; 4]);
        checks.check("worked on again", listed == Ok(keys.len()));
    }
    refused(checks, "the last one", NO_ROOM, new, |a| {
        snapshot(a, &mut [0])
    });
}
