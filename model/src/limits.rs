//! Inputs at each limit of the documents, on either side of it.

use crate::arena::*;
use crate::bench::{MAX_BYTES, MAX_ENTRIES, MAX_RECORDS};
use crate::generate::small;
use crate::rng::Rng;
use crate::script::{Script, Style};

pub struct Case {
    pub name: &'static str,
    /// How the output must begin: without it a case might miss its limit unseen.
    pub expects: &'static str,
    pub make: fn(&mut Rng) -> Vec<u8>,
}

const fn case(name: &'static str, expects: &'static str, make: fn(&mut Rng) -> Vec<u8>) -> Case {
    Case {
        name,
        expects,
        make,
    }
}

// The outputs of `one_start`.
const NONE_REFUSED: &str = "entries 14 refused 0 ";
const ONE_REFUSED: &str = "entries 14 refused 1 ";

pub const CASES: &[Case] = &[
    case("empty input", "bad line 1\n", |_| Vec::new()),
    case("one LF", "bad line 1\n", |_| text("\n")),
    case("line 1 alone", "entries 0 ", |_| text("board 2 3\n")),
    case("line 1 without LF", "bad line 1\n", |_| text("board 2 3")),
    case("half of line 1", "bad line 1\n", |_| text("board 2")),
    case("no line 1", "bad line 1\n", |_| {
        text("add 0 5 1\nturn 0 14\n")
    }),
    case("N 2", "bad line 1\n", |rng| board(rng, "board 1 2")),
    case("N 3", "entries ", |rng| board(rng, "board 1 3")),
    case("N 1024", "entries ", |rng| board(rng, "board 3 1024")),
    case("N 1025", "bad line 1\n", |rng| board(rng, "board 3 1025")),
    case("W 0", "bad line 1\n", |rng| board(rng, "board 0 5")),
    case("W 1", "entries ", |rng| board(rng, "board 1 5")),
    case("W 8", "entries ", |rng| board(rng, "board 8 5")),
    case("W 9", "bad line 1\n", |rng| board(rng, "board 9 5")),
    case("W 8, N 1024", "entries ", |rng| board(rng, "board 8 1024")),
    case("counts 65535", "bad line 1\n", |rng| {
        board(rng, "board 65535 65535")
    }),
    case("W 65537", "bad line 1\n", |rng| board(rng, "board 65537 5")),
    case("key 0", ONE_REFUSED, |_| one_start("add 0 0 1")),
    case("key 1", NONE_REFUSED, |_| one_start("add 0 1 1")),
    case("key 65534", NONE_REFUSED, |_| one_start("add 0 65534 1")),
    case("key 65535", ONE_REFUSED, |_| one_start("add 0 65535 1")),
    case("key 65536", "bad line 3\n", |_| one_start("add 0 65536 1")),
    case("worker 1 of 2", NONE_REFUSED, |_| one_start("add 1 5 1")),
    case("worker 2 of 2", ONE_REFUSED, |_| one_start("add 2 5 1")),
    case("worker 65535", ONE_REFUSED, |_| one_start("add 65535 5 1")),
    case("worker 65536", "bad line 3\n", |_| {
        one_start("add 65536 5 1")
    }),
    case("length 0", ONE_REFUSED, |_| one_start("add 0 5 0")),
    case("length 1", NONE_REFUSED, |_| one_start("add 0 5 1")),
    case("length 65534", NONE_REFUSED, |_| one_start("add 0 1 65534")),
    case("length 65535", ONE_REFUSED, |_| one_start("add 0 1 65535")),
    case("length 65536", "bad line 3\n", |_| {
        one_start("add 0 1 65536")
    }),
    case("end 65535", NONE_REFUSED, |_| one_start("add 0 65530 5")),
    case("end 65536", ONE_REFUSED, |_| one_start("add 0 65530 6")),
    case("end 65536 by the key", ONE_REFUSED, |_| {
        one_start("add 0 65534 2")
    }),
    case("end far behind", ONE_REFUSED, |_| {
        one_start("add 0 65534 65535")
    }),
    case("length 01", "bad line 3\n", |_| one_start("add 0 5 01")),
    case("length -1", "bad line 3\n", |_| one_start("add 0 5 -1")),
    case("no length", "bad line 3\n", |_| one_start("add 0 5")),
    case("empty length", "bad line 3\n", |_| one_start("add 0 5 ")),
    case("two lengths", "bad line 3\n", |_| one_start("add 0 5 1 1")),
    case("add alone", "bad line 3\n", |_| one_start("add")),
    case("remove", NONE_REFUSED, |_| one_start("remove 0 5")),
    case("contains", NONE_REFUSED, |_| one_start("contains 0 5")),
    case("remove, length 0", "bad line 3\n", |_| {
        one_start("remove 0 5 0")
    }),
    case("remove, length 1", "bad line 3\n", |_| {
        one_start("remove 0 5 1")
    }),
    case("contains, length 0", "bad line 3\n", |_| {
        one_start("contains 0 5 0")
    }),
    case("turn, length 0", "bad line 3\n", |_| {
        one_start("turn 0 1 0")
    }),
    case("board, length 0", "bad line 1\n", |rng| {
        board(rng, "board 2 3 0")
    }),
    case("turn 0 times", "bad line 3\n", |_| one_start("turn 0 0")),
    case("turn once", NONE_REFUSED, |_| one_start("turn 0 1")),
    case("turn 4000 times", "entries 4000 ", |_| {
        text("board 2 3\nturn 0 4000\n")
    }),
    case("turn 4001 times", "bad line 2\n", |_| {
        text("board 2 3\nturn 0 4001\n")
    }),
    case("a start past 4000", "bad line 3\n", |_| {
        text("board 2 3\nturn 0 4000\nadd 0 5 1\nodd line\n")
    }),
    case("turn past 4000", "bad line 3\n", |_| {
        text("board 2 3\nadd 0 5 1\nturn 0 4000\n")
    }),
    case("4000 entries", "entries 4000 ", |rng| {
        entries(rng, MAX_ENTRIES)
    }),
    case("4001 entries", "bad line ", |rng| {
        entries(rng, MAX_ENTRIES + 1)
    }),
    case(
        "most calls",
        "entries 4000 refused 0 waits 0 calls 667\n",
        most_calls,
    ),
    case(
        "most waits",
        "entries 4000 refused 0 waits 3991 calls 2\n",
        |_| waiting(0),
    ),
    case(
        "longest waits",
        "entries 4000 refused 0 waits 3852 calls 11\n",
        |_| waiting(9),
    ),
    case("16384 bytes", "entries ", |rng| bytes(rng, MAX_BYTES)),
    case("16385 bytes", "bad line 0\n", |rng| {
        bytes(rng, MAX_BYTES + 1)
    }),
    case("16384 bytes, last LF missing", "bad line ", |rng| {
        let mut input = bytes(rng, MAX_BYTES + 1);
        input.pop();
        input
    }),
    case("16385 bytes, line 1 bad", "bad line 0\n", |rng| {
        let mut input = bytes(rng, MAX_BYTES + 1);
        input[0] = b'B';
        input
    }),
    case("200000 bytes", "bad line 0\n", |rng| bytes(rng, 200_000)),
    case("1000 starts", "entries ", |rng| starts(rng, MAX_RECORDS)),
    case("1001 starts", "refused 8\n", |rng| {
        starts(rng, MAX_RECORDS + 1)
    }),
    case("1001 starts, all refused", "refused 8\n", |_| {
        text(&("board 2 3\n".to_string() + &"add 2 5 1\n".repeat(1_001)))
    }),
    case("1001 starts and a bad line", "bad line ", |rng| {
        let mut input = starts(rng, MAX_RECORDS + 1);
        input.extend_from_slice(b"add 0 5\n");
        input
    }),
];

fn text(input: &str) -> Vec<u8> {
    input.as_bytes().to_vec()
}

/// A small schedule under another line 1.
fn board(rng: &mut Rng, first_line: &str) -> Vec<u8> {
    let script = small(rng);
    let rest = script.text.find('\n').unwrap_or(0);
    text(&(first_line.to_string() + &script.text[rest..]))
}

/// Line 3 is given; it is one entry, and there are 13 others.
fn one_start(line: &str) -> Vec<u8> {
    text(&format!("board 2 4\nturn 0 1\n{line}\nturn 0 12\n"))
}

fn busy_style() -> Style {
    Style {
        keys: 9,
        burst: 9,
        odd: 3,
        slow: None,
    }
}

/// Random lines of exactly so many entries.
fn entries(rng: &mut Rng, count: usize) -> Vec<u8> {
    let mut script = Script::new(rng.word(1, 8), rng.word(3, 30));
    while script.entries + 10 < count && script.text.len() + 100 < MAX_BYTES {
        busy_style().random_line(rng, &mut script);
    }
    let left = count - script.entries;
    script.turns(0, left);
    script.into_bytes()
}

/// A contains on an empty set is the shortest call: 6 entries with its start.
fn most_calls(rng: &mut Rng) -> Vec<u8> {
    let mut script = Script::new(1, 3);
    for _ in 0..666 {
        script.whole_call(0, CONTAINS, rng.word(1, 9));
    }
    script.start(0, CONTAINS, 5);
    script.turns(0, 3);
    script.into_bytes()
}

/// So many keys are stored from the far end, so that the first one has the node with the greatest
/// number; there worker 0 stands still, and all that is left are turns of worker 1 that wait.
fn waiting(stored: u16) -> Vec<u8> {
    let mut script = Script::new(2, stored + 3);
    for key in (1..=stored).rev() {
        script.whole_call(0, ADD, 2 * key);
    }
    script.start(0, if stored == 0 { ADD } else { REMOVE }, 2);
    script.advance(0, if stored == 0 { 7 } else { 8 });
    script.start(1, ADD, 3);
    let left = script.entries_left();
    script.turns(1, left);
    script.into_bytes()
}

/// Random lines of exactly so many bytes, filled up with single turns of workers whose numbers
/// are as long as is needed.
fn bytes(rng: &mut Rng, count: usize) -> Vec<u8> {
    let mut script = Script::new(rng.word(1, 8), rng.word(3, 30));
    while script.entries < 2_000 && script.starts < 900 && script.text.len() + 60 < count {
        busy_style().random_line(rng, &mut script);
    }
    let mut text = script.text;
    while text.len() < count {
        let left = count - text.len();
        // A filling line has 9 to 13 bytes, and the rest must be made of such lines too.
        let fits = |len: &usize| matches!(left.checked_sub(*len), Some(0 | 9..=13 | 18..));
        let len = (9..=13).rev().find(fits).expect("a rest of lines");
        let worker = &"12345"[..len - 8];
        text.push_str(&format!("turn {worker} 1\n"));
    }
    text.into_bytes()
}

/// So many lines that start, accepted or not.
fn starts(rng: &mut Rng, count: usize) -> Vec<u8> {
    let mut script = Script::new(rng.word(1, 8), rng.word(3, 30));
    while script.starts < count {
        let worker = rng.word(0, script.shape.workers);
        let operation = rng.word(ADD, CONTAINS);
        script.start(worker, operation, rng.word(0, 9));
        if rng.chance(25) {
            script.turns(worker, rng.range(1, 9) as usize);
        }
    }
    script.into_bytes()
}
