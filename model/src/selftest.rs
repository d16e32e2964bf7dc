//! Checks of the model itself: document 01's listings and small boards, and that the checks of
//! histories can fail.

use crate::arena::*;
use crate::bench::{bench, evaluate, Outcome};
use crate::limits::CASES;
use crate::linearizable::{check_times, check_told, explained};
use crate::rng::Rng;
use crate::run::Call;
use crate::selftest_convert;
use crate::selftest_convert_refusals;
use crate::selftest_counts;
use crate::selftest_free;
use crate::selftest_free_runs;
use crate::selftest_lengths;
use crate::selftest_old;
use crate::selftest_plain;
use crate::selftest_plain_convert;
use crate::selftest_plain_free_runs;
use crate::selftest_refusals;
use crate::selftest_refusals::refused;
use crate::selftest_roll;
use crate::selftest_searches;
use crate::selftest_waits;
use crate::selftest_words;
use crate::sequential;
use crate::turn::{turn, Answer, Report};

#[derive(Default)]
pub struct Checks {
    pub passed: u64,
    pub failed: u64,
}

impl Checks {
    pub fn check(&mut self, name: &str, good: bool) {
        if good {
            self.passed += 1;
        } else {
            self.failed += 1;
            println!("FAILED selftest: {name}");
        }
    }
}

/// The bench listing of document 01, where every add has got length 1.
const LISTING_INPUT: &str = "\
board 2 3
add 0 5 1
turn 0 14
contains 1 5
turn 1 4
remove 0 5
turn 0 15
add 0 7 1
turn 0 13
turn 1 2
add 0 7 1
turn 0 14
";
const LISTING_OUTPUT: &str = "\
entries 67 refused 0 waits 0 calls 5
0 add 5 1 12 15 yes
1 contains 5 16 31 52 no
0 remove 5 21 31 36 yes
0 add 7 37 47 50 full
0 add 7 53 64 67 yes
roll 7
";

/// A look-up of 5 that stands on the removed node while 5 comes back: its no belongs to the time
/// between. It comes back with another length.
const OVERTAKEN_INPUT: &str = "\
board 2 4
add 0 5 3
turn 0 14
contains 1 5
turn 1 4
remove 0 5
turn 0 15
add 0 5 8
turn 0 14
turn 1 2
";
const OVERTAKEN_OUTPUT: &str = "\
entries 53 refused 0 waits 0 calls 4
0 add 5 1 12 15 yes
1 contains 5 16 31 53 no
0 remove 5 21 31 36 yes
0 add 5 37 48 51 yes
roll 5
";

/// The turn at 16 has been made and the turn at 18 has not: 5 is on the chain still, but marked, so
/// the roll passes over it.
const MARKED_INPUT: &str = "board 1 3\nadd 0 5 1\nturn 0 14\nremove 0 5\nturn 0 10\n";
const MARKED_OUTPUT: &str = "\
entries 26 refused 0 waits 0 calls 2
0 add 5 1 12 15 yes
0 remove 5 16 26 0 yes
roll
";

/// A turn less: 5 is in the set, and on the roll.
const UNMARKED_INPUT: &str = "board 1 3\nadd 0 5 1\nturn 0 14\nremove 0 5\nturn 0 9\n";
const UNMARKED_OUTPUT: &str = "\
entries 25 refused 0 waits 0 calls 2
0 add 5 1 12 15 yes
0 remove 5 16 0 0 open
roll 5
";

pub fn selftest() -> Checks {
    let mut checks = Checks::default();
    let listings = [
        (LISTING_INPUT, LISTING_OUTPUT),
        (OVERTAKEN_INPUT, OVERTAKEN_OUTPUT),
        (MARKED_INPUT, MARKED_OUTPUT),
        (UNMARKED_INPUT, UNMARKED_OUTPUT),
    ];
    for (input, output) in listings {
        checks.check(output, bench(input.as_bytes()) == output.as_bytes());
    }
    for case in CASES {
        let output = bench(&(case.make)(&mut Rng::new(1, 1)));
        checks.check(case.name, output.starts_with(case.expects.as_bytes()));
    }
    small_arenas(&mut checks);
    second_add_waits(&mut checks);
    turns_of_calls(&mut checks);
    right_histories(&mut checks);
    wrong_histories(&mut checks);
    told_answers(&mut checks);
    selftest_refusals::refusals(&mut checks);
    selftest_old::old_arenas(&mut checks);
    selftest_waits::waits(&mut checks);
    selftest_lengths::lengths(&mut checks);
    selftest_counts::counts(&mut checks);
    selftest_roll::rolls(&mut checks);
    selftest_free::free_nodes(&mut checks);
    selftest_searches::searches(&mut checks);
    selftest_words::any_words(&mut checks);
    selftest_plain::plain_runs(&mut checks);
    selftest_free_runs::free_runs(&mut checks);
    selftest_plain_free_runs::plain_free_runs(&mut checks);
    selftest_convert::converters(&mut checks);
    selftest_convert_refusals::refusals(&mut checks);
    selftest_plain_convert::plain_converters(&mut checks);
    checks
}

pub fn fresh(shape: Shape) -> Vec<u16> {
    let mut arena = vec![0; shape.total()];
    init(&mut arena, shape.workers, shape.nodes).expect("a good shape");
    arena
}

/// A start with a length that it may carry.
pub fn good_start(arena: &mut [u16], worker: u16, operation: u16, key: u16) -> Result<(), u16> {
    start(arena, worker, operation, key, u16::from(operation == ADD))
}

/// The cases of "Small boards" that are not about numbers of turns, for layout 2.
fn small_arenas(checks: &mut Checks) {
    let mut arena = vec![9; 33];
    checks.check("W 1, N 3", init(&mut arena, 1, 3).is_ok());
    checks.check("W 1, N 3 header", arena[..8] == [2, 1, 3, 8, 16, 31, 0, 0]);
    checks.check("idle worker", arena[8..16] == IDLE_WORKER);
    let nodes = [0, 1, 0, 0, 0, 65_535, 1, 0, 0, 0, 0, 0, 0, 0, 0];
    checks.check("fresh nodes", arena[16..31] == nodes);
    checks.check("past the total", arena[31..] == [9, 9]);
    for words in [28, 30] {
        refused(checks, "too few words", 1, vec![9; words], |a| {
            init(a, 1, 3)
        });
    }
    checks.check("N 2", init(&mut [0; 31], 1, 2) == Err(10));
    checks.check("W 9", init(&mut [0; 9_000], 9, 3) == Err(10));
    checks.check("N 1024", init(&mut [0; 9_000], 1, 1_024).is_ok());
    checks.check("N 1025", init(&mut [0; 9_000], 1, 1_025) == Err(10));
    checks.check("the most words", MAX_WORDS == 5_192);
    checks.check("they do", init(&mut [0; MAX_WORDS], 8, 1_024).is_ok());
    refused(checks, "one less", 1, vec![0; MAX_WORDS - 1], |a| {
        init(a, 8, 1_024)
    });
    let mut arena = fresh(shape(2, 3));
    checks.check("idle turn", turn(&mut arena, 0) == Ok(Report::Idle));
    let mut add = |key| good_start(&mut arena, 0, ADD, key);
    checks.check("key 0", add(0) == Err(5));
    checks.check("key 65535", add(65_535) == Err(5));
    checks.check("key 65534", add(65_534) == Ok(()));
    checks.check("busy, key 0", add(0) == Err(4));
}

fn shape(workers: u16, nodes: u16) -> Shape {
    Shape::new(workers, nodes).expect("a good shape")
}

/// Two adds on an empty set meet at Head.
fn second_add_waits(checks: &mut Checks) {
    let mut arena = fresh(shape(2, 3));
    let started = [0, 1].map(|worker| good_start(&mut arena, worker, ADD, 5));
    checks.check("two adds", started == [Ok(()); 2]);
    let last = (0..4).map(|_| turn(&mut arena, 0)).last();
    checks.check("worker 0 at 7", last == Some(Ok(Report::Moved(7))));
    let reports: Vec<_> = (0..4).map(|_| turn(&mut arena, 1)).collect();
    let expected = [
        Report::Moved(2),
        Report::Moved(3),
        Report::Moved(6),
        Report::Waits {
            node: HEAD,
            worker: 0,
        },
    ];
    checks.check("worker 1 waits at 6", reports == expected.map(Ok));
}

/// How many turns a call alone takes, with its answer.
fn turns_alone(arena: &mut [u16], operation: u16, key: u16) -> (u32, Option<Answer>) {
    let mut count = 0;
    if good_start(arena, 0, operation, key).is_ok() {
        while count < 1_000 {
            count += 1;
            match turn(arena, 0) {
                Ok(Report::Finished(answer)) => return (count, Some(answer)),
                Ok(Report::Moved(_)) => {}
                _ => break,
            }
        }
    }
    (count, None)
}

fn turns_of_calls(checks: &mut Checks) {
    let mut arena = fresh(shape(1, 3));
    let mut expect = |name, operation, key, count, answer| {
        let turns = turns_alone(&mut arena, operation, key);
        checks.check(name, turns == (count, Some(answer)));
    };
    expect("contains 5, empty", CONTAINS, 5, 5, Answer::No);
    expect("add 5, empty", ADD, 5, 14, Answer::Yes);
    expect("contains 5, stored", CONTAINS, 5, 6, Answer::Yes);
    expect("add 5, stored", ADD, 5, 12, Answer::No);
    expect("add 6, no node left", ADD, 6, 16, Answer::Full);
    expect("remove 5, stored", REMOVE, 5, 15, Answer::Yes);
    expect("remove 5, empty", REMOVE, 5, 12, Answer::No);
    expect("add 6, node free again", ADD, 6, 14, Answer::Yes);
}

/// The history and the last set of an input that runs.
pub fn history(input: &str) -> (Vec<Call>, Vec<Label>) {
    match evaluate(input.as_bytes()) {
        Outcome::Ran(trace, _) => {
            let last_set = trace.sets.last().cloned().unwrap_or_default();
            (trace.calls, last_set)
        }
        _ => (Vec::new(), Vec::new()),
    }
}

/// Good histories pass, with another last set they don't.
fn right_histories(checks: &mut Checks) {
    for input in [LISTING_INPUT, OVERTAKEN_INPUT, MARKED_INPUT, UNMARKED_INPUT] {
        let (calls, set) = history(input);
        checks.check("history there", !calls.is_empty());
        checks.check("times", check_times(&calls).is_ok());
        checks.check("points", sequential::check(&calls, &set).is_ok());
        checks.check("some order", explained(&calls, &set) == Some(true));
        for keys in [&[][..], &[5, 7], &[9]] {
            let wrong_set: Vec<_> = keys.iter().map(|&key| Label { key, length: 1 }).collect();
            let refused = sequential::check(&calls, &wrong_set).is_err();
            let none = wrong_set == set || explained(&calls, &wrong_set) == Some(false);
            checks.check("wrong last set", (refused || wrong_set == set) && none);
        }
    }
}

/// Histories with something wrong in them are refused.
fn wrong_histories(checks: &mut Checks) {
    // Call 1 of the listing is a contains beside a remove: either answer has some order.
    for (call, answer, has_order) in [
        (0, Answer::No, false),
        (0, Answer::Full, false),
        (1, Answer::Yes, true),
        (2, Answer::No, false),
        (3, Answer::Yes, false),
        (3, Answer::No, false),
        (4, Answer::No, false),
        (4, Answer::Full, false),
    ] {
        let (mut calls, set) = history(LISTING_INPUT);
        calls[call].answer = answer.number();
        checks.check("flipped, points", sequential::check(&calls, &set).is_err());
        checks.check("flipped, order", explained(&calls, &set) == Some(has_order));
    }
    let wrong = |change: fn(&mut Call)| {
        let (mut calls, set) = history(OVERTAKEN_INPUT);
        change(&mut calls[1]);
        (calls, set)
    };
    // The trap of document 01: a no dated by its own last reading.
    let (calls, set) = wrong(|contains| contains.point = 52);
    checks.check("late no", sequential::check(&calls, &set).is_err());
    let (calls, set) = wrong(|contains| contains.point = 30);
    checks.check("early no", sequential::check(&calls, &set).is_err());
    let (calls, set) = wrong(|contains| contains.start = 52);
    checks.check("real time", explained(&calls, &set) == Some(false));
    let (calls, _) = wrong(|contains| contains.point = 15);
    checks.check("point before start", check_times(&calls).is_err());
    let (calls, _) = wrong(|contains| contains.point = 53);
    checks.check("point at finish", check_times(&calls).is_err());
    let (calls, _) = wrong(|contains| contains.point = 0);
    checks.check("answer without point", check_times(&calls).is_err());
}

/// What the workers reported passes; another answer, one too early and one left out don't.
fn told_answers(checks: &mut Checks) {
    let Outcome::Ran(trace, _) = evaluate(LISTING_INPUT.as_bytes()) else {
        return checks.check("the listing runs", false);
    };
    checks.check("told", check_told(&trace.calls, &trace.told).is_ok());
    checks.check("none told", check_told(&trace.calls, &[]).is_err());
    for call in 0..trace.told.len() {
        let mut told = trace.told.clone();
        told[call] = told[call] % 3 + 1;
        checks.check("told another", check_told(&trace.calls, &told).is_err());
        told[call] = 0;
        checks.check("told nothing", check_told(&trace.calls, &told).is_err());
        let mut calls = trace.calls.clone();
        calls[call].finish = 0;
        checks.check("told early", check_told(&calls, &trace.told).is_err());
    }
}

#[cfg(test)]
mod tests {
    #[test]
    fn selftest_passes() {
        assert_eq!(super::selftest().failed, 0);
    }
}
