//! The command line: compare the proved library with the model on many arenas.

use std::process::ExitCode;

use capi::differential::tally::Tally;
use capi::differential::{wrong, Comparison};
use capi::library::Proved;

const USAGE: &str = "usage: differential [--seed S] [--count N] [--only NUMBER]";
const DEFAULT_SEED: u64 = 1;
const DEFAULT_COUNT: u64 = 1_000_000;

fn main() -> ExitCode {
    let words: Vec<String> = std::env::args().skip(1).collect();
    let mut comparison = Comparison {
        library: &Proved,
        seed: DEFAULT_SEED,
        count: DEFAULT_COUNT,
    };
    match options(&words, &mut comparison) {
        None => {
            eprintln!("{USAGE}");
            ExitCode::from(2)
        }
        Some(None) => last_line(&everything(&comparison)),
        Some(Some(number)) => {
            let tally = comparison.only(number);
            tally.print_mismatches();
            last_line(&tally)
        }
    }
}

/// Reads the options; gives the one arena that is wanted, if it is one alone.
fn options(words: &[String], comparison: &mut Comparison) -> Option<Option<u64>> {
    let mut only = None;
    for option in words.chunks(2) {
        let [name, value] = option else {
            return None;
        };
        let value = value.parse().ok()?;
        match name.as_str() {
            "--seed" => comparison.seed = value,
            "--count" => comparison.count = value,
            "--only" => only = Some(value),
            _ => return None,
        }
    }
    if let Some(number) = only {
        comparison.count = comparison.count.max(number.saturating_add(1));
    }
    Some(only)
}

/// First that the comparison can fail, then the comparison itself.
fn everything(comparison: &Comparison) -> Tally {
    let told = wrong::check_all(comparison.seed);
    let mut tally = comparison.run();
    tally.print_mismatches();
    tally.print_and_check();
    for good in told {
        tally.check(good);
    }
    tally
}

fn last_line(tally: &Tally) -> ExitCode {
    println!("{} passed, {} failed", tally.passed, tally.failed);
    if tally.failed == 0 {
        ExitCode::SUCCESS
    } else {
        ExitCode::FAILURE
    }
}
