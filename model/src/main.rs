//! The command line: compare a program with the model, be the reference program, test the model.

use std::io::{Read, Write};
use std::process::ExitCode;

use model::bench::bench;
use model::compare::Comparison;
use model::selftest::selftest;

const USAGE: &str = "usage: model compare PROGRAM [--seed S] [--count N] | bench | selftest";
const DEFAULT_SEED: u64 = 1;
const DEFAULT_COUNT: u64 = 8_000;

fn main() -> ExitCode {
    let words: Vec<String> = std::env::args().skip(1).collect();
    let words: Vec<&str> = words.iter().map(String::as_str).collect();
    match words[..] {
        ["bench"] => reference_program(),
        ["selftest"] => {
            let checks = selftest();
            last_line(checks.passed, checks.failed)
        }
        ["compare", program, ref options @ ..] => match comparison(program, options) {
            Some(comparison) => compare(&comparison),
            None => usage(),
        },
        _ => usage(),
    }
}

fn usage() -> ExitCode {
    eprintln!("{USAGE}");
    ExitCode::from(2)
}

fn comparison(program: &str, options: &[&str]) -> Option<Comparison> {
    let mut comparison = Comparison {
        program: program.to_string(),
        seed: DEFAULT_SEED,
        count: DEFAULT_COUNT,
    };
    for option in options.chunks(2) {
        match option {
            ["--seed", value] => comparison.seed = value.parse().ok()?,
            ["--count", value] => comparison.count = value.parse().ok()?,
            _ => return None,
        }
    }
    Some(comparison)
}

fn compare(comparison: &Comparison) -> ExitCode {
    let checks = selftest();
    let mut tally = comparison.run();
    tally.print_and_check();
    last_line(tally.passed + checks.passed, tally.failed + checks.failed)
}

fn last_line(passed: u64, failed: u64) -> ExitCode {
    println!("{passed} passed, {failed} failed");
    if failed == 0 {
        ExitCode::SUCCESS
    } else {
        ExitCode::FAILURE
    }
}

fn reference_program() -> ExitCode {
    let mut input = Vec::new();
    let done = std::io::stdin()
        .read_to_end(&mut input)
        .and_then(|_| std::io::stdout().write_all(&bench(&input)));
    match done {
        Ok(()) => ExitCode::SUCCESS,
        Err(error) => {
            eprintln!("{error}");
            ExitCode::FAILURE
        }
    }
}
