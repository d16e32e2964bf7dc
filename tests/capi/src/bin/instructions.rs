//! One pass of a workload on the proved library, for tests/instructions, which counts the
//! library's instructions meanwhile. Prints how many operations the pass made.

use std::hint::black_box;
use std::process::ExitCode;

use capi::benchmark::inputs::{runs, turns};
use capi::benchmark::measure::Workload;
use capi::library::Proved;

const USAGE: &str = "usage: instructions turn-of-a-mix|look-up-turn|entry-of-a-run";
/// Entries of the longest run there is.
const LONGEST: usize = 4_000;

fn main() -> ExitCode {
    let words: Vec<String> = std::env::args().skip(1).collect();
    let words: Vec<&str> = words.iter().map(String::as_str).collect();
    let operations = match words[..] {
        ["turn-of-a-mix"] => pass(&turns::mixed(64, 100)),
        ["look-up-turn"] => pass(&turns::lookups(1_024, 1)),
        ["entry-of-a-run"] => LONGEST * pass(&runs::runs(64, LONGEST, 100)),
        _ => {
            eprintln!("{USAGE}");
            return ExitCode::from(2);
        }
    };
    println!("{operations}");
    ExitCode::SUCCESS
}

/// Makes the pass; gives the number of its operations.
fn pass(work: &impl Workload) -> usize {
    let mut words = work.words().clone();
    work.pass(&Proved, &mut words, |reply| {
        black_box(reply);
    });
    work.operations()
}
