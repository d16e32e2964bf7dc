//! Times the proved library beside plain Rust and plain C. No limit is set: it fails only if they differ.

use std::process::ExitCode;

use capi::benchmark::measure::{Measured, Times};
use capi::benchmark::tables::{self, Operation};

const USAGE: &str = "usage: benchmark [--quick | --ratios]";
const ROUNDS: usize = 100;

fn main() -> ExitCode {
    let words: Vec<String> = std::env::args().skip(1).collect();
    let words: Vec<&str> = words.iter().map(String::as_str).collect();
    let mut differences = Vec::new();
    match words[..] {
        [] => print_tables(ROUNDS, &mut differences),
        ["--quick"] => print_tables(ROUNDS / 10, &mut differences),
        ["--ratios"] => print_ratios(&mut differences),
        _ => {
            eprintln!("{USAGE}");
            return ExitCode::from(2);
        }
    }
    for difference in &differences {
        println!("DIFFERENT: {difference}");
    }
    if differences.is_empty() {
        ExitCode::SUCCESS
    } else {
        ExitCode::FAILURE
    }
}

/// The times, or nothing and a line for the end.
fn times(what: &str, measured: Measured, differences: &mut Vec<String>) -> Option<Times> {
    measured
        .map_err(|difference| differences.push(format!("{what}: {difference}")))
        .ok()
}

fn print_tables(rounds: usize, differences: &mut Vec<String>) {
    print_side_by_side(rounds, differences);
    print_by_nodes(rounds, differences);
    print_by_entries(rounds, differences);
    print_by_filling(rounds, differences);
}

/// The ratios of the first table alone, with tabs between them, for who compares several programs.
fn print_ratios(differences: &mut Vec<String>) {
    for row in tables::side_by_side(ROUNDS) {
        if let Some(times) = times(row.what, row.measured, differences) {
            let (of_rust, of_c) = (times.of_rust(), or_dash(times.of_c(), 3));
            println!("{}\t{of_rust:.3}\t{of_c}", row.what);
        }
    }
}

fn print_side_by_side(rounds: usize, differences: &mut Vec<String>) {
    let title = format!("best of {rounds} rounds");
    let ratios = ["proved / Rust", "proved / C"].map(|name| format!("{name:>15}"));
    println!("{title:<33}{}{}", headings(), ratios.concat());
    let mut figures = Vec::new();
    for row in tables::side_by_side(rounds) {
        if let Some(whole) = times(row.what, row.measured, differences) {
            let shown = match row.operation {
                Operation::Run { entries } => whole.shared_by(entries),
                Operation::Turn | Operation::Other => whole,
            };
            let (of_rust, of_c) = (shown.of_rust(), or_dash(shown.of_c(), 2));
            println!("{:<33}{}{of_rust:>15.2}{of_c:>15}", row.what, cells(shown));
            figures.extend(figure(row.what, &row.operation, whole));
        }
    }
    println!("\n{}\n", figures.join("\n"));
}

/// The same times in another unit, where one is usual.
fn figure(what: &str, operation: &Operation, whole: Times) -> Option<String> {
    let (unit, in_unit): (_, fn(f64) -> f64) = match operation {
        Operation::Turn => ("million a second".into(), |time| 1e3 / time),
        Operation::Run { entries } => (format!("microseconds for a run of {entries}"), |time| {
            time / 1e3
        }),
        Operation::Other => return None,
    };
    let (proved, rust) = (in_unit(whole.proved), in_unit(whole.rust));
    let c = or_dash(whole.c.map(in_unit), 1);
    Some(format!(
        "{what}: proved {proved:.1}, Rust {rust:.1}, C {c} {unit}"
    ))
}

fn print_by_nodes(rounds: usize, differences: &mut Vec<String>) {
    let kinds = ["ordinary turn", "stage 14, full", "stage 14, half full"];
    growth_headings("nodes", &kinds);
    tables::by_nodes(rounds, &mut |nodes, measured| {
        print!("{nodes:<9}");
        for (kind, measured) in kinds.iter().zip(measured) {
            if let Some(times) = times(&format!("{kind}, {nodes} nodes"), measured, differences) {
                print!("{}", cells(times));
            }
        }
        println!();
    });
    println!();
}

fn print_by_entries(rounds: usize, differences: &mut Vec<String>) {
    growth_headings("entries", &["a whole run", "an entry of it"]);
    tables::by_entries(rounds, &mut |entries, measured| {
        let what = format!("run of {entries} entries");
        if let Some(whole) = times(&what, measured, differences) {
            let part = whole.shared_by(entries);
            println!("{entries:<9}{}{}", cells(whole), cells(part));
        }
    });
    println!();
}

fn print_by_filling(rounds: usize, differences: &mut Vec<String>) {
    growth_headings("nodes", &["filling a fresh arena", "an add of it"]);
    tables::by_filling(rounds, &mut |nodes, adds, measured| {
        let what = format!("filling {nodes} nodes");
        if let Some(whole) = times(&what, measured, differences) {
            println!("{nodes:<9}{}{}", cells(whole), cells(whole.shared_by(adds)));
        }
    });
}

/// The two lines above a table with the times of each kind.
fn growth_headings(by: &str, kinds: &[&str]) {
    let above: String = kinds.iter().map(|kind| format!("{kind:>36}")).collect();
    println!("{:<9}{above}", "");
    println!("{by:<9}{}", headings().repeat(kinds.len()));
}

fn headings() -> String {
    ["proved (ns)", "Rust (ns)", "C (ns)"]
        .map(|name| format!("{name:>12}"))
        .concat()
}

fn cells(times: Times) -> String {
    let c = or_dash(times.c, 2);
    format!("{:>12.2}{:>12.2}{c:>12}", times.proved, times.rust)
}

/// With so many digits behind the point; a dash where there is no C.
fn or_dash(number: Option<f64>, digits: usize) -> String {
    number.map_or("-".into(), |number| format!("{number:.digits$}"))
}
