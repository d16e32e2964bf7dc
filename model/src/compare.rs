//! Runs a program on generated inputs and compares its output with the model's.

use std::fs;
use std::io::{Read, Write};
use std::path::PathBuf;
use std::process::{Command, Stdio};
use std::sync::atomic::{AtomicU64, Ordering};
use std::sync::mpsc;
use std::thread;
use std::time::Duration;

use crate::bench::{evaluate, render, Outcome};
use crate::count::check_counts;
use crate::generate::{generate, Generated};
use crate::linearizable::{check_times, check_told, explained};
use crate::run::Trace;
use crate::sequential;
use crate::tally::{Tally, SEARCHED, SEQUENTIAL};
use crate::waits::check_waits;

const THREADS: usize = 2;
const MAX_PRINTED: u64 = 10;
const TIME_LIMIT: Duration = Duration::from_secs(20);
/// More output than any good one; a program that never stops printing must not fill the memory.
const MAX_OUTPUT: u64 = 1 << 20;

pub struct Comparison {
    pub program: String,
    pub seed: u64,
    pub count: u64,
}

impl Comparison {
    /// Goes through all inputs, two at a time.
    pub fn run(&self) -> Tally {
        let next_number = AtomicU64::new(0);
        let printed = AtomicU64::new(0);
        let go_through = || {
            let mut tally = Tally::new();
            loop {
                let number = next_number.fetch_add(1, Ordering::Relaxed);
                if number >= self.count {
                    return tally;
                }
                self.one_input(number, &mut tally, &printed);
            }
        };
        let mut all = Tally::new();
        thread::scope(|scope| {
            let threads: Vec<_> = (0..THREADS).map(|_| scope.spawn(go_through)).collect();
            for thread in threads {
                all.merge(&thread.join().expect("a comparing thread ends well"));
            }
        });
        all
    }

    fn one_input(&self, number: u64, tally: &mut Tally, printed: &AtomicU64) {
        let generated = generate(self.seed, number);
        let outcome = evaluate(&generated.input);
        let expected = render(&outcome);
        tally.note(&generated, &outcome);
        let actual = run_program(&self.program, &generated.input);
        let same = actual.as_ref() == Ok(&expected);
        tally.check(same);
        let mut complaint = None;
        if !same {
            complaint = Some(match &actual {
                Ok(_) => "the outputs differ".to_string(),
                Err(reason) => reason.clone(),
            });
        }
        if let Outcome::Ran(trace, roll) = &outcome {
            let checked = check_history(trace, roll, tally);
            tally.check(checked.is_ok());
            complaint = complaint.or(checked.err());
        }
        if let Some(reason) = complaint {
            if printed.fetch_add(1, Ordering::Relaxed) < MAX_PRINTED {
                self.complain(number, &generated, &reason, &expected, actual);
            }
        }
    }

    fn complain(
        &self,
        number: u64,
        generated: &Generated,
        reason: &str,
        expected: &[u8],
        actual: Result<Vec<u8>, String>,
    ) {
        let (kind, detail) = (generated.kind.name(), generated.detail);
        let place = format!("seed {} number {number}, {kind} {detail}", self.seed);
        let place = place.trim_end();
        let path = |ending: &str| -> PathBuf {
            std::env::temp_dir().join(format!("model_{}_{number}.{ending}", self.seed))
        };
        let files = [
            ("input", generated.input.clone()),
            ("expected", expected.to_vec()),
            ("actual", actual.unwrap_or_default()),
        ];
        for (ending, content) in files {
            if let Err(error) = fs::write(path(ending), content) {
                println!("{}: {error}", path(ending).display());
            }
        }
        let file = path("input");
        println!(
            "MISMATCH {place}: {reason}; see {} and beside it",
            file.display()
        );
    }
}

/// Checks a history of the model by its points, its waits, its counts, its roll and, if it is small, by
/// search.
fn check_history(trace: &Trace, roll: &[u16], tally: &mut Tally) -> Result<(), String> {
    // The documents: no turn from a fresh arena meets 6, 7 or 14; a run has its own, so 1, 2 and 12 are out.
    let only_known = [1, 2, 6, 7, 8, 9, 10, 12, 14]
        .iter()
        .all(|&number| trace.refusals[number] == 0);
    if !only_known {
        return Err(format!("refusals {:?}", trace.refusals));
    }
    let empty = Vec::new();
    let last_set = trace.sets.last().unwrap_or(&empty);
    check_times(&trace.calls)?;
    check_told(&trace.calls, &trace.told)?;
    check_waits(trace)?;
    check_counts(&trace.sets, &trace.counts)?;
    sequential::check(&trace.calls, last_set)?;
    sequential::check_roll(&trace.calls, roll)?;
    tally.met(SEQUENTIAL, 1);
    match explained(&trace.calls, last_set) {
        Some(false) => Err("no order explains the history".to_string()),
        Some(true) => {
            tally.met(SEARCHED, 1);
            Ok(())
        }
        None => Ok(()),
    }
}

/// The program's standard output. Input and output have a thread each, so that neither side waits
/// for a full pipe, and a program that hangs is ended.
fn run_program(program: &str, input: &[u8]) -> Result<Vec<u8>, String> {
    let mut child = Command::new(program)
        .stdin(Stdio::piped())
        .stdout(Stdio::piped())
        .stderr(Stdio::null())
        .spawn()
        .map_err(|error| format!("{program}: {error}"))?;
    let (Some(mut stdin), Some(stdout)) = (child.stdin.take(), child.stdout.take()) else {
        return Err("no pipes".to_string());
    };
    let input = input.to_vec();
    thread::spawn(move || {
        // A program may stop reading early: that alone is no fault.
        let _ = stdin.write_all(&input);
    });
    let (sender, receiver) = mpsc::channel();
    thread::spawn(move || {
        let mut output = Vec::new();
        let read = stdout.take(MAX_OUTPUT).read_to_end(&mut output);
        let _ = sender.send(read.map(|_| output));
    });
    let read = receiver.recv_timeout(TIME_LIMIT);
    if read.is_err() {
        let _ = child.kill();
    }
    let status = child.wait().map_err(|error| error.to_string())?;
    let output = read
        .map_err(|_| format!("no end after {TIME_LIMIT:?}"))?
        .map_err(|error| error.to_string())?;
    // Document 01 says nothing of an exit status, but a good program is not ended by a signal.
    match status.code() {
        Some(_) => Ok(output),
        None => Err(format!("{status}")),
    }
}
