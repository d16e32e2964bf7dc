//! Whole runs.

use std::ops::Range;

use model::plain;
use model::rng::Rng;

use super::arenas::fresh;
use super::{any_call, deal, MANY_ENTRIES, SEED, WORKERS};
use crate::benchmark::measure::Words;
use crate::benchmark::workloads::{Entry, Runs};
use crate::library::{CALL_WORDS, WAIT_WORDS};

/// Runs of so many entries each; as many runs as make a pass of the same length.
pub fn runs(nodes: u16, entries: usize, greatest_key: u16) -> Runs {
    let fresh = fresh(nodes);
    let schedule = |number: usize| {
        let mut rng = Rng::new(SEED, 100 + number as u64);
        deal(
            &mut fresh.clone(),
            &mut rng,
            entries,
            any_call(greatest_key),
        )
    };
    let schedules: Vec<_> = (0..MANY_ENTRIES / entries).map(schedule).collect();
    let starts_in = |entries: &Vec<Entry>| entries.iter().filter(|entry| entry[1] != 0).count();
    let most_starts = schedules.iter().map(starts_in).max().unwrap_or(0);
    let history_words = CALL_WORDS * most_starts;
    let waits_rows = waits_rows(&schedules, nodes);
    let waits_words = waits_rows.iter().map(|row| row.end).max().unwrap_or(0);
    Runs {
        words: Words {
            waits: vec![0; waits_words],
            ..Words::new(vec![0; fresh.len()], history_words * schedules.len())
        },
        workers: WORKERS,
        nodes,
        schedules: schedules.iter().map(|entries| entries.concat()).collect(),
        history_words,
        waits_rows,
    }
}

/// Where the waits of each run are lent: with room for as many as it has entries, and from where
/// those of the run before end, so that all are kept for comparing and little memory is touched.
fn waits_rows(schedules: &[Vec<Entry>], nodes: u16) -> Vec<Range<usize>> {
    let mut from = 0;
    let mut row = |entries: &Vec<Entry>| {
        let room = WAIT_WORDS * entries.len();
        let here = from..from + room;
        from += WAIT_WORDS * waits_in(entries, nodes);
        here
    };
    schedules.iter().map(&mut row).collect()
}

/// How many turns of a run wait.
fn waits_in(entries: &[Entry], nodes: u16) -> usize {
    let mut arena = fresh(nodes);
    let mut history = vec![0; CALL_WORDS * entries.len()];
    let mut waits = vec![0; WAIT_WORDS * entries.len()];
    let schedule = entries.concat();
    let run = plain::run(
        &mut arena,
        WORKERS,
        nodes,
        &schedule,
        &mut history,
        &mut waits,
    );
    run.map_or(0, |totals| totals.waits as usize)
}
