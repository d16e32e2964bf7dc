//! What the tables measure.

use crate::benchmark::inputs::{calls, days, runs, turns};
use crate::benchmark::measure::{best_of, measure, Measured, Workload};

/// Entries of the longest run that there may be.
const LONGEST: usize = 4_000;
const NODE_COUNTS: [u16; 5] = [8, 32, 128, 512, 1_024];
const ENTRY_COUNTS: [usize; 3] = [250, 1_000, LONGEST];

/// What a measured operation is, for the figures below the first table.
pub enum Operation {
    /// A turn, or now and then a start.
    Turn,
    /// A whole run; the row is for an entry of it.
    Run {
        /// How many it has.
        entries: usize,
    },
    /// Anything else.
    Other,
}

/// A row of the first table.
pub struct Row {
    /// Its name.
    pub what: &'static str,
    /// What is measured.
    pub operation: Operation,
    /// The best of all rounds.
    pub measured: Measured,
}

/// So many rounds of a row are made at once. A time of some seconds in which the machine is slow meets
/// a row in one sweep only.
const SWEEP: usize = 20;

/// Measures the rows of the first table, in so many rounds.
pub fn side_by_side(rounds: usize) -> Vec<Row> {
    let sweeps = rounds.div_ceil(SWEEP);
    let mut rows = Vec::new();
    for _ in 0..sweeps {
        let mut sweep = Sweep {
            rounds: rounds / sweeps,
            rows: Vec::new(),
        };
        sweep.all();
        rows = merged(rows, sweep.rows);
    }
    rows
}

/// The rows of a sweep with what was measured before.
fn merged(before: Vec<Row>, mut rows: Vec<Row>) -> Vec<Row> {
    for (row, before) in rows.iter_mut().zip(before) {
        row.measured = best_of(row.measured, before.measured);
    }
    rows
}

/// One time through all rows.
struct Sweep {
    rounds: usize,
    rows: Vec<Row>,
}

impl Sweep {
    fn all(&mut self) {
        self.turns();
        self.days();
        self.acts();
        self.searches();
        self.runs();
        self.calls();
        self.conversions();
    }

    fn turns(&mut self) {
        let mixed = turns::mixed(64, 100);
        self.row("mixed starts and turns, 64 nodes", Operation::Turn, &mixed);
        let mut lookups = |what, walkers| {
            self.row(what, Operation::Turn, &turns::lookups(1_024, walkers));
        };
        lookups("look-up turns, 1 worker", 1);
        lookups("look-up turns, 8 workers", 8);
    }

    fn days(&mut self) {
        let mut day = |what, labels| self.row(what, Operation::Turn, &days::day(labels));
        day("turn of a day, 10 labels", 10);
        day("turn of a day, 100 labels", 100);
        day("turn of a day, 1,000 labels", 1_000);
    }

    fn acts(&mut self) {
        self.other("start", &turns::starts(64));
        self.other("turn, idle", &turns::idle_turns(64));
        self.other("turn that waits", &turns::waiting_turns(64));
        self.other("turn refused 3: worker W", &turns::turns_of_nobody(64));
        self.other("turn refused 6: on no node", &turns::turns_on_no_node(64));
    }

    fn searches(&mut self) {
        let mut full = |what, nodes| self.other(what, &turns::stage_14(nodes, nodes - 2));
        full("stage 14, full, 8 nodes", 8);
        full("stage 14, full, 64 nodes", 64);
        full("stage 14, full, 1,024 nodes", 1_024);
        let half_full = turns::stage_14(1_024, 511);
        self.other("stage 14, 511 keys, 1,024 nodes", &half_full);
        self.other("find_free, full, 1,024 nodes", &calls::searches(1_024));
    }

    fn runs(&mut self) {
        let mut run = |what, nodes| {
            let operation = Operation::Run { entries: LONGEST };
            self.row(what, operation, &runs::runs(nodes, LONGEST, 100));
        };
        run("entry of a run, 1,024 nodes", 1_024);
        run("entry of a run, 64 nodes", 64);
    }

    fn calls(&mut self) {
        self.other("init, 1,024 nodes", &calls::inits(1_024));
        self.other("snapshot, 1,022 keys", &calls::snapshots(1_024));
        self.other("stored, 1,022 keys", &calls::counts(1_024));
        let mut free_run = |what, labels| self.other(what, &calls::free_runs(labels));
        free_run("longest_free_run, 10 labels", 10);
        free_run("longest_free_run, 100 labels", 100);
        free_run("longest_free_run, 1,022 labels", 1_022);
    }

    fn conversions(&mut self) {
        let mut to_2 = |what, labels| self.other(what, &calls::to_layout_2_of(labels));
        to_2("to_layout_2, 10 labels", 10);
        to_2("to_layout_2, 100 labels", 100);
        to_2("to_layout_2, 1,022 labels", 1_022);
        let mut to_1 = |what, labels| self.other(what, &calls::to_layout_1_of(labels));
        to_1("to_layout_1, 10 labels", 10);
        to_1("to_layout_1, 100 labels", 100);
        to_1("to_layout_1, 1,022 labels", 1_022);
    }

    fn other(&mut self, what: &'static str, work: &impl Workload) {
        self.row(what, Operation::Other, work);
    }

    fn row(&mut self, what: &'static str, operation: Operation, work: &impl Workload) {
        self.rows.push(Row {
            what,
            operation,
            measured: measure(work, self.rounds),
        });
    }
}

/// A turn that is not at stage 14, one at stage 14 with a full chain, and one that takes a node
/// where half of them are used, by the number of nodes.
pub fn by_nodes(rounds: usize, show: &mut dyn FnMut(u16, [Measured; 3])) {
    for nodes in NODE_COUNTS {
        let ordinary = measure(&turns::ordinary_turns(nodes), rounds);
        let search = |keys| measure(&turns::stage_14(nodes, keys), rounds);
        show(nodes, [ordinary, search(nodes - 2), search(nodes / 2 - 1)]);
    }
}

/// A run on 64 nodes by its length. Few keys, so that the mix is steady soon.
pub fn by_entries(rounds: usize, show: &mut dyn FnMut(usize, Measured)) {
    for entries in ENTRY_COUNTS {
        show(entries, measure(&runs::runs(64, entries, 20), rounds));
    }
}

/// Filling a fresh arena, by the number of nodes; with the number of adds.
pub fn by_filling(rounds: usize, show: &mut dyn FnMut(u16, usize, Measured)) {
    for nodes in NODE_COUNTS {
        let fill = turns::filling(nodes);
        show(nodes, fill.adds.calls.len(), measure(&fill, rounds));
    }
}
