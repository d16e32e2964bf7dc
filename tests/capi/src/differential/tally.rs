//! Counts of what the comparison has done and found.

use super::arenas::Kind;
use super::coverage::Coverage;
use super::met::Met;
use super::refused_old::RefusedOld;

const MAX_PRINTED: usize = 10;

#[derive(Default)]
pub struct Tally {
    arenas: [u64; Kind::ALL.len()],
    comparisons: [u64; Kind::ALL.len()],
    pub coverage: Coverage,
    pub refused_old: RefusedOld,
    pub met: Met,
    pub passed: u64,
    pub failed: u64,
    /// The first ones: the number of the arena, and what to print.
    mismatches: Vec<(u64, String)>,
}

impl Tally {
    pub fn check(&mut self, good: bool) {
        if good {
            self.passed += 1;
        } else {
            self.failed += 1;
        }
    }

    pub fn arena(&mut self, kind: Kind, words: &[u16]) {
        self.arenas[kind as usize] += 1;
        self.met.note_arena(words);
    }

    pub fn comparison(&mut self, kind: Kind, same: bool) {
        self.comparisons[kind as usize] += 1;
        self.check(same);
    }

    /// Keeps a mismatch if it is among the first, which will be printed.
    pub fn mismatch(&mut self, number: u64, describe: impl Fn() -> String) {
        if self.mismatches.len() < MAX_PRINTED {
            self.mismatches.push((number, describe()));
        }
    }

    pub fn merge(&mut self, other: Tally) {
        for kind in 0..Kind::ALL.len() {
            self.arenas[kind] += other.arenas[kind];
            self.comparisons[kind] += other.comparisons[kind];
        }
        self.coverage.merge(&other.coverage);
        self.refused_old.merge(&other.refused_old);
        self.met.merge(&other.met);
        self.passed += other.passed;
        self.failed += other.failed;
        // Each thread goes upwards, so the first ones of all are among its first ones.
        self.mismatches.extend(other.mismatches);
        self.mismatches.sort_by_key(|&(number, _)| number);
        self.mismatches.truncate(MAX_PRINTED);
    }

    pub fn print_mismatches(&self) {
        for (_, mismatch) in &self.mismatches {
            println!("MISMATCH {mismatch}");
        }
    }

    /// Prints the tables and counts one check for each line that something must be true of.
    pub fn print_and_check(&mut self) {
        println!("{:37} {:>10} {:>11}", "arenas", "arenas", "comparisons");
        let mut good = Vec::new();
        for kind in Kind::ALL {
            let (arenas, comparisons) =
                (self.arenas[kind as usize], self.comparisons[kind as usize]);
            let note = if arenas == 0 { "  NOT MET" } else { "" };
            println!("  {:35} {arenas:10} {comparisons:11}{note}", kind.name());
            good.push(arenas != 0);
        }
        let arenas: u64 = self.arenas.iter().sum();
        let comparisons: u64 = self.comparisons.iter().sum();
        println!("  {:35} {arenas:10} {comparisons:11}", "all");
        good.extend(self.coverage.print_and_check());
        good.extend(self.refused_old.print_and_check());
        good.extend(self.met.print_and_check());
        for line in good {
            self.check(line);
        }
    }
}
