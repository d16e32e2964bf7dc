//! What good old arenas must have been refused 12 for: where a later refusal would apply too, and where
//! none would.

use std::collections::BTreeMap;

use super::requests::EntryPoint;
use crate::library::Values;

const ACCEPTED: u64 = 0;
/// By what each function would reply if the layout were in use.
const ROWS: [(EntryPoint, &str, &[u64]); 6] = [
    (EntryPoint::Start, "start", &[ACCEPTED, 3, 6, 4, 5]),
    (EntryPoint::Turn, "turn", &[ACCEPTED, 3, 6, 7]),
    (EntryPoint::Snapshot, "snapshot", &[ACCEPTED, 7, 8]),
    (EntryPoint::FindFree, "find_free", &[ACCEPTED]),
    (
        EntryPoint::LongestFreeRun,
        "longest_free_run",
        &[ACCEPTED, 5, 7],
    ),
    (EntryPoint::Stored, "stored", &[ACCEPTED]),
];

#[derive(Default)]
pub struct RefusedOld(BTreeMap<(usize, u64), u64>);

impl RefusedOld {
    /// Notes an old arena that was refused, by the reply of the same one in layout 2.
    pub fn note(&mut self, entry_point: EntryPoint, in_use: u64) {
        let refusal = Values::read(in_use).map_or(in_use, |_| ACCEPTED);
        *self.0.entry((entry_point as usize, refusal)).or_insert(0) += 1;
    }

    pub fn merge(&mut self, other: &RefusedOld) {
        for (&row, more) in &other.0 {
            *self.0.entry(row).or_insert(0) += more;
        }
    }

    /// Prints the table and gives for each line whether it is not 0.
    pub fn print_and_check(&self) -> Vec<bool> {
        println!("refused 12, by the reply in layout 2");
        let mut good = Vec::new();
        for (entry_point, name, refusals) in ROWS {
            for &refusal in refusals {
                let count = self.0.get(&(entry_point as usize, refusal));
                let count = count.copied().unwrap_or(0);
                let note = if count == 0 { "  NOT MET" } else { "" };
                let row = match refusal {
                    ACCEPTED => format!("{name} accepted"),
                    _ => format!("{name} refused {refusal}"),
                };
                println!("  {row:26}{count:>10}{note}");
                good.push(count != 0);
            }
        }
        good
    }
}
