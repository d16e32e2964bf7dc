//! What the comparison must have met: every reply and every move that the documents know, on arenas of
//! the layout in use, of the old one, and of neither.

use model::arena::{OldShape, BROKEN_COUNT, LAYOUT_1, LAYOUT_2, OLD_LAYOUT};

use super::requests::EntryPoint;
use crate::library::{self, Values};

/// Of layout 2, on arenas reached from a fresh one and on all others; with a good header of layout 1, the
/// same; with an odd one of layout 1; and of neither layout.
const COLUMNS: [&str; 6] = [
    "2, fresh",
    "2, others",
    "1, fresh",
    "1, others",
    "1, odd",
    "neither",
];
type Counts = [u64; COLUMNS.len()];
/// What must be met must be met in one of these.
const GROUPS: [&[usize]; 4] = [&[0, 1], &[2, 3], &[4], &[5]];

/// Where a reply is counted.
#[derive(Clone, Copy)]
pub struct Column(usize);

impl Column {
    /// By the arena's header, which may tell of more words than there are.
    pub fn of(words: &[u16], reached: bool) -> Column {
        let others = usize::from(!reached);
        Column(match words.first() {
            Some(&LAYOUT_2) => others,
            Some(&LAYOUT_1) if OldShape::read(words).is_some() => 2 + others,
            Some(&LAYOUT_1) => 4,
            _ => 5,
        })
    }

    /// Of what lays layout 2, whatever the words are.
    pub const LAID: Column = Column(1);
}

/// The refusals of each entry point, in the documents' order.
const REFUSALS: [(EntryPoint, &str, &[u64]); 10] = [
    (EntryPoint::Init, "init", &[10, 1]),
    (EntryPoint::Start, "start", &[1, 2, 12, 3, 6, 4, 5]),
    (EntryPoint::Turn, "turn", &[1, 2, 12, 3, 6, 7, 14]),
    (EntryPoint::Snapshot, "snapshot", &[1, 2, 12, 7, 8]),
    (EntryPoint::FindFree, "find_free", &[1, 2, 12]),
    (
        EntryPoint::LongestFreeRun,
        "longest_free_run",
        &[1, 2, 12, 5, 7],
    ),
    (EntryPoint::Stored, "stored", &[1, 2, 12]),
    (EntryPoint::ToLayout2, "to_layout_2", &[1, 2, 6, 4, 7, 8, 5]),
    (EntryPoint::ToLayout1, "to_layout_1", &[1, 2, 6, 4, 7, 8, 5]),
    (EntryPoint::Run, "run", &[10, 9, 1, 8]),
];
const ACCEPTED: u64 = 0;
const OLD: u64 = OLD_LAYOUT as u64;
/// Of all refusals, and 0.
const REPLIES: usize = BROKEN_COUNT as usize + 1;

/// What no arena reached from a fresh one may meet. The documents say it of turns; for the others it
/// follows, since stages stay in their range and keys rise along every chain.
const NEVER_FROM_FRESH: [(EntryPoint, u64); 10] = [
    (EntryPoint::Turn, 6),
    (EntryPoint::Turn, 7),
    (EntryPoint::Turn, 14),
    (EntryPoint::Start, 6),
    (EntryPoint::Snapshot, 7),
    (EntryPoint::LongestFreeRun, 7),
    (EntryPoint::ToLayout2, 6),
    (EntryPoint::ToLayout2, 7),
    (EntryPoint::ToLayout1, 6),
    (EntryPoint::ToLayout1, 7),
];

/// In which columns a reply may be met.
fn allowed_in(entry_point: EntryPoint, refusal: u64, is_known: bool) -> [bool; COLUMNS.len()] {
    let fresh = is_known && !NEVER_FROM_FRESH.contains(&(entry_point, refusal));
    let by_header = matches!(refusal, 1 | 2);
    match entry_point {
        EntryPoint::Init | EntryPoint::Run => [false, is_known, false, false, false, false],
        // Each takes one layout, and refuses the other with 2.
        EntryPoint::ToLayout2 => {
            let in_1 = is_known && refusal != 2;
            let fresh = fresh && in_1;
            [by_header, by_header, fresh, in_1, by_header, by_header]
        }
        EntryPoint::ToLayout1 => [fresh, is_known, by_header, by_header, by_header, by_header],
        // The others are told 12 on a good header of layout 1, unless it is cut off, and nowhere else.
        _ => {
            let old = matches!(refusal, 1 | OLD);
            let (fresh, is_known) = (fresh && refusal != OLD, is_known && refusal != OLD);
            [fresh, is_known, old, old, by_header, by_header]
        }
    }
}

/// The stage table: from each stage the stages that a turn may lead to.
const MOVES: [(usize, &[usize]); 24] = [
    (1, &[2]),
    (2, &[3]),
    (3, &[4, 6]),
    (4, &[5]),
    (5, &[3]),
    (6, &[7]),
    (7, &[8]),
    (8, &[9, 11]),
    (9, &[10, 11]),
    (10, &[13, 11]),
    (11, &[12]),
    (12, &[1]),
    (13, &[14, 16, 19]),
    (14, &[15, 19]),
    (15, &[19]),
    (16, &[17]),
    (17, &[18]),
    (18, &[19]),
    (19, &[20]),
    (20, &[21]),
    (22, &[23]),
    (23, &[24, 25, 21]),
    (24, &[23]),
    (25, &[21]),
];

// Places of the reports of a turn; 1 to 25 are moves to that stage.
const IDLE: usize = 0;
const WAITS: usize = 26;
const FINISHED_YES: usize = 27;
const FINISHED_NO: usize = 28;
const FINISHED_FULL: usize = 29;
/// The turns that do not move.
const NO_MOVES: [(usize, usize); 6] = [
    (0, IDLE),
    (6, WAITS),
    (7, WAITS),
    (21, FINISHED_YES),
    (21, FINISHED_NO),
    (21, FINISHED_FULL),
];

#[derive(Default)]
pub struct Coverage {
    /// By entry point and refusal, 0 for accepted.
    replies: [[Counts; REPLIES]; REFUSALS.len()],
    /// By stage before the turn and report.
    turns: [[Counts; 30]; 26],
    /// Replies that cannot even be counted above.
    unknown: u64,
    /// Waits on arenas reached from a fresh one that name no other busy worker.
    stray: u64,
    /// Accepted snapshots, on any arena, that list other keys than the set's.
    not_the_set: u64,
    /// Searches that answer otherwise than what the roots lead to.
    not_by_roots: u64,
    /// Free runs that are not the first one of the longest that the labels leave.
    not_the_longest: u64,
    /// Counts, on arenas reached from a fresh one, that are not the size of the set.
    not_the_size: u64,
    /// Converted arenas whose set, with the lengths lent, is not the source's.
    other_set: u64,
    /// Ways back that do not lead to the source.
    astray: u64,
}

impl Coverage {
    /// Notes the model's reply; `stage` is where the worker of a turn stood.
    pub fn note(&mut self, entry_point: EntryPoint, reply: u64, stage: u16, column: Column) {
        let Column(column) = column;
        // A refusal carries no values, so it is the whole reply.
        let values = Values::read(reply);
        let refusal = if values.is_some() { ACCEPTED } else { reply };
        match self.replies[entry_point as usize].get_mut(refusal as usize) {
            Some(counts) => counts[column] += 1,
            None => self.unknown += 1,
        }
        if let (EntryPoint::Turn, Some(values)) = (entry_point, values) {
            let counts = self.turns.get_mut(stage as usize);
            match counts.and_then(|reports| reports.get_mut(report_place(values))) {
                Some(counts) => counts[column] += 1,
                None => self.unknown += 1,
            }
        }
    }

    /// Notes a wait on an arena reached from a fresh one.
    pub fn note_wait(&mut self, for_other_busy: bool) {
        self.stray += u64::from(!for_other_busy);
    }

    /// Notes an accepted snapshot.
    pub fn note_roll(&mut self, is_the_set: bool) {
        self.not_the_set += u64::from(!is_the_set);
    }

    /// Notes an accepted search.
    pub fn note_search(&mut self, is_by_roots: bool) {
        self.not_by_roots += u64::from(!is_by_roots);
    }

    /// Notes a free run.
    pub fn note_free_run(&mut self, is_the_longest: bool) {
        self.not_the_longest += u64::from(!is_the_longest);
    }

    /// Notes the count of an arena reached from a fresh one.
    pub fn note_count(&mut self, is_the_size: bool) {
        self.not_the_size += u64::from(!is_the_size);
    }

    /// Notes an accepted conversion.
    pub fn note_conversion(&mut self, is_same_set: bool) {
        self.other_set += u64::from(!is_same_set);
    }

    /// Notes a conversion of what was converted.
    pub fn note_way_back(&mut self, is_right: bool) {
        self.astray += u64::from(!is_right);
    }

    pub fn merge(&mut self, other: &Coverage) {
        let mine = self.replies.iter_mut().flatten().flatten();
        let mine = mine.chain(self.turns.iter_mut().flatten().flatten());
        let theirs = other.replies.iter().flatten().flatten();
        let theirs = theirs.chain(other.turns.iter().flatten().flatten());
        for (sum, more) in mine.zip(theirs) {
            *sum += more;
        }
        self.unknown += other.unknown;
        self.stray += other.stray;
        self.not_the_set += other.not_the_set;
        self.not_by_roots += other.not_by_roots;
        self.not_the_longest += other.not_the_longest;
        self.not_the_size += other.not_the_size;
        self.other_set += other.other_set;
        self.astray += other.astray;
    }

    /// Prints the tables and gives for each line whether it is as it must be.
    pub fn print_and_check(&self) -> Vec<bool> {
        let mut good = Vec::new();
        heading("replies");
        self.print_replies(&mut good);
        heading("turns, by stage and report");
        self.print_turns(&mut good);
        for (count, what) in [
            (self.unknown, "replies of no known form"),
            (self.stray, "waits from fresh for no other busy worker"),
            (self.not_the_set, "snapshots that do not list the set"),
            (self.not_by_roots, "searches that do not go by the roots"),
            (self.not_the_longest, "free runs that are not the longest"),
            (
                self.not_the_size,
                "counts from fresh that are not the set's size",
            ),
            (self.other_set, "converted arenas with another set"),
            (self.astray, "ways back that do not lead to the source"),
        ] {
            good.push(count == 0);
            if count != 0 {
                println!("  {count} {what}  NOT ALLOWED");
            }
        }
        good
    }

    fn print_replies(&self, good: &mut Vec<bool>) {
        for (entry_point, name, known) in REFUSALS {
            for refusal in 0..REPLIES as u64 {
                let counts = self.replies[entry_point as usize][refusal as usize];
                let is_known = refusal == ACCEPTED || known.contains(&refusal);
                let row = match refusal {
                    ACCEPTED => format!("{name} accepted"),
                    _ => format!("{name} refused {refusal}"),
                };
                let rule = Rule::of_reply(allowed_in(entry_point, refusal, is_known), counts);
                print_row(&row, counts, rule, good);
            }
        }
    }

    fn print_turns(&self, good: &mut Vec<bool>) {
        for (stage, reports) in self.turns.iter().enumerate() {
            for (report, &counts) in reports.iter().enumerate() {
                let moves = |&(from, to): &(usize, &[usize])| from == stage && to.contains(&report);
                let is_move = (1..=25).contains(&report) && MOVES.iter().any(moves);
                let allowed = is_move || NO_MOVES.contains(&(stage, report));
                let row = format!("{stage} {}", report_name(report));
                let rule = Rule {
                    allowed: [allowed, allowed, false, false, false, false],
                    missing: allowed && counts[..2].contains(&0),
                };
                print_row(&row, counts, rule, good);
            }
        }
    }
}

/// What a row of counts must be.
struct Rule {
    /// Per column whether it may be met at all.
    allowed: [bool; COLUMNS.len()],
    /// Whether something that must be met was not.
    missing: bool,
}

impl Rule {
    fn of_reply(allowed: [bool; COLUMNS.len()], counts: Counts) -> Rule {
        // Arenas in use have nothing broken in them, so they need not meet all.
        let is_missing = |group: &&[usize]| {
            let is_wanted = allowed[group[group.len() - 1]];
            is_wanted && group.iter().all(|&column| counts[column] == 0)
        };
        let missing = GROUPS.iter().any(is_missing);
        Rule { allowed, missing }
    }
}

/// Prints a row and pushes its check; a row that may not be met and was not is left out.
fn print_row(row: &str, counts: Counts, rule: Rule, good: &mut Vec<bool>) {
    let met_wrongly = (0..COLUMNS.len()).any(|column| counts[column] != 0 && !rule.allowed[column]);
    if rule.allowed == [false; COLUMNS.len()] && !met_wrongly {
        return;
    }
    let note = match (met_wrongly, rule.missing) {
        (true, _) => "  NOT ALLOWED",
        (false, true) => "  NOT MET",
        _ => "",
    };
    let counts = counts.map(|count| format!("{count:>10}")).concat();
    println!("  {row:26}{counts}{note}");
    good.push(note.is_empty());
}

fn heading(title: &str) {
    let columns = COLUMNS.map(|name| format!("{name:>10}")).concat();
    println!("{title:28}{columns}");
}

/// Where a report is counted: past the end for none of the documents'.
fn report_place(values: Values) -> usize {
    let first = values.first as usize;
    match (values.report, first, values.second) {
        (library::IDLE, 0, 0) => IDLE,
        (library::MOVED, 1..=25, 0) => first,
        (library::WAITS, _, _) => WAITS,
        (library::FINISHED, 1..=3, 0) => WAITS + first,
        _ => usize::MAX,
    }
}

fn report_name(report: usize) -> String {
    match report {
        IDLE => "idle".to_string(),
        WAITS => "waits".to_string(),
        FINISHED_YES => "finished yes".to_string(),
        FINISHED_NO => "finished no".to_string(),
        FINISHED_FULL => "finished full".to_string(),
        stage => format!("to {stage}"),
    }
}
