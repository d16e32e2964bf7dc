//! Libraries with one fault each. The comparison must tell every one of them from the model, or
//! it would say nothing about the proved library either.

use super::wrong_conversion_lengths;
use super::wrong_conversion_orders;
use super::wrong_conversion_refusals;
use super::wrong_conversion_words;
use super::wrong_conversions::{RIGHT_TO_1, RIGHT_TO_2};
use super::wrong_counts::*;
use super::wrong_free_replies::*;
use super::wrong_free_runs::*;
use super::wrong_lengths::*;
use super::wrong_library::*;
use super::wrong_old;
use super::wrong_old_orders;
use super::wrong_others::*;
use super::wrong_runs::*;
use super::wrong_searches::*;
use super::wrong_stored::*;
use super::wrong_turns::*;
use super::Comparison;

/// Arenas that a wrong library gets at most.
const COUNT: u64 = 50_000;

static WRONG: [Wrong; 210] = [
    wrong_init("init writes a word past the total", init_past_total),
    wrong_init("init writes layout 1's total", init_old_total),
    wrong_init("init leaves the lengths", init_keeps_lengths),
    wrong_init("init leaves the old count", init_keeps_count),
    wrong_init("init counts Head and Tail", init_counts_ends),
    wrong_start("start writes a word too many", start_too_long),
    wrong_start("start: bad call before busy", start_bad_call_first),
    wrong_start("start: bad length before busy", start_bad_length_first),
    wrong_start("start: a remove takes a length", start_remove_length),
    wrong_start("start: a contains takes a length", start_contains_length),
    wrong_start("start: an add takes length 0", start_no_length),
    wrong_start("start: key and length up to 65,536", start_end_65536),
    wrong_start("start: key and length up to 65,534", start_end_65534),
    wrong_start("start: the sum in 16 bits", start_short_sum),
    wrong_start("start forgets the length", start_forgets_length),
    wrong_start("start takes any count", start_any_count),
    wrong_start("start wants the set's count", start_count_of_set),
    wrong_turn("turn: four words to a node", turn_narrow),
    wrong_turn("turn at 14 searches by four words", turn_narrow_search),
    wrong_turn("turn: layout 1's total is good too", turn_old_total),
    wrong_turn("turn: layout 3 is layout 2", turn_layout_3),
    wrong_turn("turn at 14 leaves the length out", turn_no_length),
    wrong_turn("turn at 14 writes the key as length", turn_key_for_length),
    wrong_turn("turn at 14 writes worker 0's length", turn_first_length),
    wrong_turn("turn at 14 refuses a bad length", turn_refuses_length),
    wrong_turn("turn at 16 clears the length", turn_clears_length),
    wrong_turn("turn at 21 leaves the eighth word", turn_leaves_length),
    wrong_turn("turn: odd header before short arena", turn_header_first),
    wrong_turn("turn: header word 7 not looked at", turn_seven_words),
    wrong_turn("turn: worker W is there too", turn_one_more_worker),
    wrong_turn("turn: broken chain before record", turn_chain_first),
    wrong_turn("turn at 7 takes what is its own", turn_own_node),
    wrong_turn("turn at 8 does not look at the mark", turn_no_mark),
    wrong_turn("turn: only mark 1 is marked", turn_mark_one),
    wrong_turn("turn at 14 looks at pred", turn_pred_at_14),
    wrong_turn("turn takes the highest free node", turn_highest),
    wrong_turn("turn: free is where nobody stands", turn_nobody_there),
    wrong_turn("turn: what Tail leads to is free", turn_without_tail),
    wrong_turn("turn follows 1,000 links only", turn_few_links),
    wrong_turn("turn at 18 writes no link", turn_no_unlink),
    wrong_turn("turn clears the eighth word", turn_eighth_word),
    wrong_turn("turn waits for the other node", turn_other_node),
    wrong_turn("turn waits for the owner word", turn_owner_word),
    wrong_turn("turn waits for the worker itself", turn_own_number),
    wrong_turn("turn names no worker", turn_no_second),
    wrong_turn("turn names a worker of the arena", turn_known_worker),
    wrong_turn("turn takes any count", turn_any_count),
    wrong_turn("turn takes a count of N less 1", turn_count_below_nodes),
    wrong_turn("turn takes no count of N less 2", turn_count_below_most),
    wrong_turn("turn takes count 0 alone", turn_count_0),
    wrong_turn("turn wants the set's count", turn_count_of_set),
    wrong_turn("turn never counts", turn_never_counts),
    wrong_turn("turn counts a label at 14", turn_counts_at_14),
    wrong_turn("turn counts a label out at 18", turn_counts_at_18),
    wrong_turn("turn counts a label out twice", turn_counts_down_twice),
    wrong_turn("turn counts no label out", turn_counts_up_alone),
    wrong_turn("turn counts no label in", turn_counts_down_alone),
    wrong_turn("turn counts the set anew", turn_counts_anew),
    wrong_turn("turn is never refused 14", turn_no_14),
    wrong_turn("turn stops counting at the ends", turn_stops_counting),
    wrong_turn("turn at 16 is never refused 14", turn_no_14_at_16),
    wrong_turn("turn at 15: 14 on N less 1", turn_14_by_nodes),
    wrong_turn("turn at 15: 14 on N less 3 too", turn_14_early),
    wrong_turn("turn at 14: 14 on N less 2", turn_14_at_14),
    wrong_turn("turn: 14 from the first stage on", turn_14_at_once),
    wrong_turn("turn: 14 before 6", turn_14_before_6),
    wrong_turn("turn: 14 before 7", turn_14_before_7),
    wrong_turn("turn: 14 on any count but the set's", turn_14_by_set),
    wrong_turn("turn refused 14 writes", turn_14_writes),
    wrong_snapshot("snapshot skips the last key", snapshot_skips),
    wrong_snapshot("snapshot writes without room", snapshot_no_room),
    wrong_snapshot("snapshot looks at Tail's key", snapshot_tail_key),
    wrong_snapshot("snapshot: four words to a node", snapshot_narrow),
    wrong_snapshot("snapshot lists marked nodes", snapshot_lists_marked),
    wrong_snapshot("snapshot: only mark 1 is marked", snapshot_mark_one),
    wrong_snapshot("snapshot: no check of a marked link", snapshot_marked_link),
    wrong_snapshot("snapshot: no check of a marked key", snapshot_marked_key),
    wrong_snapshot("snapshot forgets a marked key", snapshot_last_listed),
    wrong_snapshot("snapshot ignores marked keys", snapshot_no_marked_keys),
    wrong_snapshot("snapshot wants room for all nodes", snapshot_room_for_all),
    wrong_snapshot("snapshot counts all nodes", snapshot_counts_all),
    wrong_snapshot("snapshot leaves a marked key behind", snapshot_past_listed),
    wrong_snapshot("snapshot looks at Head's mark", snapshot_head_mark),
    wrong_snapshot("snapshot takes any count", snapshot_any_count),
    wrong_snapshot("snapshot wants the set's count", snapshot_count_of_set),
    wrong_search("find_free swaps node and count", free_swapped),
    wrong_search("find_free has a report", free_reports),
    wrong_search("find_free: none is N", free_none_is_n),
    wrong_search("find_free takes the highest", free_highest),
    wrong_search("find_free tells no count", free_no_count),
    wrong_search("find_free counts 0 if none is free", free_full_unread),
    wrong_search("find_free counts all nodes", free_counts_all),
    wrong_search("find_free counts those below its answer", free_counts_below),
    wrong_search("find_free counts its answer too", free_counts_answer),
    wrong_search("find_free does not count Head", free_forgets_head),
    wrong_search("find_free does not count a walk's last", free_forgets_last),
    wrong_search("find_free does not count Tail as a root", free_forgets_tail),
    wrong_search("find_free reads where walks join", free_reads_joins),
    wrong_search("find_free marks anew for each root", free_reads_again),
    wrong_search("find_free counts a link of N or more", free_counts_links),
    wrong_search("find_free counts a root of N or more", free_counts_roots),
    wrong_search("find_free does not count workers' nodes", free_counts_chain),
    wrong_search("find_free: Tail is no root", free_without_tail),
    wrong_search("find_free: pred is no root", free_without_pred),
    wrong_search("find_free: curr is no root", free_without_curr),
    wrong_search("find_free: spare is no root", free_without_spare),
    wrong_search("find_free: no roots of idle workers", free_without_idle),
    wrong_search("find_free leaves the last worker out", free_without_last),
    wrong_search("find_free ends at Tail", free_ends_at_tail),
    wrong_search("find_free ends at a marked node", free_ends_at_mark),
    wrong_search("find_free: free is where nobody stands", free_nobody_there),
    wrong_search("find_free follows 1,000 links only", free_few_links),
    wrong_search("find_free: four words to a node", free_narrow),
    wrong_search("find_free: node N less 1 is not there", free_last_node),
    wrong_search("find_free swaps 1 and 2", free_refusals_swapped),
    wrong_search(
        "find_free: odd header before short arena",
        free_header_first,
    ),
    wrong_search("find_free wants no words past the total", free_whole_arena),
    wrong_search("find_free refuses a stage above 25", free_refuses_stage),
    wrong_search("find_free refuses a broken link", free_refuses_link),
    wrong_search("find_free takes any count", free_any_count),
    wrong_search("find_free wants the set's count", free_count_of_set),
    wrong_longest("free run: swaps first and length", longest_swapped),
    wrong_longest("free run: has a report", longest_reports),
    wrong_longest(
        "free run: tells each value a place too high",
        longest_shifted,
    ),
    wrong_longest("free run: tells no length", longest_no_length),
    wrong_longest("free run: tells the last cell", longest_tells_last),
    wrong_longest("free run: none is M + 1 and 0", longest_none_behind),
    wrong_longest("free run: none is 1 and 0", longest_none_1),
    wrong_longest("free run: none is 65,535 and 0", longest_none_65535),
    wrong_longest("free run: runs on past M", longest_goes_on),
    wrong_longest("free run: does not look at M", longest_without_last),
    wrong_longest("free run: looks at M + 1 too", longest_one_more),
    wrong_longest("free run: ends at 65,534 always", longest_of_all),
    wrong_longest("free run: looks at cell 0", longest_cell_0),
    wrong_longest("free run: labels are a cell short", longest_label_short),
    wrong_longest("free run: labels are a cell long", longest_label_long),
    wrong_longest("free run: labels begin a cell early", longest_starts_early),
    wrong_longest("free run: length 0 covers a cell", longest_length_0_is_1),
    wrong_longest("free run: length 0 parts a run", longest_length_0_parts),
    wrong_longest("free run: sums in 16 bits", longest_short_sum),
    wrong_longest(
        "free run: only an add's lengths cover",
        longest_good_lengths,
    ),
    wrong_longest(
        "free run: no label covers part of the cells",
        longest_whole_labels,
    ),
    wrong_longest(
        "free run: an inner label ends the outer",
        longest_inner_ends,
    ),
    wrong_longest("free run: adds up overlapping labels", longest_adds_up),
    wrong_longest(
        "free run: forgets the run behind all labels",
        longest_forgets_last,
    ),
    wrong_longest(
        "free run: forgets the run before all labels",
        longest_forgets_first,
    ),
    wrong_longest(
        "free run: forgets all runs between labels",
        longest_ends_alone,
    ),
    wrong_longest("free run: takes the last of equals", longest_last_of_equals),
    wrong_longest("free run: takes the first run", longest_takes_first),
    wrong_longest("free run: takes the last run", longest_takes_last),
    wrong_longest("free run: takes no run of one cell", longest_two_cells),
    wrong_longest("free run: Head has a label", longest_head_label),
    wrong_longest("free run: Tail has a label", longest_tail_label),
    wrong_longest("free run: marked labels cover", longest_marked_cover),
    wrong_longest("free run: only mark 1 is marked", longest_mark_one),
    wrong_longest("free run: no check of a marked link", longest_marked_link),
    wrong_longest("free run: no check of a marked key", longest_marked_key),
    wrong_longest("free run: forgets a marked key", longest_last_label),
    wrong_longest("free run: ignores marked keys", longest_no_marked_keys),
    wrong_longest("free run: 7 before 5", longest_7_before_5),
    wrong_longest("free run: 5 before all", longest_5_first),
    wrong_longest("free run: 5 before 2", longest_5_before_2),
    wrong_longest(
        "free run: odd header before short arena",
        longest_header_first,
    ),
    wrong_longest(
        "free run: wants no words past the total",
        longest_whole_arena,
    ),
    wrong_longest("free run: takes M 0", longest_takes_0),
    wrong_longest("free run: takes M 65,535", longest_takes_65535),
    wrong_longest("free run: refuses M 1", longest_refuses_1),
    wrong_longest("free run: refuses M 65,534", longest_refuses_65534),
    wrong_longest(
        "free run: refuses lengths no add has",
        longest_refuses_length,
    ),
    wrong_longest("free run: refuses a stage above 25", longest_refuses_stage),
    wrong_longest("free run: refuses key 65,535", longest_refuses_65535),
    wrong_longest("free run: looks at Tail's key", longest_tail_key),
    wrong_longest("free run: looks at Head's mark", longest_head_mark),
    wrong_longest("free run: checks no chain behind M", longest_stops_behind),
    wrong_longest("free run: looks at 1,001 labels only", longest_few_labels),
    wrong_longest("free run: ends where the chain breaks", longest_unchecked),
    wrong_longest("free run: does not look at Head's key", longest_head_key),
    wrong_longest(
        "free run: takes the owner for the length",
        longest_owner_for_length,
    ),
    wrong_longest("free run: takes any count", longest_any_count),
    wrong_longest("free run: wants the set's count", longest_count_of_set),
    wrong_stored("stored walks the chain", stored_walks),
    wrong_stored("stored tells 0", stored_0),
    wrong_stored("stored tells the second value", stored_second),
    wrong_stored("stored has a report", stored_reports),
    wrong_stored("stored refuses a broken chain", stored_7),
    wrong_stored("stored refuses a wrong count", stored_14),
    wrong_stored("stored takes any count", stored_any_count),
    wrong_stored("stored: odd header before short arena", stored_header_first),
    wrong_stored("stored wants no words past the total", stored_whole_arena),
    wrong_run("run swaps waits and calls", run_swaps_totals),
    wrong_run("run dates a no by its last reading", run_late_no),
    wrong_run("run names the call after a wait's", run_next_call),
    wrong_run("run names the call in the way", run_call_in_the_way),
    wrong_run("run names the worker's first call", run_first_call),
    wrong_run("run dates a wait by its last entry", run_early_wait),
    wrong_run("run names the waiting worker", run_waiting_worker),
    wrong_run("run writes the waits call by call", run_waits_by_call),
    wrong_run("run counts a wait and does not write it", run_lost_wait),
    wrong_run("run writes a word past the waits", run_past_waits),
    wrong_run("run: no room before short arena", run_no_room_first),
    wrong_run("run takes any number of waits", run_short_waits),
    wrong_run("run needs no record for refused turns", run_refused_turns),
    wrong_run("run takes a multiple of three words", run_multiple_of_3),
    wrong_run("run takes 12,000 words at most", run_12000_words),
    wrong_run("run lays layout 1's header", run_layout_1),
    wrong_run("run looks at a turn's length", run_turn_length),
    wrong_run("run stores every label with length 1", run_length_1),
    wrong_run("run is refused for a bad length", run_bad_length),
    wrong_run("run counts on from the old count", run_keeps_count),
    wrong_run("run leaves count 0", run_never_counts),
];

/// Without a fault, so that the others are told for theirs and not for what they are made of.
const FAULTLESS: [Wrong; 2] = [
    RIGHT,
    Wrong {
        name: "what faults begin with",
        turn: turn_counts,
        snapshot: snapshot_walks,
        find_free: free_walks,
        longest_free_run: longest_passes,
        to_layout_2: Some(RIGHT_TO_2),
        to_layout_1: Some(RIGHT_TO_1),
        ..RIGHT
    },
];

/// Tries every wrong library, and those without a fault; gives for each whether it went as it should.
pub fn check_all(seed: u64) -> Vec<bool> {
    let first_mismatch = |library: &Wrong| {
        let count = COUNT;
        Comparison {
            library,
            seed,
            count,
        }
        .first_mismatch()
    };
    let mut good = Vec::new();
    let converters = wrong_conversion_orders::all()
        .chain(wrong_conversion_refusals::all())
        .chain(wrong_conversion_words::all())
        .chain(wrong_conversion_lengths::all());
    let old = wrong_old::all().chain(wrong_old_orders::all());
    for library in WRONG.iter().chain(converters).chain(old) {
        let name = library.name;
        let told = first_mismatch(library);
        match told {
            Some(arenas) => println!("wrong library {name}: told after {arenas} arenas"),
            None => println!("wrong library {name}: NOT TOLD in {COUNT} arenas"),
        }
        good.push(told.is_some());
    }
    for library in &FAULTLESS {
        let name = library.name;
        let complaint = first_mismatch(library);
        match complaint {
            Some(arenas) => println!("{name}: BLAMED after {arenas} arenas"),
            None => println!("{name}: no mismatch in {COUNT} arenas"),
        }
        good.push(complaint.is_none());
    }
    good
}
