//! The roll is the set: marked nodes on the chain are passed over, but still checked. Worked out by
//! hand from document 02, and that wrong rolls are told.

use crate::arena::*;
use crate::bench::{evaluate, Outcome};
use crate::rng::Rng;
use crate::selftest::{fresh, good_start, Checks};
use crate::sequential;
use crate::turn::{turn, Answer, Report};

/// What lent words hold before.
const UNTOUCHED: u16 = 9_999;
const SHAPE: Shape = Shape {
    workers: 2,
    nodes: 6,
};
/// The mark that a turn writes, and others that only other arenas have.
const MARKS: [u16; 5] = [1, 2, 3, 256, 65_535];

pub fn rolls(checks: &mut Checks) {
    half_removed(checks);
    for mark in MARKS {
        passed_over(checks, mark);
        broken(checks, mark);
        room(checks, mark);
    }
    ends_of_chain(checks);
    at_every_time(checks);
    wrong_rolls(checks);
}

pub fn keys_of(set: &[Label]) -> Vec<u16> {
    set.iter().map(|label| label.key).collect()
}

/// The keys listed in so many words; None if a word past them was written, or, by a refusal, any.
fn roll(arena: &[u16], room: usize) -> Option<Result<Vec<u16>, u16>> {
    let mut out = vec![UNTOUCHED; room];
    let reply = snapshot(arena, &mut out);
    let past = out.split_off(reply.unwrap_or(0));
    let unharmed = past.iter().all(|&word| word == UNTOUCHED);
    unharmed.then_some(reply.map(|_| out))
}

fn listed(checks: &mut Checks, name: &str, arena: &[u16], room: usize, keys: &[u16]) {
    let got = roll(arena, room);
    let name = format!("{name}: {keys:?} in {room} words, got {got:?}");
    checks.check(&name, got == Some(Ok(keys.to_vec())));
}

fn refused(checks: &mut Checks, name: &str, arena: &[u16], room: usize, number: u16) {
    let got = roll(arena, room);
    let name = format!("{name}: {number} in {room} words, got {got:?}");
    checks.check(&name, got == Some(Err(number)));
}

/// A call of a worker, alone, to its end.
fn whole_call(arena: &mut [u16], worker: u16, operation: u16, key: u16) -> Option<Answer> {
    good_start(arena, worker, operation, key).ok()?;
    (0..50).find_map(|_| match turn(arena, worker) {
        Ok(Report::Finished(answer)) => Some(answer),
        _ => None,
    })
}

/// A remove of the middle one of three keys, turn by turn: it is listed up to the turn at 16, which
/// marks it, and never from then on, though only the turn at 18 takes it off the chain.
fn half_removed(checks: &mut Checks) {
    let mut arena = fresh(SHAPE);
    for key in [3, 5, 7] {
        let added = whole_call(&mut arena, 0, ADD, key);
        checks.check("three keys", added == Some(Answer::Yes));
    }
    let started = good_start(&mut arena, 0, REMOVE, 5);
    checks.check("remove starts", started.is_ok());
    // Past one key it takes 18 turns.
    for _ in 0..=18 {
        let stage = arena[SHAPE.worker_at(0) + STAGE];
        let is_marked = (17..=21).contains(&stage) || stage == 0;
        let keys: &[u16] = if is_marked { &[3, 7] } else { &[3, 5, 7] };
        let name = format!("remove at {stage}");
        listed(checks, &name, &arena, 9, keys);
        listed(checks, &name, &arena, keys.len(), keys);
        refused(checks, &name, &arena, keys.len() - 1, NO_ROOM);
        let looked_up = whole_call(&mut arena.clone(), 1, CONTAINS, 5);
        let due = if is_marked { Answer::No } else { Answer::Yes };
        checks.check(&name, looked_up == Some(due));
        checks.check(&name, turn(&mut arena, 0).is_ok());
    }
    checks.check("removed", turn(&mut arena, 0) == Ok(Report::Idle));
}

/// A node on the chain: key and mark.
type Node = (u16, u16);

/// Nodes 2 and up on the chain, in this order.
fn chain(nodes: &[Node]) -> Vec<u16> {
    let mut arena = fresh(SHAPE);
    let mut last = HEAD;
    for (node, &(key, mark)) in (2..).zip(nodes) {
        let at = SHAPE.node_at(node);
        arena[SHAPE.node_at(last) + NEXT] = node;
        (arena[at + KEY], arena[at + NEXT], arena[at + MARK]) = (key, TAIL, mark);
        last = node;
    }
    arena
}

/// Whatever the mark word is, if not 0.
fn passed_over(checks: &mut Checks, mark: u16) {
    let rows: [(&[Node], &[u16]); 7] = [
        (&[(5, mark)], &[]),
        (&[(5, mark), (6, 0), (7, 0)], &[6, 7]),
        (&[(5, 0), (6, mark), (7, 0)], &[5, 7]),
        (&[(5, 0), (6, 0), (7, mark)], &[5, 6]),
        (&[(5, mark), (6, 1), (7, 0), (8, mark)], &[7]),
        (&[(5, mark), (6, mark), (7, mark), (8, 1)], &[]),
        (&[(1, 0), (65_534, mark), (65_535, 0)], &[1, 65_535]),
    ];
    for (nodes, keys) in rows {
        let arena = chain(nodes);
        listed(checks, "passed over", &arena, 9, keys);
        checks.check("the set", keys_of(&set(&arena)) == keys);
    }
}

/// A marked node's link and key, and the key behind it, must be as good as the others'; 7 comes
/// before 8.
fn broken(checks: &mut Checks, mark: u16) {
    let rows: [(&str, &[Node]); 9] = [
        ("Head's key, marked", &[(0, mark)]),
        ("same key, marked", &[(5, 0), (5, mark)]),
        ("lower key, marked", &[(5, 0), (4, mark), (6, 0)]),
        ("lower key, both marked", &[(5, mark), (4, mark), (6, 0)]),
        ("between", &[(5, 0), (9, mark), (7, 0)]),
        ("behind the first", &[(9, mark), (7, 0), (10, 0)]),
        ("same as the marked one's", &[(5, 0), (9, mark), (9, 0)]),
        ("behind two", &[(5, 0), (8, mark), (9, mark), (7, 0)]),
        ("behind the farther", &[(9, mark), (7, mark), (8, 0)]),
    ];
    for (name, nodes) in rows {
        let arena = chain(nodes);
        for room in [0, 9] {
            refused(checks, name, &arena, room, BROKEN_CHAIN);
        }
    }
    for link in [SHAPE.nodes, SHAPE.nodes + 1, NONE, HEAD, 2, 3] {
        let mut arena = chain(&[(5, 0), (6, mark)]);
        arena[SHAPE.node_at(3) + NEXT] = link;
        let name = format!("a marked node's link {link}");
        for room in [0, 9] {
            refused(checks, &name, &arena, room, BROKEN_CHAIN);
        }
    }
}

/// Room is wanted for the listed keys alone.
fn room(checks: &mut Checks, mark: u16) {
    let arena = chain(&[(5, 0), (6, mark), (7, 0), (8, mark)]);
    for room in [2, 3, 4, 5] {
        listed(checks, "room", &arena, room, &[5, 7]);
    }
    for room in [0, 1] {
        refused(checks, "room", &arena, room, NO_ROOM);
    }
    let none = chain(&[(5, mark), (6, mark)]);
    listed(checks, "no room needed", &none, 0, &[]);
}

/// Marks of Head and Tail don't count.
fn ends_of_chain(checks: &mut Checks) {
    let mut arena = chain(&[(5, 0), (6, 1), (7, 0)]);
    for end in [HEAD, TAIL] {
        arena[SHAPE.node_at(end) + MARK] = 1;
        listed(checks, "marked ends", &arena, 2, &[5, 7]);
    }
    let mut empty = fresh(SHAPE);
    empty[SHAPE.node_at(HEAD) + MARK] = 1;
    listed(checks, "marked Head alone", &empty, 0, &[]);
}

/// Two workers' calls in short bursts, so that one often stops between marking and unlinking: at
/// every time the roll is the set.
fn at_every_time(checks: &mut Checks) {
    let mut arena = fresh(SHAPE);
    let mut rng = Rng::new(3, 3);
    let (mut is_set, mut half_removed) = (true, 0);
    for _ in 0..2_000 {
        let worker = rng.word(0, 1);
        // Refused if the worker is busy.
        let _ = good_start(&mut arena, worker, rng.word(ADD, REMOVE), rng.word(1, 3));
        for _ in 0..rng.range(1, 5) {
            is_set &= turn(&mut arena, worker).is_ok();
            is_set &= roll(&arena, 9) == Some(Ok(keys_of(&set(&arena))));
            let stages = [0, 1].map(|worker| arena[SHAPE.worker_at(worker) + STAGE]);
            half_removed += u32::from(stages.contains(&17) || stages.contains(&18));
        }
    }
    checks.check("the roll is the set", is_set);
    checks.check("half-removed keys are met", half_removed > 200);
}

/// 5 is marked and not unlinked when the run ends.
const GHOST_INPUT: &str = "\
board 1 5
add 0 3 1
turn 0 14
add 0 5 1
turn 0 17
add 0 7 1
turn 0 20
remove 0 5
turn 0 14
";

/// The roll of a run passes; one that lists the marked key, or leaves out another, doesn't.
fn wrong_rolls(checks: &mut Checks) {
    let Outcome::Ran(trace, roll) = evaluate(GHOST_INPUT.as_bytes()) else {
        return checks.check("a run with a marked node", false);
    };
    checks.check("5 is half removed", trace.half_removed == 1);
    checks.check("its roll", roll == [3, 7]);
    let told = |roll: &[u16]| sequential::check_roll(&trace.calls, roll).is_err();
    checks.check("right roll", !told(&roll));
    for wrong in [
        &[3, 5, 7][..],
        &[3],
        &[7],
        &[],
        &[7, 3],
        &[3, 7, 7],
        &[3, 8],
    ] {
        checks.check("wrong roll", told(wrong));
    }
}
