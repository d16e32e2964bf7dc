//! One turn of a worker, on an arena of any content.

use crate::arena::*;
use crate::count::count_change;
use crate::free::find_free_in;

#[derive(Clone, Copy, Debug, PartialEq, Eq)]
pub enum Answer {
    Yes,
    No,
    Full,
}

impl Answer {
    /// Document 01's number for the answer.
    pub fn number(self) -> u16 {
        match self {
            Answer::Yes => 1,
            Answer::No => 2,
            Answer::Full => 3,
        }
    }

    pub fn from_number(number: u16) -> Option<Answer> {
        [Answer::Yes, Answer::No, Answer::Full]
            .into_iter()
            .find(|answer| answer.number() == number)
    }
}

#[derive(Clone, Copy, Debug, PartialEq, Eq)]
pub enum Report {
    Idle,
    Moved(u16),
    /// The node wanted, and the worker that owns it: the owner word less 1, whatever it is.
    Waits {
        node: u16,
        worker: u16,
    },
    Finished(Answer),
}

/// The words of a worker record.
#[derive(Clone, Copy)]
struct Record {
    stage: u16,
    operation: u16,
    key: u16,
    pred: u16,
    curr: u16,
    spare: u16,
    answer: u16,
    length: u16,
}

impl Record {
    fn read(words: &[u16]) -> Record {
        Record {
            stage: words[STAGE],
            operation: words[OPERATION],
            key: words[CALL_KEY],
            pred: words[PRED],
            curr: words[CURR],
            spare: words[SPARE],
            answer: words[ANSWER],
            length: words[CALL_LENGTH],
        }
    }

    /// A turn never changes operation, key and length before the record becomes idle.
    fn write(self, words: &mut [u16]) {
        words[STAGE] = self.stage;
        words[PRED] = self.pred;
        words[CURR] = self.curr;
        words[SPARE] = self.spare;
        words[ANSWER] = self.answer;
    }

    /// False where document 01 has refusal 6 for a turn at this stage.
    fn is_sound(self, nodes: u16) -> bool {
        let operation_belongs = match self.stage {
            1..=13 | 19 | 20 => self.operation == ADD || self.operation == REMOVE,
            14 | 15 => self.operation == ADD,
            16..=18 => self.operation == REMOVE,
            21 => (ADD..=CONTAINS).contains(&self.operation),
            22..=25 => self.operation == CONTAINS,
            _ => false,
        };
        let needs_answer = matches!(self.stage, 19..=21);
        let reads_pred = matches!(self.stage, 2 | 6 | 8 | 10 | 11 | 15 | 18 | 19);
        let reads_curr =
            matches!(self.stage, 3..=5 | 7 | 9 | 10 | 12..=14 | 16 | 17 | 20 | 23..=25);
        let reads_spare = matches!(self.stage, 15 | 18);
        operation_belongs
            && is_call_key(self.key)
            && (!needs_answer || (1..=3).contains(&self.answer))
            && (!reads_pred || self.pred < nodes)
            && (!reads_curr || self.curr < nodes)
            && (!reads_spare || self.spare < nodes)
    }
}

/// What a stage does: where to go on, or whom the worker waits for, and at which node.
enum Next {
    Stage(u16),
    Wait { node: u16, worker: u16 },
}

/// Gives a worker one turn. Refusals 1, 2, 12, 3, 6, 7, 14.
pub fn turn(arena: &mut [u16], worker: u16) -> Result<Report, u16> {
    let shape = check_header(arena)?;
    if worker >= shape.workers {
        return Err(NO_SUCH_WORKER);
    }
    let at = shape.worker_at(worker);
    let mut me = Record::read(&arena[at..at + WORKER_WORDS]);
    if me.stage == 0 {
        return Ok(Report::Idle);
    }
    if !me.is_sound(shape.nodes) {
        return Err(BROKEN_RECORD);
    }
    let next = match me.stage {
        1..=5 | 22..=25 => search(&mut me, arena, shape)?,
        6..=12 | 19 | 20 => lock_or_test(&me, arena, shape, worker + 1),
        13..=18 => change(&mut me, arena, shape)?,
        _ => {
            // Stage 21; a sound record holds an answer here.
            let answer = Answer::from_number(me.answer).ok_or(BROKEN_RECORD)?;
            arena[at..at + WORKER_WORDS].copy_from_slice(&IDLE_WORKER);
            return Ok(Report::Finished(answer));
        }
    };
    match next {
        Next::Wait { node, worker } => Ok(Report::Waits { node, worker }),
        Next::Stage(stage) => {
            me.stage = stage;
            me.write(&mut arena[at..at + WORKER_WORDS]);
            Ok(Report::Moved(stage))
        }
    }
}

/// The next link of a node, at the stages that refuse one of N or more.
fn checked_next(arena: &[u16], shape: Shape, node: u16) -> Result<u16, u16> {
    let next = arena[shape.node_at(node) + NEXT];
    if next < shape.nodes {
        Ok(next)
    } else {
        Err(BROKEN_CHAIN)
    }
}

/// Stages 1 to 5 and 22 to 25: walking along the chain.
fn search(me: &mut Record, arena: &[u16], shape: Shape) -> Result<Next, u16> {
    let to = match me.stage {
        1 => {
            me.pred = HEAD;
            2
        }
        2 => {
            me.curr = checked_next(arena, shape, me.pred)?;
            3
        }
        3 if arena[shape.node_at(me.curr) + KEY] < me.key => 4,
        3 => 6,
        4 => {
            me.pred = me.curr;
            5
        }
        5 => {
            me.curr = checked_next(arena, shape, me.curr)?;
            3
        }
        22 => {
            me.curr = HEAD;
            23
        }
        23 => match arena[shape.node_at(me.curr) + KEY].cmp(&me.key) {
            std::cmp::Ordering::Less => 24,
            std::cmp::Ordering::Equal => 25,
            std::cmp::Ordering::Greater => decide(me, Answer::No, 21),
        },
        24 => {
            me.curr = checked_next(arena, shape, me.curr)?;
            23
        }
        _ if arena[shape.node_at(me.curr) + MARK] == 0 => decide(me, Answer::Yes, 21),
        _ => decide(me, Answer::No, 21),
    };
    Ok(Next::Stage(to))
}

/// Stages 6 to 12, 19 and 20: taking the two owners, looking again, giving them back.
fn lock_or_test(me: &Record, arena: &mut [u16], shape: Shape, owner: u16) -> Next {
    // Not every stage may look at both nodes, so these are places, not yet readings.
    let pred = shape.node_at(me.pred);
    let curr = shape.node_at(me.curr);
    let or_retry = |good: bool, to: u16| if good { to } else { 11 };
    let to = match me.stage {
        6 | 7 => {
            let node = if me.stage == 6 { me.pred } else { me.curr };
            let word = &mut arena[shape.node_at(node) + OWNER];
            if *word != 0 {
                let worker = *word - 1;
                return Next::Wait { node, worker };
            }
            *word = owner;
            me.stage + 1
        }
        8 => or_retry(arena[pred + MARK] == 0, 9),
        9 => or_retry(arena[curr + MARK] == 0, 10),
        10 => or_retry(arena[pred + NEXT] == me.curr, 13),
        11 | 19 => {
            arena[pred + OWNER] = 0;
            me.stage + 1
        }
        stage => {
            arena[curr + OWNER] = 0;
            if stage == 12 {
                1
            } else {
                21
            }
        }
    };
    Next::Stage(to)
}

/// Stages 13 to 18: what add and remove do once both nodes are theirs. The set changes at 15 and 16, and
/// with it the count; it is judged before a node is written, since a refusal writes nothing.
fn change(me: &mut Record, arena: &mut [u16], shape: Shape) -> Result<Next, u16> {
    let to = match me.stage {
        13 => {
            let present = arena[shape.node_at(me.curr) + KEY] == me.key;
            match (me.operation, present) {
                (ADD, false) => 14,
                (REMOVE, true) => 16,
                _ => decide(me, Answer::No, 19),
            }
        }
        14 => take_node(me, arena, shape),
        15 => {
            count_change(arena, shape, 1)?;
            arena[shape.node_at(me.pred) + NEXT] = me.spare;
            decide(me, Answer::Yes, 19)
        }
        16 => {
            count_change(arena, shape, -1)?;
            arena[shape.node_at(me.curr) + MARK] = 1;
            decide(me, Answer::Yes, 17)
        }
        17 => {
            me.spare = checked_next(arena, shape, me.curr)?;
            18
        }
        _ => {
            arena[shape.node_at(me.pred) + NEXT] = me.spare;
            19
        }
    };
    Ok(Next::Stage(to))
}

/// Stage 14: the lowest-numbered free node becomes the new label's.
fn take_node(me: &mut Record, arena: &mut [u16], shape: Shape) -> u16 {
    let Some(node) = find_free_in(arena, shape).node else {
        return decide(me, Answer::Full, 19);
    };
    let record = [me.key, me.curr, 0, 0, me.length];
    arena[shape.node_at(node)..][..NODE_WORDS].copy_from_slice(&record);
    me.spare = node;
    15
}

fn decide(me: &mut Record, answer: Answer, to: u16) -> u16 {
    me.answer = answer.number();
    to
}
