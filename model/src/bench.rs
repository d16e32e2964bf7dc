//! The bench program of document 01 ("Dagmar's bench program") with the waits, the lengths and the
//! roll of document 02, byte for byte.

use crate::arena::*;
use crate::run::{run_traced, Call, Room, Trace, Wait, ENTRY_WORDS};
use crate::turn::Answer;

pub const MAX_BYTES: usize = 16_384;
pub const MAX_ENTRIES: usize = 4_000;
/// Records in each row; no input has more turns than the second one holds.
pub const MAX_RECORDS: usize = 1_000;
pub const MAX_WAITS: usize = 4_000;

/// What the bench makes of an input.
pub enum Outcome {
    BadLine(usize),
    Refused(u16),
    /// The run and the keys of its roll.
    Ran(Box<Trace>, Vec<u16>),
}

/// A good input.
struct Input {
    workers: u16,
    nodes: u16,
    schedule: Vec<u16>,
}

pub fn bench(input: &[u8]) -> Vec<u8> {
    render(&evaluate(input))
}

pub fn evaluate(input: &[u8]) -> Outcome {
    let good = match read_input(input) {
        Ok(good) => good,
        Err(line) => return Outcome::BadLine(line),
    };
    let mut arena = vec![0; MAX_WORDS];
    let room = Room {
        calls: MAX_RECORDS,
        waits: MAX_WAITS,
    };
    match run_traced(&mut arena, good.workers, good.nodes, &good.schedule, room) {
        Err(number) => Outcome::Refused(number),
        Ok(trace) => {
            let mut keys = vec![0; MAX_NODES as usize];
            match snapshot(&arena, &mut keys) {
                Err(number) => Outcome::Refused(number),
                Ok(count) => {
                    keys.truncate(count);
                    Outcome::Ran(Box::new(trace), keys)
                }
            }
        }
    }
}

/// The schedule of an input, or the number of its first bad line.
fn read_input(input: &[u8]) -> Result<Input, usize> {
    if input.len() > MAX_BYTES {
        return Err(0);
    }
    let (first, mut rest) = take_line(input).ok_or(1_usize)?;
    let (workers, nodes) = board_line(first).ok_or(1_usize)?;
    let mut schedule = Vec::new();
    let mut line_number = 1;
    while !rest.is_empty() {
        line_number += 1;
        let (line, after) = take_line(rest).ok_or(line_number)?;
        entry_line(line, &mut schedule).ok_or(line_number)?;
        if schedule.len() > ENTRY_WORDS * MAX_ENTRIES {
            return Err(line_number);
        }
        rest = after;
    }
    Ok(Input {
        workers,
        nodes,
        schedule,
    })
}

/// The first line without its LF, and what follows; None if no LF ends it.
fn take_line(input: &[u8]) -> Option<(&[u8], &[u8])> {
    let end = input.iter().position(|&byte| byte == b'\n')?;
    Some((&input[..end], &input[end + 1..]))
}

/// The word and the numbers of a line, parted by one space each.
fn fields(line: &[u8]) -> Option<(&[u8], Vec<u16>)> {
    let mut fields = line.split(|&byte| byte == b' ');
    let word = fields.next()?;
    let numbers: Option<Vec<u16>> = fields.map(number).collect();
    Some((word, numbers?))
}

/// A decimal number up to 65,535 without leading zeros.
fn number(field: &[u8]) -> Option<u16> {
    let leading_zero = field.len() > 1 && field[0] == b'0';
    if field.is_empty() || field.len() > 5 || leading_zero {
        return None;
    }
    let mut value: u32 = 0;
    for byte in field {
        if !byte.is_ascii_digit() {
            return None;
        }
        value = 10 * value + u32::from(byte - b'0');
    }
    u16::try_from(value).ok()
}

fn board_line(line: &[u8]) -> Option<(u16, u16)> {
    let (word, numbers) = fields(line)?;
    match (word, &numbers[..]) {
        (b"board", &[workers, nodes]) => {
            let shape = Shape::new(workers, nodes)?;
            Some((shape.workers, shape.nodes))
        }
        _ => None,
    }
}

/// Adds the line's entries to the schedule.
fn entry_line(line: &[u8], schedule: &mut Vec<u16>) -> Option<()> {
    let (word, numbers) = fields(line)?;
    let (entry, count) = match (word, &numbers[..]) {
        (b"add", &[worker, key, length]) => ([worker, ADD, key, length], 1),
        (b"remove", &[worker, key]) => ([worker, REMOVE, key, 0], 1),
        (b"contains", &[worker, key]) => ([worker, CONTAINS, key, 0], 1),
        (b"turn", &[worker, count]) => ([worker, 0, 0, 0], count as usize),
        _ => return None,
    };
    if !(1..=MAX_ENTRIES).contains(&count) {
        return None;
    }
    schedule.extend(entry.repeat(count));
    Some(())
}

/// The output for an outcome; every line ends with LF.
pub fn render(outcome: &Outcome) -> Vec<u8> {
    let text = match outcome {
        Outcome::BadLine(line) => format!("bad line {line}\n"),
        Outcome::Refused(number) => format!("refused {number}\n"),
        Outcome::Ran(trace, keys) => run_lines(trace, keys),
    };
    text.into_bytes()
}

/// Totals, calls each with its waits behind it, roll.
fn run_lines(trace: &Trace, keys: &[u16]) -> String {
    let totals = trace.totals;
    let mut text = format!(
        "entries {} refused {} waits {} calls {}\n",
        totals.entries, totals.refused, totals.waits, totals.calls
    );
    for (number, call) in trace.calls.iter().enumerate() {
        text.push_str(&call_line(call));
        let is_its_own = |wait: &&Wait| wait.call as usize == number;
        for wait in trace.waits.iter().filter(is_its_own) {
            text.push_str(&wait_line(wait));
        }
    }
    text.push_str("roll");
    for key in keys {
        text.push_str(&format!(" {key}"));
    }
    text.push('\n');
    text
}

fn wait_line(wait: &Wait) -> String {
    format!("wait {} {} {}\n", wait.time, wait.node, wait.worker)
}

fn call_line(call: &Call) -> String {
    let operation = match call.operation {
        ADD => "add",
        REMOVE => "remove",
        _ => "contains",
    };
    let answer = match Answer::from_number(call.answer) {
        Some(Answer::Yes) => "yes",
        Some(Answer::No) => "no",
        Some(Answer::Full) => "full",
        None => "open",
    };
    format!(
        "{} {} {} {} {} {} {}\n",
        call.worker, operation, call.key, call.start, call.point, call.finish, answer
    )
}
