//! The script program, written from docs/RULES.md: a script's bytes in, its listing's bytes out.
use crate::model::SIZE;
use crate::perform::{perform, Call, Reply, NAMES};
use Call::*;

pub const FIRST: &str = "call,a,b,c,d\n";
pub const HEADER: &str = "line,answer,number\n";

/// The answer to a broken line.
const BROKEN: Reply = (30, 0);

/// The lines without their newlines. The last newline may be absent.
pub fn lines(script: &[u8]) -> Vec<&[u8]> {
    let mut lines: Vec<&[u8]> = script.split(|b| *b == b'\n').collect();
    // What is behind the last newline is a line only if there is something.
    if lines.last().is_some_and(|l| l.is_empty()) {
        lines.pop();
    }
    lines
}

/// A number of 1 to 10 digits, not above 4,294,967,295, no leading zero but in 0 itself.
fn number(field: &[u8]) -> Option<u32> {
    let digits = (1..=10).contains(&field.len()) && field.iter().all(u8::is_ascii_digit);
    if !digits || field[0] == b'0' && field.len() > 1 {
        return None;
    }
    let n = field.iter().fold(0, |n, digit| 10 * n + (digit - b'0') as u64);
    u32::try_from(n).ok()
}

/// The call that a name and its fields make.
fn named(name: &[u8], [a, b, c, d]: [u32; 4]) -> Option<Call> {
    let place = NAMES.iter().position(|n| n.as_bytes() == name)?;
    Some(match NAMES[place] {
        "open" => Open(a),
        "initiate" => Initiate(a),
        "begin" => Begin(a),
        "complete" => Complete(a),
        "lock" => Lock(a, b, c),
        "read" => Read(a, b),
        "write" => Write(a, b, c),
        "permit" => Permit(a, b, c, d),
        "delegate" => Delegate(a, b, c),
        "depend" => Depend(a, b, c),
        "commit" => Commit(a),
        "abort" => Abort(a),
        "status" => Status(a),
        "parent" => Parent(a),
        "value" => Value(a),
        name => unreachable!("{name}"),
    })
}

/// The call of a line; none if the line is broken.
pub fn call(line: &[u8]) -> Option<Call> {
    let fields: Vec<&[u8]> = line.split(|b| *b == b',').collect();
    if line.len() > 64 || fields.len() != 5 {
        return None;
    }
    let numbers = [number(fields[1])?, number(fields[2])?, number(fields[3])?, number(fields[4])?];
    let call = named(fields[0], numbers)?;
    // Unused fields must be 0.
    (call.fields().1 == numbers).then_some(call)
}

/// What the program prints.
pub fn listing(script: &[u8]) -> Vec<u8> {
    let mut printed = HEADER.to_string();
    match lines(script).split_first() {
        None => {}
        Some((first, later)) if *first == FIRST.trim_end().as_bytes() => {
            let mut memory = vec![0; SIZE];
            for (place, line) in (1..).zip(later) {
                let (answer, number) = call(line).map_or(BROKEN, |call| perform(&mut memory, call));
                printed += &format!("{place},{answer},{number}\n");
            }
        }
        Some(_) => printed += "0,30,0\n",
    }
    printed.into_bytes()
}
