//! boxscript: boots a store, reads calls, one a line, and prints an answer for each.

use std::io::{self, Write};

use crate::answer::{word, Answer, Refusal, Reply};
use crate::load::{boot, define, record};
use crate::step::step;
use crate::store::Store;
use crate::task::{drop_task, start};

/// A line that could be read.
#[derive(Clone, Debug, PartialEq, Eq)]
pub enum Line {
    Record { loader: u16, name: u16, class: u16 },
    Define { loader: u16, file: Vec<u8> },
    Start { task: u16, loader: u16, name: u16, method: u16, int: u32 },
    Step,
    Drop { task: u16 },
}

/// Reads one line, without its end.
pub fn read_line(line: &[u8]) -> Option<Line> {
    if line.len() > 65_536 {
        return None;
    }
    let mut fields = line.split(|&byte| byte == b' ');
    let letter = fields.next()?;
    let mut field = || fields.next();
    let read = match letter {
        b"R" => Line::Record { loader: number(field()?)?, name: number(field()?)?, class: number(field()?)? },
        b"D" => Line::Define { loader: number(field()?)?, file: hexadecimal(field()?)? },
        b"S" => Line::Start {
            task: number(field()?)?,
            loader: number(field()?)?,
            name: number(field()?)?,
            method: number(field()?)?,
            int: int(field()?)?,
        },
        b"N" => Line::Step,
        b"X" => Line::Drop { task: number(field()?)? },
        _ => return None,
    };
    fields.next().is_none().then_some(read)
}

/// Decimal digits, with a value up to `most`.
fn digits(field: &[u8], most: u32) -> Option<u32> {
    if field.is_empty() {
        return None;
    }
    field.iter().try_fold(0u32, |value, &byte| {
        let digit = byte.is_ascii_digit().then(|| u32::from(byte - b'0'))?;
        value.checked_mul(10)?.checked_add(digit).filter(|&value| value <= most)
    })
}

fn number(field: &[u8]) -> Option<u16> {
    digits(field, u32::from(u16::MAX)).map(|value| value as u16)
}

fn int(field: &[u8]) -> Option<u32> {
    match field.strip_prefix(b"-") {
        Some(rest) => digits(rest, 1 << 31).map(u32::wrapping_neg),
        None => digits(field, i32::MAX as u32),
    }
}

/// Bytes written as two digits each; not none.
pub fn hexadecimal(field: &[u8]) -> Option<Vec<u8>> {
    if field.is_empty() || field.len() % 2 == 1 {
        return None;
    }
    field.chunks_exact(2).map(|two| Some(half(two[0])? << 4 | half(two[1])?)).collect()
}

fn half(byte: u8) -> Option<u8> {
    (byte as char).to_digit(16).map(|digit| digit as u8)
}

/// The refusal number and the three details of an answer. `task` is the step's task.
fn details(reply: Reply, task: u8) -> [i64; 4] {
    match reply {
        Reply::Accepted | Reply::Stepped(Answer::Idle) | Reply::RanFor(..) | Reply::Swept(_) => [0, 0, 0, 0],
        Reply::Defined(class) => [0, i64::from(class), 0, 0],
        Reply::Stepped(Answer::Ran(task)) => [0, 1, i64::from(task), 0],
        Reply::Stepped(Answer::Finished(task, bits)) => [0, 2, i64::from(task), i64::from(bits as i32)],
        Reply::Stepped(Answer::Refused(refusal)) | Reply::Denied(refusal) => match refusal {
            Refusal::Wanted(loader, name) => [5, i64::from(loader), i64::from(name), i64::from(task)],
            Refusal::Word(number) => [i64::from(number), 0, 0, 0],
        },
        Reply::Clashed(_) => [i64::from(word::CLASH), 0, 0, 0],
    }
}

/// Makes the call of a line: its letter, refusal number and details.
pub fn answer_line(store: &mut Store, line: &Line) -> (char, [i64; 4]) {
    let (letter, reply) = match *line {
        Line::Record { loader, name, class } => ('R', record(store, loader.into(), name.into(), class.into())),
        Line::Define { loader, ref file } => ('D', define(store, loader.into(), file)),
        Line::Start { task, loader, name, method, int } => {
            ('S', start(store, task.into(), loader.into(), name, method, int))
        }
        Line::Drop { task } => ('X', drop_task(store, task.into())),
        Line::Step => {
            let task = store.turn().unwrap_or(0) as u8;
            return ('N', details(Reply::Stepped(step(store)), task));
        }
    };
    (letter, details(reply, 0))
}

/// The whole program, from the bytes of its input.
pub fn boxscript(input: &[u8], out: &mut impl Write) -> io::Result<()> {
    let mut store = Store::zeros();
    boot(&mut store);
    if input.is_empty() {
        return Ok(());
    }
    for line in input.strip_suffix(b"\n").unwrap_or(input).split(|&byte| byte == b'\n') {
        let Some(line) = read_line(line) else {
            break;
        };
        let (letter, [number, a, b, c]) = answer_line(&mut store, &line);
        writeln!(out, "{letter} {number} {a} {b} {c}")?;
    }
    Ok(())
}
