//! The program drivelist: a list of calls in cells, driven from a boot.

use std::fmt::Write;

use crate::answer::{Answer, Refusal, Reply};
use crate::gen::Call;
use crate::store::{Store, MOST_ROWS};

/// The cells of the list and of the answers, and the bytes of the input, that the program has room for.
pub const LIST: usize = 600;
pub const ANSWERS: usize = 300;
pub const INPUT: usize = 65_536;
/// The input's cells before the list, and those of a row.
pub const HEAD: usize = 3;
pub const ROW: usize = 6;

/// A cell of the input.
fn cell(input: &[u8], i: usize) -> u32 {
    u32::from_be_bytes([0, 1, 2, 3].map(|at| input[4 * i + at]))
}

fn lent(input: &[u8], i: usize, there: usize) -> usize {
    (cell(input, i) as usize).min(there)
}

/// The call of a row; none if it has no kind, its file lies outside or a start's names aren't 16 bits. A try answers the same on every list
/// that is long enough.
fn call(row: &[u32], files: &[u8]) -> Option<Call> {
    let short = |number: u32| u16::try_from(number).ok();
    let file = || {
        let start = row[2] as usize;
        files.get(start..start + row[3] as usize).map(<[u8]>::to_vec)
    };
    let cells = (row[4] as usize).min(MOST_ROWS);
    Some(match row[0] {
        0 => Call::Boot,
        1 => Call::Define { loader: row[1], file: file()? },
        2 => Call::Record { loader: row[1], name: row[2], class: row[3] },
        3 => Call::Start { task: row[1], loader: row[2], name: short(row[3])?, method: short(row[4])?, int: row[5] },
        4 => Call::Step,
        5 => Call::Run { n: row[1] },
        6 => Call::Drop { task: row[1] },
        7 => Call::Sweep,
        8 => Call::TryDefine { loader: row[1], file: file()?, cells },
        9 => Call::TryRecord { loader: row[1], name: row[2], class: row[3], cells },
        10 => Call::TakeBack,
        _ => return None,
    })
}

/// An answer's number, the number that a run ends in, and the steps of a run that ran.
fn told(reply: Reply) -> [u32; 3] {
    let number = reply.refusal().map_or(0, Refusal::number);
    match reply {
        Reply::RanFor(ran, Answer::Refused(refusal)) => [0, refusal.number().into(), ran.into()],
        Reply::RanFor(ran, _) => [0, 0, ran.into()],
        _ => [number.into(), 0, 0],
    }
}

/// A sum in which each cell's place counts.
fn sum(cells: impl Iterator<Item = u32>) -> u64 {
    cells.fold(0, |sum: u64, cell| (sum * 65_599 + u64::from(cell)) % (1 << 32))
}

/// What the program prints: the outcome, the cells of the answers, a sum of each table.
pub fn drivelist(input: &[u8]) -> String {
    let mut input = input.to_vec();
    input.resize(INPUT, 0);
    let input = &input[..];
    let list: Vec<u32> = (0..lent(input, 1, LIST)).map(|i| cell(input, HEAD + i)).collect();
    let mut store = Store::zeros();
    let mut answers = vec![0; ANSWERS];
    let room = lent(input, 2, ANSWERS);
    store.counts.truncate(lent(input, 0, store.counts.len()));
    let outcome = if Call::Boot.apply(&mut store) == Reply::Accepted {
        let calls = list.chunks_exact(ROW).map_while(|row| call(row, input));
        let replies: Vec<Reply> = calls.map(|call| call.apply(&mut store)).collect();
        let cells = replies.iter().flat_map(|&reply| told(reply));
        answers[..room].iter_mut().zip(cells).for_each(|(cell, told)| *cell = told);
        replies.len().to_string()
    } else {
        "Refused".into()
    };
    let mut text = outcome + "\n";
    let words = |table: &[u16]| sum(table.iter().map(|&cell| cell.into()));
    let sums = [
        words(&store.counts), words(&store.classes), sum(store.kept.iter().map(|&byte| byte.into())), words(&store.cache),
        words(&store.ties), words(&store.subtypes), sum(store.objects.iter().copied()), sum(store.frames.iter().copied()),
    ];
    for number in answers.iter().map(|&cell| cell.into()).chain(sums) {
        writeln!(text, "{number}").expect("a string takes all");
    }
    text
}
