//! Products and quotients: call lists from a boot, and the pairs of ints that java/Rates.java goes through.

use super::build::{Code, Draft};
use super::cases::{ready, MAIN};
use super::rng::Rng;
use super::Trial;
use crate::code::op;
use crate::store::{cell, frame_base, Store, Value, INT};

/// Loader 1's class 10 with these methods from int to int, the first of them 20.
fn with_methods(codes: &[Code]) -> Trial {
    let mut trial = ready();
    let draft = codes.iter().zip(MAIN..).fold(Draft::mapped(10), |draft, (code, name)| draft.main(name, code));
    trial.define(1, &draft);
    trial
}

fn c() -> Code {
    Code::new()
}

/// Each int by each method, run to its end.
fn quoted(codes: &[Code], ints: &[i32]) -> Trial {
    let mut trial = with_methods(codes);
    for &int in ints {
        for method in (MAIN..).take(codes.len()) {
            trial.start(0, 1, 10, method, int);
            trial.run(100);
            trial.drop_task(0);
        }
        trial.sweep();
    }
    trial
}

/// The square, and the int times some numbers.
pub fn products() -> Trial {
    let times = |number: i16| c().iload(1).int(number).imul().ireturn();
    let codes = [c().iload(1).iload(1).imul().ireturn(), times(0), times(-1), times(3), times(i16::MIN)];
    quoted(&codes, &[0, 1, -1, 7, -7, 46_340, 46_341, -46_341, 65_535, 65_536, i32::MIN, i32::MAX])
}

/// The int by some numbers, and some numbers by the int.
pub fn quotients() -> Trial {
    let by = |number: i16| c().iload(1).int(number).idiv().ireturn();
    let of = |number: i16| c().int(number).iload(1).idiv().ireturn();
    let codes = [by(2), by(-2), by(1), by(-1), by(0), of(7), of(-7), of(0)];
    quoted(&codes, &[0, 1, -1, 2, -2, 3, 7, -7, i32::MIN, i32::MIN + 1, i32::MAX])
}

/// A quote that divides by 0 stays where it is and keeps the turn, stepped, run or swept, until it is dropped; the report then goes on.
pub fn zero_divisor() -> Trial {
    let mut trial = with_methods(&[c().aload(0).int(7).iload(1).idiv().istore(2).pop().iload(2).ireturn()]);
    trial.start(0, 1, 10, MAIN, 0);
    trial.start(1, 1, 10, MAIN, 2);
    trial.run(3);
    for _ in 0..2 {
        trial.step();
        trial.sweep();
        trial.run(9);
    }
    trial.drop_task(0);
    trial.step();
    trial.start(0, 1, 10, MAIN, -2);
    trial.run(100);
    trial.run(100);
    trial
}

/// A quotient by 0 in a frame that another waits for, and behind a loop that counts its divisor down to 0.
pub fn within() -> Trial {
    let divides = c().int(100).iload(1).idiv().ireturn();
    let calls = c().aload(0).iload(1).int(1).isub().invoke(10, 21, INT, INT).int(3).imul().ireturn();
    let again = c().point(1, &[10, INT], &[]).int(100).iload(1).idiv().pop().iload(1).int(1).isub().istore(1).goto(1);
    let mut trial = with_methods(&[calls, divides, again]);
    for (method, int) in [(MAIN, 3), (MAIN, 1), (22, 2), (22, -1)] {
        trial.start(0, 1, 10, method, int);
        trial.run(50);
        trial.step();
        trial.drop_task(0);
    }
    trial
}

/// In a file of version 1 neither is known.
pub fn in_version_1() -> Trial {
    let mut trial = ready();
    for opcode in [op::IMUL, op::IDIV] {
        trial.define(1, &Draft::new(10).main(MAIN, &c().iload(1).iload(1).plain(opcode).ireturn()));
    }
    trial
}

/// Every list here.
pub fn rates() -> Vec<Trial> {
    vec![products(), quotients(), zero_divisor(), within(), in_version_1()]
}

/// Powers of two with their neighbours, and some more ints, each with its negative.
fn edges() -> Vec<i32> {
    let powers = [0, 1, 2, 3, 7, 8, 14, 15, 16, 23, 24, 30, 31].map(|bits| 1i32 << bits);
    let near = powers.iter().flat_map(|&power| [power.wrapping_sub(1), power, power.wrapping_add(1)]);
    near.chain([7, 10, 12, 100, 365, 1_000, 46_340, 46_341]).flat_map(|int| [int, int.wrapping_neg()]).collect()
}

/// So many pairs of any ints; the second has any number of bits.
fn random_pairs(count: usize) -> Vec<(i32, i32)> {
    let mut rng = Rng::new(4);
    let mut draw = || rng.draw() as i32;
    (0..count).map(|_| (draw(), draw() >> (draw() & 31))).collect()
}

/// What java/Rates.java prints, by products and quotients that are found in this way; a quotient by 0 gives nothing.
pub fn figures(mut found: impl FnMut(u8, i32, i32) -> Option<i32>) -> String {
    let edges = edges();
    let pairs = edges.iter().flat_map(|&one| edges.iter().map(move |&other| (one, other))).collect();
    let mut line = |what: &str, pairs: Vec<(i32, i32)>| {
        let (mut products, mut quotients, mut refused) = (0, 0, 0);
        for &(one, other) in &pairs {
            products = summed(products, found(op::IMUL, one, other));
            let quotient = found(op::IDIV, one, other);
            quotients = summed(quotients, quotient);
            refused += usize::from(quotient.is_none());
        }
        format!("{what} pairs {}: products {products:016x}, quotients {quotients:016x}, zero divisors {refused}\n", pairs.len())
    };
    line("edge", pairs) + &line("random", random_pairs(100_000))
}

/// One more result: every difference shows.
fn summed(sum: u64, result: Option<i32>) -> u64 {
    sum.wrapping_mul(31).wrapping_add(result.map_or(1 << 32, |int| i64::from(int) as u64))
}

/// A quote before a product or quotient of two ints, for `give` to set.
pub fn before(opcode: u8) -> Store {
    let mut trial = with_methods(&[c().iload(1).iload(1).plain(opcode).ireturn()]);
    trial.start(0, 1, 10, MAIN, 7);
    trial.run(2);
    trial.store
}

/// Puts the quote of `before` back there, with these operands.
pub fn give(store: &mut Store, lower: i32, upper: i32) {
    let base = frame_base(0, 0);
    store.frames[base + cell::POINT] = 4;
    store.frames[base + cell::OPERANDS] = 2;
    for (operand, place) in [lower, upper].into_iter().zip([0, 2]) {
        Value::Int(operand as u32).write(&mut store.frames, base + cell::OPERAND_0 + place);
    }
}

/// The quote's lowest operand, which is an int.
pub fn result(store: &Store) -> Option<i32> {
    match Value::read(&store.frames, frame_base(0, 0) + cell::OPERAND_0)? {
        Value::Int(bits) => Some(bits as i32),
        _ => None,
    }
}
