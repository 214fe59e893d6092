//! Products and quotients done wrongly.

use reference::answer::word;
use reference::code::{decode, Instruction};
use reference::gen::Call;
use reference::step::take_step;
use reference::store::{cell, count, Value};
use reference::{Answer, Refusal, Reply, Store};

use crate::faults::{stepping, Fault};
use crate::mapped::{method_at, top};

/// Quotients first, then the divisor 0, then products, then version 1.
pub const FAULTS: [Fault; 17] = [
    ("quotients-are-floored", |call, store| dividing(call, store, |lower, upper| Some(floored(lower, upper)))),
    ("quotients-are-rounded", |call, store| {
        dividing(call, store, |lower, upper| Some((f64::from(lower) / f64::from(upper)).round() as i64 as i32))
    }),
    ("divides-without-the-sign", |call, store| dividing(call, store, |lower, upper| Some((lower as u32 / upper as u32) as i32))),
    ("divides-upside-down", |call, store| dividing(call, store, |lower, upper| (lower != 0).then(|| upper.wrapping_div(lower)))),
    ("gives-the-remainder", |call, store| dividing(call, store, |lower, upper| Some(lower.wrapping_rem(upper)))),
    ("the-least-by-minus-one-is-refused", |call, store| {
        refusing(call, store, word::ZERO_DIVISOR, |rate| rate.instruction == Instruction::Idiv && rate.ints() == Some((i32::MIN, -1)))
    }),
    ("the-least-by-minus-one-is-the-greatest", |call, store| dividing(call, store, |lower, upper| Some(lower.saturating_div(upper)))),
    ("zero-divisor-is-stuck", |call, store| refusing(call, store, word::STUCK, Rate::is_by_0)),
    ("zero-divisor-is-null", |call, store| refusing(call, store, word::NULL, Rate::is_by_0)),
    ("zero-divisor-before-a-wrong-kind", |call, store| {
        refusing(call, store, word::ZERO_DIVISOR, |rate| rate.has_divisor_0() && rate.operands.len() >= 2)
    }),
    ("zero-divisor-before-a-missing-operand", |call, store| {
        refusing(call, store, word::ZERO_DIVISOR, |rate| rate.has_divisor_0() && rate.operands.len() == 1)
    }),
    ("divided-by-zero-is-zero", |call, store| giving(call, store, |rate| rate.is_by_0().then_some(0))),
    ("a-refused-division-takes-its-operands", |call, store| {
        refused(call, store, |store, frame| store.frames[frame + cell::OPERANDS] -= 2)
    }),
    ("a-refused-division-ends-its-task", |call, store| {
        refused(call, store, |store, _| store.turn().into_iter().for_each(|task| store.counts[count::FRAMES + task] = 0))
    }),
    ("products-saturate", |call, store| multiplying(call, store, i32::saturating_mul)),
    ("products-lose-a-bit", |call, store| {
        multiplying(call, store, |lower, upper| (i64::from(lower) * i64::from(upper) % (1 << 31)) as i32)
    }),
    ("rates-run-in-version-one", |call, store| {
        stepping(call, store, |store, classes| match Rate::at_turn(store) {
            Some(Rate { version: 1, frame, operands, .. }) if operands.len() >= 2 => settle(store, frame, 1),
            _ => take_step(store, classes),
        })
    }),
];

/// A product or quotient at its turn, whatever the version of its file.
struct Rate {
    version: u8,
    instruction: Instruction,
    frame: usize,
    operands: Vec<Value>,
}

impl Rate {
    fn at_turn(store: &Store) -> Option<Rate> {
        let frame = top(store)?;
        let method = method_at(store, frame)?;
        let instruction = decode(2, method.code, store.frames[frame + cell::POINT] as usize)?.0;
        let places = 0..store.frames[frame + cell::OPERANDS] as usize;
        let operands = places.filter_map(|place| Value::read(&store.frames, frame + cell::OPERAND_0 + 2 * place)).collect();
        let is_rate = matches!(instruction, Instruction::Imul | Instruction::Idiv);
        is_rate.then_some(Rate { version: method.version, instruction, frame, operands })
    }

    /// The two upper operands, if they are ints and the version knows the instruction.
    fn ints(&self) -> Option<(i32, i32)> {
        match self.operands[..] {
            [.., Value::Int(lower), Value::Int(upper)] if self.version > 1 => Some((lower as i32, upper as i32)),
            _ => None,
        }
    }

    /// Is it a quotient that is refused for its divisor alone?
    fn is_by_0(&self) -> bool {
        self.has_divisor_0() && self.ints().is_some()
    }

    fn has_divisor_0(&self) -> bool {
        self.version > 1 && self.instruction == Instruction::Idiv && self.operands.last() == Some(&Value::Int(0))
    }
}

/// Leaves this in place of two operands, and goes on.
fn settle(store: &mut Store, frame: usize, result: i32) -> Answer {
    let left = store.frames[frame + cell::OPERANDS] as usize - 2;
    Value::Int(result as u32).write(&mut store.frames, frame + cell::OPERAND_0 + 2 * left);
    store.frames[frame + cell::OPERANDS] -= 1;
    store.frames[frame + cell::POINT] += 1;
    store.turn().map_or(Answer::Idle, |task| Answer::Ran(task as u8))
}

/// Steps in which some products or quotients give something else.
fn giving(call: &Call, store: &mut Store, gives: impl Fn(&Rate) -> Option<i32>) -> Option<Reply> {
    stepping(call, store, |store, classes| {
        let wrong = Rate::at_turn(store).and_then(|rate| Some((rate.frame, gives(&rate)?)));
        match wrong {
            Some((frame, result)) => settle(store, frame, result),
            None => take_step(store, classes),
        }
    })
}

/// Steps in which quotients, but for those by 0, give something else.
fn dividing(call: &Call, store: &mut Store, of: fn(i32, i32) -> Option<i32>) -> Option<Reply> {
    giving(call, store, |rate| {
        let (lower, upper) = rate.ints()?;
        (rate.instruction == Instruction::Idiv && upper != 0).then(|| of(lower, upper))?
    })
}

/// Steps in which products give something else.
fn multiplying(call: &Call, store: &mut Store, of: fn(i32, i32) -> i32) -> Option<Reply> {
    giving(call, store, |rate| {
        let (lower, upper) = rate.ints()?;
        (rate.instruction == Instruction::Imul).then(|| of(lower, upper))
    })
}

/// Steps that refuse some products or quotients with this word.
fn refusing(call: &Call, store: &mut Store, word: u8, refuses: impl Fn(&Rate) -> bool) -> Option<Reply> {
    stepping(call, store, |store, classes| match Rate::at_turn(store) {
        Some(rate) if refuses(&rate) => Answer::Refused(Refusal::Word(word)),
        _ => take_step(store, classes),
    })
}

/// Steps that change something when they refuse a divisor 0.
fn refused(call: &Call, store: &mut Store, then: impl Fn(&mut Store, usize)) -> Option<Reply> {
    stepping(call, store, |store, classes| {
        let answer = take_step(store, classes);
        if let (Answer::Refused(Refusal::Word(word::ZERO_DIVISOR)), Some(frame)) = (answer, top(store)) {
            then(store, frame);
        }
        answer
    })
}

fn floored(lower: i32, upper: i32) -> i32 {
    let quotient = i64::from(lower).div_euclid(upper.into());
    let is_above = quotient * i64::from(upper) != lower.into() && upper < 0;
    (quotient - i64::from(is_above)) as i32
}
