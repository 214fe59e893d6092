//! Files of version 2, their jumps and their maps, done wrongly.

use reference::answer::{denied, word};
use reference::code::{decode, op, Instruction};
use reference::file::{File, Map, Method, Rule};
use reference::gen::plain::{judged, Note, Slip};
use reference::gen::reach::{reached, Without};
use reference::gen::Call;
use reference::load::define_by;
use reference::step::{instruction_of, take_step};
use reference::store::{cell, count, frame_base, Value, FRAME_ROW, LIMITS, TASKS};
use reference::{Answer, Refusal, Reply, Store};

use crate::faults::{stepping, Fault};
use crate::swept;

/// Jumps first, then what a map does to locals, then the file rules and the limit of notes.
pub const FAULTS: [Fault; 17] = [
    ("jumps-from-the-instruction", |call, store| {
        jumping(call, store, |jump, frame| {
            if jump.is_taken() {
                frame[cell::POINT] += jump.frame[cell::POINT];
            }
        })
    }),
    ("less-than-without-the-sign", |call, store| comparing(call, store, |lower, upper| lower < upper)),
    ("less-than-or-equal", |call, store| comparing(call, store, |lower, upper| lower as i32 <= upper as i32)),
    ("less-than-upside-down", |call, store| comparing(call, store, |lower, upper| (upper as i32) < lower as i32)),
    ("ifeq-leaves-its-operand", |call, store| {
        jumping(call, store, |jump, frame| frame[cell::OPERANDS] += u32::from(matches!(jump.instruction, Instruction::Ifeq(_))))
    }),
    ("ifeq-jumps-if-not-zero", |call, store| {
        jumping(call, store, |jump, frame| {
            if let Instruction::Ifeq(_) = jump.instruction {
                frame[cell::POINT] = jump.point(!jump.is_taken());
            }
        })
    }),
    ("a-jump-to-itself-is-stuck", |call, store| {
        refusing(call, store, |jump, _| jump.instruction == Instruction::Goto(jump.frame[cell::POINT] as u16))
    }),
    ("a-jump-out-of-the-code-is-stuck", |call, store| {
        refusing(call, store, |jump, method| jump.is_taken() && jump.instruction.target() >= Some(method.code.len()))
    }),
    ("jumps-run-in-version-one", |call, store| {
        stepping(call, store, |store, classes| run_in_version_1(store).unwrap_or_else(|| take_step(store, classes)))
    }),
    ("an-unset-local-is-emptied", |call, store| {
        stepping(call, store, |store, classes| {
            let answer = take_step(store, classes);
            empty_unset_locals(store);
            answer
        })
    }),
    ("sweep-forgets-unset-locals", |call, store| {
        swept::keeping(call, store, |store| {
            let mut emptied = store.clone();
            empty_unset_locals(&mut emptied);
            reached(&emptied, Without::Nothing)
        })
    }),
    ("offsets-are-the-verifiers", |call, store| ruled(call, store, |rule| matches!(rule, Rule::MapOffset(_)))),
    ("operand-counts-are-the-verifiers", |call, store| ruled(call, store, |rule| matches!(rule, Rule::TooManyMapOperands(_)))),
    ("operand-types-are-the-verifiers", |call, store| ruled(call, store, |rule| rule == Rule::MapOperand0)),
    ("version-four-is-version-three", |call, store| match *call {
        Call::Define { loader, ref file } if file.first() == Some(&4) => {
            let file = [&[3], &file[1..]].concat();
            Some(Call::Define { loader, file }.apply(store))
        }
        _ => None,
    }),
    ("full-of-notes-comes-first", |call, store| {
        let early = [word::TAKEN, word::WANTED];
        let number = call.apply(&mut store.clone()).refusal().map(Refusal::number);
        let mut notes = notes(call)?;
        notes.sort_unstable();
        notes.dedup();
        (number.is_some_and(|number| early.contains(&number)) && is_too_much(store, notes.len())).then_some(denied(word::FULL))
    }),
    ("repeated-notes-count-for-full", |call, store| {
        let is_defined = matches!(call.apply(&mut store.clone()), Reply::Defined(_));
        (is_defined && is_too_much(store, notes(call)?.len())).then_some(denied(word::FULL))
    }),
];

/// The notes of a define's file, as often as they are made.
fn notes(call: &Call) -> Option<Vec<Note>> {
    match call {
        Call::Define { file, .. } => judged(File::read(file)?, Slip::Nothing).ok(),
        _ => None,
    }
}

fn is_too_much(store: &Store, notes: usize) -> bool {
    store.count(count::SUBTYPES) + notes > usize::from(LIMITS[count::SUBTYPES])
}

/// A define whose file is judged with a slip.
pub fn slipped(call: &Call, store: &mut Store, slip: Slip) -> Option<Reply> {
    let Call::Define { loader, ref file } = *call else {
        return None;
    };
    Some(define_by(store, loader, file, |file, notes| {
        judged(file, slip).map(|all| all.into_iter().for_each(|(lower, higher)| notes.take(lower, higher)))
    }))
}

/// The desk's check with a slip.
pub fn slipped_check(bytes: &[u8], slip: Slip) -> u8 {
    File::read(bytes).map_or(word::FILE, |file| judged(file, slip).err().unwrap_or(0))
}

/// A define that leaves a file rule to the verifier.
fn ruled(call: &Call, store: &mut Store, is_rule: fn(Rule) -> bool) -> Option<Reply> {
    let Call::Define { ref file, .. } = *call else {
        return None;
    };
    let breaks = File::explained(file).is_err_and(|flaw| is_rule(flaw.rule));
    (breaks && call.apply(&mut store.clone()) == denied(word::FILE)).then_some(denied(word::UNVERIFIED))
}

/// A jump at its turn, with its frame before it runs.
struct Jump {
    instruction: Instruction,
    next: usize,
    frame: Vec<u32>,
}

impl Jump {
    fn at_turn(store: &Store) -> Option<Jump> {
        let task = store.turn()?;
        let (instruction, next) = instruction_of(store, task)?;
        instruction.target()?;
        Some(Jump { instruction, next, frame: store.frames[top(store)?..][..FRAME_ROW].to_vec() })
    }

    /// The bits of the operand so far below the top.
    fn operand(&self, depth: usize) -> u32 {
        let place = (self.frame[cell::OPERANDS] as usize).saturating_sub(depth + 1);
        self.frame[cell::OPERAND_0 + 2 * place + 1]
    }

    fn is_taken(&self) -> bool {
        match self.instruction {
            Instruction::Ifeq(_) => self.operand(0) == 0,
            Instruction::IfIcmplt(_) => (self.operand(1) as i32) < self.operand(0) as i32,
            _ => true,
        }
    }

    /// Where it goes if it is taken or not.
    fn point(&self, is_taken: bool) -> u32 {
        if is_taken { self.instruction.target().unwrap_or(0) as u32 } else { self.next as u32 }
    }
}

/// The row of the frame at its turn.
pub fn top(store: &Store) -> Option<usize> {
    let task = store.turn()?;
    Some(frame_base(task, store.frame_count(task) - 1))
}

pub fn method_at(store: &Store, frame: usize) -> Option<Method<'_>> {
    store.file(store.frames[frame + cell::CLASS] as u16)?.method(store.frames[frame + cell::METHOD] as usize)
}

/// Steps in which something happens to the frame after a jump.
fn jumping(call: &Call, store: &mut Store, then: impl Fn(&Jump, &mut [u32])) -> Option<Reply> {
    stepping(call, store, |store, classes| {
        let jump = Jump::at_turn(store);
        let answer = take_step(store, classes);
        if let (Some(jump), Answer::Ran(_), Some(top)) = (jump, answer, top(store)) {
            then(&jump, &mut store.frames[top..top + FRAME_ROW]);
        }
        answer
    })
}

/// Steps in which if_icmplt compares otherwise.
fn comparing(call: &Call, store: &mut Store, is_less: fn(u32, u32) -> bool) -> Option<Reply> {
    jumping(call, store, |jump, frame| {
        if let Instruction::IfIcmplt(_) = jump.instruction {
            frame[cell::POINT] = jump.point(is_less(jump.operand(1), jump.operand(0)));
        }
    })
}

/// Steps that refuse some jumps.
fn refusing(call: &Call, store: &mut Store, refuses: fn(&Jump, Method) -> bool) -> Option<Reply> {
    stepping(call, store, |store, classes| {
        let method = top(store).and_then(|frame| method_at(store, frame));
        match (Jump::at_turn(store), method) {
            (Some(jump), Some(method)) if refuses(&jump, method) => Answer::Refused(Refusal::Word(word::STUCK)),
            _ => take_step(store, classes),
        }
    })
}

/// A goto of a file of version 1.
fn run_in_version_1(store: &mut Store) -> Option<Answer> {
    let frame = top(store)?;
    let method = method_at(store, frame)?;
    let point = store.frames[frame + cell::POINT] as usize;
    if method.version != 1 || method.code.get(point) != Some(&op::GOTO) {
        return None;
    }
    let target = decode(2, method.code, point)?.0.target()?;
    store.frames[frame + cell::POINT] = target as u32;
    store.turn().map(|task| Answer::Ran(task as u8))
}

/// Empties the locals that a map at its frame's point makes unset.
fn empty_unset_locals(store: &mut Store) {
    for task in 0..usize::from(TASKS) {
        for depth in 0..store.frame_count(task) {
            let frame = frame_base(task, depth);
            let point = store.frames[frame + cell::POINT] as usize;
            let map: Option<Map> = method_at(store, frame).and_then(|method| method.maps().find(|map| map.offset() == point));
            let locals: Vec<u16> = map.map_or(Vec::new(), |map| map.locals().collect());
            for (local, _) in locals.into_iter().enumerate().filter(|(_, of)| *of == 0) {
                Value::Empty.write(&mut store.frames, frame + cell::LOCAL_0 + 2 * local);
            }
        }
    }
}
