//! step: one instruction of the task whose turn it is.

use crate::agree::{agrees, tie, Added};
use crate::answer::{word, Answer, Refusal};
use crate::broken::unbroken;
use crate::classes::Classes;
use crate::code::{decode, FieldRef, Instruction, MethodRef};
use crate::load::is_new_tie;
use crate::signature::MOST_ARGUMENTS;
use crate::store::{cell, count, frame_base, Store, Value, LOCALS, OPERANDS};
use crate::task::make_object;

const STUCK: Refusal = Refusal::Word(word::STUCK);
const FULL: Refusal = Refusal::Word(word::FULL);

pub fn step(store: &mut Store) -> Answer {
    match unbroken(store) {
        Some(classes) => take_step(store, &classes),
        None => Answer::Refused(Refusal::Word(word::BROKEN)),
    }
}

/// A step on a store that isn't broken, with its classes.
pub fn take_step(store: &mut Store, classes: &Classes) -> Answer {
    let Some(task) = store.turn() else {
        return Answer::Idle;
    };
    let Some((instruction, next)) = instruction_of(store, task) else {
        return Answer::Refused(STUCK);
    };
    let base = frame_base(task, store.frame_count(task) - 1);
    let operands = store.frames[base + cell::OPERANDS] as usize;
    let turn = Turn { store, classes, task, base, operands, next };
    match turn.execute(instruction) {
        Ok(answer) => {
            // It ran or finished: objects may have moved.
            store.close();
            answer
        }
        Err(refusal) => Answer::Refused(refusal),
    }
}

/// The instruction of a task's top frame and the next point, if it can be read.
pub fn instruction_of(store: &Store, task: usize) -> Option<(Instruction, usize)> {
    let base = frame_base(task, store.frame_count(task).checked_sub(1)?);
    let file = store.file(store.frames[base + cell::CLASS] as u16)?;
    let method = file.method(store.frames[base + cell::METHOD] as usize)?;
    decode(method.version, method.code, store.frames[base + cell::POINT] as usize)
}

/// The top frame of the task at its turn.
struct Turn<'a> {
    store: &'a mut Store,
    classes: &'a Classes,
    task: usize,
    base: usize,
    operands: usize,
    next: usize,
}

/// The most ties of one instruction: on each argument and the result of a call.
const MOST_TIES: usize = MOST_ARGUMENTS + 1;

/// The new ties of one instruction.
struct NewTies {
    rows: [[u16; 3]; MOST_TIES],
    count: usize,
}

impl NewTies {
    fn rows(&self) -> &[[u16; 3]] {
        &self.rows[..self.count]
    }
}

impl Turn<'_> {
    fn execute(mut self, instruction: Instruction) -> Result<Answer, Refusal> {
        match instruction {
            Instruction::AconstNull => self.push(|_| Ok(Value::Null)),
            Instruction::Sipush(int) => self.push(|_| Ok(Value::Int(i32::from(int) as u32))),
            Instruction::Iload(n) => self.push(|turn| turn.local(n).filter(is_int).ok_or(STUCK)),
            Instruction::Aload(n) => self.push(|turn| turn.local(n).filter(is_reference).ok_or(STUCK)),
            Instruction::Dup => self.push(|turn| turn.operand(0)),
            Instruction::Istore(n) => self.store_local(n, is_int),
            Instruction::Astore(n) => self.store_local(n, is_reference),
            Instruction::Pop => {
                self.operand(0)?;
                self.settle(1, None)
            }
            Instruction::Iadd => self.arithmetic(|lower, upper| Ok(lower.wrapping_add(upper))),
            Instruction::Isub => self.arithmetic(|lower, upper| Ok(lower.wrapping_sub(upper))),
            Instruction::Imul => self.arithmetic(|lower, upper| Ok(lower.wrapping_mul(upper))),
            Instruction::Idiv => self.arithmetic(quotient),
            Instruction::Getfield(at) => self.getfield(at),
            Instruction::Putfield(at) => self.putfield(at),
            Instruction::Invokevirtual(at) => self.invokevirtual(at),
            Instruction::New(class) => self.new_object(class),
            Instruction::Ireturn => self.give_back(is_int),
            Instruction::Areturn => self.give_back(is_reference),
            Instruction::Ifeq(target) => {
                let jumps = self.int(0)? == 0;
                self.jump(1, jumps, target)
            }
            Instruction::IfIcmplt(target) => {
                let (lower, upper) = (self.int(1)? as i32, self.int(0)? as i32);
                self.jump(2, lower < upper, target)
            }
            Instruction::Goto(target) => self.jump(0, true, target),
        }
    }

    /// The operand so far below the top.
    fn operand(&self, depth: usize) -> Result<Value, Refusal> {
        let place = self.operands.checked_sub(depth + 1).ok_or(STUCK)?;
        Value::read(&self.store.frames, self.base + cell::OPERAND_0 + 2 * place).ok_or(STUCK)
    }

    fn int(&self, depth: usize) -> Result<u32, Refusal> {
        match self.operand(depth)? {
            Value::Int(bits) => Ok(bits),
            _ => Err(STUCK),
        }
    }

    fn local_cell(&self, number: u8) -> Option<usize> {
        let number = usize::from(number);
        (number < LOCALS).then_some(self.base + cell::LOCAL_0 + 2 * number)
    }

    fn local(&self, number: u8) -> Option<Value> {
        Value::read(&self.store.frames, self.local_cell(number)?)
    }

    /// Takes operands off, puts one on, and moves to the next point.
    fn settle(&mut self, taken: usize, put: Option<Value>) -> Result<Answer, Refusal> {
        let left = self.operands - taken;
        if let Some(value) = put {
            value.write(&mut self.store.frames, self.base + cell::OPERAND_0 + 2 * left);
        }
        self.store.frames[self.base + cell::OPERANDS] = (left + usize::from(put.is_some())) as u32;
        self.store.frames[self.base + cell::POINT] = self.next as u32;
        Ok(Answer::Ran(self.task as u8))
    }

    /// Takes operands off, and moves to the target or the next point. A target out of the code is seen by the next step.
    fn jump(&mut self, taken: usize, jumps: bool, target: u16) -> Result<Answer, Refusal> {
        self.next = if jumps { target.into() } else { self.next };
        self.settle(taken, None)
    }

    /// An instruction that only adds an operand: the limit comes before the value.
    fn push(&mut self, value: impl Fn(&Self) -> Result<Value, Refusal>) -> Result<Answer, Refusal> {
        if self.operands >= OPERANDS {
            return Err(FULL);
        }
        let value = value(self)?;
        self.settle(0, Some(value))
    }

    fn store_local(&mut self, number: u8, fits: fn(&Value) -> bool) -> Result<Answer, Refusal> {
        let value = Some(self.operand(0)?).filter(fits).ok_or(STUCK)?;
        let at = self.local_cell(number).ok_or(STUCK)?;
        value.write(&mut self.store.frames, at);
        self.settle(1, None)
    }

    fn arithmetic(&mut self, of: fn(i32, i32) -> Result<i32, Refusal>) -> Result<Answer, Refusal> {
        let (lower, upper) = (self.int(1)? as i32, self.int(0)? as i32);
        let result = of(lower, upper)?;
        self.settle(2, Some(Value::Int(result as u32)))
    }

    /// The loader of the frame's class.
    fn loader(&self) -> u16 {
        self.store.loader_of(self.store.frames[self.base + cell::CLASS] as u16)
    }

    /// The class that the instruction names, under the frame class's loader.
    fn named_class(&self, name: u16) -> Result<u16, Refusal> {
        let loader = self.loader();
        self.store.cached(loader, name).ok_or(Refusal::Wanted(loader as u8, name))
    }

    /// The ties between the nearest class's loader and the frame class's that are no rows yet.
    fn new_ties(&self, nearest: u16, types: impl Iterator<Item = u16>) -> NewTies {
        let mut new = NewTies { rows: [[0; 3]; MOST_TIES], count: 0 };
        let (there, here) = (self.store.loader_of(nearest), self.loader());
        for row in types.filter_map(|of| tie(there, here, of)) {
            if is_new_tie(self.store, new.rows(), row) {
                new.rows[new.count] = row;
                new.count += 1;
            }
        }
        new
    }

    /// Refuses ties that pass the limit, or room that isn't there, and then ties that clash.
    fn judge(&self, ties: &NewTies, room: bool) -> Result<(), Refusal> {
        let added = Added { ties: ties.rows(), ..Added::default() };
        if !room || added.is_too_much(self.store) {
            return Err(FULL);
        }
        if !added.is_empty() && !agrees(self.store, &added, self.classes) {
            return Err(Refusal::Word(word::CLASH));
        }
        Ok(())
    }

    fn post(&mut self, ties: &NewTies) {
        ties.rows().iter().for_each(|&row| self.store.add_tie(row));
    }

    /// The receiver: an object of the named class or below it, or null, which is refused last.
    fn receiver(&self, depth: usize, named: u16) -> Result<Option<u32>, Refusal> {
        match self.operand(depth)? {
            Value::Null => Ok(None),
            Value::Object(object) if self.classes.below(self.store.object_class(object), named) => Ok(Some(object)),
            _ => Err(STUCK),
        }
    }

    /// The value of a putfield or an argument of a call, so far below the top.
    fn passed(&self, depth: usize, of: u16) -> Result<Value, Refusal> {
        Some(self.operand(depth)?).filter(|value| value.is_kind_of(of)).ok_or(STUCK)
    }

    /// The arguments of a call, the last of them on top; places past their count hold null.
    fn all_passed(&self, types: &[u16]) -> Result<[Value; MOST_ARGUMENTS], Refusal> {
        let mut values = [Value::Null; MOST_ARGUMENTS];
        for (place, &of) in types.iter().enumerate() {
            values[place] = self.passed(types.len() - 1 - place, of)?;
        }
        Ok(values)
    }

    fn getfield(&mut self, at: FieldRef) -> Result<Answer, Refusal> {
        let named = self.named_class(at.class)?;
        let Some((nearest, field)) = self.classes.field(self.store, named, at.field, at.of) else {
            return Err(Refusal::Word(word::ABSENT));
        };
        let ties = self.new_ties(nearest, [at.of].into_iter());
        self.judge(&ties, true)?;
        let object = self.receiver(0, named)?.ok_or(Refusal::Word(word::NULL))?;
        let value = Value::read(&self.store.objects, Store::field_cell(object, field)).ok_or(STUCK)?;
        self.post(&ties);
        self.settle(1, Some(value))
    }

    fn putfield(&mut self, at: FieldRef) -> Result<Answer, Refusal> {
        let named = self.named_class(at.class)?;
        let Some((nearest, field)) = self.classes.field(self.store, named, at.field, at.of) else {
            return Err(Refusal::Word(word::ABSENT));
        };
        let ties = self.new_ties(nearest, [at.of].into_iter());
        self.judge(&ties, true)?;
        let value = self.passed(0, at.of)?;
        let object = self.receiver(1, named)?.ok_or(Refusal::Word(word::NULL))?;
        value.write(&mut self.store.objects, Store::field_cell(object, field));
        self.post(&ties);
        self.settle(2, None)
    }

    fn invokevirtual(&mut self, at: MethodRef) -> Result<Answer, Refusal> {
        let named = self.named_class(at.class)?;
        let Some((nearest, _)) = self.classes.method(self.store, named, at.signature) else {
            return Err(Refusal::Word(word::ABSENT));
        };
        let ties = self.new_ties(nearest, at.signature.types());
        self.judge(&ties, !self.store.is_full(count::FRAMES + self.task))?;
        let passed = at.signature.arguments.count();
        let arguments = self.all_passed(at.signature.arguments.types())?;
        let object = self.receiver(passed, named)?.ok_or(Refusal::Word(word::NULL))?;
        let own = self.store.object_class(object);
        let selected = self.classes.method(self.store, own, at.signature);
        let (owner, place) = selected.map(|(class, method)| (class, method.place)).ok_or(STUCK)?;
        self.post(&ties);
        let answer = self.settle(passed + 1, None);
        self.store.enter(self.task, owner, place, Value::Object(object), &arguments[..passed]);
        answer
    }

    fn new_object(&mut self, name: u16) -> Result<Answer, Refusal> {
        let class = self.named_class(name)?;
        // Straight before every sort of 10.
        if self.store.is_share_used(self.task) {
            return Err(Refusal::Word(word::SHARE_USED));
        }
        if self.operands >= OPERANDS {
            return Err(FULL);
        }
        let object = make_object(self.store, self.classes, class, self.task).ok_or(FULL)?;
        self.settle(0, Some(object))
    }

    /// Returns the top operand to the caller, or ends the task with it.
    fn give_back(&mut self, fits: fn(&Value) -> bool) -> Result<Answer, Refusal> {
        let caller = self.store.frame_count(self.task).checked_sub(2).map(|depth| frame_base(self.task, depth));
        let room = caller.map(|base| self.store.frames[base + cell::OPERANDS] as usize);
        if room == Some(OPERANDS) {
            return Err(FULL);
        }
        let value = Some(self.operand(0)?).filter(fits).ok_or(STUCK)?;
        let answer = match (caller, room, value) {
            (Some(base), Some(place), _) => {
                value.write(&mut self.store.frames, base + cell::OPERAND_0 + 2 * place);
                self.store.frames[base + cell::OPERANDS] += 1;
                Answer::Ran(self.task as u8)
            }
            (_, _, Value::Int(bits)) => Answer::Finished(self.task as u8, bits),
            _ => return Err(STUCK),
        };
        self.store.counts[count::FRAMES + self.task] -= 1;
        Ok(answer)
    }
}

/// Toward zero; the least int divided by −1 is itself.
fn quotient(dividend: i32, divisor: i32) -> Result<i32, Refusal> {
    if divisor == 0 {
        return Err(Refusal::Word(word::ZERO_DIVISOR));
    }
    Ok(dividend.wrapping_div(divisor))
}

fn is_int(value: &Value) -> bool {
    matches!(value, Value::Int(_))
}

fn is_reference(value: &Value) -> bool {
    matches!(value, Value::Null | Value::Object(_))
}
