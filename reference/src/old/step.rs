//! One instruction by document 01: 1, unreadable 14, 5 7 10 9, other 14, 11.

use super::agree::{has_tie, tie};
use super::calls::bound;
use super::class::{decode, Head, Op};
use super::tables::{OldStore, Place, Value, FRAMES, MOST_LOCALS, MOST_OPERANDS, OBJECTS, TIES};
use super::world::World;
use crate::answer::{word, Answer, Refusal};

const STUCK: Refusal = Refusal::Word(word::STUCK);
const FULL: Refusal = Refusal::Word(word::FULL);

/// A step on a store that isn't broken.
pub fn turn(store: &mut OldStore, world: &World) -> Answer {
    let Some(task) = store.turn() else {
        return Answer::Idle;
    };
    let frame = Place::of(task, store.frame_count(task) - 1);
    let class = store.frame_class(frame) as u16;
    let Some((op, next)) = instruction(store, world, frame) else {
        return Answer::Refused(STUCK);
    };
    let mut step = Step { store, world, task, frame, class, next: next as u32 };
    step.carry_out(op).unwrap_or_else(Answer::Refused)
}

fn instruction(store: &OldStore, world: &World, frame: Place) -> Option<(Op, usize)> {
    let file = world.classes[store.frame_class(frame) as usize].file.as_ref()?;
    let method = file.methods.get(store.method(frame) as usize)?;
    decode(&method.code, store.point(frame) as usize)
}

struct Step<'a> {
    store: &'a mut OldStore,
    world: &'a World,
    task: usize,
    frame: Place,
    /// The frame's class.
    class: u16,
    next: u32,
}

/// What a step answers, or why it is refused.
type Done = Result<Answer, Refusal>;

impl Step<'_> {
    fn carry_out(&mut self, op: Op) -> Done {
        match op {
            Op::Null => self.push(|_| Ok(Value::Null)),
            Op::Int(int) => self.push(|_| Ok(Value::Int(i32::from(int) as u32))),
            Op::Load { local, int } => self.push(|step| {
                let value = if local < MOST_LOCALS { step.store.value(step.frame.local(local)) } else { None };
                value.filter(|value| if int { value.is_int() } else { value.is_reference() }).ok_or(STUCK)
            }),
            Op::Dup => self.push(|step| step.operand(1)),
            Op::Store { local, int } => {
                let value = self.operand(1)?;
                if local >= MOST_LOCALS || !(if int { value.is_int() } else { value.is_reference() }) {
                    return Err(STUCK);
                }
                self.store.set_value(self.frame.local(local), value);
                self.go_on(1, None)
            }
            Op::Pop => {
                self.operand(1)?;
                self.go_on(1, None)
            }
            Op::Add => self.arithmetic(u32::wrapping_add),
            Op::Sub => self.arithmetic(u32::wrapping_sub),
            Op::Get { class, field, of } => self.get(class, field, of),
            Op::Put { class, field, of } => self.put(class, field, of),
            Op::Invoke { class, head } => self.invoke(class, head),
            Op::New { class } => self.make(class),
            Op::Return { int } => self.give_back(int),
        }
    }

    /// An operand by its place from the top, which is 1.
    fn operand(&self, from_top: u32) -> Result<Value, Refusal> {
        let place = self.store.operands(self.frame).checked_sub(from_top).ok_or(STUCK)?;
        self.store.value(self.frame.operand(place)).ok_or(STUCK)
    }

    /// Takes so many operands off, puts one on perhaps, and stands at the next point.
    fn go_on(&mut self, off: u32, on: Option<Value>) -> Done {
        let mut operands = self.store.operands(self.frame) - off;
        if let Some(value) = on {
            self.store.set_value(self.frame.operand(operands), value);
            operands += 1;
        }
        self.store.set_operands(self.frame, operands);
        self.store.set_point(self.frame, self.next);
        Ok(Answer::Ran(self.task as u8))
    }

    fn push(&mut self, value: impl Fn(&Self) -> Result<Value, Refusal>) -> Done {
        if self.store.operands(self.frame) >= MOST_OPERANDS {
            return Err(FULL);
        }
        let value = value(self)?;
        self.go_on(0, Some(value))
    }

    fn arithmetic(&mut self, of: fn(u32, u32) -> u32) -> Done {
        match [self.operand(2)?, self.operand(1)?] {
            [Value::Int(lower), Value::Int(upper)] => self.go_on(2, Some(Value::Int(of(lower, upper)))),
            _ => Err(STUCK),
        }
    }

    /// The class that is cached for a name under the frame class's loader.
    fn named(&self, name: u16) -> Result<u16, Refusal> {
        let loader = self.world.loader(self.class);
        self.store.cached(loader, name).ok_or(Refusal::Wanted(loader as u8, name))
    }

    /// The new ties on these types between the loader of the class that was found and the frame class's, if there is room and the store would agree.
    fn ties(&self, found: u16, types: &[u16], is_room: bool) -> Result<Vec<[u16; 3]>, Refusal> {
        let [there, here] = [found, self.class].map(|class| self.world.loader(class));
        let mut after = bound(self.store);
        let before = after.ties.len();
        for row in types.iter().filter_map(|&of| tie(there, here, of)) {
            if !has_tie(&after.ties, row) {
                after.ties.push(row);
            }
        }
        let new = after.ties[before..].to_vec();
        if !is_room || !self.store.has_room(TIES, new.len()) {
            return Err(FULL);
        }
        if !new.is_empty() && !after.agrees(self.world) {
            return Err(Refusal::Word(word::CLASH));
        }
        Ok(new)
    }

    fn post(&mut self, ties: Vec<[u16; 3]>) {
        ties.into_iter().for_each(|row| self.store.add_row(TIES, row));
    }

    /// The receiver, whose class is the named one or below it. Null is refused after all else.
    fn receiver(&self, from_top: u32, named: u16) -> Result<u32, Refusal> {
        match self.operand(from_top)? {
            Value::Object(object) if self.world.is_below(self.store.object_class(object) as u16, named) => Ok(object),
            Value::Null => Err(Refusal::Word(word::NULL)),
            _ => Err(STUCK),
        }
    }

    /// The value on top that a putfield or a call hands over.
    fn handed(&self, of: u16) -> Result<Value, Refusal> {
        self.operand(1).and_then(|value| if value.is_of(of) { Ok(value) } else { Err(STUCK) })
    }

    fn get(&mut self, class: u16, field: u16, of: u16) -> Done {
        let named = self.named(class)?;
        let (found, place) = self.world.field(named, field, of).ok_or(Refusal::Word(word::ABSENT))?;
        let ties = self.ties(found, &[of], true)?;
        let object = self.receiver(1, named)?;
        let value = self.store.field(object, place).ok_or(STUCK)?;
        self.post(ties);
        self.go_on(1, Some(value))
    }

    fn put(&mut self, class: u16, field: u16, of: u16) -> Done {
        let named = self.named(class)?;
        let (found, place) = self.world.field(named, field, of).ok_or(Refusal::Word(word::ABSENT))?;
        let ties = self.ties(found, &[of], true)?;
        let value = self.handed(of)?;
        let object = self.receiver(2, named)?;
        self.store.set_field(object, place, value);
        self.post(ties);
        self.go_on(2, None)
    }

    fn invoke(&mut self, class: u16, head: Head) -> Done {
        let named = self.named(class)?;
        let (found, _) = self.world.method(named, head).ok_or(Refusal::Word(word::ABSENT))?;
        let ties = self.ties(found, &[head.argument, head.result], self.store.has_room(FRAMES + self.task, 1))?;
        let argument = self.handed(head.argument)?;
        let object = self.receiver(2, named)?;
        let (owner, place) = self.world.method(self.store.object_class(object) as u16, head).ok_or(STUCK)?;
        self.post(ties);
        let done = self.go_on(2, None);
        self.store.add_frame(self.task, owner, place, Value::Object(object), argument);
        done
    }

    fn make(&mut self, name: u16) -> Done {
        let class = self.named(name)?;
        if self.store.operands(self.frame) >= MOST_OPERANDS || !self.store.has_room(OBJECTS, 1) {
            return Err(FULL);
        }
        let object = self.store.add_object(class, &self.world.field_types(class));
        self.go_on(0, Some(object))
    }

    /// Hands the top operand to the frame below, or finishes the task with it, which must be an int then.
    fn give_back(&mut self, int: bool) -> Done {
        let caller = self.store.frame_count(self.task).checked_sub(2).map(|depth| Place::of(self.task, depth));
        if caller.is_some_and(|caller| self.store.operands(caller) >= MOST_OPERANDS) {
            return Err(FULL);
        }
        let value = self.operand(1)?;
        let answer = match (caller, value) {
            _ if !(if int { value.is_int() } else { value.is_reference() }) => return Err(STUCK),
            (Some(caller), _) => {
                let operands = self.store.operands(caller);
                self.store.set_value(caller.operand(operands), value);
                self.store.set_operands(caller, operands + 1);
                Answer::Ran(self.task as u8)
            }
            (None, Value::Int(bits)) => Answer::Finished(self.task as u8, bits),
            (None, _) => return Err(STUCK),
        };
        self.store.counts[FRAMES + self.task] -= 1;
        Ok(answer)
    }
}
