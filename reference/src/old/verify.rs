//! Document 01's verifier: a type for each operand and local at each point, and notes 'a below b'.

use super::class::{decode, ClassFile, Method, Op};
use super::tables::{INT, MOST_LOCALS, MOST_OPERANDS};

/// Name a stands where name b is demanded: a below b.
pub type Note = (u16, u16);

#[derive(Clone, Copy, Debug, PartialEq, Eq)]
enum Type {
    Int,
    Null,
    Class(u16),
    /// Of a local alone.
    Unset,
}

impl Type {
    fn named(name: u16) -> Type {
        if name == INT { Type::Int } else { Type::Class(name) }
    }
}

struct Walk<'a> {
    locals: [Type; MOST_LOCALS as usize],
    operands: Vec<Type>,
    notes: &'a mut Vec<Note>,
}

impl Walk<'_> {
    fn push(&mut self, of: Type) -> Option<()> {
        self.operands.push(of);
        (self.operands.len() <= MOST_OPERANDS as usize).then_some(())
    }

    fn pop(&mut self) -> Option<Type> {
        self.operands.pop()
    }

    fn local(&mut self, number: u8) -> Option<&mut Type> {
        self.locals.get_mut(usize::from(number))
    }

    /// What stands meets what is demanded.
    fn meets(&mut self, stands: Type, demanded: u16) -> Option<()> {
        match (stands, Type::named(demanded)) {
            (Type::Int, Type::Int) | (Type::Null, Type::Class(_)) => Some(()),
            (Type::Class(a), Type::Class(b)) => {
                if a != b {
                    self.notes.push((a, b));
                }
                Some(())
            }
            _ => None,
        }
    }

    /// A value that fits an instruction for ints, or one for references.
    fn of_kind(&self, of: Type, int: bool) -> Option<Type> {
        (of != Type::Unset && (of == Type::Int) == int).then_some(of)
    }

    /// The receiver of a field or method of a class, and the value above it, if there is one.
    fn receiver(&mut self, class: u16, value: Option<u16>) -> Option<()> {
        let upper = match value {
            Some(of) => Some((self.pop()?, of)),
            None => None,
        };
        let receiver = self.pop()?;
        self.meets(receiver, class)?;
        upper.map_or(Some(()), |(stands, of)| self.meets(stands, of))
    }

    fn instruction(&mut self, op: Op, result: u16) -> Option<()> {
        match op {
            Op::Null => self.push(Type::Null),
            Op::Int(_) => self.push(Type::Int),
            Op::Load { local, int } => {
                let of = *self.local(local)?;
                self.of_kind(of, int)?;
                self.push(of)
            }
            Op::Store { local, int } => {
                let of = self.pop()?;
                self.of_kind(of, int)?;
                *self.local(local)? = of;
                Some(())
            }
            Op::Pop => self.pop().map(|_| ()),
            Op::Dup => {
                let of = *self.operands.last()?;
                self.push(of)
            }
            Op::Add | Op::Sub => {
                let both = [self.pop()?, self.pop()?];
                if both != [Type::Int; 2] {
                    return None;
                }
                self.push(Type::Int)
            }
            Op::Get { class, field, of } if class >= 2 && field != 0 && of != 0 => {
                self.receiver(class, None)?;
                self.push(Type::named(of))
            }
            Op::Put { class, field, of } if class >= 2 && field != 0 && of != 0 => self.receiver(class, Some(of)),
            Op::Invoke { class, head } if class >= 2 && head.name != 0 && head.argument != 0 && head.result != 0 => {
                self.receiver(class, Some(head.argument))?;
                self.push(Type::named(head.result))
            }
            Op::New { class } if class >= 2 => self.push(Type::Class(class)),
            Op::Return { int } if int == (result == INT) => {
                let of = self.pop()?;
                self.meets(of, result)
            }
            _ => None,
        }
    }
}

/// Walks a method's code from its first point to its last, where a return stands, and nowhere else.
fn method(own: u16, method: &Method, notes: &mut Vec<Note>) -> Option<()> {
    let mut locals = [Type::Unset; MOST_LOCALS as usize];
    locals[0] = Type::Class(own);
    locals[1] = Type::named(method.head.argument);
    let mut walk = Walk { locals, operands: Vec::new(), notes };
    let mut point = 0;
    loop {
        let (op, next) = decode(&method.code, point)?;
        walk.instruction(op, method.head.result)?;
        if matches!(op, Op::Return { .. }) || next == method.code.len() {
            return (matches!(op, Op::Return { .. }) && next == method.code.len()).then_some(());
        }
        point = next;
    }
}

/// The notes of all methods in order; nothing if a method is rejected.
pub fn verify(file: &ClassFile) -> Option<Vec<Note>> {
    let mut notes = Vec::new();
    for each in &file.methods {
        method(file.name, each, &mut notes)?;
    }
    Some(notes)
}
