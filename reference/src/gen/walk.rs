//! Code that the verifier takes, mostly: a walk over points that keeps the types in mind. The jumps are in jumps.rs.

use super::blueprint::{Blueprint, MAIN};
use super::build::Code;
use super::rng::Rng;
use super::spoils;
use crate::code::op;
use crate::file::{LISTED, MAPPED};
use crate::signature::Signature;
use crate::store::{INT, OBJECT};
use crate::verifier::Type;

const COMFORTABLE: usize = 12;

pub struct Walk<'a> {
    pub rng: &'a mut Rng,
    pub blueprint: &'a Blueprint,
    pub code: Code,
    pub operands: Vec<Type>,
    pub locals: [Type; 8],
    pub version: u8,
    pub result: u16,
    /// Operands below this one stay.
    pub floor: usize,
    /// Bit n: local n stays.
    pub fixed: u8,
    /// How many branches the walk is in, and how many labels it has used.
    pub depth: usize,
    pub labels: u16,
}

/// The code of a method of class `own`, with its maps if the version has them.
pub fn method(rng: &mut Rng, blueprint: &Blueprint, version: u8, own: u16, arguments: &[u16], result: u16) -> Code {
    let mut locals = [Type::Unset; 8];
    locals[0] = Type::Class(own);
    locals[1..].iter_mut().zip(arguments).for_each(|(local, &of)| *local = Type::named(of));
    let length = rng.within(0, 7);
    let (code, operands) = (Code::of_version(version), Vec::new());
    let mut walk =
        Walk { rng, blueprint, code, operands, locals, version, result, floor: 0, fixed: 0, depth: 0, labels: 0 };
    if version >= MAPPED && walk.rng.percent(10) {
        walk.map_at_entry();
    }
    for _ in 0..length {
        walk.action();
    }
    walk.give_back();
    let mut code = walk.code;
    if rng.percent(2) {
        spoil(rng, &mut code.bytes);
    }
    if version >= MAPPED && rng.percent(4) {
        spoils::spoil(rng, &mut code);
    }
    code
}

/// A byte changed or cut off: mostly the verifier rejects it.
fn spoil(rng: &mut Rng, code: &mut Vec<u8>) {
    let at = rng.below(code.len());
    match rng.below(3) {
        0 => code[at] = rng.draw() as u8,
        1 => code.truncate(at.max(1)),
        _ => code.insert(at, rng.pick(&op::ALL)),
    }
}

impl Walk<'_> {
    pub fn emit(&mut self, change: impl FnOnce(Code) -> Code) {
        self.code = change(std::mem::take(&mut self.code));
    }

    pub fn action(&mut self) {
        if self.operands.len() > COMFORTABLE {
            return self.pop();
        }
        if self.version >= MAPPED && self.depth < 3 && self.code.bytes.len() < 250 && self.rng.percent(22) {
            return self.branch();
        }
        match self.rng.weighted(&[2, 2, 3, 1, 1, 2, 3, 4, 2]) {
            0 => self.int(),
            1 => self.some_reference(),
            2 => self.keep(),
            3 => self.pop(),
            4 => self.dup(),
            5 => self.arithmetic(),
            6 => self.getfield(),
            7 => self.putfield(),
            _ => self.invoke(),
        }
    }

    pub fn locals_of(&self, fits: impl Fn(Type) -> bool) -> Vec<u8> {
        (0..8).filter(|&local| fits(self.locals[usize::from(local)])).collect()
    }

    pub fn int(&mut self) {
        let locals = self.locals_of(|of| of == Type::Int);
        if !locals.is_empty() && self.rng.percent(60) {
            let local = self.rng.pick(&locals);
            self.emit(|code| code.iload(local));
        } else {
            let int = match self.rng.below(4) {
                0 => self.rng.pick(&[i16::MIN, i16::MAX, -1, 0]),
                _ => self.rng.below(100) as i16,
            };
            self.emit(|code| code.int(int));
        }
        self.operands.push(Type::Int);
    }

    /// A reference that meets the class name.
    fn reference(&mut self, name: u16) {
        let lower = self.blueprint.downward(name);
        let meets = |of: Type| match of {
            Type::Class(stands) => stands == name || name == OBJECT || lower.contains(&stands),
            Type::Null => true,
            _ => false,
        };
        let locals = self.locals_of(meets);
        let of = if !locals.is_empty() && self.rng.percent(70) {
            let local = self.rng.pick(&locals);
            self.emit(|code| code.aload(local));
            self.locals[usize::from(local)]
        } else if self.rng.percent(6) {
            self.emit(|code| code.null());
            Type::Null
        } else {
            let class = if lower.is_empty() || self.rng.percent(60) { name } else { self.rng.pick(&lower) };
            self.emit(|code| code.object(class));
            Type::Class(class)
        };
        self.operands.push(of);
    }

    pub fn some_reference(&mut self) {
        let name = self.some_class();
        self.reference(name);
    }

    pub fn some_class(&mut self) -> u16 {
        let names = self.blueprint.names();
        match self.rng.below(12) {
            0 => OBJECT,
            1..=4 => match self.locals[self.rng.below(2)] {
                Type::Class(name) => name,
                _ => self.rng.pick(&names),
            },
            _ => self.rng.pick(&names),
        }
    }

    fn value(&mut self, of: u16) {
        if of == INT {
            self.int()
        } else {
            self.reference(of)
        }
    }

    /// Stores the top operand in a local; there is one if there was none.
    fn keep(&mut self) {
        let local = self.rng.within(1, 7) as u8;
        if self.fixed >> local & 1 == 1 {
            return self.pop();
        }
        if self.operands.len() <= self.floor {
            self.some_reference();
        }
        let Some(of) = self.operands.pop() else {
            return;
        };
        self.locals[usize::from(local)] = of;
        self.emit(|code| if of == Type::Int { code.istore(local) } else { code.astore(local) });
    }

    pub fn pop(&mut self) {
        if self.operands.len() > self.floor {
            self.operands.pop();
            self.emit(|code| code.pop());
        }
    }

    fn dup(&mut self) {
        if let Some(&of) = self.operands.last() {
            self.operands.push(of);
            self.emit(|code| code.dup());
        }
    }

    fn arithmetic(&mut self) {
        self.int();
        self.int();
        // now and then in version 1, which doesn't know the last two
        let known = if self.version >= MAPPED || self.rng.percent(6) { 4 } else { 2 };
        let opcode = self.rng.pick(&[op::IADD, op::ISUB, op::IMUL, op::IDIV][..known]);
        self.emit(|code| code.plain(opcode));
        self.operands.pop();
    }

    /// A class to name and one of its chain's fields; now and then one that isn't there.
    fn some_field(&mut self) -> (u16, u16, u16) {
        let class = self.some_class();
        let fields: Vec<(u16, u16)> =
            self.blueprint.upward(class).iter().flat_map(|sketch| sketch.fields.clone()).collect();
        if fields.is_empty() && self.rng.percent(85) {
            let has_fields = self.blueprint.sketches.iter().find(|sketch| !sketch.fields.is_empty());
            if let Some(sketch) = has_fields {
                return (sketch.name, sketch.fields[0].0, sketch.fields[0].1);
            }
        }
        if fields.is_empty() || self.rng.percent(3) {
            return (class, 99, INT);
        }
        let (field, of) = self.rng.pick(&fields);
        (class, field, of)
    }

    fn getfield(&mut self) {
        let (class, field, of) = self.some_field();
        self.reference(class);
        self.emit(|code| code.getfield(class, field, of));
        self.operands.pop();
        self.operands.push(Type::named(of));
    }

    fn putfield(&mut self) {
        let (class, field, of) = self.some_field();
        self.reference(class);
        self.value(of);
        self.emit(|code| code.putfield(class, field, of));
        self.operands.pop();
        self.operands.pop();
    }

    fn invoke(&mut self) {
        let names = self.blueprint.names();
        let class = self.rng.pick(&names);
        let of_chain = self.blueprint.upward(class).into_iter().flat_map(|sketch| sketch.methods.clone());
        let methods: Vec<Signature> = of_chain.filter(|method| method.is_of(self.version)).collect();
        let others: Vec<Signature> = methods.iter().copied().filter(|method| method.arguments.count() != 1).collect();
        let method = match self.rng.below(100) {
            0..=2 => self.absent(),
            3..=50 if !others.is_empty() => self.rng.pick(&others),
            _ => self.rng.pick(&methods),
        };
        let arguments = method.arguments.types();
        self.reference(class);
        arguments.iter().for_each(|&of| self.value(of));
        self.emit(|code| code.call(class, method.name, arguments, method.result));
        self.operands.truncate(self.operands.len() - arguments.len() - 1);
        self.operands.push(Type::named(method.result));
    }

    /// A method that isn't there: of another name, or with a list that no class has.
    fn absent(&mut self) -> Signature {
        if self.version < LISTED || self.rng.percent(50) {
            return Signature::of_ints(98);
        }
        let count = self.rng.pick(&[0, 2, 3, 4]);
        Signature::new(MAIN, &[INT; 4][..count], INT)
    }

    pub fn give_back(&mut self) {
        let result = self.result;
        match self.operands.last() {
            Some(Type::Int) if result == INT => {}
            _ => self.value(result),
        }
        self.emit(|code| if result == INT { code.ireturn() } else { code.areturn() });
    }
}
