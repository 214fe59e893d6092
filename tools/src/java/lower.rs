//! The translation of a method: each Java instruction as instructions of the box, in order, with the types before it at hand.

use reference::code::op;

use super::classfile::{flag, Code};
use super::decode::{Instruction, Op, Shuffle};
use super::flow::{self, Kind, Locals, State, LOCALS};
use super::items::{spare, Item, Items, Level, Operand, Simple};
use super::pool::MemberRef;
use super::refusals::Construct;
use super::types::{self, package, Descriptor, JavaType};
use super::world::{Found, World};

/// A Java method, ready to be translated.
pub struct Source<'a> {
    pub class: &'a str,
    pub descriptor: &'a Descriptor,
    pub code: &'a Code,
    pub instructions: &'a [Instruction],
    /// The states that the class file says, by place.
    pub frames: &'a [(usize, State)],
    /// The place of each point at which an instruction starts.
    pub places: &'a [Option<usize>],
    pub live: &'a [Locals],
}

impl Source<'_> {
    pub fn place(&self, point: usize) -> Option<usize> {
        self.places.get(point).copied().flatten()
    }

    fn frame(&self, place: usize) -> Option<&State> {
        let at = self.frames.binary_search_by_key(&place, |frame| frame.0).ok()?;
        Some(&self.frames[at].1)
    }

    pub fn is_framed(&self, place: usize) -> bool {
        self.frame(place).is_some()
    }

    /// The locals that are read behind this instruction.
    pub fn live_after(&self, place: usize) -> Locals {
        flow::after(self.instructions, place, self.live, &|point| self.place(point))
    }
}

/// Why a method can't be translated, and at which Java instruction.
pub struct Stopped {
    pub place: usize,
    pub construct: Construct,
}

/// A point of the method that a jump may go to: its first item, and the types there.
pub struct Begin {
    pub item: usize,
    pub place: usize,
    pub state: State,
}

/// A translated method, not yet laid out.
#[derive(Default)]
pub struct Lowered {
    pub items: Vec<Item>,
    /// By rising place.
    pub begins: Vec<Begin>,
}

pub type Step<T> = Result<T, Construct>;

/// The translation under way.
pub struct Lower<'a, 'b> {
    pub source: &'a Source<'a>,
    pub world: &'a mut World<'b>,
    pub items: Items,
    pub locals: Vec<Kind>,
    pub operands: Vec<Operand>,
    pub place: usize,
    begins: Vec<Begin>,
    /// Is there a path to the next instruction?
    is_reached: bool,
    /// The next instruction is jumped to by code that was made here.
    pub marks_next: bool,
    /// How many of the next instructions are done already.
    pub skips: usize,
}

/// The class file contradicts itself.
pub fn astray(said: &str) -> Construct {
    Construct::new(format!("code that doesn't hold together: {said}"), "compile the source anew, with a javac of today")
}

pub fn lower(source: &Source, world: &mut World) -> Result<Lowered, Stopped> {
    let entry = State::at_entry(source.class, source.descriptor);
    let mut lower = Lower {
        source, world, items: Items::default(), locals: entry.locals, operands: Vec::new(), place: 0, begins: Vec::new(),
        is_reached: true, marks_next: false, skips: 0,
    };
    lower.locals.resize(LOCALS, Kind::Unset);
    for (place, instruction) in source.instructions.iter().enumerate() {
        if lower.skips > 0 {
            lower.skips -= 1;
            continue;
        }
        lower.place = place;
        lower.items.line = source.code.line(instruction.at);
        lower.enter().and_then(|()| lower.instruction(&instruction.op)).map_err(|construct| Stopped { place, construct })?;
    }
    if lower.is_reached {
        return Err(Stopped { place: lower.place, construct: astray("a path runs off the end") });
    }
    Ok(Lowered { items: lower.items.all, begins: lower.begins })
}

impl Lower<'_, '_> {
    fn state(&self) -> State {
        State { locals: self.locals.clone(), operands: self.operands.iter().map(|operand| operand.kind.clone()).collect() }
    }

    /// Comes to an instruction: by the path before it, by its frame, or both.
    fn enter(&mut self) -> Step<()> {
        let frame = self.source.frame(self.place);
        if let Some(frame) = frame {
            let mut frame = frame.clone();
            frame.locals.resize(LOCALS, Kind::Unset);
            if self.is_reached && !self.state().fits(&frame) {
                return Err(astray("a path doesn't fit its stack map"));
            }
            self.locals = frame.locals;
            self.operands = frame.operands.into_iter().map(Operand::opaque).collect();
        } else if !self.is_reached {
            return Err(astray("a point that no path comes to has no stack map"));
        }
        self.is_reached = true;
        if frame.is_some() || std::mem::take(&mut self.marks_next) {
            self.operands.iter_mut().for_each(|operand| *operand = Operand::opaque(operand.kind.clone()));
            self.begins.push(Begin { item: self.items.all.len(), place: self.place, state: self.state() });
            self.nulls_again();
        }
        self.marks_next = false;
        Ok(())
    }

    /// A map can't say null: locals that hold null and are read later get it again.
    fn nulls_again(&mut self) {
        for local in 0..LOCALS as u8 {
            if self.locals[usize::from(local)] == Kind::Null && self.source.live[self.place] & 1 << local != 0 {
                self.items.plain(op::ACONST_NULL);
                self.items.store(&Kind::Null, local);
            }
        }
    }

    fn instruction(&mut self, op: &Op) -> Step<()> {
        match op {
            Op::Nothing => Ok(()),
            Op::Null => self.null(),
            Op::Int(int) => self.int(*int),
            Op::LoadInt(local) => self.load(*local, true),
            Op::LoadReference(local) => self.load(*local, false),
            Op::StoreInt(local) => self.store(*local, true),
            Op::StoreReference(local) => self.store(*local, false),
            Op::Increase(local, by) => self.increase(*local, *by),
            Op::Pop(count) => (0..*count).try_for_each(|_| self.pop().map(|_| self.items.plain(op::POP))),
            Op::Dup => self.dup(),
            Op::Shuffle(shuffle) => self.shuffle(*shuffle),
            Op::Add => self.binary(op::IADD, Level::Constant),
            Op::Sub => self.binary(op::ISUB, Level::Constant),
            Op::Mul => self.binary(op::IMUL, Level::Constant),
            Op::Div => self.binary(op::IDIV, Level::Fields),
            Op::Rem => self.remainder(),
            Op::Neg => self.int(-1).and_then(|()| self.binary(op::IMUL, Level::Constant)),
            Op::If(condition, target) => self.if_zero(*condition, *target),
            Op::IfTwo(condition, target) => self.if_two(*condition, *target),
            Op::Goto(target) => self.goto(*target),
            Op::Switch { default, cases } => self.switch(*default, cases),
            Op::Return => self.int(0).and_then(|()| self.give(true, op::IRETURN)),
            Op::ReturnInt => self.give(true, op::IRETURN),
            Op::ReturnReference => self.give(false, op::ARETURN),
            Op::Get(at) => self.get(at),
            Op::Put(at) => self.put(at),
            Op::Call(at) => self.call(at),
            Op::CallItself(at) if at.name == "<init>" => self.pop_kind(false).map(|_| self.items.plain(op::POP)),
            Op::CallItself(at) => self.call(at),
            Op::New(name) => self.object(name),
            Op::Refused(construct) => Err(construct.clone()),
        }?;
        if op.ends_path() {
            self.is_reached = false;
        }
        Ok(())
    }

    pub fn pop(&mut self) -> Step<Operand> {
        self.operands.pop().ok_or_else(|| astray("an operand is missing"))
    }

    /// The topmost operand, which must be an int, or a reference.
    pub fn pop_kind(&mut self, is_int: bool) -> Step<Operand> {
        let operand = self.pop()?;
        let fits = if is_int { operand.kind == Kind::Int } else { operand.kind.is_reference() };
        if fits { Ok(operand) } else { Err(astray("an int stands for a reference, or a reference for an int")) }
    }

    /// Pushes what the items from here on make.
    fn push(&mut self, kind: Kind, from: Option<usize>, level: Level, simple: Option<Simple>) {
        let made = from.map(|from| (from, self.items.all.len()));
        self.operands.push(Operand { kind, made, level, simple });
    }

    fn null(&mut self) -> Step<()> {
        let from = self.items.all.len();
        self.items.plain(op::ACONST_NULL);
        self.push(Kind::Null, Some(from), Level::Constant, None);
        Ok(())
    }

    pub fn int(&mut self, int: i32) -> Step<()> {
        let from = self.items.all.len();
        self.items.int(int);
        self.push(Kind::Int, Some(from), Level::Constant, Some(Simple::Int(int)));
        Ok(())
    }

    fn local(&self, local: u16, is_int: bool) -> Step<(u8, Kind)> {
        let kind = self.locals.get(usize::from(local)).cloned().unwrap_or(Kind::Unset);
        let fits = if is_int { kind == Kind::Int } else { kind.is_reference() };
        if fits { Ok((local as u8, kind)) } else { Err(astray("a local is read that isn't set")) }
    }

    fn load(&mut self, local: u16, is_int: bool) -> Step<()> {
        let (local, kind) = self.local(local, is_int)?;
        let from = self.items.all.len();
        self.items.load(&kind, local);
        self.push(kind, Some(from), Level::Locals, Some(Simple::Local(local)));
        Ok(())
    }

    fn store(&mut self, local: u16, is_int: bool) -> Step<()> {
        let operand = self.pop_kind(is_int)?;
        let place = self.locals.get_mut(usize::from(local)).ok_or_else(|| astray("a local that the method hasn't"))?;
        *place = operand.kind.clone();
        self.items.store(&operand.kind, local as u8);
        Ok(())
    }

    fn increase(&mut self, local: u16, by: i32) -> Step<()> {
        let (local, kind) = self.local(local, true)?;
        self.items.load(&kind, local);
        self.items.int(by);
        self.items.plain(op::IADD);
        self.items.store(&kind, local);
        Ok(())
    }

    fn dup(&mut self) -> Step<()> {
        let operand = self.pop()?;
        self.items.plain(op::DUP);
        self.operands.extend([Operand::opaque(operand.kind.clone()), Operand::opaque(operand.kind)]);
        Ok(())
    }

    /// Takes two ints and pushes one.
    pub fn binary(&mut self, opcode: u8, level: Level) -> Step<()> {
        let (b, a) = (self.pop_kind(true)?, self.pop_kind(true)?);
        let level = level.max(a.level).max(b.level);
        let from = self.items.together(&[a, b]);
        self.items.plain(opcode);
        self.push(Kind::Int, from, level, None);
        Ok(())
    }

    /// Locals that nobody reads later: as many as are asked for.
    pub fn spares(&self, count: usize, what: &str) -> Step<Vec<u8>> {
        self.spares_but(count, 0, what)
    }

    /// The same without these.
    fn spares_but(&self, count: usize, but: Locals, what: &str) -> Step<Vec<u8>> {
        let all: Vec<u8> = spare(self.source.live_after(self.place) | but).take(count).collect();
        if all.len() == count {
            return Ok(all);
        }
        let locals = if count == 1 { "local" } else { "locals" };
        let said = format!("{what} needs {count} spare {locals}, and of the 8 that a method has {} is free", all.len());
        Err(Construct::new(said, "use fewer variables in the method, or share its work among methods"))
    }

    /// a % b is a − a / b · b.
    fn remainder(&mut self) -> Step<()> {
        let (b, a) = (self.pop_kind(true)?, self.pop_kind(true)?);
        let from = self.items.together(&[a.clone(), b.clone()]);
        let level = Level::Fields.max(a.level).max(b.level);
        let (again, is_spared) = self.again(&b)?;
        // code that writes a spare local stays where it is
        let from = from.filter(|_| !is_spared);
        self.items.plain(op::DUP);
        for opcodes in [&[op::IDIV][..], &[op::IMUL, op::ISUB]] {
            self.items.all.extend(again.iter().cloned());
            opcodes.iter().for_each(|&opcode| self.items.plain(opcode));
        }
        self.push(Kind::Int, from, level, None);
        Ok(())
    }

    /// Takes the topmost int away; the code that pushes it, as often as it is wanted, and whether it went into a spare local.
    fn again(&mut self, operand: &Operand) -> Step<(Vec<Item>, bool)> {
        let from = self.items.together(std::slice::from_ref(operand));
        let own_items = |items: &mut Items| from.map(|from| items.all.split_off(from));
        if operand.simple.is_some() {
            if let Some(items) = own_items(&mut self.items) {
                return Ok((items, false));
            }
        }
        match self.spares(1, "%") {
            Ok(spare) => {
                self.items.store(&Kind::Int, spare[0]);
                self.items.load(&Kind::Int, spare[0]);
                Ok((self.items.all.split_off(self.items.all.len() - 1), true))
            }
            Err(construct) if operand.level < Level::Calls => Ok((own_items(&mut self.items).ok_or(construct)?, false)),
            Err(construct) => Err(construct),
        }
    }

    /// dup_x1 and its kin: what can't be had again goes through spare locals.
    fn shuffle(&mut self, (taken, left): Shuffle) -> Step<()> {
        let lowest = self.operands.len().checked_sub(taken).ok_or_else(|| astray("an operand is missing"))?;
        let operands = self.operands.split_off(lowest);
        let simple = self.without_simple(&operands);
        let stored: Vec<usize> = (0..taken).filter(|&i| simple[i].is_none()).collect();
        let read = simple.iter().flatten().fold(0, |all, simple| if let Simple::Local(local) = simple { all | 1 << local } else { all });
        let spares = self.spares_but(stored.len(), read, "an assignment within an expression")?;
        let mut had = simple;
        for (&i, local) in stored.iter().rev().zip(spares) {
            self.items.store(&operands[i].kind, local);
            had[i] = Some(Simple::Local(local));
        }
        for &i in left {
            let kind = &operands[i].kind;
            match (kind, &had[i]) {
                (Kind::Null, _) => self.items.plain(op::ACONST_NULL),
                (_, Some(simple)) => self.items.simple(kind, simple),
                (_, None) => return Err(astray("an operand is missing")),
            }
            self.operands.push(Operand::opaque(kind.clone()));
        }
        Ok(())
    }

    /// Takes away the code of those topmost operands that can be had again without it, and says how.
    fn without_simple(&mut self, operands: &[Operand]) -> Vec<Option<Simple>> {
        let Some(from) = self.items.together(operands) else {
            return vec![None; operands.len()];
        };
        let code = self.items.all.split_off(from);
        for operand in operands.iter().filter(|operand| operand.simple.is_none()) {
            let (begin, end) = operand.made.unwrap_or((from, from));
            self.items.all.extend(code[begin - from..end - from].iter().cloned());
        }
        operands.iter().map(|operand| operand.simple.clone()).collect()
    }

    fn give(&mut self, is_int: bool, opcode: u8) -> Step<()> {
        self.pop_kind(is_int)?;
        self.items.plain(opcode);
        Ok(())
    }

    fn home(&self) -> &str {
        package(self.source.class)
    }

    fn number_of(&mut self, of: &JavaType) -> Step<u16> {
        let home = self.home().to_string();
        self.world.of_type(of, &home)
    }

    fn class_number(&mut self, name: &str) -> Step<u16> {
        let home = self.home().to_string();
        self.world.class(name, &home)
    }

    fn field(&mut self, at: &MemberRef) -> Step<([u16; 3], JavaType)> {
        let of = types::field(&at.descriptor).ok_or_else(|| astray("a field's type can't be read"))?;
        Ok(([self.class_number(&at.class)?, self.world.member(&at.name)?, self.number_of(&of)?], of))
    }

    fn get(&mut self, at: &MemberRef) -> Step<()> {
        let (names, of) = self.field(at)?;
        let receiver = self.pop_kind(false)?;
        let level = Level::Fields.max(receiver.level);
        let from = self.items.together(&[receiver]);
        self.items.names(op::GETFIELD, &names);
        self.push(Kind::of(&of), from, level, None);
        Ok(())
    }

    fn put(&mut self, at: &MemberRef) -> Step<()> {
        let (names, of) = self.field(at)?;
        self.pop_kind(Kind::of(&of) == Kind::Int)?;
        self.pop_kind(false)?;
        self.items.names(op::PUTFIELD, &names);
        Ok(())
    }

    fn call(&mut self, at: &MemberRef) -> Step<()> {
        let descriptor = types::method(&at.descriptor).ok_or_else(|| astray("a method's types can't be read"))?;
        let private_in = match self.world.method(at) {
            Found::Member(class, method) if method.is(flag::PRIVATE) => Some(class.name.clone()),
            _ => None,
        };
        let (class, name) = (self.class_number(&at.class)?, self.world.method_name(&at.name, private_in.as_deref())?);
        let arguments = descriptor.arguments.iter().map(|of| self.number_of(of)).collect::<Step<Vec<u16>>>()?;
        let result = self.number_of(descriptor.result.as_ref().unwrap_or(&JavaType::Int))?;
        let mut taken = Vec::new();
        for of in descriptor.arguments.iter().rev() {
            taken.insert(0, self.pop_kind(Kind::of(of) == Kind::Int)?);
        }
        taken.insert(0, self.pop_kind(false)?);
        let from = self.items.together(&taken);
        let list = [&[class, name][..], &arguments, &[result]].concat();
        let mut bytes: Vec<u8> = [op::INVOKEVIRTUAL].into_iter().chain(list.iter().flat_map(|name| name.to_be_bytes())).collect();
        bytes.insert(5, arguments.len() as u8);
        self.items.bytes(&bytes);
        match &descriptor.result {
            Some(of) => self.push(Kind::of(of), from, Level::Calls, None),
            None => self.items.plain(op::POP),
        }
        Ok(())
    }

    /// new; where the constructor is called at once, as javac does it, that is all.
    fn object(&mut self, name: &str) -> Step<()> {
        let class = self.class_number(name)?;
        let from = self.items.all.len();
        self.items.names(op::NEW, &[class]);
        self.push(Kind::Class(name.into()), Some(from), Level::Calls, None);
        let next = |by: usize| self.source.instructions.get(self.place + by).filter(|_| self.source.frame(self.place + by).is_none());
        let is_made = matches!(next(1).map(|next| &next.op), Some(Op::Dup))
            && matches!(next(2).map(|next| &next.op), Some(Op::CallItself(at)) if at.name == "<init>" && at.class == name);
        if is_made {
            self.skips = 2;
        }
        Ok(())
    }
}
