//! The verifier: a type for each operand and local at each point, the notes 'a below b', and why and where it rejects. Before it, from
//! version 2 on, the check for targets and instructions without a map.

use crate::answer::word;
use crate::code::{decode, op, Instruction};
use crate::file::{File, Map, Method, MAPPED};
use crate::signature::{Arguments, Unlisted};
use crate::store::{INT, LOCALS, OPERANDS};

#[derive(Clone, Copy, Debug, PartialEq, Eq)]
pub enum Type {
    Unset,
    Int,
    Null,
    Class(u16),
}

impl Type {
    /// The type that a file or an instruction writes as 16 bits.
    pub fn named(name: u16) -> Type {
        if name == INT {
            Type::Int
        } else {
            Type::Class(name)
        }
    }

    /// The type of a map's local, where 0 is unset.
    fn mapped(name: u16) -> Type {
        if name == 0 {
            Type::Unset
        } else {
            Type::named(name)
        }
    }

    pub fn is_reference(self) -> bool {
        matches!(self, Type::Null | Type::Class(_))
    }
}

/// Why the verifier rejects an instruction.
#[derive(Clone, Copy, Debug, PartialEq, Eq)]
pub enum Why {
    UnknownOpcode(u8),
    /// The end of the code cuts off what follows the opcode.
    CutOff(u8),
    /// A call with so many arguments inline, which is as an unknown opcode is.
    TooManyArguments(u8),
    Name0,
    ClassBelow2(u16),
    NoLocal(u8),
    UnsetLocal(u8),
    TooManyOperands,
    TooFewOperands,
    /// Something stands where an int is demanded.
    NoInt(Type),
    /// Something stands where a reference is demanded.
    NoReference(Type),
    /// ireturn with this result type.
    ResultIsNoInt(u16),
    /// areturn where the result is an int.
    ResultIsInt,
    EndsWithoutReturn,
    /// Of version 1.
    GoesOnAfterReturn,
    /// A jump to this offset, where there is no map.
    TargetUnmapped(usize),
    /// The instruction behind a goto or return has no map.
    NextUnmapped,
    /// A map at this offset, where no instruction starts.
    MapInside(usize),
    /// A map at this offset, and the code ends before it.
    MapBehind(usize),
    /// What flows into the map at this offset doesn't fit it.
    Flow(usize, Misfit),
}

/// Why something doesn't fit a map: its place, what stands there, what the map demands.
#[derive(Clone, Copy, Debug, PartialEq, Eq)]
pub enum Misfit {
    OperandCount(usize, usize),
    Local(usize, Type, Type),
    Operand(usize, Type, Type),
}

/// The verifier rejects: which method, which point, why.
#[derive(Clone, Copy, Debug, PartialEq, Eq)]
pub struct Rejected {
    pub method: usize,
    pub point: usize,
    pub why: Why,
}

/// The types at one point.
#[derive(Clone, Debug, PartialEq, Eq)]
pub struct Types {
    operands: [Type; OPERANDS],
    count: usize,
    pub locals: [Type; LOCALS],
}

impl Types {
    /// Local 0 is this, and from local 1 on there are the arguments.
    pub fn at_point_0(own_name: u16, arguments: &[u16]) -> Types {
        let mut locals = [Type::Unset; LOCALS];
        locals[0] = Type::Class(own_name);
        locals[1..].iter_mut().zip(arguments).for_each(|(local, &of)| *local = Type::named(of));
        Types { operands: [Type::Unset; OPERANDS], count: 0, locals }
    }

    /// The types that a map says.
    pub fn of_map(map: Map) -> Types {
        let mut types = Types { operands: [Type::Unset; OPERANDS], count: map.operand_count(), locals: [Type::Unset; LOCALS] };
        types.locals.iter_mut().zip(map.locals()).for_each(|(local, of)| *local = Type::mapped(of));
        types.operands.iter_mut().zip(map.operands()).for_each(|(operand, of)| *operand = Type::named(of));
        types
    }

    /// From the lowest.
    pub fn operands(&self) -> &[Type] {
        &self.operands[..self.count]
    }

    fn push(&mut self, of: Type) -> Result<(), Why> {
        *self.operands.get_mut(self.count).ok_or(Why::TooManyOperands)? = of;
        self.count += 1;
        Ok(())
    }

    fn pop(&mut self) -> Result<Type, Why> {
        self.count = self.count.checked_sub(1).ok_or(Why::TooFewOperands)?;
        Ok(self.operands[self.count])
    }

    fn pop_ints(&mut self, count: usize) -> Result<(), Why> {
        (0..count).try_for_each(|_| {
            let of = self.pop()?;
            ensure(of == Type::Int, Why::NoInt(of))
        })
    }

    fn pop_reference(&mut self) -> Result<Type, Why> {
        let of = self.pop()?;
        ensure(of.is_reference(), Why::NoReference(of))?;
        Ok(of)
    }

    fn local(&mut self, number: u8) -> Result<&mut Type, Why> {
        self.locals.get_mut(usize::from(number)).ok_or(Why::NoLocal(number))
    }

    fn load(&mut self, number: u8, fits: impl Fn(Type) -> Result<(), Why>) -> Result<(), Why> {
        let of = *self.local(number)?;
        ensure(of != Type::Unset, Why::UnsetLocal(number))?;
        fits(of)?;
        self.push(of)
    }

    fn store(&mut self, number: u8, of: Type) -> Result<(), Why> {
        *self.local(number)? = of;
        Ok(())
    }

    /// Takes values of these types, the last of them on top, and below them a receiver of this class; the receiver's note comes first.
    fn receive(&mut self, class: u16, values: &[u16], note: &mut impl FnMut(u16, u16)) -> Result<(), Why> {
        let first = self.count.checked_sub(values.len()).ok_or(Why::TooFewOperands)?;
        self.count = first;
        meet(self.pop_reference()?, class, note)?;
        values.iter().zip(&self.operands[first..]).try_for_each(|(&value, &stands)| meet(stands, value, note))
    }
}

fn ensure(holds: bool, why: Why) -> Result<(), Why> {
    holds.then_some(()).ok_or(why)
}

/// `stands` where the 16-bit type `demanded` is demanded.
fn meet(stands: Type, demanded: u16, note: &mut impl FnMut(u16, u16)) -> Result<(), Why> {
    if demanded == INT {
        return ensure(stands == Type::Int, Why::NoInt(stands));
    }
    ensure(stands.is_reference(), Why::NoReference(stands))?;
    match stands {
        Type::Class(name) if name != demanded => note(name, demanded),
        _ => {}
    }
    Ok(())
}

/// No inline name is 0, and the first, a class, isn't below 2.
fn inline_names_fit(instruction: Instruction) -> Result<(), Why> {
    let (class, named) = match instruction {
        Instruction::Getfield(at) | Instruction::Putfield(at) => (at.class, at.field != 0 && at.of != 0),
        Instruction::Invokevirtual(at) => (at.class, !at.signature.has_name_0()),
        Instruction::New(class) => (class, true),
        _ => return Ok(()),
    };
    ensure(class >= 2, Why::ClassBelow2(class))?;
    ensure(named, Why::Name0)
}

/// What an instruction does to the types. `result` is the method's result type.
pub fn follow(
    types: &mut Types,
    instruction: Instruction,
    result: u16,
    note: &mut impl FnMut(u16, u16),
) -> Result<(), Why> {
    inline_names_fit(instruction)?;
    match instruction {
        Instruction::AconstNull => types.push(Type::Null),
        Instruction::Sipush(_) => types.push(Type::Int),
        Instruction::Iload(n) => types.load(n, |of| ensure(of == Type::Int, Why::NoInt(of))),
        Instruction::Aload(n) => types.load(n, |of| ensure(of.is_reference(), Why::NoReference(of))),
        Instruction::Istore(n) => types.pop_ints(1).and_then(|()| types.store(n, Type::Int)),
        Instruction::Astore(n) => types.pop_reference().and_then(|of| types.store(n, of)),
        Instruction::Pop => types.pop().map(|_| ()),
        Instruction::Dup => {
            let of = types.pop()?;
            types.push(of)?;
            types.push(of)
        }
        Instruction::Iadd | Instruction::Isub | Instruction::Imul | Instruction::Idiv => {
            types.pop_ints(2).and_then(|()| types.push(Type::Int))
        }
        Instruction::Getfield(at) => {
            meet(types.pop_reference()?, at.class, note)?;
            types.push(Type::named(at.of))
        }
        Instruction::Putfield(at) => types.receive(at.class, &[at.of], note),
        Instruction::Invokevirtual(at) => {
            types.receive(at.class, at.signature.arguments.types(), note)?;
            types.push(Type::named(at.signature.result))
        }
        Instruction::New(class) => types.push(Type::Class(class)),
        Instruction::Ireturn => ensure(result == INT, Why::ResultIsNoInt(result)).and_then(|()| types.pop_ints(1)),
        Instruction::Areturn => {
            ensure(result != INT, Why::ResultIsInt)?;
            meet(types.pop_reference()?, result, note)
        }
        Instruction::Ifeq(_) => types.pop_ints(1),
        Instruction::IfIcmplt(_) => types.pop_ints(2),
        Instruction::Goto(_) => Ok(()),
    }
}

/// The instruction at a point within the code, and the next point.
fn read(method: Method, point: usize) -> Result<(Instruction, usize), Why> {
    decode(method.version, method.code, point).ok_or_else(|| unread(method, point))
}

/// Why the instruction at a point can't be read.
fn unread(method: Method, point: usize) -> Why {
    let opcode = method.code[point];
    let list = || Arguments::read(method.version, method.code.get(point + 5..).unwrap_or_default());
    match opcode {
        op::INVOKEVIRTUAL => match list() {
            Err(Unlisted::TooMany(count)) => Why::TooManyArguments(count),
            _ => Why::CutOff(opcode),
        },
        _ if op::of(method.version).contains(&opcode) => Why::CutOff(opcode),
        _ => Why::UnknownOpcode(opcode),
    }
}

/// The maps of a method, found by their offset without a search.
pub(crate) struct Mapped<'a> {
    maps: Vec<Map<'a>>,
    /// For each offset within the code of a method with maps, 1 more than the place of its map; 0 if it has none.
    places: Vec<u8>,
}

impl<'a> Mapped<'a> {
    pub(crate) fn new(method: Method<'a>) -> Mapped<'a> {
        let maps: Vec<Map> = method.maps().collect();
        let length = if maps.is_empty() { 0 } else { method.code.len() };
        let mut mapped = Mapped { maps, places: vec![0; length] };
        for (map, place) in mapped.maps.iter().zip(1..=u8::MAX) {
            if let Some(at) = mapped.places.get_mut(map.offset()) {
                *at = place;
            }
        }
        mapped
    }

    pub(crate) fn at(&self, offset: usize) -> Option<Map<'a>> {
        let place = match self.places.get(offset) {
            Some(&place) => usize::from(place).checked_sub(1)?,
            None => self.maps.binary_search_by_key(&offset, Map::offset).ok()?,
        };
        Some(self.maps[place])
    }
}

/// Does what flows into a map fit it? Locals come before operands, those from the lowest.
pub fn flow(types: &Types, map: Map, note: &mut impl FnMut(u16, u16)) -> Result<(), Why> {
    let misfit = |misfit: Misfit| Why::Flow(map.offset(), misfit);
    let (there, demanded) = (types.count, map.operand_count());
    ensure(there == demanded, misfit(Misfit::OperandCount(there, demanded)))?;
    for (local, (&stands, of)) in types.locals.iter().zip(map.locals()).enumerate().filter(|(_, (_, of))| *of != 0) {
        meet(stands, of, note).map_err(|_| misfit(Misfit::Local(local, stands, Type::named(of))))?;
    }
    for (operand, (&stands, of)) in types.operands().iter().zip(map.operands()).enumerate() {
        meet(stands, of, note).map_err(|_| misfit(Misfit::Operand(operand, stands, Type::named(of))))?;
    }
    Ok(())
}

/// A walk over a method's points in the code's order. It ends at the end of the code or at the first rejection.
struct Walk<'a> {
    method: Method<'a>,
    mapped: Mapped<'a>,
    /// How many maps the walk has stood at.
    stood: usize,
    point: usize,
    types: Types,
}

impl<'a> Walk<'a> {
    /// Stands at point 0, with what flows there from entry.
    fn begin(own_name: u16, method: Method<'a>, note: &mut impl FnMut(u16, u16)) -> Result<Walk<'a>, Rejected> {
        let types = Types::at_point_0(own_name, method.signature.arguments.types());
        let mut walk = Walk { method, mapped: Mapped::new(method), stood: 0, point: 0, types };
        let entered = walk.enter(0, note).and_then(|()| walk.stand(0));
        entered.map_err(|why| walk.rejected(why))?;
        Ok(walk)
    }

    fn is_over(&self) -> bool {
        self.point == self.method.code.len()
    }

    fn rejected(&self, why: Why) -> Rejected {
        Rejected { method: self.method.place, point: self.point, why }
    }

    /// What flows into this point must fit its map, if it has one, whose types are the point's then.
    fn enter(&mut self, point: usize, note: &mut impl FnMut(u16, u16)) -> Result<(), Why> {
        if let Some(map) = self.mapped.at(point) {
            flow(&self.types, map, note)?;
            self.types = Types::of_map(map);
        }
        Ok(())
    }

    /// No map may have been passed over on the way to this point, and at the end of the code none may be left.
    fn stand(&mut self, point: usize) -> Result<(), Why> {
        let Some(offset) = self.mapped.maps.get(self.stood).map(Map::offset) else {
            return Ok(());
        };
        ensure(offset >= point, Why::MapInside(offset))?;
        ensure(point < self.method.code.len(), Why::MapBehind(offset))?;
        self.stood += usize::from(offset == point);
        Ok(())
    }

    /// Goes from a point within the code to the next, or to the end of the code.
    fn step(&mut self, note: &mut impl FnMut(u16, u16)) -> Result<(), Rejected> {
        self.point = self.next(note).map_err(|why| self.rejected(why))?;
        Ok(())
    }

    /// The next point, with its types, once the instruction's own effect, the flow to its target and that to the next point are fine.
    fn next(&mut self, note: &mut impl FnMut(u16, u16)) -> Result<usize, Why> {
        let (instruction, next) = read(self.method, self.point)?;
        follow(&mut self.types, instruction, self.method.signature.result, note)?;
        if let Some(target) = instruction.target() {
            let map = self.mapped.at(target).ok_or(Why::TargetUnmapped(target))?;
            flow(&self.types, map, note)?;
        }
        let ends = next == self.method.code.len();
        match (instruction.ends_path(), ends) {
            (true, true) => {}
            (true, false) => self.types = self.after_end_of_path(next)?,
            (false, true) => return Err(Why::EndsWithoutReturn),
            (false, false) => self.enter(next, note)?,
        }
        self.stand(next)?;
        Ok(next)
    }

    /// The types at a point that nothing flows into from the one before: its map's. Without one it is rejected, for itself if it can't be read.
    fn after_end_of_path(&mut self, next: usize) -> Result<Types, Why> {
        ensure(self.method.version >= MAPPED, Why::GoesOnAfterReturn)?;
        if let Some(map) = self.mapped.at(next) {
            return Ok(Types::of_map(map));
        }
        let unread = read(self.method, next).err();
        self.point = if unread.is_some() { next } else { self.point };
        Err(unread.unwrap_or(Why::NextUnmapped))
    }
}

/// Verifies the methods in order; `note` receives each requirement 'a below b'.
pub fn verify(file: File, note: &mut impl FnMut(u16, u16)) -> Result<(), Rejected> {
    let own_name = file.name();
    file.methods().try_for_each(|method| {
        let mut walk = Walk::begin(own_name, method, note)?;
        while !walk.is_over() {
            walk.step(note)?;
        }
        Ok(())
    })
}

/// The first target, or instruction behind a goto or return, without a map, of a file from version 2 on. Each method is read before its
/// first instruction that can't be read.
pub fn unmapped(file: File) -> Option<Rejected> {
    file.methods().filter(|method| method.version >= MAPPED).find_map(|method| {
        let (point, why) = unmapped_point(method)?;
        Some(Rejected { method: method.place, point, why })
    })
}

fn unmapped_point(method: Method) -> Option<(usize, Why)> {
    let mapped = Mapped::new(method);
    let mut point = 0;
    while let Some((instruction, next)) = decode(method.version, method.code, point) {
        if let Some(target) = instruction.target().filter(|&target| mapped.at(target).is_none()) {
            return Some((point, Why::TargetUnmapped(target)));
        }
        let goes_on = decode(method.version, method.code, next).is_some();
        if instruction.ends_path() && goes_on && mapped.at(next).is_none() {
            return Some((point, Why::NextUnmapped));
        }
        point = next;
    }
    None
}

/// Why define refuses a file that reads: word 15 for want of a map, or 6 by the verifier, and where.
pub fn refused(file: File, note: &mut impl FnMut(u16, u16)) -> Result<(), (u8, Rejected)> {
    if let Some(unmapped) = unmapped(file) {
        return Err((word::UNMAPPED, unmapped));
    }
    verify(file, note).map_err(|rejected| (word::UNVERIFIED, rejected))
}

/// A point that the verifier comes to: the types there, and the notes that its instruction makes, those from entry before them.
#[derive(Clone, Debug)]
pub struct Seen {
    pub point: usize,
    pub types: Types,
    pub notes: Vec<(u16, u16)>,
}

/// The points of a method that the verifier comes to, and where it rejects the method, if it does.
pub fn seen(own_name: u16, method: Method) -> (Vec<Seen>, Option<Rejected>) {
    let (mut points, mut notes) = (Vec::new(), Vec::new());
    let mut walk = match Walk::begin(own_name, method, &mut |lower, higher| notes.push((lower, higher))) {
        Ok(walk) => walk,
        Err(rejected) => return (points, Some(rejected)),
    };
    while !walk.is_over() {
        let (point, types) = (walk.point, walk.types.clone());
        let stepped = walk.step(&mut |lower, higher| notes.push((lower, higher)));
        points.push(Seen { point, types, notes: std::mem::take(&mut notes) });
        if let Err(rejected) = stepped {
            return (points, Some(rejected));
        }
    }
    (points, None)
}

/// The types at a point, if it is an instruction's start that the verifier comes to.
pub fn types_at(own_name: u16, method: Method, point: usize) -> Option<Types> {
    let mut walk = Walk::begin(own_name, method, &mut |_, _| ()).ok()?;
    while walk.point < point && !walk.is_over() {
        walk.step(&mut |_, _| ()).ok()?;
    }
    (walk.point == point && !walk.is_over()).then_some(walk.types)
}

/// The publishers' desk: 0 for a file that define could take, 2 by the file rules, 15 for want of a map, 6 by the verifier.
pub fn check(bytes: &[u8]) -> u8 {
    let Some(file) = File::read(bytes) else {
        return word::FILE;
    };
    refused(file, &mut |_, _| ()).map_or_else(|(word, _)| word, |()| 0)
}
