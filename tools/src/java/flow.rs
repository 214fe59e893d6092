//! What holds at the points of a method: the types that its StackMapTable says (JVMS 4.7.4), and which locals are read later.

use std::rc::Rc;

use super::bytes::{Bytes, Read, Unreadable};
use super::classfile::Code;
use super::decode::{Instruction, Op};
use super::pool::Pool;
use super::types::{Descriptor, JavaType};

/// The locals of a frame of the box.
pub const LOCALS: usize = 8;

/// What stands in a local or an operand.
#[derive(Clone, Debug, PartialEq, Eq)]
pub enum Kind {
    Unset,
    Int,
    Null,
    Class(Rc<str>),
}

impl Kind {
    pub fn of(of: &JavaType) -> Kind {
        match of {
            JavaType::Class(name) => Kind::Class(name.as_str().into()),
            _ => Kind::Int,
        }
    }

    pub fn is_reference(&self) -> bool {
        matches!(self, Kind::Null | Kind::Class(_))
    }

    /// May this stand where the other is demanded?
    fn fits(&self, demanded: &Kind) -> bool {
        *demanded == Kind::Unset || self == demanded || self.is_reference() && demanded.is_reference()
    }
}

/// The types at a point.
#[derive(Clone, Debug, PartialEq, Eq)]
pub struct State {
    pub locals: Vec<Kind>,
    pub operands: Vec<Kind>,
}

impl State {
    /// At the first point of a method of this class.
    pub fn at_entry(class: &str, descriptor: &Descriptor) -> State {
        let locals = [Kind::Class(class.into())].into_iter().chain(descriptor.arguments.iter().map(Kind::of)).collect();
        State { locals, operands: Vec::new() }
    }

    pub fn local(&self, local: usize) -> &Kind {
        self.locals.get(local).unwrap_or(&Kind::Unset)
    }

    /// May a path with this state go on with the other?
    pub fn fits(&self, demanded: &State) -> bool {
        let all = |here: &[Kind], there: &[Kind]| here.iter().zip(there).all(|(here, there)| here.fits(there));
        self.operands.len() == demanded.operands.len() && all(&self.operands, &demanded.operands)
            && demanded.locals.iter().enumerate().all(|(local, of)| self.local(local).fits(of))
    }
}

const WHAT: &str = "a stack map";

/// The states that the StackMapTable says, by rising point.
pub fn frames(code: &Code, pool: &Pool, instructions: &[Instruction], entry: State) -> Read<Vec<(usize, State)>> {
    let (count, bytes) = (code.frames.0, &code.frames.1);
    let mut reader = Frames { bytes: Bytes::new(bytes), pool, instructions };
    let mut all: Vec<(usize, State)> = Vec::new();
    let mut locals = entry.locals;
    for _ in 0..count {
        let (delta, operands) = reader.frame(&mut locals)?;
        let at = all.last().map_or(delta, |(last, _)| last + delta + 1);
        if at >= code.bytes.len() || locals.len() > usize::from(code.locals) {
            return Err(Unreadable::new(at, "a stack map that doesn't fit its method"));
        }
        all.push((at, State { locals: locals.clone(), operands }));
    }
    Ok(all)
}

struct Frames<'a> {
    bytes: Bytes<'a>,
    pool: &'a Pool,
    instructions: &'a [Instruction],
}

impl Frames<'_> {
    /// How far on it stands, and its operands; it changes the locals of the one before.
    fn frame(&mut self, locals: &mut Vec<Kind>) -> Read<(usize, Vec<Kind>)> {
        let tag = self.bytes.byte(WHAT)?;
        let delta = if tag < 128 { usize::from(tag % 64) } else { self.bytes.word(WHAT)?.into() };
        let mut operands = Vec::new();
        match tag {
            0..=63 | 251 => {}
            64..=127 | 247 => self.entry(&mut operands)?,
            248..=250 => {
                let left = locals.len().checked_sub(usize::from(251 - tag));
                locals.truncate(left.ok_or_else(|| Unreadable::new(self.bytes.at(), "a stack map drops locals that aren't there"))?);
            }
            252..=254 => {
                for _ in 251..tag {
                    self.entry(locals)?;
                }
            }
            255 => {
                locals.clear();
                for _ in 0..self.bytes.word(WHAT)? {
                    self.entry(locals)?;
                }
                for _ in 0..self.bytes.word(WHAT)? {
                    self.entry(&mut operands)?;
                }
            }
            _ => return Err(Unreadable::new(self.bytes.at(), format!("a stack map of tag {tag}, which isn't known"))),
        }
        Ok((delta, operands))
    }

    /// One local or operand; a long or a double takes two places.
    fn entry(&mut self, to: &mut Vec<Kind>) -> Read<()> {
        let tag = self.bytes.byte(WHAT)?;
        let at = self.bytes.at();
        let kind = match tag {
            1 => Kind::Int,
            5 => Kind::Null,
            7 => {
                let name = self.pool.class(self.bytes.word(WHAT)?);
                Kind::Class(name.ok_or_else(|| Unreadable::new(at, "a stack map names a class that isn't there"))?.into())
            }
            8 => {
                let point = self.bytes.word(WHAT)?;
                self.made_at(point.into())?
            }
            0 | 2..=4 | 6 => Kind::Unset,
            _ => return Err(Unreadable::new(at, format!("a stack map has a type of tag {tag}, which isn't known"))),
        };
        to.push(kind);
        if matches!(tag, 3 | 4) {
            to.push(Kind::Unset);
        }
        Ok(())
    }

    /// The object that the `new` at this point makes. On the box it is whole from then on.
    fn made_at(&self, point: usize) -> Read<Kind> {
        let made = self.instructions.iter().find(|instruction| instruction.at == point);
        match made.map(|instruction| &instruction.op) {
            Some(Op::New(name)) => Ok(Kind::Class(name.as_str().into())),
            _ => Err(Unreadable::new(point, "a stack map names a 'new' that isn't there")),
        }
    }
}

/// A set of locals.
pub type Locals = u8;

fn one(local: u16) -> Locals {
    if usize::from(local) < LOCALS { 1 << local } else { 0 }
}

/// The locals that are read before they are written, from each instruction on, by its place. `place` gives the place of a point.
pub fn live(instructions: &[Instruction], place: &dyn Fn(usize) -> Option<usize>) -> Vec<Locals> {
    let mut live = vec![0; instructions.len() + 1];
    let mut changed = true;
    while changed {
        changed = false;
        for (i, instruction) in instructions.iter().enumerate().rev() {
            let before = read_and_written(&instruction.op, after(instructions, i, &live, place));
            changed |= live[i] != before;
            live[i] = before;
        }
    }
    live
}

/// The locals that are read later, behind this instruction, on some path.
pub fn after(instructions: &[Instruction], i: usize, live: &[Locals], place: &dyn Fn(usize) -> Option<usize>) -> Locals {
    let op = &instructions[i].op;
    let next = if op.ends_path() { 0 } else { live[i + 1] };
    op.targets().into_iter().filter_map(place).fold(next, |all, target| all | live[target])
}

fn read_and_written(op: &Op, after: Locals) -> Locals {
    match *op {
        Op::LoadInt(local) | Op::LoadReference(local) | Op::Increase(local, _) => after | one(local),
        Op::StoreInt(local) | Op::StoreReference(local) => after & !one(local),
        _ => after,
    }
}
