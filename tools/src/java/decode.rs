//! Java's instructions (JVMS 6.5): one decision over opcode bytes. What the box can't do is decoded as the construct that it comes from.

use super::bytes::{Bytes, Read, Unreadable};
use super::pool::{Constant, MemberRef, Pool};
use super::refusals::Construct;
use super::types::simple;

/// A comparison, of an int with 0 or of two ints.
#[derive(Clone, Copy, Debug, PartialEq, Eq)]
pub enum Condition {
    Equal,
    NotEqual,
    Less,
    AtLeast,
    Greater,
    AtMost,
}

use Condition::*;

impl Condition {
    pub fn opposite(self) -> Condition {
        match self {
            Equal => NotEqual,
            NotEqual => Equal,
            Less => AtLeast,
            AtLeast => Less,
            Greater => AtMost,
            AtMost => Greater,
        }
    }

    /// In the order of the opcodes ifeq to ifle and if_icmpeq to if_icmple.
    fn of(place: u8) -> Condition {
        [Equal, NotEqual, Less, AtLeast, Greater, AtMost][usize::from(place % 6)]
    }
}

/// A reordering of the topmost operands: how many it takes, and which it leaves, counted from the lowest taken.
pub type Shuffle = (usize, &'static [usize]);

#[derive(Clone, Debug, PartialEq, Eq)]
pub enum Op {
    Nothing,
    Null,
    Int(i32),
    LoadInt(u16),
    LoadReference(u16),
    StoreInt(u16),
    StoreReference(u16),
    Increase(u16, i32),
    Pop(usize),
    Dup,
    Shuffle(Shuffle),
    Add,
    Sub,
    Mul,
    Div,
    Rem,
    Neg,
    If(Condition, usize),
    IfTwo(Condition, usize),
    Goto(usize),
    Switch { default: usize, cases: Vec<(i32, usize)> },
    Return,
    ReturnInt,
    ReturnReference,
    Get(MemberRef),
    Put(MemberRef),
    Call(MemberRef),
    /// A call that goes to the named method itself: a constructor, a private method, or one of a superclass.
    CallItself(MemberRef),
    New(String),
    /// What isn't taken.
    Refused(Construct),
}

impl Op {
    /// Where it may jump to.
    pub fn targets(&self) -> Vec<usize> {
        match self {
            Op::If(_, target) | Op::IfTwo(_, target) | Op::Goto(target) => vec![*target],
            Op::Switch { default, cases } => cases.iter().map(|case| case.1).chain([*default]).collect(),
            _ => Vec::new(),
        }
    }

    /// Does nothing go from it to the next instruction?
    pub fn ends_path(&self) -> bool {
        matches!(self, Op::Goto(_) | Op::Switch { .. } | Op::Return | Op::ReturnInt | Op::ReturnReference)
    }
}

/// An instruction and its point.
#[derive(Clone, Debug)]
pub struct Instruction {
    pub at: usize,
    pub op: Op,
}

/// All instructions of a method's code.
pub fn decode(code: &[u8], pool: &Pool) -> Read<Vec<Instruction>> {
    let mut bytes = Bytes::new(code);
    let mut all = Vec::new();
    while !bytes.is_end() {
        let at = bytes.at();
        all.push(Instruction { at, op: instruction(&mut bytes, pool)? });
    }
    Ok(all)
}

const WHAT: &str = "an instruction";

fn instruction(bytes: &mut Bytes, pool: &Pool) -> Read<Op> {
    let at = bytes.at();
    let opcode = bytes.byte(WHAT)?;
    Ok(match opcode {
        0x00 => Op::Nothing,
        0x01 => Op::Null,
        0x02..=0x08 => Op::Int(i32::from(opcode) - 3),
        0x10 => Op::Int((bytes.byte(WHAT)? as i8).into()),
        0x11 => Op::Int((bytes.word(WHAT)? as i16).into()),
        0x12 => loaded(pool, bytes.byte(WHAT)?.into()),
        0x13 | 0x14 => loaded(pool, bytes.word(WHAT)?),
        0x15..=0x19 => load(opcode - 0x15, bytes.byte(WHAT)?.into()),
        0x1A..=0x2D => load((opcode - 0x1A) / 4, u16::from((opcode - 0x1A) % 4)),
        0x36..=0x3A => store(opcode - 0x36, bytes.byte(WHAT)?.into()),
        0x3B..=0x4E => store((opcode - 0x3B) / 4, u16::from((opcode - 0x3B) % 4)),
        0x57 => Op::Pop(1),
        0x58 => Op::Pop(2),
        0x59 => Op::Dup,
        0x5A..=0x5F => Op::Shuffle(SHUFFLES[usize::from(opcode - 0x5A)]),
        0x60 => Op::Add,
        0x64 => Op::Sub,
        0x68 => Op::Mul,
        0x6C => Op::Div,
        0x70 => Op::Rem,
        0x74 => Op::Neg,
        0x84 => Op::Increase(bytes.byte(WHAT)?.into(), (bytes.byte(WHAT)? as i8).into()),
        0x99..=0x9E => Op::If(Condition::of(opcode - 0x99), near(bytes, at)?),
        0x9F..=0xA4 => Op::IfTwo(Condition::of(opcode - 0x9F), near(bytes, at)?),
        0xA7 => Op::Goto(near(bytes, at)?),
        0xC8 => Op::Goto(far(bytes, at)?),
        0xAA | 0xAB => switch(bytes, at, opcode == 0xAA)?,
        0xAC => Op::ReturnInt,
        0xB0 => Op::ReturnReference,
        0xB1 => Op::Return,
        0xB4..=0xB7 => member(opcode, bytes, pool)?,
        0xBB => class(bytes, pool)?,
        0xC4 => wide(bytes)?,
        _ => return refused(opcode, bytes, pool, at),
    })
}

/// dup_x1, dup_x2, dup2, dup2_x1, dup2_x2, swap.
const SHUFFLES: [Shuffle; 6] = [
    (2, &[1, 0, 1]), (3, &[2, 0, 1, 2]), (2, &[0, 1, 0, 1]), (3, &[1, 2, 0, 1, 2]), (4, &[2, 3, 0, 1, 2, 3]), (2, &[1, 0]),
];

fn number(kind: &str) -> Op {
    let instead = "use int: whole pence, percent or per mille, with * before /";
    Op::Refused(Construct::new(format!("a {kind}"), instead))
}

fn array() -> Op {
    Op::Refused(Construct::new("an array", "use fields or arguments of their own, or a chain of objects with a field for the next"))
}

fn text(what: &str) -> Op {
    Op::Refused(Construct::new(what, "the box has ints and objects: give what the text would say a number"))
}

/// Of the kinds int, long, float, double and reference.
fn of_kind(kind: u8, int: fn(u16) -> Op, reference: fn(u16) -> Op, local: u16) -> Op {
    match kind {
        0 => int(local),
        1 => number("long"),
        2 => number("float"),
        3 => number("double"),
        _ => reference(local),
    }
}

fn load(kind: u8, local: u16) -> Op {
    of_kind(kind, Op::LoadInt, Op::LoadReference, local)
}

fn store(kind: u8, local: u16) -> Op {
    of_kind(kind, Op::StoreInt, Op::StoreReference, local)
}

/// ldc, ldc_w, ldc2_w.
fn loaded(pool: &Pool, index: u16) -> Op {
    match pool.at(index) {
        Constant::Int(int) => Op::Int(*int),
        Constant::Text => text("a string"),
        Constant::Class(_) => text("a class as a value"),
        Constant::Other(kind @ ("float" | "long" | "double")) => number(kind),
        _ => Op::Refused(Construct::new("a constant that is no int", "use an int")),
    }
}

/// A target by a signed offset from the instruction.
fn target(at: usize, offset: i64) -> Read<usize> {
    usize::try_from(at as i64 + offset).map_err(|_| Unreadable::new(at, "a jump before the code"))
}

fn near(bytes: &mut Bytes, at: usize) -> Read<usize> {
    target(at, (bytes.word(WHAT)? as i16).into())
}

fn far(bytes: &mut Bytes, at: usize) -> Read<usize> {
    target(at, bytes.int(WHAT)?.into())
}

/// tableswitch and lookupswitch.
fn switch(bytes: &mut Bytes, at: usize, is_table: bool) -> Read<Op> {
    bytes.take((4 - (at + 1) % 4) % 4, WHAT)?;
    let default = far(bytes, at)?;
    let low = bytes.int(WHAT)?;
    let mut cases = Vec::new();
    if is_table {
        let high = bytes.int(WHAT)?;
        for value in low..=high {
            cases.push((value, far(bytes, at)?));
        }
    } else {
        for _ in 0..low {
            cases.push((bytes.int(WHAT)?, far(bytes, at)?));
        }
    }
    Ok(Op::Switch { default, cases })
}

fn named(bytes: &mut Bytes, pool: &Pool) -> Read<MemberRef> {
    let at = bytes.at();
    pool.member(bytes.word(WHAT)?).ok_or_else(|| Unreadable::new(at, "an instruction names what isn't in the constant pool"))
}

/// getfield, putfield, invokevirtual, invokespecial.
fn member(opcode: u8, bytes: &mut Bytes, pool: &Pool) -> Read<Op> {
    let member = named(bytes, pool)?;
    if member.class.starts_with('[') {
        return Ok(array());
    }
    Ok(match opcode {
        0xB4 => Op::Get(member),
        0xB5 => Op::Put(member),
        0xB6 => Op::Call(member),
        _ => Op::CallItself(member),
    })
}

fn class(bytes: &mut Bytes, pool: &Pool) -> Read<Op> {
    let at = bytes.at();
    let name = pool.class(bytes.word(WHAT)?);
    let name = name.ok_or_else(|| Unreadable::new(at, "an instruction names a class that isn't in the constant pool"))?;
    Ok(if name.starts_with('[') { array() } else { Op::New(name.into()) })
}

fn wide(bytes: &mut Bytes) -> Read<Op> {
    let at = bytes.at();
    let opcode = bytes.byte(WHAT)?;
    let local = bytes.word(WHAT)?;
    match opcode {
        0x15..=0x19 => Ok(load(opcode - 0x15, local)),
        0x36..=0x3A => Ok(store(opcode - 0x36, local)),
        0x84 => Ok(Op::Increase(local, (bytes.word(WHAT)? as i16).into())),
        0xA9 => Ok(subroutine()),
        _ => Err(Unreadable::new(at, format!("opcode {opcode:02X} can't be wide"))),
    }
}

fn subroutine() -> Op {
    Op::Refused(Construct::new("a subroutine of an old compiler", "compile the source anew, with a javac of today"))
}

/// What isn't taken, with the inline bytes that belong to it.
fn refused(opcode: u8, bytes: &mut Bytes, pool: &Pool, at: usize) -> Read<Op> {
    let (op, inline) = match opcode {
        0x09 | 0x0A | 0x61 | 0x65 | 0x69 | 0x6D | 0x71 | 0x75 | 0x79 | 0x7B | 0x7D | 0x7F | 0x81 | 0x83 | 0x94 | 0xAD => (number("long"), 0),
        0x85 | 0x88..=0x8A | 0x8C | 0x8F => (number("long"), 0),
        0x0B..=0x0D | 0x62 | 0x66 | 0x6A | 0x6E | 0x72 | 0x76 | 0x86 | 0x8B | 0x8D | 0x95 | 0x96 | 0xAE => (number("float"), 0),
        0x0E | 0x0F | 0x63 | 0x67 | 0x6B | 0x6F | 0x73 | 0x77 | 0x87 | 0x8E | 0x90 | 0x97 | 0x98 | 0xAF => (number("double"), 0),
        0x2E..=0x35 | 0x4F..=0x56 | 0xBE => (array(), 0),
        0xBC => (array(), 1),
        0xBD => (array(), 2),
        0xC5 => (array(), 3),
        0x78 => (refuse("<< on an int", "multiply: x * 8 for x << 3"), 0),
        0x7A | 0x7C => (refuse("a shift to the right", "divide: x / 8 for x >> 3 of an x that isn't negative"), 0),
        0x7E | 0x80 | 0x82 => (refuse("&, | or ^", "write && and || between conditions; of ints, x % 2 for x & 1"), 0),
        0x91..=0x93 => (refuse(format!("a cast to {}", ["byte", "char", "short"][usize::from(opcode - 0x91)]), "use int, and % where it should wrap"), 0),
        0xA5 | 0xA6 | 0xC6 | 0xC7 => (refuse("a comparison of references", "the box compares ints: give the objects an int field or method that tells them apart"), 2),
        0xA8 | 0xC9 => (subroutine(), if opcode == 0xA8 { 2 } else { 4 }),
        0xA9 => (subroutine(), 1),
        0xB2 | 0xB3 | 0xB8 => return static_member(opcode, bytes, pool),
        0xB9 => return interface_call(bytes, pool),
        0xBA => return dynamic(bytes, pool),
        0xBF => (refuse("throw: an exception", "return an int that says so, as -1"), 0),
        0xC0 | 0xC1 => return cast(opcode, bytes, pool),
        0xC2 | 0xC3 => (refuse("synchronized", "leave it out: the box runs one quote at a time"), 0),
        _ => return Err(Unreadable::new(at, format!("opcode {opcode:02X} isn't known"))),
    };
    bytes.take(inline, WHAT)?;
    Ok(op)
}

fn refuse(said: impl Into<String>, instead: &str) -> Op {
    Op::Refused(Construct::new(said, instead))
}

/// getstatic, putstatic, invokestatic.
fn static_member(opcode: u8, bytes: &mut Bytes, pool: &Pool) -> Read<Op> {
    let MemberRef { class, name, .. } = named(bytes, pool)?;
    let is_javas = class.starts_with("java/");
    let class = simple(&class);
    Ok(if is_javas {
        refuse(format!("static: {class}.{name} of Java's library"), "write a class of your own: of Java's library the box has Object alone")
    } else if opcode == 0xB8 {
        refuse(format!("static: a call of {class}.{name}"), "make it a method of an object: leave out static, and call it on one")
    } else {
        refuse(format!("static: the field {class}.{name}"), "make it a field of an object, or a method that returns it; a static final int with its value is taken")
    })
}

fn interface_call(bytes: &mut Bytes, pool: &Pool) -> Read<Op> {
    let MemberRef { class, name, .. } = named(bytes, pool)?;
    bytes.take(2, WHAT)?;
    Ok(refuse(format!("interface: a call of {}.{name}", simple(&class)), "make the interface a class whose methods return 0, and extend it"))
}

/// invokedynamic: strings are joined by it, and lambdas made.
fn dynamic(bytes: &mut Bytes, pool: &Pool) -> Read<Op> {
    let name = pool.dynamic(bytes.word(WHAT)?).unwrap_or("").to_string();
    bytes.take(2, WHAT)?;
    Ok(match name.as_str() {
        "makeConcatWithConstants" | "makeConcat" => text("a string put together by +"),
        _ => refuse("a lambda or method reference", "write a class with a method, make an object of it, and call the method"),
    })
}

/// checkcast and instanceof.
fn cast(opcode: u8, bytes: &mut Bytes, pool: &Pool) -> Read<Op> {
    let name = pool.class(bytes.word(WHAT)?).unwrap_or("").to_string();
    let name = simple(&name).trim_end_matches(';');
    Ok(if opcode == 0xC0 {
        let instead = "give the field, argument or result that type itself; of a generic class, write the class out without <>";
        refuse(format!("a cast to {name} (checkcast)"), instead)
    } else {
        refuse(format!("instanceof {name}"), "give the classes a method that each overrides")
    })
}
