//! Instructions: one decision over opcode bytes, by the version, gives what follows inline and how long it is.

use crate::file::MAPPED;
use crate::signature::{Arguments, Signature};

/// Opcode numbers, the JVMS's.
pub mod op {
    pub const ACONST_NULL: u8 = 0x01;
    pub const SIPUSH: u8 = 0x11;
    pub const ILOAD: u8 = 0x15;
    pub const ALOAD: u8 = 0x19;
    pub const ISTORE: u8 = 0x36;
    pub const ASTORE: u8 = 0x3A;
    pub const POP: u8 = 0x57;
    pub const DUP: u8 = 0x59;
    pub const IADD: u8 = 0x60;
    pub const ISUB: u8 = 0x64;
    pub const IRETURN: u8 = 0xAC;
    pub const ARETURN: u8 = 0xB0;
    pub const GETFIELD: u8 = 0xB4;
    pub const PUTFIELD: u8 = 0xB5;
    pub const INVOKEVIRTUAL: u8 = 0xB6;
    pub const NEW: u8 = 0xBB;
    pub const IFEQ: u8 = 0x99;
    pub const IF_ICMPLT: u8 = 0xA1;
    pub const GOTO: u8 = 0xA7;
    pub const IMUL: u8 = 0x68;
    pub const IDIV: u8 = 0x6C;

    /// Those of version 1 first.
    pub const ALL: [u8; 21] = [
        ACONST_NULL, SIPUSH, ILOAD, ALOAD, ISTORE, ASTORE, POP, DUP, IADD, ISUB, IRETURN, ARETURN, GETFIELD,
        PUTFIELD, INVOKEVIRTUAL, NEW, IFEQ, IF_ICMPLT, GOTO, IMUL, IDIV,
    ];
    pub const NAMES: [&str; 21] = [
        "aconst_null", "sipush", "iload", "aload", "istore", "astore", "pop", "dup", "iadd", "isub", "ireturn",
        "areturn", "getfield", "putfield", "invokevirtual", "new", "ifeq", "if_icmplt", "goto", "imul", "idiv",
    ];

    /// What follows each opcode inline.
    #[derive(Clone, Copy, Debug, PartialEq, Eq)]
    pub enum Inline {
        Nothing,
        /// Signed, 16 bits.
        Int,
        /// One byte.
        Local,
        Class,
        /// Class, field, type.
        Field,
        /// Class, method, argument, result; from version 3 on a list in place of the argument.
        Method,
        /// An offset from the start of the method's code.
        Target,
    }

    use Inline::*;
    pub const INLINE: [Inline; 21] = [
        Nothing, Int, Local, Local, Local, Local, Nothing, Nothing, Nothing, Nothing, Nothing, Nothing, Field, Field,
        Method, Class, Target, Target, Target, Nothing, Nothing,
    ];

    /// The opcode's name and what follows it.
    pub fn form(opcode: u8) -> Option<(&'static str, Inline)> {
        let at = ALL.iter().position(|&other| other == opcode)?;
        Some((NAMES[at], INLINE[at]))
    }

    /// The opcodes of a version.
    pub fn of(version: u8) -> &'static [u8] {
        if version < crate::file::MAPPED { &ALL[..16] } else { &ALL }
    }
}

/// A field as an instruction names it.
#[derive(Clone, Copy, Debug, PartialEq, Eq)]
pub struct FieldRef {
    pub class: u16,
    pub field: u16,
    pub of: u16,
}

/// A method as an instruction names it.
#[derive(Clone, Copy, Debug, PartialEq, Eq)]
pub struct MethodRef {
    pub class: u16,
    pub signature: Signature,
}

#[derive(Clone, Copy, Debug, PartialEq, Eq)]
pub enum Instruction {
    AconstNull,
    Sipush(i16),
    Iload(u8),
    Aload(u8),
    Istore(u8),
    Astore(u8),
    Pop,
    Dup,
    Iadd,
    Isub,
    Getfield(FieldRef),
    Putfield(FieldRef),
    Invokevirtual(MethodRef),
    New(u16),
    Ireturn,
    Areturn,
    Ifeq(u16),
    IfIcmplt(u16),
    Goto(u16),
    Imul,
    Idiv,
}

use Instruction::*;

impl Instruction {
    /// Where a jump may go.
    pub fn target(self) -> Option<usize> {
        match self {
            Ifeq(target) | IfIcmplt(target) | Goto(target) => Some(target.into()),
            _ => None,
        }
    }

    /// Does nothing go from it to the next instruction?
    pub fn ends_path(self) -> bool {
        matches!(self, Ireturn | Areturn | Goto(_))
    }
}

/// The instruction at a point of a file of this version and the next point; nothing if it can't be read.
pub fn decode(version: u8, code: &[u8], point: usize) -> Option<(Instruction, usize)> {
    let opcode = *code.get(point)?;
    let is_later = version >= MAPPED;
    let inline = &code[point + 1..];
    let byte = || inline.first().copied();
    let word = |i: usize| inline.get(2 * i..2 * i + 2).map(|w| u16::from_be_bytes([w[0], w[1]]));
    let field = || Some(FieldRef { class: word(0)?, field: word(1)?, of: word(2)? });
    let (instruction, inline_length) = match opcode {
        op::ACONST_NULL => (AconstNull, 0),
        op::SIPUSH => (Sipush(word(0)? as i16), 2),
        op::ILOAD => (Iload(byte()?), 1),
        op::ALOAD => (Aload(byte()?), 1),
        op::ISTORE => (Istore(byte()?), 1),
        op::ASTORE => (Astore(byte()?), 1),
        op::POP => (Pop, 0),
        op::DUP => (Dup, 0),
        op::IADD => (Iadd, 0),
        op::ISUB => (Isub, 0),
        op::GETFIELD => (Getfield(field()?), 6),
        op::PUTFIELD => (Putfield(field()?), 6),
        op::INVOKEVIRTUAL => {
            let (method, length) = method(version, inline)?;
            (Invokevirtual(method), length)
        }
        op::NEW => (New(word(0)?), 2),
        op::IRETURN => (Ireturn, 0),
        op::ARETURN => (Areturn, 0),
        op::IFEQ if is_later => (Ifeq(word(0)?), 2),
        op::IF_ICMPLT if is_later => (IfIcmplt(word(0)?), 2),
        op::GOTO if is_later => (Goto(word(0)?), 2),
        op::IMUL if is_later => (Imul, 0),
        op::IDIV if is_later => (Idiv, 0),
        _ => return None,
    };
    Some((instruction, point + 1 + inline_length))
}

/// The method that inline bytes name, and how many they are; nothing if they are cut off or count too many arguments.
fn method(version: u8, inline: &[u8]) -> Option<(MethodRef, usize)> {
    let word = |at: usize| inline.get(at..at + 2).map(|w| u16::from_be_bytes([w[0], w[1]]));
    let (class, name) = (word(0)?, word(2)?);
    let (arguments, length) = Arguments::read(version, &inline[4..]).ok()?;
    let result = word(4 + length)?;
    Some((MethodRef { class, signature: Signature { name, arguments, result } }, 6 + length))
}

#[cfg(test)]
mod tests {
    use super::op::{Inline, ALL, INLINE};
    use super::*;

    #[test]
    fn the_table_has_the_lengths_that_are_decoded() {
        for (opcode, inline) in ALL.into_iter().zip(INLINE) {
            for version in [1, 2, 3] {
                let length = match inline {
                    Inline::Nothing => 0,
                    Inline::Local => 1,
                    Inline::Int | Inline::Class | Inline::Target => 2,
                    Inline::Field => 6,
                    // from version 3 on the fifth byte is a count
                    Inline::Method if version == 3 => 7,
                    Inline::Method => 8,
                };
                let next = decode(version, &[opcode, 0, 3, 0, 3, 0, 3, 0, 3], 0).map(|(_, next)| next);
                assert_eq!(next, op::of(version).contains(&opcode).then_some(1 + length));
            }
        }
    }

    #[test]
    fn a_count_has_its_types_behind_it() {
        for count in 0..=255 {
            let code = [&[op::INVOKEVIRTUAL, 0, 10, 0, 20, count][..], &[0, 1].repeat(usize::from(count) + 1)].concat();
            let next = decode(3, &code, 0).map(|(_, next)| next);
            assert_eq!(next, (count <= 4).then_some(code.len()));
            assert!((1..code.len()).all(|length| decode(3, &code[..length], 0).is_none()));
        }
    }
}
