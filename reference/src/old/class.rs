//! Document 01's file and its instructions.

/// A class file that keeps the file rules.
#[derive(Clone, Debug, PartialEq, Eq)]
pub struct ClassFile {
    pub name: u16,
    pub superclass: u16,
    /// Name and type of each field.
    pub fields: Vec<(u16, u16)>,
    pub methods: Vec<Method>,
}

#[derive(Clone, Debug, PartialEq, Eq)]
pub struct Method {
    pub head: Head,
    pub code: Vec<u8>,
}

/// What methods are alike in: name, argument type and result type.
#[derive(Clone, Copy, Debug, PartialEq, Eq)]
pub struct Head {
    pub name: u16,
    pub argument: u16,
    pub result: u16,
}

struct Bytes<'a> {
    left: &'a [u8],
}

impl<'a> Bytes<'a> {
    fn take(&mut self, count: usize) -> Option<&'a [u8]> {
        let (taken, left) = (self.left.get(..count)?, &self.left[count..]);
        self.left = left;
        Some(taken)
    }

    fn byte(&mut self) -> Option<u8> {
        self.take(1).map(|bytes| bytes[0])
    }

    fn pair(&mut self) -> Option<u16> {
        self.take(2).map(|bytes| u16::from(bytes[0]) << 8 | u16::from(bytes[1]))
    }

    /// A name or type, which is at least this.
    fn name(&mut self, least: u16) -> Option<u16> {
        self.pair().filter(|&name| name >= least)
    }

    /// A count of fields or methods.
    fn members(&mut self) -> Option<u8> {
        self.byte().filter(|&count| count <= 8)
    }

    fn method(&mut self) -> Option<Method> {
        let head = Head { name: self.name(1)?, argument: self.name(1)?, result: self.name(1)? };
        let length = self.pair().filter(|length| (1..=512).contains(length))?;
        Some(Method { head, code: self.take(length.into())?.to_vec() })
    }
}

/// The file, if the file rules hold.
pub fn read(file: &[u8]) -> Option<ClassFile> {
    let mut bytes = Bytes { left: file };
    let is_version_1 = bytes.byte()? == 1;
    let length = bytes.pair()?;
    let is_whole = bytes.left.len() == usize::from(length) && file.len() <= 4_096;
    let (name, superclass) = (bytes.name(2)?, bytes.name(2)?);
    let mut fields: Vec<(u16, u16)> = Vec::new();
    for _ in 0..bytes.members()? {
        let field = (bytes.name(1)?, bytes.name(1)?);
        if fields.iter().any(|other| other.0 == field.0) {
            return None;
        }
        fields.push(field);
    }
    let mut methods: Vec<Method> = Vec::new();
    for _ in 0..bytes.members()? {
        let method = bytes.method()?;
        if methods.iter().any(|other| other.head == method.head) {
            return None;
        }
        methods.push(method);
    }
    let is_right = is_version_1 && is_whole && bytes.left.is_empty();
    is_right.then_some(ClassFile { name, superclass, fields, methods })
}

/// An instruction with what follows it inline.
#[derive(Clone, Copy, Debug, PartialEq, Eq)]
pub enum Op {
    Null,
    Int(i16),
    /// Loads and stores, of an int or a reference.
    Load { local: u8, int: bool },
    Store { local: u8, int: bool },
    Pop,
    Dup,
    Add,
    Sub,
    Get { class: u16, field: u16, of: u16 },
    Put { class: u16, field: u16, of: u16 },
    Invoke { class: u16, head: Head },
    New { class: u16 },
    /// A return, of an int or a reference.
    Return { int: bool },
}

/// The instruction at a point of the code, and the next point; nothing past the code, for an unknown opcode, or where inline bytes are cut off.
pub fn decode(code: &[u8], point: usize) -> Option<(Op, usize)> {
    let mut bytes = Bytes { left: code.get(point..)? };
    let opcode = bytes.byte()?;
    let op = match opcode {
        0x01 => Op::Null,
        0x11 => Op::Int(bytes.pair()? as i16),
        0x15 | 0x19 => Op::Load { local: bytes.byte()?, int: opcode == 0x15 },
        0x36 | 0x3A => Op::Store { local: bytes.byte()?, int: opcode == 0x36 },
        0x57 => Op::Pop,
        0x59 => Op::Dup,
        0x60 => Op::Add,
        0x64 => Op::Sub,
        0xB4 => Op::Get { class: bytes.pair()?, field: bytes.pair()?, of: bytes.pair()? },
        0xB5 => Op::Put { class: bytes.pair()?, field: bytes.pair()?, of: bytes.pair()? },
        0xB6 => Op::Invoke { class: bytes.pair()?, head: Head { name: bytes.pair()?, argument: bytes.pair()?, result: bytes.pair()? } },
        0xBB => Op::New { class: bytes.pair()? },
        0xAC | 0xB0 => Op::Return { int: opcode == 0xAC },
        _ => return None,
    };
    Some((op, code.len() - bytes.left.len()))
}
