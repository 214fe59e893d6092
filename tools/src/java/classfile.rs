//! A Java class file (JVMS 4), as javac writes it: read whole, with what the translation needs of its attributes.

use super::bytes::{Bytes, Read, Unreadable};
use super::pool::{Constant, Pool};

/// Access flags (JVMS 4.1, 4.5, 4.6).
pub mod flag {
    pub const PRIVATE: u16 = 0x0002;
    pub const STATIC: u16 = 0x0008;
    pub const FINAL: u16 = 0x0010;
    pub const SYNCHRONIZED: u16 = 0x0020;
    pub const NATIVE: u16 = 0x0100;
    pub const INTERFACE: u16 = 0x0200;
    pub const ABSTRACT: u16 = 0x0400;
    pub const SYNTHETIC: u16 = 0x1000;
    pub const ENUM: u16 = 0x4000;
    pub const MODULE: u16 = 0x8000;
}

pub const MAGIC: [u8; 4] = [0xCA, 0xFE, 0xBA, 0xBE];

#[derive(Clone, Debug)]
pub struct ClassFile {
    /// The major version: 61 is Java 17's.
    pub version: u16,
    pub flags: u16,
    /// With a slash behind each package.
    pub name: String,
    pub superclass: Option<String>,
    pub interfaces: Vec<String>,
    pub fields: Vec<Member>,
    pub methods: Vec<Member>,
    /// The name of the Java file, if the class file has it.
    pub source: Option<String>,
    pub pool: Pool,
}

/// A field or a method.
#[derive(Clone, Debug)]
pub struct Member {
    pub flags: u16,
    pub name: String,
    pub descriptor: String,
    pub code: Option<Code>,
    /// Does a constant of the pool say its value?
    pub is_constant: bool,
}

impl Member {
    pub fn is(&self, flag: u16) -> bool {
        self.flags & flag != 0
    }
}

#[derive(Clone, Debug, Default)]
pub struct Code {
    pub operands: u16,
    pub locals: u16,
    pub bytes: Vec<u8>,
    /// Where the ranges of exception handlers begin.
    pub handlers: Vec<u16>,
    /// Points and the lines that begin there.
    pub lines: Vec<(u16, u16)>,
    /// The entries of the StackMapTable, as they stand, and their count.
    pub frames: (u16, Vec<u8>),
}

impl Code {
    /// The Java line of a point.
    pub fn line(&self, point: usize) -> Option<u16> {
        let before = self.lines.iter().filter(|(at, _)| usize::from(*at) <= point);
        before.max_by_key(|(at, _)| *at).map(|(_, line)| *line)
    }
}

impl ClassFile {
    pub fn read(bytes: &[u8]) -> Read<ClassFile> {
        let mut bytes = Bytes::new(bytes);
        if bytes.take(4, "the magic number").ok() != Some(&MAGIC) {
            return Err(Unreadable::new(0, "it doesn't begin with CAFEBABE, as Java's class files do"));
        }
        bytes.word("the version")?;
        let version = bytes.word("the version")?;
        let pool = Pool::read(&mut bytes)?;
        let flags = bytes.word("the access flags")?;
        let name = class(&mut bytes, &pool, "the class's name")?;
        let above = bytes.word("the superclass")?;
        let superclass = if above == 0 { None } else { Some(named(pool.class(above), bytes.at(), "the superclass's name")?) };
        let count = bytes.word("the interfaces")?;
        let interfaces = (0..count).map(|_| class(&mut bytes, &pool, "an interface's name")).collect::<Read<_>>()?;
        let fields = members(&mut bytes, &pool, "a field")?;
        let methods = members(&mut bytes, &pool, "a method")?;
        let mut source = None;
        attributes(&mut bytes, &pool, "the class's attributes", &mut |name, mut part| {
            if name == "SourceFile" {
                source = pool.text(part.word("the source file")?).map(str::to_string);
            }
            Ok(())
        })?;
        if !bytes.is_end() {
            return Err(Unreadable::new(bytes.at(), "there are bytes behind the class"));
        }
        Ok(ClassFile { version, flags, name, superclass, interfaces, fields, methods, source, pool })
    }
}

fn named(text: Option<&str>, at: usize, what: &str) -> Read<String> {
    text.map(str::to_string).ok_or_else(|| Unreadable::new(at, format!("{what} isn't in the constant pool")))
}

fn class(bytes: &mut Bytes, pool: &Pool, what: &str) -> Read<String> {
    let at = bytes.at();
    named(pool.class(bytes.word(what)?), at, what)
}

/// Hands on each attribute with its name.
fn attributes<'a>(
    bytes: &mut Bytes<'a>,
    pool: &Pool,
    what: &str,
    take: &mut dyn FnMut(&str, Bytes<'a>) -> Read<()>,
) -> Read<()> {
    for _ in 0..bytes.word(what)? {
        let at = bytes.at();
        let name = named(pool.text(bytes.word(what)?), at, "an attribute's name")?;
        let length = bytes.length(what)?;
        take(&name, bytes.part(length, what)?)?;
    }
    Ok(())
}

fn members(bytes: &mut Bytes, pool: &Pool, what: &str) -> Read<Vec<Member>> {
    (0..bytes.word(what)?).map(|_| member(bytes, pool, what)).collect()
}

fn member(bytes: &mut Bytes, pool: &Pool, what: &str) -> Read<Member> {
    let flags = bytes.word(what)?;
    let at = bytes.at();
    let name = named(pool.text(bytes.word(what)?), at, "a member's name")?;
    let descriptor = named(pool.text(bytes.word(what)?), at, "a member's type")?;
    let (mut read, mut is_constant) = (None, false);
    attributes(bytes, pool, what, &mut |name, mut part| {
        match name {
            "Code" => read = Some(code(&mut part, pool)?),
            "ConstantValue" => is_constant = matches!(pool.at(part.word(what)?), Constant::Int(_)),
            _ => {}
        }
        Ok(())
    })?;
    Ok(Member { flags, name, descriptor, code: read, is_constant })
}

fn code(bytes: &mut Bytes, pool: &Pool) -> Read<Code> {
    const WHAT: &str = "a method's code";
    let mut code = Code { operands: bytes.word(WHAT)?, locals: bytes.word(WHAT)?, ..Code::default() };
    let length = bytes.length(WHAT)?;
    code.bytes = bytes.take(length, WHAT)?.to_vec();
    for _ in 0..bytes.word(WHAT)? {
        code.handlers.push(bytes.word(WHAT)?);
        bytes.take(6, WHAT)?;
    }
    attributes(bytes, pool, WHAT, &mut |name, mut part| {
        match name {
            "LineNumberTable" => {
                for _ in 0..part.word(WHAT)? {
                    code.lines.push((part.word(WHAT)?, part.word(WHAT)?));
                }
            }
            "StackMapTable" => {
                let count = part.word(WHAT)?;
                code.frames = (count, part.take(part.left(), WHAT)?.to_vec());
            }
            _ => {}
        }
        Ok(())
    })?;
    Ok(code)
}
