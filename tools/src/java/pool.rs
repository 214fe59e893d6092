//! The constant pool of a Java class file (JVMS 4.4): what other parts name by an index.

use super::bytes::{Bytes, Read, Unreadable};

#[derive(Clone, Debug, PartialEq, Eq)]
pub enum Constant {
    /// Index 0, and the one behind a long or a double.
    Unusable,
    Utf8(String),
    Int(i32),
    /// A float, a long, a double, a method handle and so on: nothing that the box has, by its name.
    Other(&'static str),
    Class(u16),
    Text,
    NameAndType(u16, u16),
    /// A field or method: its class, and its name and type.
    Member(u16, u16),
    InterfaceMethod(u16, u16),
    /// A call site that a method makes when it is first come to: its name and type.
    Dynamic(u16),
}

/// A field or a method as an instruction names it.
#[derive(Clone, Debug, PartialEq, Eq)]
pub struct MemberRef {
    pub class: String,
    pub name: String,
    pub descriptor: String,
}

#[derive(Clone, Debug, Default)]
pub struct Pool {
    all: Vec<Constant>,
}

impl Pool {
    pub fn read(bytes: &mut Bytes) -> Read<Pool> {
        let count = bytes.word("the constant pool's count")?;
        let mut all = vec![Constant::Unusable];
        while all.len() < usize::from(count) {
            let constant = constant(bytes)?;
            let is_wide = matches!(constant, Constant::Other("long" | "double"));
            all.push(constant);
            if is_wide {
                all.push(Constant::Unusable);
            }
        }
        Ok(Pool { all })
    }

    pub fn at(&self, index: u16) -> &Constant {
        self.all.get(usize::from(index)).unwrap_or(&Constant::Unusable)
    }

    pub fn text(&self, index: u16) -> Option<&str> {
        match self.at(index) {
            Constant::Utf8(text) => Some(text),
            _ => None,
        }
    }

    pub fn class(&self, index: u16) -> Option<&str> {
        match *self.at(index) {
            Constant::Class(name) => self.text(name),
            _ => None,
        }
    }

    fn name_and_type(&self, index: u16) -> Option<(&str, &str)> {
        match *self.at(index) {
            Constant::NameAndType(name, of) => Some((self.text(name)?, self.text(of)?)),
            _ => None,
        }
    }

    /// A field or method of a class.
    pub fn member(&self, index: u16) -> Option<MemberRef> {
        let (Constant::Member(class, named) | Constant::InterfaceMethod(class, named)) = *self.at(index) else {
            return None;
        };
        let (name, descriptor) = self.name_and_type(named)?;
        Some(MemberRef { class: self.class(class)?.into(), name: name.into(), descriptor: descriptor.into() })
    }

    /// The name of a dynamic call site.
    pub fn dynamic(&self, index: u16) -> Option<&str> {
        match *self.at(index) {
            Constant::Dynamic(named) => Some(self.name_and_type(named)?.0),
            _ => None,
        }
    }
}

fn constant(bytes: &mut Bytes) -> Read<Constant> {
    const WHAT: &str = "the constant pool";
    let at = bytes.at();
    let tag = bytes.byte(WHAT)?;
    let mut word = || bytes.word(WHAT);
    Ok(match tag {
        1 => {
            let length = word()?;
            let at = bytes.at();
            let text = modified_utf8(bytes.take(length.into(), WHAT)?);
            Constant::Utf8(text.ok_or_else(|| Unreadable::new(at, "a text of the constant pool is no text"))?)
        }
        3 => Constant::Int(bytes.int(WHAT)?),
        4 => bytes.take(4, WHAT).map(|_| Constant::Other("float"))?,
        5 => bytes.take(8, WHAT).map(|_| Constant::Other("long"))?,
        6 => bytes.take(8, WHAT).map(|_| Constant::Other("double"))?,
        7 => Constant::Class(word()?),
        8 => word().map(|_| Constant::Text)?,
        9 | 10 => Constant::Member(word()?, word()?),
        11 => Constant::InterfaceMethod(word()?, word()?),
        12 => Constant::NameAndType(word()?, word()?),
        15 => bytes.take(3, WHAT).map(|_| Constant::Other("method handle"))?,
        16 => bytes.take(2, WHAT).map(|_| Constant::Other("method type"))?,
        17 | 18 => word().and_then(|_| word()).map(Constant::Dynamic)?,
        19 | 20 => bytes.take(2, WHAT).map(|_| Constant::Other("module"))?,
        _ => return Err(Unreadable::new(at, format!("the constant pool has a constant of tag {tag}, which isn't known"))),
    })
}

/// The text of JVMS 4.4.7: a zero has two bytes, and a character beyond 16 bits is two halves of three bytes each.
fn modified_utf8(bytes: &[u8]) -> Option<String> {
    let mut units: Vec<u16> = Vec::new();
    let mut rest = bytes;
    while let [first, behind @ ..] = rest {
        let more = |place: usize| behind.get(place).filter(|&&byte| byte & 0xC0 == 0x80).map(|byte| u16::from(byte & 0x3F));
        let first = u16::from(*first);
        let (unit, length) = match first {
            0x01..=0x7F => (first, 0),
            0xC0..=0xDF => ((first & 0x1F) << 6 | more(0)?, 1),
            0xE0..=0xEF => ((first & 0x0F) << 12 | more(0)? << 6 | more(1)?, 2),
            _ => return None,
        };
        units.push(unit);
        rest = &behind[length..];
    }
    Some(String::from_utf16_lossy(&units))
}
