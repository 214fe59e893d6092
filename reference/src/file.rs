//! The file rules of all versions, the rule that bytes break, and a view of a file that fits them.

use crate::signature::{Arguments, Signature, Unlisted};
use crate::store::{LOCALS, OPERANDS};

pub const MOST_BYTES: usize = 4_096;
pub const MOST_MEMBERS: usize = 8;
pub const MOST_CODE: usize = 512;

/// The first version, the first in which a method has maps and jumps, and the first in which it has a list of arguments.
const FIRST: u8 = 1;
pub const MAPPED: u8 = 2;
pub const LISTED: u8 = 3;
pub const LAST: u8 = LISTED;

const NAME: usize = 3;
const SUPERCLASS: usize = 5;
const FIELDS: usize = 7;
const FIELD: usize = 4;
/// Offset, eight local types, operand count.
const MAP_HEAD: usize = 19;

#[derive(Clone, Copy, Debug)]
pub struct File<'a> {
    bytes: &'a [u8],
}

#[derive(Clone, Copy, Debug, PartialEq, Eq)]
pub struct Field {
    pub name: u16,
    pub of: u16,
}

/// A method; its code is the part of the file's bytes.
#[derive(Clone, Copy, Debug)]
pub struct Method<'a> {
    pub place: usize,
    /// The file's.
    pub version: u8,
    pub signature: Signature,
    pub code: &'a [u8],
    /// The file's bytes, and where in them the method begins, and its code ends and the maps begin.
    bytes: &'a [u8],
    at: usize,
    end: usize,
}

/// What stands before a method's code.
struct Head {
    signature: Signature,
    /// Where the code begins.
    code: usize,
    code_length: u16,
}

impl Head {
    /// The head that begins at this byte, if it isn't cut off and has no more arguments than a method can have.
    fn read(bytes: &[u8], at: usize) -> Result<Head, Flaw> {
        let cut_off = Flaw { at: bytes.len(), rule: Rule::CutOff };
        let list = at + 2;
        let (arguments, length) = Arguments::read(bytes[0], bytes.get(list..).ok_or(cut_off)?).map_err(|why| match why {
            Unlisted::CutOff => cut_off,
            Unlisted::TooMany(count) => Flaw { at: list, rule: Rule::TooManyArguments(count) },
        })?;
        let result = list + length;
        let code = result + 4;
        if code > bytes.len() {
            return Err(cut_off);
        }
        let signature = Signature { name: pair(bytes, at), arguments, result: pair(bytes, result) };
        Ok(Head { signature, code, code_length: pair(bytes, result + 2) })
    }

    /// Where the types of a head that begins at this byte stand: the arguments', then the result's.
    fn types(&self, bytes: &[u8], at: usize) -> impl Iterator<Item = usize> {
        let first = at + 2 + usize::from(bytes[0] >= LISTED);
        (first..self.code - 2).step_by(2)
    }
}

/// A map, the paper's word for a stack map frame of the JVMS: the types at a point of a method's code. It is a part of the file's bytes.
#[derive(Clone, Copy, Debug)]
pub struct Map<'a> {
    bytes: &'a [u8],
}

impl<'a> Map<'a> {
    /// The map at the front of these bytes, if it isn't cut off.
    fn read(bytes: &'a [u8]) -> Option<Map<'a>> {
        let operands = usize::from(*bytes.get(MAP_HEAD - 1)?);
        Some(Map { bytes: bytes.get(..MAP_HEAD + 2 * operands)? })
    }

    pub fn offset(&self) -> usize {
        usize::from(pair(self.bytes, 0))
    }

    /// The eight types of the locals; 0 is unset.
    pub fn locals(&self) -> impl Iterator<Item = u16> + 'a {
        let bytes = self.bytes;
        (0..LOCALS).map(move |local| pair(bytes, 2 + 2 * local))
    }

    pub fn operand_count(&self) -> usize {
        (self.bytes.len() - MAP_HEAD) / 2
    }

    /// The types of the operands from the lowest up.
    pub fn operands(&self) -> impl Iterator<Item = u16> + 'a {
        let bytes = self.bytes;
        (MAP_HEAD..bytes.len()).step_by(2).map(move |at| pair(bytes, at))
    }
}

/// The maps of a method in the file's order, as far as they aren't cut off.
#[derive(Clone)]
pub struct Maps<'a> {
    bytes: &'a [u8],
    left: u8,
}

impl<'a> Iterator for Maps<'a> {
    type Item = Map<'a>;

    fn next(&mut self) -> Option<Map<'a>> {
        self.left = self.left.checked_sub(1)?;
        let map = Map::read(self.bytes)?;
        self.bytes = &self.bytes[map.bytes.len()..];
        Some(map)
    }
}

/// A file rule that bytes break.
#[derive(Clone, Copy, Debug, PartialEq, Eq)]
pub enum Rule {
    TooLong,
    CutOff,
    Version(u8),
    /// What the length bytes say, and how many bytes follow them.
    Length(u16, usize),
    ClassBelow2(u16),
    Name0,
    TooManyFields(u8),
    TooManyMethods(u8),
    TooManyArguments(u8),
    CodeLength(u16),
    /// A map's offset, which isn't above that of the map before.
    MapOffset(u16),
    TooManyMapOperands(u8),
    MapOperand0,
    BytesLeft(usize),
    SameField(u16),
    SameMethod(u16),
}

/// The first rule that bytes break, and the byte where it shows.
#[derive(Clone, Copy, Debug, PartialEq, Eq)]
pub struct Flaw {
    pub at: usize,
    pub rule: Rule,
}

fn keeps(holds: bool, at: usize, rule: Rule) -> Result<(), Flaw> {
    if holds {
        Ok(())
    } else {
        Err(Flaw { at, rule })
    }
}

impl<'a> Method<'a> {
    /// Methods of version 1 have none.
    pub fn maps(&self) -> Maps<'a> {
        maps(self.version, &self.bytes[self.end..])
    }
}

/// The maps at the front of the bytes behind a method's code.
fn maps(version: u8, behind: &[u8]) -> Maps<'_> {
    match behind.split_first() {
        Some((&left, bytes)) if version >= MAPPED => Maps { bytes, left },
        _ => Maps { bytes: &[], left: 0 },
    }
}

/// How many bytes the maps have, with their count.
fn maps_length(version: u8, behind: &[u8]) -> usize {
    usize::from(version >= MAPPED) + maps(version, behind).map(|map| map.bytes.len()).sum::<usize>()
}

fn pair(bytes: &[u8], at: usize) -> u16 {
    u16::from_be_bytes([bytes[at], bytes[at + 1]])
}

impl<'a> File<'a> {
    /// The file, if the file rules hold.
    pub fn read(bytes: &'a [u8]) -> Option<File<'a>> {
        File::explained(bytes).ok()
    }

    /// The file, or the first rule that the bytes break.
    pub fn explained(bytes: &'a [u8]) -> Result<File<'a>, Flaw> {
        keeps(bytes.len() <= MOST_BYTES, MOST_BYTES, Rule::TooLong)?;
        let version = bytes.first().copied().unwrap_or(FIRST);
        keeps((FIRST..=LAST).contains(&version), 0, Rule::Version(version))?;
        keeps(bytes.len() > FIELDS, bytes.len(), Rule::CutOff)?;
        let (said, follow) = (pair(bytes, 1), bytes.len() - NAME);
        keeps(usize::from(said) == follow, 1, Rule::Length(said, follow))?;
        for at in [NAME, SUPERCLASS] {
            keeps(pair(bytes, at) >= 2, at, Rule::ClassBelow2(pair(bytes, at)))?;
        }
        let end = methods_end(bytes, fields_end(bytes)?)?;
        keeps(end == bytes.len(), end, Rule::BytesLeft(bytes.len() - end))?;
        let file = File { bytes };
        file.fields_differ()?;
        file.methods_differ()?;
        Ok(file)
    }

    /// A file that has been read before.
    pub fn trusted(bytes: &'a [u8]) -> File<'a> {
        File { bytes }
    }

    pub fn version(&self) -> u8 {
        self.bytes[0]
    }

    pub fn name(&self) -> u16 {
        pair(self.bytes, NAME)
    }

    pub fn superclass(&self) -> u16 {
        pair(self.bytes, SUPERCLASS)
    }

    pub fn field_count(&self) -> usize {
        usize::from(self.bytes[FIELDS])
    }

    pub fn fields(&self) -> impl Iterator<Item = Field> + 'a {
        let bytes = self.bytes;
        (0..self.field_count()).map(move |i| {
            let at = FIELDS + 1 + FIELD * i;
            Field { name: pair(bytes, at), of: pair(bytes, at + 2) }
        })
    }

    pub fn method_count(&self) -> usize {
        usize::from(self.bytes[self.methods_at()])
    }

    pub fn methods(&self) -> Methods<'a> {
        Methods { bytes: self.bytes, at: self.methods_at() + 1, place: 0, count: self.method_count() }
    }

    /// The method at this place of the file.
    pub fn method(&self, place: usize) -> Option<Method<'a>> {
        self.methods().nth(place)
    }

    fn methods_at(&self) -> usize {
        FIELDS + 1 + FIELD * self.field_count()
    }

    fn fields_differ(&self) -> Result<(), Flaw> {
        self.fields().enumerate().try_for_each(|(i, field)| {
            let differs = self.fields().take(i).all(|other| other.name != field.name);
            keeps(differs, FIELDS + 1 + FIELD * i, Rule::SameField(field.name))
        })
    }

    fn methods_differ(&self) -> Result<(), Flaw> {
        self.methods().try_for_each(|method| {
            let mut before = self.methods().take(method.place);
            let differs = before.all(|other| other.signature != method.signature);
            keeps(differs, method.at, Rule::SameMethod(method.signature.name))
        })
    }
}

/// The methods in the file's order.
#[derive(Clone)]
pub struct Methods<'a> {
    bytes: &'a [u8],
    /// Where the first method begins, or the code of the one before ends: its maps are passed over only if there is need.
    at: usize,
    place: usize,
    count: usize,
}

impl<'a> Iterator for Methods<'a> {
    type Item = Method<'a>;

    fn next(&mut self) -> Option<Method<'a>> {
        if self.place == self.count {
            return None;
        }
        let (bytes, version) = (self.bytes, self.bytes[0]);
        if version >= MAPPED && self.place > 0 {
            self.at += maps_length(version, &bytes[self.at..]);
        }
        let at = self.at;
        let Head { signature, code, code_length } = Head::read(bytes, at).ok()?;
        let end = code + usize::from(code_length);
        let method = Method { place: self.place, version, signature, code: &bytes[code..end], bytes, at, end };
        self.at = end;
        self.place += 1;
        Some(method)
    }
}

/// Where the fields end, if their count, names and types are fine and there is a byte behind them.
fn fields_end(bytes: &[u8]) -> Result<usize, Flaw> {
    let count = bytes[FIELDS];
    keeps(usize::from(count) <= MOST_MEMBERS, FIELDS, Rule::TooManyFields(count))?;
    let end = FIELDS + 1 + FIELD * usize::from(count);
    keeps(end < bytes.len(), bytes.len(), Rule::CutOff)?;
    (FIELDS + 1..end).step_by(2).try_for_each(|at| keeps(pair(bytes, at) != 0, at, Rule::Name0))?;
    Ok(end)
}

/// Where the methods end, if their count, names, types, code lengths and maps are fine.
fn methods_end(bytes: &[u8], at: usize) -> Result<usize, Flaw> {
    let count = bytes[at];
    keeps(usize::from(count) <= MOST_MEMBERS, at, Rule::TooManyMethods(count))?;
    let mut end = at + 1;
    for _ in 0..count {
        let head = Head::read(bytes, end)?;
        let mut names = std::iter::once(end).chain(head.types(bytes, end));
        names.try_for_each(|at| keeps(pair(bytes, at) != 0, at, Rule::Name0))?;
        let length = head.code_length;
        keeps(length != 0 && usize::from(length) <= MOST_CODE, head.code - 2, Rule::CodeLength(length))?;
        end = head.code + usize::from(length);
        keeps(end <= bytes.len(), bytes.len(), Rule::CutOff)?;
        end = if bytes[0] >= MAPPED { maps_end(bytes, end)? } else { end };
    }
    Ok(end)
}

/// Where the maps whose count stands at this byte end, if their offsets rise and their operands are fine.
fn maps_end(bytes: &[u8], at: usize) -> Result<usize, Flaw> {
    keeps(at < bytes.len(), bytes.len(), Rule::CutOff)?;
    let (mut end, mut least) = (at + 1, 0);
    for _ in 0..bytes[at] {
        let head = end + MAP_HEAD;
        keeps(head <= bytes.len(), bytes.len(), Rule::CutOff)?;
        let (offset, operands) = (pair(bytes, end), bytes[head - 1]);
        keeps(u32::from(offset) >= least, end, Rule::MapOffset(offset))?;
        keeps(usize::from(operands) <= OPERANDS, head - 1, Rule::TooManyMapOperands(operands))?;
        least = u32::from(offset) + 1;
        end = head + 2 * usize::from(operands);
        keeps(end <= bytes.len(), bytes.len(), Rule::CutOff)?;
        (head..end).step_by(2).try_for_each(|at| keeps(pair(bytes, at) != 0, at, Rule::MapOperand0))?;
    }
    Ok(end)
}

/// What can be read of bytes that needn't be a file, from the front, until they end.
#[derive(Clone, Debug, Default)]
pub struct Sketch<'a> {
    pub version: Option<u8>,
    pub name: Option<u16>,
    pub superclass: Option<u16>,
    pub fields: Vec<Field>,
    /// The last one's code or maps may be cut off.
    pub methods: Vec<Method<'a>>,
}

impl<'a> Sketch<'a> {
    pub fn read(bytes: &'a [u8]) -> Sketch<'a> {
        let word = |at: usize| (at + 2 <= bytes.len()).then(|| pair(bytes, at));
        let count = |at: usize| bytes.get(at).map_or(0, |&count| usize::from(count));
        let version = bytes.first().copied();
        let mut sketch = Sketch { version, name: word(NAME), superclass: word(SUPERCLASS), ..Sketch::default() };
        let mut at = FIELDS + 1;
        for _ in 0..count(FIELDS) {
            let (Some(name), Some(of)) = (word(at), word(at + 2)) else {
                return sketch;
            };
            sketch.fields.push(Field { name, of });
            at += FIELD;
        }
        let methods = count(at);
        at += 1;
        for place in 0..methods {
            let Ok(Head { signature, code, code_length }) = Head::read(bytes, at) else {
                break;
            };
            let end = bytes.len().min(code + usize::from(code_length));
            sketch.methods.push(Method { place, version: bytes[0], signature, code: &bytes[code..end], bytes, at, end });
            at = end + maps_length(bytes[0], &bytes[end..]);
        }
        sketch
    }
}
