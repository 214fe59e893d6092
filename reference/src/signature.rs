//! What a method goes by in every search: its name, the list of its argument types and its result type, as one value.

use crate::file::LISTED;
use crate::store::INT;

/// The most arguments of a method.
pub const MOST_ARGUMENTS: usize = 4;

/// The types of a method's arguments in order; the places past the count hold 0.
#[derive(Clone, Copy, Debug, Default, PartialEq, Eq)]
pub struct Arguments {
    types: [u16; MOST_ARGUMENTS],
    count: u8,
}

/// Why bytes don't begin with a list of arguments.
#[derive(Clone, Copy, Debug, PartialEq, Eq)]
pub enum Unlisted {
    CutOff,
    TooMany(u8),
}

impl Arguments {
    /// These types, of which there are at most four.
    pub fn new(of: &[u16]) -> Arguments {
        let mut types = [0; MOST_ARGUMENTS];
        types[..of.len()].copy_from_slice(of);
        Arguments { types, count: of.len() as u8 }
    }

    pub fn types(&self) -> &[u16] {
        &self.types[..usize::from(self.count)]
    }

    pub fn count(&self) -> usize {
        usize::from(self.count)
    }

    /// The list at the front of bytes of a file of this version, and how many of them it has: one type, or from version 3 on a count
    /// and the types.
    pub fn read(version: u8, bytes: &[u8]) -> Result<(Arguments, usize), Unlisted> {
        let (count, before) = if version >= LISTED { (*bytes.first().ok_or(Unlisted::CutOff)?, 1) } else { (1, 0) };
        if usize::from(count) > MOST_ARGUMENTS {
            return Err(Unlisted::TooMany(count));
        }
        let end = before + 2 * usize::from(count);
        let words = bytes.get(before..end).ok_or(Unlisted::CutOff)?;
        let mut arguments = Arguments { count, ..Arguments::default() };
        arguments.types.iter_mut().zip(words.chunks(2)).for_each(|(of, word)| *of = u16::from_be_bytes([word[0], word[1]]));
        Ok((arguments, end))
    }
}

/// Two methods are alike if these are equal.
#[derive(Clone, Copy, Debug, PartialEq, Eq)]
pub struct Signature {
    pub name: u16,
    pub arguments: Arguments,
    pub result: u16,
}

impl Signature {
    pub fn new(name: u16, arguments: &[u16], result: u16) -> Signature {
        Signature { name, arguments: Arguments::new(arguments), result }
    }

    /// A method from int to int, as start looks for it.
    pub fn of_ints(name: u16) -> Signature {
        Signature::new(name, &[INT], INT)
    }

    /// Can a file of this version have such a method?
    pub fn is_of(&self, version: u8) -> bool {
        version >= LISTED || self.arguments.count() == 1
    }

    /// The types that ties go on, in their order: each argument in turn, then the result.
    pub fn types(&self) -> impl Iterator<Item = u16> + '_ {
        self.arguments.types().iter().copied().chain([self.result])
    }

    /// Is the name or a type 0?
    pub fn has_name_0(&self) -> bool {
        self.name == 0 || self.types().any(|of| of == 0)
    }
}
