//! Bytes of a Java class file, read from the front: big-endian, and never past their end.

/// Why bytes are no class file: what was looked for, and where.
#[derive(Clone, Debug, PartialEq, Eq)]
pub struct Unreadable {
    pub at: usize,
    pub said: String,
}

impl Unreadable {
    pub fn new(at: usize, said: impl Into<String>) -> Unreadable {
        Unreadable { at, said: said.into() }
    }
}

pub type Read<T> = Result<T, Unreadable>;

/// A part of a file that is still to be read, and where in the file it stands.
#[derive(Clone, Copy)]
pub struct Bytes<'a> {
    rest: &'a [u8],
    at: usize,
}

impl<'a> Bytes<'a> {
    pub fn new(bytes: &'a [u8]) -> Bytes<'a> {
        Bytes { rest: bytes, at: 0 }
    }

    pub fn at(&self) -> usize {
        self.at
    }

    pub fn is_end(&self) -> bool {
        self.rest.is_empty()
    }

    /// How many bytes are left.
    pub fn left(&self) -> usize {
        self.rest.len()
    }

    /// The next bytes, of which there must be as many.
    pub fn take(&mut self, length: usize, what: &str) -> Read<&'a [u8]> {
        if length > self.rest.len() {
            return Err(Unreadable::new(self.at, format!("the file ends within {what}")));
        }
        let (taken, rest) = self.rest.split_at(length);
        (self.rest, self.at) = (rest, self.at + length);
        Ok(taken)
    }

    /// The next bytes as a part of their own.
    pub fn part(&mut self, length: usize, what: &str) -> Read<Bytes<'a>> {
        let at = self.at;
        Ok(Bytes { rest: self.take(length, what)?, at })
    }

    pub fn byte(&mut self, what: &str) -> Read<u8> {
        Ok(self.take(1, what)?[0])
    }

    pub fn word(&mut self, what: &str) -> Read<u16> {
        let two = self.take(2, what)?;
        Ok(u16::from_be_bytes([two[0], two[1]]))
    }

    pub fn int(&mut self, what: &str) -> Read<i32> {
        let four = self.take(4, what)?;
        Ok(i32::from_be_bytes([four[0], four[1], four[2], four[3]]))
    }

    /// A length of four bytes.
    pub fn length(&mut self, what: &str) -> Read<usize> {
        Ok(self.int(what)? as u32 as usize)
    }
}
