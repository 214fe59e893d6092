//! Names and their numbers: those that a file declares, and the two that every file has. Loaders may have names too, their insurers'.

use reference::signature::Signature;
use reference::store::{INT, LOADERS, OBJECT};

#[derive(Clone, Debug)]
pub struct Names {
    all: Vec<(String, u16)>,
    /// Names that a text uses and doesn't declare, with numbers that let a reader go on.
    supposed: Vec<(String, u16)>,
    /// The insurers that loaders stand for.
    insurers: Vec<(String, u16)>,
    /// Numbers that a text gives to names itself, above or below.
    given: Vec<u16>,
    /// The first number that a name without one may get.
    next: u16,
}

/// Names without a number get the lowest from here on, above those that Java's names get.
const FIRST_FREE: u16 = 1_000;

/// Why a name can't be declared.
#[derive(Clone, Debug, PartialEq, Eq)]
pub enum Taken {
    /// The name has this number already.
    Name(u16),
    /// The number has this name already.
    Number(String),
    /// The word is an insurer's, or a name's, already.
    Word,
}

impl Default for Names {
    fn default() -> Names {
        Names { all: vec![("int".into(), INT), ("Object".into(), OBJECT)], supposed: Vec::new(), insurers: Vec::new(), given: Vec::new(), next: FIRST_FREE }
    }
}

impl Names {
    pub fn declare(&mut self, name: &str, number: u16) -> Result<(), Taken> {
        if let Some(there) = self.all.iter().find(|entry| entry.0 == name) {
            return Err(Taken::Name(there.1));
        }
        if let Some(there) = self.name(number) {
            return Err(Taken::Number(there.into()));
        }
        if self.insurer(name).is_some() {
            return Err(Taken::Word);
        }
        self.all.push((name.into(), number));
        Ok(())
    }

    /// Keeps numbers for the names that the text gives them to.
    pub fn keep(&mut self, mut given: Vec<u16>) {
        given.sort_unstable();
        self.given = given;
    }

    /// The number for the next name that is declared without one, if one is left.
    pub fn free(&mut self) -> Option<u16> {
        let number = (self.next..=u16::MAX).find(|number| self.name(*number).is_none() && self.given.binary_search(number).is_err())?;
        self.next = number;
        Some(number)
    }

    /// Calls a loader by its insurer's word.
    pub fn insure(&mut self, word: &str, loader: u16) -> Result<(), Taken> {
        if let Some(there) = self.insurers.iter().find(|entry| entry.0 == word) {
            return Err(Taken::Name(there.1));
        }
        if let Some(there) = self.insurers.iter().find(|entry| entry.1 == loader) {
            return Err(Taken::Number(there.0.clone()));
        }
        if self.number(word).is_some() {
            return Err(Taken::Word);
        }
        self.insurers.push((word.into(), loader));
        Ok(())
    }

    /// The lowest loader from 1 on that no insurer has.
    pub fn free_loader(&self) -> Option<u16> {
        (1..LOADERS).find(|loader| self.insurers.iter().all(|entry| entry.1 != *loader))
    }

    /// The loader of the insurer of this name.
    pub fn insurer(&self, word: &str) -> Option<u16> {
        self.insurers.iter().find(|entry| entry.0 == word).map(|entry| entry.1)
    }

    pub fn insurers(&self) -> &[(String, u16)] {
        &self.insurers
    }

    fn insurer_of(&self, loader: u32) -> Option<&str> {
        self.insurers.iter().find(|entry| u32::from(entry.1) == loader).map(|entry| entry.0.as_str())
    }

    /// A loader as people read it: its insurer, or its number behind the word loader.
    pub fn loader(&self, number: impl Into<u32>) -> String {
        let number = number.into();
        self.insurer_of(number).map_or_else(|| format!("loader {number}"), str::to_string)
    }

    /// A loader where only one can stand: its insurer, or its number alone.
    pub fn bare_loader(&self, number: u32) -> String {
        self.insurer_of(number).map_or_else(|| number.to_string(), str::to_string)
    }

    /// Two loaders: loaders 1 and 2, or Red and Blue, or Red and loader 2.
    pub fn loaders(&self, one: u16, other: u16) -> String {
        if self.insurer_of(one.into()).or(self.insurer_of(other.into())).is_none() {
            return format!("loaders {one} and {other}");
        }
        format!("{} and {}", self.loader(one), self.loader(other))
    }

    /// What a loader means by a name: Discount of loader 2, or Red's Discount.
    pub fn request(&self, loader: impl Into<u32>, name: u32) -> String {
        let loader = loader.into();
        let name = u16::try_from(name).map_or_else(|_| name.to_string(), |name| self.class(name));
        match self.insurer_of(loader) {
            Some(insurer) => format!("{insurer}'s {name}"),
            None => format!("{name} of loader {loader}"),
        }
    }

    /// A number for a name that isn't declared.
    pub fn suppose(&mut self, name: &str) -> u16 {
        let number = u16::MAX - (self.supposed.len() as u16).min(u16::MAX - 2);
        self.supposed.push((name.into(), number));
        number
    }

    pub fn number(&self, name: &str) -> Option<u16> {
        self.all.iter().chain(&self.supposed).find(|entry| entry.0 == name).map(|entry| entry.1)
    }

    pub fn name(&self, number: u16) -> Option<&str> {
        self.all.iter().find(|entry| entry.1 == number).map(|entry| entry.0.as_str())
    }

    pub fn iter(&self) -> impl Iterator<Item = &str> {
        self.all.iter().map(|entry| entry.0.as_str())
    }

    /// Those that were declared.
    pub fn declared(&self) -> &[(String, u16)] {
        &self.all[2..]
    }

    /// A class or type as people read it.
    pub fn class(&self, number: u16) -> String {
        self.name(number).map_or_else(|| number.to_string(), str::to_string)
    }

    /// A field or method as people read it: int and Object are no names for one.
    pub fn member(&self, number: u16) -> String {
        if number == INT || number == OBJECT {
            return number.to_string();
        }
        self.class(number)
    }

    /// A method with its arguments and result.
    pub fn method(&self, method: Signature) -> String {
        let arguments: Vec<String> = method.arguments.types().iter().map(|&of| self.class(of)).collect();
        format!("{}({}) {}", self.member(method.name), arguments.join(" "), self.class(method.result))
    }
}
