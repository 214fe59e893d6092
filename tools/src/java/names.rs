//! A tariff library's names and numbers: those that a file of names says, and those that are given to new words.

use crate::lesson::Lesson;
use crate::names::{Names, Taken};
use crate::source::{Problem, Problems, Source};

/// The number from which on new words get theirs.
const FIRST: u16 = 100;

#[derive(Clone, Debug, Default)]
pub struct Library {
    pub names: Names,
    /// Names that are taken over where they are used.
    beside: Names,
    /// How many of the names were there before.
    known: usize,
}

impl Library {
    pub fn of(names: Names) -> Library {
        let known = names.declared().len();
        Library { names, beside: Names::default(), known }
    }

    /// These names, and those of another list where they are used. A clash of the two is said.
    pub fn with(names: Names, beside: &Names) -> Result<Library, String> {
        let mut both = names.clone();
        for (word, number) in beside.declared().iter().filter(|(word, number)| names.number(word) != Some(*number)) {
            both.declare(word, *number).map_err(|taken| match taken {
                Taken::Name(there) => format!("{word} is {there} here and {number} there"),
                Taken::Number(there) => format!("{number} is {there} here and {word} there"),
                Taken::Word => format!("{word} is an insurer here"),
            })?;
        }
        Ok(Library { beside: beside.clone(), ..Library::of(names) })
    }

    /// The names of a file, which has the form of a lesson without calls. A clash of numbers is a problem.
    pub fn read(source: &Source) -> Result<Library, Problems> {
        let lesson = Lesson::read(source)?;
        if let Some(text) = lesson.texts.first() {
            return Err(Problem::new(text.span, "a file of names has lines as: name Discount 12").into());
        }
        Ok(Library::of(lesson.names))
    }

    /// The word's number; a new word gets the lowest that is free from 100 on. Nothing if none is.
    pub fn number(&mut self, word: &str) -> Option<u16> {
        if let Some(number) = self.names.number(word) {
            return Some(number);
        }
        let is_free = |&number: &u16| self.names.name(number).is_none() && self.beside.name(number).is_none();
        let number = self.beside.number(word).or_else(|| (FIRST..=u16::MAX).find(is_free))?;
        self.names.declare(word, number).ok()?;
        Some(number)
    }

    /// The lines for the new names.
    pub fn new_lines(&self) -> String {
        self.names.declared()[self.known..].iter().map(|(word, number)| format!("name {word} {number}\n")).collect()
    }
}

/// Can a text of the box have this as a word?
pub fn is_word(name: &str) -> bool {
    let is_first = |c: char| c.is_alphabetic() || c == '_';
    name.starts_with(is_first) && name.chars().all(|c| c.is_alphanumeric() || c == '_' || c == '$')
}
