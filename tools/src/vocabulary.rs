//! All words that a lesson knows, besides the names that it declares: what an editor highlights.

use reference::answer::word;
use reference::code::op;

use crate::expect;
use crate::lesson;

/// Words within a statement, a class or a method.
pub const CONNECTING: [&str; 26] = [
    "defines", "records", "starts", "back", "over", "of", "as", "loader", "task", "quote", "report", "off", "extends", "version", "field", "method", "map", "at",
    "bytes", "after", "expect", "counts", "classes", "kept", "cache", "frames",
];

/// Tables that have no other meaning.
const TABLES: [&str; 3] = ["ties", "subtypes", "objects"];

/// What begins a statement.
pub fn statements() -> Vec<&'static str> {
    lesson::keywords().collect()
}

pub fn connecting() -> Vec<&'static str> {
    CONNECTING.into_iter().chain(TABLES).collect()
}

pub fn instructions() -> Vec<&'static str> {
    op::NAMES.to_vec()
}

/// The words of answers; a word of refusal may be two.
pub fn answers() -> Vec<&'static str> {
    expect::ANSWERS.into_iter().chain(word::NAMES.iter().flat_map(|name| name.split(' '))).collect()
}

/// The names that every text has.
pub const TYPES: [&str; 2] = ["int", "Object"];
