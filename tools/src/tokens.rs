//! A text as tokens: words, numbers, signs, and lines of words for the reader.

use crate::source::{Problem, Source, Span};

#[derive(Clone, Debug, PartialEq, Eq)]
pub enum Kind {
    /// A letter or _, then letters, digits, _ and $.
    Word,
    /// Digits, perhaps with a minus before them.
    Number(i64),
    /// Digits and letters that begin with a digit: no number, but perhaps hexadecimal.
    Mixed,
    /// One of `{ } [ ] ( ) . , : /`, or a minus alone.
    Sign(char),
    /// A line that begins with >: words for the reader, without the sign.
    Said(String),
    End,
}

#[derive(Clone, Debug)]
pub struct Token {
    pub kind: Kind,
    pub span: Span,
    /// From 1.
    pub line: usize,
}

/// The signs that end a word or number.
const SIGNS: &str = "{}[]().,:/";

/// All tokens of a text, the last of which is `End`, and the problems: what begins no token is passed over.
pub fn tokens(source: &Source) -> (Vec<Token>, Vec<Problem>) {
    let (mut all, mut problems) = (Vec::new(), Vec::new());
    let mut start = 0;
    for (number, line) in source.text.split('\n').enumerate() {
        if let Some(said) = line.trim_start().strip_prefix('>') {
            let span = Span { start, end: start + line.len() };
            let said = said.strip_prefix(' ').unwrap_or(said).trim_end().to_string();
            all.push(Token { kind: Kind::Said(said), span, line: number + 1 });
        } else {
            line_tokens(line, start, number + 1, &mut all, &mut problems);
        }
        start += line.len() + 1;
    }
    let end = source.text.len();
    let line = source.text.split('\n').count();
    all.push(Token { kind: Kind::End, span: Span { start: end, end }, line });
    (all, problems)
}

/// A line's tokens, and its first problem.
fn line_tokens(line: &str, start: usize, number: usize, all: &mut Vec<Token>, problems: &mut Vec<Problem>) {
    let found = problems.len();
    let mut at = 0;
    while let Some(first) = line[at..].chars().next() {
        if first == '#' {
            break;
        }
        let rest = &line[at..];
        let length = if first.is_whitespace() || SIGNS.contains(first) { first.len_utf8() } else { length_of(rest) };
        let span = Span { start: start + at, end: start + at + length.max(first.len_utf8()) };
        match kind_of(&rest[..length]) {
            _ if first.is_whitespace() => {}
            Some(kind) => all.push(Token { kind, span, line: number }),
            None if problems.len() == found => problems.push(strange(first, span)),
            None => {}
        }
        at += length.max(first.len_utf8());
    }
}

fn strange(first: char, span: Span) -> Problem {
    let problem = Problem::new(span, format!("{first:?} begins neither a word nor a number"));
    if first.is_control() {
        return problem.help("a class file is shown by ./box list");
    }
    problem.help("a comment begins with #, words for the reader with >")
}

/// How far a word or number goes.
fn length_of(rest: &str) -> usize {
    let minus = usize::from(rest.starts_with('-'));
    let is_part = |c: char| c.is_alphanumeric() || c == '_' || c == '$';
    minus + rest[minus..].find(|c| !is_part(c)).unwrap_or(rest.len() - minus)
}

fn kind_of(part: &str) -> Option<Kind> {
    let first = part.chars().next()?;
    if SIGNS.contains(first) || part == "-" {
        return Some(Kind::Sign(first));
    }
    if first.is_alphabetic() || first == '_' {
        return Some(Kind::Word);
    }
    let digits = part.strip_prefix('-').unwrap_or(part);
    if digits.is_empty() {
        return None;
    }
    match part.parse() {
        Ok(number) if digits.bytes().all(|byte| byte.is_ascii_digit()) => Some(Kind::Number(number)),
        _ => Some(Kind::Mixed),
    }
}
