//! A text that people wrote: places in it, and problems shown with the line and a caret.
//! A text is UTF-8, with or without a byte order mark, with line ends of either kind.

use std::fmt::Write;

/// A text and the name of its file.
#[derive(Clone, Debug)]
pub struct Source {
    pub file: String,
    pub text: String,
}

/// A part of a text, in bytes.
#[derive(Clone, Copy, Debug, PartialEq, Eq, Default)]
pub struct Span {
    pub start: usize,
    pub end: usize,
}

impl Span {
    pub fn to(self, other: Span) -> Span {
        Span { start: self.start, end: other.end }
    }
}

/// Something wrong at a place: what was found or expected there, and perhaps a near name.
#[derive(Clone, Debug)]
pub struct Problem {
    pub span: Span,
    pub said: String,
    pub help: Option<String>,
}

impl Problem {
    pub fn new(span: Span, said: impl Into<String>) -> Problem {
        Problem { span, said: said.into(), help: None }
    }

    pub fn help(mut self, help: impl Into<String>) -> Problem {
        self.help = Some(help.into());
        self
    }

    /// The same where no help is given yet.
    pub fn or_help(self, help: impl Into<String>) -> Problem {
        match self.help {
            Some(_) => self,
            None => self.help(help),
        }
    }

    /// Names the one of these that is nearest to what was written, if one is near.
    pub fn near<'a>(self, written: &str, names: impl IntoIterator<Item = &'a str>) -> Problem {
        match nearest(written, names) {
            Some(name) => self.help(format!("did you mean {name}?")),
            None => self,
        }
    }
}

/// The problems of a text, in its order: at least one.
#[derive(Clone, Debug)]
pub struct Problems(pub Vec<Problem>);

/// More problems than this aren't shown.
const MOST_SHOWN: usize = 20;

impl From<Problem> for Problems {
    fn from(problem: Problem) -> Problems {
        Problems(vec![problem])
    }
}

/// The encodings that a text may have been saved in instead of UTF-8, as far as its bytes show it.
enum Encoding {
    Utf16,
    /// One byte a character, as Latin-1 has it.
    Bytes,
    /// No text at all.
    None,
}

fn encoding(bytes: &[u8]) -> Encoding {
    let is_control = |byte: u8| byte.is_ascii_control() && !b"\t\r\n".contains(&byte);
    // every other byte is 0, and those between are characters
    let is_half = |zeros: usize| {
        let is_as_it_should = |(at, &byte): (usize, &u8)| if at % 2 == zeros { byte == 0 } else { !is_control(byte) };
        bytes.len() > 3 && bytes.iter().enumerate().all(is_as_it_should)
    };
    if bytes.starts_with(&[0xFF, 0xFE]) || bytes.starts_with(&[0xFE, 0xFF]) || is_half(0) || is_half(1) {
        return Encoding::Utf16;
    }
    if bytes.iter().any(|&byte| is_control(byte)) {
        Encoding::None
    } else {
        Encoding::Bytes
    }
}

/// Are these bytes a text in another encoding than UTF-8?
pub fn is_other_encoding(bytes: &[u8]) -> bool {
    let is_utf8 = std::str::from_utf8(bytes).is_ok();
    match encoding(bytes) {
        Encoding::Utf16 => true,
        Encoding::Bytes => !is_utf8,
        Encoding::None => false,
    }
}

/// The text with what a terminal would obey, as escapes, made visible.
pub fn visible(text: &str) -> String {
    let mut out = String::new();
    for c in text.chars() {
        match c {
            '\t' => out.push(c),
            c if c.is_control() => out.extend(c.escape_default()),
            c => out.push(c),
        }
    }
    out
}

impl Source {
    /// The text of these bytes; where they are no UTF-8, the place.
    pub fn new(file: impl Into<String>, bytes: Vec<u8>) -> Result<Source, (Source, Problems)> {
        let file = file.into();
        let marked = bytes.strip_prefix(b"\xEF\xBB\xBF").map(<[u8]>::to_vec);
        let bytes = marked.unwrap_or(bytes);
        if matches!(encoding(&bytes), Encoding::Utf16) {
            let said = "this looks like UTF-16, and a text is UTF-8";
            let problem = Problem::new(Span::default(), said).help("save it as UTF-8");
            return Err((Source { file, text: String::from_utf8_lossy(&bytes).into_owned() }, problem.into()));
        }
        String::from_utf8(bytes).map(|text| Source { file: file.clone(), text }).map_err(|error| {
            let at = error.utf8_error().valid_up_to();
            let text = String::from_utf8_lossy(error.as_bytes()).into_owned();
            let problem = Problem::new(Span { start: at, end: at }, "a byte that is no text (UTF-8)");
            let help = match encoding(error.as_bytes()) {
                Encoding::None => "a class file is shown by ./box list",
                _ => "it looks like Latin-1 or another encoding: save it as UTF-8",
            };
            (Source { file, text }, problem.help(help).into())
        })
    }

    /// The problems one after the other, twenty at most.
    pub fn show_all(&self, problems: &Problems) -> String {
        let mut out: String = problems.0.iter().take(MOST_SHOWN).map(|problem| self.show(problem)).collect();
        let left = problems.0.len().saturating_sub(MOST_SHOWN);
        if left > 0 {
            let _ = writeln!(out, "{}: {left} more like these", visible(&self.file));
        }
        out
    }

    /// Line and column, from 1; a column is a character.
    pub fn place(&self, at: usize) -> (usize, usize) {
        let before = &self.text[..self.boundary(at)];
        let line = before.matches('\n').count() + 1;
        let begin = before.rfind('\n').map_or(0, |end| end + 1);
        (line, before[begin..].chars().count() + 1)
    }

    /// The line that a place stands in, without its end.
    pub fn line(&self, at: usize) -> &str {
        let at = self.boundary(at);
        let begin = self.text[..at].rfind('\n').map_or(0, |end| end + 1);
        let end = self.text[at..].find('\n').map_or(self.text.len(), |more| at + more);
        self.text[begin..end].trim_end_matches('\r')
    }

    pub fn of(&self, span: Span) -> &str {
        &self.text[span.start..span.end]
    }

    fn boundary(&self, at: usize) -> usize {
        (0..=at.min(self.text.len())).rev().find(|&at| self.text.is_char_boundary(at)).unwrap_or(0)
    }

    /// The problem as people expect it: file, line and column, the line, a caret.
    pub fn show(&self, problem: &Problem) -> String {
        let (line, column) = self.place(problem.span.start);
        let number = line.to_string();
        let margin = " ".repeat(number.len());
        let whole = self.line(problem.span.start);
        let shown: String = whole.chars().map(|c| if c.is_control() { ' ' } else { c }).collect();
        let width = shown.chars().count().saturating_sub(column - 1);
        let wide = self.text.get(problem.span.start..problem.span.end).map_or(1, |part| part.chars().count());
        let carets = "^".repeat(wide.clamp(1, width.max(1)));
        let (shown, before) = cut(&shown, column - 1);
        let mut out = String::new();
        let _ = writeln!(out, "{}:{line}:{column}: {}", visible(&self.file), problem.said);
        let _ = writeln!(out, "{number} | {shown}");
        let _ = writeln!(out, "{margin} | {}{carets}", " ".repeat(before));
        if let Some(help) = &problem.help {
            let _ = writeln!(out, "{margin} = {help}");
        }
        out
    }
}

/// The part of a long line around a column, and how many characters of it stand before the column.
fn cut(line: &str, column: usize) -> (String, usize) {
    const WIDTH: usize = 160;
    if line.chars().count() <= WIDTH {
        return (line.to_string(), column);
    }
    let skip = column.saturating_sub(WIDTH / 2);
    (line.chars().skip(skip).take(WIDTH).collect(), column - skip)
}

/// The name that a mistyped one may have meant.
pub fn nearest<'a>(written: &str, names: impl IntoIterator<Item = &'a str>) -> Option<&'a str> {
    if written.len() > 40 {
        return None;
    }
    let far = |name: &str| distance(&written.to_lowercase(), &name.to_lowercase());
    let most = if written.chars().count() <= 3 { 1 } else { 2 };
    // of names as near as each other, one with which the written word begins comes first: clashes is clash, not class
    let begins = |name: &str| name.len() > 2 && written.to_lowercase().starts_with(&name.to_lowercase());
    let near = names.into_iter().filter(|name| name.len() <= 40).map(|name| ((far(name), !begins(name)), name));
    near.filter(|&((far, _), _)| far <= most).min_by_key(|&(far, _)| far).map(|(_, name)| name)
}

/// How many characters to insert, leave out, change or swap with the next.
fn distance(a: &str, b: &str) -> usize {
    let (a, b): (Vec<char>, Vec<char>) = (a.chars().collect(), b.chars().collect());
    let mut rows = vec![vec![0usize; b.len() + 1]; a.len() + 1];
    for i in 0..=a.len() {
        for j in 0..=b.len() {
            rows[i][j] = if i == 0 || j == 0 {
                i + j
            } else {
                let changed = rows[i - 1][j - 1] + usize::from(a[i - 1] != b[j - 1]);
                let swapped = i > 1 && j > 1 && a[i - 1] == b[j - 2] && a[i - 2] == b[j - 1];
                let best = changed.min(rows[i - 1][j] + 1).min(rows[i][j - 1] + 1);
                if swapped {
                    best.min(rows[i - 2][j - 2] + 1)
                } else {
                    best
                }
            };
        }
    }
    rows[a.len()][b.len()]
}

#[cfg(test)]
mod tests {
    use super::*;

    #[test]
    fn near_names() {
        assert_eq!(nearest("Discuont", ["Discount", "Policy"]), Some("Discount"));
        assert_eq!(nearest("iret", ["ireturn", "iload"]), None);
        assert_eq!(nearest("ilod", ["ireturn", "iload"]), Some("iload"));
        assert_eq!(nearest("clashes", ["class", "clash"]), Some("clash"));
    }

    #[test]
    fn a_problem_has_its_place() {
        let source = Source { file: "a".into(), text: "one\ntwo thre\n".into() };
        let problem = Problem::new(Span { start: 8, end: 12 }, "what is this").near("thre", ["three"]);
        assert_eq!(source.show(&problem), "a:2:5: what is this\n2 | two thre\n  |     ^^^^\n  = did you mean three?\n");
    }

    #[test]
    fn other_encodings_are_named() {
        let said = |bytes: &[u8]| {
            let (source, problems) = Source::new("a", bytes.to_vec()).expect_err("no text");
            source.show_all(&problems)
        };
        assert!(said(b"> Pr\xE4mie\n").contains("save it as UTF-8"));
        for utf16 in [&b"\xFF\xFEn\0a\0"[..], b"\xFE\xFF\0n\0a", b"n\0a\0m\0e\0", b"\0n\0a\0m\0e"] {
            assert!(said(utf16).contains("UTF-16"), "{utf16:?}");
        }
        assert!(said(b"\x01\0\x06\xFF").contains("./box list"));
        assert_eq!(Source::new("a", b"\xEF\xBB\xBFboot\r\n".to_vec()).map_err(|_| ()).map(|source| source.text), Ok("boot\r\n".into()));
    }

    #[test]
    fn escapes_are_shown() {
        assert_eq!(visible("a\u{1b}[31m\tb\u{9b}"), "a\\u{1b}[31m\tb\\u{9b}");
    }

    #[test]
    fn a_problem_at_the_end() {
        let source = Source { file: "a".into(), text: "é".into() };
        let problem = Problem::new(Span { start: 2, end: 2 }, "more");
        assert_eq!(source.show(&problem), "a:1:2: more\n1 | é\n  |  ^\n");
    }
}
