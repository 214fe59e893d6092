//! The text form of a class file: reading it, and the bytes that it stands for.
//!
//! ```text
//! class Discount extends Object { field rate int  method of(int) int { iload 1  ireturn } }
//! class Endless extends Object version 2 { method of(int) int { again: map [] {Endless int}  goto again } }
//! class Premium extends Object version 3 { method of(int Region int) int { iload 1  iload 3  iadd  ireturn } }
//! file Damaged { 01 0006 000A 0002 00 }
//! ```

use reference::code::op::{self, Inline};
use reference::file::{LAST, LISTED, MAPPED};
use reference::gen::build::{Code, Draft, MapDraft, MethodDraft};
use reference::store::LOCALS;

use crate::cursor::{Cursor, Parsed};
use crate::java::lines::Lines;
use crate::source::{Problem, Span};
use crate::tokens::Kind;

/// A class file's text, assembled.
#[derive(Clone, Debug)]
pub struct Text {
    /// What the text is called: its class's name, if it says no other.
    pub called: String,
    pub span: Span,
    pub bytes: Vec<u8>,
    /// The Java lines of its code, if it was written in Java.
    pub lines: Lines,
    /// Where parts of the text stand in the bytes, by rising place.
    marks: Vec<(usize, Span)>,
    /// The labels by the byte of the instruction behind them.
    labels: Vec<(usize, String)>,
}

impl Text {
    /// The label before the instruction at this byte.
    pub fn label(&self, byte: usize) -> Option<&str> {
        self.labels.iter().find(|label| label.0 == byte).map(|label| label.1.as_str())
    }

    /// A file that was made otherwise: all of it comes from this part.
    pub fn made(called: String, span: Span, bytes: Vec<u8>, lines: Lines) -> Text {
        Text { called, span, bytes, lines, marks: Vec::new(), labels: Vec::new() }
    }

    /// The part of the text that this byte comes from.
    pub fn part(&self, byte: usize) -> Span {
        self.marks.iter().rev().find(|mark| mark.0 <= byte).map_or(self.span, |mark| mark.1)
    }
}

const HEAD: usize = 3;
const FIELDS: usize = 8;
const FIELD: usize = 4;
/// A method's name, result and code length.
const METHOD_HEAD: usize = 6;
const MAP_HEAD: usize = 19;

/// The first line of a class.
struct Head {
    draft: Draft,
    called: String,
    span: Span,
    own: Span,
    above: Span,
}

/// `NAME extends NAME [version N] [as WORD]`
fn head(at: &mut Cursor) -> Parsed<Head> {
    let begin = at.last().span;
    let own = at.peek().span;
    let mut draft = Draft::new(at.name("the class's name")?);
    let mut called = at.source.of(own).to_string();
    if at.last().kind != Kind::Word {
        called = at.names.class(draft.name);
    }
    at.keyword("extends")?;
    let above = at.peek().span;
    draft = draft.under(at.name("the superclass's name")?);
    if at.took("version") {
        draft.version = at.number("a version", 1, LAST.into())? as u8;
    }
    let mut span = begin.to(at.last().span);
    if at.took("as") {
        let (word, end) = at.fresh("what the text is called")?;
        (called, span) = (word.to_string(), begin.to(end));
    }
    Ok(Head { draft, called, span, own, above })
}

/// A class's first line and its brace; one with a problem is passed over as far as its brace, so that the members are read all the same.
fn head_and_brace(at: &mut Cursor) -> Parsed<(Head, Span)> {
    let begin = at.last().span;
    let called = at.text().to_string();
    let read = head(at).and_then(|head| match at.has_sign('{') {
        true => Ok(head),
        false => Err(at.expected("'{'").near(at.text(), ["version", "as"])),
    });
    let head = read.or_else(|problem| {
        if !at.skip_to_brace() {
            return Err(problem);
        }
        at.note(problem);
        let mut draft = Draft::new(0);
        draft.version = LAST;
        Ok(Head { draft, called, span: begin, own: begin, above: begin })
    })?;
    Ok((head, at.sign('{')?))
}

/// `class NAME extends NAME [version N] [as WORD] { members }`, behind the word class.
pub fn class(at: &mut Cursor) -> Parsed<Text> {
    let start = at.mark();
    let (Head { mut draft, called, span, own, above }, brace) = head_and_brace(at)?;
    let mut members = Members::default();
    while !at.has_sign('}') {
        let from = at.mark();
        if let Err(problem) = member(at, &mut draft, &mut members, brace) {
            // where another class begins, this one isn't closed
            if at.is_end() || is_begun(at, start, &["class"]) {
                return Err(problem);
            }
            at.note(problem);
            if !is_begun(at, from, &["field", "method"]) {
                at.skip(from, true, |word| ["field", "method"].contains(&word));
            }
        }
    }
    let end = at.take();
    let mut marks = vec![(0, span), (HEAD, own), (HEAD + 2, above), (HEAD + 4, span)];
    let mut labels = Vec::new();
    marks.extend(members.marks(draft.version, &mut labels));
    let bytes = fits(&draft).map_err(|said| Problem::new(end, said))?;
    Ok(Text { called, span, bytes, lines: Lines::default(), marks, labels })
}

/// Where the members of a class stand in its text.
#[derive(Default)]
struct Members {
    fields: Vec<Span>,
    methods: Vec<MethodPlaces>,
}

struct MethodPlaces {
    head: Span,
    /// How many bytes the list of arguments has.
    list: usize,
    instructions: Vec<(usize, Span)>,
    labels: Vec<(usize, String)>,
    length: usize,
    /// How many bytes each map has.
    maps: Vec<(usize, Span)>,
}

impl Members {
    /// Where members, instructions and maps stand; `labels` gets where the labels do.
    fn marks(&self, version: u8, labels: &mut Vec<(usize, String)>) -> Vec<(usize, Span)> {
        let mut marks: Vec<_> = self.fields.iter().enumerate().map(|(i, &span)| (FIELDS + FIELD * i, span)).collect();
        let mut at = FIELDS + FIELD * self.fields.len() + 1;
        for method in &self.methods {
            marks.push((at, method.head));
            let code = at + METHOD_HEAD + method.list;
            marks.extend(method.instructions.iter().map(|&(point, span)| (code + point, span)));
            labels.extend(method.labels.iter().map(|(point, word)| (code + point, word.clone())));
            at = code + method.length;
            if version >= MAPPED {
                marks.push((at, method.head));
                at += 1;
            }
            for &(size, span) in &method.maps {
                marks.push((at, span));
                at += size;
            }
        }
        marks
    }
}

/// The file, if its counts and lengths can be written at all. Whether they are allowed is for the desk to say.
fn fits(draft: &Draft) -> Result<Vec<u8>, String> {
    let counts = [("fields", draft.fields.len()), ("methods", draft.methods.len())];
    let maps = draft.methods.iter().map(|method| ("maps", method.maps.len()));
    let operands = draft.methods.iter().flat_map(|method| &method.maps).map(|map| ("operands", map.operands.len()));
    if let Some((what, count)) = counts.into_iter().chain(maps).chain(operands).find(|&(_, count)| count > 255) {
        return Err(format!("{count} {what}: a file has one byte for their count"));
    }
    let longest = draft.methods.iter().map(|method| method.code.len()).max().unwrap_or(0);
    if longest > 65_535 {
        return Err(format!("a method of {longest} bytes: a file has two bytes for the length"));
    }
    let bytes = draft.file();
    if bytes.len() - HEAD > 65_535 {
        return Err(format!("a class of {} bytes: a file has two bytes for the length", bytes.len()));
    }
    Ok(bytes)
}

/// One member of the class with this brace.
fn member(at: &mut Cursor, draft: &mut Draft, members: &mut Members, brace: Span) -> Parsed<()> {
    match at.word() {
        Some("field") => {
            let begin = at.take();
            let name = at.name("the field's name")?;
            let of = at.name("the field's type")?;
            draft.fields.push((name, of));
            members.fields.push(begin.to(at.last().span));
            Ok(())
        }
        Some("method") => {
            let (method, places) = method(at, draft.version)?;
            draft.methods.push(method);
            members.methods.push(places);
            Ok(())
        }
        word => {
            let problem = at.here("'field', 'method' or '}'");
            Err(problem.near(word.unwrap_or(""), ["field", "method"]).or_help(not_closed(at, brace)))
        }
    }
}

/// Does one of these words stand here, behind the mark, and first on its line? Then what is read since the mark isn't closed.
pub fn is_begun(at: &Cursor, mark: usize, words: &[&str]) -> bool {
    at.mark() > mark && !at.goes_on() && at.word().is_some_and(|word| words.contains(&word))
}

fn not_closed(at: &Cursor, brace: Span) -> String {
    format!("the '{{' of line {} isn't closed yet", at.source.place(brace.start).0)
}

/// `NAME(TYPES) TYPE`; one with a problem is passed over as far as its brace.
fn method_head(at: &mut Cursor, version: u8) -> Parsed<(u16, Vec<u16>, u16)> {
    let read = |at: &mut Cursor| Ok((at.name("the method's name")?, arguments(at, version)?, at.name("the result's type")?));
    read(at).or_else(|problem: Problem| {
        if !at.skip_to_brace() {
            return Err(problem);
        }
        at.note(problem);
        Ok((0, vec![0], 0))
    })
}

/// `method NAME(TYPES) TYPE { code }`
fn method(at: &mut Cursor, version: u8) -> Parsed<(MethodDraft, MethodPlaces)> {
    let start = at.mark();
    let begin = at.take();
    let (name, arguments, result) = method_head(at, version)?;
    let head = begin.to(at.last().span);
    let brace = at.sign('{')?;
    let mut body = Body { version, brace, code: Code::of_version(version), ..Body::default() };
    while !at.has_sign('}') {
        let from = at.mark();
        if let Err(problem) = body.part(at) {
            if at.is_end() || at.mark() == from && is_begun(at, start, &["field", "method", "class"]) {
                return Err(problem);
            }
            at.note(problem);
            at.skip(from, false, |word| op::NAMES.contains(&word) || ["map", "bytes"].contains(&word));
        }
    }
    at.take();
    body.labels_are_there(at);
    let Body { code, instructions, maps, placed, .. } = body;
    let list = usize::from(version >= LISTED) + 2 * arguments.len();
    let places = MethodPlaces { head, list, instructions, labels: placed, length: code.bytes.len(), maps };
    Ok((MethodDraft { name, arguments, result, code: code.bytes, maps: code.maps }, places))
}

/// `(TYPES)`: the list of arguments, which has one in a file before version 3. Whether there are too many is for the desk to say.
fn arguments(at: &mut Cursor, version: u8) -> Parsed<Vec<u16>> {
    let open = at.sign('(')?;
    let mut all = Vec::new();
    while !at.has_sign(')') {
        if version < LISTED && all.len() == 1 {
            return Err(one_argument(at, version));
        }
        all.push(at.name("an argument's type, or ')'")?);
    }
    if version < LISTED && all.is_empty() {
        return Err(one_argument(at, version));
    }
    let list = open.to(at.take());
    if all.len() > 255 {
        return Err(Problem::new(list, format!("{} arguments: a file has one byte for their count", all.len())));
    }
    Ok(all)
}

fn one_argument(at: &Cursor, version: u8) -> Problem {
    let problem = Problem::new(at.peek().span, format!("a file of version {version} has one argument"));
    problem.help(format!("more, or none, with a version behind the superclass: class Premium extends Object version {LISTED} {{ .. }}"))
}

/// The code of a method as far as it is read.
#[derive(Default)]
struct Body {
    version: u8,
    brace: Span,
    code: Code,
    instructions: Vec<(usize, Span)>,
    maps: Vec<(usize, Span)>,
    /// Each label's word, where it stands if it does yet, and where it was used first if it was. Its place is its number in the code.
    labels: Vec<(String, Option<Span>, Option<Span>)>,
    /// The labels that stand, by their points.
    placed: Vec<(usize, String)>,
}

impl Body {
    fn emit(&mut self, change: impl FnOnce(Code) -> Code) {
        self.code = change(std::mem::take(&mut self.code));
    }

    /// The place of a label.
    fn label(&mut self, word: &str) -> usize {
        self.labels.iter().position(|label| label.0 == word).unwrap_or_else(|| {
            self.labels.push((word.into(), None, None));
            self.labels.len() - 1
        })
    }

    /// A label, a map, or an instruction.
    fn part(&mut self, at: &mut Cursor) -> Parsed<()> {
        if at.has_word_before(':') {
            return self.labelled(at);
        }
        let (point, first) = (self.code.bytes.len(), at.peek().span);
        if at.word() == Some("map") {
            self.is_of_version(at, MAPPED, "a map")?;
            let map = map(at, self.code.here())?;
            self.maps.push((MAP_HEAD + 2 * map.operands.len(), first.to(at.last().span)));
            self.code.maps.push(map);
            return Ok(());
        }
        self.instruction(at)?;
        self.instructions.push((point, first.to(at.last().span)));
        Ok(())
    }

    /// `WORD:`
    fn labelled(&mut self, at: &mut Cursor) -> Parsed<()> {
        self.is_of_version(at, MAPPED, "a label")?;
        let word = at.text();
        let span = at.take();
        at.sign(':')?;
        let place = self.label(word);
        if let Some(there) = self.labels[place].1.replace(span) {
            let line = at.source.place(there.start).0;
            return Err(Problem::new(span, format!("line {line} has a label {word} already")));
        }
        self.placed.push((self.code.bytes.len(), word.into()));
        self.emit(|code| code.label(place as u16));
        Ok(())
    }

    fn is_of_version(&self, at: &Cursor, version: u8, what: &str) -> Parsed<()> {
        if self.version >= version {
            return Ok(());
        }
        let problem = Problem::new(at.peek().span, format!("{what} needs a file of version {version}"));
        Err(problem.help(format!("say so behind the superclass: class Loop extends Object version {version} {{ .. }}")))
    }

    fn labels_are_there(&self, at: &mut Cursor) {
        for (word, _, used) in self.labels.iter().filter(|label| label.1.is_none()) {
            let problem = Problem::new(used.unwrap_or(self.brace), format!("the method has no label {word}"));
            let placed = self.labels.iter().filter(|label| label.1.is_some()).map(|label| label.0.as_str());
            at.note(problem.near(word, placed).or_help(format!("it stands before an instruction, as: {word}: iload 1")));
        }
    }

    /// One instruction, or `bytes` and code in hexadecimal.
    fn instruction(&mut self, at: &mut Cursor) -> Parsed<()> {
        let Some(word) = at.word() else {
            return Err(at.here("an instruction or '}'").or_help(not_closed(at, self.brace)));
        };
        if word == "bytes" {
            at.take();
            if !at.goes_on() {
                return Err(at.expected("bytes in hexadecimal, two digits each"));
            }
            self.code.bytes.extend(at.bytes(false)?);
            return Ok(());
        }
        let Some(place) = op::NAMES.iter().position(|&name| name == word) else {
            let problem = Problem::new(at.peek().span, format!("'{word}' is no instruction"));
            let problem = problem.near(word, op::NAMES.into_iter().chain(["bytes", "map"]));
            return Err(problem.or_help(not_closed(at, self.brace)));
        };
        let opcode = op::ALL[place];
        if !op::of(self.version).contains(&opcode) {
            self.is_of_version(at, MAPPED, word)?;
        }
        at.take();
        self.inline(at, opcode, op::INLINE[place])
    }

    /// What follows an opcode.
    fn inline(&mut self, at: &mut Cursor, opcode: u8, inline: Inline) -> Parsed<()> {
        let begin = at.last().span;
        let names = match inline {
            Inline::Nothing => Vec::new(),
            Inline::Int => vec![at.number("an int", i16::MIN.into(), i16::MAX.into())? as u16],
            Inline::Local => {
                let local = at.number("a local's number", 0, 255)? as u8;
                self.emit(|code| code.local(opcode, local));
                return Ok(());
            }
            Inline::Class => vec![at.name("a class")?],
            Inline::Field => {
                let [class, field] = dotted(at, "a field")?;
                let whole = begin.to(at.last().span);
                vec![class, field, at.name("the field's type").map_err(|problem| forgotten(at, whole, "int", problem))?]
            }
            Inline::Method => {
                let [class, method] = dotted(at, "a method")?;
                let arguments = arguments(at, self.version)?;
                let whole = begin.to(at.last().span);
                let result = at.name("the result's type").map_err(|problem| forgotten(at, whole, "int", problem))?;
                self.emit(|code| code.call(class, method, &arguments, result));
                return Ok(());
            }
            Inline::Target if at.has_number() => vec![at.number("an offset", 0, u16::MAX.into())? as u16],
            Inline::Target => {
                let (word, span) = at.fresh("a label, or an offset from the start of the code")?;
                let place = self.label(word);
                self.labels[place].2.get_or_insert(span);
                self.emit(|code| code.jump(opcode, place as u16));
                return Ok(());
            }
        };
        self.emit(|code| code.names(opcode, &names));
        Ok(())
    }
}

/// The problem that a type was forgotten, with the instruction as it may have been meant.
fn forgotten(at: &Cursor, written: Span, of: &str, problem: Problem) -> Problem {
    problem.or_help(format!("its type stands behind it, as in: {} {of}", at.source.of(written)))
}

/// `map [at OFFSET] [OPERANDS] {LOCALS}`: the types at what comes next, or at an offset. Operands stand from the lowest up, locals from 0;
/// `-` is unset, and so are the locals that aren't written.
fn map(at: &mut Cursor, here: u16) -> Parsed<MapDraft> {
    at.take();
    let offset = if at.took("at") { at.number("an offset", 0, u16::MAX.into())? as u16 } else { here };
    let operands = types(at, ['[', ']'], "an operand's type")?;
    let locals = types(at, ['{', '}'], "a local's type, or - for unset")?;
    if locals.len() > LOCALS {
        return Err(Problem::new(at.last().span, format!("{} locals, and a map has 8", locals.len())));
    }
    Ok(MapDraft::new(offset, &locals, &operands))
}

/// Types between two signs on one line.
fn types(at: &mut Cursor, [open, close]: [char; 2], what: &str) -> Parsed<Vec<u16>> {
    if !at.took_sign(open) {
        return Err(at.expected(&format!("'{open}'")).or_help("as in: map [int] {Policy int - Discount}"));
    }
    let mut all = Vec::new();
    while !at.took_sign(close) {
        all.push(if open == '{' && at.took_sign('-') { 0 } else { at.name(what)? });
    }
    Ok(all)
}

/// `CLASS.MEMBER`
pub fn dotted(at: &mut Cursor, what: &str) -> Parsed<[u16; 2]> {
    let class = at.name("a class")?;
    at.sign('.')?;
    Ok([class, at.name(what)?])
}

/// `file WORD { hexadecimal }`, behind the word file: bytes as they are, which needn't be a class file.
pub fn file(at: &mut Cursor) -> Parsed<Text> {
    let begin = at.last().span;
    let (called, end) = at.fresh("what the file is called")?;
    at.sign('{')?;
    let bytes = at.bytes(true)?;
    at.sign('}')?;
    Ok(Text { called: called.into(), span: begin.to(end), bytes, lines: Lines::default(), marks: Vec::new(), labels: Vec::new() })
}
