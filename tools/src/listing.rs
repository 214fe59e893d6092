//! A class file's listing: its text form, with the verifier's types and notes behind each instruction.

use std::fmt::Write;

use reference::code::{decode, Instruction};
use reference::code::op::{self, Inline};
use reference::file::{File, Flaw, Map, Method, Sketch, MAPPED};
use reference::verifier::{seen, Rejected, Seen, Type, Types, Why};

use crate::java::classfile::MAGIC;
use crate::java::lines::Lines;
use crate::names::Names;
use crate::reasons;
use crate::text::Text;

pub const LEGEND: &str =
    "# Behind an instruction: its point, the [operands] and {locals} before it, and the notes that it makes.\n";

/// A listing that assembles to these bytes. Bytes that are no file are listed, in comments, as far as they read.
pub fn listing(bytes: &[u8], called: &str, names: &Names) -> String {
    with_words(bytes, called, names, &Words::default())
}

/// What the writer of a file had for it, which a listing has in comments.
#[derive(Default)]
pub struct Words<'a> {
    /// The Java lines, each before the first instruction that comes from it.
    pub lines: Option<&'a Lines>,
    /// The text, for its labels.
    pub text: Option<&'a Text>,
}

/// The same with the writer's words.
pub fn with_words(bytes: &[u8], called: &str, names: &Names, words: &Words) -> String {
    let sketch = Sketch::read(bytes);
    match File::explained(bytes) {
        Ok(file) => {
            let called = Some(called).filter(|&called| called != names.class(file.name()));
            let place = |method: Method, point: usize| method.code.as_ptr() as usize - bytes.as_ptr() as usize + point;
            class(&sketch, called, names, seen, words, &place)
        }
        Err(flaw) => damaged(bytes, &sketch, flaw, called, names),
    }
}

fn damaged(bytes: &[u8], sketch: &Sketch, flaw: Flaw, called: &str, names: &Names) -> String {
    let mut out = format!("# No class file: at byte {}, {}.\n", flaw.at, reasons::rule(flaw.rule, names));
    if bytes.starts_with(&MAGIC) {
        out.push_str("# It is a class file of Java's: ./box from-java makes one of the box of it.\n");
    }
    let read = class(sketch, None, names, |_, _| (Vec::new(), None), &Words::default(), &|_, _| 0);
    out.push_str("# As far as it reads:\n");
    read.lines().for_each(|line| out.push_str(&format!("#   {line}\n")));
    let _ = writeln!(out, "file {} {{", called);
    for part in bytes.chunks(24) {
        let _ = writeln!(out, "    {}", hexadecimal(part));
    }
    out + "}\n"
}

pub fn hexadecimal(bytes: &[u8]) -> String {
    bytes.iter().map(|byte| format!("{byte:02X}")).collect::<Vec<_>>().join(" ")
}

/// What the verifier sees in a method; nothing in a file that doesn't read.
type Seeing = fn(u16, Method) -> (Vec<Seen>, Option<Rejected>);

/// Where a point of a method stands in the file's bytes.
type Placing<'a> = &'a dyn Fn(Method, usize) -> usize;

fn class(sketch: &Sketch, called: Option<&str>, names: &Names, seeing: Seeing, words: &Words, place: Placing) -> String {
    let name = |name: Option<u16>| name.map_or("?".into(), |name| names.class(name));
    let called = called.map_or(String::new(), |called| format!(" as {called}"));
    let version = sketch.version.filter(|&version| version >= MAPPED).map_or(String::new(), |version| format!(" version {version}"));
    let mut out = format!("class {} extends {}{version}{called} {{\n", name(sketch.name), name(sketch.superclass));
    for field in &sketch.fields {
        let _ = writeln!(out, "    field {} {}", names.member(field.name), names.class(field.of));
    }
    for method in &sketch.methods {
        let _ = writeln!(out, "    method {} {{", names.method(method.signature));
        out.push_str(&code(*method, names, seeing(sketch.name.unwrap_or(0), *method), words, place));
        out.push_str("    }\n");
    }
    out + "}\n"
}

/// The points that a jump of the method goes to and that an instruction starts at.
pub fn labels(method: Method) -> Vec<usize> {
    let next = |point: &usize| decode(method.version, method.code, *point).map(|(_, next)| next);
    let starts: Vec<usize> = std::iter::successors(Some(0), next).filter(|&point| point < method.code.len()).collect();
    let decoded = starts.iter().filter_map(|&point| decode(method.version, method.code, point)?.0.target());
    decoded.filter(|target| starts.contains(target)).collect()
}

/// The instructions and maps of a method, each instruction with what the verifier sees there.
fn code(method: Method, names: &Names, (points, rejected): (Vec<Seen>, Option<Rejected>), words: &Words, place: Placing) -> String {
    let mut out = String::new();
    let labels = labels(method);
    let mut maps = method.maps().peekable();
    let mut point = 0;
    while point < method.code.len() {
        if labels.contains(&point) {
            let word = words.text.and_then(|text| text.label(place(method, point))).map_or(String::new(), |word| format!("  # {word}"));
            let _ = writeln!(out, "    L{point}:{word}");
        }
        while let Some(map) = maps.next_if(|map| map.offset() <= point) {
            let _ = writeln!(out, "        {}", mapped(map, point, names));
        }
        if let Some(line) = words.lines.and_then(|lines| lines.at(method.place, point)) {
            let _ = writeln!(out, "        # {line}");
        }
        let seen = points.iter().find(|seen| seen.point == point);
        let rejected = rejected.filter(|rejected| rejected.point == point);
        let (text, next) = instruction_at(method, point, names, &labels);
        let line = format!("        {text:<44}  # {point:>3}{}", remark(seen, rejected, names));
        let _ = writeln!(out, "{}", line.trim_end());
        point = next;
    }
    for map in maps {
        let _ = writeln!(out, "        {}", mapped(map, point, names));
    }
    out
}

/// A map as the text form writes it before the instruction at this point.
fn mapped(map: Map, point: usize, names: &Names) -> String {
    let place = if map.offset() == point { String::new() } else { format!(" at {}", map.offset()) };
    let operands: Vec<String> = map.operands().map(|of| names.class(of)).collect();
    let locals: Vec<u16> = map.locals().collect();
    let set = locals.iter().rposition(|&of| of != 0).map_or(0, |last| last + 1);
    let local = |&of: &u16| if of == 0 { "-".into() } else { names.class(of) };
    let locals: Vec<String> = locals[..set].iter().map(local).collect();
    format!("map{place} [{}] {{{}}}", operands.join(" "), locals.join(" "))
}

/// The instruction at a point, or what can't be read from there on, and the next point. Jumps go to these labels, or to an offset.
pub fn instruction_at(method: Method, point: usize, names: &Names, labels: &[usize]) -> (String, usize) {
    let unread = || (format!("bytes {}", hexadecimal(&method.code[point..])), method.code.len());
    readable_at(method, point, names, labels).unwrap_or_else(unread)
}

/// The instruction at any point and the next point, if it can be read.
pub fn readable_at(method: Method, point: usize, names: &Names, labels: &[usize]) -> Option<(String, usize)> {
    let (decoded, next) = decode(method.version, method.code, point)?;
    Some((instruction(decoded, &method.code[point..next], names, labels), next))
}

fn remark(seen: Option<&Seen>, rejected: Option<Rejected>, names: &Names) -> String {
    let mut out = seen.map_or(String::new(), |seen| format!("  {}", types(&seen.types, names)));
    for (lower, higher) in seen.iter().flat_map(|seen| &seen.notes) {
        let _ = write!(out, "  note: {} below {}", names.class(*lower), names.class(*higher));
    }
    if let Some(Rejected { why, .. }) = rejected {
        let is_unmapped = matches!(why, Why::TargetUnmapped(_) | Why::NextUnmapped);
        let _ = write!(out, "  {}: {}", if is_unmapped { "UNMAPPED" } else { "REJECTED" }, reasons::why(why, names));
    }
    out
}

/// `[operands] {locals}`, the locals up to the last that is set.
fn types(types: &Types, names: &Names) -> String {
    let join = |types: &[_]| types.iter().map(|&of| reasons::of_type(of, names)).collect::<Vec<_>>().join(" ");
    let set = types.locals.iter().rposition(|&of| of != Type::Unset).map_or(0, |last| last + 1);
    format!("[{}] {{{}}}", join(types.operands()), join(&types.locals[..set]))
}

/// One instruction, whole, as the text form writes it.
fn instruction(decoded: Instruction, bytes: &[u8], names: &Names, labels: &[usize]) -> String {
    let Some(((name, inline), rest)) = bytes.split_first().and_then(|(&code, rest)| Some((op::form(code)?, rest))) else {
        return format!("bytes {}", hexadecimal(bytes));
    };
    let word = |place: usize| rest.get(2 * place..2 * place + 2).map_or(0, |two| u16::from_be_bytes([two[0], two[1]]));
    let member = || format!("{}.{}", names.class(word(0)), names.member(word(1)));
    match inline {
        Inline::Nothing => name.into(),
        Inline::Int => format!("{name} {}", word(0) as i16),
        Inline::Local => format!("{name} {}", rest.first().copied().unwrap_or(0)),
        Inline::Class => format!("{name} {}", names.class(word(0))),
        Inline::Target if labels.contains(&word(0).into()) => format!("{name} L{}", word(0)),
        Inline::Target => format!("{name} {}", word(0)),
        Inline::Field => format!("{name} {} {}", member(), names.class(word(2))),
        Inline::Method => match decoded {
            Instruction::Invokevirtual(at) => format!("{name} {}.{}", names.class(at.class), names.method(at.signature)),
            _ => name.into(),
        },
    }
}
