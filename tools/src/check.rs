//! The desk's verdict on a class file, with the place and the reason that the second implementation gives.

use reference::answer::word;
use reference::file::File;
use reference::verifier::{refused, Why};

use crate::input::{Input, Piece};
use crate::java::classfile::MAGIC;
use crate::listing;
use crate::machine;
use crate::maps;
use crate::names::Names;
use crate::reasons;
use crate::source::{Problem, Source};
use crate::text::Text;

/// What the desk said of the files.
#[derive(Clone, Copy, Debug, PartialEq, Eq)]
pub enum Verdict {
    Accepted,
    Refused,
    /// The desk and the second implementation differ.
    Differ,
    /// This build has no desk.
    NoDesk,
}

/// Asks the desk about each file; the worst verdict, and what is to be said.
pub fn check(input: &Input) -> (Verdict, String) {
    let mut worst = Verdict::Accepted;
    let mut out = String::new();
    for piece in &input.pieces {
        match asked(piece) {
            Asked::NoDesk => return (Verdict::NoDesk, out),
            Asked::Differ(said) => {
                out.push_str(&format!("{said}\n"));
                return (Verdict::Differ, out);
            }
            Asked::Accepted => out.push_str(&format!("{}: accepted, {} bytes\n", piece.called, piece.bytes.len())),
            Asked::Refused(said) => {
                worst = Verdict::Refused;
                let mut reason = reason(&piece.bytes, &input.names, piece.text.as_ref().zip(input.source.as_ref()));
                if piece.bytes.starts_with(&MAGIC) {
                    reason.push_str("    It is a class file of Java's: ./box from-java makes one of the box of it.\n");
                }
                out.push_str(&format!("{}: refused: {said}\n{reason}", piece.called));
            }
        }
    }
    (worst, out)
}

/// What the desk says of one file; of a refusal the number and its word.
enum Asked {
    Accepted,
    Refused(String),
    Differ(String),
    NoDesk,
}

fn asked(piece: &Piece) -> Asked {
    let Some(number) = machine::check(&piece.bytes) else {
        return Asked::NoDesk;
    };
    let other = reference::check(&piece.bytes);
    if number != other {
        return Asked::Differ(format!("{}: the desk says {number} and the second implementation {other}", piece.called));
    }
    match number.checked_sub(1).and_then(|place| word::NAMES.get(usize::from(place))) {
        None => Asked::Accepted,
        Some(said) => Asked::Refused(format!("{number}, {said}")),
    }
}

/// What the desk says of one file, in a line.
pub enum Judged {
    Accepted,
    /// With the file, the place and the reason.
    Refused(String),
    Differ(String),
    NoDesk,
}

/// Asks the desk about one class of an input, whose file is named.
pub fn judged(piece: &Piece, input: &Input, file: &str) -> Judged {
    let said = match asked(piece) {
        Asked::Accepted => return Judged::Accepted,
        Asked::Differ(said) => return Judged::Differ(said),
        Asked::NoDesk => return Judged::NoDesk,
        Asked::Refused(said) => said,
    };
    let (at, why) = match place(&piece.bytes, &input.names, piece.text.as_ref()) {
        None => (file.to_string(), String::new()),
        Some(Place { byte, place, why, .. }) => {
            let line = |(text, source): (&Text, &Source)| source.place(text.part(byte).start);
            let at = piece.text.as_ref().zip(input.source.as_ref()).map(line);
            (at.map_or(file.to_string(), |(line, column)| format!("{file}:{line}:{column}")), format!(": {place}: {why}"))
        }
    };
    Judged::Refused(format!("{at}: {}: refused: {said}{why}", piece.called))
}

/// Where and why the bytes are refused, with the line of their text if they have one.
pub fn reason(bytes: &[u8], names: &Names, text: Option<(&Text, &Source)>) -> String {
    let Some(Place { byte, place, why, help }) = place(bytes, names, text.map(|text| text.0)) else {
        return String::new();
    };
    match text {
        Some((text, source)) => {
            let problem = Problem::new(text.part(byte), format!("{place}: {why}"));
            source.show(&match help {
                Some(help) => problem.help(help),
                None => problem,
            })
        }
        None => format!("    {place}: {why}\n{}", help.map_or(String::new(), |help| format!("    {help}\n"))),
    }
}

/// Where a file is refused: the byte, the place in words, the reason, and what may help.
struct Place {
    byte: usize,
    place: String,
    why: String,
    help: Option<String>,
}

fn place(bytes: &[u8], names: &Names, text: Option<&Text>) -> Option<Place> {
    let file = match File::explained(bytes) {
        Ok(file) => file,
        Err(flaw) => {
            let (place, why) = (format!("byte {}", flaw.at), reasons::rule(flaw.rule, names));
            return Some(Place { byte: flaw.at, place, why, help: None });
        }
    };
    let (_, rejected) = refused(file, &mut |_, _| ()).err()?;
    let method = file.method(rejected.method)?;
    let code = method.code.as_ptr() as usize - bytes.as_ptr() as usize;
    let point = rejected.point;
    let (instruction, next) = listing::instruction_at(method, point, names, &[]);
    let place = format!("method {}, point {point}, {instruction}", names.method(method.signature));
    let label = |point: usize| text.and_then(|text| text.label(code + point));
    let why = reasons::why_at(rejected.why, names, label);
    let help = needed(rejected.why, next, method.code.len()).map(|(point, what)| {
        let map = maps::proposed(file.name(), method, point, names);
        match (label(point), text) {
            (Some(label), _) => format!("{what}: {label}: {map}"),
            (None, Some(_)) => format!("{what}, before the instruction at {point}: {map}"),
            (None, None) => format!("{what}: {}", map.replacen("map", &format!("map at {point}"), 1)),
        }
    });
    Some(Place { byte: code + point, place, why, help })
}

/// The point that wants a map, or another map, and how that is said; none out of the code.
fn needed(why: Why, next: usize, length: usize) -> Option<(usize, &'static str)> {
    let (point, what) = match why {
        Why::TargetUnmapped(target) => (target, "write a map there"),
        Why::NextUnmapped => (next, "write a map there"),
        Why::Flow(into, _) => (into, "a map that fits what comes there"),
        _ => return None,
    };
    (point < length).then_some((point, what))
}
