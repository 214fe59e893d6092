//! What a file given to list, check or asm holds: a text, a script, or a class file in bytes or hexadecimal.

use std::fs;
use std::path::Path;

use reference::file::{File, Sketch};
use reference::gen::Call;

use crate::java::lines::Lines;
use crate::java::workshop;
use crate::lesson::Lesson;
use crate::names::Names;
use crate::script;
use crate::source::{is_other_encoding, Problems, Source};
use crate::text::Text;

/// A class file, and the text that it was written as, if it was.
pub struct Piece {
    pub called: String,
    pub bytes: Vec<u8>,
    pub text: Option<Text>,
    /// The Java lines of its code, where they are known.
    pub lines: Lines,
}

/// The class files of an input, the names they use, and the source of their text.
pub struct Input {
    pub pieces: Vec<Piece>,
    pub names: Names,
    pub source: Option<Source>,
}

/// Is it text: UTF-8 with no control characters but tabs and line ends?
fn is_text(bytes: &[u8]) -> bool {
    std::str::from_utf8(bytes).is_ok_and(|text| !text.chars().any(|c| c.is_control() && !"\t\r\n".contains(c)))
}

/// Bytes written in hexadecimal, with any spaces and line ends between.
fn hexadecimal(bytes: &[u8]) -> Option<Vec<u8>> {
    let digits: Vec<u8> = bytes.iter().copied().filter(|byte| !byte.is_ascii_whitespace()).collect();
    reference::script::hexadecimal(&digits)
}

/// Takes the input apart; a text that can't be read gives its problems. The names are for a script and a class file, which have none of their own.
pub fn read(file: &str, bytes: Vec<u8>, names: Names) -> Result<Input, (Source, Problems)> {
    read_by(file, bytes, names, &mut |source| Lesson::read(source))
}

/// What a file on the disk holds: with the Java files that a lesson names, and the names and Java lines that stand beside it.
pub fn of_file(file: &str, bytes: Vec<u8>) -> Result<Input, (Source, Problems)> {
    let mut input = read_by(file, bytes, names_beside(file), &mut workshop::lesson)?;
    if let [piece] = &mut input.pieces[..] {
        piece.lines = workshop::lines_beside(file, &piece.bytes).unwrap_or(std::mem::take(&mut piece.lines));
    }
    Ok(input)
}

/// The same with another way to read a lesson.
pub fn read_by(
    file: &str,
    bytes: Vec<u8>,
    names: Names,
    lesson: &mut dyn FnMut(&Source) -> Result<Lesson, Problems>,
) -> Result<Input, (Source, Problems)> {
    let is_elsewhere = !file.ends_with(".class") && is_other_encoding(&bytes);
    if bytes.is_empty() || !(is_text(&bytes) || is_elsewhere) {
        return Ok(files(vec![bytes], names));
    }
    let source = Source::new(file, bytes)?;
    // a script of D lines alone looks like hexadecimal
    if file.ends_with(".box") {
        let lines = script::lines(&source.text);
        script::is_readable(&source, &lines).map_err(|problem| (source.clone(), problem.into()))?;
        let calls = lines.into_iter().filter_map(|(_, call)| call);
        let defined = calls.filter_map(|call| if let Call::Define { file, .. } = call { Some(file) } else { None });
        return Ok(files(defined.collect(), names));
    }
    if let Some(bytes) = hexadecimal(source.text.as_bytes()) {
        return Ok(files(vec![bytes], names));
    }
    match lesson(&source) {
        Ok(lesson) => {
            let piece = |text: Text| Piece { called: text.called.clone(), bytes: text.bytes.clone(), lines: text.lines.clone(), text: Some(text) };
            Ok(Input { pieces: lesson.texts.into_iter().map(piece).collect(), names: lesson.names, source: Some(source) })
        }
        Err(problems) => Err((source, problems)),
    }
}

/// Of the files of a folder, those that check looks at: lessons, scripts, class files by name, and what isn't text or is hexadecimal.
pub fn is_ours(file: &str, bytes: &[u8]) -> bool {
    [".lesson", ".box", ".class"].iter().any(|ending| file.ends_with(ending))
        || !(is_text(bytes) || is_other_encoding(bytes))
        || hexadecimal(bytes).is_some()
}

/// The names for a script: those that the lesson beside it declares, if there is one. For a class file, those of the file of names beside it.
pub fn names_beside(file: &str) -> Names {
    if !file.ends_with(".box") {
        return workshop::names_beside(file);
    }
    let source = fs::read(Path::new(file).with_extension("lesson")).ok().and_then(|bytes| Source::new("", bytes).ok());
    source.and_then(|source| workshop::lesson(&source).ok()).map_or_else(Names::default, |lesson| lesson.names)
}

/// Class files without a text: each is called by its class, or by its place if that is taken.
fn files(all: Vec<Vec<u8>>, names: Names) -> Input {
    let mut pieces: Vec<Piece> = Vec::new();
    for bytes in all {
        let name = Sketch::read(&bytes).name.filter(|_| File::read(&bytes).is_some());
        let mut called = name.map_or("Damaged".to_string(), |name| names.class(name));
        if pieces.iter().any(|piece| piece.called == called) {
            called = format!("File{}", pieces.len() + 1);
        }
        pieces.push(Piece { called, bytes, text: None, lines: Lines::default() });
    }
    Input { pieces, names, source: None }
}
