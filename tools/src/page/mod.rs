//! A lesson as one page of HTML that needs nothing else: every answer, chain and table in it was given by the proved machine when the page
//! was made, and the page only shows them.

mod json;
pub mod make;
mod methods;
mod quiz;
mod record;
mod state;

use crate::lesson::Lesson;
use crate::listing::listing;
use crate::names::Names;
use crate::source::Source;
use crate::svg::{escaped, COLOURS, PATTERNS};
use crate::version;
use record::Recorder;

const SHELL: &str = include_str!("page.html");
const STYLE: &str = include_str!("page.css");
const SCRIPT: &str = include_str!("page.js");
const DRAWING: &str = include_str!("draw.js");
const INDEX: &str = include_str!("index.html");

/// A page, and what came of its lesson.
pub struct Page {
    pub title: String,
    pub html: String,
    pub calls: usize,
    pub failed: usize,
}

/// The page of a lesson; nothing if this build has no machine.
pub fn page(source: &Source, lesson: &Lesson, file: &str, home: Option<&str>) -> Option<Page> {
    let record = Recorder::record(source, lesson)?;
    let title = title(&record.intro, file);
    let data = data(source, lesson, &record, file, &title, home);
    let html = filled(SHELL, &[("TITLE", escaped(&title)), ("STYLE", STYLE.into()), ("LESSON", data), ("SCRIPT", format!("{DRAWING}{SCRIPT}"))]);
    Some(Page { title, html, calls: record.calls, failed: record.failed })
}

/// The first of the words, or the file's name.
fn title(intro: &[String], file: &str) -> String {
    intro.iter().find(|line| !line.is_empty()).map_or(file.to_string(), |line| line.trim_end_matches('.').to_string())
}

/// A page with its parts in place of the words in double braces. What was put in isn't looked at again.
fn filled(shell: &str, parts: &[(&str, String)]) -> String {
    let mut out = String::new();
    for piece in shell.split("{{") {
        match piece.split_once("}}").and_then(|(word, rest)| Some((parts.iter().find(|part| part.0 == word)?, rest))) {
            Some((part, rest)) => {
                out.push_str(&part.1);
                out.push_str(rest);
            }
            None => out.push_str(piece),
        }
    }
    out
}

fn data(source: &Source, lesson: &Lesson, record: &Recorder, file: &str, title: &str, home: Option<&str>) -> String {
    let slots = record.slots.iter().map(|slot| json::numbers(slot.iter().map(|&step| step as u32)));
    json::object([
        ("title", json::string(title)),
        ("file", json::string(file)),
        ("home", home.map_or("null".into(), json::string)),
        ("machine", json::string(&version::line())),
        ("intro", json::strings(&record.intro)),
        ("ending", json::strings(&record.said)),
        ("leftOut", record.left_out.to_string()),
        ("names", names(&lesson.names)),
        ("loaders", json::object((0..16u32).map(|loader| (loader.to_string(), json::string(&lesson.names.loader(loader)))))),
        ("colours", json::strings(COLOURS)),
        ("patterns", json::strings(PATTERNS)),
        ("methods", record.methods.json()),
        ("steps", json::list(record.steps.iter().map(|step| json::object(step.iter().map(|(name, value)| (*name, value.clone())))))),
        ("slots", json::list(slots)),
        ("classes", json::strings(lesson.texts.iter().map(|text| listing(&text.bytes, &text.called, &lesson.names)))),
        ("text", json::string(&source.text)),
    ])
}

fn names(names: &Names) -> String {
    let own = [(1, "int".to_string()), (2, "Object".to_string())];
    let declared = names.declared().iter().map(|(word, number)| (*number, word.clone()));
    json::object(own.into_iter().chain(declared).map(|(number, word)| (number.to_string(), json::string(&word))))
}

/// A lesson in an index: where its page is, its title, and the question that it answers.
pub struct Entry {
    pub link: String,
    pub title: String,
    pub question: String,
}

/// The index of pages, in this order; then what has no page, and why.
pub fn index(entries: &[Entry], left_out: &[String]) -> String {
    let item = |entry: &Entry| {
        let question = if entry.question.is_empty() { String::new() } else { format!("<span>{}</span>", escaped(&entry.question)) };
        format!("<li><a href=\"{}\">{}</a>{question}</li>\n", escaped(&entry.link), escaped(&entry.title))
    };
    let items: String = entries.iter().map(item).collect();
    let lines: String = left_out.iter().map(|line| format!("<li>{}</li>\n", escaped(line))).collect();
    let left = if lines.is_empty() { lines } else { format!("<h2>Without a page</h2>\n<ul>\n{lines}</ul>\n") };
    filled(INDEX, &[("STYLE", STYLE.into()), ("ITEMS", items), ("LEFT", left), ("MACHINE", escaped(&version::line()))])
}
