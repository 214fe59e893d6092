//! The course's lessons on the proved machine: each passes, fails if an expectation is changed, and does what its script does.

mod common;

use std::io;

use writer::lesson::Lesson;
use writer::play::{Outcome, Play, Show};
use writer::script;
use writer::source::Source;

fn read(source: &Source) -> Lesson {
    Lesson::read(source).unwrap_or_else(|problems| panic!("{}", source.show_all(&problems)))
}

fn played(source: &Source, lesson: &Lesson) -> Outcome {
    let show = Show { store: true, draw: true, why: false, how: false };
    Play::run(source, lesson, show, &mut io::sink()).expect("a machine")
}

#[test]
fn every_lesson_passes() {
    for path in common::examples("lesson") {
        let source = common::source(&path);
        let outcome = played(&source, &read(&source));
        assert_eq!(outcome.failed, 0, "{}", source.file);
        assert!(outcome.met > 0, "{} expects nothing", source.file);
    }
}

/// The text with the expectation at this place made one that no call of a lesson answers with: it makes no try, and lends no list.
fn changed(source: &Source, at: usize) -> Source {
    let end = source.text[at..].find('\n').map_or(source.text.len(), |more| at + more);
    let text = format!("{}expect short list{}", &source.text[..at], &source.text[end..]);
    Source { file: source.file.clone(), text }
}

#[test]
fn a_changed_expectation_fails() {
    for path in common::examples("lesson") {
        let source = common::source(&path);
        let is_statement = |at: usize| !source.line(at).starts_with('>');
        let places: Vec<usize> =
            source.text.match_indices("expect ").map(|found| found.0).filter(|&at| is_statement(at)).collect();
        assert!(!places.is_empty());
        for at in places {
            let changed = changed(&source, at);
            assert!(played(&changed, &read(&changed)).failed > 0, "{} at {:?}", source.file, source.place(at));
        }
    }
}

#[test]
fn a_lesson_does_what_its_script_does() {
    let scripts = common::examples("box");
    for path in &scripts {
        let (script, lesson) = (common::source(path), common::source(&path.with_extension("lesson")));
        let lesson_read = read(&lesson);
        let by_script = played(&script, &script::lesson(&script, lesson_read.names.clone()));
        let by_lesson = played(&lesson, &lesson_read);
        assert!(by_script.store == by_lesson.store, "{} leaves another store", script.file);
    }
}

#[test]
fn a_picture_is_whole() {
    for path in common::examples("lesson") {
        let source = common::source(&path);
        let svg = played(&source, &read(&source)).strip.svg();
        for tag in ["svg", "g", "text", "defs", "marker"] {
            let opened = svg.matches(&format!("<{tag} ")).count() + svg.matches(&format!("<{tag}>")).count();
            assert_eq!(opened, svg.matches(&format!("</{tag}>")).count(), "{tag} in {}", source.file);
        }
        let is_clash = source.text.contains("expect clash");
        assert_eq!(svg.contains("refused</text>"), is_clash, "{}", source.file);
    }
}
