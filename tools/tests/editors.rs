//! The editors' files know every word that a lesson knows, and every word of every example is one of those or a name that it declares.

mod common;

use std::collections::BTreeSet;
use std::fs;
use std::path::Path;

use writer::lesson::Lesson;
use writer::tokens::{tokens, Kind, Token};
use writer::vocabulary::{answers, connecting, instructions, statements, TYPES};

/// The words of an editor's file: what stands between signs.
fn words(file: &str) -> BTreeSet<String> {
    let path = Path::new(env!("CARGO_MANIFEST_DIR")).join("editors").join(file);
    let text = fs::read_to_string(path).expect("an editor's file");
    text.replace("\\\\b", " ").split(|c: char| !c.is_alphanumeric() && c != '_').map(str::to_string).collect()
}

fn vocabulary() -> Vec<&'static str> {
    [statements(), connecting(), instructions(), answers(), TYPES.to_vec()].concat()
}

#[test]
fn every_word_is_in_each_editors_file() {
    for file in ["vscode/syntaxes/lesson.tmLanguage.json", "vim/syntax/lesson.vim"] {
        let known = words(file);
        for word in vocabulary() {
            assert!(known.contains(word), "{file} doesn't know {word}");
        }
    }
}

#[test]
fn every_word_of_every_example_is_known() {
    let known: BTreeSet<&str> = vocabulary().into_iter().collect();
    for path in common::examples("lesson") {
        let source = common::source(&path);
        let lesson = Lesson::read(&source).unwrap_or_else(|problems| panic!("{}", source.show_all(&problems)));
        let (all, _) = tokens(&source);
        let is_label = |at: usize| all.get(at + 1).is_some_and(|next| next.kind == Kind::Sign(':'));
        let labels: BTreeSet<&str> = (0..all.len()).filter(|&at| is_label(at)).map(|at| source.of(all[at].span)).collect();
        let orders = |at: usize| at > 0 && source.of(all[at - 1].span) == "order";
        let is_mistake = |token: &Token| source.line(token.span.start).trim_start().starts_with("mistake ");
        for (at, token) in all.iter().enumerate().filter(|(_, token)| token.kind == Kind::Word && !is_mistake(token)) {
            let word = source.of(token.span);
            let is_own = lesson.names.number(word).is_some() || lesson.names.insurer(word).is_some() || labels.contains(word);
            let is_text = lesson.texts.iter().any(|text| text.called == word) || orders(at);
            assert!(known.contains(word) || is_own || is_text, "{}: {word}", source.file);
        }
    }
}
