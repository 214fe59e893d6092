//! The desk's verdict on many files: a line for each class, in the order of the files, by as many threads as there are processors.

use std::collections::BTreeMap;
use std::fs;
use std::io::{self, BufWriter, IsTerminal, Write};
use std::path::{Path, PathBuf};
use std::sync::atomic::{AtomicUsize, Ordering};
use std::sync::mpsc;
use std::thread;

use crate::check::{judged, Judged};
use crate::input;
use crate::source::visible;
use crate::words::counted;

/// What came of all files, by rising weight.
#[derive(Clone, Copy, Debug, PartialEq, Eq, PartialOrd, Ord)]
pub enum Status {
    Accepted,
    /// A file was refused, or a text can't be read.
    Refused,
    /// A file can't be opened, or there is none.
    Trouble,
    /// The desk and the second implementation differ.
    Differ,
}

/// What is said of one file: lines for standard output, lines for standard error, and what came of it.
struct Said {
    out: String,
    errors: String,
    status: Status,
    accepted: usize,
    refused: usize,
}

impl Said {
    fn trouble(path: &Path, what: &str) -> Said {
        let errors = format!("box: {}: {what}\n", visible(&path.to_string_lossy()));
        Said { out: String::new(), errors, status: Status::Trouble, accepted: 0, refused: 0 }
    }
}

/// Asks the desk about every file, and about all files of a folder that can be class files.
pub fn check(words: &[&str], quiet: bool) -> Status {
    let files = files(words);
    if files.is_empty() {
        eprintln!("box: there is no class file in {}", words.join(", "));
        return Status::Trouble;
    }
    let next = AtomicUsize::new(0);
    let (send, receive) = mpsc::channel();
    let threads = thread::available_parallelism().map_or(1, usize::from).min(files.len());
    thread::scope(|scope| {
        for _ in 0..threads {
            let (files, next, send) = (&files, &next, send.clone());
            scope.spawn(move || loop {
                let place = next.fetch_add(1, Ordering::Relaxed);
                let Some((path, is_given)) = files.get(place) else {
                    return;
                };
                if send.send((place, said(path, *is_given, quiet))).is_err() {
                    return;
                }
            });
        }
        drop(send);
        told(receive, files.len(), quiet)
    })
}

/// Writes what is said as it comes, in the order of the files.
fn told(receive: mpsc::Receiver<(usize, Option<Said>)>, all: usize, quiet: bool) -> Status {
    let (is_shown, mut out) = (io::stderr().is_terminal(), BufWriter::new(io::stdout().lock()));
    let mut waiting = BTreeMap::new();
    let (mut status, mut accepted, mut refused, mut written) = (Status::Accepted, 0, 0, 0);
    for (done, (place, said)) in receive.into_iter().enumerate() {
        waiting.insert(place, said);
        while let Some(said) = waiting.remove(&written) {
            written += 1;
            let Some(said) = said else { continue };
            (accepted, refused, status) = (accepted + said.accepted, refused + said.refused, status.max(said.status));
            if out.write_all(said.out.as_bytes()).is_err() {
                return status;
            }
            eprint!("{}", said.errors);
        }
        if is_shown && done % 64 == 63 {
            eprint!("\r{} of {all} files\r", done + 1);
        }
    }
    if is_shown && all > 63 {
        eprint!("\r{:30}\r", "");
    }
    if !quiet {
        let classes = if accepted + refused == 1 { "class" } else { "classes" };
        let _ = writeln!(out, "{} {classes}: {accepted} accepted, {refused} refused", accepted + refused);
    }
    let _ = out.flush();
    status
}

/// The files in the order in which they are given, a folder's by name, each with whether it was given itself.
fn files(words: &[&str]) -> Vec<(PathBuf, bool)> {
    let mut all = Vec::new();
    for word in words {
        let path = Path::new(word);
        if path.is_dir() {
            folder(path, &mut all);
        } else {
            all.push((path.to_path_buf(), true));
        }
    }
    all
}

/// All files below a folder but hidden ones; a link to a folder isn't followed.
fn folder(path: &Path, all: &mut Vec<(PathBuf, bool)>) {
    let Ok(entries) = fs::read_dir(path) else {
        all.push((path.to_path_buf(), true));
        return;
    };
    let is_hidden = |path: &Path| path.file_name().is_some_and(|name| name.to_string_lossy().starts_with('.'));
    let mut paths: Vec<(PathBuf, bool)> = entries
        .flatten()
        .map(|entry| (entry.path(), entry.file_type().is_ok_and(|of| of.is_dir())))
        .filter(|(path, _)| !is_hidden(path))
        .collect();
    paths.sort();
    for (path, is_folder) in paths {
        if is_folder {
            folder(&path, all);
        } else if path.is_file() {
            all.push((path, false));
        }
    }
}

/// What the desk says of a file, a line for each class. A file of a folder that is no lesson, no script, and a text is passed over.
fn said(path: &Path, is_given: bool, quiet: bool) -> Option<Said> {
    let bytes = match fs::read(path) {
        Ok(bytes) => bytes,
        Err(_) if path.is_dir() => return Some(Said::trouble(path, "the folder can't be read")),
        Err(error) if error.kind() == io::ErrorKind::NotFound => return Some(Said::trouble(path, "there is no such file")),
        Err(error) => return Some(Said::trouble(path, &error.to_string())),
    };
    let file = path.to_string_lossy();
    if !is_given && !input::is_ours(&file, &bytes) {
        return None;
    }
    let input = match input::of_file(&file, bytes) {
        Ok(input) => input,
        Err((source, problems)) => {
            let errors = source.show_all(&problems);
            return Some(Said { out: String::new(), errors, status: Status::Refused, accepted: 0, refused: 0 });
        }
    };
    let mut said = Said { out: String::new(), errors: String::new(), status: Status::Accepted, accepted: 0, refused: 0 };
    for piece in &input.pieces {
        match judged(piece, &input, &visible(&file)) {
            Judged::Accepted if quiet => said.accepted += 1,
            Judged::Accepted => {
                said.accepted += 1;
                said.out.push_str(&format!("{}: {}: accepted, {}\n", visible(&file), piece.called, counted(piece.bytes.len(), "byte")));
            }
            Judged::Refused(line) => {
                said.refused += 1;
                said.status = said.status.max(Status::Refused);
                said.out.push_str(&format!("{line}\n"));
            }
            Judged::Differ(line) => {
                said.status = Status::Differ;
                said.errors.push_str(&format!("{}: {line}\n", visible(&file)));
            }
            Judged::NoDesk => return Some(Said::trouble(path, "this build has no desk; use ./box")),
        }
    }
    Some(said)
}
