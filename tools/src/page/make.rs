//! `box page FILE.. [-o DIR]`: the pages of lessons, and an index of them where there are several.

use std::collections::BTreeSet;
use std::fs;
use std::path::{Path, PathBuf};

use super::{index, page, Entry};
use crate::input;
use crate::java::workshop;
use crate::lesson::Lesson;
use crate::script;
use crate::source::{visible, Source};
use crate::words::counted;

/// Where pages go if no folder is named.
const FOLDER: &str = "pages";
/// In a folder of lessons, their teaching order: a line for each, `NAME: the question that it answers`.
const COURSE: &str = "course.txt";

/// What is to be made: the lessons in order, each with its page's name and its question.
#[derive(Default)]
struct Wanted {
    lessons: Vec<(PathBuf, String, String)>,
    directory: Option<PathBuf>,
    has_folder: bool,
}

/// What is printed, or the exit status and what is said.
pub fn run(words: &[&str]) -> Result<String, (u8, String)> {
    let wanted = wanted(words)?;
    let directory = wanted.directory.clone().unwrap_or_else(|| FOLDER.into());
    fs::create_dir_all(&directory).map_err(|error| (2, format!("box: {}: {error}", directory.display())))?;
    let has_index = wanted.has_folder || wanted.lessons.len() > 1;
    let (mut entries, mut left_out, mut out, mut problems) = (Vec::new(), Vec::new(), String::new(), String::new());
    for (path, name, question) in &wanted.lessons {
        let link = format!("{name}.html");
        match one(path, &directory.join(&link), has_index) {
            Ok((title, said, problem)) => {
                out.push_str(&said);
                problems.push_str(&problem);
                entries.push(Entry { link, title, question: question.clone() });
            }
            Err((2, said)) => return Err((2, said)),
            Err((_, said)) => {
                left_out.push(format!("{}: it can't be read", visible(&path.to_string_lossy())));
                problems.push_str(&said);
            }
        }
    }
    if has_index {
        let path = directory.join("index.html");
        write(&path, &index(&entries, &left_out))?;
        out.push_str(&format!("{}: begin here, {}\n", path.display(), counted(entries.len(), "lesson")));
    }
    match problems.is_empty() {
        true => Ok(out),
        false => Err((1, format!("{out}{problems}"))),
    }
}

fn write(path: &Path, text: &str) -> Result<(), (u8, String)> {
    fs::write(path, text).map_err(|error| (2, format!("box: {}: {error}", path.display())))
}

/// Makes a lesson's page: its title, what is said of it, and what was wrong.
fn one(path: &Path, to: &Path, has_index: bool) -> Result<(String, String, String), (u8, String)> {
    let file = path.to_string_lossy();
    let bytes = fs::read(path).map_err(|error| (2, format!("box: {file}: {error}")))?;
    let source = Source::new(file.to_string(), bytes).map_err(|(source, problems)| (1, source.show_all(&problems)))?;
    let lesson = lesson(&source)?;
    let name = path.file_name().map_or(file.to_string(), |name| name.to_string_lossy().into_owned());
    let made = page(&source, &lesson, &name, has_index.then_some("index.html"));
    let made = made.ok_or_else(|| (2, "this build has no machine; use ./box".to_string()))?;
    write(to, &made.html)?;
    let said = format!("{}: {}\n", to.display(), counted(made.calls, "call"));
    let problem = match made.failed {
        0 => String::new(),
        failed => format!("{} failed: {}\n", visible(&file), counted(failed, "answer")),
    };
    Ok((made.title, said, problem))
}

/// The lesson of a text, or of a script.
fn lesson(source: &Source) -> Result<Lesson, (u8, String)> {
    if source.file.ends_with(".box") {
        return Ok(script::lesson(source, input::names_beside(&source.file)));
    }
    workshop::lesson(source).map_err(|problems| (1, source.show_all(&problems)))
}

fn wanted(words: &[&str]) -> Result<Wanted, (u8, String)> {
    let mut wanted = Wanted::default();
    let mut taken = BTreeSet::from(["index".to_string()]);
    let mut words = words.iter();
    while let Some(&word) = words.next() {
        let path = Path::new(word);
        match word {
            "-o" => wanted.directory = Some(words.next().map(PathBuf::from).ok_or_else(|| (2, "box: -o is followed by a folder".to_string()))?),
            _ if word.starts_with('-') => return Err((2, format!("box: page takes no {word}; a file of that name is written ./{word}"))),
            _ if path.is_dir() => {
                wanted.has_folder = true;
                for (file, question) in folder(path) {
                    let name = fresh(file.strip_prefix(path).unwrap_or(&file), &mut taken);
                    wanted.lessons.push((file, name, question));
                }
            }
            _ if path.is_file() => wanted.lessons.push((path.into(), fresh(Path::new(path.file_name().unwrap_or_default()), &mut taken), String::new())),
            _ => return Err((2, format!("box: there is no file {word}"))),
        }
    }
    match wanted.lessons.is_empty() {
        true => Err((2, "box: page makes the pages of lessons, and there is none".into())),
        false => Ok(wanted),
    }
}

/// A page's name: the lesson's way without its ending, in one word, that no other page has.
fn fresh(path: &Path, taken: &mut BTreeSet<String>) -> String {
    let is_plain = |c: char| c.is_alphanumeric() || "-_.".contains(c);
    let name: String = path.with_extension("").to_string_lossy().chars().map(|c| if is_plain(c) { c } else { '-' }).collect();
    let name = if name.trim_matches(['.', '-']).is_empty() { "lesson".to_string() } else { name.trim_start_matches('.').to_string() };
    let names = (1..).map(|count| if count == 1 { name.clone() } else { format!("{name}-{count}") });
    let free = names.into_iter().find(|name| !taken.contains(name)).unwrap_or_default();
    taken.insert(free.clone());
    free
}

/// The lessons below a folder, with their questions: those of its course in its order, then the others by name.
fn folder(path: &Path) -> Vec<(PathBuf, String)> {
    let mut all = Vec::new();
    gather(path, 0, &mut all);
    all.sort();
    let course = fs::read(path.join(COURSE)).map(|bytes| String::from_utf8_lossy(&bytes).into_owned()).unwrap_or_default();
    let mut ordered = Vec::new();
    for line in course.lines().map(str::trim).filter(|line| !line.is_empty() && !line.starts_with('#')) {
        let (name, question) = line.split_once(':').unwrap_or((line, ""));
        let file = path.join(format!("{}.lesson", name.trim()));
        if let Some(at) = all.iter().position(|there| *there == file) {
            ordered.push((all.remove(at), question.trim().to_string()));
        }
    }
    ordered.extend(all.into_iter().map(|file| (file, String::new())));
    ordered
}

/// How deep folders are looked into.
const DEPTH: usize = 8;

fn gather(path: &Path, depth: usize, all: &mut Vec<PathBuf>) {
    for entry in fs::read_dir(path).into_iter().flatten().flatten() {
        let (path, is_folder) = (entry.path(), entry.file_type().is_ok_and(|of| of.is_dir()));
        let is_hidden = entry.file_name().to_string_lossy().starts_with('.');
        if is_folder && !is_hidden && depth < DEPTH {
            gather(&path, depth + 1, all);
        } else if !is_hidden && path.is_file() && path.extension().is_some_and(|ending| ending == "lesson") {
            all.push(path);
        }
    }
}
