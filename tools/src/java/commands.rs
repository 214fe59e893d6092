//! `./box from-java` and `./box java`: Java's class files, or Java files, into a folder of box files with their names.

use std::path::{Path, PathBuf};
use std::{fs, io};

use super::classfile::MAGIC;
use super::compile;
use super::names::Library;
use super::refusals;
use super::translate::{translate, Given, Made};
use crate::source::Source;

/// Why a command ends without success: its exit status, and what is said.
pub type Ended = (u8, String);

/// Where the files go if nothing is said.
const FOLDER: &str = "boxed";
pub const NAMES: &str = "names.txt";

struct Asked {
    files: Vec<PathBuf>,
    folder: PathBuf,
    names: PathBuf,
}

/// `FILE.. [-o DIR] [--names FILE]`, in any order.
fn asked(words: &[&str]) -> Option<Asked> {
    let (mut files, mut folder, mut names) = (Vec::new(), None, None);
    let mut words = words.iter();
    while let Some(&word) = words.next() {
        match word {
            "-o" => folder = Some(PathBuf::from(words.next()?)),
            "--names" => names = Some(PathBuf::from(words.next()?)),
            _ if word.starts_with('-') => return None,
            _ => files.push(PathBuf::from(word)),
        }
    }
    let folder = folder.unwrap_or(FOLDER.into());
    let names = names.unwrap_or_else(|| folder.join(NAMES));
    (!files.is_empty()).then_some(Asked { files, folder, names })
}

const USAGE: &str = "usage: ./box from-java CLASS.. [-o DIR] [--names FILE], or ./box java FILE.java.. [-o DIR] [--names FILE]";

/// Carries out `from-java` or `java`; what is to be printed.
pub fn run(command: &str, words: &[&str]) -> Result<String, Ended> {
    let asked = asked(words).ok_or((2, USAGE.to_string()))?;
    for file in &asked.files {
        let is_java = file.extension().is_some_and(|extension| extension == "java");
        match (file.is_file(), command, is_java) {
            (false, ..) => return Err((2, format!("there is no file {}", file.display()))),
            (_, "java", false) => return Err((2, format!("{} isn't called .java; ./box from-java takes class files", file.display()))),
            (_, "from-java", true) => return Err((2, format!("{} is a Java file; ./box java takes it", file.display()))),
            _ => {}
        }
    }
    let mut library = library(&asked.names)?;
    let made = if command == "java" { from_sources(&asked.files, &mut library)? } else { from_classes(&asked.files, &mut library)? };
    write(&asked, &made, &library).map_err(|error| (2, error))
}

/// The names of a file, if it is there.
pub fn library(path: &Path) -> Result<Library, Ended> {
    let bytes = match fs::read(path) {
        Ok(bytes) => bytes,
        Err(error) if error.kind() == io::ErrorKind::NotFound => return Ok(Library::default()),
        Err(error) => return Err((2, format!("{}: {error}", path.display()))),
    };
    let source = Source::new(path.display().to_string(), bytes).map_err(|(source, problems)| (1, source.show_all(&problems)))?;
    Library::read(&source).map_err(|problems| (1, source.show_all(&problems)))
}

fn from_sources(files: &[PathBuf], library: &mut Library) -> Result<Vec<Made>, Ended> {
    let folder = compile::compile(files, &[], true).map_err(|said| (1, said))?;
    let given = compile::compiled(&folder, files).map_err(|error| (2, error.to_string()))?;
    translate(&given, &[], library).map_err(|refusals| (1, refusals::show(&refusals)))
}

fn from_classes(files: &[PathBuf], library: &mut Library) -> Result<Vec<Made>, Ended> {
    let mut given = Vec::new();
    for path in files {
        let bytes = fs::read(path).map_err(|error| (2, format!("{}: {error}", path.display())))?;
        let source = compile::source_beside(path, &bytes);
        given.push(Given { path: path.display().to_string(), bytes, source });
    }
    translate(&given, &compile::beside(files), library).map_err(|refusals| (1, refusals::show(&refusals)))
}

/// Writes the files, their lines and the names; what is said of it.
fn write(asked: &Asked, made: &[Made], library: &Library) -> Result<String, String> {
    let failed = |path: &Path, error: io::Error| format!("{}: {error}", path.display());
    fs::create_dir_all(&asked.folder).map_err(|error| failed(&asked.folder, error))?;
    let path = |made: &Made, end: &str| asked.folder.join(format!("{}.{end}", made.called));
    let javas = made.iter().map(|made| path(made, "class")).find(|path| is_javas(path));
    if let Some(there) = javas {
        return Err(format!("{} is a class file of Java's and would be lost: choose another folder with -o", there.display()));
    }
    let mut said = String::new();
    for one in made {
        let file = path(one, "class");
        fs::write(&file, &one.bytes).map_err(|error| failed(&file, error))?;
        let lines = path(one, "lines");
        fs::write(&lines, one.lines.write(&one.bytes)).map_err(|error| failed(&lines, error))?;
        said.push_str(&format!("{}: {} bytes\n", file.display(), one.bytes.len()));
    }
    add_names(&asked.names, &library.new_lines()).map_err(|error| failed(&asked.names, error))?;
    let new = library.new_lines().lines().count();
    said.push_str(&format!("{}: {} new {}\n", asked.names.display(), new, if new == 1 { "name" } else { "names" }));
    Ok(said)
}

fn is_javas(path: &Path) -> bool {
    fs::read(path).is_ok_and(|bytes| bytes.starts_with(&MAGIC))
}

/// Adds lines to the file of names: what it holds stays as it is.
fn add_names(path: &Path, lines: &str) -> io::Result<()> {
    let mut text = match fs::read(path) {
        Ok(bytes) => bytes,
        Err(error) if error.kind() == io::ErrorKind::NotFound => {
            b"# Names and their numbers, one library's: ./box java and ./box from-java add to it.\n".to_vec()
        }
        Err(error) => return Err(error),
    };
    if text.last().is_some_and(|&byte| byte != b'\n') {
        text.push(b'\n');
    }
    text.extend(lines.as_bytes());
    let beside = path.with_extension("new");
    fs::write(&beside, text)?;
    fs::rename(beside, path)
}
