//! Java files in a lesson: compiled and translated where the lesson names them, by its own names and those of a names.txt beside it.

use std::fs;
use std::path::{Path, PathBuf};

use super::commands::{library, NAMES};
use super::compile::{compile, compiled, class_files, Folder};
use super::lines::Lines;
use super::names::Library;
use super::refusals;
use super::translate::{translate, Made};
use crate::lesson::Lesson;
use crate::names::Names;
use crate::source::{Problems, Source};

/// Reads a lesson; the Java files that it names stand beside it, or below or above.
pub fn lesson(source: &Source) -> Result<Lesson, Problems> {
    let mut folders: Vec<Folder> = Vec::new();
    let home = Path::new(&source.file).parent().map_or(PathBuf::new(), Path::to_path_buf);
    Lesson::read_with(source, &mut |files, names| made(&home, files, names, &mut folders))
}

/// The box files of Java files. Classes of the files that the lesson named before are known to them.
fn made(home: &Path, files: &[String], names: &mut Names, folders: &mut Vec<Folder>) -> Result<Vec<Made>, String> {
    let paths: Vec<PathBuf> = files.iter().map(|file| home.join(file)).collect();
    if let Some(path) = paths.iter().find(|path| !path.is_file() || path.extension().is_none_or(|extension| extension != "java")) {
        return Err(format!("there is no Java file {}", path.display()));
    }
    let beside = library(&home.join(NAMES)).map_err(|(_, said)| said)?;
    let mut library = Library::with(names.clone(), &beside.names).map_err(|clash| format!("the numbers of {NAMES} clash: {clash}"))?;
    let earlier: Vec<&Path> = folders.iter().map(Folder::path).collect();
    let folder = compile(&paths, &earlier, false).map_err(|said| format!("javac doesn't take it\n{said}"))?;
    let given = compiled(&folder, &paths).map_err(|error| error.to_string())?;
    let others = earlier.iter().rev().flat_map(|path| class_files(path)).flatten().filter_map(|path| fs::read(path).ok()).collect::<Vec<_>>();
    let made = translate(&given, &others, &mut library).map_err(|refusals| format!("it isn't taken\n{}", refusals::show(&refusals).trim_end()))?;
    *names = library.names;
    folders.push(folder);
    Ok(made)
}

/// The names of the file of names beside a class file, if there is one that reads.
pub fn names_beside(file: &str) -> Names {
    let path = Path::new(file).with_file_name(NAMES);
    library(&path).map_or_else(|_| Names::default(), |library| library.names)
}

/// The Java lines beside a class file.
pub fn lines_beside(file: &str, bytes: &[u8]) -> Option<Lines> {
    let path = Path::new(file);
    if path.extension().is_none_or(|extension| extension != "class") {
        return None;
    }
    Lines::read(&fs::read_to_string(path.with_extension("lines")).ok()?, bytes)
}
