//! javac, called on Java files: the class files that it writes, each with the Java file that it comes from.

use std::path::{Path, PathBuf};
use std::process::Command;
use std::sync::atomic::{AtomicU32, Ordering};
use std::{env, fs, io, process};

use super::classfile::ClassFile;
use super::translate::Given;

const INSTALL: &str = "there is no javac here: install a JDK, as by: sudo apt-get install default-jdk-headless";

/// A folder for the class files, which is gone when nobody needs it.
pub struct Folder(PathBuf);

impl Folder {
    pub fn new() -> io::Result<Folder> {
        static COUNT: AtomicU32 = AtomicU32::new(0);
        let count = COUNT.fetch_add(1, Ordering::Relaxed);
        let path = env::temp_dir().join(format!("box-java-{}-{count}", process::id()));
        fs::create_dir(&path)?;
        Ok(Folder(path))
    }

    pub fn path(&self) -> &Path {
        &self.0
    }
}

impl Drop for Folder {
    fn drop(&mut self) {
        let _ = fs::remove_dir_all(&self.0);
    }
}

fn javac() -> Command {
    let home = env::var_os("JAVA_HOME").map(|home| Path::new(&home).join("bin/javac")).filter(|path| path.exists());
    Command::new(home.unwrap_or("javac".into()))
}

/// Paths joined as javac takes them.
fn joined(paths: impl IntoIterator<Item = PathBuf>) -> std::ffi::OsString {
    env::join_paths(paths).unwrap_or_default()
}

/// Compiles these files into a folder. Classes of the earlier folders, the latest first, are known to them, and sources beside them are found;
/// what those hold is made too, or not.
pub fn compile(files: &[PathBuf], earlier: &[&Path], makes_found: bool) -> Result<Folder, String> {
    let folder = Folder::new().map_err(|error| format!("no folder for class files: {error}"))?;
    let mut beside: Vec<PathBuf> = files.iter().map(|file| folder_of(file)).collect();
    beside.dedup();
    let mut command = javac();
    let implicit = if makes_found { "-implicit:class" } else { "-implicit:none" };
    command.args(["-g:lines,source", "-proc:none", implicit, "-encoding", "UTF-8", "-d"]).arg(folder.path());
    command.arg("-cp").arg(joined([folder.path().to_path_buf()].into_iter().chain(earlier.iter().rev().map(|path| path.to_path_buf()))));
    command.arg("-sourcepath").arg(joined(beside)).args(files);
    let output = command.output().map_err(|error| match error.kind() {
        io::ErrorKind::NotFound => INSTALL.to_string(),
        _ => format!("javac: {error}"),
    })?;
    if !output.status.success() {
        let said = [output.stdout, output.stderr].concat();
        return Err(String::from_utf8_lossy(&said).trim_end().to_string());
    }
    Ok(folder)
}

fn folder_of(file: &Path) -> PathBuf {
    let parent = file.parent().unwrap_or(Path::new(""));
    if parent.as_os_str().is_empty() { ".".into() } else { parent.into() }
}

/// The class files of a folder and those below it, by name.
pub fn class_files(folder: &Path) -> io::Result<Vec<PathBuf>> {
    let mut all = Vec::new();
    let mut folders = vec![folder.to_path_buf()];
    while let Some(folder) = folders.pop() {
        for entry in fs::read_dir(folder)? {
            let path = entry?.path();
            if path.is_dir() {
                folders.push(path);
            } else if path.extension().is_some_and(|extension| extension == "class") {
                all.push(path);
            }
        }
    }
    all.sort();
    Ok(all)
}

/// What javac made of these files, each class file with the text of its Java file.
pub fn compiled(folder: &Folder, files: &[PathBuf]) -> io::Result<Vec<Given>> {
    let mut all = Vec::new();
    for path in class_files(folder.path())? {
        let bytes = fs::read(&path)?;
        let name = ClassFile::read(&bytes).ok().and_then(|class| class.source);
        let source = name.and_then(|name| source(&name, files));
        let path = source.as_ref().map_or(path.display().to_string(), |source| source.0.clone());
        all.push(Given { path, bytes, source });
    }
    Ok(all)
}

/// The Java file of this name: one that was given, or one beside those.
fn source(name: &str, files: &[PathBuf]) -> Option<(String, String)> {
    let given = files.iter().find(|file| file.file_name().is_some_and(|there| there == name)).cloned();
    let beside = || files.iter().map(|file| file.with_file_name(name)).find(|file| file.exists());
    let path = given.or_else(beside)?;
    let text = String::from_utf8_lossy(&fs::read(&path).ok()?).into_owned();
    Some((path.display().to_string(), text))
}

/// The Java file of a class file: it may stand beside it.
pub fn source_beside(path: &Path, bytes: &[u8]) -> Option<(String, String)> {
    let name = ClassFile::read(bytes).ok()?.source?;
    if name.contains(['/', '\\']) {
        return None;
    }
    source(&name, &[path.to_path_buf()])
}

/// The class files that aren't given but stand beside those that are.
pub fn beside(files: &[PathBuf]) -> Vec<Vec<u8>> {
    let mut folders: Vec<PathBuf> = files.iter().map(|file| folder_of(file)).collect();
    folders.sort();
    folders.dedup();
    let paths = folders.iter().flat_map(fs::read_dir).flatten().flatten().map(|entry| entry.path());
    let classes = paths.filter(|path| path.extension().is_some_and(|extension| extension == "class") && !files.contains(path));
    classes.filter_map(|path| fs::read(path).ok()).collect()
}
