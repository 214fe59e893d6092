//! The examples, for tests.

use std::fs;
use std::path::{Path, PathBuf};

use writer::source::Source;

/// The examples with this ending, by name; there are some.
pub fn examples(ending: &str) -> Vec<PathBuf> {
    let folder = Path::new(env!("CARGO_MANIFEST_DIR")).join("../examples");
    let entries = fs::read_dir(folder).expect("the examples");
    let mut paths: Vec<PathBuf> = entries.map(|entry| entry.expect("an entry").path()).collect();
    paths.retain(|path| path.extension().is_some_and(|is| is == ending));
    paths.sort();
    assert!(!paths.is_empty(), "no example ends in .{ending}");
    paths
}

pub fn source(path: &Path) -> Source {
    let text = fs::read_to_string(path).expect("an example");
    Source { file: path.file_name().expect("a name").to_string_lossy().into_owned(), text }
}
