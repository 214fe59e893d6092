//! What isn't taken: each with the file, the line, the construct and what to write instead, all at once.

use std::fmt::Write;

/// A Java construct that the box doesn't have, and what to write instead.
#[derive(Clone, Debug, PartialEq, Eq)]
pub struct Construct {
    pub said: String,
    pub instead: String,
}

impl Construct {
    pub fn new(said: impl Into<String>, instead: impl Into<String>) -> Construct {
        Construct { said: said.into(), instead: instead.into() }
    }
}

/// A construct at its place.
#[derive(Clone, Debug, PartialEq, Eq)]
pub struct Refusal {
    /// The Java file if it is known, else the class file.
    pub file: String,
    pub line: Option<u32>,
    /// The member that it stands in, as people write it, or nothing.
    pub member: String,
    pub construct: Construct,
}

/// All refusals, by file and line, each once, and their count.
pub fn show(refusals: &[Refusal]) -> String {
    let mut all: Vec<&Refusal> = refusals.iter().collect();
    all.sort_by_key(|refusal| (&refusal.file, refusal.line.unwrap_or(0)));
    all.dedup();
    let mut out = String::new();
    for refusal in &all {
        let line = refusal.line.map_or(String::new(), |line| format!(":{line}"));
        let member = if refusal.member.is_empty() { String::new() } else { format!(", in {}", refusal.member) };
        let _ = writeln!(out, "{}{line}: {}{member}", refusal.file, refusal.construct.said);
        let _ = writeln!(out, "    instead: {}", refusal.construct.instead);
    }
    let things = if all.len() == 1 { "thing that isn't" } else { "things that aren't" };
    let _ = writeln!(out, "{} {things} taken; nothing was written. docs/JAVA.md has the table of what is.", all.len());
    out
}
