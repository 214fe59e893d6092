//! `box talk`: a lesson typed line by line. Each statement is carried out at once on the proved machine; commands look at the store, take
//! statements back, or save them. What can't be read is said, and the talk goes on.

use std::fs;
use std::io::{self, BufRead, IsTerminal, Write};

use crate::java::workshop;
use crate::lesson::{Act, Lesson};
use crate::names::Names;
use crate::play::{Kept, Play, Show};
use crate::rows;
use crate::source::{visible, Source};
use crate::tokens::{tokens, Kind};

const HELP: &str = "\
A line is a statement of a lesson: name, insurer, class, loader 1 defines .., step, .. as LESSONS.md has them. A class may go over
several lines; cancel drops one that isn't closed. Besides:
  store        what the store holds
  why          of a last call that clashed, by which chain of constraints
  draw [FILE]  a picture of all calls, in FILE, which ends in .svg, else in talk.svg
  undo         takes the last statement back: the others are carried out again from the boot
  list         the statements so far
  history      all lines so far, with numbers; !3 is the third again
  save FILE    the statements as a lesson
  quit         ends it
";

/// A talk: the statements that were taken, and what they led to.
pub struct Talk<'a> {
    out: &'a mut dyn Write,
    statements: Vec<String>,
    history: Vec<String>,
    kept: Kept,
    names: Names,
    /// How many acts of the lesson are carried out.
    acts: usize,
    /// Files that this talk has written.
    saved: Vec<String>,
}

/// Is there more to come?
#[derive(PartialEq, Eq)]
enum Next {
    GoesOn,
    Ends,
}

/// Talks over standard input and output, with a prompt in a terminal.
pub fn run() -> io::Result<()> {
    let is_terminal = io::stdin().is_terminal();
    let mut out = io::stdout().lock();
    if is_terminal {
        writeln!(out, "A statement of a lesson, or help.")?;
    }
    Talk::new(&mut out)?.talk(&mut io::stdin().lock(), is_terminal)
}

impl<'a> Talk<'a> {
    pub fn new(out: &'a mut dyn Write) -> io::Result<Talk<'a>> {
        let (statements, history, saved) = (Vec::new(), Vec::new(), Vec::new());
        Ok(Talk { out, statements, history, kept: Kept::booted()?, names: Names::default(), acts: 0, saved })
    }

    /// Takes line by line until there is no more.
    pub fn talk(&mut self, input: &mut dyn BufRead, has_prompt: bool) -> io::Result<()> {
        let mut open = String::new();
        loop {
            if has_prompt {
                write!(self.out, "{}", if open.is_empty() { "box> " } else { "...> " })?;
                self.out.flush()?;
            }
            let mut bytes = Vec::new();
            if input.read_until(b'\n', &mut bytes)? == 0 {
                break;
            }
            let line = String::from_utf8_lossy(&bytes).trim_end_matches(['\n', '\r']).to_string();
            if self.line(&line, &mut open)? == Next::Ends {
                return Ok(());
            }
        }
        if !open.is_empty() {
            self.statement(&open)?;
        }
        if has_prompt {
            writeln!(self.out)?;
        }
        Ok(())
    }

    /// A line: a command, or one more of a statement that is open.
    fn line(&mut self, line: &str, open: &mut String) -> io::Result<Next> {
        let line = match self.repeated(line) {
            Ok(line) => line,
            Err(said) => return self.say(&said),
        };
        let words: Vec<&str> = line.split_whitespace().collect();
        if open.is_empty() {
            if words.is_empty() {
                return Ok(Next::GoesOn);
            }
            self.history.push(line.clone());
            if let Some(next) = self.command(&words)? {
                return Ok(next);
            }
        } else if words == ["cancel"] {
            open.clear();
            return Ok(Next::GoesOn);
        } else if let Some(last) = self.history.last_mut() {
            last.push('\n');
            last.push_str(&line);
        }
        open.push_str(&line);
        open.push('\n');
        if !is_open(open) {
            let statement = std::mem::take(open);
            self.statement(&statement)?;
        }
        Ok(Next::GoesOn)
    }

    /// `!3` is the third line again.
    fn repeated(&self, line: &str) -> Result<String, String> {
        let Some(number) = line.trim().strip_prefix('!') else {
            return Ok(line.to_string());
        };
        let place = number.parse::<usize>().ok().and_then(|number| number.checked_sub(1));
        place.and_then(|place| self.history.get(place)).cloned().ok_or_else(|| format!("there is no line {}: history has them", visible(number)))
    }

    /// A command, if it is one.
    fn command(&mut self, words: &[&str]) -> io::Result<Option<Next>> {
        let next = match *words {
            ["help"] => self.say(HELP.trim_end())?,
            ["store"] => self.say(&rows::listed(&self.kept.store, &self.names).join("\n"))?,
            ["why"] => self.why()?,
            ["undo"] => self.undo()?,
            ["list"] => self.say(self.statements.concat().trim_end())?,
            ["history"] => self.say(&self.numbered().join("\n"))?,
            ["draw"] => self.draw("talk.svg")?,
            ["draw", file] => self.draw(file)?,
            ["save", file] => self.save(file)?,
            ["save"] => self.say("save is followed by a file, as: save mine.lesson")?,
            ["quit" | "exit"] => Next::Ends,
            _ => return Ok(None),
        };
        Ok(Some(next))
    }

    /// The lines so far, of a statement over several the first.
    fn numbered(&self) -> Vec<String> {
        let line = |(lines, number): (&String, usize)| match lines.split_once('\n') {
            Some((first, _)) => format!("{number:>4}  {} ..", visible(first)),
            None => format!("{number:>4}  {}", visible(lines)),
        };
        self.history.iter().zip(1..).map(line).collect()
    }

    fn say(&mut self, said: &str) -> io::Result<Next> {
        if !said.is_empty() {
            writeln!(self.out, "{said}")?;
        }
        Ok(Next::GoesOn)
    }

    fn source(&self, more: &str) -> Source {
        Source { file: "talk".into(), text: format!("{}{more}", self.statements.concat()) }
    }

    fn lesson(&self) -> (Source, Lesson) {
        let source = self.source("");
        // what was taken reads; a Java file that has gone leaves nothing
        let lesson = workshop::lesson(&source).unwrap_or_default();
        (source, lesson)
    }

    /// Carries out what a statement adds; one that can't be read is said and forgotten.
    fn statement(&mut self, statement: &str) -> io::Result<()> {
        if is_comment(statement) {
            self.statements.push(statement.into());
            return Ok(());
        }
        let source = self.source(statement);
        match workshop::lesson(&source) {
            Err(problems) => write!(self.out, "{}", source.show_all(&problems)),
            Ok(lesson) if !lesson.names.declared().starts_with(self.names.declared()) => {
                self.say("a name above has that number: it numbered itself, and classes were made by it").map(|_| ())
            }
            Ok(lesson) => {
                self.statements.push(statement.into());
                self.names = lesson.names.clone();
                self.acts = Play::go_on(&source, &lesson, Show::default(), self.out, &mut self.kept, self.acts)?;
                self.out.flush()
            }
        }
    }

    /// The last call again, with the reason, if it clashed: then the store is as it was before it.
    fn why(&mut self) -> io::Result<Next> {
        let (source, lesson) = self.lesson();
        let is_call = matches!(lesson.acts.last(), Some(Act::Do(_)));
        let mut said = Vec::new();
        if is_call {
            let show = Show { why: true, ..Show::default() };
            Play::go_on(&source, &lesson, show, &mut said, &mut self.kept.clone(), lesson.acts.len() - 1)?;
        }
        let said = String::from_utf8_lossy(&said).into_owned();
        match said.contains("refused: 9, clash") {
            true => self.say(said.trim_end()),
            false => self.say("the last statement is no call that clashed"),
        }
    }

    /// Without its last statement, all is carried out again from the boot.
    fn undo(&mut self) -> io::Result<Next> {
        let Some(last) = self.statements.pop() else {
            return self.say("there is nothing to take back");
        };
        let (source, lesson) = self.lesson();
        (self.kept, self.names) = (Kept::booted()?, lesson.names.clone());
        self.acts = Play::go_on(&source, &lesson, Show::default(), &mut io::sink(), &mut self.kept, 0)?;
        let first = last.lines().next().unwrap_or("");
        self.say(&format!("taken back: {}", visible(first)))
    }

    /// The pictures of all calls from the boot.
    fn draw(&mut self, file: &str) -> io::Result<Next> {
        if !file.ends_with(".svg") {
            return self.say("the picture's name ends in .svg");
        }
        let (source, lesson) = self.lesson();
        let outcome = Play::run(&source, &lesson, Show { draw: true, ..Show::default() }, &mut io::sink())?;
        self.write(file, &outcome.strip.svg(), "drawn")
    }

    fn save(&mut self, file: &str) -> io::Result<Next> {
        let text = self.statements.concat();
        self.write(file, &text, "saved")
    }

    /// Writes a file that isn't there, or that this talk has written.
    fn write(&mut self, file: &str, text: &str, done: &str) -> io::Result<Next> {
        let is_own = self.saved.iter().any(|saved| saved == file);
        if !is_own && fs::symlink_metadata(file).is_ok() {
            return self.say(&format!("there is a file {} already", visible(file)));
        }
        match fs::write(file, text) {
            Ok(()) => {
                self.saved.push(file.into());
                self.say(&format!("{done}: {}", visible(file)))
            }
            Err(error) => self.say(&format!("{}: {error}", visible(file))),
        }
    }
}

fn is_comment(line: &str) -> bool {
    line.trim_start().starts_with('#')
}

/// Are there braces that aren't closed yet?
fn is_open(text: &str) -> bool {
    let source = Source { file: String::new(), text: text.into() };
    let (all, _) = tokens(&source);
    let depth = all.iter().fold(0i64, |depth, token| match token.kind {
        Kind::Sign('{') => depth + 1,
        Kind::Sign('}') => depth - 1,
        _ => depth,
    });
    depth > 0
}
