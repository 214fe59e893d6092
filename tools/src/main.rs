//! The tariff writer's tool: lessons on the proved machine, listings, the desk's verdict, and an assembler. It is what `make install`
//! installs as `box`, and what ./box builds and runs.
//! It reads and shows; what is accepted or refused is decided by the proved libraries alone.

use std::io::{self, IsTerminal, Read, Write};
use std::path::Path;
use std::process::ExitCode;
use std::time::Duration;
use std::{env, fs};

use writer::check::{check, Verdict};
use writer::input::{self, Input};
use writer::java::workshop;
use writer::listing;
use writer::many;
use writer::play::{Outcome, Play, Show};
use writer::script;
use writer::source::{visible, Problems, Source};
use writer::version;
use writer::words::counted;

const USAGE: &str = include_str!("usage.txt");

/// Why the program ends without success.
enum Failure {
    /// Status 1: a failed lesson, a refused file, a text that can't be read.
    Bad(String),
    /// Status 2.
    Usage(String),
    /// Status 3: the desk and the second implementation differ.
    Differ(String),
}

impl From<(Source, Problems)> for Failure {
    fn from((source, problems): (Source, Problems)) -> Failure {
        Failure::Bad(source.show_all(&problems))
    }
}

impl From<io::Error> for Failure {
    fn from(error: io::Error) -> Failure {
        Failure::Usage(error.to_string())
    }
}

fn main() -> ExitCode {
    let words: Vec<String> = env::args_os().skip(1).map(|word| word.to_string_lossy().into_owned()).collect();
    let (status, said) = match command(&words) {
        Ok(()) => return ExitCode::SUCCESS,
        Err(Failure::Bad(said)) => (1, said),
        Err(Failure::Usage(said)) => (2, said),
        Err(Failure::Differ(said)) => (3, said),
    };
    if !said.is_empty() {
        eprintln!("{}", said.trim_end());
    }
    ExitCode::from(status)
}

fn command(words: &[String]) -> Result<(), Failure> {
    let words: Vec<&str> = words.iter().map(String::as_str).collect();
    match words[..] {
        ["--help" | "-h" | "help"] => print(USAGE),
        ["--version" | "-V"] => print(&format!("{}\n", version::line())),
        ["list", file] => list(&input(file)?),
        ["check", ref files @ ..] if !files.is_empty() => verdicts(files),
        ["asm", file, directory] => assemble(&input(file)?, Path::new(directory)),
        // ./box puts a script through the proved program boxscript between these two
        ["calls", file] => print(&script::plain(&source(file)?)),
        ["answers", file] => {
            let mut printed = Vec::new();
            io::stdin().read_to_end(&mut printed)?;
            answers(file, &String::from_utf8_lossy(&printed))
        }
        [command @ ("from-java" | "java"), ref rest @ ..] => java(command, rest),
        ["talk"] => match writer::talk::run() {
            Err(error) if error.kind() != io::ErrorKind::BrokenPipe => Err(Failure::Usage(format!("box: {error}"))),
            _ => Ok(()),
        },
        ["change-over", old] => said(writer::old::run(old, None)),
        ["change-over", old, new] => said(writer::old::run(old, Some(new))),
        ["watch", file] if !file.starts_with('-') => watch(file),
        ["page"] | ["talk" | "watch" | "change-over", ..] => Err(usage()),
        ["page", ref rest @ ..] => said(writer::page::make::run(rest)),
        ["list" | "check" | "asm" | "calls" | "answers", ..] => Err(usage()),
        ["why", ref rest @ ..] => play(rest, Show { why: true, ..Show::default() }),
        ["how", ref rest @ ..] => play(rest, Show { how: true, ..Show::default() }),
        ref rest => play(rest, Show::default()),
    }
}

fn usage() -> Failure {
    Failure::Usage(USAGE.into())
}

fn java(command: &str, words: &[&str]) -> Result<(), Failure> {
    said(writer::java::commands::run(command, words))
}

/// What a command says, or why it ends with a status of its own.
fn said(result: Result<String, (u8, String)>) -> Result<(), Failure> {
    match result {
        Ok(said) => print(&said),
        Err((1, said)) => Err(Failure::Bad(said)),
        Err((_, said)) => Err(Failure::Usage(said)),
    }
}

fn bytes(file: &str) -> Result<Vec<u8>, Failure> {
    if Path::new(file).is_dir() {
        return Err(Failure::Usage(format!("box: {file} is a folder")));
    }
    fs::read(file).map_err(|error| match error.kind() {
        io::ErrorKind::NotFound => Failure::Usage(format!("box: there is no file {file}")),
        _ => Failure::Usage(format!("box: {file}: {error}")),
    })
}

fn source(file: &str) -> Result<Source, Failure> {
    Ok(Source::new(file, bytes(file)?)?)
}

fn input(file: &str) -> Result<Input, Failure> {
    Ok(input::of_file(file, bytes(file)?)?)
}

/// Writes to standard output; a reader that has gone away is no failure.
fn print(text: &str) -> Result<(), Failure> {
    match io::stdout().write_all(text.as_bytes()) {
        Err(error) if error.kind() != io::ErrorKind::BrokenPipe => Err(error.into()),
        _ => Ok(()),
    }
}

fn list(input: &Input) -> Result<(), Failure> {
    let mut out = String::from(listing::LEGEND);
    for (name, number) in input.names.declared() {
        out.push_str(&format!("name {name} {number}\n"));
    }
    for piece in &input.pieces {
        out.push('\n');
        let words = listing::Words { lines: Some(&piece.lines), text: piece.text.as_ref() };
        out.push_str(&listing::with_words(&piece.bytes, &piece.called, &input.names, &words));
    }
    print(&out)
}

/// One file is answered at length, several files or a folder a line each.
fn verdicts(words: &[&str]) -> Result<(), Failure> {
    let is_quiet = |word: &&str| ["--quiet", "-q"].contains(word);
    let quiet = words.iter().any(|word| is_quiet(word));
    let files: Vec<&str> = words.iter().copied().filter(|word| !is_quiet(word)).collect();
    match files[..] {
        [] => Err(usage()),
        _ if files.iter().any(|file| file.starts_with('-')) => Err(usage()),
        [file] if !Path::new(file).is_dir() => verdict(&input(file)?, quiet),
        _ => match many::check(&files, quiet) {
            many::Status::Accepted => Ok(()),
            many::Status::Refused => Err(Failure::Bad(String::new())),
            many::Status::Trouble => Err(Failure::Usage(String::new())),
            many::Status::Differ => Err(Failure::Differ(String::new())),
        },
    }
}

fn verdict(input: &Input, quiet: bool) -> Result<(), Failure> {
    if input.pieces.is_empty() {
        return Err(Failure::Usage("there is no class in that file".into()));
    }
    let (verdict, said) = check(input);
    match verdict {
        Verdict::Accepted if quiet => Ok(()),
        Verdict::Accepted => print(&said),
        Verdict::Refused => {
            print(&said)?;
            Err(Failure::Bad(String::new()))
        }
        Verdict::Differ => Err(Failure::Differ(said)),
        Verdict::NoDesk => Err(Failure::Usage("this build has no desk; use ./box".into())),
    }
}

fn assemble(input: &Input, directory: &Path) -> Result<(), Failure> {
    if input.pieces.is_empty() {
        return Err(Failure::Usage("there is no class in that file".into()));
    }
    fs::create_dir_all(directory).map_err(|error| Failure::Usage(format!("{}: {error}", directory.display())))?;
    for piece in &input.pieces {
        let path = directory.join(format!("{}.class", piece.called));
        fs::write(&path, &piece.bytes).map_err(|error| Failure::Usage(format!("{}: {error}", path.display())))?;
        print(&format!("{}: {} bytes\n", path.display(), piece.bytes.len()))?;
    }
    Ok(())
}

/// The page beside a script, then its lines beside what was printed for them. A line that can't be read is a failure.
fn answers(file: &str, printed: &str) -> Result<(), Failure> {
    if let Ok(page) = fs::read(Path::new(file).with_extension("txt")) {
        let page = String::from_utf8_lossy(&page).into_owned();
        page.lines().try_for_each(|line| print(&format!("{}\n", visible(line))))?;
        print("\n")?;
    }
    let source = source(file)?;
    print(&script::beside(&source.text, printed, &input::names_beside(file)))?;
    is_readable(&source)
}

fn is_readable(script: &Source) -> Result<(), Failure> {
    script::is_readable(script, &script::lines(&script.text)).map_err(|problem| Failure::Bad(script.show(&problem)))
}

/// What is to be played: what is shown, the file, and the picture's name.
struct Wanted {
    show: Show,
    file: String,
    picture: Option<String>,
}

/// `[--store] [--draw] FILE [OUT]`
fn wanted(words: &[&str], mut show: Show) -> Result<Wanted, Failure> {
    let files: Vec<&str> = words.iter().copied().filter(|word| !word.starts_with('-')).collect();
    for option in words.iter().filter(|word| word.starts_with('-')) {
        match *option {
            "--store" => show.store = true,
            "--draw" => show.draw = true,
            _ => return Err(usage()),
        }
    }
    let (file, out) = match files[..] {
        [file] => (file, None),
        [file, out] if show.draw => (file, Some(out)),
        _ => return Err(usage()),
    };
    if let Some(out) = out.filter(|out| !out.ends_with(".svg")) {
        return Err(Failure::Usage(format!("box: the picture's name ends in .svg, and {out} doesn't")));
    }
    let stem = Path::new(file).file_stem().map_or("picture".into(), |stem| stem.to_string_lossy().into_owned());
    let picture = show.draw.then(|| out.map_or(format!("{stem}.svg"), str::to_string));
    Ok(Wanted { show, file: file.into(), picture })
}

fn play(words: &[&str], show: Show) -> Result<(), Failure> {
    let Wanted { show, file, picture } = wanted(words, show)?;
    let source = source(&file)?;
    let is_script = file.ends_with(".box");
    if is_script && !(show.store || show.draw || show.why || show.how) {
        let printed = script::printed(&source.text).ok_or_else(|| Failure::Usage("this build has no machine; use ./box".into()))?;
        return answers(&file, &printed);
    }
    let lesson = if is_script {
        script::lesson(&source, input::names_beside(&file))
    } else {
        workshop::lesson(&source).map_err(|problems| (source.clone(), problems))?
    };
    let outcome = match Play::run(&source, &lesson, show, &mut io::stdout().lock()) {
        Err(error) if error.kind() == io::ErrorKind::BrokenPipe => return Ok(()),
        outcome => outcome?,
    };
    if show.why && outcome.reasons == 0 {
        print("no load and no step clashed\n")?;
    }
    if show.how && outcome.questions == 0 {
        print("the lesson asks for no request: how 1 Discount asks, behind lines as offer loader 1 defines Discount\n")?;
    }
    if let Some(picture) = picture {
        fs::write(&picture, outcome.strip.svg()).map_err(|error| Failure::Usage(format!("box: {picture}: {error}")))?;
        print(&format!("drawn: {picture}, {}\n", counted(outcome.strip.count(), "picture")))?;
    }
    end(&file, &outcome)?;
    if is_script {
        return is_readable(&source);
    }
    Ok(())
}

/// Carries out a lesson, and again whenever its file has changed, until the program is ended.
fn watch(file: &str) -> Result<(), Failure> {
    let mut last = None;
    bytes(file)?;
    loop {
        // an editor may take a file away for a moment while it saves
        let now = fs::read(file).ok();
        if now.is_some() && now != last {
            if io::stdout().is_terminal() {
                print("\x1b[2J\x1b[H")?;
            }
            if let Err(Failure::Bad(said) | Failure::Usage(said) | Failure::Differ(said)) = play(&[file], Show::default()) {
                eprintln!("{}", said.trim_end());
            }
            print(&format!("watching {}; Ctrl-C ends it\n", visible(file)))?;
            last = now;
        }
        std::thread::sleep(Duration::from_millis(200));
    }
}

fn end(file: &str, outcome: &Outcome) -> Result<(), Failure> {
    let Outcome { calls, met, failed, .. } = *outcome;
    if failed > 0 {
        let answers = if failed == 1 { "answer wasn't" } else { "answers weren't" };
        return Err(Failure::Bad(format!("{file} failed: {failed} {answers} as expected")));
    }
    if calls == 0 {
        return Err(Failure::Bad(format!("{file} makes no call, so there is nothing that it shows")));
    }
    let met = match met {
        0 => "no answer expected".to_string(),
        1 => "1 expected answer, met".to_string(),
        _ => format!("{met} expected answers, all met"),
    };
    print(&format!("{file}: {}, {met}\n", counted(calls, "call")))
}
