//! `.box` scripts: their calls in words, as a lesson or beside what the proved program prints.

use reference::gen::Call;
use reference::host::Told;
use reference::script::{read_line, Line};
use reference::Store;

use crate::lesson::{Act, Doing, Lesson, What};
use crate::machine;
use crate::names::Names;
use crate::source::{visible, Problem, Source, Span};
use crate::words;

fn call_of(line: Line) -> Call {
    match line {
        Line::Record { loader, name, class } => Call::Record { loader: loader.into(), name: name.into(), class: class.into() },
        Line::Define { loader, file } => Call::Define { loader: loader.into(), file },
        Line::Start { task, loader, name, method, int } => {
            Call::Start { task: task.into(), loader: loader.into(), name, method, int }
        }
        Line::Step => Call::Step,
        Line::Drop { task } => Call::Drop { task: task.into() },
    }
}

/// The lines of a script with their calls, up to the first that can't be read, which has none. A line may end as on Windows.
pub fn lines(script: &str) -> Vec<(&str, Option<Call>)> {
    let mut all = Vec::new();
    let text = script.strip_suffix('\n').unwrap_or(script);
    for line in text.split('\n').filter(|_| !script.is_empty()) {
        let line = line.strip_suffix('\r').unwrap_or(line);
        let call = read_line(line.as_bytes()).map(call_of);
        let is_end = call.is_none();
        all.push((line, call));
        if is_end {
            break;
        }
    }
    all
}

/// Where a line of a text stands in it.
fn span(text: &str, line: &str) -> Span {
    let start = line.as_ptr() as usize - text.as_ptr() as usize;
    Span { start, end: start + line.len() }
}

/// The problem of the line that can't be read, if there is one: the last of these.
pub fn is_readable(source: &Source, lines: &[(&str, Option<Call>)]) -> Result<(), Problem> {
    match lines.last() {
        Some(&(line, None)) => {
            let problem = Problem::new(span(&source.text, line), "a line that can't be read: the script ends here");
            Err(problem.help("as in: R 1 2 0, D 1 0100.., S 0 1 10 20 7, N, X 0, with one space between, and no more in the file"))
        }
        _ => Ok(()),
    }
}

/// The script, which has no names of its own, as a lesson that expects nothing.
pub fn lesson(source: &Source, names: Names) -> Lesson {
    let act = |(line, call): (&str, Option<Call>)| match call {
        Some(call) => {
            let (said, span) = (words::call(&call, &names), span(&source.text, line));
            Act::Do(Doing { said, what: What::Call(call), span, expected: Vec::new(), asked: false })
        }
        None => Act::Say(UNREADABLE.into()),
    };
    let acts = lines(&source.text).into_iter().map(act).collect();
    Lesson { names, acts, ..Lesson::default() }
}

/// The script as the program boxscript reads it: plain line ends, no byte order mark.
pub fn plain(source: &Source) -> String {
    source.text.replace("\r\n", "\n")
}

/// What boxscript prints for a script, by the machine's calls from a boot; nothing if this build has no machine.
pub fn printed(script: &str) -> Option<String> {
    let mut store = Store::zeros();
    machine::make(&Call::Boot, &mut store, &mut [])?;
    let mut out = String::new();
    for call in lines(script).into_iter().filter_map(|(_, call)| call) {
        let [_, number, one, two, three, _] = machine::make(&call, &mut store, &mut [])?.cells;
        let letter = match call {
            Call::Record { .. } => 'R',
            Call::Define { .. } => 'D',
            Call::Start { .. } => 'S',
            Call::Drop { .. } => 'X',
            _ => 'N',
        };
        out.push_str(&format!("{letter} {number} {one} {two} {}\n", three as i32));
    }
    Some(out)
}

const UNREADABLE: &str = "A line that it cannot read: the script ends here.";

/// Each line of a script beside what boxscript printed for it and what that says.
pub fn beside(script: &str, printed: &str, names: &Names) -> String {
    let mut printed = printed.lines();
    let mut out = String::new();
    for (line, call) in lines(script) {
        let (numbers, said) = match call {
            Some(call) => {
                let numbers = printed.next().unwrap_or("nothing");
                let told = told(numbers).map(|told| words::answer(&call, &told, names, None));
                (numbers, format!("{}: {}", words::call(&call, names), told.unwrap_or("no answer".into())))
            }
            None => ("", UNREADABLE.into()),
        };
        out.push_str(&format!("{:<30}  {numbers:<14}  {said}\n", visible(&cut(line))));
    }
    out
}

/// The answer that a printed line stands for: letter, refusal, three details.
fn told(line: &str) -> Option<Told> {
    let mut fields = line.split(' ');
    let letter = fields.next()?;
    let mut number = || fields.next()?.parse::<i64>().ok();
    let (refusal, one, two, three) = (number()?, number()? as u32, number()? as u32, number()? as u32);
    let kind = match letter {
        "N" => 2,
        _ if refusal != 0 => 4,
        "D" => 1,
        _ => 0,
    };
    Some(Told { number: refusal as u8, cells: [kind, refusal as u32, one, two, three, 0] })
}

fn cut(line: &str) -> String {
    let count = line.chars().count();
    if count <= 30 {
        return line.into();
    }
    let (begin, end): (String, String) = (line.chars().take(14).collect(), line.chars().skip(count - 12).collect());
    format!("{begin} .. {end}")
}

#[cfg(test)]
mod tests {
    use super::*;

    #[test]
    fn a_script_beside_its_answers() {
        let shown = beside("R 1 2 0\nS 0 1 10 20 -7\nN\n\n", "R 0 0 0 0\nS 5 1 10 0\nN 0 2 1 -3\n", &Names::default());
        let lines: Vec<&str> = shown.lines().collect();
        assert!(lines[0].ends_with("loader 1 records Object as 0: recorded"), "{shown}");
        assert!(lines[1].ends_with("quote starts 1 10.20 -7: refused: 5, wanted: 10 of loader 1"), "{shown}");
        assert!(lines[2].ends_with("step: finished: the report with -3"), "{shown}");
        assert!(lines[3].ends_with(UNREADABLE), "{shown}");
    }
}
