//! Calls and answers in words.

use reference::answer::word;
use reference::gen::Call;
use reference::host::Told;

use crate::names::Names;

pub fn task(number: u32) -> String {
    match number {
        0 => "quote".into(),
        1 => "report".into(),
        _ => format!("task {number}"),
    }
}

/// A count of things: 1 step, 2 steps.
pub fn counted(count: usize, what: &str) -> String {
    let ending = if count == 1 { "" } else { "s" };
    format!("{count} {what}{ending}")
}

/// A name's number that needn't be a name.
fn class(names: &Names, number: u32) -> String {
    u16::try_from(number).map_or_else(|_| number.to_string(), |number| names.class(number))
}

/// A call as a lesson writes it.
pub fn call(call: &Call, names: &Names) -> String {
    match *call {
        Call::Boot => "boot".into(),
        Call::Define { loader, ref file } => {
            let name = reference::file::Sketch::read(file).name;
            format!("{} defines {}", names.loader(loader), name.map_or("a file".into(), |name| names.class(name)))
        }
        Call::Record { loader, name, class: number } => {
            format!("{} records {} as {number}", names.loader(loader), class(names, name))
        }
        Call::Start { task: number, loader, name, method, int } => {
            let (class, method) = (names.class(name), names.member(method));
            format!("{} starts {} {class}.{method} {}", task(number), names.bare_loader(loader), int as i32)
        }
        Call::Step => "step".into(),
        Call::Run { n } => format!("run {n}"),
        Call::Drop { task: number } => format!("drop {}", task(number)),
        Call::Sweep => "sweep".into(),
        Call::TakeBack => "take back".into(),
        Call::TryDefine { .. } | Call::TryRecord { .. } => {
            let load = reference::gen::Call::load(call);
            format!("try: {}", load.map_or(String::new(), |load| self::call(&load, names)))
        }
    }
}

/// A refusal: its number, its word, and what is wanted.
pub fn refused(number: u32, [one, two]: [u32; 2], names: &Names) -> String {
    if number == u32::from(word::WANTED) {
        return format!("refused: 5, wanted: {}", names.request(one, two));
    }
    let said = usize::try_from(number).ok().and_then(|number| word::NAMES.get(number.checked_sub(1)?));
    format!("refused: {number}, {}", said.unwrap_or(&"a word that this program doesn't know"))
}

/// The answer of a step, or the last of a run. `ran` names the instruction, where it is known.
fn stepped([number, one, two, three]: [u32; 4], names: &Names, ran: Option<&str>) -> String {
    match (number, one) {
        (0, 0) => "idle".into(),
        (0, 1) => match ran {
            Some(instruction) => format!("ran {instruction}"),
            None => format!("ran: a step of the {}", task(two)),
        },
        (0, _) => format!("finished: the {} with {}", task(two), three as i32),
        (number, _) => refused(number, [one, two], names),
    }
}

/// The answer in words; `ran` is the instruction that a step ran.
pub fn answer(call: &Call, told: &Told, names: &Names, ran: Option<&str>) -> String {
    let [kind, number, one, two, three, steps] = told.cells;
    match (kind, call) {
        (2, _) => stepped([number, one, two, three], names, ran),
        (3, _) => {
            let count = format!("{} ran", counted(steps as usize, "step"));
            if (number, one) == (0, 1) {
                return count;
            }
            format!("{count}, then {}", stepped([number, one, two, three], names, None))
        }
        _ if told.number != 0 => refused(told.number.into(), [one, two], names),
        (_, Call::Define { .. }) => format!("defined: class {one}"),
        (_, Call::Sweep) => format!("freed {}", counted(one as usize, "object")),
        (_, Call::Boot) => "booted".into(),
        (_, Call::Record { .. }) => "recorded".into(),
        (_, Call::Start { .. }) => "started".into(),
        (_, Call::Drop { .. }) => "dropped".into(),
        (_, Call::TakeBack) => "taken back".into(),
        _ => "accepted".into(),
    }
}
