//! What will the machine say? The answers that a call could have, of which the machine's is one, and the rule of each. Nothing here says
//! which is right: that is what the machine said.

use reference::answer::word;
use reference::broken::unbroken;
use reference::code::{decode, Instruction};
use reference::file::Sketch;
use reference::gen::Call;
use reference::host::Told;
use reference::step::instruction_of;
use reference::store::{cell, count, frame_base, Value, OBJECT};
use reference::Store;

use crate::lesson::{Doing, Quiz};
use crate::names::Names;
use crate::rows::next_instruction;
use crate::words::{counted, refused, task};

/// An answer that may be picked, with its rule.
pub struct Choice {
    pub said: String,
    pub rule: String,
}

/// When each word of refusal is said.
const RULES: [&str; 20] = [
    "a table has a wrong length, or the tables are no store",
    "the file breaks a rule of files",
    "a loader, task, class number or count isn't there",
    "the loader's cache has that name already (of a record, with another class)",
    "a class is needed, and its loader has none by that name yet",
    "the verifier rejects a method of the file",
    "no class from there upward has such a field or method",
    "it is reserved, and no call says it",
    "the store would no longer agree: a chain of ties and subtype constraints would join two loaded requests whose classes don't fit. \
     A name that nobody has loaded has no class to compare, but a chain goes through it all the same",
    "a table has no room left",
    "the receiver is null",
    "the task has frames already: its quote isn't finished",
    "the class that is recorded has another name",
    "the step can't be carried out, which never happens in a store that comes from a boot",
    "a jump goes where there is no map",
    "the list for the chain is too short",
    "a division by 0",
    "the report has used its share of objects",
    "no load is left to take back: a boot, start, drop, sweep or step closes those before it",
    "there are more than eight offers, or one that can't be read",
];

/// Is the call one at which the page asks?
pub fn is_asked(doing: &Doing, call: &Call, quiz: Quiz) -> bool {
    let is_plain = match *call {
        Call::Record { name, class, .. } => name == u32::from(OBJECT) && class == 0,
        Call::Boot | Call::Drop { .. } => true,
        _ => false,
    };
    match quiz {
        Quiz::Off => false,
        Quiz::Marked => doing.asked,
        Quiz::All => !is_plain,
    }
}

/// What is picked of an answer: of a run how it ends, of others the whole.
pub fn picked(call: &Call, answer: &str) -> String {
    match (call, answer.split_once(", then ")) {
        (Call::Run { .. }, Some((_, end))) => end.into(),
        (Call::Run { .. }, None) if answer.ends_with(" ran") => ALL_RAN.into(),
        _ => answer.into(),
    }
}

const ALL_RAN: &str = "all of its steps run, and the task goes on";

/// The rule by which a call is answered with this number, 0 if it is accepted.
pub fn rule(number: u32, call: &Call) -> String {
    let place = usize::try_from(number).ok().and_then(|number| number.checked_sub(1));
    if let Some((word, rule)) = place.and_then(|place| Some((word::NAMES.get(place)?, RULES.get(place)?))) {
        return format!("{word}: {rule}.");
    }
    match call {
        _ if number != 0 => "another word of refusal".into(),
        Call::Define { .. } => "Defined: no rule refuses the file, its superclass is loaded, and the store agrees with the new class in it.".into(),
        Call::Record { .. } => "Recorded: the class has that name, the cache has no other for it, and the store still agrees.".into(),
        Call::Start { .. } => "Started: the class is loaded and has the method, and the task is free.".into(),
        Call::Sweep => "A sweep frees the objects that no frame reaches, and no others.".into(),
        Call::Step | Call::Run { .. } => "Steps run one by one, first those of the quote, until one returns from the first frame.".into(),
        _ => "Accepted: no rule refuses it.".into(),
    }
}

/// The answers to pick from, in an order that tells nothing, and the place of the machine's.
pub fn choices(call: &Call, told: &Told, before: &Store, names: &Names, answer: &str, also: &[String]) -> (Vec<Choice>, usize) {
    let right = picked(call, answer);
    let mut all: Vec<(u32, String)> = vec![(told.cells[1].max(told.number.into()), right.clone())];
    all.extend(guesses(call, told, before, names));
    all.extend(also.iter().map(|said| (number_of(said), picked(call, said))));
    all.sort();
    all.dedup_by(|one, other| one.1 == other.1);
    let place = all.iter().position(|choice| choice.1 == right).unwrap_or(0);
    (all.into_iter().map(|(number, said)| Choice { said, rule: rule(number, call) }).collect(), place)
}

/// The word's number in an answer, 0 if it is accepted.
fn number_of(said: &str) -> u32 {
    let behind = said.split("refused: ").nth(1).and_then(|rest| rest.split(',').next());
    behind.and_then(|number| number.parse().ok()).unwrap_or(0)
}

fn guesses(call: &Call, told: &Told, before: &Store, names: &Names) -> Vec<(u32, String)> {
    let no = |number: u8| (u32::from(number), refused(number.into(), [0, 0], names));
    let wanted = |loader: u32, name: u16| (u32::from(word::WANTED), refused(word::WANTED.into(), [loader, name.into()], names));
    if unbroken(before).is_none() {
        return vec![no(word::BROKEN), no(word::UNKNOWN), no(word::STUCK)];
    }
    match *call {
        Call::Define { loader, ref file } => {
            let class = (0, format!("defined: class {}", before.counts[count::CLASSES]));
            let above = Sketch::read(file).superclass.map(|name| wanted(loader, name));
            [class, no(word::TAKEN), no(word::CLASH)].into_iter().chain(above).collect()
        }
        Call::Record { .. } => vec![(0, "recorded".into()), no(word::TAKEN), no(word::CLASH), no(word::MISNAMED)],
        Call::Start { loader, name, .. } => vec![(0, "started".into()), wanted(loader, name), no(word::ABSENT), no(word::BUSY)],
        Call::Sweep => {
            let all = before.objects_in_use().count();
            [0, all, all.saturating_sub(1)].map(|freed| (0, format!("freed {}", counted(freed, "object")))).to_vec()
        }
        Call::TakeBack => vec![(0, "taken back".into()), no(word::TOO_LATE)],
        Call::Step => stepped(told, before, names),
        Call::Run { .. } => {
            let mut all = finished(told, before);
            all.extend([(0, ALL_RAN.into()), no(word::CLASH)]);
            all.extend(asks(before).map(|(loader, name)| wanted(loader, name)));
            all
        }
        _ => vec![(0, "accepted".into())],
    }
}

/// What the next step could say: of an instruction that names a class also what it could want, and a clash.
fn stepped(told: &Told, before: &Store, names: &Names) -> Vec<(u32, String)> {
    let no = |number: u8| (u32::from(number), refused(number.into(), [0, 0], names));
    let Some(turn) = before.turn() else {
        return vec![(0, "idle".into()), no(word::BUSY), no(word::STUCK)];
    };
    let mut all: Vec<(u32, String)> = next_instruction(before, names).map(|next| (0, format!("ran {next}"))).into_iter().collect();
    let instruction = instruction_of(before, turn).map(|read| read.0);
    if let Some((loader, name)) = asks(before) {
        all.push((word::WANTED.into(), refused(word::WANTED.into(), [loader, name.into()], names)));
        all.extend([no(word::CLASH), no(word::NULL)]);
    } else if matches!(instruction, Some(Instruction::Ireturn | Instruction::Areturn)) {
        all.extend(finished(told, before));
    } else {
        all.extend([no(word::STUCK), (0, "idle".into())]);
    }
    all
}

/// Ints that the task at its turn could finish with: what it came to, its argument, its top operand, 0.
fn finished(told: &Told, before: &Store) -> Vec<(u32, String)> {
    let Some(turn) = before.turn() else {
        return vec![(0, "idle".into())];
    };
    let (bottom, top) = (frame_base(turn, 0), frame_base(turn, before.frame_count(turn) - 1));
    let operands = before.frames[top + cell::OPERANDS] as usize;
    let int = |at: usize| match Value::read(&before.frames, at) {
        Some(Value::Int(bits)) => Some(bits as i32),
        _ => None,
    };
    let came = (told.cells[1] == 0 && told.cells[2] == 2).then_some(told.cells[4] as i32);
    let on_top = operands.checked_sub(1).and_then(|last| int(top + cell::OPERAND_0 + 2 * last));
    let mut ints: Vec<i32> = Vec::new();
    let guessed = [came, int(bottom + cell::LOCAL_0 + 2), on_top].into_iter().flatten().chain(constants(before, top)).chain([0, 1]);
    for int in guessed {
        if ints.len() < MOST_INTS && !ints.contains(&int) {
            ints.push(int);
        }
    }
    ints.into_iter().map(|int| (0, format!("finished: the {} with {int}", task(turn as u32)))).collect()
}

/// As many ints are offered.
const MOST_INTS: usize = 5;

/// The ints that the method of a frame pushes, the last first: those stand near its ends.
fn constants(store: &Store, base: usize) -> Vec<i32> {
    let file = store.file(store.frames[base + cell::CLASS] as u16);
    let Some(method) = file.and_then(|file| file.method(store.frames[base + cell::METHOD] as usize)) else {
        return Vec::new();
    };
    let (mut all, mut point) = (Vec::new(), 0);
    while let Some((instruction, next)) = decode(method.version, method.code, point) {
        if let Instruction::Sipush(int) = instruction {
            all.push(i32::from(int));
        }
        point = next;
    }
    all.reverse();
    all
}

/// The request that the next instruction names.
fn asks(before: &Store) -> Option<(u32, u16)> {
    let turn = before.turn()?;
    let base = frame_base(turn, before.frame_count(turn) - 1);
    let name = match instruction_of(before, turn)?.0 {
        Instruction::New(class) => class,
        Instruction::Getfield(at) | Instruction::Putfield(at) => at.class,
        Instruction::Invokevirtual(at) => at.class,
        _ => return None,
    };
    Some((before.loader_of(before.frames[base + cell::CLASS] as u16).into(), name))
}
