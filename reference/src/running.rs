//! What long runs met: which places they came by again and with what, and how they ended.

use std::collections::HashMap;
use std::fmt;

use crate::answer::{word, Answer, Refusal, Reply};
use crate::broken::unbroken;
use crate::classes::Classes;
use crate::code::Instruction;
use crate::gen::Call;
use crate::hidden::{fields, is_hidden};
use crate::step::{instruction_of, take_step};
use crate::store::{cell, count, frame_base, Store, Value, FREE, QUOTE, REPORT};

/// A run of so many steps is long.
pub const LONG: u16 = 256;

/// A place in code: class, method, point.
type Place = (u32, u32, u32);

/// What a run met at a call or an access: sets of class numbers, one bit each.
#[derive(Default)]
struct Met {
    is_call: bool,
    receivers: u64,
    entered: u64,
    has_tied: bool,
    /// Was it come by again after it had posted a tie?
    is_again: bool,
    hidden: bool,
}

/// A run, seen step by step.
#[derive(Default)]
struct Walk {
    places: HashMap<Place, Met>,
    news: HashMap<Place, u64>,
    framed: u64,
    deepest: usize,
    freed_row: bool,
    between: bool,
    by_the_report: bool,
    above_a_report: bool,
    end: Option<(u8, bool)>,
}

impl Walk {
    fn of(before: &Store, ran: u16, answer: Answer) -> Option<Walk> {
        let classes = unbroken(before)?;
        let mut store = before.clone();
        let mut walk = Walk { above_a_report: before.frame_count(QUOTE) > 0 && before.frame_count(REPORT) > 0, ..Walk::default() };
        for _ in 0..ran {
            walk.step(&mut store, &classes);
        }
        let number = if let Answer::Refused(refusal) = answer { Some(refusal.number()) } else { None };
        walk.end = number.map(|number| (number, store.unused_object().is_some()));
        Some(walk)
    }

    fn step(&mut self, store: &mut Store, classes: &Classes) -> Option<()> {
        let task = store.turn()?;
        let base = frame_base(task, store.frame_count(task) - 1);
        let place = (store.frames[base + cell::CLASS], store.frames[base + cell::METHOD], store.frames[base + cell::POINT]);
        self.framed |= 1 << place.0;
        self.deepest = self.deepest.max(store.frame_count(task));
        let (instruction, _) = instruction_of(store, task)?;
        let depth = match instruction {
            Instruction::Getfield(_) => 1,
            Instruction::Putfield(_) => 2,
            Instruction::Invokevirtual(at) => 1 + at.signature.arguments.count(),
            Instruction::New(_) => {
                self.make(store, classes, place, task);
                return Some(());
            }
            _ => {
                take_step(store, classes);
                return Some(());
            }
        };
        let operand = (store.frames[base + cell::OPERANDS] as usize).checked_sub(depth)?;
        let Some(Value::Object(object)) = Value::read(&store.frames, base + cell::OPERAND_0 + 2 * operand) else {
            return None;
        };
        let (own, ties) = (store.object_class(object), store.count(count::TIES));
        let met = self.places.entry(place).or_default();
        met.is_again |= met.has_tied;
        if met.receivers >> own & 1 == 0 {
            met.hidden |= means_a_hidden_one(store, classes, instruction, place.0 as u16, own);
        }
        met.receivers |= 1 << own;
        take_step(store, classes);
        met.has_tied |= store.count(count::TIES) > ties;
        if let Instruction::Invokevirtual(_) = instruction {
            met.is_call = true;
            met.entered |= 1 << store.frames[frame_base(task, store.frame_count(task) - 1) + cell::CLASS];
        }
        Some(())
    }

    fn make(&mut self, store: &mut Store, classes: &Classes, place: Place, task: usize) {
        let row = store.unused_object();
        let used = store.owners().len();
        take_step(store, classes);
        let Some(row) = row.map(|row| row as usize) else {
            return;
        };
        *self.news.entry(place).or_default() |= 1 << store.object_class(row as u32);
        self.freed_row |= row < used;
        self.between |= row + 1 < used && store.owners()[row + 1] != FREE;
        self.by_the_report |= task == REPORT;
    }

    /// Are there two places of which the first test holds, that differ in their class or method alone?
    fn twins(&self, are: impl Fn(&Place, &Place) -> bool) -> bool {
        let places: Vec<&Place> = self.places.keys().chain(self.news.keys()).collect();
        places.iter().any(|one| places.iter().any(|other| are(one, other)))
    }

    fn any(&self, is: impl Fn(&Met) -> bool) -> bool {
        self.places.values().any(is)
    }

    fn ended(&self, number: u8) -> bool {
        self.end.is_some_and(|end| end.0 == number)
    }
}

/// Does an access mean a field that the object's own class, or one between, hides?
fn means_a_hidden_one(store: &Store, classes: &Classes, instruction: Instruction, frame: u16, own: u16) -> bool {
    let (Instruction::Getfield(at) | Instruction::Putfield(at)) = instruction else {
        return false;
    };
    let found = store.cached(store.loader_of(frame), at.class).and_then(|named| classes.field(store, named, at.field, at.of));
    found.is_some_and(|(_, place)| is_hidden(&fields(store, classes, own), place))
}

/// Do two of these classes have one name?
fn are_namesakes(store: &Store, classes: u64) -> bool {
    let names: Vec<u16> = (0..64).filter(|class| classes >> class & 1 == 1).map(|class| store.name_of(class)).collect();
    names.iter().enumerate().any(|(at, name)| names[..at].contains(name))
}

/// What a long run may meet, and the test for it.
type Meeting = (&'static str, fn(&Walk, &Store) -> bool);

const MEETINGS: [Meeting; 22] = [
    ("a call with receivers of two classes", |walk, _| walk.any(|met| met.is_call && met.receivers.count_ones() > 1)),
    ("a call that enters methods of two classes", |walk, _| walk.any(|met| met.entered.count_ones() > 1)),
    ("a call that enters one method for two classes", |walk, _| walk.any(|met| met.is_call && met.entered.count_ones() < met.receivers.count_ones())),
    ("a field of receivers of two classes", |walk, _| walk.any(|met| !met.is_call && met.receivers.count_ones() > 1)),
    ("a hidden field", |walk, _| walk.any(|met| met.hidden)),
    ("a hidden field of receivers of two classes", |walk, _| walk.any(|met| met.hidden && met.receivers.count_ones() > 1)),
    ("a place that ties and is met again", |walk, _| walk.any(|met| met.is_again)),
    ("a call that ties and is met again", |walk, _| walk.any(|met| met.is_again && met.is_call)),
    ("one method's place and point in two classes", |walk, _| walk.twins(|one, other| one.0 != other.0 && (one.1, one.2) == (other.1, other.2))),
    ("one point in two methods of a class", |walk, _| walk.twins(|one, other| one.1 != other.1 && (one.0, one.2) == (other.0, other.2))),
    ("frames of two classes of one name", |walk, store| are_namesakes(store, walk.framed)),
    ("twenty frames", |walk, _| walk.deepest >= 20),
    ("a new in a freed row", |walk, _| walk.freed_row),
    ("a new before a row in use", |walk, _| walk.between),
    ("a new of the report's", |walk, _| walk.by_the_report),
    ("a quote above a report", |walk, _| walk.above_a_report),
    ("objects of two classes of one name", |walk, store| are_namesakes(store, walk.news.values().fold(0, |all, classes| all | classes))),
    ("a class wanted at its end", |walk, _| walk.ended(word::WANTED)),
    ("a clash at its end", |walk, _| walk.ended(word::CLASH)),
    ("frames full at its end", |walk, _| walk.end == Some((word::FULL, true))),
    ("objects full at its end", |walk, _| walk.end == Some((word::FULL, false))),
    ("a null, a divisor 0, nothing found or a share used at its end", |walk, _| {
        [word::NULL, word::ZERO_DIVISOR, word::ABSENT, word::SHARE_USED].iter().any(|&number| walk.ended(number))
    }),
];

/// How often long runs met each of these, and what they ended with.
#[derive(Clone, Default)]
pub struct Running {
    pub lists: u64,
    pub calls: u64,
    pub steps: u64,
    runs: u64,
    long: u64,
    times: [u64; MEETINGS.len()],
    /// The refusals of long runs, by number; 0 stands for none.
    ends: [u64; 32],
}

/// How long runs end.
const ENDS: [usize; 8] = [0, 5, 7, 9, 10, 11, 17, 18];

impl Running {
    /// Counts a call by the store before it.
    pub fn count(&mut self, before: &Store, call: &Call, reply: Reply) {
        self.calls += 1;
        let (Call::Run { n }, Reply::RanFor(ran, answer)) = (call, reply) else {
            return;
        };
        self.runs += 1;
        self.steps += u64::from(ran);
        if *n < LONG.into() || ran < LONG {
            return;
        }
        self.long += 1;
        let number = if let Answer::Refused(refusal) = answer { Refusal::number(refusal) } else { 0 };
        self.ends[usize::from(number)] += 1;
        if let Some(walk) = Walk::of(before, ran, answer) {
            self.times.iter_mut().zip(MEETINGS).for_each(|(times, (_, meets))| *times += u64::from(meets(&walk, before)));
        }
    }

    pub fn add(&mut self, other: &Running) {
        self.lists += other.lists;
        self.calls += other.calls;
        self.steps += other.steps;
        self.runs += other.runs;
        self.long += other.long;
        self.times.iter_mut().zip(other.times).for_each(|(times, more)| *times += more);
        self.ends.iter_mut().zip(other.ends).for_each(|(times, more)| *times += more);
    }

    /// What no long run met, and how none ended.
    pub fn unmet(&self) -> Vec<String> {
        let unmet = MEETINGS.iter().zip(self.times).filter(|(_, times)| *times == 0).map(|((what, _), _)| format!("no long run met {what}"));
        unmet.chain(ENDS.into_iter().filter(|&number| self.ends[number] == 0).map(|number| format!("no long run ended with {number}"))).collect()
    }
}

impl fmt::Display for Running {
    fn fmt(&self, f: &mut fmt::Formatter) -> fmt::Result {
        writeln!(f, "{} lists of {} calls; {} runs, {} of them long; {} steps", self.lists, self.calls, self.runs, self.long, self.steps)?;
        writeln!(f, "   long runs ended with {}", ENDS.map(|number| format!("{number}: {}", self.ends[number])).join(", "))?;
        MEETINGS.iter().zip(self.times).try_for_each(|((what, _), times)| writeln!(f, "   long runs with {what:<62}{times:>8}"))
    }
}
