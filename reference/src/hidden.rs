//! Fields of one name in one object: which hides which, what an access to one of them meets, and which defines make them.

use std::fmt;

use crate::answer::{word, Refusal, Reply};
use crate::broken::unbroken;
use crate::classes::Classes;
use crate::code::{FieldRef, Instruction};
use crate::file::File;
use crate::gen::Call;
use crate::step::instruction_of;
use crate::store::{cell, frame_base, Store, Value, FIELDS};

/// A field of an object: the class that declares it, its name and type.
#[derive(Clone, Copy, Debug, PartialEq, Eq)]
pub struct Declared {
    pub class: u16,
    pub name: u16,
    pub of: u16,
}

/// The fields of a class's objects in their order, the topmost class's first.
pub fn fields(store: &Store, classes: &Classes, class: u16) -> Vec<Declared> {
    let line: Vec<u16> = classes.upward(class).collect();
    let files = line.iter().rev().filter_map(|&class| Some((class, store.file(class)?)));
    files.flat_map(|(class, file)| file.fields().map(move |field| Declared { class, name: field.name, of: field.of })).collect()
}

/// Does a class further down declare the name of the field at this place?
pub fn is_hidden(fields: &[Declared], place: usize) -> bool {
    fields[place + 1..].iter().any(|lower| lower.name == fields[place].name)
}

/// A getfield or putfield at its turn, with the field that is found and an object that has it.
pub struct Access {
    pub at: FieldRef,
    /// The class that is named and those upward.
    pub upward: Vec<u16>,
    pub place: usize,
    pub object: u32,
    /// The object's fields.
    pub fields: Vec<Declared>,
}

impl Access {
    pub fn at_turn(store: &Store, classes: &Classes) -> Option<Access> {
        let task = store.turn()?;
        let base = frame_base(task, store.frame_count(task) - 1);
        let (at, depth) = match instruction_of(store, task)?.0 {
            Instruction::Getfield(at) => (at, 1),
            Instruction::Putfield(at) => (at, 2),
            _ => return None,
        };
        let named = store.cached(store.loader_of(store.frames[base + cell::CLASS] as u16), at.class)?;
        let (_, place) = classes.field(store, named, at.field, at.of)?;
        let operand = (store.frames[base + cell::OPERANDS] as usize).checked_sub(depth)?;
        let Some(Value::Object(object)) = Value::read(&store.frames, base + cell::OPERAND_0 + 2 * operand) else {
            return None;
        };
        let own = store.object_class(object);
        let fields = fields(store, classes, own);
        classes.below(own, named).then(|| Access { at, upward: classes.upward(named).collect(), place, object, fields })
    }

    fn found(&self) -> Declared {
        self.fields[self.place]
    }

    /// The places of the object's fields of that name.
    pub fn namesakes(&self) -> impl Iterator<Item = usize> + '_ {
        (0..self.fields.len()).filter(|&place| self.fields[place].name == self.at.field)
    }

    /// Does the object have another field of that name that is such, by its place?
    fn has_other(&self, is: impl Fn(usize, Declared) -> bool) -> bool {
        self.namesakes().any(|place| place != self.place && is(place, self.fields[place]))
    }

    pub fn value(&self, store: &Store, place: usize) -> Option<Value> {
        Value::read(&store.objects, Store::field_cell(self.object, place))
    }
}

/// What an access may meet, and the test for it.
type Meeting = (&'static str, fn(&Access, &Store) -> bool);

const ACCESSES: [Meeting; 9] = [
    ("a field that one of its type hides", |access, _| access.has_other(|place, other| place > access.place && other.of == access.at.of)),
    ("a field that one of another type hides", |access, _| access.has_other(|place, other| place > access.place && other.of != access.at.of)),
    ("a field that hides one of its type", |access, _| access.has_other(|place, other| place < access.place && other.of == access.at.of)),
    ("a nearer field of another type", |access, _| {
        access.has_other(|place, other| place > access.place && other.of != access.at.of && access.upward.contains(&other.class))
    }),
    ("one of three fields of its name", |access, _| access.namesakes().count() > 2),
    ("a class in the middle", |access, store| {
        let (named, own) = (access.upward[0], store.object_class(access.object));
        ![own, access.found().class].contains(&named) && access.has_other(|_, _| true)
    }),
    ("fields of one name of two loaders", |access, store| {
        access.has_other(|_, other| store.loader_of(other.class) != store.loader_of(access.found().class))
    }),
    ("fields of one name and type that differ", |access, store| {
        access.has_other(|place, other| other.of == access.at.of && access.value(store, place) != access.value(store, access.place))
    }),
    ("an object in a hidden field", |access, store| {
        is_hidden(&access.fields, access.place) && matches!(access.value(store, access.place), Some(Value::Object(_)))
    }),
];

/// What a define may do: a field of its file hides one of the same type, of another type, or two; or it has 17 fields or more, of 16 names or fewer.
const DEFINES: [&str; 4] = ["hides one of its type", "hides one of another type", "hides two", "is full by hidden fields"];

/// How often accesses and defines met each of these.
#[derive(Clone, Default)]
pub struct Hiding {
    accesses: [u64; ACCESSES.len()],
    defines: [u64; DEFINES.len()],
}

impl Hiding {
    /// Counts the access at its turn, if there is one.
    pub fn count_access(&mut self, store: &Store, classes: &Classes) {
        if let Some(access) = Access::at_turn(store, classes).filter(|access| access.namesakes().count() > 1) {
            self.accesses.iter_mut().zip(ACCESSES).for_each(|(times, (_, meets))| *times += u64::from(meets(&access, store)));
        }
    }

    /// Counts a define by the store before it.
    pub fn count_define(&mut self, before: &Store, call: &Call, reply: Reply) {
        let Some((own, above)) = declared(before, call) else {
            return;
        };
        let hidden = |name: u16| above.iter().filter(move |field| field.name == name);
        let some = |is: &dyn Fn(u16, u16) -> bool| own.iter().any(|&(name, of)| is(name, of));
        let done = match reply {
            Reply::Defined(_) => [
                some(&|name, of| hidden(name).any(|field| field.of == of)),
                some(&|name, of| hidden(name).any(|field| field.of != of)),
                some(&|name, _| hidden(name).count() > 1),
                false,
            ],
            Reply::Denied(Refusal::Word(word::FULL)) => [false, false, false, is_full_by_hiding(&own, &above)],
            _ => [false; DEFINES.len()],
        };
        self.defines.iter_mut().zip(done).for_each(|(times, does)| *times += u64::from(does));
    }

    pub fn add(&mut self, other: &Hiding) {
        self.accesses.iter_mut().zip(other.accesses).for_each(|(times, more)| *times += more);
        self.defines.iter_mut().zip(other.defines).for_each(|(times, more)| *times += more);
    }

    /// What no access met.
    pub fn unmet(&self) -> Vec<&'static str> {
        ACCESSES.iter().zip(self.accesses).filter(|(_, times)| *times == 0).map(|((what, _), _)| *what).collect()
    }

    /// What no define did.
    pub fn undone(&self) -> Vec<&'static str> {
        DEFINES.iter().zip(self.defines).filter(|(_, times)| *times == 0).map(|(what, _)| *what).collect()
    }
}

/// The names and types of a define's fields, and the fields above them.
pub fn declared(store: &Store, call: &Call) -> Option<(Vec<(u16, u16)>, Vec<Declared>)> {
    let Call::Define { loader, ref file } = *call else {
        return None;
    };
    let (classes, file) = (unbroken(store)?, File::read(file)?);
    let superclass = store.cached(u16::try_from(loader).ok()?, file.superclass())?;
    Some((file.fields().map(|field| (field.name, field.of)).collect(), fields(store, &classes, superclass)))
}

/// Are there more fields than an object has room for, and not so many names?
pub fn is_full_by_hiding(own: &[(u16, u16)], above: &[Declared]) -> bool {
    let mut names: Vec<u16> = above.iter().map(|field| field.name).chain(own.iter().map(|field| field.0)).collect();
    let all = names.len();
    names.sort_unstable();
    names.dedup();
    all > FIELDS && names.len() <= FIELDS
}

impl fmt::Display for Hiding {
    fn fmt(&self, f: &mut fmt::Formatter) -> fmt::Result {
        for ((what, _), times) in ACCESSES.iter().zip(self.accesses) {
            writeln!(f, "   accesses with {what:<40}{times:>8}")?;
        }
        DEFINES.iter().zip(self.defines).try_for_each(|(what, times)| writeln!(f, "   a define {what:<45}{times:>8}"))
    }
}
