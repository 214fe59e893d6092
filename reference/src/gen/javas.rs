//! The classes and accesses of java/Hidden.java, and what it prints, by any machine: fields of one name in a class and above it.

use super::build::{Code, Draft};
use super::Trial;
use crate::answer::{word, Answer, Refusal, Reply};
use crate::store::{cell, frame_base, Store, Value, INT};

/// Its classes A, B, C and D with their superclasses and fields. A is loader 1's, B and C are loader 2's, D is loader 3's.
const A: u16 = 10;
const CLASSES: [(u16, u16, [(u16, u16); 2]); 4] = [
    (A, 2, [(F, INT), (G, A)]), (11, A, [(F, INT), (G, INT)]), (12, 11, [(F, INT), (G, A)]), (13, A, [(F, A), (G, A)]),
];
const LOADERS: [u16; 4] = [1, 2, 2, 3];
const F: u16 = 30;
const G: u16 = 31;

/// The class whose methods have the accesses, one method for the accesses to an object of each class.
const CLIENT: u16 = 14;
const FIRST_METHOD: u16 = 20;
/// The locals that hold what is written, an int or an A, and the first of four objects.
const INT_WRITTEN: u8 = 1;
const WRITTEN: u8 = 2;
const FIRST_OBJECT: u8 = 3;

/// A class, a field and a type, with the points of the code that reads and of the code that writes by them.
#[derive(Clone, Copy)]
struct Access {
    named: u16,
    field: u16,
    of: u16,
    reads: u16,
    writes: u16,
}

fn letter(class: u16) -> char {
    char::from(b'A' + (class - A) as u8)
}

impl Access {
    fn said(self) -> String {
        let of = if self.of == INT { "int".into() } else { letter(self.of).to_string() };
        format!("{}.{} {of}", letter(self.named), if self.field == F { 'f' } else { 'g' })
    }
}

/// The accesses to the object in a local, in the order of the Java program, and their code behind the rest.
fn accesses(mut code: Code, class: u16, local: u8) -> (Code, Vec<Access>) {
    let mut all = Vec::new();
    let mut named = class;
    while named >= A {
        for (field, of) in [(F, INT), (F, A), (G, INT), (G, A)] {
            let reads = code.here();
            code = code.aload(local).getfield(named, field, of).pop();
            let writes = code.here();
            code = code.aload(local);
            code = if of == INT { code.iload(INT_WRITTEN) } else { code.aload(WRITTEN) };
            code = code.putfield(named, field, of);
            all.push(Access { named, field, of, reads, writes });
        }
        named = CLASSES[usize::from(named - A)].1;
    }
    (code, all)
}

/// The four classes under their loaders, and under loader 2 the client with all four accesses' methods.
fn loaded() -> (Trial, Vec<Vec<Access>>) {
    let mut trial = Trial::ready([1, 2, 3]);
    for (class, (&(name, superclass, fields), loader)) in (1..).zip(CLASSES.iter().zip(LOADERS)) {
        trial.define(loader, &fields.into_iter().fold(Draft::new(name).under(superclass), |draft, (field, of)| draft.field(field, of)));
        trial.record(2, name, class);
        trial.record(3, name, class);
    }
    let objects = || (FIRST_OBJECT..).zip(CLASSES);
    let made = objects().fold(Code::new(), |code, (local, class)| code.object(class.0).astore(local));
    let begun = made.aload(FIRST_OBJECT).astore(WRITTEN);
    let mut client = Draft::new(CLIENT);
    let mut all = Vec::new();
    for (method, (local, class)) in (FIRST_METHOD..).zip(objects()) {
        let (code, accesses) = accesses(begun.clone(), class.0, local);
        client = client.main(method, &code.end(INT));
        all.push(accesses);
    }
    trial.define(2, &client);
    (trial, all)
}

/// What java/Hidden.java prints, by steps that are made in this way.
pub fn printed(mut step: impl FnMut(&mut Store) -> Reply) -> String {
    let (mut trial, all) = loaded();
    let mut lines = Vec::new();
    for (place, accesses) in all.iter().enumerate() {
        trial.start(0, 2, CLIENT, FIRST_METHOD + place as u16, 0);
        trial.run(10);
        let mut quote = Quote { store: &mut trial.store, step: &mut step };
        for (written, &access) in (1..).zip(accesses) {
            quote.write(access, written);
            lines.push(format!("new {}, {}:{}", letter(CLASSES[place].0), access.said(), quote.read_all(accesses)));
        }
        trial.drop_task(0);
    }
    lines.push(by_casts(&mut trial, &all[2], &mut step));
    lines.join("\n") + "\n"
}

/// The last line: a new C is written through the names that casts give.
fn by_casts(trial: &mut Trial, accesses: &[Access], step: &mut dyn FnMut(&mut Store) -> Reply) -> String {
    trial.start(0, 2, CLIENT, FIRST_METHOD + 2, 0);
    trial.run(10);
    let mut quote = Quote { store: &mut trial.store, step };
    // objects of class D and B are written by 12 and 4
    for (said, written) in [("C.f int", 1), ("B.f int", 2), ("A.f int", 3), ("C.g A", 12), ("B.g int", 4), ("A.g A", 4)] {
        let access = accesses.iter().find(|access| access.said() == said).expect("an access");
        quote.write(*access, written);
    }
    format!("by casts:{}", quote.read_all(accesses))
}

/// A quote in a method of the client, whose objects are made.
struct Quote<'a> {
    store: &'a mut Store,
    step: &'a mut dyn FnMut(&mut Store) -> Reply,
}

impl Quote<'_> {
    fn local(&self, number: u8) -> usize {
        frame_base(0, 0) + cell::LOCAL_0 + 2 * usize::from(number)
    }

    /// Goes on from this point so many steps: false if the field is absent.
    fn goes(&mut self, point: u16, steps: usize) -> bool {
        self.store.frames[frame_base(0, 0) + cell::POINT] = point.into();
        self.store.frames[frame_base(0, 0) + cell::OPERANDS] = 0;
        let absent = Reply::Stepped(Answer::Refused(Refusal::Word(word::ABSENT)));
        let last = (0..steps).map(|_| (self.step)(self.store)).last();
        assert!(last == Some(absent) || last == Some(Reply::Stepped(Answer::Ran(0))), "{last:?}");
        last != Some(absent)
    }

    /// Writes this int, or one of the four objects by it.
    fn write(&mut self, access: Access, written: u32) {
        let object = Value::read(&self.store.frames, self.local(FIRST_OBJECT + (written / 4 % 4) as u8)).expect("an object");
        let (ints, objects) = (self.local(INT_WRITTEN), self.local(WRITTEN));
        Value::Int(written).write(&mut self.store.frames, ints);
        object.write(&mut self.store.frames, objects);
        self.goes(access.writes, 3);
    }

    fn read_all(&mut self, accesses: &[Access]) -> String {
        accesses.iter().map(|&access| format!(" {}", self.read(access))).collect()
    }

    /// An int, or an object by its class.
    fn read(&mut self, access: Access) -> String {
        if !self.goes(access.reads, 2) {
            return "-".into();
        }
        match Value::read(&self.store.frames, frame_base(0, 0) + cell::OPERAND_0) {
            Some(Value::Int(bits)) => (bits as i32).to_string(),
            Some(Value::Null) => "null".into(),
            Some(Value::Object(object)) => letter(self.store.name_of(self.store.object_class(object))).into(),
            other => panic!("{other:?} was read"),
        }
    }
}
