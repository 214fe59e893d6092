//! Short call lists about hidden fields: fields of one name in a class and above it, in one object.

use super::build::{Code, Draft};
use super::cases::{ready, MAIN};
use super::Trial;
use crate::store::INT;

/// Three classes, each below the one before, of loaders 1, 2 and 3, and the name of the field that they may have.
const LINE: [u16; 3] = [10, 11, 12];
const FIELD: u16 = 30;
const CLIENT: u16 = 13;

fn c() -> Code {
    Code::new()
}

/// The class below the one before in the line, Object for the first.
fn draft(place: usize) -> Draft {
    Draft::new(LINE[place]).under(if place == 0 { 2 } else { LINE[place - 1] })
}

/// Loads a class of the line under its loader and records it under the loaders behind.
fn load(trial: &mut Trial, place: usize, draft: &Draft) {
    let number = trial.store.counts[0];
    trial.define(place as u16 + 1, draft);
    for loader in place as u16 + 2..4 {
        trial.record(loader, draft.name, number);
    }
}

/// The line with the field in those classes that have a type for it. For an object of each class: through it and each class above, and for each
/// type, if a field is found, an int or the object is written; then all are read and stay as operands; then it is swept. At last an
/// access that finds nothing, if there is one.
fn line(types: [Option<u16>; 3]) -> Trial {
    let mut trial = ready();
    for (place, of) in types.into_iter().enumerate() {
        let draft = of.into_iter().fold(draft(place), |draft, of| draft.field(FIELD, of));
        load(&mut trial, place, &draft);
    }
    let is_found = |named: usize, of: u16| types[..=named].contains(&Some(of));
    let mut client = Draft::new(CLIENT);
    let mut absent = None;
    for (method, own) in (MAIN..).zip(0..LINE.len()) {
        let through = (0..=own).flat_map(|named| [(named, INT), (named, LINE[0])]);
        let (found, not_found): (Vec<_>, Vec<_>) = through.partition(|&(named, of)| is_found(named, of));
        absent = absent.or(not_found.last().copied());
        let mut code = c().object(LINE[own]).astore(2);
        for (value, &(named, of)) in (1..).zip(&found) {
            code = code.aload(2);
            code = if of == INT { code.int(value) } else { code.object(LINE[value as usize % 3]) };
            code = code.putfield(LINE[named], FIELD, of);
        }
        code = found.iter().fold(code, |code, &(named, of)| code.aload(2).getfield(LINE[named], FIELD, of));
        client = client.main(method, &code.iload(1).ireturn());
    }
    if let Some((named, of)) = absent {
        client = client.main(MAIN + 3, &c().object(LINE[2]).getfield(LINE[named], FIELD, of).pop().iload(1).ireturn());
    }
    trial.define(3, &client);
    for method in MAIN..MAIN + client.methods.len() as u16 {
        trial.start(0, 3, CLIENT, method, 7);
        for steps in [1, 4, 12, 200] {
            trial.run(steps);
            trial.sweep();
        }
        trial.drop_task(0);
    }
    trial
}

/// All lines: no field, an int or a reference in each of the classes.
fn lines() -> Vec<Trial> {
    let choices = [None, Some(INT), Some(LINE[0])];
    let each = (0..27).map(|i| [choices[i / 9], choices[i / 3 % 3], choices[i % 3]]);
    each.map(line).collect()
}

/// Two insurers, loaders 2 and 3, extend loader 1's class by a field of the name that it has. Loader 1 writes both objects' shared fields
/// through the shared class, and a method of theirs their own.
pub fn two_insurers() -> Trial {
    let mut trial = ready();
    let shared = c().aload(0).iload(1).putfield(10, FIELD, INT).aload(0).getfield(10, FIELD, INT).ireturn();
    trial.define(1, &Draft::new(10).field(FIELD, INT).main(21, &shared));
    for (loader, name, of) in [(2, 11, INT), (3, 12, 10)] {
        trial.record(loader, 10, 1);
        let own = c().aload(0).int(5).putfield(name, FIELD, INT).aload(0).iload(1).invoke(10, 21, INT, INT);
        let own = own.aload(0).getfield(name, FIELD, INT).isub().ireturn();
        trial.define(loader, &Draft::new(name).under(10).field(FIELD, of).main(MAIN, &own));
        trial.record(1, name, loader);
        trial.start(0, loader, name, MAIN, 9);
        trial.run(100);
    }
    let both = |code: Code, name: u16| code.object(name).iload(1).invoke(10, 21, INT, INT);
    trial.define(1, &Draft::new(13).main(MAIN, &both(both(c(), 11), 12).iadd().ireturn()));
    trial.start(1, 1, 13, MAIN, 4);
    trial.run(100);
    trial
}

/// Three fields of one name, each with an object that nothing else holds; each is overwritten. It frees 0, 1, 1, 1.
pub fn held() -> Trial {
    let mut trial = ready();
    (0..3).for_each(|place| load(&mut trial, place, &draft(place).field(FIELD, LINE[0])));
    let link = |code: Code, named: u16| code.aload(2).object(LINE[0]).putfield(named, FIELD, LINE[0]);
    let unlink = |code: Code, named: u16| code.aload(2).null().putfield(named, FIELD, LINE[0]);
    let linked = LINE.into_iter().fold(c().object(LINE[2]).astore(2), link);
    trial.define(3, &Draft::new(CLIENT).main(MAIN, &LINE.into_iter().fold(linked, unlink).end(INT)));
    trial.start(0, 3, CLIENT, MAIN, 0);
    for steps in [11, 3, 3, 3] {
        trial.run(steps);
        trial.sweep();
    }
    trial
}

/// Loaders 1 and 2 have a class 15 each, and the class of each in the line a field of it. What is tied goes by the class that the field is found in: through loader 2's
/// class nothing is, through loader 1's it clashes.
pub fn ties() -> Trial {
    let mut trial = ready();
    trial.define(1, &Draft::new(15));
    trial.define(2, &Draft::new(15));
    load(&mut trial, 0, &draft(0).field(FIELD, 15));
    let read = |named: u16| c().aload(0).getfield(named, FIELD, 15).pop().iload(1).ireturn();
    load(&mut trial, 1, &draft(1).field(FIELD, 15).main(MAIN, &read(LINE[1])).main(21, &read(LINE[0])));
    for method in [MAIN, 21] {
        trial.start(0, 2, LINE[1], method, 3);
        trial.run(10);
        trial.drop_task(0);
    }
    trial
}

/// Two fields of one name in one file, of one type or two: bad files, below a class with such a field too.
pub fn in_one_file() -> Trial {
    let mut trial = ready();
    trial.define(1, &draft(0).field(FIELD, INT));
    for of in [INT, LINE[0]] {
        for superclass in [2, LINE[0]] {
            trial.define(1, &Draft::new(LINE[1]).under(superclass).field(FIELD, INT).field(31, INT).field(FIELD, of));
        }
    }
    trial
}

/// Eight fields and eight more by their names; then one more by one of them, and one by another name.
pub fn seventeen() -> Trial {
    let mut trial = ready();
    let eight = |draft: Draft| (FIELD..FIELD + 8).fold(draft, |draft, field| draft.field(field, INT));
    let own = c().aload(0).int(8).putfield(LINE[1], FIELD + 7, INT).aload(0).getfield(LINE[0], FIELD + 7, INT).ireturn();
    trial.define(1, &eight(draft(0)));
    trial.define(1, &eight(draft(1)).main(MAIN, &own));
    trial.define(1, &draft(2).field(FIELD + 7, INT));
    trial.define(1, &draft(2).field(99, INT));
    trial.define(1, &draft(2));
    trial.start(0, 1, LINE[2], MAIN, 0);
    trial.run(100);
    trial
}

/// Every list here.
pub fn hidden() -> Vec<Trial> {
    let mut all = lines();
    all.extend([two_insurers(), held(), ties(), in_one_file(), seventeen()]);
    all
}
