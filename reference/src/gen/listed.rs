//! Short call lists about methods with 0 to 4 arguments: calls between versions, searches by whole lists, ties on each argument.

use super::build::{Code, Draft};
use super::cases::{ready, MAIN};
use super::Trial;
use crate::store::INT;

fn c() -> Code {
    Code::listed()
}

/// Starts a quote in loader's class and runs it.
fn quote(trial: &mut Trial, loader: u16, class: u16, int: i32) {
    trial.start(0, loader, class, MAIN, int);
    trial.run(100);
    trial.drop_task(0);
}

/// Digits of the locals 1 to n, the first of them the highest.
fn digits(count: u8) -> Code {
    (1..=count).fold(c().int(0), |code, local| code.int(10).imul().iload(local).iadd()).ireturn()
}

/// Gives as many ints as the list has, from 1 on, to method 21 of the object in local 0.
fn counting(class: u16, count: usize) -> Code {
    let code = (1..=count as i16).fold(c().aload(0), |code, int| code.int(int));
    code.call(class, 21, &[INT; 4][..count], INT).ireturn()
}

/// A method of each number of ints, each of which tells them as digits.
fn counted(name: u16) -> Draft {
    (0..=4).fold(Draft::listed(name), |draft, count| draft.method_of(21, &[INT; 4][..count], INT, &digits(count as u8)))
}

/// Calls with 0 to 4 arguments.
pub fn numbers() -> Trial {
    let mut trial = ready();
    for count in 0..=4 {
        trial.define(1, &counted(10 + count as u16).main(MAIN, &counting(10 + count as u16, count)));
        quote(&mut trial, 1, 10 + count as u16, 9);
    }
    trial
}

/// Callers of versions 1, 2 and 3 of one-argument methods of each version; a list of another length isn't found.
pub fn versions() -> Trial {
    let mut trial = ready();
    let back = Code::new().iload(1).ireturn();
    for version in 1..=3 {
        let callee = Draft { version, ..Draft::new(10 + u16::from(version)) };
        let other = c().int(5).ireturn();
        let callee = callee.main(21, &back);
        trial.define(1, &if version == 3 { callee.method_of(21, &[], INT, &other) } else { callee });
    }
    for version in 1..=3 {
        for class in 11..14 {
            let code = Code::of_version(version).object(class).iload(1).invoke(class, 21, INT, INT).ireturn();
            let name = 20 + 10 * u16::from(version) + class;
            trial.define(1, &Draft { version, ..Draft::new(name) }.main(MAIN, &code));
            quote(&mut trial, 1, name, i32::from(name));
        }
    }
    let code = c().object(11).iload(1).iload(1).call(11, 21, &[INT, INT], INT).ireturn();
    trial.define(1, &Draft::listed(80).main(MAIN, &code));
    quote(&mut trial, 1, 80, 1);
    trial
}

/// A class below overrides the method with two ints alone: the others are those of the class above.
pub fn selection() -> Trial {
    let mut trial = ready();
    trial.define(1, &counted(10));
    let own = c().iload(2).iload(1).isub().ireturn();
    let below = (0..=4).fold(Draft::listed(11).under(10).method_of(21, &[INT, INT], INT, &own), |draft, count| {
        draft.main(MAIN + 10 + count as u16, &counting(10, count))
    });
    trial.define(1, &below);
    for method in MAIN + 10..MAIN + 15 {
        trial.start(0, 1, 11, method, 0);
        trial.run(100);
        trial.drop_task(0);
    }
    trial
}

/// start takes the method with one int, whatever stands before it, and finds none where there are only others.
pub fn starts() -> Trial {
    let mut trial = ready();
    let give = |int: i16| c().int(int).ireturn();
    let others = |name: u16| Draft::listed(name).method_of(MAIN, &[], INT, &give(0)).method_of(MAIN, &[INT, INT], INT, &give(2));
    trial.define(1, &others(10).main(MAIN, &give(1)));
    quote(&mut trial, 1, 10, 9);
    trial.define(1, &others(11).method_of(MAIN, &[11], INT, &give(3)).method_of(MAIN, &[INT], 11, &c().null().areturn()));
    trial.start(0, 1, 11, MAIN, 9);
    trial.define(1, &others(12).under(10));
    quote(&mut trial, 1, 12, 9);
    trial
}

/// The list of types that overrides and calls across loaders are tied on, and the result.
const TYPES: [u16; 4] = [12, 13, 14, 15];
const RESULT: u16 = 16;

fn shared(name: u16, types: &[u16], result: u16) -> Draft {
    Draft::listed(name).method_of(21, types, result, &c().end(result))
}

/// Loaders 1 and 2 may have a class of their own of this name.
fn ready_apart(apart: Option<u16>) -> Trial {
    let mut trial = ready();
    if let Some(name) = apart {
        trial.define(1, &Draft::new(name));
        trial.define(2, &Draft::new(name));
    }
    trial
}

/// Loader 2 overrides loader 1's method with four arguments. With a number, both have a class of their own of that type.
pub fn overriding(apart: Option<u16>) -> Trial {
    let mut trial = ready_apart(apart);
    let first = trial.store.counts[0];
    trial.define(1, &shared(10, &TYPES, RESULT));
    trial.record(2, 10, first);
    trial.define(2, &shared(11, &TYPES, RESULT).under(10));
    // alike but for the order, the length or the result: these override nothing
    let [a, b, d, e] = TYPES;
    trial.define(2, &shared(17, &[b, a, d, e], RESULT).under(10));
    trial.define(2, &shared(18, &TYPES[..3], RESULT).under(10));
    trial.define(2, &shared(19, &TYPES, a).under(10));
    trial
}

/// Loader 2 calls loader 1's method with four arguments; the types may have repeats, and one of them two classes.
pub fn calling(types: &[u16], result: u16, apart: Option<u16>) -> Trial {
    let mut trial = ready_apart(apart);
    let first = trial.store.counts[0];
    trial.define(1, &shared(10, types, result));
    trial.record(2, 10, first);
    let code = types.iter().fold(c().object(10), |code, &of| if of == INT { code.int(3) } else { code.null() });
    trial.define(2, &Draft::listed(11).main(MAIN, &code.call(10, 21, types, result).pop().iload(1).ireturn()));
    quote(&mut trial, 2, 11, 4);
    trial.sweep();
    trial
}

/// Arguments of several kinds are locals 1 to 4, and the rest are unset.
pub fn locals() -> Trial {
    let mut trial = ready();
    let types = [INT, 10, INT, 10];
    let called = c().aload(2).iload(1).putfield(10, 30, INT).aload(4).iload(3).putfield(10, 30, INT);
    let called = called.aload(2).getfield(10, 30, INT).int(100).imul().aload(4).getfield(10, 30, INT).iadd().ireturn();
    let main = c().aload(0).int(3).object(10).iload(1).aload(0).call(10, 21, &types, INT).ireturn();
    trial.define(1, &Draft::listed(10).field(30, INT).main(MAIN, &main).method_of(21, &types, INT, &called));
    quote(&mut trial, 1, 10, 8);
    trial.define(1, &Draft::listed(11).method_of(21, &types, INT, &c().iload(5).ireturn()));
    trial.define(1, &Draft::listed(12).method_of(21, &[], INT, &c().iload(1).ireturn()));
    trial
}

/// A null receiver below four arguments; a loop with a map between the arguments of a call.
pub fn receivers() -> Trial {
    let mut trial = ready();
    let null = c().null().int(1).int(2).int(3).int(4).call(10, 21, &[INT; 4], INT).ireturn();
    trial.define(1, &counted(10).main(MAIN, &null));
    quote(&mut trial, 1, 10, 1);
    let code = c().aload(0).int(1).iload(1).ifeq(1).int(2).goto(2).point(1, &[11, INT], &[11, INT]).int(3);
    let code = code.point(2, &[11, INT], &[10, INT, INT]).call(10, 21, &[INT, INT], INT).ireturn();
    trial.define(1, &Draft::listed(11).under(10).main(MAIN, &code));
    quote(&mut trial, 1, 11, 0);
    quote(&mut trial, 1, 11, 1);
    trial
}

/// All of them.
pub fn listed() -> Vec<Trial> {
    let mut all = vec![numbers(), versions(), selection(), starts(), locals(), receivers(), overriding(None)];
    for name in TYPES.into_iter().chain([RESULT]) {
        all.push(overriding(Some(name)));
        all.push(calling(&TYPES, RESULT, Some(name)));
    }
    all.extend([
        calling(&TYPES, RESULT, None), calling(&[], RESULT, None), calling(&[], INT, None), calling(&[12, 12, 13, 12], 13, None),
        calling(&[INT, 12, INT, 13], INT, None), calling(&[13, 12], 13, Some(12)),
    ]);
    all
}
