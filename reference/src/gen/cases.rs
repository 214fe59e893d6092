//! Short call lists with a purpose: document 01's cases and chains of constraints.

use super::build::{Code, Draft};
use super::{Call, Trial};
use crate::answer::Reply;
use crate::store::{Store, INT};

pub const MAIN: u16 = 20;

/// Document 01's file F: class 10, method 20 returns its int.
pub fn f() -> Draft {
    Draft::new(10).main(MAIN, &Code::new().iload(1).ireturn())
}

/// Boot, and Object recorded under 1, 2 and 3.
pub fn ready() -> Trial {
    Trial::ready([1, 2, 3])
}

/// Posts a tie on a name between two loaders: `other` overrides a method of `one` with that argument type.
/// Takes the names 1,000 and up; the call must be accepted.
pub fn tie(trial: &mut Trial, one: u16, other: u16, name: u16) {
    let base = 1_000 + 2 * trial.store.counts[0];
    let method = |draft: Draft| draft.method(MAIN, name, INT, &Code::new().end(INT));
    let reply = trial.define(one, &method(Draft::new(base)));
    let Reply::Defined(class) = reply else {
        panic!("no tie: {reply:?}")
    };
    trial.record(other, base, u16::from(class));
    trial.define(other, &method(Draft::new(base + 1)).under(base));
}

/// Posts 'low below high' under a loader by a note. Takes a name of 1,000 and up.
pub fn subtype(trial: &mut Trial, loader: u16, low: u16, high: u16) {
    let name = 1_000 + 2 * trial.store.counts[0];
    let code = Code::new().object(low).getfield(high, 30, INT).ireturn();
    trial.define(loader, &Draft::new(name).main(MAIN, &code));
}

/// Two ties join loaders 1 and 3 by 2, where nothing is loaded; both ends are loaded apart.
pub fn far_ends_of_ties() -> Trial {
    let mut trial = ready();
    tie(&mut trial, 1, 2, 12);
    tie(&mut trial, 2, 3, 12);
    trial.define(1, &Draft::new(12));
    trial.define(3, &Draft::new(12));
    trial
}

/// A subtype constraint and then a tie lead from (1,13) to (2,12).
pub fn subtype_then_tie() -> Trial {
    let mut trial = ready();
    subtype(&mut trial, 1, 13, 12);
    tie(&mut trial, 1, 2, 12);
    trial.define(2, &Draft::new(12));
    trial.define(1, &Draft::new(13));
    trial
}

/// Ties join loader 2's 12 to loader 1's by 3, the row of loader 2 last. Loader 2's own 12 would be below loader 1's, which isn't enough; it is the
/// lower end of the chain that is listed.
pub fn tied_to_a_class_above() -> Trial {
    let mut trial = ready();
    tie(&mut trial, 1, 3, 12);
    tie(&mut trial, 3, 2, 12);
    trial.define(1, &Draft::new(12));
    trial.define(1, &Draft::new(13).under(12));
    trial.record(2, 13, trial.store.counts[0] - 1);
    trial.define(2, &Draft::new(12).under(13));
    trial
}

/// Loader 3's own 12 would clash by two ties and, as shortly, by a subtype constraint and a tie.
pub fn ties_and_a_mixed_chain() -> Trial {
    let mut trial = Trial::ready(1..5);
    trial.define(2, &Draft::new(10));
    trial.record(1, 10, 1);
    trial.define(1, &Draft::new(12).under(10));
    subtype(&mut trial, 3, 12, 10);
    tie(&mut trial, 3, 4, 12);
    tie(&mut trial, 4, 1, 12);
    tie(&mut trial, 3, 2, 10);
    trial.define(3, &Draft::new(12));
    trial
}

/// Loader 3's own 12 would clash by rows 2 and 0 or by rows 1 and 3, upward: the newest row isn't where they first differ.
pub fn two_mixed_chains() -> Trial {
    let mut trial = Trial::ready(1..6);
    trial.define(4, &Draft::new(10));
    trial.define(5, &Draft::new(11));
    tie(&mut trial, 3, 5, 11);
    subtype(&mut trial, 3, 12, 10);
    subtype(&mut trial, 3, 12, 11);
    tie(&mut trial, 3, 4, 10);
    trial.define(3, &Draft::new(12));
    trial
}

/// Loader 1's 40 would clash by two ties, and by its own note that 11 is below 12, which is shorter.
pub fn a_note_of_others() -> Trial {
    let mut trial = ready();
    trial.define(1, &Draft::new(12));
    trial.define(1, &Draft::new(11));
    trial.define(2, &Draft::new(40));
    tie(&mut trial, 1, 3, 40);
    tie(&mut trial, 3, 2, 40);
    trial.define(1, &Draft::new(40).main(MAIN, &Code::new().object(11).getfield(12, 30, INT).ireturn()));
    trial
}

/// Loader 2 uses loader 1's class 11 by `code`: field 30 of class 12, method 21 from 12 to 12.
/// Both loaders may have a 12 of their own.
pub fn across(code: &Code, first: bool, second: bool) -> Trial {
    let mut trial = ready();
    let back = Code::new().aload(1).areturn();
    let eleven = Draft::new(11).field(30, 12).field(31, INT).method(21, 12, 12, &back);
    trial.define(1, &eleven);
    trial.record(2, 11, 1);
    trial.define(2, &Draft::new(10).main(MAIN, code).main(22, &Code::new().iload(1).ireturn()));
    if first {
        trial.define(1, &Draft::new(12));
    }
    if second {
        trial.define(2, &Draft::new(12));
    }
    trial.start(0, 2, 10, MAIN, 7);
    trial
}

/// Reads the field of type 12.
pub fn reader() -> Code {
    Code::new().object(11).getfield(11, 30, 12).pop().iload(1).ireturn()
}

/// Passes a 12 there and back.
pub fn caller() -> Code {
    Code::new().object(11).object(12).invoke(11, 21, 12, 12).pop().iload(1).ireturn()
}

/// The receiver is null.
pub fn null_reader() -> Code {
    Code::new().null().getfield(11, 30, 12).pop().iload(1).ireturn()
}

/// Loaders 1, 2 and 3 each override the method of the one before.
pub fn overriding() -> Trial {
    let mut trial = ready();
    let end = |result: u16| Code::new().end(result);
    let method = |draft: Draft| draft.method(21, 12, 13, &end(13)).method(22, 13, 14, &end(14));
    trial.define(1, &method(Draft::new(10)));
    trial.record(2, 10, 1);
    trial.define(2, &method(Draft::new(11)).under(10));
    trial.record(3, 11, 2);
    trial.define(3, &Draft::new(15).under(11).method(21, 12, 13, &end(13)));
    trial
}

/// Loader 2, with a 12 of its own, overrides a method of loader 1 that takes a 12. Were that accepted, loader 1
/// could hand it a 12 of the other kind, as the calls after it try.
pub fn override_apart() -> Trial {
    let mut trial = ready();
    let method = |draft: Draft| draft.method(21, 12, INT, &Code::new().end(INT));
    trial.define(1, &Draft::new(12));
    trial.define(1, &method(Draft::new(10)));
    trial.define(2, &Draft::new(12));
    trial.record(2, 10, 2);
    trial.define(2, &method(Draft::new(11)).under(10));
    trial.record(1, 11, 4);
    let code = Code::new().object(11).object(12).invoke(10, 21, 12, INT).ireturn();
    trial.define(1, &Draft::new(13).main(MAIN, &code));
    trial.start(0, 1, 13, MAIN, 0);
    trial.run(3);
    trial
}

/// Loader 2 uses loader 1's class 11 with a field and a method of its superclass 10, and has a 10 of its own without them.
pub fn superclass_of_its_own_loader() -> Trial {
    let mut trial = ready();
    let back = Code::new().iload(1).ireturn();
    trial.define(1, &Draft::new(10).field(30, INT).main(21, &back));
    trial.define(2, &Draft::new(10));
    trial.define(1, &Draft::new(11).under(10));
    trial.record(2, 11, 3);
    let code = Code::new().object(11).astore(2).aload(2).aload(2).getfield(11, 30, INT).invoke(11, 21, INT, INT).ireturn();
    trial.define(2, &Draft::new(13).main(MAIN, &code));
    trial.start(0, 2, 13, MAIN, 0);
    trial.run(100);
    trial
}

/// A store with all kinds of rows in use: two loaders, four classes with fields and methods, three objects, frames
/// of both tasks, one of which waits, a tie and a subtype constraint.
pub fn whole() -> Store {
    let mut trial = Trial::ready([1, 2]);
    let call = Code::new().object(11).aload(0).invoke(10, 21, 10, 10).pop().iload(1).ireturn();
    let callee = Code::new().aload(1).getfield(10, 31, 10).areturn();
    let ten = Draft::new(10).field(30, INT).field(31, 10).main(MAIN, &call).method(21, 10, 10, &callee);
    trial.define(1, &ten);
    trial.record(2, 10, 1);
    trial.define(1, &Draft::new(11).under(10).field(32, 11));
    trial.define(2, &Draft::new(11).under(10).method(21, 10, 10, &callee));
    trial.start(0, 1, 10, MAIN, 1);
    trial.start(1, 2, 11, MAIN, 2);
    trial.run(4);
    trial.store
}

/// Numbers whose lowest 16 bits would do: each call is refused.
pub fn wide_numbers() -> Trial {
    let mut trial = ready();
    trial.define(1, &f());
    let file = Draft::new(12).file();
    for call in [
        Call::Define { loader: 0x1_0001, file },
        Call::Record { loader: 0x1_0002, name: 10, class: 1 },
        Call::Record { loader: 2, name: 0x1_000A, class: 1 },
        Call::Record { loader: 2, name: 10, class: 0x1_0001 },
        Call::Start { task: 0x1_0000, loader: 1, name: 10, method: MAIN, int: 7 },
        Call::Start { task: 0, loader: 0x1_0001, name: 10, method: MAIN, int: 7 },
        Call::Run { n: 0x1_0000 },
        Call::Run { n: 0x1_0001 },
        Call::Drop { task: 0x1_0000 },
    ] {
        trial.call(call);
    }
    trial
}

/// Every list here, run to its end.
pub fn cases() -> Vec<Trial> {
    let mut all = vec![
        far_ends_of_ties(), subtype_then_tie(), tied_to_a_class_above(), ties_and_a_mixed_chain(), two_mixed_chains(), a_note_of_others(), overriding(), override_apart(), wide_numbers(), superclass_of_its_own_loader(),
    ];
    for code in [reader(), caller(), null_reader()] {
        for (first, second) in [(false, false), (false, true), (true, false), (true, true)] {
            let mut trial = across(&code, first, second);
            for _ in 0..8 {
                trial.step();
            }
            trial.run(100);
            trial.sweep();
            trial.drop_task(0);
            trial.sweep();
            trial.step();
            all.push(trial);
        }
    }
    all
}
