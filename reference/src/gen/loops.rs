//! Short call lists about choices and loops, each with a purpose.

use super::build::{Code, Draft, MapDraft};
use super::cases::{ready, subtype, tie, MAIN};
use super::mapped::countdown;
use super::{Call, Trial};
use crate::code::op;
use crate::file::MOST_CODE;
use crate::store::INT;

const AGAIN: u16 = 1;
const DONE: u16 = 2;

fn c() -> Code {
    Code::new()
}

/// Loader 1's class 10 of version 2 with this method, and a quote of it for each int, run to its end or for so many steps.
fn quotes(code: &Code, ints: &[i32], steps: u16) -> Trial {
    let mut trial = ready();
    trial.define(1, &Draft::mapped(10).field(30, INT).main(MAIN, code));
    for &int in ints {
        trial.start(0, 1, 10, MAIN, int);
        trial.run(steps);
        trial.drop_task(0);
    }
    trial
}

/// A loop that counts down, and finishes with the sum of 1 to its argument.
pub fn sums() -> Trial {
    quotes(&countdown(), &[1, 2, 3, 100], 65_535)
}

/// A loop around a loop: the outer counter stays below the inner one.
pub fn nested() -> Trial {
    let own: &[u16] = &[10, INT, INT, INT];
    let code = c().int(0).istore(2).iload(1).istore(3).point(AGAIN, own, &[]).iload(1).istore(4);
    let inner = code.point(3, &[10, INT, INT, INT, INT], &[]).iload(2).int(1).iadd().istore(2).iload(4).int(1).isub().dup().istore(4);
    let outer = inner.ifeq(DONE).goto(3).point(DONE, own, &[]).iload(3).int(1).isub().dup().istore(3);
    quotes(&outer.ifeq(4).goto(AGAIN).point(4, own, &[]).iload(2).ireturn(), &[1, 2, 5], 65_535)
}

/// 1 if the int is 0, else 2; something stays below the operand that ifeq takes.
pub fn zero_or_not() -> Trial {
    let code = c().int(1).iload(1).ifeq(DONE).int(1).iadd().point(DONE, &[], &[INT]).ireturn();
    quotes(&code, &[0, 1, -1, i32::MIN, 65_536], 100)
}

/// 1 if the int is less than another, else 0: by sign, and with the lower operand first.
pub fn less_than() -> Trial {
    let mut trial = ready();
    let less = |code: Code| code.if_icmplt(DONE).end(INT).point(DONE, &[], &[]).int(1).ireturn();
    trial.define(1, &Draft::mapped(10).main(MAIN, &less(c().iload(1).int(5))).main(21, &less(c().int(-5).iload(1))));
    for int in [4, 5, 6, -4, -5, -6, 0, -1, i32::MIN, i32::MAX] {
        for method in [MAIN, 21] {
            trial.start(0, 1, 10, method, int);
            trial.run(100);
        }
    }
    trial
}

/// Offsets count from the start of the code: a jump back to the first instruction, and one that stands far behind.
pub fn from_the_start() -> Trial {
    let code = c().point(AGAIN, &[10, INT], &[]).iload(1).ifeq(DONE).iload(1).int(1).isub().istore(1);
    let mut code = (0..40).fold(code, |code, _| code.null().pop());
    code = code.goto(AGAIN).point(DONE, &[10, INT], &[]).iload(1).ireturn();
    quotes(&code, &[0, 1, 2], 65_535)
}

/// A goto to itself runs until n: only a drop ends it, and a sweep between leaves what it holds.
pub fn spinning() -> Trial {
    let code = c().object(10).astore(2).point(AGAIN, &[], &[]).goto(AGAIN);
    let mut trial = quotes(&code, &[0], 3);
    trial.start(0, 1, 10, MAIN, 0);
    trial.start(1, 1, 10, MAIN, 0);
    for n in [1, 2, 1_000, 65_535] {
        trial.run(n);
        trial.step();
        trial.sweep();
    }
    trial.drop_task(0);
    trial.run(1_000);
    trial.drop_task(1);
    trial.sweep();
    trial
}

/// A local that a map makes unset keeps what it holds, so its object isn't freed; behind the join it can be set again.
pub fn unset_at_a_join() -> Trial {
    let code = c().object(10).astore(2).iload(1).ifeq(DONE).int(7).istore(2);
    let code = code.point(DONE, &[10, INT], &[]).null().pop().object(10).astore(2).aload(2).getfield(10, 30, INT).ireturn();
    let mut trial = ready();
    trial.define(1, &Draft::mapped(10).field(30, INT).main(MAIN, &code));
    for int in [0, 1] {
        trial.start(0, 1, 10, MAIN, int);
        for _ in 0..14 {
            trial.step();
            trial.sweep();
        }
        trial.drop_task(0);
    }
    trial
}

/// A frame that waits before a mapped point: its operands are the map's without the top one, and a local is unset there.
pub fn waiting() -> Trial {
    let called = c().object(10).pop().iload(1).ireturn();
    let code = c().object(10).astore(2).int(3).aload(0).iload(1).invoke(10, 21, INT, INT).map(&[2, INT], &[INT, INT]).iadd();
    let code = code.iload(1).ifeq(DONE).point(DONE, &[2], &[INT]).ireturn();
    let mut trial = ready();
    trial.define(1, &Draft::mapped(10).main(MAIN, &code).main(21, &called));
    trial.start(0, 1, 10, MAIN, 4);
    for _ in 0..14 {
        trial.step();
        trial.sweep();
    }
    trial
}

/// Loader 1's class 10 joins a new 11 and a new 12 in a local of type 13, at which 11 and 12 come to stand below 13.
pub fn joining() -> Draft {
    let code = c().iload(1).ifeq(DONE).object(11).astore(2).goto(AGAIN);
    let code = code.point(DONE, &[10, INT], &[]).object(12).astore(2).point(AGAIN, &[10, INT, 13], &[]);
    Draft::mapped(10).main(MAIN, &code.aload(2).getfield(13, 30, INT).ireturn())
}

/// A join by a requirement, accepted; 13 comes later and has both below it, or only one, or loads last and clashes.
pub fn joined(order: &[u16], below: &[u16]) -> Trial {
    let mut trial = ready();
    trial.define(1, &joining());
    for &name in order {
        let draft = if name == 13 { Draft::new(13).field(30, INT) } else { Draft::new(name) };
        trial.define(1, &if below.contains(&name) { draft.under(13) } else { draft });
    }
    for int in [0, 1] {
        trial.start(0, 1, 10, MAIN, int);
        trial.run(100);
        trial.drop_task(0);
    }
    trial
}

/// The order of notes: those from entry, then point by point its own, its target's, the next point's; locals, then operands.
pub fn noted() -> Draft {
    let code = c().map(&[40, 41, 0], &[]).object(11).astore(2).object(12).object(13).aload(0).null().putfield(42, 30, 15);
    let code = code.map(&[43, 0, 44], &[45, 46]).iload_from(43).ifeq(DONE).map(&[47, 0, 48], &[49, 50]).goto(AGAIN);
    let code = code.point(DONE, &[51, 0, 52], &[53, 54]).goto(DONE).point(AGAIN, &[55, 0, 56], &[57, 58]).areturn();
    Draft::mapped(10).method(MAIN, 14, 59, &code).method(21, 14, 59, &c().map(&[60], &[]).aload(0).areturn())
}

impl Code {
    /// An int by way of a field, since the argument is a reference.
    fn iload_from(self, class: u16) -> Code {
        self.aload(0).getfield(class, 31, INT)
    }
}

/// A define whose notes pass the limit is full only after taken and wanted.
pub fn many_notes() -> Trial {
    let mut trial = ready();
    trial.define(1, &Draft::new(9).field(30, INT));
    trial.define(1, &Draft::new(10));
    for draft in [flooding(10, 2), flooding(11, 77), flooding(11, 9).field(30, INT)] {
        trial.define(1, &draft);
    }
    // as many as the table has room for, and one more
    let mut trial_of = |name: u16, count: u16| trial.define(1, &requiring(name, count));
    trial_of(12, 200);
    trial_of(13, 257);
    trial_of(14, 256);
    trial
}

/// A class with more different notes than any table has room for: each map has names of its own.
pub fn flooding(name: u16, superclass: u16) -> Draft {
    requiring(name, 400).under(superclass)
}

/// A class with so many different notes, in maps along straight code: each map has the next names for its locals.
pub fn requiring(name: u16, count: u16) -> Draft {
    let mut code = (0..8).fold(c(), |code, local| code.object(100).astore(local));
    let mut locals = [0; 8];
    let tops: Vec<u16> = (0..count).map(|i| 1_000 + i).collect();
    for part in tops.chunks(8) {
        locals[..part.len()].copy_from_slice(part);
        code = code.map(&locals, &[]).null().pop();
    }
    Draft::mapped(name).main(MAIN, &code.end(INT))
}

/// A class with as many notes as fit, 23 of them different: each of its many jumps flows into a map with other names throughout.
pub fn repeating(name: u16) -> Draft {
    let mut code = [0, 2, 3, 4, 5, 6, 7].into_iter().fold(c(), |code, local| code.aload(1).astore(local)).aload(1);
    code = (0..14).fold(code, |code, _| code.dup());
    while code.bytes.len() + 6 + 8 <= MOST_CODE {
        code = code.int(0).ifeq(DONE);
    }
    let operands: Vec<u16> = (30..45).collect();
    let code = code.end(INT).point(DONE, &[20, 21, 22, 23, 24, 25, 26, 27], &operands).end(INT);
    (0..7).fold(Draft::mapped(name), |draft, method| draft.method(MAIN + method, 11, INT, &code))
}

/// Versions side by side: 2 overrides a method of 1 and is called by it, and the other way round, across loaders.
pub fn versions() -> Trial {
    let mut trial = ready();
    let calls = |class: u16| c().object(class).iload(1).invoke(10, 21, INT, INT).ireturn();
    trial.define(1, &Draft::new(10).main(21, &c().iload(1).ireturn()).main(MAIN, &calls(11)));
    let halved = c().iload(1).int(0).if_icmplt(DONE).iload(1).ireturn().point(DONE, &[0, INT], &[]).int(0).iload(1).isub().ireturn();
    trial.define(1, &Draft::mapped(11).under(10).main(21, &halved));
    trial.record(2, 10, 1);
    trial.define(2, &Draft::new(12).under(10).main(21, &c().end(INT)));
    trial.define(2, &Draft::mapped(13).under(12).main(MAIN, &calls(12).map(&[], &[INT]).ireturn()));
    for int in [-5, 5] {
        for (loader, name) in [(1, 10), (2, 13)] {
            trial.start(0, loader, name, MAIN, int);
            trial.run(100);
        }
    }
    trial
}

/// A loop that posts a tie in its first round, at which it is refused, or goes on and posts nothing more.
pub fn ties_in_a_loop() -> Trial {
    let mut trial = ready();
    trial.define(1, &Draft::new(11).field(30, 12));
    trial.record(2, 11, 1);
    let code = c().point(AGAIN, &[10, INT], &[]).object(11).getfield(11, 30, 12).pop().iload(1).ifeq(DONE);
    let code = code.iload(1).int(1).isub().istore(1).goto(AGAIN).point(DONE, &[10, INT], &[]).iload(1).ireturn();
    trial.define(2, &Draft::mapped(10).main(MAIN, &code));
    trial.start(0, 2, 10, MAIN, 3);
    trial.run(100);
    trial.define(1, &Draft::new(12));
    trial.define(2, &Draft::new(12));
    trial
}

/// What the desk and define say of files in turn, with 15 and 6 across methods.
pub fn words() -> Trial {
    let mut trial = ready();
    let unmapped = c().goto(DONE).label(DONE).end(INT);
    let rejected = c().iload(2).ireturn();
    let both = |one: &Code, other: &Code| Draft::mapped(10).main(MAIN, one).main(21, other);
    let bad = Draft::mapped(10).main(MAIN, &unmapped.clone().with_maps(&[MapDraft::new(0, &[], &[0])]));
    for draft in [both(&rejected, &unmapped), both(&unmapped, &rejected), both(&rejected, &c().end(INT)), bad, both(&countdown(), &countdown())] {
        trial.call(Call::Define { loader: 16, file: draft.file() });
        trial.define(1, &draft);
        trial.define(1, &draft);
    }
    trial.define(1, &Draft::new(11).main(MAIN, &c().names(op::GOTO, &[0])));
    trial
}

/// Requirements of a join that clash at once, by a tie and by a class that is there.
pub fn clashing() -> Trial {
    let mut trial = ready();
    tie(&mut trial, 1, 2, 13);
    subtype(&mut trial, 2, 13, 14);
    trial.define(1, &Draft::new(11));
    trial.define(2, &Draft::new(14));
    trial.define(1, &joining());
    trial
}

/// Every list here.
pub fn loops() -> Vec<Trial> {
    let mut all = vec![
        sums(), nested(), zero_or_not(), less_than(), from_the_start(), spinning(), unset_at_a_join(), waiting(), versions(),
        ties_in_a_loop(), words(), clashing(), many_notes(),
        joined(&[], &[]), joined(&[13, 11, 12], &[11, 12]), joined(&[13, 11, 12], &[11]), joined(&[11, 12, 13], &[]),
        joined(&[11, 13], &[]), joined(&[13, 12], &[]), joined(&[13, 12, 11], &[12, 11]),
    ];
    for draft in [noted(), repeating(10), requiring(10, 256), requiring(10, 257)] {
        let mut trial = ready();
        trial.define(1, &draft);
        all.push(trial);
    }
    all
}
