//! Short call lists about sweep: what holds an object, what lets it go, which numbers come next.

use super::build::{Code, Draft};
use super::Trial;
use crate::store::INT;

const MAIN: u16 = 20;
/// A method that gives its argument back.
const BACK: u16 = 21;
/// A class with two fields of itself, one below it with a third, and one below that.
pub const NODE: u16 = 10;
pub const LOWER: u16 = 11;
pub const LOWEST: u16 = 12;
pub const FIELDS: [u16; 2] = [30, 31];
pub const OWN: u16 = 32;

/// A quote of class 10 with this code, which has not run yet.
fn quoting(code: Code) -> Trial {
    let mut trial = Trial::ready([1]);
    let back = Code::new().aload(1).areturn();
    let node = Draft::new(NODE).field(FIELDS[0], NODE).field(FIELDS[1], NODE).main(MAIN, &code.end(INT)).method(BACK, NODE, NODE, &back);
    trial.define(1, &node);
    trial.define(1, &Draft::new(LOWER).under(NODE).field(OWN, NODE));
    trial.start(0, 1, NODE, MAIN, 0);
    trial
}

/// Runs so many steps and sweeps, again and again.
fn swept_after(mut trial: Trial, steps: &[u16]) -> Trial {
    for &n in steps {
        trial.run(n);
        trial.sweep();
    }
    trial
}

/// Puts a new object before the chain in a local: its first field holds what the local held.
pub fn prepend(code: Code, local: u8) -> Code {
    code.object(NODE).dup().aload(local).putfield(NODE, FIELDS[0], NODE).astore(local)
}

/// An object in a local, which is then overwritten. It frees 0, 1, 0.
pub fn held_by_a_local() -> Trial {
    swept_after(quoting(Code::new().object(NODE).astore(2).null().astore(2)), &[2, 2, 1])
}

/// An object on the operand stack, which is then taken off. It frees 0, 1.
pub fn held_by_an_operand() -> Trial {
    swept_after(quoting(Code::new().object(NODE).pop()), &[1, 1])
}

/// One object in an operand and one in a local of a frame that waits. It frees 0 in the call, then 1 and 1.
pub fn held_by_a_waiting_frame() -> Trial {
    let code = Code::new().object(NODE).object(NODE).astore(2).aload(0).null().invoke(NODE, BACK, NODE, NODE);
    swept_after(quoting(code.pop().pop().null().astore(2)), &[6, 4, 2])
}

/// The report waits while the quote runs. It frees 1 that was there before, then 0, then the report's 2; the next report takes the lower
/// of their numbers.
pub fn held_by_the_report() -> Trial {
    let mut trial = quoting(Code::new().object(NODE).astore(2).object(NODE).pop());
    trial.drop_task(0);
    trial.sweep();
    trial.start(1, 1, NODE, MAIN, 0);
    trial.run(2);
    trial.start(0, 1, NODE, MAIN, 0);
    let mut trial = swept_after(trial, &[2]);
    trial.drop_task(1);
    trial.sweep();
    trial.start(1, 1, NODE, MAIN, 0);
    trial
}

/// A chain of six in a local, cut in the middle by a field that is overwritten, then let go. It frees 0, 3, 3.
pub fn held_by_fields() -> Trial {
    let chain = (0..6).fold(Code::new().null().astore(2), |code, _| prepend(code, 2));
    let third = chain.aload(2).getfield(NODE, FIELDS[0], NODE).getfield(NODE, FIELDS[0], NODE);
    let cut = third.null().putfield(NODE, FIELDS[0], NODE);
    swept_after(quoting(cut.null().astore(2)), &[2 + 6 * 5, 5, 2])
}

/// An object of the lower class, whose inherited fields and own field hold one each. It frees 0, then one for each that is overwritten.
pub fn held_by_inherited_fields() -> Trial {
    let fields = [(NODE, FIELDS[0]), (NODE, FIELDS[1]), (LOWER, OWN)];
    let link = |code: Code, (class, field): (u16, u16)| code.aload(2).object(NODE).putfield(class, field, NODE);
    let unlink = |code: Code, (class, field): (u16, u16)| code.aload(2).null().putfield(class, field, NODE);
    let linked = fields.into_iter().fold(Code::new().object(LOWER).astore(2), link);
    swept_after(quoting(fields.into_iter().fold(linked, unlink)), &[11, 3, 3, 3])
}

/// One chain of 255 that only the top of 32 frames holds, in a full store; then the task is dropped. It frees 0, 256.
pub fn a_deep_chain() -> Trial {
    const DEEP: u16 = 22;
    let call = |code: Code, chain: u8| code.aload(0).aload(chain).null().astore(chain).invoke(NODE, DEEP, NODE, NODE);
    let mut trial = Trial::ready([1]);
    let main = call(Code::new().null().astore(2), 2).pop().end(INT);
    let deep = call((0..9).fold(Code::new(), |code, _| prepend(code, 1)), 1).areturn();
    trial.define(1, &Draft::new(NODE).field(FIELDS[0], NODE).main(MAIN, &main).method(DEEP, NODE, NODE, &deep));
    trial.start(0, 1, NODE, MAIN, 0);
    trial.run(5_000);
    trial.sweep();
    trial.drop_task(0);
    trial.sweep();
    trial
}

/// Two objects that hold each other, and one that holds itself, in locals; then one of the two is let go, and the others. It frees 0, 0, 3.
pub fn cycles() -> Trial {
    let made = [2, 3, 4].into_iter().fold(Code::new(), |code, local| code.object(NODE).astore(local));
    let link = |code: Code, (from, to): (u8, u8)| code.aload(from).aload(to).putfield(NODE, FIELDS[1], NODE);
    let linked = [(2, 3), (3, 2), (4, 4)].into_iter().fold(made, link);
    let forget = |code: Code, local: u8| code.null().astore(local);
    swept_after(quoting([2, 3, 4].into_iter().fold(linked, forget)), &[15, 2, 4])
}

/// Five objects, of which the second and fourth are let go. It frees 2; the next three objects take their numbers and the next.
pub fn lowest_numbers() -> Trial {
    let made = (2..7).fold(Code::new(), |code, local| code.object(NODE).astore(local));
    let less = made.null().astore(3).null().astore(5);
    let more = less.object(LOWER).object(LOWER).object(LOWER).putfield(NODE, FIELDS[0], NODE).pop();
    let mut trial = swept_after(quoting(more), &[14]);
    trial.run(3);
    trial
}

/// A sweep on a store without objects, and two in a row. It frees 0, then 1, then 0.
pub fn twice() -> Trial {
    let mut trial = Trial::booted();
    trial.sweep();
    trial.record(1, 2, 0);
    trial.define(1, &Draft::new(NODE).main(MAIN, &Code::new().iload(1).ireturn()));
    trial.start(0, 1, NODE, MAIN, 7);
    trial.run(9);
    trial.sweep();
    trial.sweep();
    trial
}

/// Every list here.
pub fn swept() -> Vec<Trial> {
    vec![
        held_by_a_local(), held_by_an_operand(), held_by_a_waiting_frame(), held_by_the_report(), held_by_fields(),
        held_by_inherited_fields(), a_deep_chain(), cycles(), lowest_numbers(), twice(),
    ]
}
