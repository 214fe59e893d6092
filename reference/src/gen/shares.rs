//! Call lists from a boot about the report's share of the objects: reports that make many in runs beside quotes, with sweeps between.

use super::build::{Code, Draft};
use super::rng::Rng;
use super::Trial;
use crate::answer::{word, Answer, Refusal, Reply};
use crate::store::{INT, QUOTE, REPORT, SHARE};

/// The class whose objects are made; a second name that no loader has.
pub const NODE: u16 = 10;
const NOBODY: u16 = 99;
const NEXT: u16 = 30;
/// Makes as many objects as its int says, lets each go, and finishes with 0.
pub const MAKE: u16 = 20;
/// Makes as many, holds them all, and goes round and round.
pub const HOLD: u16 = 21;
/// Makes one, and then one of a class that isn't loaded.
const WANT: u16 = 22;
/// Calls `MAKE`, and then makes one more.
const CALL: u16 = 23;

const AGAIN: u16 = 1;
const DONE: u16 = 2;

const QUOTES: u16 = QUOTE as u16;
const REPORTS: u16 = REPORT as u16;
/// More steps than any of the methods takes before it goes round.
const LONG: u16 = 4_000;

/// A loop that does its part as many times as local 1 says; these are the locals.
fn repeated(code: Code, locals: &[u16], part: impl FnOnce(Code) -> Code) -> Code {
    let code = part(code.point(AGAIN, locals, &[]).iload(1).ifeq(DONE));
    code.iload(1).int(1).isub().istore(1).goto(AGAIN).point(DONE, locals, &[])
}

/// Loader 1 has the class.
fn ready() -> Trial {
    let mut trial = Trial::ready([1]);
    let make = repeated(Code::new(), &[NODE, INT], |code| code.object(NODE).pop()).iload(1).ireturn();
    let link = |code: Code| code.object(NODE).dup().aload(2).putfield(NODE, NEXT, NODE).astore(2);
    let hold = repeated(Code::new().null().astore(2), &[NODE, INT, NODE], link).goto(DONE);
    let want = Code::new().object(NODE).object(NOBODY).pop().pop().end(INT);
    let call = Code::new().aload(0).iload(1).invoke(NODE, MAKE, INT, INT).object(NODE).pop().ireturn();
    let node = Draft::mapped(NODE).field(NEXT, NODE).main(MAKE, &make).main(HOLD, &hold).main(WANT, &want).main(CALL, &call);
    trial.define(1, &node);
    trial
}

/// So many starts of a task, each dropped.
fn start_and_drop(trial: &mut Trial, task: u16, times: usize) {
    for _ in 0..times {
        trial.start(task, 1, NODE, MAKE, 0);
        trial.drop_task(task);
    }
}

/// A task makes so many objects in one run, one of them by its start, and is dropped, unless it has finished.
fn make(trial: &mut Trial, task: u16, objects: usize) {
    trial.start(task, 1, NODE, MAKE, objects as i32 - 1);
    trial.run(LONG);
    trial.drop_task(task);
}

/// Reports start as often as they may, and once more; a quote starts, and after a sweep a report does.
pub fn by_starts() -> Trial {
    let mut trial = ready();
    start_and_drop(&mut trial, REPORTS, SHARE + 1);
    trial.start(QUOTES, 1, NODE, MAKE, 3);
    trial.run(LONG);
    trial.sweep();
    trial.start(REPORTS, 1, NODE, MAKE, 3);
    trial
}

/// One report makes all of its share in one run, and is refused one more, in steps too. A drop gives nothing back, and a quote that is started then has
/// 64 objects and is full. After a sweep the next report makes as many.
pub fn by_news() -> Trial {
    let mut trial = ready();
    trial.start(REPORTS, 1, NODE, MAKE, 500);
    trial.run(LONG);
    trial.step();
    trial.run(3);
    trial.drop_task(REPORTS);
    trial.start(REPORTS, 1, NODE, MAKE, 0);
    trial.start(QUOTES, 1, NODE, MAKE, 63);
    trial.run(LONG);
    trial.start(QUOTES, 1, NODE, MAKE, 0);
    trial.start(REPORTS, 1, NODE, MAKE, 0);
    trial.sweep();
    make(&mut trial, REPORTS, SHARE);
    trial.start(REPORTS, 1, NODE, MAKE, 0);
    trial
}

/// The share is used and the store is full: a report's start, and its new, is told of the share; the quote's new is full.
pub fn used_and_full() -> Trial {
    let mut trial = ready();
    make(&mut trial, REPORTS, SHARE - 1);
    make(&mut trial, QUOTES, 63);
    trial.start(REPORTS, 1, NODE, MAKE, 1);
    trial.start(QUOTES, 1, NODE, MAKE, 1);
    trial.run(LONG);
    trial.drop_task(QUOTES);
    trial.run(LONG);
    trial.drop_task(REPORTS);
    trial.start(REPORTS, 1, NODE, MAKE, 1);
    trial.start(QUOTES, 1, NODE, MAKE, 1);
    trial
}

/// Quotes take what they can get: a report with a share that isn't used is full, and so is a quote. Freed rows that were the quote's are the report's then.
pub fn full_by_quotes() -> Trial {
    let mut trial = ready();
    make(&mut trial, REPORTS, 10);
    make(&mut trial, QUOTES, 245);
    trial.start(REPORTS, 1, NODE, MAKE, 1);
    trial.run(LONG);
    trial.drop_task(REPORTS);
    trial.start(REPORTS, 1, NODE, MAKE, 1);
    trial.start(QUOTES, 1, NODE, MAKE, 1);
    trial.sweep();
    make(&mut trial, REPORTS, SHARE + 1);
    trial
}

/// What a report still holds counts after a sweep; what it held does not.
pub fn held() -> Trial {
    let mut trial = ready();
    trial.start(REPORTS, 1, NODE, HOLD, 99);
    trial.run(2_000);
    trial.sweep();
    trial.drop_task(REPORTS);
    make(&mut trial, REPORTS, 92);
    trial.start(REPORTS, 1, NODE, MAKE, 1);
    trial.sweep();
    make(&mut trial, REPORTS, SHARE);
    trial.start(REPORTS, 1, NODE, HOLD, 1);
    trial
}

/// Rows that were the report's are the quote's when it takes them: then 256 are its own, and the report is full, not at its share.
pub fn taken_by_the_quote() -> Trial {
    let mut trial = ready();
    make(&mut trial, REPORTS, SHARE);
    trial.sweep();
    make(&mut trial, QUOTES, 256);
    trial.start(REPORTS, 1, NODE, MAKE, 0);
    trial.start(QUOTES, 1, NODE, MAKE, 0);
    trial
}

/// 12, 5, 7 and 3 come before 18; a quote and its methods don't care.
pub fn words_before() -> Trial {
    let mut trial = ready();
    make(&mut trial, REPORTS, SHARE - 2);
    trial.start(REPORTS, 1, NODE, WANT, 0);
    trial.start(REPORTS, 1, NODE, MAKE, 0);
    trial.run(9);
    trial.step();
    for (task, loader, name, method) in [(REPORTS, 1, NODE, MAKE), (2, 1, NODE, MAKE), (REPORTS, 16, NODE, MAKE), (REPORTS, 1, NODE, 0)] {
        trial.start(task, loader, name, method, 0);
    }
    trial.drop_task(REPORTS);
    for (task, loader, name, method) in [(REPORTS, 1, NOBODY, MAKE), (REPORTS, 1, NODE, 77), (REPORTS, 1, NODE, WANT), (QUOTES, 1, NODE, WANT)] {
        trial.start(task, loader, name, method, 0);
    }
    trial.run(9);
    trial
}

/// The last object of the share in the last step of a run, in the first of one, and in a step alone; then a call within the report.
pub fn at_the_edge() -> Trial {
    let mut trial = ready();
    for left in [1, 2, 3] {
        make(&mut trial, REPORTS, SHARE - 1 - left);
        trial.start(REPORTS, 1, NODE, MAKE, 9);
        (0..left).for_each(|_| {
            trial.run(2);
            trial.step();
            trial.run(6);
        });
        trial.run(2);
        trial.step();
        trial.drop_task(REPORTS);
        trial.sweep();
    }
    trial.start(REPORTS, 1, NODE, CALL, SHARE as i32 - 1);
    trial.run(LONG);
    trial
}

/// Every list here.
pub fn shares() -> Vec<Trial> {
    vec![by_starts(), by_news(), used_and_full(), full_by_quotes(), held(), taken_by_the_quote(), words_before(), at_the_edge()]
}

/// A random list of so many turns, one to three calls each: tasks that make many objects and hold them or let them go, runs of all lengths, drops, sweeps.
pub fn shared(seed: u64, turns: usize) -> Trial {
    let mut rng = Rng::new(seed ^ 0x73_68_61_72);
    let mut trial = ready();
    for _ in 0..turns {
        turn(&mut rng, &mut trial);
    }
    trial
}

fn turn(rng: &mut Rng, trial: &mut Trial) {
    let is_idle = trial.store.turn().is_none();
    match rng.weighted(&[if is_idle { 12 } else { 4 }, 10, 2, 1, 2, 2]) {
        0 => start(rng, trial),
        1 => run(rng, trial),
        2 => drop(trial.step()),
        3 => drop(trial.sweep()),
        4 => drop(trial.drop_task(rng.below(2) as u16)),
        _ => start_and_drop(trial, rng.pick(&[QUOTES, REPORTS, REPORTS]), rng.within(1, 4)),
    }
}

fn start(rng: &mut Rng, trial: &mut Trial) {
    let task = rng.pick(&[QUOTES, REPORTS, REPORTS]);
    let all = if task == QUOTES { [1, 20, 62, 64, 100] } else { [1, 30, 90, 190, 260] };
    let int = rng.pick(&all) + rng.below(3) as i32;
    trial.start(task, 1, NODE, rng.pick(&[MAKE, MAKE, HOLD, HOLD, CALL, WANT]), int);
}

/// A run; where it has no room it is swept, dropped or left, and the other task may start.
fn run(rng: &mut Rng, trial: &mut Trial) {
    let n = rng.pick(&[1, 5, 40, 300, 1_500, LONG]);
    let Reply::RanFor(_, answer) = trial.run(n) else {
        return;
    };
    let is_used = [word::FULL, word::SHARE_USED].map(|number| Answer::Refused(Refusal::Word(number))).contains(&answer);
    match rng.below(6) {
        0 | 1 if is_used => drop(trial.sweep()),
        2 if is_used => start(rng, trial),
        3 | 4 if answer != Answer::Idle => drop(trial.drop_task(trial.store.turn().unwrap_or(REPORT) as u16)),
        _ => {}
    }
}
