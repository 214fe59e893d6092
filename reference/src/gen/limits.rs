//! Call lists from a boot that reach a limit. The last call of each is refused 10; all before it are accepted.

use super::build::{Code, Draft};
use super::files::of_length;
use super::rng::Rng;
use super::{Call, Trial};
use crate::store::INT;

pub type Limit = (&'static str, fn(&mut Rng) -> Trial);

pub const LIMITS: [Limit; 18] = [
    ("define: classes", classes),
    ("define: kept bytes", kept_bytes),
    ("define: cache entries", cache_by_define),
    ("define: ties", ties_by_define),
    ("define: subtype constraints", subtypes),
    ("define: subtype constraints of one file", subtypes_at_once),
    ("define: fields", |rng| fields(rng, |name| 100 * name)),
    ("define: fields of a few names", |rng| fields(rng, |_| 98)),
    ("record: cache entries", cache_by_record),
    ("start: objects", objects_by_start),
    ("step: objects", objects_by_new),
    ("start: objects, after a sweep", objects_swept_by_start),
    ("step: objects, after a sweep", objects_swept_by_new),
    ("step: frames", frames),
    ("step: a tie", tie_by_field),
    ("step: two ties with room for one", ties_by_invoke),
    ("step: five ties with room for four", five_by_invoke),
    ("define: five ties with room for two", five_by_define),
];

const MAIN: u16 = 20;

fn classes(rng: &mut Rng) -> Trial {
    let mut trial = Trial::ready(1..16);
    for i in 0..64 {
        let loader = rng.below(16) as u16;
        trial.define(loader, &Draft::new(10 + i));
    }
    trial
}

fn kept_bytes(rng: &mut Rng) -> Trial {
    let mut trial = Trial::booted();
    let part = rng.within(100, 4_000);
    let lengths = [4_096, 4_096, 4_096, part, 4_096 - part];
    for (i, length) in lengths.into_iter().enumerate() {
        trial.call(Call::Define { loader: 0, file: of_length(10 + i as u16, length) });
    }
    trial.define(0, &Draft::new(20));
    trial
}

/// 256 cache entries: 16 names under 16 loaders.
fn full_cache(rng: &mut Rng) -> Trial {
    let mut trial = Trial::ready(1..16);
    for i in 0..15 {
        let owner = rng.below(16) as u16;
        trial.define(owner, &Draft::new(10 + i));
        for loader in (0..16).filter(|&loader| loader != owner) {
            trial.record(loader, 10 + i, i + 1);
        }
    }
    trial
}

fn cache_by_define(rng: &mut Rng) -> Trial {
    let mut trial = full_cache(rng);
    // A record of what is there is accepted, though the cache is full.
    trial.record(rng.below(16) as u16, 10, 1);
    trial.define(rng.below(16) as u16, &Draft::new(40));
    trial
}

fn cache_by_record(rng: &mut Rng) -> Trial {
    let mut trial = Trial::ready(1..16);
    for i in 0..15 {
        trial.define(rng.below(16) as u16, &Draft::new(10 + i));
    }
    trial.define(0, &Draft::new(40));
    for i in 0..15 {
        for loader in 0..16 {
            if trial.store.counts[2] < 256 && trial.store.cached(loader, 10 + i).is_none() {
                trial.record(loader, 10 + i, i + 1);
            }
        }
    }
    trial.record(9, 40, 16);
    trial
}

/// A class with eight methods on 16 types of its own.
fn typed(name: u16, first_type: u16) -> Draft {
    let end = |result| Code::new().end(result);
    (0..8).fold(Draft::new(name), |draft, i| {
        let (argument, result) = (first_type + 2 * i, first_type + 2 * i + 1);
        draft.method(50 + i, argument, result, &end(result))
    })
}

/// Posts ties by overriding, 16 a class, up to 256 but for `less`.
fn many_ties(less: usize) -> Trial {
    let mut trial = Trial::ready(1..16);
    trial.define(0, &typed(10, 100));
    trial.define(0, &typed(11, 200));
    for loader in 1..16 {
        trial.record(loader, 10, 1);
        trial.define(loader, &typed(12, 100).under(10));
    }
    let mut last = typed(13, 200).under(11);
    while last.methods.len() * 2 > 16 - less {
        last.methods.pop();
    }
    trial.record(1, 11, 2);
    trial.define(1, &last);
    trial
}

fn ties_by_define(_: &mut Rng) -> Trial {
    let mut trial = many_ties(0);
    trial.record(2, 11, 2);
    // Ties that are there are not added again.
    trial.define(2, &typed(14, 100).under(10));
    trial.define(2, &typed(15, 200).under(11));
    trial
}

/// Code that notes 'low + i below high' for each i, 11 bytes a note.
fn noting(low: u16, high: u16, count: u16) -> Code {
    let code = (0..count).fold(Code::new(), |code, i| code.object(low + i).getfield(high, 30, INT).pop());
    code.end(INT)
}

fn subtypes(rng: &mut Rng) -> Trial {
    let mut trial = Trial::ready([1]);
    let mut left = 256;
    let mut name = 10;
    while left > 0 {
        let count = (rng.within(1, 45) as u16).min(left);
        trial.define(1, &Draft::new(name).main(MAIN, &noting(1_000 * (name - 8), 99, count)));
        left -= count;
        name += 1;
    }
    trial.define(1, &Draft::new(name).main(MAIN, &noting(2_000, 99, 1)));
    trial.define(1, &Draft::new(name + 1).main(MAIN, &noting(500, 99, 1)));
    trial
}

fn subtypes_at_once(_: &mut Rng) -> Trial {
    let mut trial = Trial::ready([1]);
    let many = |count: u16| (0..6).fold(Draft::new(10), |draft, i| draft.main(MAIN + i, &noting(1_000, 60 + i, count)));
    trial.define(1, &many(43));
    trial
}

/// Classes below each other with 16 fields in all, then one more; the first name of each class's is given.
fn fields(rng: &mut Rng, first: fn(u16) -> u16) -> Trial {
    let mut trial = Trial::ready([3]);
    let mut left = 16;
    let mut name = 10;
    while left > 0 {
        let count = (rng.within(1, 8) as u16).min(left);
        let draft = (0..count).fold(Draft::new(name), |draft, i| draft.field(first(name) + i, INT + (i & 1)));
        trial.define(3, &draft.under(if name == 10 { 2 } else { name - 1 }));
        left -= count;
        name += 1;
    }
    trial.define(3, &Draft::new(name).under(name - 1));
    trial.define(3, &Draft::new(name + 1).under(name).field(99, INT));
    trial
}

/// So many starts of one of the tasks, each dropped.
fn start_and_drop(rng: &mut Rng, trial: &mut Trial, tasks: &[u16], times: usize) {
    for _ in 0..times {
        let task = rng.pick(tasks);
        trial.start(task, 1, 10, MAIN, times as i32);
        trial.drop_task(task);
    }
}

fn starting() -> Trial {
    let mut trial = Trial::ready([1]);
    trial.define(1, &Draft::new(10).field(30, INT).field(31, 10).main(MAIN, &Code::new().iload(1).ireturn()));
    trial
}

fn objects_by_start(rng: &mut Rng) -> Trial {
    let mut trial = starting();
    start_and_drop(rng, &mut trial, &[0, 1], 256);
    trial.start(rng.below(2) as u16, 1, 10, MAIN, 0);
    trial
}

/// All rows have been used, and all but one are free; 255 more starts fill them.
fn objects_swept_by_start(rng: &mut Rng) -> Trial {
    let (mut trial, kept) = (starting(), rng.below(256));
    start_and_drop(rng, &mut trial, &[0, 1], kept);
    trial.start(1, 1, 10, MAIN, 0);
    start_and_drop(rng, &mut trial, &[0], 255 - kept);
    trial.sweep();
    start_and_drop(rng, &mut trial, &[0], 255);
    trial.start(0, 1, 10, MAIN, 0);
    trial
}

/// 64 objects a run and one for the start, four times.
fn making() -> Trial {
    let mut trial = Trial::ready([1]);
    let code = (0..64).fold(Code::new(), |code, _| code.object(10).pop());
    trial.define(1, &Draft::new(10).field(30, 10).main(MAIN, &code.end(INT)));
    make_until_full(&mut trial);
    trial
}

fn make_until_full(trial: &mut Trial) {
    for _ in 0..4 {
        trial.start(0, 1, 10, MAIN, 0);
        trial.run(500);
    }
}

fn objects_by_new(_: &mut Rng) -> Trial {
    let mut trial = making();
    trial.step();
    trial
}

/// The quote that had no room goes on after a sweep, which leaves its own object alone, and then the rows are filled again.
fn objects_swept_by_new(_: &mut Rng) -> Trial {
    let mut trial = making();
    trial.sweep();
    trial.run(500);
    make_until_full(&mut trial);
    trial.step();
    trial
}

fn frames(rng: &mut Rng) -> Trial {
    let mut trial = Trial::ready([1]);
    let code = Code::new().aload(0).iload(1).int(1).iadd().invoke(10, MAIN, INT, INT).ireturn();
    trial.define(1, &Draft::new(10).main(MAIN, &code));
    trial.start(rng.below(2) as u16, 1, 10, MAIN, 0);
    trial.run(1_000);
    trial.step();
    trial
}

/// Loader 1's class 30 has a field and a method; loader 2's class 31 uses them by `code`.
fn use_across(trial: &mut Trial, code: &Code) {
    let end = Code::new().end(901);
    trial.define(1, &Draft::new(30).field(60, 900).field(61, INT).method(62, 901, 902, &end));
    let number = trial.store.counts[0] - 1;
    trial.record(2, 30, number);
    trial.define(2, &Draft::new(31).main(MAIN, code));
    trial.start(0, 2, 31, MAIN, 0);
}

fn tie_by_field(_: &mut Rng) -> Trial {
    let mut trial = many_ties(0);
    let reader = Code::new().object(30).getfield(30, 61, INT).pop().object(30).getfield(30, 60, 900).pop();
    use_across(&mut trial, &reader.end(INT));
    trial.run(4);
    trial.step();
    trial
}

fn ties_by_invoke(_: &mut Rng) -> Trial {
    let mut trial = many_ties(2);
    let code = Code::new().object(30).getfield(30, 60, 900).pop().object(30).null().invoke(30, 62, 901, 902);
    use_across(&mut trial, &code.pop().end(INT));
    trial.run(5);
    trial.step();
    trial
}

/// 252 ties, and then loader 1's class 30 with methods of four arguments and a result: five types, or two that repeat.
fn room_for_four() -> Trial {
    let mut trial = many_ties(4);
    let end = Code::listed().end(904);
    let thirty = Draft::listed(30).method_of(62, &[900, 901, 902, 903], 904, &end).method_of(63, &[901, 902, 901, 902], 901, &end);
    trial.define(1, &thirty);
    let number = trial.store.counts[0] - 1;
    trial.record(2, 30, number);
    trial.record(3, 30, number);
    trial
}

fn five_by_invoke(_: &mut Rng) -> Trial {
    let mut trial = room_for_four();
    let nulls = Code::listed().object(30).null().null().null().null();
    let code = nulls.call(30, 62, &[900, 901, 902, 903], 904);
    trial.define(2, &Draft::listed(31).main(MAIN, &code.pop().end(INT)));
    trial.start(0, 2, 31, MAIN, 0);
    trial.run(5);
    trial.step();
    trial
}

fn five_by_define(_: &mut Rng) -> Trial {
    let mut trial = room_for_four();
    let end = Code::listed().end(904);
    trial.define(2, &Draft::listed(31).under(30).method_of(63, &[901, 902, 901, 902], 901, &end));
    // two of the four are left, and five would be needed
    trial.define(3, &Draft::listed(31).under(30).method_of(62, &[900, 901, 902, 903], 904, &end));
    trial
}
