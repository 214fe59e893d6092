//! The first word that applies, and places of document 01 that were read one way.

use reference::gen::build::{Code, Draft};
use reference::gen::cases::{
    across, caller, f, null_reader, override_apart, overriding, reader, ready, subtype, tie, wide_numbers, MAIN,
};
use reference::gen::{Call, Trial};
use reference::store::{count, Store, INT, LIMITS};
use reference::{Answer, Refusal, Reply};

fn word(number: u8) -> Reply {
    Reply::Denied(Refusal::Word(number))
}

fn refused(number: u8) -> Reply {
    Reply::Stepped(Answer::Refused(Refusal::Word(number)))
}

fn unverified(name: u16) -> Draft {
    Draft::new(name).main(MAIN, &Code::new().ireturn())
}

/// Fills a constraint table with rows that say nothing.
fn fill(store: &mut Store, which: usize) {
    while !store.is_full(which) {
        match which {
            count::CACHE => store.add_cached([15, 60_000 + store.counts[which], 0]),
            count::TIES => store.add_tie([15, 14, 60_000 + store.counts[which]]),
            _ => store.add_subtype([15, 2, 60_000 + store.counts[which]]),
        }
    }
}

#[test]
fn numbers_are_read_whole() {
    let trial = wide_numbers();
    let numbers: Vec<Option<Refusal>> = trial.replies[5..].iter().map(|reply| reply.refusal()).collect();
    assert_eq!(numbers, [3, 3, 13, 3, 3, 3, 3, 3, 3].map(|number| Some(Refusal::Word(number))));
}

#[test]
fn define_order() {
    let mut trial = ready();
    let bad = Call::Define { loader: 16, file: vec![] };
    assert_eq!(trial.call(bad), word(3));
    assert_eq!(trial.define(16, &f()), word(3));
    let mut file = unverified(0).file();
    assert_eq!(trial.call(Call::Define { loader: 1, file: file.clone() }), word(2));
    file[4] = 2;
    assert_eq!(trial.call(Call::Define { loader: 1, file }), word(6), "6 before 4");
    assert_eq!(trial.define(1, &Draft::new(2).under(50)), word(4), "4 before 5");
    assert_eq!(trial.define(1, &Draft::new(50).under(50)), Reply::Denied(Refusal::Wanted(1, 50)));
    assert_eq!(trial.define(1, &Draft::new(2).under(2)), word(4));
    let fields = |draft: Draft, first: u16| (0..8).fold(draft, |draft, i| draft.field(first + i, INT));
    trial.define(1, &fields(Draft::new(10), 100));
    trial.define(1, &fields(Draft::new(11).under(10), 200));
    assert_eq!(trial.define(1, &Draft::new(12).under(11).field(100, 7)), word(10), "no 8 before 10");
    assert_eq!(trial.define(1, &Draft::new(12).under(11).field(99, 7)), word(10));
    assert_eq!(trial.define(1, &Draft::new(12).under(77).field(100, 7)), Reply::Denied(Refusal::Wanted(1, 77)));
}

#[test]
fn define_full_before_clash() {
    let mut trial = ready();
    tie(&mut trial, 1, 2, 12);
    trial.define(1, &Draft::new(12));
    assert_eq!(trial.define(2, &Draft::new(12)), word(9));
    for which in [count::CLASSES, count::KEPT, count::CACHE] {
        let mut full = trial.clone();
        match which {
            count::CACHE => fill(&mut full.store, which),
            count::KEPT => full.store.counts[which] = LIMITS[which],
            _ => {
                while !full.store.is_full(which) {
                    full.define(3, &Draft::new(2_000 + full.store.counts[which]));
                }
            }
        }
        assert_eq!(full.define(2, &Draft::new(12)), word(10), "count {which}");
    }
}

#[test]
fn record_order() {
    let mut trial = ready();
    trial.define(1, &f());
    trial.define(2, &f());
    for (loader, name, class) in [(16, 10, 1), (1, 1, 1), (1, 0, 0), (1, 10, 3), (1, 10, u16::MAX)] {
        assert_eq!(trial.record(loader, name, class), word(3));
    }
    assert_eq!(trial.record(1, 10, 0), word(13), "13 before 4");
    assert_eq!(trial.record(1, 10, 2), word(4));
    let mut full = trial.clone();
    fill(&mut full.store, count::CACHE);
    assert_eq!(full.record(1, 10, 2), word(4), "4 before 10");
    assert_eq!(full.record(1, 10, 1), Reply::Accepted, "what is there needs no room");
    assert_eq!(full.record(3, 10, 1), word(10));
    tie(&mut trial, 1, 3, 10);
    assert_eq!(trial.record(3, 10, 2), word(9));
    fill(&mut trial.store, count::CACHE);
    assert_eq!(trial.record(3, 10, 2), word(10), "10 before 9");
}

#[test]
fn start_order() {
    let mut trial = ready();
    trial.define(1, &f());
    trial.start(0, 1, 10, MAIN, 0);
    for (task, loader, name, method) in [(2, 1, 10, MAIN), (0, 16, 10, MAIN), (0, 1, 1, MAIN), (0, 1, 10, 0)] {
        assert_eq!(trial.start(task, loader, name, method, 0), word(3), "3 before 12");
    }
    assert_eq!(trial.start(0, 1, 99, MAIN, 0), word(12), "12 before 5");
    assert_eq!(trial.start(1, 1, 99, 98, 0), Reply::Denied(Refusal::Wanted(1, 99)));
    let mut full = trial.clone();
    while !full.store.is_full(count::OBJECTS) {
        full.drop_task(0);
        full.start(0, 1, 10, MAIN, 0);
    }
    assert_eq!(full.start(1, 1, 10, 98, 0), word(7), "7 before 10");
    assert_eq!(full.start(1, 1, 10, MAIN, 0), word(10));
    assert_eq!(full.start(1, 1, 99, MAIN, 0), Reply::Denied(Refusal::Wanted(1, 99)));
}

#[test]
fn step_full_and_clash_before_stuck_and_null() {
    for code in [reader(), null_reader()] {
        let mut trial = across(&code, true, true);
        trial.step();
        assert_eq!(trial.step(), refused(9), "9 before 11");
        let mut full = trial.clone();
        fill(&mut full.store, count::TIES);
        assert_eq!(full.step(), refused(10), "10 before 9");
        assert_eq!(trial.store.count(count::TIES), 0, "a refused step posts nothing");
    }
    let mut trial = across(&null_reader(), true, false);
    trial.step();
    assert_eq!(trial.step(), refused(11));
    assert_eq!(trial.store.count(count::TIES), 0, "a refused step posts nothing");
    fill(&mut trial.store, count::TIES);
    assert_eq!(trial.step(), refused(10), "10 before 11");
}

#[test]
fn a_class_that_is_wanted_is_the_named_one_only() {
    // (1,12) and (2,12) are unloaded, and the field has that type.
    let mut trial = across(&reader(), false, false);
    assert_eq!(trial.run(9), Reply::RanFor(4, Answer::Finished(0, 7)));
    assert_eq!(trial.store.tie_rows().collect::<Vec<_>>(), [[1, 2, 12]], "the nearest class's loader is first");
}

#[test]
fn argument_and_result_of_one_type_post_one_tie() {
    let mut trial = across(&caller(), false, true);
    assert_eq!(trial.run(3), Reply::RanFor(3, Answer::Ran(0)));
    assert_eq!(trial.store.tie_rows().collect::<Vec<_>>(), [[1, 2, 12]]);
    // With room for one tie that is enough.
    let mut trial = across(&caller(), false, true);
    fill(&mut trial.store, count::TIES);
    trial.store.counts[count::TIES] -= 1;
    assert_eq!(trial.run(3), Reply::RanFor(3, Answer::Ran(0)));
}

#[test]
fn a_tie_turned_about_is_there_already() {
    let mut trial = across(&reader(), false, false);
    trial.store.add_tie([2, 1, 12]);
    assert_eq!(trial.run(9), Reply::RanFor(4, Answer::Finished(0, 7)));
    assert_eq!(trial.store.tie_rows().collect::<Vec<_>>(), [[2, 1, 12]]);
}

#[test]
fn a_store_that_disagrees_is_no_clash_until_a_row_is_added() {
    let mut trial = across(&reader(), true, true);
    trial.store.add_tie([1, 2, 12]);
    assert_eq!(trial.run(9), Reply::RanFor(4, Answer::Finished(0, 7)));
    assert_eq!(trial.record(3, 2, 0), Reply::Accepted, "it is there");
    assert_eq!(trial.record(0, 11, 1), word(9));
    assert_eq!(trial.define(3, &Draft::new(60)), word(9));
}

#[test]
fn overriding_writes_its_own_loader_first() {
    let rows: Vec<[u16; 3]> = overriding().store.tie_rows().collect();
    // For loader 3 the nearest class is loader 2's: there are no ties with loader 1.
    assert_eq!(rows, [[2, 1, 12], [2, 1, 13], [2, 1, 14], [3, 2, 12], [3, 2, 13]]);
}

#[test]
fn overriding_apart_clashes() {
    assert_eq!(override_apart().replies[8], word(9));
}

#[test]
fn superclass_under_the_class_s_own_loader() {
    // Loader 2 has another 10; loader 1's class 11 is below loader 1's 10 all the same.
    let mut trial = ready();
    trial.define(1, &Draft::new(10).field(30, INT));
    trial.define(2, &Draft::new(10));
    trial.define(1, &Draft::new(11).under(10));
    trial.record(2, 11, 3);
    let code = Code::new().object(11).getfield(11, 30, INT).ireturn();
    trial.define(2, &Draft::new(12).main(MAIN, &code));
    trial.start(0, 2, 12, MAIN, 0);
    assert_eq!(trial.run(9), Reply::RanFor(2, Answer::Finished(0, 0)));
}

#[test]
fn name_2_is_a_name_as_others_are() {
    let mut trial = Trial::booted();
    trial.define(0, &Draft::new(10));
    trial.record(1, 10, 1);
    assert_eq!(trial.define(1, &Draft::new(2).under(10)), Reply::Defined(2));
    subtype(&mut trial, 1, 10, 2);
    assert_eq!(trial.replies.last(), Some(&word(9)), "10 isn't below loader 1's 2");
    subtype(&mut trial, 1, 2, 10);
    assert!(matches!(trial.replies.last(), Some(Reply::Defined(_))));
    assert_eq!(trial.store.subtype_rows().collect::<Vec<_>>(), [[1, 2, 10]]);
}

#[test]
fn runs() {
    let mut trial = ready();
    trial.define(1, &f());
    assert_eq!(trial.run(0), word(3));
    assert_eq!(trial.run(1), Reply::RanFor(0, Answer::Idle));
    trial.start(1, 1, 10, MAIN, 5);
    trial.start(0, 1, 10, MAIN, 4);
    assert_eq!(trial.run(1), Reply::RanFor(1, Answer::Ran(0)));
    assert_eq!(trial.run(u16::MAX), Reply::RanFor(0, Answer::Finished(0, 4)));
    assert_eq!(trial.run(2), Reply::RanFor(1, Answer::Finished(1, 5)));
}

#[test]
fn the_quote_keeps_its_turn() {
    let mut trial = ready();
    trial.define(1, &f().main(21, &Code::new().object(12).pop().end(INT)));
    trial.start(1, 1, 10, MAIN, 5);
    trial.start(0, 1, 10, 21, 5);
    let wanted = Answer::Refused(Refusal::Wanted(1, 12));
    assert_eq!(trial.run(5), Reply::RanFor(0, wanted));
    assert_eq!(trial.step(), Reply::Stepped(wanted));
    trial.define(1, &Draft::new(12));
    assert_eq!(trial.step(), Reply::Stepped(Answer::Ran(0)));
    trial.drop_task(0);
    assert_eq!(trial.run(5), Reply::RanFor(1, Answer::Finished(1, 5)));
    assert_eq!(trial.drop_task(0), Reply::Accepted, "an empty task is fine");
    assert_eq!(trial.drop_task(2), word(3));
}

#[test]
fn selects_again_from_the_object_s_own_class() {
    let mut trial = ready();
    let double = Code::new().iload(1).dup().iadd().ireturn();
    let call = Code::new().object(11).iload(1).invoke(10, 21, INT, INT).ireturn();
    let same = Code::new().iload(1).ireturn();
    trial.define(1, &Draft::new(10).main(MAIN, &call).main(21, &same));
    trial.define(1, &Draft::new(11).under(10).main(21, &double));
    trial.start(0, 1, 10, MAIN, 21);
    assert_eq!(trial.run(99), Reply::RanFor(7, Answer::Finished(0, 42)));
}
