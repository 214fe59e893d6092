//! Document 01's example and its cases P1 to P10.

use reference::gen::build::{Code, Draft};
use reference::gen::cases::{self, f, ready, subtype, tie, MAIN};
use reference::gen::{Call, Trial};
use reference::store::{Store, INT};
use reference::{misplaced, Answer, Refusal, Reply};

fn word(number: u8) -> Reply {
    Reply::Denied(Refusal::Word(number))
}

fn stuck_at(number: u8) -> Reply {
    Reply::Stepped(Answer::Refused(Refusal::Word(number)))
}

#[test]
fn the_two_files() {
    assert_eq!(Draft::new(10).file(), [1, 0, 6, 0, 10, 0, 2, 0, 0]);
    let bytes = [1, 0, 0x11, 0, 10, 0, 2, 0, 1, 0, 0x14, 0, 1, 0, 1, 0, 3, 0x15, 1, 0xAC];
    assert_eq!(f().file(), bytes);
    assert_eq!(reference::check(&bytes), 0);
}

#[test]
fn p1_idle() {
    assert_eq!(Trial::booted().step(), Reply::Stepped(Answer::Idle));
}

#[test]
fn p2_wanted_and_then_class_1() {
    assert_eq!(Trial::booted().define(1, &f()), Reply::Denied(Refusal::Wanted(1, 2)));
    assert_eq!(ready().define(1, &f()), Reply::Defined(1));
}

#[test]
fn p3_taken_and_class_2() {
    let mut trial = ready();
    trial.define(1, &f());
    assert_eq!(trial.define(1, &f()), word(4));
    assert_eq!(trial.define(2, &f()), Reply::Defined(2));
}

#[test]
fn p4_recorded_twice() {
    let mut trial = Trial::booted();
    assert_eq!(trial.record(1, 2, 0), Reply::Accepted);
    let before = trial.store.clone();
    assert_eq!(trial.record(1, 2, 0), Reply::Accepted);
    assert_eq!(trial.store, before);
}

#[test]
fn p5_a_tie() {
    let mut trial = ready();
    tie(&mut trial, 1, 2, 12);
    assert_eq!(trial.store.tie_rows().collect::<Vec<_>>(), [[2, 1, 12]]);
    let Reply::Defined(class) = trial.define(1, &Draft::new(12)) else {
        panic!("12 is defined")
    };
    assert_eq!(trial.define(2, &Draft::new(12)), word(9));
    assert_eq!(trial.record(2, 12, u16::from(class)), Reply::Accepted);
}

#[test]
fn p6_ties_across_an_unloaded_request() {
    let trial = cases::far_ends_of_ties();
    assert_eq!(trial.replies.last(), Some(&word(9)));
}

#[test]
fn p7_a_subtype_constraint_across_an_unloaded_request() {
    let trial = cases::subtype_then_tie();
    assert_eq!(trial.replies.last(), Some(&word(9)));
    // Below loader 2's own 12 it passes.
    let mut trial = ready();
    subtype(&mut trial, 1, 13, 12);
    tie(&mut trial, 1, 2, 12);
    let Reply::Defined(class) = trial.define(2, &Draft::new(12)) else {
        panic!("12 is defined")
    };
    assert_eq!(trial.record(1, 12, u16::from(class)), Reply::Accepted);
    assert!(matches!(trial.define(1, &Draft::new(13).under(12)), Reply::Defined(_)));
}

#[test]
fn p8_wraps() {
    let add = Code::new().iload(1).int(1).iadd().ireturn();
    let subtract = Code::new().iload(1).int(1).isub().ireturn();
    let mut trial = ready();
    trial.define(1, &Draft::new(10).main(MAIN, &add).main(21, &subtract));
    trial.start(0, 1, 10, MAIN, i32::MAX);
    assert_eq!(trial.run(9), Reply::RanFor(3, Answer::Finished(0, i32::MIN as u32)));
    trial.start(1, 1, 10, 21, i32::MIN);
    assert_eq!(trial.run(9), Reply::RanFor(3, Answer::Finished(1, i32::MAX as u32)));
}

#[test]
fn p9_wanted_before_null() {
    let code = Code::new().null().getfield(12, 30, INT).ireturn();
    let mut trial = ready();
    trial.define(1, &Draft::new(10).main(MAIN, &code));
    trial.start(0, 1, 10, MAIN, 0);
    trial.step();
    assert_eq!(trial.step(), Reply::Stepped(Answer::Refused(Refusal::Wanted(1, 12))));
    trial.define(1, &Draft::new(12).field(30, INT));
    assert_eq!(trial.step(), stuck_at(11));
}

#[test]
fn p10_sixteen_operands() {
    let pushes = |count: usize| (0..count).fold(Code::new(), |code, _| code.iload(1)).ireturn();
    let mut trial = ready();
    assert_eq!(trial.define(1, &Draft::new(10).main(MAIN, &pushes(16))), Reply::Defined(1));
    assert_eq!(trial.define(1, &Draft::new(11).main(MAIN, &pushes(17))), word(6));
    trial.start(0, 1, 10, MAIN, 4);
    assert_eq!(trial.run(99), Reply::RanFor(16, Answer::Finished(0, 4)));
}

#[test]
fn boot_writes_counts_class_0_and_cache_row_0_and_closes() {
    let mut store = garbage();
    let before = store.clone();
    assert_eq!(reference::boot(&mut store), Reply::Accepted);
    assert_eq!(store.counts[..8], [1, 0, 1, 0, 0, 0, 0, 0]);
    assert_eq!(store.counts[776], 0);
    assert_eq!(store.classes[..3], [0, 0, 0]);
    assert_eq!(store.cache[..3], [0, 2, 0]);
    store.counts[..8].copy_from_slice(&before.counts[..8]);
    store.counts[776] = before.counts[776];
    store.classes[..3].copy_from_slice(&before.classes[..3]);
    store.cache[..3].copy_from_slice(&before.cache[..3]);
    assert_eq!(store, before);
}

fn garbage() -> Store {
    let mut store = Store::zeros();
    store.counts.fill(0xAAAA);
    store.classes.fill(0xAAAA);
    store.kept.fill(0xAA);
    store.cache.fill(0xAAAA);
    store.ties.fill(0xAAAA);
    store.subtypes.fill(0xAAAA);
    store.objects.fill(0xAAAA_AAAA);
    store.frames.fill(0xAAAA_AAAA);
    store
}

#[test]
fn cells_of_a_call_and_its_return() {
    let mut trial = Trial { store: garbage(), calls: Vec::new(), replies: Vec::new() };
    trial.call(Call::Boot);
    trial.record(1, 2, 0);
    let main = Code::new().aload(0).iload(1).invoke(10, 21, INT, INT).ireturn();
    let callee = Code::new().iload(1).dup().iadd().ireturn();
    trial.define(1, &Draft::new(10).field(30, INT).field(31, 10).main(MAIN, &main).main(21, &callee));
    trial.start(1, 1, 10, MAIN, -7);
    // The class's field cells only.
    assert_eq!(trial.store.objects[..5], [1, 1, 0, 2, 0]);
    assert_eq!(trial.store.objects[5], 0xAAAA_AAAA);
    let report = 32 * 52;
    assert_eq!(trial.store.frames[report..report + 9], [1, 0, 0, 0, 3, 0, 1, -7i32 as u32, 0]);
    assert_eq!(trial.store.frames[report + 20], 0xAAAA_AAAA);
    trial.run(3);
    // The caller waits at the next point without receiver and argument, whose cells keep what they held.
    assert_eq!(trial.store.frames[report + 2..report + 4], [2 + 2 + 9, 0]);
    assert_eq!(trial.store.frames[report + 20..report + 24], [3, 0, 1, -7i32 as u32]);
    assert_eq!(trial.store.frames[report + 52..report + 60], [1, 1, 0, 0, 3, 0, 1, -7i32 as u32]);
    trial.run(3);
    let callee_row = trial.store.frames[report + 52..report + 104].to_vec();
    assert_eq!(misplaced(&trial.store), 0);
    trial.step();
    // The returned frame's row is left; the caller has the value.
    assert_eq!(trial.store.frames[report + 52..report + 104], callee_row);
    assert_eq!(trial.store.frames[report + 3], 1);
    assert_eq!(trial.store.frames[report + 20..report + 22], [1, -14i32 as u32]);
    assert_eq!(trial.step(), Reply::Stepped(Answer::Finished(1, -14i32 as u32)));
    assert_eq!(trial.store.counts[..10], [2, trial.store.counts[1], 3, 0, 0, 1, 0, 0, 2, 0xAAAA]);
}
