//! Methods with 0 to 4 arguments: beside Java, what lists of calls about them end with, the order of notes and ties.

use reference::answer::{word, Answer, Refusal, Reply};
use reference::file::File;
use reference::gen::build::{Code, Draft};
use reference::gen::cases::MAIN;
use reference::gen::large::tree_of_three;
use reference::gen::limits::LIMITS;
use reference::gen::listed::{calling, locals, numbers, overriding, receivers, selection, starts, versions};
use reference::gen::rng::Rng;
use reference::gen::{passed, Trial};
use reference::store::INT;
use reference::verifier::refused;
use reference::{run, step};

/// The words that calls of a list were refused with.
fn words(trial: &Trial) -> Vec<u8> {
    trial.replies.iter().filter_map(|reply| reply.refusal().map(Refusal::number)).collect()
}

fn ties(trial: &Trial) -> Vec<[u16; 3]> {
    trial.store.tie_rows().collect()
}

/// java/Arguments.out is what java/Arguments.java printed.
#[test]
fn arguments_are_javas() {
    assert_eq!(passed::printed(|store| Reply::Stepped(step(store))), include_str!("../java/Arguments.out"));
}

/// The benchmark's tree has the steps by which java/Tree.java divides, and gives the int that its c0(3) gives.
#[test]
fn the_tree_of_three_is_javas() {
    assert_eq!(run(&mut tree_of_three(), 65_535), Reply::RanFor(3_694 - 1, Answer::Finished(0, 26_880)));
}

#[test]
fn arguments_arrive_in_order() {
    assert_eq!(numbers().ends(), [Ok(0), Ok(1), Ok(12), Ok(123), Ok(1_234)]);
    assert_eq!(locals().ends(), [Ok(308)]);
    // a local behind the arguments is unset
    assert_eq!(words(&locals()), [word::UNVERIFIED; 2]);
    assert_eq!(receivers().ends(), [Err(word::NULL), Ok(13), Ok(12)]);
}

#[test]
fn versions_call_each_other() {
    let ends = [41, 42, 43, 51, 52, 53, 61, 62, 63].map(Ok).to_vec();
    assert_eq!(versions().ends(), [ends, vec![Err(word::ABSENT)]].concat());
}

#[test]
fn searches_go_by_whole_lists() {
    assert_eq!(selection().ends(), [Ok(0), Ok(1), Ok(2 - 1), Ok(123), Ok(1_234)]);
    assert_eq!(starts().ends(), [Ok(1), Ok(1)]);
    assert_eq!(words(&starts()), [word::ABSENT]);
}

#[test]
fn overriding_ties_each_argument_and_then_the_result() {
    assert_eq!(ties(&overriding(None)), [12, 13, 14, 15, 16].map(|name| [2, 1, name]));
    for name in 12..17 {
        let trial = overriding(Some(name));
        assert_eq!((words(&trial), ties(&trial)), (vec![word::CLASH], vec![]), "{name} apart");
    }
}

#[test]
fn a_call_ties_each_argument_and_then_the_result() {
    let all = [12, 13, 14, 15];
    assert_eq!(ties(&calling(&all, 16, None)), [12, 13, 14, 15, 16].map(|name| [1, 2, name]));
    for name in 12..17 {
        let trial = calling(&all, 16, Some(name));
        assert_eq!((trial.ends(), ties(&trial)), (vec![Err(word::CLASH)], vec![]), "{name} apart");
    }
    assert_eq!(ties(&calling(&[12, 12, 13, 12], 13, None)), [[1, 2, 12], [1, 2, 13]]);
    assert_eq!(ties(&calling(&[INT, 12, INT, 13], INT, None)), [[1, 2, 12], [1, 2, 13]]);
    assert_eq!(ties(&calling(&[], 16, None)), [[1, 2, 16]]);
    assert_eq!(ties(&calling(&[], INT, None)), [[0; 3]; 0]);
}

/// Five ties where four have room: 10, and none is posted. Types that repeat need two.
#[test]
fn full_counts_what_is_left() {
    let limit = LIMITS.iter().find(|limit| limit.0 == "step: five ties with room for four").expect("a limit").1;
    let mut trial = limit(&mut Rng::new(1));
    assert_eq!(trial.replies.last(), Some(&Reply::Stepped(Answer::Refused(Refusal::Word(word::FULL)))));
    trial.drop_task(0);
    let code = Code::listed().object(30).null().null().null().null().call(30, 63, &[901, 902, 901, 902], 901).pop().end(INT);
    trial.define(2, &Draft::listed(32).main(MAIN, &code));
    trial.start(0, 2, 32, MAIN, 0);
    assert_eq!(trial.run(6), Reply::RanFor(6, Answer::Ran(0)));
    assert_eq!(ties(&trial)[252..], [[1, 2, 901], [1, 2, 902]]);
}

/// Receiver, then arguments in order.
#[test]
fn notes_in_order() {
    let code = Code::listed().aload(0).aload(2).iload(1).aload(3).object(14).call(20, 21, &[21, INT, 22, 23], 24).areturn();
    let bytes = Draft::listed(10).method_of(20, &[INT, 12, 13], 25, &code).file();
    let mut notes = Vec::new();
    refused(File::read(&bytes).expect("a file"), &mut |lower, higher| notes.push((lower, higher))).expect("a good file");
    assert_eq!(notes, [(10, 20), (12, 21), (13, 22), (14, 23), (24, 25)]);
}
