//! Choices and loops: what they give, the order of their notes, and what a map does to the values of a frame.

use reference::file::File;
use reference::gen::build::{Code, Draft};
use reference::gen::cases::MAIN;
use reference::gen::loops::{
    clashing, from_the_start, joined, less_than, many_notes, nested, noted, repeating, requiring, spinning, sums, ties_in_a_loop,
    unset_at_a_join, versions, waiting, words, zero_or_not,
};
use reference::gen::mapped::countdown;
use reference::gen::Trial;
use reference::store::{cell, count, frame_base, Store, Value, INT};
use reference::verifier::verify;
use reference::{broken, check, misplaced, Answer, Refusal, Reply};

/// What the runs of a list finished with.
fn results(trial: &Trial) -> Vec<i32> {
    let finished = |reply: &Reply| match *reply {
        Reply::RanFor(_, Answer::Finished(_, int)) => Some(int as i32),
        _ => None,
    };
    trial.replies.iter().filter_map(finished).collect()
}

/// The numbers that the defines of a list were given; 0 is accepted.
fn defines(trial: &Trial) -> Vec<u8> {
    let calls = trial.calls.iter().zip(&trial.replies).filter(|(call, _)| call.kind() == 1);
    calls.map(|(_, reply)| reply.refusal().map_or(0, Refusal::number)).collect()
}

fn subtypes(trial: &Trial) -> Vec<[u16; 2]> {
    trial.store.subtype_rows().map(|row| [row[1], row[2]]).collect()
}

#[test]
fn loops_finish() {
    assert_eq!(results(&sums()), [1, 3, 6, 5_050]);
    assert_eq!(results(&nested()), [1, 4, 25]);
    assert_eq!(results(&zero_or_not()), [1, 2, 2, 2, 2]);
    assert_eq!(results(&from_the_start()), [0, 0, 0]);
    assert_eq!(results(&versions()), [5, 0, 5, 0]);
}

#[test]
fn less_than_goes_by_the_sign() {
    let ints = [4, 5, 6, -4, -5, -6, 0, -1, i32::MIN, i32::MAX];
    let expected: Vec<i32> = ints.iter().flat_map(|&int| [i32::from(int < 5), i32::from(-5 < int)]).collect();
    assert_eq!(results(&less_than()), expected);
}

#[test]
fn a_goto_to_itself_runs_for_n() {
    let trial = spinning();
    let ran: Vec<Reply> = trial.replies.iter().copied().filter(|reply| matches!(reply, Reply::RanFor(..))).collect();
    let alone = |n: u16, task: u8| Reply::RanFor(n, Answer::Ran(task));
    assert_eq!(ran, [alone(3, 0), alone(1, 0), alone(2, 0), alone(1_000, 0), alone(65_535, 0), alone(1_000, 1)]);
    // The local is unset while it spins, and holds its object all the same.
    let freed: Vec<Reply> = trial.replies.iter().copied().filter(|reply| matches!(reply, Reply::Swept(_))).collect();
    assert_eq!(freed, [2, 0, 0, 0, 4].map(Reply::Swept));
}

#[test]
fn a_join_posts_requirements() {
    let below = [[11, 13], [12, 13]];
    let trial = joined(&[], &[]);
    assert_eq!(subtypes(&trial)[..2], below);
    let cases: [(&[u16], &[u16], &[u8]); 5] = [
        (&[13, 11, 12], &[11, 12], &[0, 0, 0, 0]),
        (&[13, 11, 12], &[11], &[0, 0, 0, 9]),
        (&[11, 12, 13], &[], &[0, 0, 0, 9]),
        (&[11, 13], &[], &[0, 0, 9]),
        (&[12, 11], &[], &[0, 0, 0]),
    ];
    for (order, under, words) in cases {
        assert_eq!(defines(&joined(order, under)), words, "{order:?} {under:?}");
    }
    assert_eq!(results(&joined(&[13, 11, 12], &[11, 12])), [0, 0]);
    assert_eq!(defines(&clashing()), [0, 0, 0, 0, 0, 9]);
}

#[test]
fn the_order_of_words_and_notes() {
    assert_eq!(defines(&words()), [3, 15, 15, 3, 15, 15, 3, 6, 6, 3, 2, 2, 3, 0, 4, 6]);
    let expected = [
        [10, 40], [14, 41], [40, 42], [40, 43], [11, 44], [12, 45], [13, 46],
        // ifeq: the target's before the next point's
        [43, 51], [44, 52], [45, 53], [46, 54], [43, 47], [44, 48], [45, 49], [46, 50],
        // goto, and areturn
        [47, 55], [48, 56], [49, 57], [50, 58], [58, 59], [10, 60], [60, 59],
    ];
    let mut trial = Trial::ready([1]);
    assert_eq!(trial.define(1, &noted()), Reply::Defined(1));
    assert_eq!(subtypes(&trial), expected);
}

#[test]
fn full_counts_different_notes() {
    assert_eq!(defines(&many_notes()), [0, 0, 4, 5, 10, 0, 10, 0]);
    let of = |draft: Draft| {
        let mut trial = Trial::ready([1]);
        let reply = trial.define(1, &draft).refusal().map_or(0, Refusal::number);
        (reply, trial.store.counts[count::SUBTYPES])
    };
    assert_eq!(of(requiring(10, 256)), (0, 256));
    assert_eq!(of(requiring(10, 257)), (10, 0));
    let (mut notes, bytes) = (0, repeating(10).file());
    verify(File::read(&bytes).expect("a file"), &mut |_, _| notes += 1).expect("verified");
    println!("{} bytes, {notes} notes, {} of them different", bytes.len(), of(repeating(10)).1);
    assert!(notes > 12_000 && of(repeating(10)) == (0, 23));
    assert_eq!(defines(&ties_in_a_loop()), [0, 0, 0, 9]);
    assert_eq!(ties_in_a_loop().store.counts[count::TIES], 1);
}

#[test]
fn lists_have_nothing_misplaced() {
    for trial in [unset_at_a_join(), waiting(), sums(), spinning()] {
        let mut store = Store::zeros();
        for (call, &reply) in trial.calls.iter().zip(&trial.replies) {
            assert_eq!(call.apply(&mut store), reply);
            assert_eq!((broken(&store), misplaced(&store)), (false, 0), "after {call:?}");
        }
    }
}

/// The quote of a class 10 after so many steps; object 0 is a 10, and 1 a 12.
fn stopped(code: &Code, steps: u16) -> Store {
    let mut trial = Trial::ready([1]);
    trial.define(1, &Draft::mapped(10).main(MAIN, code).main(21, &Code::new().object(12).pop().iload(1).ireturn()));
    trial.define(1, &Draft::new(12));
    trial.start(0, 1, 10, MAIN, 1);
    trial.run(steps);
    trial.store
}

/// How many values are misplaced once this one stands there.
fn with(store: &Store, depth: usize, at: usize, value: Value) -> usize {
    let mut store = store.clone();
    value.write(&mut store.frames, frame_base(0, depth) + at);
    assert!(!broken(&store));
    misplaced(&store)
}

#[test]
fn a_value_is_misplaced_by_the_maps_type() {
    let (local, operand) = (|n: usize| cell::LOCAL_0 + 2 * n, |n: usize| cell::OPERAND_0 + 2 * n);
    // Local 0 is any object, local 1 is unset, the operand is a 12; nothing is a null any more.
    let code = Code::new().object(12).astore(3).null().astore(2).null().map(&[2, 0, 12, 2], &[12]).pop().end(INT);
    let store = stopped(&code, 5);
    assert_eq!(misplaced(&store), 0);
    assert_eq!(with(&store, 0, local(0), Value::Object(1)), 0);
    assert_eq!(with(&store, 0, local(1), Value::Object(0)), 0, "unset");
    assert_eq!(with(&store, 0, local(2), Value::Object(1)), 0, "a name, and no null any more");
    assert_eq!(with(&store, 0, local(2), Value::Object(0)), 1);
    assert_eq!(with(&store, 0, operand(0), Value::Object(1)), 0);
    assert_eq!(with(&store, 0, operand(0), Value::Object(0)), 1);
    assert_eq!(with(&store, 0, operand(0), Value::Int(0)), 1);
}

#[test]
fn a_frame_that_waits_before_a_map() {
    let code = Code::new().null().aload(0).iload(1).invoke(10, 21, INT, INT).map(&[2, 0], &[12, INT]).pop().pop().end(INT);
    let store = stopped(&code, 5);
    assert_eq!((store.counts[count::FRAMES], misplaced(&store)), (2, 0));
    assert_eq!(with(&store, 0, cell::OPERAND_0, Value::Object(1)), 0, "a 12 by the map");
    assert_eq!(with(&store, 0, cell::OPERAND_0, Value::Object(0)), 1);
    assert_eq!(with(&store, 0, cell::LOCAL_0 + 2, Value::Null), 0, "unset by the map");
    assert_eq!(with(&store, 0, cell::LOCAL_0, Value::Int(4)), 1);
    // Moved before a map without operands, the frame has no types.
    let mut moved = stopped(&Code::new().map(&[10, INT], &[]).aload(0).iload(1).invoke(10, 21, INT, INT).ireturn(), 4);
    moved.frames[cell::POINT] = 0;
    assert_eq!(misplaced(&moved), 1);
}

/// The misplaced values of a frame at a point of a method that no verifier takes: 0 if it has types.
fn at(code: &Code, point: u32) -> usize {
    let mut store = stopped(&Code::new().end(INT), 0);
    let class = store.add_class(1, &Draft::mapped(14).main(MAIN, code).file());
    store.add_cached([1, 14, class]);
    store.frames[cell::CLASS] = class.into();
    store.frames[cell::POINT] = point;
    Value::Null.write(&mut store.frames, cell::LOCAL_0);
    assert!(!broken(&store));
    misplaced(&store)
}

#[test]
fn types_end_where_the_walk_is_rejected() {
    let c = Code::new;
    let off = |offset: u16| vec![reference::gen::build::MapDraft::new(offset, &[], &[])];
    // From entry: no point has types. A flow that doesn't fit, and an unmapped target: those behind have none, mapped or not.
    assert_eq!([0, 4].map(|point| at(&c().map(&[0, 12], &[]).int(0).pop().end(INT), point)), [1, 1]);
    let into_next = c().null().pop().map(&[0, 12], &[]).null().pop().map(&[], &[]).end(INT);
    assert_eq!([0, 2, 4].map(|point| at(&into_next, point)), [0, 1, 1]);
    let to_target = c().goto(9).point(8, &[], &[]).end(INT).point(9, &[12], &[INT]).ireturn();
    assert_eq!([0, 3, 7].map(|point| at(&to_target, point)), [0, 1, 1]);
    assert_eq!([0, 3].map(|point| at(&c().names(0xA7, &[3]).end(INT), point)), [0, 1]);
    assert_eq!([0, 4].map(|point| at(&c().end(INT).null().pop().end(INT), point)), [0, 1]);
    // A map inside an instruction is passed over at the next; one behind the code leaves every point its types.
    let inside = c().null().pop().int(0).pop().end(INT).with_maps(&off(3));
    assert_eq!([0, 2, 6].map(|point| at(&inside, point)), [0, 0, 1]);
    let behind = c().null().pop().end(INT).with_maps(&off(400));
    assert_eq!([0, 2].map(|point| at(&behind, point)), [0, 0]);
    // A point with a map has its types though it can't be read; without one it has none.
    assert_eq!([0, 4].map(|point| at(&c().end(INT).map(&[], &[]).plain(0xFF), point)), [0, 0]);
    assert_eq!([0, 4].map(|point| at(&c().end(INT).plain(0xFF), point)), [0, 1]);
    // Dead code has its map's types.
    assert_eq!([0, 4].map(|point| at(&c().end(INT).map(&[], &[]).end(INT), point)), [0, 0]);
}

#[test]
fn versions_have_their_opcodes() {
    let code = Code::new().names(0xA7, &[0]);
    assert_eq!(check(&Draft::new(10).main(MAIN, &code).file()), 6);
    assert_eq!(check(&Draft::mapped(10).main(MAIN, &code).file()), 15);
    assert_eq!(check(&Draft::mapped(10).main(MAIN, &countdown()).file()), 0);
    assert_eq!(check(&Draft::new(10).main(MAIN, &countdown()).file()), 6);
}
