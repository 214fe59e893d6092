//! Paper 8: the report's share of the objects, when word 18 is told and which words come before it, and the room that is kept for quotes.

use reference::gen::damage::{damaged, probes};
use reference::gen::objects::{is_past_the_share, without_reports};
use reference::gen::shares::{
    at_the_edge, by_news, by_starts, full_by_quotes, held, shared, taken_by_the_quote, used_and_full, words_before, MAKE, NODE,
};
use reference::gen::{Call, Trial};
use reference::store::{cell, count, frame_base, owner_of, Store, Value, FREE, OPERANDS, QUOTE, REPORT, SHARE};
use reference::{broken, Answer, Refusal, Reply};

/// The words of a list's starts from the one at this place on; 0 is accepted.
fn starts(trial: &Trial, from: usize) -> Vec<u8> {
    let all = trial.calls.iter().zip(&trial.replies).filter(|(call, _)| matches!(call, Call::Start { .. }));
    all.skip(from).map(|(_, reply)| reply.refusal().map_or(0, Refusal::number)).collect()
}

/// How often each task's objects exist: the quote's, the report's.
fn made(store: &Store) -> [usize; 2] {
    [QUOTE, REPORT].map(|task| store.made_by(task))
}

fn freed(trial: &Trial) -> Vec<u16> {
    let swept = |reply: &Reply| match *reply {
        Reply::Swept(freed) => Some(freed),
        _ => None,
    };
    trial.replies.iter().filter_map(swept).collect()
}

const USED: Result<i32, u8> = Err(18);
const FULL: Result<i32, u8> = Err(10);

#[test]
fn lists_about_the_share() {
    let trial = by_starts();
    assert_eq!(starts(&trial, 191), [0, 18, 0, 0]);
    assert_eq!((trial.ends(), freed(&trial), made(&trial.store)), (vec![Ok(0)], vec![196], [0, 1]));

    let trial = by_news();
    assert_eq!(starts(&trial, 0), [0, 18, 0, 10, 18, 0, 18]);
    assert_eq!((trial.ends(), freed(&trial), made(&trial.store)), (vec![USED, USED, Ok(0), Ok(0)], vec![256], [0, 192]));
    assert_eq!(trial.replies[4], Reply::RanFor(191 * 9 + 2, Answer::Refused(Refusal::Word(18))), "the share is used within a run");
    assert_eq!(trial.replies[5], Reply::Stepped(Answer::Refused(Refusal::Word(18))));

    let trial = used_and_full();
    assert_eq!((starts(&trial, 0), trial.ends()), (vec![0, 0, 0, 0, 18, 10], vec![Ok(0), Ok(0), FULL, USED]));
    assert_eq!(made(&trial.store), [64, 192]);

    let trial = full_by_quotes();
    assert_eq!((starts(&trial, 0), trial.ends()), (vec![0, 0, 0, 10, 10, 0], vec![Ok(0), Ok(0), FULL, USED]));
    assert_eq!(made(&trial.store), [0, 192]);

    let trial = held();
    assert_eq!((starts(&trial, 0), freed(&trial)), (vec![0, 0, 18, 0, 18], vec![0, 192]));

    let trial = taken_by_the_quote();
    assert_eq!((starts(&trial, 0), trial.ends(), made(&trial.store)), (vec![0, 0, 10, 10], vec![Ok(0), Ok(0)], [256, 0]));

    let trial = words_before();
    assert_eq!(starts(&trial, 0), [0, 0, 12, 12, 3, 3, 3, 5, 7, 18, 0]);
    assert_eq!(trial.ends(), [Ok(0), Err(5), Err(5)]);

    let trial = at_the_edge();
    assert_eq!((starts(&trial, 0), freed(&trial)), (vec![0; 7], vec![192; 3]));
    assert_eq!(trial.ends().last(), Some(&USED));
}

/// With 192 of the report's objects: 18 comes before each sort of 10, behind 5, and is the report's alone.
#[test]
fn straight_before_every_full() {
    let mut trial = by_starts();
    trial.drop_task(1);
    trial.start(1, 1, NODE, MAKE, 9);
    trial.run(2);
    let base = frame_base(REPORT, 0);
    let word = |store: &Store| reference::step(&mut store.clone());
    let refused = |number: u8| Answer::Refused(Refusal::Word(number));
    let mut store = trial.store;
    (0..OPERANDS).for_each(|place| Value::Null.write(&mut store.frames, base + cell::OPERAND_0 + 2 * place));
    let mut seen = Vec::new();
    for (reports, quotes) in [(191, 0), (191, 65), (192, 0), (192, 64), (0, 256)] {
        for operands in [0, OPERANDS] {
            store.counts[count::OBJECTS] = 256;
            store.owners_mut().fill(FREE);
            store.owners_mut()[..reports].fill(owner_of(REPORT));
            store.owners_mut()[reports..][..quotes].fill(owner_of(QUOTE));
            store.frames[base + cell::OPERANDS] = operands as u32;
            assert!(!broken(&store));
            seen.push(word(&store));
        }
    }
    let [full, used] = [refused(10), refused(18)];
    assert_eq!(seen, [Answer::Ran(1), full, full, full, used, used, used, used, full, full]);
    store.owners_mut()[..193].fill(owner_of(REPORT));
    assert_eq!(word(&store), refused(1));
    store.owners_mut()[0] = owner_of(QUOTE);
    assert_eq!(word(&store), used);
}

/// At most 192 after every call. Boot and sweep alone take an object out of a task's count: a drop gives nothing back.
#[test]
fn what_moves_the_count() {
    let mut refused = 0;
    for seed in 0..400 {
        let trial = shared(seed, 40);
        let mut store = Store::zeros();
        for (call, &reply) in trial.calls.iter().zip(&trial.replies) {
            let before = made(&store);
            call.apply(&mut store);
            let after = made(&store);
            assert!(after[REPORT] <= SHARE);
            match call {
                Call::Boot | Call::Sweep => {}
                Call::Drop { .. } => assert_eq!(before, after, "list {seed}"),
                _ => assert!((0..2).all(|task| before[task] <= after[task]), "list {seed}"),
            }
            refused += u64::from(matches!(reply, Reply::RanFor(_, Answer::Refused(Refusal::Word(18)))) || reply.refusal() == Some(Refusal::Word(18)));
        }
    }
    println!("{refused} calls are told 18");
    assert!(refused > 500);
}

/// A store with more than the share is broken, and for that alone.
#[test]
fn damaged_owners() {
    let (mut past, mut used) = (0, 0);
    for seed in 0..20_000 {
        let store = damaged(seed);
        if is_past_the_share(&store) {
            past += 1;
            assert!(broken(&store) && !broken(&without_reports(&store)));
        }
        if broken(&store) || store.made_by(REPORT) != SHARE {
            continue;
        }
        for call in probes(seed, &store) {
            let mut after = store.clone();
            let (reply, without) = (call.apply(&mut after), call.apply(&mut without_reports(&store)));
            let number = reply.refusal().map(Refusal::number);
            used += u64::from(number == Some(18));
            let is_same = reply == without || matches!(reply, Reply::RanFor(..));
            assert!(is_same || number == Some(18), "damage {seed}: {call:?} answers {reply:?}, and without a share {without:?}");
        }
    }
    println!("{past} stores past the share, {used} calls are told 18");
    assert!(past > 100 && used > 100);
}
