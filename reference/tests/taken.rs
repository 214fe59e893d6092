//! Loads taken back: what every table reads then, how many are remembered, what closes, and which traces are broken.

use reference::gen::build::{Code, Draft};
use reference::gen::cases::{ready, MAIN};
use reference::gen::damage::damaged;
use reference::gen::taken::{an_override, between, closing, five_back, forty, in_the_way, records, taken_back, taking, wanting};
use reference::gen::traces::{self, closed, has_wrong_trace, wrongs_in_turn, WRONGS};
use reference::gen::{Call, Trial};
use reference::store::{count, Store, LENGTHS, MOST_LOADS, MOST_OBJECTS, ROW};
use reference::{broken, Answer, Refusal, Reply};

/// The store with nothing in the cells that hold no row, and without its trace.
fn read(store: &Store) -> Store {
    let mut read = store.clone();
    let used = |which: usize| store.count(which);
    read.classes[used(count::CLASSES) * ROW..].fill(0);
    read.kept[used(count::KEPT)..].fill(0);
    read.cache[used(count::CACHE) * ROW..].fill(0);
    read.ties[used(count::TIES) * ROW..].fill(0);
    read.subtypes[used(count::SUBTYPES) * ROW..].fill(0);
    read.counts[count::OWNERS + used(count::OBJECTS)..count::OWNERS + MOST_OBJECTS].fill(0);
    read.counts[count::TIE_NUMBERS + used(count::TIES)..count::SUBTYPE_NUMBERS].fill(0);
    read.counts[count::SUBTYPE_NUMBERS + used(count::SUBTYPES)..count::GROUPS].fill(0);
    read.counts[count::GROUPS + used(count::TIES)..].fill(0);
    read
}

/// Paper 10: "Any accepted boot, start, drop or sweep, and any step that ran or finished".
fn closes(call: &Call, reply: Reply) -> bool {
    match (call, reply) {
        (Call::Boot | Call::Start { .. } | Call::Drop { .. } | Call::Sweep, reply) => reply.refusal().is_none(),
        (_, Reply::Stepped(answer)) => matches!(answer, Answer::Ran(_) | Answer::Finished(..)),
        (_, Reply::RanFor(ran, answer)) => ran > 0 || matches!(answer, Answer::Finished(..)),
        _ => false,
    }
}

/// Plays a list beside the stores that its loads found: those that can be taken back, at most 32, the latest last. Gives how many were taken back.
fn remembered(trial: &Trial, label: &str) -> usize {
    let (mut store, mut found): (Store, Vec<Store>) = (Store::zeros(), Vec::new());
    let mut taken = 0;
    for (at, (call, &reply)) in trial.calls.iter().zip(&trial.replies).enumerate() {
        let before = store.clone();
        assert_eq!(call.apply(&mut store), reply);
        let is_load = matches!(call, Call::Define { .. } | Call::Record { .. });
        if *call == Call::TakeBack {
            let expected = found.pop();
            assert_eq!(reply.refusal().map(Refusal::number), expected.is_none().then_some(19), "{label}, call {at}");
            let expected = expected.unwrap_or(before);
            assert!(read(&store) == read(&expected), "{label}, call {at}: another store than before the load");
            taken += usize::from(reply == Reply::Accepted);
        } else if is_load && store != before {
            found.push(before);
            found.drain(..found.len().saturating_sub(MOST_LOADS));
        } else if closes(call, reply) {
            found.clear();
        } else {
            assert!(store == before, "{label}, call {at}: {call:?} changes nothing");
        }
        let levels: Vec<_> = found.iter().map(|store| store.level()).collect();
        assert_eq!(store.levels(), levels, "{label}, call {at}: {call:?}");
        assert!(!broken(&store), "{label}, call {at}");
    }
    taken
}

#[test]
fn every_table_reads_as_before() {
    let taken: usize = (0..600).map(|seed| remembered(&taking(seed, 60), &format!("taking {seed}"))).sum();
    println!("{taken} loads taken back");
    assert!(taken > 5_000);
    for (at, trial) in taken_back().iter().enumerate() {
        remembered(trial, &format!("case {at}"));
    }
}

/// The words of a list's takings back; 0 is accepted.
fn words(trial: &Trial) -> Vec<u8> {
    let all = trial.calls.iter().zip(&trial.replies).filter(|(call, _)| **call == Call::TakeBack);
    all.map(|(_, reply)| reply.refusal().map_or(0, Refusal::number)).collect()
}

#[test]
fn lists_about_taking_back() {
    assert_eq!(words(&an_override()), [0, 0, 0, 0, 0, 0, 0, 19]);
    assert_eq!(words(&records()), [0, 0, 19, 19]);
    assert_eq!(words(&between()), [0, 0, 0, 0, 19]);
    let trial = forty();
    assert_eq!(words(&trial), [&[0; 32][..], &[19, 0, 19]].concat());
    assert_eq!(trial.store.level()[..3], [9, 8 * 9, 9], "the first eight stay");
    let trial = five_back();
    assert_eq!(words(&trial), [&[0; 5][..], &[0; 32], &[19], &[0; 5], &[0; 32], &[19]].concat());
    assert_eq!(trial.store.level()[0], 4, "three were pushed out");
    assert_eq!(words(&closing()), [&[19; 15][..], &[0, 19]].concat());
    assert_eq!(words(&wanting()), [0, 19, 0, 19, 19]);
    assert_eq!(wanting().ends().last(), Some(&Ok(7)));
    assert_eq!(in_the_way().store.level(), [1, 0, 1, 0, 0]);
}

/// A run of nothing closes nothing; one of three steps that ends with a refusal has closed.
#[test]
fn runs() {
    let mut trial = ready();
    trial.define(1, &Draft::new(10).main(MAIN, &Code::new().null().pop().object(11).pop().iload(1).ireturn()));
    trial.start(0, 1, 10, MAIN, 0);
    trial.define(1, &Draft::new(12));
    let mut on = trial.clone();
    assert_eq!(on.run(9), Reply::RanFor(2, Answer::Refused(Refusal::Wanted(1, 11))));
    assert_eq!(on.take_back().refusal(), Some(Refusal::Word(19)));
    on.define(1, &Draft::new(13));
    assert_eq!(on.run(9), Reply::RanFor(0, Answer::Refused(Refusal::Wanted(1, 11))));
    assert_eq!(on.take_back(), Reply::Accepted);
    assert_eq!(trial.take_back(), Reply::Accepted);
}

/// Traces by hand, and what stands past their counts.
#[test]
fn broken_traces() {
    let cases = traces::cases();
    assert!(cases.iter().filter(|case| case.2).count() > 10 && cases.iter().filter(|case| !case.2).count() > 10);
    for (what, store, is_broken) in cases {
        assert_eq!(broken(&store), is_broken, "{what}: {:?}", store.levels());
        assert!(!broken(&closed(&store)), "{what}: what stands past the count says nothing");
    }
    let mut zeros = Store::zeros();
    zeros.set_levels(&[[0; 5]; 3]);
    assert_eq!([(); 4].map(|_| reference::take_back(&mut zeros).refusal().map_or(0, Refusal::number)), [0, 0, 0, 19]);
}

/// Taking back what nobody loaded does just that, and what is wrong about a trace is one of six things.
#[test]
fn damaged_traces() {
    let (mut right, mut wrong) = (0, [0; WRONGS.len()]);
    for seed in 0..20_000 {
        let store = damaged(seed);
        if store.lengths() != LENGTHS || broken(&closed(&store)) || store.count(count::LOADS) > MOST_LOADS {
            continue;
        }
        let wrongs = wrongs_in_turn(&store);
        assert_eq!(has_wrong_trace(&store), !wrongs.is_empty(), "damage {seed}: {wrongs:?}");
        wrongs.iter().for_each(|&reason| wrong[WRONGS.iter().position(|&other| other == reason).expect("one of them")] += 1);
        if wrongs.is_empty() && store.count(count::LOADS) > 0 {
            right += 1;
            let mut going = store.clone();
            for &level in store.levels().iter().rev() {
                assert_eq!(reference::take_back(&mut going), Reply::Accepted, "damage {seed}");
                assert!(!broken(&going) && going.level() == level, "damage {seed}");
            }
            assert_eq!(reference::take_back(&mut going).refusal(), Some(Refusal::Word(19)), "damage {seed}");
        }
    }
    println!("{right} traces are right, and wrong ones are {wrong:?} times one of {WRONGS:?}");
    assert!(right > 300 && wrong.iter().all(|&times| times > 20));
}
