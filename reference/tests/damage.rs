//! Damaged stores: no call panics, a refused call changes nothing, and the words that only damage brings.

use reference::answer::{Answer, Reply};
use reference::gen::cases::whole;
use reference::gen::cells::each_cell;
use reference::gen::damage::{damaged, probes, SHAPES};
use reference::gen::stuck::stuck;
use reference::gen::Call;
use reference::store::{Store, LENGTHS};
use reference::tally::{Tally, ONLY_DAMAGE};
use reference::{broken, misplaced, Refusal};

const SEEDS: u64 = 10_000;

/// The words of each call on damaged stores that this test meets; 0 is accepted.
const ON_DAMAGE: [(&str, &[usize]); 11] = [
    ("boot", &[0]),
    ("define", &[0, 4, 5, 6, 9, 10, 15]),
    ("record", &[0, 3, 4, 9, 10, 13]),
    ("start", &[0, 3, 5, 7, 10, 12, 18]),
    ("step", &[0, 5, 7, 9, 10, 11, 17, 18]),
    ("run", &[0, 3]),
    ("drop", &[0, 3]),
    ("sweep", &[0]),
    ("try define", &[0, 4, 5, 6, 9, 10, 15, 16]),
    ("try record", &[0, 3, 4, 9, 10, 13, 16]),
    ("take back", &[0, 19]),
];

fn try_call(before: &Store, call: &Call, label: &str, tally: &mut Tally) -> Store {
    let mut store = before.clone();
    let reply = call.apply(&mut store);
    if reply.refusal().is_some() {
        assert!(store == *before, "{label}: a refused {call:?} changed the store");
    }
    let broken_before = broken(before);
    match call {
        Call::Boot => assert_eq!(reply == Reply::Accepted, before.lengths() == LENGTHS, "{label}"),
        _ => assert_eq!(reply.refusal() == Some(Refusal::Word(1)), broken_before, "{label}: {call:?}"),
    }
    if !broken_before {
        assert!(!broken(&store), "{label}: {call:?} broke the store");
    }
    tally.count(before, call, reply, &store);
    store
}

#[test]
fn damaged_stores() {
    let mut tally = Tally::default();
    let (mut whole, mut misplacing) = (0, 0);
    let mut shapes = [0; SHAPES.len()];
    for seed in 0..SEEDS {
        let store = damaged(seed);
        let label = format!("damage {seed}");
        whole += usize::from(!broken(&store));
        misplacing += usize::from(!broken(&store) && misplaced(&store) > 0);
        SHAPES.iter().zip(&mut shapes).for_each(|((_, has), stores)| *stores += u64::from(has(&store)));
        let mut going = store.clone();
        for call in probes(seed, &store) {
            for tried in [512, 511].iter().filter_map(|&cells| call.tried(cells)) {
                try_call(&store, &tried, &label, &mut tally);
            }
            try_call(&store, &call, &label, &mut tally);
            if call != Call::Boot {
                going = try_call(&going, &call, &label, &mut tally);
            }
        }
    }
    println!("{SEEDS} damaged stores, {whole} of them not broken, {misplacing} of these with misplaced values\n{tally}");
    for (call, words) in ONLY_DAMAGE.into_iter().chain(ON_DAMAGE) {
        let given = tally.given(call);
        let missing: Vec<_> = words.iter().filter(|word| !given.contains(word)).collect();
        assert!(missing.is_empty(), "{call}: not given on damaged stores: {missing:?}");
    }
    for ((what, _), stores) in SHAPES.iter().zip(shapes) {
        println!("{stores} with {what}");
        assert!(stores > 20, "{what}: {stores} damaged stores");
    }
    assert!(tally.long_runs > 20, "{} runs of 1,000 steps and more", tally.long_runs);
    assert!(tally.run_ends[14] > 0 && tally.run_ends[17] > 0 && whole > 1_000 && misplacing > 100);
    assert_eq!(tally.unswept(), Vec::<&str>::new(), "what sweeps never had");
    assert_eq!(tally.hiding.unmet(), Vec::<&str>::new(), "what accesses never met");
}

#[test]
fn one_cell_at_a_time() {
    let mut tally = Tally::default();
    let calls = [Call::Step, Call::Record { loader: 3, name: 11, class: 2 }, Call::Sweep];
    each_cell(&whole(), |store, label| {
        for call in &calls {
            try_call(store, call, label, &mut tally);
        }
    });
    println!("every cell\n{tally}");
    assert!(tally.words[4][0] > 1_000 && tally.words[4][1] > 1_000 && tally.words[4][14] > 20);
}

#[test]
fn every_way_to_be_stuck() {
    for (what, store, refusal) in stuck() {
        assert!(!broken(&store), "{what}: not broken");
        let mut after = store.clone();
        assert_eq!(reference::step(&mut after), Answer::Refused(refusal), "{what}");
        assert!(after == store, "{what}: the store stays");
        let reply = Reply::RanFor(0, Answer::Refused(refusal));
        assert_eq!(reference::run(&mut after, 3), reply, "{what}");
    }
}

#[test]
fn zeros_are_a_store_without_classes() {
    let mut store = Store::zeros();
    assert!(!broken(&store));
    assert_eq!(misplaced(&store), 0);
    assert_eq!(reference::step(&mut store), Answer::Idle);
    assert_eq!(reference::record(&mut store, 0, 2, 0), Reply::Denied(Refusal::Word(3)));
    assert_eq!(reference::start(&mut store, 0, 0, 2, 20, 0), Reply::Denied(Refusal::Wanted(0, 2)));
    let file = reference::gen::build::Draft::new(10).file();
    assert_eq!(reference::define(&mut store, 0, &file), Reply::Denied(Refusal::Wanted(0, 2)));
    assert_eq!(store, Store::zeros());
}
