//! sweep: what it frees, what it leaves, and which numbers come next.

use reference::gen::build::{Code, Draft};
use reference::gen::damage::damaged;
use reference::gen::graphs::graphs;
use reference::gen::reach::{reached, Without};
use reference::gen::swept::{
    a_deep_chain, cycles, held_by_a_local, held_by_a_waiting_frame, held_by_an_operand, held_by_fields, held_by_inherited_fields,
    held_by_the_report, lowest_numbers, twice, NODE,
};
use reference::gen::Trial;
use reference::store::{count, Store, Value, FREE, INT};
use reference::{broken, Answer, Refusal, Reply};

const FULL: Reply = Reply::Denied(Refusal::Word(10));

/// What the sweeps of a list freed.
fn freed(trial: &Trial) -> Vec<u16> {
    let swept = |reply: &Reply| match *reply {
        Reply::Swept(freed) => Some(freed),
        _ => None,
    };
    trial.replies.iter().filter_map(swept).collect()
}

#[test]
fn what_holds_an_object() {
    assert_eq!(freed(&held_by_a_local()), [0, 1, 0]);
    assert_eq!(freed(&held_by_an_operand()), [0, 1]);
    assert_eq!(freed(&held_by_a_waiting_frame()), [0, 1, 1]);
    assert_eq!(freed(&held_by_the_report()), [1, 0, 2]);
    assert_eq!(freed(&held_by_fields()), [0, 3, 3]);
    assert_eq!(freed(&held_by_inherited_fields()), [0, 1, 1, 1]);
    assert_eq!(freed(&a_deep_chain()), [0, 256]);
    assert_eq!(freed(&cycles()), [0, 0, 3]);
    assert_eq!(freed(&twice()), [0, 1, 0]);
}

#[test]
fn the_lowest_unused_numbers_come_next() {
    let store = lowest_numbers().store;
    assert_eq!(store.counts[count::OBJECTS], 7);
    assert_eq!(store.owners(), [1; 7]);
    // The freed 2 and 4, and 6, are of the lower class; 2 is the lowest operand.
    let classes: Vec<u16> = (0..7).map(|object| store.object_class(object)).collect();
    assert_eq!(classes, [1, 1, 2, 1, 2, 1, 2]);
    assert_eq!(store.frames[20..26], [3, 2, 3, 4, 3, 6]);
    // A freed row begins anew: all three of its fields are null.
    assert_eq!(store.objects[2 * 33..2 * 33 + 7], [2, 2, 0, 2, 0, 2, 0]);
}

#[test]
fn a_number_has_the_owner_that_took_it_last() {
    let mut trial = held_by_the_report();
    assert_eq!(trial.store.owners(), [2, 0, 1, 1]);
    assert_eq!(trial.store.frames[32 * 52 + 4..32 * 52 + 6], [3, 0]);
    trial.drop_task(0);
    trial.drop_task(1);
    assert_eq!(trial.sweep(), Reply::Swept(3));
    assert_eq!(trial.store.owners(), [FREE; 4]);
    trial.start(0, 1, NODE, 20, 0);
    assert_eq!(trial.store.owners(), [1, 0, 0, 0]);
}

/// A box that quotes until 256 objects are in use.
fn full() -> Trial {
    let mut trial = Trial::ready([1]);
    trial.define(1, &Draft::new(10).field(30, INT).main(20, &Code::new().iload(1).ireturn()));
    for i in 0..256 {
        assert_eq!(trial.start(0, 1, 10, 20, i), Reply::Accepted);
        trial.run(9);
    }
    trial
}

#[test]
fn full_means_256_in_use() {
    let mut trial = full();
    assert_eq!(trial.start(1, 1, 10, 20, 7), FULL);
    assert_eq!(trial.sweep(), Reply::Swept(256));
    assert_eq!(trial.store.counts[count::OBJECTS], 256, "rows that have been used");
    for object in 0..3 {
        assert_eq!(trial.start(1, 1, 10, 20, 7), Reply::Accepted);
        assert_eq!(trial.store.frames[32 * 52 + 5], object);
        assert_eq!(trial.run(9), Reply::RanFor(1, Answer::Finished(1, 7)));
    }
    assert_eq!(trial.store.owners()[..4], [2, 2, 2, 0]);
    // One free row among 256 is room.
    trial.store.owners_mut().fill(1);
    trial.store.owners_mut()[200] = FREE;
    assert_eq!(trial.start(0, 1, 10, 20, 7), Reply::Accepted);
    assert_eq!(trial.store.frames[5], 200);
    assert_eq!(trial.start(1, 1, 10, 20, 7), FULL);
}

#[test]
fn a_full_step_goes_on_after_a_sweep() {
    let mut trial = full();
    trial.sweep();
    let code = Code::new().object(10).pop().object(10).pop().end(INT);
    trial.define(1, &Draft::new(11).main(20, &code));
    trial.start(0, 1, 11, 20, 7);
    trial.store.owners_mut()[2..].fill(1);
    assert_eq!(trial.run(9), Reply::RanFor(2, Answer::Refused(Refusal::Word(10))));
    assert_eq!(trial.sweep(), Reply::Swept(255), "all but the quote's own");
    assert_eq!(trial.run(9), Reply::RanFor(3, Answer::Finished(0, 0)));
}

#[test]
fn a_local_that_is_unset_holds_too() {
    let mut trial = held_by_an_operand();
    assert_eq!(trial.store.owners(), [1, 0]);
    trial.store.own_object(1, 0);
    Value::Object(1).write(&mut trial.store.frames, 4 + 2 * 7);
    assert_eq!(trial.sweep(), Reply::Swept(0));
    Value::Empty.write(&mut trial.store.frames, 4 + 2 * 7);
    // Cells past the operands hold nothing.
    Value::Object(1).write(&mut trial.store.frames, 20);
    assert_eq!(trial.sweep(), Reply::Swept(1));
}

#[test]
fn a_broken_store_is_left() {
    let mut trial = held_by_a_local();
    trial.store.counts[8] = 3;
    let before = trial.store.clone();
    assert_eq!(trial.sweep(), Reply::Denied(Refusal::Word(1)));
    assert_eq!(trial.store, before);
    let mut zeros = Store::zeros();
    assert_eq!(reference::sweep(&mut zeros), Reply::Swept(0), "zeros are a store without objects");
}

/// The owners after a sweep are those of the objects that are reached, no load can be taken back, and no other cell changes.
fn plainly(store: &Store, label: &str) -> usize {
    let (all, kept) = (store.objects_in_use().count(), reached(store, Without::Nothing));
    let mut wanted = store.clone();
    wanted.close();
    for (object, owner) in (0..).zip(wanted.owners_mut()) {
        *owner = if kept.contains(&object) { *owner } else { FREE };
    }
    let mut swept = store.clone();
    assert_eq!(reference::sweep(&mut swept), Reply::Swept((all - kept.len()) as u16), "{label}");
    assert!(swept == wanted, "{label}: other cells");
    assert_eq!(reference::sweep(&mut swept), Reply::Swept(0), "{label}: a second time");
    assert!(swept == wanted, "{label}: other cells, a second time");
    all - kept.len()
}

#[test]
fn the_sweep_is_the_plain_reading() {
    let (mut stores, mut freed) = (0, 0);
    for seed in 0..4_000 {
        let damaged = damaged(seed);
        for store in [graphs(seed, 12).store, damaged].iter().filter(|store| !broken(store)) {
            stores += 1;
            freed += plainly(store, &format!("seed {seed}"));
        }
    }
    println!("{stores} stores, {freed} objects freed");
    assert!(stores > 5_000 && freed > 50_000);
}

/// The lists about objects have many of them.
#[test]
fn lists_about_objects_are_about_objects() {
    let (mut most, mut full) = (0, 0);
    for seed in 0..200 {
        let trial = graphs(seed, 40);
        assert!(matches!(trial.replies[2..4], [Reply::Defined(1), Reply::Defined(2)]), "seed {seed}: {:?}", &trial.replies[..4]);
        most = most.max(trial.store.objects_in_use().count());
        let is_full = |reply: &Reply| matches!(reply, Reply::RanFor(_, Answer::Refused(Refusal::Word(10)))) || *reply == FULL;
        full += usize::from(trial.replies.iter().any(is_full));
    }
    println!("at most {most} objects at an end, {full} of 200 lists were told 'full'");
    assert!(most > 100 && full > 10);
}
