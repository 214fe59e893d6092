//! Placed values: what counts as misplaced, one by one.

use reference::gen::build::{Code, Draft};
use reference::gen::cases::MAIN;
use reference::gen::Trial;
use reference::store::{cell, frame_base, Store, Value, INT};
use reference::{broken, misplaced};

/// Loader 1: class 10 with an int field, one of class 10 and one of the unloaded 40; class 11 below 10 and class
/// 12. The quote waits in a call; the called frame holds its argument as an operand.
fn whole() -> Store {
    let mut trial = Trial::ready([1]);
    let main = Code::new().null().astore(2).object(12).pop().int(3).aload(0).object(11).invoke(10, 21, 10, INT);
    let callee = Code::new().aload(1).null().pop().pop().int(1).ireturn();
    let ten = Draft::new(10).field(30, INT).field(31, 10).field(32, 40);
    trial.define(1, &ten.main(MAIN, &main.iadd().ireturn()).method(21, 10, INT, &callee));
    trial.define(1, &Draft::new(11).under(10));
    trial.define(1, &Draft::new(12));
    trial.start(0, 1, 10, MAIN, 1);
    trial.run(9);
    assert_eq!(trial.store.counts[5..8], [3, 2, 0]);
    trial.store
}

/// Objects of whole(): 0 is a 10, 1 is a 12, 2 is an 11.
fn check(expected: usize, what: &str, change: impl FnOnce(&mut Store)) {
    let mut store = whole();
    assert_eq!(misplaced(&store), 0, "nothing is misplaced at first");
    change(&mut store);
    assert!(!broken(&store), "{what}: not broken");
    assert_eq!(misplaced(&store), expected, "{what}");
}

fn field(object: u32, field: usize, value: Value) -> impl FnOnce(&mut Store) {
    move |store| value.write(&mut store.objects, Store::field_cell(object, field))
}

fn local(depth: usize, local: usize, value: Value) -> impl FnOnce(&mut Store) {
    move |store| value.write(&mut store.frames, frame_base(0, depth) + cell::LOCAL_0 + 2 * local)
}

fn operand(depth: usize, operand: usize, value: Value) -> impl FnOnce(&mut Store) {
    move |store| value.write(&mut store.frames, frame_base(0, depth) + cell::OPERAND_0 + 2 * operand)
}

#[test]
fn fields() {
    check(1, "null for an int", field(0, 0, Value::Null));
    check(1, "an int for a reference", field(0, 1, Value::Int(0)));
    check(0, "the class itself", field(0, 1, Value::Object(0)));
    check(0, "a class below", field(0, 1, Value::Object(2)));
    check(1, "another class", field(0, 1, Value::Object(1)));
    check(1, "another class in an inherited field", field(2, 1, Value::Object(1)));
    check(0, "any object for a class that isn't loaded", field(0, 2, Value::Object(1)));
    check(1, "an int for a class that isn't loaded", field(0, 2, Value::Int(1)));
    check(1, "all objects count", |store| {
        store.objects[66] = 3;
        // Object 2 is no 10 any more: the frame's argument and operand are wrong, its own fields are gone.
        let base = frame_base(0, 1) + cell::OPERANDS;
        store.frames[base - 1] = 0;
        store.frames[base] = 0;
    });
}

#[test]
fn free_rows() {
    let null_for_an_int = |store: &mut Store| {
        store.objects[33] = 1;
        (0..3).for_each(|place| field(1, place, Value::Null)(store));
    };
    check(1, "an object's field", null_for_an_int);
    check(0, "a free row's", |store| {
        null_for_an_int(store);
        store.counts[8 + 1] = 0;
    });
}

#[test]
fn locals() {
    check(0, "an unset local", local(0, 7, Value::Object(1)));
    check(1, "this", local(0, 0, Value::Object(1)));
    check(1, "this is empty", local(0, 0, Value::Empty));
    check(0, "this below", local(0, 0, Value::Object(2)));
    check(1, "a reference for an int", local(0, 1, Value::Null));
    check(1, "an object where the type is null", local(0, 2, Value::Object(0)));
    check(1, "an int where the type is null", local(0, 2, Value::Int(0)));
    check(1, "the top frame's argument", local(1, 1, Value::Object(1)));
}

#[test]
fn operands() {
    check(1, "a waiting frame's", operand(0, 0, Value::Null));
    check(1, "the top frame's", operand(1, 0, Value::Int(4)));
    check(0, "null meets a class", operand(1, 0, Value::Null));
    let count = |depth: usize, count: u32| {
        move |store: &mut Store| store.frames[frame_base(0, depth) + cell::OPERANDS] = count
    };
    check(1, "one too few", count(1, 0));
    check(1, "one too few of a waiting frame", count(0, 0));
    check(1, "one too many", count(0, 2));
    check(2, "two too many", |store| {
        Value::Null.write(&mut store.frames, frame_base(0, 1) + cell::OPERAND_0 + 2);
        Value::Null.write(&mut store.frames, frame_base(0, 1) + cell::OPERAND_0 + 4);
        count(1, 3)(store);
    });
}

#[test]
fn frames_without_types() {
    let point = |depth: usize, cell: usize, value: u32| {
        move |store: &mut Store| store.frames[frame_base(0, depth) + cell] = value
    };
    check(1, "no such method", point(1, cell::METHOD, 2));
    check(1, "a class without methods", point(1, cell::CLASS, 0));
    check(1, "within an instruction", point(1, cell::POINT, 1));
    check(1, "past the code", point(1, cell::POINT, 99));
    check(1, "waiting where there is no operand", point(0, cell::POINT, 0));
}
