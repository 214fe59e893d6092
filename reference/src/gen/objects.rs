//! Damage to objects and their owners: free rows, values that name them, links between objects, full stores.

use super::build::{Code, Draft};
use super::cases::MAIN;
use super::damage::{add_unseen, is_whole, looked_at, number, start_in, unused_name};
use super::rng::Rng;
use crate::broken::unbroken;
use crate::store::{cell, count, frame_base, owner_of, Store, Value};
use crate::store::{FREE, LOCALS, MOST_OBJECTS, OBJECT, OBJECT_ROW, OPERANDS, QUOTE, REPORT, SHARE, TASKS};
use crate::task::make_object;

/// A copy in which every row below the object count is in use; those that were free hold what they hold, or an object of Object.
pub fn all_in_use(store: &Store, emptied: bool) -> Store {
    let mut copy = store.clone();
    for (object, &owner) in store.owners().iter().enumerate() {
        if owner == FREE {
            copy.own_object(object as u32, 0);
            let class = &mut copy.objects[object * OBJECT_ROW];
            *class = if emptied { 0 } else { *class };
        }
    }
    copy
}

/// An owner changed, mostly of a row below the object count.
pub fn an_owner(rng: &mut Rng, store: &mut Store) {
    let used = store.counts.get(count::OBJECTS).map_or(1, |&used| usize::from(used).clamp(1, MOST_OBJECTS));
    let end = if rng.percent(75) { used } else { MOST_OBJECTS };
    let row = rng.below(end);
    if let Some(owner) = store.counts.get_mut(count::OWNERS + row) {
        *owner = rng.pick(&[0, 0, 1, 2, 3, 255, 256, u16::MAX]);
    }
}

/// Rows that nothing reaches are freed, some that were never used are counted in, and free rows hold anything.
pub fn free_rows(rng: &mut Rng, store: &mut Store) {
    if !is_whole(store) {
        return;
    }
    crate::sweep(store);
    for _ in 0..rng.below(6) {
        let used = store.count(count::OBJECTS);
        if used < MOST_OBJECTS {
            store.counts[count::OWNERS + used] = FREE;
            store.counts[count::OBJECTS] += 1;
        }
    }
    for (&owner, row) in store.counts[count::OWNERS..].iter().zip(store.objects.chunks_exact_mut(OBJECT_ROW)) {
        if owner == FREE && rng.percent(50) {
            row.iter_mut().for_each(|cell| *cell = number(rng));
        }
    }
}

/// Some frame's row that is used.
fn some_frame(rng: &mut Rng, store: &Store) -> Option<usize> {
    let each = |task: usize| (0..store.frame_count(task)).map(move |depth| frame_base(task, depth));
    let all: Vec<usize> = (0..usize::from(TASKS)).flat_map(each).collect();
    (!all.is_empty()).then(|| rng.pick(&all))
}

/// Writes a value to a local or operand of some frame, or to a field of some object; the cells may hold no value.
fn put_somewhere(rng: &mut Rng, store: &mut Store, value: Value) {
    let objects: Vec<u32> = store.objects_in_use().collect();
    if !objects.is_empty() && rng.percent(50) {
        let at = Store::field_cell(rng.pick(&objects), rng.below(4));
        value.write(&mut store.objects, at);
    } else if let Some(base) = some_frame(rng, store) {
        value.write(&mut store.frames, base + cell::LOCAL_0 + 2 * rng.below(LOCALS + 4));
    }
}

/// A value that names a row below the object count which is free, or the row behind them.
pub fn unused_number(rng: &mut Rng, store: &mut Store) {
    if rng.percent(60) {
        free_rows(rng, store);
    }
    if !is_whole(store) {
        return;
    }
    let is_unused = |&object: &u32| store.objects_in_use().all(|used| used != object);
    let unused: Vec<u32> = (0..=store.counts[count::OBJECTS].into()).filter(is_unused).collect();
    let object = rng.pick(&unused);
    put_somewhere(rng, store, Value::Object(object));
}

/// Values that name objects in use, in fields and frames, whatever their types.
pub fn links(rng: &mut Rng, store: &mut Store) {
    if !is_whole(store) {
        return;
    }
    let objects: Vec<u32> = store.objects_in_use().collect();
    for _ in 0..2 * objects.len() {
        let value = if rng.percent(80) { Value::Object(rng.pick(&objects)) } else { Value::Null };
        put_somewhere(rng, store, value);
    }
}

/// Objects up to their limit, or fewer, of a class with fields if there is one, each linked to a neighbour or to any other.
pub fn many_objects(rng: &mut Rng, store: &mut Store) {
    let Some(classes) = unbroken(store).filter(|classes| classes.has(0)) else {
        return;
    };
    let linked: Vec<u16> = (0..store.counts[count::CLASSES]).filter(|&class| classes.field_count(class) > 0).collect();
    let class = if linked.is_empty() { 0 } else { rng.pick(&linked) };
    let (all, task) = (rng.pick(&[256, 256, 255, 100]), rng.below(2));
    // mostly no more than the report's share
    let exceeds = rng.percent(10);
    while store.objects_in_use().count() < all {
        let maker = if store.is_share_used(task) && !exceeds { QUOTE } else { task };
        make_object(store, &classes, class, maker);
    }
    let objects: Vec<u32> = store.objects_in_use().collect();
    let way = rng.below(4);
    for (at, &object) in objects.iter().enumerate().filter(|_| way > 0) {
        let to = [at + 1, at.wrapping_sub(1), rng.below(objects.len())][way - 1];
        let fields = classes.field_count(store.object_class(object));
        if let Some(&to) = objects.get(to).filter(|_| fields > 0) {
            let field = rng.below(fields);
            Value::Object(to).write(&mut store.objects, Store::field_cell(object, field));
        }
    }
    if rng.percent(50) {
        let end = rng.pick(&[objects[0], objects[objects.len() - 1]]);
        put_somewhere(rng, store, Value::Object(end));
    }
}

/// The report's objects at its share, one less, one more or many more, beside the quote's; mostly a task is about to make some.
pub fn a_share(rng: &mut Rng, store: &mut Store) {
    if !is_whole(store) || store.cached(0, OBJECT) != Some(0) {
        return;
    }
    if rng.percent(75) {
        about_to_make(rng, store);
    }
    let classes = unbroken(store).expect("a store");
    let reports = SHARE + rng.pick(&[0, 0, 0, 1, 1, 2, 64]) - rng.pick(&[0, 0, 1]);
    let all = rng.pick(&[reports, reports + 1, 255, 256]).clamp(reports, MOST_OBJECTS);
    while store.objects_in_use().count() < all && make_object(store, &classes, 0, QUOTE).is_some() {}
    let mut objects: Vec<u32> = store.objects_in_use().collect();
    (1..objects.len()).for_each(|at| objects.swap(at, rng.below(at + 1)));
    for (place, &object) in objects.iter().enumerate() {
        store.own_object(object, if place < reports { REPORT } else { QUOTE });
    }
    // what free rows and those past the count say is never read
    if rng.percent(30) && store.count(count::OBJECTS) < MOST_OBJECTS {
        let used = store.count(count::OBJECTS);
        store.counts[count::OWNERS + used..count::TIE_NUMBERS].fill(owner_of(REPORT));
    }
}

/// A task before a method that makes objects and lets them go; now and then it has no room for another operand, or wants the class.
fn about_to_make(rng: &mut Rng, store: &mut Store) {
    let name = unused_name(store);
    let made = if rng.percent(90) { name } else { name + 1 };
    let code = (0..rng.within(1, 9)).fold(Code::new(), |code, _| code.object(made).pop());
    if add_unseen(store, 0, &Draft::new(name).main(MAIN, &code.iload(1).ireturn())).is_none() {
        return;
    }
    start_in(rng, store, 0, name);
    if let Some(task) = store.turn().filter(|_| rng.percent(20)) {
        let base = frame_base(task, store.frame_count(task) - 1);
        store.frames[base + cell::OPERANDS] = OPERANDS as u32;
        (0..OPERANDS).for_each(|place| Value::Null.write(&mut store.frames, base + cell::OPERAND_0 + 2 * place));
    }
}

/// Is the store broken by the report's share alone?
pub fn is_past_the_share(store: &Store) -> bool {
    looked_at(store) && store.made_by(REPORT) > SHARE && is_whole(&without_reports(store))
}

/// A copy in which every object that the report made is the quote's.
pub fn without_reports(store: &Store) -> Store {
    let mut copy = store.clone();
    copy.owners_mut().iter_mut().filter(|owner| **owner == owner_of(REPORT)).for_each(|owner| *owner = owner_of(QUOTE));
    copy
}
