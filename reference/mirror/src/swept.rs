//! sweep, and the numbers of objects, done wrongly.

use std::collections::BTreeSet;

use reference::answer::{denied, word};
use reference::broken::unbroken;
use reference::gen::damage::looked_at;
use reference::gen::objects::all_in_use;
use reference::gen::reach::{reached, Without};
use reference::gen::Call;
use reference::store::{count, FREE, MOST_OBJECTS, OBJECT_ROW};
use reference::{broken, Refusal, Reply, Store};

use crate::faults::stepping;

/// A sweep that keeps what is reached with something left out.
pub fn without(call: &Call, store: &mut Store, without: Without) -> Option<Reply> {
    keeping(call, store, |store| reached(store, without))
}

/// A sweep that keeps these objects and frees the others.
pub fn keeping(call: &Call, store: &mut Store, kept: impl Fn(&Store) -> BTreeSet<u32>) -> Option<Reply> {
    if *call != Call::Sweep || broken(store) {
        return None;
    }
    let kept = kept(store);
    let freed: Vec<u32> = store.objects_in_use().filter(|object| !kept.contains(object)).collect();
    freed.iter().for_each(|&object| store.owners_mut()[object as usize] = FREE);
    Some(Reply::Swept(freed.len() as u16))
}

/// A right sweep, and then something to the store before and after it, and to the number freed.
pub fn swept(call: &Call, store: &mut Store, then: impl Fn(&Store, &mut Store, &mut u16)) -> Option<Reply> {
    let before = store.clone();
    match call.apply(store) {
        Reply::Swept(mut freed) => {
            then(&before, store, &mut freed);
            Some(Reply::Swept(freed))
        }
        reply => Some(reply),
    }
}

/// The rows below the object count that are free.
pub fn free(store: &Store) -> impl Iterator<Item = usize> + '_ {
    store.owners().iter().enumerate().filter(|(_, &owner)| owner == FREE).map(|(object, _)| object)
}

/// Lowers the object count to the last object.
pub fn lower_the_count(store: &mut Store) {
    store.counts[count::OBJECTS] = store.objects_in_use().last().map_or(0, |object| object as u16 + 1);
}

/// Empties the cells of the free rows.
pub fn clear_free_rows(store: &mut Store) {
    for object in free(&store.clone()) {
        store.objects[object * OBJECT_ROW..(object + 1) * OBJECT_ROW].fill(0);
    }
}

/// Starts and steps that take free rows for objects, where `hides` says so of the object count.
pub fn never_again(call: &Call, store: &mut Store, hides: fn(usize) -> bool) -> Option<Reply> {
    let hidden = |store: &mut Store, make: &mut dyn FnMut(&mut Store)| {
        let before = store.clone();
        if hides(store.count(count::OBJECTS)) {
            *store = all_in_use(store, true);
        }
        make(store);
        for object in free(&before).filter(|_| hides(before.count(count::OBJECTS))) {
            let row = object * OBJECT_ROW..(object + 1) * OBJECT_ROW;
            store.counts[count::OWNERS + object] = FREE;
            store.objects[row.clone()].copy_from_slice(&before.objects[row]);
        }
    };
    let stepped = stepping(call, store, |store, classes| {
        let mut answer = None;
        hidden(store, &mut |store| answer = Some(reference::step::take_step(store, classes)));
        answer.expect("a step")
    });
    stepped.or_else(|| {
        let mut reply = None;
        if matches!(call, Call::Start { .. }) && !broken(store) {
            hidden(store, &mut |store| reply = Some(call.apply(store)));
        }
        reply
    })
}

/// A next number, as long as there is one.
pub fn is_room(used: usize) -> bool {
    used < MOST_OBJECTS
}

/// Objects that count as the quote's, whoever made them.
pub fn all_are_the_quotes(call: &Call, store: &mut Store) -> Option<Reply> {
    let before = store.counts.clone();
    let reply = call.apply(store);
    for (now, then) in store.counts.iter_mut().zip(before).take(count::TIE_NUMBERS).skip(count::OWNERS) {
        if *now != then && *now == 2 {
            *now = 1;
        }
    }
    Some(reply)
}

/// Free rows are looked at as if they were in use.
pub fn checks_free_rows(call: &Call, store: &mut Store) -> Option<Reply> {
    let looks = *call != Call::Boot && unbroken(store).is_some() && broken(&all_in_use(store, false));
    looks.then(|| denied(word::BROKEN))
}

/// A number that names a free row counts as one in use.
pub fn takes_freed_numbers(call: &Call, store: &mut Store) -> Option<Reply> {
    let refusal = call.apply(&mut store.clone()).refusal();
    if refusal != Some(Refusal::Word(word::BROKEN)) || !looked_at(store) {
        return None;
    }
    let mut all = all_in_use(store, true);
    (!broken(&all)).then(|| call.apply(&mut all))
}
