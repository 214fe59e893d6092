//! start, run and drop.

use crate::answer::{denied, word, Answer, Refusal, Reply};
use crate::broken::unbroken;
use crate::classes::Classes;
use crate::signature::Signature;
use crate::step::take_step;
use crate::store::{count, Store, Value, LOADERS, OBJECT_ROW, TASKS};

/// The most steps of a run.
const MOST_STEPS: u32 = 65_535;

/// Makes an object for a task, with all fields 0 or null, of the lowest unused number; nothing if there is none.
pub fn make_object(store: &mut Store, classes: &Classes, class: u16, task: usize) -> Option<Value> {
    let object = store.unused_object()?;
    let types = classes.field_types(store, class);
    store.objects[object as usize * OBJECT_ROW] = u32::from(class);
    for (field, (_, of)) in types.iter().enumerate() {
        Value::first(of).write(&mut store.objects, Store::field_cell(object, field));
    }
    store.own_object(object, task);
    Some(Value::Object(object))
}

pub fn start(store: &mut Store, task: u32, loader: u32, name: u16, method: u16, int: u32) -> Reply {
    let Some(classes) = unbroken(store) else {
        return denied(word::BROKEN);
    };
    if task >= TASKS.into() || loader >= LOADERS.into() || name < 2 || method == 0 {
        return denied(word::UNKNOWN);
    }
    let (task, loader) = (task as usize, loader as u16);
    if store.frame_count(task) > 0 {
        return denied(word::BUSY);
    }
    let Some(class) = store.cached(loader, name) else {
        return Reply::Denied(Refusal::Wanted(loader as u8, name));
    };
    let Some((owner, selected)) = classes.method(store, class, Signature::of_ints(method)) else {
        return denied(word::ABSENT);
    };
    let place = selected.place;
    if store.is_share_used(task) {
        return denied(word::SHARE_USED);
    }
    let Some(this) = make_object(store, &classes, class, task) else {
        return denied(word::FULL);
    };
    store.enter(task, owner, place, this, &[Value::Int(int)]);
    store.close();
    Reply::Accepted
}

/// Steps leave a store that isn't broken so, and leave its classes and cache: both are looked at once.
pub fn run(store: &mut Store, n: u32) -> Reply {
    let Some(classes) = unbroken(store) else {
        return denied(word::BROKEN);
    };
    if n == 0 || n > MOST_STEPS {
        return denied(word::UNKNOWN);
    }
    let mut ran = 0;
    loop {
        let answer = take_step(store, &classes);
        let Answer::Ran(_) = answer else {
            return Reply::RanFor(ran, answer);
        };
        ran += 1;
        if u32::from(ran) == n {
            return Reply::RanFor(ran, answer);
        }
    }
}

pub fn drop_task(store: &mut Store, task: u32) -> Reply {
    if unbroken(store).is_none() {
        return denied(word::BROKEN);
    }
    if task >= TASKS.into() {
        return denied(word::UNKNOWN);
    }
    store.counts[count::FRAMES + task as usize] = 0;
    store.close();
    Reply::Accepted
}
