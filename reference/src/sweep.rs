//! sweep: frees the objects that no frame reaches.

use crate::answer::{denied, word, Reply};
use crate::broken::unbroken;
use crate::classes::Classes;
use crate::store::{cell, frame_base, Store, Value, FRAME_ROW, FREE, MOST_OBJECTS, OBJECT_ROW, TASKS};

pub fn sweep(store: &mut Store) -> Reply {
    let Some(classes) = unbroken(store) else {
        return denied(word::BROKEN);
    };
    let is_reached = reached(store, &classes);
    let mut freed = 0;
    for (owner, is_reached) in store.owners_mut().iter_mut().zip(is_reached) {
        if *owner != FREE && !is_reached {
            *owner = FREE;
            freed += 1;
        }
    }
    store.close();
    Reply::Swept(freed)
}

/// The objects that were found to be reached, in the order in which they were found, each once.
struct Found {
    numbers: [u8; MOST_OBJECTS],
    count: usize,
    is_reached: [bool; MOST_OBJECTS],
}

impl Found {
    /// Adds the objects that these values name.
    fn add(&mut self, values: &[u32]) {
        for value in values.chunks_exact(2) {
            let Some(Value::Object(object)) = Value::read(value, 0) else {
                continue;
            };
            if !std::mem::replace(&mut self.is_reached[object as usize], true) {
                self.numbers[self.count] = object as u8;
                self.count += 1;
            }
        }
    }
}

/// Which objects locals and operands reach, straight or through fields, in a store that isn't broken.
fn reached(store: &Store, classes: &Classes) -> [bool; MOST_OBJECTS] {
    let mut found = Found { numbers: [0; MOST_OBJECTS], count: 0, is_reached: [false; MOST_OBJECTS] };
    for task in 0..usize::from(TASKS) {
        for depth in 0..store.frame_count(task) {
            let frame = &store.frames[frame_base(task, depth)..][..FRAME_ROW];
            // The operands stand behind the locals.
            found.add(&frame[cell::LOCAL_0..cell::OPERAND_0 + 2 * frame[cell::OPERANDS] as usize]);
        }
    }
    let mut looked_at = 0;
    while looked_at < found.count {
        let row = &store.objects[usize::from(found.numbers[looked_at]) * OBJECT_ROW..][..OBJECT_ROW];
        found.add(&row[1..1 + 2 * classes.field_count(row[0] as u16)]);
        looked_at += 1;
    }
    found.is_reached
}
