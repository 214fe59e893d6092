//! Which objects the frames reach, worked out plainly: all that they reach, or with something left out, as a learner might.

use std::collections::BTreeSet;

use crate::broken::unbroken;
use crate::classes::Classes;
use crate::hidden::{fields, is_hidden};
use crate::store::{cell, frame_base, Store, Value, FRAME_ROW, LOCALS, TASKS};

#[derive(Clone, Copy, Debug, PartialEq, Eq)]
pub enum Without {
    Nothing,
    Locals,
    Operands,
    /// All frames of a task but its top one.
    LowerFrames,
    Report,
    /// What fields of objects in fields hold.
    FarLinks,
    InheritedFields,
    /// Fields whose name a class further down declares too.
    HiddenFields,
}

/// What can be left out, in words.
pub const LEFT_OUT: [(&str, Without); 7] = [
    ("locals", Without::Locals),
    ("operands", Without::Operands),
    ("frames below the top", Without::LowerFrames),
    ("the report", Without::Report),
    ("links behind the first", Without::FarLinks),
    ("inherited fields", Without::InheritedFields),
    ("hidden fields", Without::HiddenFields),
];

/// The objects that values name, so many from this cell on.
fn named(cells: &[u32], first: usize, count: usize) -> impl Iterator<Item = u32> + '_ {
    (0..count).filter_map(move |i| match Value::read(cells, first + 2 * i) {
        Some(Value::Object(object)) => Some(object),
        _ => None,
    })
}

fn roots(store: &Store, without: Without) -> BTreeSet<u32> {
    let tasks = if without == Without::Report { 1 } else { usize::from(TASKS) };
    let mut roots = BTreeSet::new();
    for task in 0..tasks {
        let used = store.frame_count(task);
        let lowest = if without == Without::LowerFrames { used.saturating_sub(1) } else { 0 };
        for depth in lowest..used {
            let frame = &store.frames[frame_base(task, depth)..][..FRAME_ROW];
            if without != Without::Locals {
                roots.extend(named(frame, cell::LOCAL_0, LOCALS));
            }
            if without != Without::Operands {
                roots.extend(named(frame, cell::OPERAND_0, frame[cell::OPERANDS] as usize));
            }
        }
    }
    roots
}

fn in_fields(store: &Store, classes: &Classes, object: u32, without: Without) -> Vec<u32> {
    let class = store.object_class(object);
    let held = |place: usize| named(&store.objects, Store::field_cell(object, place), 1);
    let all = fields(store, classes, class);
    let is_left_out = |&place: &usize| match without {
        Without::InheritedFields => all[place].class != class,
        Without::HiddenFields => is_hidden(&all, place),
        _ => false,
    };
    (0..all.len()).filter(|place| !is_left_out(place)).flat_map(held).collect()
}

/// The objects that the frames of a store reach. The store isn't broken.
pub fn reached(store: &Store, without: Without) -> BTreeSet<u32> {
    let classes = unbroken(store).expect("a store");
    let mut reached = roots(store, without);
    let mut newest = reached.clone();
    loop {
        let linked = newest.iter().flat_map(|&object| in_fields(store, &classes, object, without));
        newest = linked.filter(|object| !reached.contains(object)).collect();
        if newest.is_empty() {
            return reached;
        }
        reached.extend(&newest);
        if without == Without::FarLinks {
            return reached;
        }
    }
}
