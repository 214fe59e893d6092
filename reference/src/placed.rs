//! Placed values: how many stand where their type doesn't let them.

use crate::broken::unbroken;
use crate::classes::Classes;
use crate::store::{cell, frame_base, Store, Value, FRAME_ROW, OBJECT_ROW, TASKS};
use crate::verifier::{types_at, Type, Types};

/// The count of misplaced values. Tables that are no store have none to count: they give the largest number.
pub fn misplaced(store: &Store) -> usize {
    let Some(classes) = unbroken(store) else {
        return usize::MAX;
    };
    let fields: usize = store.objects_in_use().map(|object| in_fields(store, &classes, object as usize)).sum();
    let frames: usize = (0..usize::from(TASKS)).map(|task| in_frames(store, &classes, task)).sum();
    fields + frames
}

/// Does the value break its type, read under this loader?
fn breaks(store: &Store, classes: &Classes, loader: u16, of: Type, value: Option<Value>) -> bool {
    match (of, value) {
        (Type::Unset, _) => false,
        (Type::Int, Some(Value::Int(_))) => false,
        (Type::Null | Type::Class(_), Some(Value::Null)) => false,
        (Type::Class(name), Some(Value::Object(object))) => match store.cached(loader, name) {
            Some(class) => !classes.below(store.object_class(object), class),
            None => false,
        },
        _ => true,
    }
}

fn in_fields(store: &Store, classes: &Classes, object: usize) -> usize {
    let row = &store.objects[object * OBJECT_ROW..(object + 1) * OBJECT_ROW];
    let types = classes.field_types(store, row[0] as u16);
    let misplaced = types.iter().enumerate().filter(|&(field, (declarer, of))| {
        let value = Value::read(row, 1 + 2 * field);
        breaks(store, classes, store.loader_of(declarer), Type::named(of), value)
    });
    misplaced.count()
}

fn in_frames(store: &Store, classes: &Classes, task: usize) -> usize {
    let used = store.frame_count(task);
    let each = (0..used).map(|depth| {
        let base = frame_base(task, depth);
        in_frame(store, classes, &store.frames[base..base + FRAME_ROW], depth + 1 < used)
    });
    each.sum()
}

/// The verifier's types at a frame's point.
fn types_of(store: &Store, frame: &[u32]) -> Option<Types> {
    let file = store.file(frame[cell::CLASS] as u16)?;
    let method = file.method(frame[cell::METHOD] as usize)?;
    types_at(file.name(), method, frame[cell::POINT] as usize)
}

fn in_frame(store: &Store, classes: &Classes, frame: &[u32], waits: bool) -> usize {
    let Some(types) = types_of(store, frame) else {
        return 1;
    };
    let Some(expected) = types.operands().len().checked_sub(usize::from(waits)) else {
        return 1;
    };
    let loader = store.loader_of(frame[cell::CLASS] as u16);
    let bad = |first: usize, of: &[Type]| {
        let values = of.iter().enumerate();
        values.filter(|&(i, &of)| breaks(store, classes, loader, of, Value::read(frame, first + 2 * i))).count()
    };
    let there = frame[cell::OPERANDS] as usize;
    let operands = &types.operands()[..expected.min(there)];
    bad(cell::LOCAL_0, &types.locals) + bad(cell::OPERAND_0, operands) + expected.abs_diff(there)
}
