//! Word 1: are the tables a store at all?

use crate::classes::Classes;
use crate::groups::Groups;
use crate::store::{cell, count, frame_base, Store, Value};
use crate::store::{FRAME_ROW, FREE, LENGTHS, LIMITS, LOADERS, LOCALS, MOST_LOADS, OBJECT_ROW, OPERANDS, REPORT, SHARE, TASKS};

/// Do the tables have the published lengths? All that boot checks.
pub fn lengths_fit(store: &Store) -> bool {
    store.lengths() == LENGTHS
}

pub fn broken(store: &Store) -> bool {
    unbroken(store).is_none()
}

/// The classes of a store that isn't broken.
pub fn unbroken(store: &Store) -> Option<Classes> {
    if !lengths_fit(store) || !counts_fit(store) {
        return None;
    }
    let classes = fitting(store)?;
    (groups_fit(store) && trace_fits(store)).then_some(classes)
}

/// Paper 11: "A store whose group numbers aren't exactly these counts as broken".
fn groups_fit(store: &Store) -> bool {
    store.groups() == Groups::made(store).cells()
}

/// Paper 10: "A stored trace of loads counts as broken if taking them back in turn would need rows that aren't there or leave a broken store."
/// The latest is taken back first, each on what the one before left. The groups of what is left would be made anew, so nothing is asked of them.
fn trace_fits(store: &Store) -> bool {
    let levels = store.levels();
    if levels.is_empty() {
        return true;
    }
    let mut left = store.clone();
    levels.into_iter().rev().all(|level| {
        let is_there = level.iter().zip(left.level()).all(|(&rows, there)| rows <= there);
        left.lower(level);
        is_there && fitting(&left).is_some()
    })
}

/// The classes of a store whose lengths and counts fit and that isn't broken, groups and the trace of loads aside.
fn fitting(store: &Store) -> Option<Classes> {
    let classes = Classes::read(store)?;
    let rows_fit = numbers_fit(store) && rows_fit(store, &classes);
    (rows_fit && objects_fit(store, &classes) && share_fits(store) && frames_fit(store, &classes)).then_some(classes)
}

fn counts_fit(store: &Store) -> bool {
    store.counts.iter().zip(LIMITS).all(|(&count, limit)| count <= limit) && store.count(count::LOADS) <= MOST_LOADS
}

/// Do the numbers of both tables' used rows together count from 0 on, and rise along each table? Then each next number stands at the head of
/// what is left of one of the two.
fn numbers_fit(store: &Store) -> bool {
    let (mut ties, mut subtypes) = (store.tie_numbers(), store.subtype_numbers());
    (0..store.constraint_count() as u16).all(|number| {
        for left in [&mut ties, &mut subtypes] {
            if left.first() == Some(&number) {
                *left = &left[1..];
                return true;
            }
        }
        false
    })
}

fn rows_fit(store: &Store, classes: &Classes) -> bool {
    store.cache_rows().all(|[loader, _, class]| loader < LOADERS && classes.has(u32::from(class)))
        && store.tie_rows().all(|[one, other, _]| one < LOADERS && other < LOADERS)
        && store.subtype_rows().all(|[loader, _, _]| loader < LOADERS)
}

fn is_value(owners: &[u16], cells: &[u32], at: usize) -> bool {
    match Value::read(cells, at) {
        Some(Value::Int(_)) | Some(Value::Null) => true,
        Some(Value::Object(object)) => owners.get(object as usize).is_some_and(|&owner| owner != FREE),
        Some(Value::Empty) | None => false,
    }
}

fn is_local(owners: &[u16], cells: &[u32], at: usize) -> bool {
    Value::read(cells, at) == Some(Value::Empty) || is_value(owners, cells, at)
}

/// Nothing is asked of a free row's class and fields.
fn objects_fit(store: &Store, classes: &Classes) -> bool {
    let owners = store.owners();
    let object_fits = |row: &[u32]| {
        classes.has(row[0])
            && (0..classes.field_count(row[0] as u16)).all(|field| is_value(owners, row, 1 + 2 * field))
    };
    owners.iter().zip(store.objects.chunks_exact(OBJECT_ROW)).all(|(&owner, row)| match owner {
        FREE => true,
        1..=TASKS => object_fits(row),
        _ => false,
    })
}

/// Paper 8: "the report may hold at most 192 until swept; a store with more is broken".
fn share_fits(store: &Store) -> bool {
    store.made_by(REPORT) <= SHARE
}

fn frames_fit(store: &Store, classes: &Classes) -> bool {
    (0..usize::from(TASKS)).all(|task| {
        (0..store.frame_count(task)).all(|depth| {
            let base = frame_base(task, depth);
            frame_fits(store.owners(), classes, &store.frames[base..base + FRAME_ROW])
        })
    })
}

fn frame_fits(owners: &[u16], classes: &Classes, frame: &[u32]) -> bool {
    let operands = frame[cell::OPERANDS] as usize;
    classes.has(frame[cell::CLASS])
        && operands <= OPERANDS
        && (0..LOCALS).all(|local| is_local(owners, frame, cell::LOCAL_0 + 2 * local))
        && (0..operands).all(|operand| is_value(owners, frame, cell::OPERAND_0 + 2 * operand))
}
