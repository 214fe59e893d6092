//! Document 01's calls but for what one instruction does: boot, define, record, start, step, run and drop.

use super::agree::{has_tie, tie, Bound};
use super::class::{read, ClassFile, Head};
use super::step::turn;
use super::tables::{OldStore, Value, CACHE, CLASSES, FRAMES, INT, KEPT, LENGTHS, LOADERS, MOST_FIELDS, OBJECT, OBJECTS, SUBTYPES, TASKS, TIES};
use super::verify::{verify, Note};
use super::world::{Class, World};
use crate::answer::{word, Answer, Refusal, Reply};

fn denied(number: u8) -> Reply {
    Reply::Denied(Refusal::Word(number))
}

pub fn boot(store: &mut OldStore) -> Reply {
    if store.lengths() != LENGTHS {
        return denied(word::BROKEN);
    }
    store.counts.copy_from_slice(&[1, 0, 1, 0, 0, 0, 0, 0]);
    store.classes[..3].copy_from_slice(&[0, 0, 0]);
    store.cache[..3].copy_from_slice(&[0, OBJECT, 0]);
    Reply::Accepted
}

/// The rows as they are.
pub fn bound(store: &OldStore) -> Bound {
    Bound { entries: store.cache_rows(), ties: store.tie_rows(), subtypes: store.subtype_rows() }
}

/// Is there room for all rows?
fn is_room(store: &OldStore, after: &Bound) -> bool {
    let more = |which: usize, rows: &Vec<[u16; 3]>| store.has_room(which, rows.len() - store.count(which));
    more(CACHE, &after.entries) && more(TIES, &after.ties) && more(SUBTYPES, &after.subtypes)
}

/// Writes the rows that are behind those of the store.
fn write(store: &mut OldStore, after: &Bound) {
    for (which, rows) in [(CACHE, &after.entries), (TIES, &after.ties), (SUBTYPES, &after.subtypes)] {
        for &row in &rows[store.count(which)..] {
            store.add_row(which, row);
        }
    }
}

/// define: 1 3 2 6 4 5 8 10 9.
pub fn define(store: &mut OldStore, loader: u32, bytes: &[u8]) -> Reply {
    let Some(mut world) = World::of(store) else {
        return denied(word::BROKEN);
    };
    if loader >= LOADERS {
        return denied(word::UNKNOWN);
    }
    let loader = loader as u16;
    let Some(file) = read(bytes) else {
        return denied(word::FILE);
    };
    let Some(notes) = verify(&file) else {
        return denied(word::UNVERIFIED);
    };
    if store.cached(loader, file.name).is_some() {
        return denied(word::TAKEN);
    }
    let Some(superclass) = store.cached(loader, file.superclass) else {
        return Reply::Denied(Refusal::Wanted(loader as u8, file.superclass));
    };
    let inherited = world.fields(superclass);
    if file.fields.iter().any(|own| inherited.iter().any(|above| above.0 == own.0)) {
        return denied(word::HIDDEN);
    }
    let after = posted(store, &world, loader, superclass, &file, &notes);
    let is_room = is_room(store, &after) && store.has_room(CLASSES, 1) && store.has_room(KEPT, bytes.len());
    if !is_room || inherited.len() + file.fields.len() > MOST_FIELDS {
        return denied(word::FULL);
    }
    world.classes.push(Class { loader, file: Some(file), superclass: Some(superclass) });
    if !after.agrees(&world) {
        return denied(word::CLASH);
    }
    let (class, start) = (store.counts[CLASSES], store.count(KEPT));
    store.kept[start..start + bytes.len()].copy_from_slice(bytes);
    store.counts[KEPT] += bytes.len() as u16;
    store.add_row(CLASSES, [loader, start as u16, bytes.len() as u16]);
    write(store, &after);
    Reply::Defined(class as u8)
}

/// The rows with those that a define adds: its entry, the notes under its loader, then for each method that overrides one the ties on argument and result.
fn posted(store: &OldStore, world: &World, loader: u16, superclass: u16, file: &ClassFile, notes: &[Note]) -> Bound {
    let mut after = bound(store);
    after.entries.push([loader, file.name, store.counts[CLASSES]]);
    for &(low, high) in notes {
        if !after.subtypes.contains(&[loader, low, high]) {
            after.subtypes.push([loader, low, high]);
        }
    }
    for Head { name, argument, result } in file.methods.iter().map(|method| method.head) {
        let Some((nearest, _)) = world.method(superclass, Head { name, argument, result }) else {
            continue;
        };
        for row in [argument, result].into_iter().filter_map(|of| tie(loader, world.loader(nearest), of)) {
            if !has_tie(&after.ties, row) {
                after.ties.push(row);
            }
        }
    }
    after
}

/// record: 1 3 13 4 10 9.
pub fn record(store: &mut OldStore, loader: u32, name: u32, class: u32) -> Reply {
    let Some(world) = World::of(store) else {
        return denied(word::BROKEN);
    };
    if loader >= LOADERS || name < 2 || !world.has(class) {
        return denied(word::UNKNOWN);
    }
    if u32::from(world.name(class as u16)) != name {
        return denied(word::MISNAMED);
    }
    let entry = [loader as u16, name as u16, class as u16];
    match store.cached(entry[0], entry[1]) {
        Some(there) if there == entry[2] => return Reply::Accepted,
        Some(_) => return denied(word::TAKEN),
        None => {}
    }
    let mut after = bound(store);
    after.entries.push(entry);
    if !is_room(store, &after) {
        return denied(word::FULL);
    }
    if !after.agrees(&world) {
        return denied(word::CLASH);
    }
    write(store, &after);
    Reply::Accepted
}

/// start: 1 3 12 5 7 10.
pub fn start(store: &mut OldStore, task: u32, loader: u32, name: u16, method: u16, int: u32) -> Reply {
    let Some(world) = World::of(store) else {
        return denied(word::BROKEN);
    };
    if task >= TASKS || loader >= LOADERS || name < 2 || method == 0 {
        return denied(word::UNKNOWN);
    }
    let (task, loader) = (task as usize, loader as u16);
    if store.frame_count(task) > 0 {
        return denied(word::BUSY);
    }
    let Some(class) = store.cached(loader, name) else {
        return Reply::Denied(Refusal::Wanted(loader as u8, name));
    };
    let Some((owner, place)) = world.method(class, Head { name: method, argument: INT, result: INT }) else {
        return denied(word::ABSENT);
    };
    if !store.has_room(OBJECTS, 1) {
        return denied(word::FULL);
    }
    let this = store.add_object(class, &world.field_types(class));
    store.add_frame(task, owner, place, this, Value::Int(int));
    Reply::Accepted
}

pub fn step(store: &mut OldStore) -> Reply {
    Reply::Stepped(match World::of(store) {
        Some(world) => turn(store, &world),
        None => Answer::Refused(Refusal::Word(word::BROKEN)),
    })
}

/// run: 1 3. Steps leave what the world says as it is.
pub fn run(store: &mut OldStore, n: u32) -> Reply {
    let Some(world) = World::of(store) else {
        return denied(word::BROKEN);
    };
    if !(1..=65_535).contains(&n) {
        return denied(word::UNKNOWN);
    }
    let mut ran = 0;
    loop {
        let answer = turn(store, &world);
        let goes_on = matches!(answer, Answer::Ran(_));
        ran += u16::from(goes_on);
        if !goes_on || u32::from(ran) == n {
            return Reply::RanFor(ran, answer);
        }
    }
}

/// drop: 1 3.
pub fn drop_task(store: &mut OldStore, task: u32) -> Reply {
    if World::of(store).is_none() {
        return denied(word::BROKEN);
    }
    if task >= TASKS {
        return denied(word::UNKNOWN);
    }
    store.counts[FRAMES + task as usize] = 0;
    Reply::Accepted
}
