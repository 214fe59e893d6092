//! Damage by kept files that hide fields, which no define has looked at, and values in such fields.

use super::build::{Code, Draft};
use super::cases::MAIN;
use super::damage::{add_unseen, is_whole, start_in, unused_name};
use super::rng::Rng;
use crate::store::{count, Store, Value, INT, OBJECT};

const FIELD: u16 = 30;

/// Three classes, each below the one before, of one loader or more, that mostly have a field of one name, of two types; a task that uses these
/// fields through all of them, and values there.
pub fn hidden_fields(rng: &mut Rng, store: &mut Store) {
    if !is_whole(store) || store.cached(0, OBJECT) != Some(0) {
        return;
    }
    let first = unused_name(store);
    let line = [first, first + 1, first + 2];
    let loaders = [0, rng.below(2) as u16, rng.below(3) as u16];
    let types = line.map(|_| if rng.percent(85) { Some(rng.pick(&[INT, INT, first])) } else { None });
    for place in 0..line.len() {
        let mut draft = Draft::new(line[place]).under(if place == 0 { OBJECT } else { line[place - 1] });
        if rng.percent(30) {
            draft = draft.field(31, first);
        }
        draft.fields.extend(types[place].map(|of| (FIELD, of)));
        if place == 2 {
            draft = draft.main(MAIN, &accesses(rng, line, types));
        }
        let Some(class) = add_unseen(store, loaders[place], &draft) else {
            return;
        };
        record(store, &loaders[place + 1..], [loaders[place], line[place], class]);
    }
    if let Some(object) = start_in(rng, store, loaders[2], line[2]) {
        fill(rng, store, object);
    }
}

/// Has these loaders know another loader's class, where there is room.
fn record(store: &mut Store, loaders: &[u16], [owner, name, class]: [u16; 3]) {
    for &loader in loaders.iter().filter(|&&loader| loader != owner) {
        if store.cached(loader, name).is_none() && !store.is_full(count::CACHE) {
            store.add_cached([loader, name, class]);
        }
    }
}

/// Some accesses to this object, through each of the classes, to fields that are mostly there.
fn accesses(rng: &mut Rng, line: [u16; 3], types: [Option<u16>; 3]) -> Code {
    let mut code = Code::new();
    for value in 0..rng.within(1, 9) as i16 {
        let (named, of) = (rng.below(3), rng.pick(&[INT, line[0]]));
        if !types[..=named].contains(&Some(of)) && rng.percent(95) {
            continue;
        }
        let (named, is_new) = (line[named], rng.percent(50));
        code = code.aload(0);
        code = match rng.below(5) {
            0 | 1 => code.getfield(named, FIELD, of).pop(),
            _ if of == INT => code.int(value).putfield(named, FIELD, of),
            _ if is_new => code.object(line[0]).putfield(named, FIELD, of),
            _ => code.aload(0).putfield(named, FIELD, of),
        };
    }
    code.iload(1).ireturn()
}

/// Values in the object's fields: ints for ints and objects for others, but for a few.
fn fill(rng: &mut Rng, store: &mut Store, object: u32) {
    let objects: Vec<u32> = store.objects_in_use().collect();
    for place in 0..3 {
        let at = Store::field_cell(object, place);
        let is_int = matches!(Value::read(&store.objects, at), Some(Value::Int(_))) != rng.percent(5);
        let value = if is_int { Value::Int(place as u32 + 5) } else { Value::Object(rng.pick(&objects)) };
        if rng.percent(80) {
            value.write(&mut store.objects, at);
        }
    }
}
