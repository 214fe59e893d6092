//! A store as the rows that a page shows, and what changed between two.

use std::collections::BTreeMap;

use reference::broken::unbroken;
use reference::classes::Classes;
use reference::store::{cell, frame_base, TASKS};
use reference::Store;

use super::json;
use super::methods::Methods;
use crate::names::Names;
use crate::rows::{class_says, locals, object_says, operands};
use crate::words::task;

/// The rows by kind and number, each as JSON.
pub type Rows = BTreeMap<(String, u32), String>;

/// A request's number: its loader and its name.
fn request(loader: u16, name: u16) -> u32 {
    u32::from(loader) << 16 | u32::from(name)
}

/// The rows of a store. Of tables that are no store there is one that says so.
pub fn rows(store: &Store, names: &Names, methods: &mut Methods) -> Rows {
    let mut rows = Rows::new();
    let Some(classes) = unbroken(store) else {
        rows.insert(("broken".into(), 0), json::string("the tables are no store"));
        return rows;
    };
    loads(store, names, &mut rows);
    constraints(store, names, &mut rows);
    for object in store.objects_in_use() {
        rows.insert(("object".into(), object), json::string(&object_says(store, &classes, object, names)));
    }
    frames(store, &classes, names, methods, &mut rows);
    rows
}

/// Classes, and requests with the class and the loader that defined it.
fn loads(store: &Store, names: &Names, rows: &mut Rows) {
    for class in 0..store.counts[reference::store::count::CLASSES] {
        rows.insert(("class".into(), class.into()), json::string(&class_says(store, class, names)));
    }
    for [loader, name, class] in store.cache_rows() {
        let cells = [loader, name, class, store.loader_of(class)].map(u32::from);
        rows.entry(("request".into(), request(loader, name))).or_insert_with(|| json::numbers(cells));
    }
}

/// Ties and subtype constraints: their cells and their numbers.
fn constraints(store: &Store, names: &Names, rows: &mut Rows) {
    let mut add = |kind: &str, cells: [u16; 3], number: u16, says: String| {
        let cells = json::numbers(cells.map(u32::from));
        rows.insert((kind.into(), number.into()), json::object([("v", cells), ("t", json::string(&says))]));
    };
    for (cells @ [one, other, name], &number) in store.tie_rows().zip(store.tie_numbers()) {
        add("tie", cells, number, format!("{} is one class under {}", names.class(name), names.loaders(one, other)));
    }
    for (cells @ [loader, lower, higher], &number) in store.subtype_rows().zip(store.subtype_numbers()) {
        add("subtype", cells, number, format!("{} is below {} under {}", names.class(lower), names.class(higher), names.loader(loader)));
    }
}

/// The frames of both tasks: the method, the point, the operands and the locals.
fn frames(store: &Store, _: &Classes, names: &Names, methods: &mut Methods, rows: &mut Rows) {
    for number in 0..usize::from(TASKS) {
        for depth in 0..store.frame_count(number) {
            let base = frame_base(number, depth);
            let point = store.frames[base + cell::POINT];
            let fields = [
                ("m", methods.number(store, base, names).to_string()),
                ("p", point.to_string()),
                ("o", json::strings(operands(store, base))),
                ("l", json::strings(locals(store, base))),
            ];
            rows.insert((format!("{} frame", task(number as u32)), depth as u32), json::object(fields));
        }
    }
}

/// What leads from one to the other: kind, number and what stands there now, if anything does.
pub fn changes(before: &Rows, after: &Rows) -> String {
    let row = |(kind, number): &(String, u32), value: &str| format!("[{},{number},{value}]", json::string(kind));
    let gone = before.keys().filter(|key| !after.contains_key(*key)).map(|key| row(key, "null"));
    let new = after.iter().filter(|(key, value)| before.get(*key) != Some(*value)).map(|(key, value)| row(key, value));
    json::list(gone.chain(new))
}
