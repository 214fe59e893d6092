//! The used rows of a store by name, and what changed between two stores.

use std::fmt::Write;

use reference::broken::unbroken;
use reference::classes::Classes;
use reference::store::{cell, count, frame_base, FRAME_ROW, LENGTHS, LOCALS, OBJECT, OPERANDS, TABLES, TASKS};
use reference::store::{Store, Value};

use crate::listing;
use crate::names::Names;
use crate::words::task;

/// A used row: which it is, and what it says.
#[derive(Clone, Debug, PartialEq, Eq)]
struct Row {
    kind: String,
    number: usize,
    says: String,
}

impl Row {
    fn is(&self, other: &Row) -> bool {
        self.kind == other.kind && self.number == other.number
    }
}

/// What changed, a line a row: + new, ~ changed, - gone. Of tables that are no store, the cells that changed.
pub fn changes(before: &Store, after: &Store, names: &Names) -> Vec<String> {
    match (unbroken(before), unbroken(after)) {
        (Some(then), Some(now)) => {
            let mut lines = row_changes(&rows(before, &then, names), &rows(after, &now, names));
            lines.extend(load_changes(before, after));
            lines
        }
        (then, now) => {
            let mut lines = cell_changes(before, after);
            match (then.is_some(), now.is_some()) {
                (true, false) => lines.push("the tables are no store now: broken".into()),
                (false, true) => lines.push("the tables are a store again".into()),
                _ => {}
            }
            lines
        }
    }
}

/// All that a store holds, a line a row.
pub fn listed(store: &Store, names: &Names) -> Vec<String> {
    match unbroken(store) {
        Some(classes) => rows(store, &classes, names).iter().map(|row| format!("{} {}: {}", row.kind, row.number, row.says)).collect(),
        None => vec!["the tables are no store: broken".into()],
    }
}

fn row_changes(before: &[Row], after: &[Row]) -> Vec<String> {
    let mut lines = Vec::new();
    for row in after {
        let sign = match before.iter().find(|other| other.is(row)) {
            None => '+',
            Some(other) if other != row => '~',
            Some(_) => continue,
        };
        lines.push(format!("{sign} {} {}: {}", row.kind, row.number, row.says));
    }
    let gone: Vec<&Row> = before.iter().filter(|row| !after.iter().any(|other| other.is(row))).collect();
    let following = |a: &&Row, b: &&Row| a.kind == b.kind && a.number + 1 == b.number;
    lines.extend(gone.chunk_by(following).map(|rows| match rows {
        [first, .., last] => format!("- {} {} to {}", first.kind, first.number, last.number),
        _ => format!("- {} {}", rows[0].kind, rows[0].number),
    }));
    lines
}

/// How many loads can be taken back, where that changed, or the oldest was pushed out.
fn load_changes(before: &Store, after: &Store) -> Option<String> {
    let (then, now) = (before.levels(), after.levels());
    match (then.len(), now.len()) {
        _ if then == now => None,
        (then, now) if then == now => Some(format!("~ loads that can be taken back: {now}, and the oldest no longer")),
        (then, now) => Some(format!("~ loads that can be taken back: {then}, now {now}")),
    }
}

fn cell_changes(before: &Store, after: &Store) -> Vec<String> {
    let mut lines = Vec::new();
    for (table, ((name, _), length)) in TABLES.iter().zip(LENGTHS).enumerate() {
        let pairs = (0..length).map(|cell| (cell, before.get(table, cell), after.get(table, cell)));
        let changed = pairs.filter(|(_, old, new)| old != new);
        lines.extend(changed.map(|(cell, old, new)| format!("~ {name} {cell}: {old}, now {new}")));
    }
    lines
}

/// All used rows of a store that isn't broken.
fn rows(store: &Store, classes: &Classes, names: &Names) -> Vec<Row> {
    let mut rows = Vec::new();
    let mut add = |kind: &str, number: usize, says: String| rows.push(Row { kind: kind.into(), number, says });
    for class in 0..store.counts[count::CLASSES] {
        add("class", class.into(), class_says(store, class, names));
    }
    for (place, [loader, name, class]) in store.cache_rows().enumerate() {
        add("cache", place, format!("{} means class {class} by {}", names.loader(loader), names.class(name)));
    }
    for ((place, [one, other, name]), (row, group)) in store.tie_rows().enumerate().zip(store.tie_numbers().iter().zip(store.groups())) {
        add("tie", place, format!("{} is one class under {}, row {row}, group {group}", names.class(name), names.loaders(one, other)));
    }
    for ((place, [loader, lower, higher]), row) in store.subtype_rows().enumerate().zip(store.subtype_numbers()) {
        let (loader, lower, higher) = (names.loader(loader), names.class(lower), names.class(higher));
        let says = format!("under {loader}, {lower} is below {higher}, row {row}");
        add("subtype constraint", place, says);
    }
    for object in store.objects_in_use() {
        add("object", object as usize, object_says(store, classes, object, names));
    }
    for task_number in 0..usize::from(TASKS) {
        for depth in 0..store.frame_count(task_number) {
            add(&format!("{} frame", task(task_number as u32)), depth, frame_says(store, task_number, depth, names));
        }
    }
    rows
}

pub fn class_says(store: &Store, class: u16, names: &Names) -> String {
    let Some(file) = store.file(class) else {
        return names.request(0u16, OBJECT.into());
    };
    let own = names.request(store.loader_of(class), file.name().into());
    let mut says = format!("{own}, below {}", names.class(file.superclass()));
    for field in file.fields() {
        let _ = write!(says, ", field {} {}", names.member(field.name), names.class(field.of));
    }
    for method in file.methods() {
        let _ = write!(says, ", method {}", names.method(method.signature));
    }
    says
}

fn value(cells: &[u32], at: usize) -> String {
    match Value::read(cells, at) {
        Some(Value::Int(bits)) => (bits as i32).to_string(),
        Some(Value::Null) => "null".into(),
        Some(Value::Object(object)) => format!("object {object}"),
        Some(Value::Empty) => "-".into(),
        None => "?".into(),
    }
}

pub fn object_says(store: &Store, classes: &Classes, object: u32, names: &Names) -> String {
    let class = store.object_class(object);
    let mut fields = Vec::new();
    let mut upward: Vec<u16> = classes.upward(class).collect();
    upward.reverse();
    for file in upward.into_iter().filter_map(|class| store.file(class)) {
        for field in file.fields() {
            let at = Store::field_cell(object, fields.len());
            fields.push(format!("{} = {}", names.member(field.name), value(&store.objects, at)));
        }
    }
    let owner = task(u32::from(store.owners()[object as usize]) - 1);
    let name = format!("{} (class {class}) of the {owner}", names.class(store.name_of(class)));
    if fields.is_empty() {
        name
    } else {
        format!("{name}, {}", fields.join(", "))
    }
}

fn frame_says(store: &Store, task: usize, depth: usize, names: &Names) -> String {
    let base = frame_base(task, depth);
    let frame = &store.frames[base..base + FRAME_ROW];
    let (class, point) = (frame[cell::CLASS] as u16, frame[cell::POINT] as usize);
    let method = store.file(class).and_then(|file| file.method(frame[cell::METHOD] as usize));
    let place = method.map_or("no method".into(), |method| names.method(method.signature));
    let next = method.and_then(|method| listing::readable_at(method, point, names, &[]));
    let next = next.map_or("nothing".into(), |(instruction, _)| instruction);
    let (operands, locals) = (operands(store, base), locals(store, base));
    let class = names.class(store.name_of(class));
    format!("{class}.{place} at {point}, next {next}; operands [{}] locals {{{}}}", operands.join(", "), locals.join(", "))
}

/// The operands of the frame at this cell, the lowest first.
pub fn operands(store: &Store, base: usize) -> Vec<String> {
    let count = (store.frames[base + cell::OPERANDS] as usize).min(OPERANDS);
    (0..count).map(|place| value(&store.frames, base + cell::OPERAND_0 + 2 * place)).collect()
}

/// The locals of the frame at this cell, up to the last that is set.
pub fn locals(store: &Store, base: usize) -> Vec<String> {
    let mut locals: Vec<String> = (0..LOCALS).map(|place| value(&store.frames, base + cell::LOCAL_0 + 2 * place)).collect();
    while locals.last().is_some_and(|local| local == "-") {
        locals.pop();
    }
    locals
}

/// The instruction that the next step takes, and its task.
pub fn next_instruction(store: &Store, names: &Names) -> Option<String> {
    unbroken(store)?;
    let task_number = store.turn()?;
    let base = frame_base(task_number, store.frame_count(task_number) - 1);
    let file = store.file(store.frames[base + cell::CLASS] as u16)?;
    let method = file.method(store.frames[base + cell::METHOD] as usize)?;
    let point = store.frames[base + cell::POINT] as usize;
    let (instruction, _) = listing::readable_at(method, point, names, &[])?;
    Some(format!("{instruction} ({})", task(task_number as u32)))
}
