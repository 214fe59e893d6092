//! Hidden fields taken for others, refused, or not counted.

use reference::agree::tie;
use reference::answer::{denied, word};
use reference::file::{File, Flaw, Rule};
use reference::gen::build::set_length;
use reference::gen::reach::Without;
use reference::gen::Call;
use reference::hidden::{declared, is_full_by_hiding, Access};
use reference::load::is_new_tie;
use reference::step::take_step;
use reference::store::{cell, count, Value, LIMITS};
use reference::{Answer, Refusal, Reply, Store};

use crate::faults::{stepping, Fault};
use crate::made::write;
use crate::mapped::top;
use crate::swept;

/// Accesses first, then define, then sweep.
pub const FAULTS: [Fault; 13] = [
    ("the-slot-from-the-objects-class", |call, store| accessing(call, store, |access| Some(from_the_objects_class(access)))),
    ("the-tie-from-the-objects-class", |call, store| {
        stepping(call, store, |store, classes| {
            let (before, access) = (store.count(count::TIES), Access::at_turn(store, classes));
            let answer = take_step(store, classes);
            if let (Some(access), Answer::Ran(_)) = (access, answer) {
                store.counts[count::TIES] = before as u16;
                store.regroup();
                tie_to(store, &access, access.fields[from_the_objects_class(&access)].class);
            }
            answer
        })
    }),
    ("the-first-slot-of-that-name", |call, store| accessing(call, store, |access| access.namesakes().next())),
    ("the-last-slot-of-that-name", |call, store| accessing(call, store, |access| access.namesakes().last())),
    ("resolution-by-name-alone", |call, store| accessing(call, store, nearest_by_name)),
    ("another-type-nearer-is-absent", |call, store| {
        stepping(call, store, |store, classes| match Access::at_turn(store, classes) {
            Some(access) if nearest_by_name(&access) != Some(access.place) => Answer::Refused(Refusal::Word(word::ABSENT)),
            _ => take_step(store, classes),
        })
    }),
    ("the-field-nearest-to-the-top", |call, store| {
        accessing(call, store, |access| access.namesakes().find(|&place| access.fields[place].of == access.at.of))
    }),
    ("one-place-for-two-fields-of-one-name", |call, store| {
        stepping(call, store, |store, classes| {
            let access = Access::at_turn(store, classes);
            let answer = take_step(store, classes);
            if let (Some(access), Answer::Ran(_)) = (access, answer) {
                spread(store, &access);
            }
            answer
        })
    }),
    ("define-refuses-hidden-fields", |call, store| refusing(call, store, |_, _| true)),
    ("define-refuses-hidden-fields-of-another-type", |call, store| refusing(call, store, |one, other| one != other)),
    ("two-types-make-two-fields-in-a-file", |call, store| match call {
        Call::Define { file, .. } if call.apply(&mut store.clone()) == denied(word::FILE) && has_two_types(file) => {
            Some(Reply::Defined(store.counts[count::CLASSES] as u8))
        }
        _ => None,
    }),
    ("hidden-fields-dont-count", |call, store| {
        let (own, above) = declared(store, call)?;
        let is_let_by = call.apply(&mut store.clone()) == denied(word::FULL) && is_full_by_hiding(&own, &above) && fits_without_fields(call, store);
        is_let_by.then(|| write(call, store))?.map(|(reply, _)| reply)
    }),
    ("sweep-forgets-hidden-fields", |call, store| swept::without(call, store, Without::HiddenFields)),
];

/// The nearest field of that name and type from the object's own class upward.
fn from_the_objects_class(access: &Access) -> usize {
    access.namesakes().filter(|&place| access.fields[place].of == access.at.of).last().unwrap_or(access.place)
}

/// Ties the type of an access that ran between the loaders of this class and of the frame's.
fn tie_to(store: &mut Store, access: &Access, class: u16) {
    let frame = top(store).map(|frame| store.frames[frame + cell::CLASS] as u16);
    let row = frame.and_then(|frame| tie(store.loader_of(class), store.loader_of(frame), access.at.of));
    if let Some(row) = row.filter(|&row| is_new_tie(store, &[], row)) {
        store.add_tie(row);
    }
}

/// The nearest field of that name, of any type, from the named class upward.
fn nearest_by_name(access: &Access) -> Option<usize> {
    access.namesakes().filter(|&place| access.upward.contains(&access.fields[place].class)).last()
}

/// Steps in which an access takes another place for its field's.
fn accessing(call: &Call, store: &mut Store, place: fn(&Access) -> Option<usize>) -> Option<Reply> {
    stepping(call, store, |store, classes| {
        let access = Access::at_turn(store, classes);
        let Some((access, wrong)) = access.and_then(|access| place(&access).map(|wrong| (access, wrong))) else {
            return take_step(store, classes);
        };
        // what is in the wrong place stands in the right one for the step
        swap(store, &access, wrong);
        let answer = take_step(store, classes);
        swap(store, &access, wrong);
        answer
    })
}

/// What the access means and what is in another place, each in the other's.
pub fn swap(store: &mut Store, access: &Access, other: usize) {
    let [one, other] = [access.place, other].map(|place| Store::field_cell(access.object, place));
    store.objects.swap(one, other);
    store.objects.swap(one + 1, other + 1);
}

/// Writes the value of a field to every field of that name.
fn spread(store: &mut Store, access: &Access) {
    let Some(value) = Value::read(&store.objects, Store::field_cell(access.object, access.place)) else {
        return;
    };
    access.namesakes().for_each(|place| value.write(&mut store.objects, Store::field_cell(access.object, place)));
}

/// Is a file bad for two fields of one name alone, which have different types?
fn has_two_types(file: &[u8]) -> bool {
    let Err(Flaw { rule: Rule::SameField(name), .. }) = File::explained(file) else {
        return false;
    };
    let mut types = File::trusted(file).fields().filter(|field| field.name == name).map(|field| field.of);
    let first = types.next();
    types.any(|of| Some(of) != first)
}

/// A define that refuses a field whose name a superclass has, where the two types are such.
fn refusing(call: &Call, store: &mut Store, is: fn(u16, u16) -> bool) -> Option<Reply> {
    let (own, above) = declared(store, call)?;
    let hides = |&(name, of): &(u16, u16)| above.iter().any(|field| field.name == name && is(field.of, of));
    let is_defined = matches!(call.apply(&mut store.clone()), Reply::Defined(_));
    (is_defined && own.iter().any(hides)).then_some(denied(word::HIDDEN))
}

/// Would the define be accepted without its fields?
fn fits_without_fields(call: &Call, store: &Store) -> bool {
    let Call::Define { loader, ref file } = *call else {
        return false;
    };
    let behind = 8 + 4 * usize::from(file[7]);
    let mut bytes = [&file[..7], &[0], &file[behind..]].concat();
    set_length(&mut bytes);
    let has_bytes = store.count(count::KEPT) + file.len() <= usize::from(LIMITS[count::KEPT]);
    has_bytes && matches!(Call::Define { loader, file: bytes }.apply(&mut store.clone()), Reply::Defined(_))
}
