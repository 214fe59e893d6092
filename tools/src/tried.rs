//! What a refused call would have added to the cache and the constraints: the rows that clash, for a picture.

use reference::agree::tie;
use reference::broken::unbroken;
use reference::classes::Classes;
use reference::code::Instruction;
use reference::file::File;
use reference::gen::Call;
use reference::load::{is_new_tie, overriding_ties, Notes};
use reference::step::instruction_of;
use reference::store::{cell, count, frame_base};
use reference::verifier::verify;
use reference::Store;

#[derive(Clone, Debug, Default, PartialEq, Eq)]
pub struct Tried {
    pub entry: Option<[u16; 3]>,
    pub ties: Vec<[u16; 3]>,
    pub subtypes: Vec<[u16; 3]>,
}

/// The rows that this call, refused on this store, would add.
pub fn tried(call: &Call, store: &Store) -> Tried {
    let Some(classes) = unbroken(store) else {
        return Tried::default();
    };
    match *call {
        Call::Define { loader, ref file } => defined(store, &classes, loader as u16, file).unwrap_or_default(),
        Call::Record { loader, name, class } => {
            Tried { entry: Some([loader, name, class].map(|number| number as u16)), ..Tried::default() }
        }
        Call::Step | Call::Run { .. } => Tried { ties: stepped(store, &classes).unwrap_or_default(), ..Tried::default() },
        _ => Tried::default(),
    }
}

fn defined(store: &Store, classes: &Classes, loader: u16, bytes: &[u8]) -> Option<Tried> {
    let file = File::read(bytes)?;
    let mut notes = Notes::new(store, loader);
    verify(file, &mut |lower, higher| notes.take(lower, higher)).ok()?;
    let superclass = store.cached(loader, file.superclass())?;
    Some(Tried {
        entry: Some([loader, file.name(), store.counts[count::CLASSES]]),
        ties: overriding_ties(store, classes, loader, superclass, file),
        subtypes: notes.new_rows(),
    })
}

fn stepped(store: &Store, classes: &Classes) -> Option<Vec<[u16; 3]>> {
    let task = store.turn()?;
    let base = frame_base(task, store.frame_count(task) - 1);
    let here = store.loader_of(store.frames[base + cell::CLASS] as u16);
    let (nearest, types) = match instruction_of(store, task)?.0 {
        Instruction::Getfield(at) | Instruction::Putfield(at) => {
            let named = store.cached(here, at.class)?;
            (classes.field(store, named, at.field, at.of)?.0, vec![at.of])
        }
        Instruction::Invokevirtual(at) => {
            let named = store.cached(here, at.class)?;
            (classes.method(store, named, at.signature)?.0, at.signature.types().collect())
        }
        _ => return None,
    };
    let mut ties = Vec::new();
    for row in types.into_iter().filter_map(|of| tie(store.loader_of(nearest), here, of)) {
        if is_new_tie(store, &ties, row) {
            ties.push(row);
        }
    }
    Some(ties)
}
