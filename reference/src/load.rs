//! boot, define, record and the taking back of such loads.

use crate::agree::{agrees, same_tie, tie, Added};
use crate::answer::{denied, word, Refusal, Reply};
use crate::broken::{lengths_fit, unbroken};
use crate::classes::Classes;
use crate::file::File;
use crate::store::{count, Store, FIELDS, LIMITS, LOADERS, MOST_ROWS, OBJECT, ROW};
use crate::verifier::refused;

pub fn boot(store: &mut Store) -> Reply {
    if !lengths_fit(store) {
        return denied(word::BROKEN);
    }
    store.counts[..count::OWNERS].copy_from_slice(&[1, 0, 1, 0, 0, 0, 0, 0]);
    store.classes[..ROW].copy_from_slice(&[0, 0, 0]);
    store.cache[..ROW].copy_from_slice(&[0, OBJECT, 0]);
    store.close();
    Reply::Accepted
}

pub fn define(store: &mut Store, loader: u32, bytes: &[u8]) -> Reply {
    define_by(store, loader, bytes, judge)
}

/// The word that a file is refused with, and its notes.
pub fn judge(file: File, notes: &mut Notes) -> Result<(), u8> {
    refused(file, &mut |lower, higher| notes.take(lower, higher)).map_err(|(word, _)| word)
}

/// define, with the file judged by `judge`, which gives the notes and a word of refusal.
pub fn define_by(store: &mut Store, loader: u32, bytes: &[u8], judge: impl Fn(File, &mut Notes) -> Result<(), u8>) -> Reply {
    let plan = match plan_define(store, loader, bytes, MOST_ROWS, judge) {
        Ok(plan) => plan,
        Err(refusal) => return Reply::Denied(refusal),
    };
    if !plan.agrees(store) {
        return denied(word::CLASH);
    }
    let before = store.level();
    let class = store.add_class(loader as u16, bytes);
    plan.added().write(store);
    store.remember(before);
    Reply::Defined(class as u8)
}

/// What a load adds that no word before 9 refuses, and the classes with its own.
pub struct Plan {
    pub entry: [u16; 3],
    pub ties: Vec<[u16; 3]>,
    pub subtypes: Vec<[u16; 3]>,
    pub classes: Classes,
}

impl Plan {
    pub fn added(&self) -> Added<'_> {
        Added { entry: Some(self.entry), ties: &self.ties, subtypes: &self.subtypes }
    }

    pub fn agrees(&self, store: &Store) -> bool {
        agrees(store, &self.added(), &self.classes)
    }
}

/// A define up to the question of agreement. A try lends a list of so many cells; a define without one asks for no more than a list has.
pub fn plan_define(
    store: &Store,
    loader: u32,
    bytes: &[u8],
    list: usize,
    judge: impl Fn(File, &mut Notes) -> Result<(), u8>,
) -> Result<Plan, Refusal> {
    let mut classes = unbroken(store).ok_or(Refusal::Word(word::BROKEN))?;
    if loader >= LOADERS.into() {
        return Err(Refusal::Word(word::UNKNOWN));
    }
    if list < MOST_ROWS {
        return Err(Refusal::Word(word::SHORT_LIST));
    }
    let loader = loader as u16;
    let file = File::read(bytes).ok_or(Refusal::Word(word::FILE))?;
    let mut notes = Notes::new(store, loader);
    judge(file, &mut notes).map_err(Refusal::Word)?;
    let superclass = superclass_for(store, loader, file)?;
    let ties = overriding_ties(store, &classes, loader, superclass, file);
    let entry = [loader, file.name(), store.counts[count::CLASSES]];
    let is_too_much = is_class_too_much(store, &classes, superclass, file, bytes.len());
    let fits = !is_too_much && classes.add(superclass, file).is_some();
    let plan = Plan { entry, ties, subtypes: notes.new_rows(), classes };
    if !fits || plan.added().is_too_much(store) {
        return Err(Refusal::Word(word::FULL));
    }
    Ok(plan)
}

/// The superclass of a file that is neither taken nor wants for one.
fn superclass_for(store: &Store, loader: u16, file: File) -> Result<u16, Refusal> {
    if store.cached(loader, file.name()).is_some() {
        return Err(Refusal::Word(word::TAKEN));
    }
    let wanted = Refusal::Wanted(loader as u8, file.superclass());
    store.cached(loader, file.superclass()).ok_or(wanted)
}

/// Would the class pass the limit of classes, kept bytes or fields?
fn is_class_too_much(store: &Store, classes: &Classes, superclass: u16, file: File, length: usize) -> bool {
    store.is_full(count::CLASSES)
        || store.count(count::KEPT) + length > usize::from(LIMITS[count::KEPT])
        || classes.field_count(superclass) + file.field_count() > FIELDS
}

/// The notes of a file as they come: those that are no rows of the loader's yet, each once. When there are more than any table has room
/// for, the rest are left out.
pub struct Notes {
    loader: u16,
    /// Both names of each row of the loader's, then of each new note.
    names: Vec<u32>,
    there: usize,
}

impl Notes {
    pub fn new(store: &Store, loader: u16) -> Notes {
        let own = store.subtype_rows().filter(|row| row[0] == loader);
        let names: Vec<u32> = own.map(|row| both(row[1], row[2])).collect();
        Notes { loader, there: names.len(), names }
    }

    pub fn take(&mut self, lower: u16, higher: u16) {
        let is_too_much = self.names.len() - self.there > usize::from(LIMITS[count::SUBTYPES]);
        if !is_too_much && !self.names.contains(&both(lower, higher)) {
            self.names.push(both(lower, higher));
        }
    }

    /// The rows to be added, in the order of the notes.
    pub fn new_rows(&self) -> Vec<[u16; 3]> {
        self.names[self.there..].iter().map(|&names| [self.loader, (names >> 16) as u16, names as u16]).collect()
    }
}

fn both(lower: u16, higher: u16) -> u32 {
    u32::from(lower) << 16 | u32::from(higher)
}

/// Is the tie neither a row of the store nor among these?
pub fn is_new_tie(store: &Store, among: &[[u16; 3]], row: [u16; 3]) -> bool {
    !among.iter().any(|&other| same_tie(other, row)) && !store.tie_rows().any(|other| same_tie(other, row))
}

/// The new ties of the methods that override one upward, on each argument in turn and then the result.
pub fn overriding_ties(store: &Store, classes: &Classes, loader: u16, superclass: u16, file: File) -> Vec<[u16; 3]> {
    let mut new = Vec::new();
    for method in file.methods() {
        let Some((nearest, _)) = classes.method(store, superclass, method.signature) else {
            continue;
        };
        for of in method.signature.types() {
            let row = tie(loader, store.loader_of(nearest), of);
            new.extend(row.filter(|&row| is_new_tie(store, &new, row)));
        }
    }
    new
}

pub fn record(store: &mut Store, loader: u32, name: u32, class: u32) -> Reply {
    match plan_record(store, loader, name, class, MOST_ROWS) {
        Err(refusal) => Reply::Denied(refusal),
        Ok(None) => Reply::Accepted,
        Ok(Some(plan)) if !plan.agrees(store) => denied(word::CLASH),
        Ok(Some(plan)) => {
            let before = store.level();
            plan.added().write(store);
            store.remember(before);
            Reply::Accepted
        }
    }
}

/// A record up to the question of agreement, with a list of so many cells as in `plan_define`; no plan if the entry is there.
pub fn plan_record(store: &Store, loader: u32, name: u32, class: u32, list: usize) -> Result<Option<Plan>, Refusal> {
    let refused = |number: u8| Err(Refusal::Word(number));
    let classes = unbroken(store).ok_or(Refusal::Word(word::BROKEN))?;
    if loader >= LOADERS.into() || name < 2 || !classes.has(class) {
        return refused(word::UNKNOWN);
    }
    if list < MOST_ROWS {
        return refused(word::SHORT_LIST);
    }
    if u32::from(store.name_of(class as u16)) != name {
        return refused(word::MISNAMED);
    }
    let [loader, name, class] = [loader, name, class].map(|number| number as u16);
    match store.cached(loader, name) {
        Some(there) if there == class => return Ok(None),
        Some(_) => return refused(word::TAKEN),
        None => {}
    }
    let plan = Plan { entry: [loader, name, class], ties: Vec::new(), subtypes: Vec::new(), classes };
    if plan.added().is_too_much(store) {
        return refused(word::FULL);
    }
    Ok(Some(plan))
}

/// Undoes the latest load that changed the store, as long as nothing has closed it and no 32 later ones have pushed it out.
pub fn take_back(store: &mut Store) -> Reply {
    if unbroken(store).is_none() {
        return denied(word::BROKEN);
    }
    let mut levels = store.levels();
    let Some(level) = levels.pop() else {
        return denied(word::TOO_LATE);
    };
    store.cut(level);
    store.set_levels(&levels);
    Reply::Accepted
}
