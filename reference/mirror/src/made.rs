//! What a define or record would write, written without a look at agreement.

use reference::agree::Added;
use reference::broken::unbroken;
use reference::file::File;
use reference::gen::Call;
use reference::load::{overriding_ties, Notes};
use reference::verifier::verify;
use reference::{Reply, Store};

/// Writes the constraints of a define that can be judged: those of its file and of its overriding methods.
pub fn post(store: &mut Store, loader: u16, bytes: &[u8]) -> Option<()> {
    let classes = unbroken(store)?;
    let file = File::read(bytes)?;
    let mut notes = Notes::new(store, loader);
    verify(file, &mut |lower, higher| notes.take(lower, higher)).ok()?;
    let superclass = store.cached(loader, file.superclass())?;
    let (ties, subtypes) = (overriding_ties(store, &classes, loader, superclass, file), notes.new_rows());
    Added { entry: None, ties: &ties, subtypes: &subtypes }.write(store);
    Some(())
}

/// Makes a define or record that was found to clash: its reply and its request.
pub fn write(call: &Call, store: &mut Store) -> Option<(Reply, (u16, u16))> {
    match *call {
        Call::Define { loader, ref file } => {
            let (loader, name) = (loader as u16, File::read(file)?.name());
            post(store, loader, file)?;
            let class = store.add_class(loader, file);
            store.add_cached([loader, name, class]);
            Some((Reply::Defined(class as u8), (loader, name)))
        }
        Call::Record { loader, name, class } => {
            store.add_cached([loader as u16, name as u16, class as u16]);
            Some((Reply::Accepted, (loader as u16, name as u16)))
        }
        _ => None,
    }
}
