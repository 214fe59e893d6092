//! The proved machine and the proved desk, where this build has them: all that this program knows of the C libraries.

use reference::gen::Call;
use reference::host::Told;
use reference::how::{Found, Question};
use reference::old::OldStore;
use reference::Store;

/// Makes the call on the store, a try with this list.
#[cfg(feature = "host")]
pub fn make(call: &Call, store: &mut Store, list: &mut [u16]) -> Option<Told> {
    let mut cells = [0; reference::host::CELLS];
    let number = reference::host::make(call, store, &mut cells, list);
    Some(Told { number, cells })
}

#[cfg(not(feature = "host"))]
pub fn make(_: &Call, _: &mut Store, _: &mut [u16]) -> Option<Told> {
    None
}

/// Searches for an order of offered loads, on a second store.
#[cfg(feature = "host")]
pub fn how(own: &Store, second: &mut Store, question: &Question) -> Option<Found> {
    let mut cells = [0; reference::host_how::CELLS];
    let number = reference::host_how::how(own, second, question, &mut cells);
    Some(reference::host_how::found(number, &cells).unwrap_or(Found::Denied(number)))
}

#[cfg(not(feature = "host"))]
pub fn how(_: &Store, _: &mut Store, _: &Question) -> Option<Found> {
    None
}

/// Fills today's tables from an old store.
#[cfg(feature = "host")]
pub fn change_over(old: &OldStore, store: &mut Store) -> Option<Told> {
    let mut cells = [0; reference::host::CELLS];
    let number = reference::host::change_over(old, store, &mut cells);
    Some(Told { number, cells })
}

#[cfg(not(feature = "host"))]
pub fn change_over(_: &OldStore, _: &mut Store) -> Option<Told> {
    None
}

/// The desk's number for a file.
#[cfg(feature = "desk")]
pub fn check(bytes: &[u8]) -> Option<u8> {
    Some(reference::host::check(bytes))
}

#[cfg(not(feature = "desk"))]
pub fn check(_: &[u8]) -> Option<u8> {
    None
}
