//! The two calls that try a load: they answer what it would get, change nothing, and on a clash list the rows of the chain that is its reason.

use crate::answer::Reply;
use crate::load::{judge, plan_define, plan_record, Plan};
use crate::reason::chain;
use crate::store::Store;

pub fn try_define(store: &Store, loader: u32, bytes: &[u8], list: &mut [u16]) -> Reply {
    match plan_define(store, loader, bytes, list.len(), judge) {
        Ok(plan) => tried(store, &plan, list, Reply::Defined(plan.entry[2] as u8)),
        Err(refusal) => Reply::Denied(refusal),
    }
}

pub fn try_record(store: &Store, loader: u32, name: u32, class: u32, list: &mut [u16]) -> Reply {
    match plan_record(store, loader, name, class, list.len()) {
        Ok(Some(plan)) => tried(store, &plan, list, Reply::Accepted),
        Ok(None) => Reply::Accepted,
        Err(refusal) => Reply::Denied(refusal),
    }
}

/// The chain's rows go to the first cells of the list; the others are left, and all of them if the store would agree.
fn tried(store: &Store, plan: &Plan, list: &mut [u16], accepted: Reply) -> Reply {
    if plan.agrees(store) {
        return accepted;
    }
    let rows = chain(store, &plan.added(), &plan.classes).expect("every clash yields a chain");
    list[..rows.len()].copy_from_slice(&rows);
    Reply::Clashed(rows.len() as u16)
}
