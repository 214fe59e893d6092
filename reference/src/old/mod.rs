//! The machine of document 01 alone, as boxes had it before the first paper of document 02: eight counts, files of version 1, its own calls and
//! words. It is written from document 01 and the old layout of docs/STORE.md, plainly, and shares no rule with today's machine. Only the shapes of
//! calls and answers are the same, so that the two can be compared.

mod agree;
mod calls;
mod class;
mod step;
pub mod tables;
mod verify;
mod world;

pub use class::read;
pub use tables::OldStore;
pub use verify::{verify, Note};
pub use world::World;

use crate::answer::Reply;
use crate::gen::Call;

/// Makes a call of document 01; nothing if it has no such call.
pub fn make(call: &Call, store: &mut OldStore) -> Option<Reply> {
    Some(match *call {
        Call::Boot => calls::boot(store),
        Call::Define { loader, ref file } => calls::define(store, loader, file),
        Call::Record { loader, name, class } => calls::record(store, loader, name, class),
        Call::Start { task, loader, name, method, int } => calls::start(store, task, loader, name, method, int),
        Call::Step => calls::step(store),
        Call::Run { n } => calls::run(store, n),
        Call::Drop { task } => calls::drop_task(store, task),
        Call::Sweep | Call::TakeBack | Call::TryDefine { .. } | Call::TryRecord { .. } => return None,
    })
}

/// Is it broken by document 01's rules?
pub fn broken(store: &OldStore) -> bool {
    World::of(store).is_none()
}
