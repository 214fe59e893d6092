//! What would be accepted where a load clashes: the lesson's own loads of the same request, each tried by the proved machine.

use reference::answer::word;
use reference::file::Sketch;
use reference::gen::Call;
use reference::store::MOST_ROWS;
use reference::Store;

use crate::lesson::{Lesson, What};
use crate::machine;

/// More loads than this aren't tried.
const MOST_TRIED: usize = 64;

/// The request that a load asks for.
fn request(call: &Call) -> Option<(u32, u32)> {
    match *call {
        Call::Define { loader, ref file } => Some((loader, Sketch::read(file).name?.into())),
        Call::Record { loader, name, .. } => Some((loader, name)),
        _ => None,
    }
}

/// The call, with the class that another loader's cache has for the name now.
pub fn resolved(what: &What, store: &Store) -> Option<Call> {
    match *what {
        What::Call(ref call) => Some(call.clone()),
        What::RecordOf { loader, name, of } => {
            let class = u16::try_from(of).ok().and_then(|of| store.cached(of, name))?;
            Some(Call::Record { loader, name: name.into(), class: class.into() })
        }
        What::Damage { .. } | What::Old(_) | What::ChangeOver | What::Offer(_) | What::How { .. } => None,
    }
}

/// A line that says which of the lesson's own loads of this request would be accepted here, and which were tried; none if it has no other.
pub fn advice(call: &Call, lesson: &Lesson, store: &Store) -> Option<String> {
    let (loader, name) = request(call)?;
    let mut tried: Vec<(Call, String, bool)> = Vec::new();
    for doing in lesson.doings() {
        let Some(other) = resolved(&doing.what, store).filter(|other| other != call && request(other) == Some((loader, name))) else {
            continue;
        };
        if tried.len() < MOST_TRIED && !tried.iter().any(|there| there.0 == other) {
            let told = machine::make(&other.tried(MOST_ROWS)?, &mut store.clone(), &mut [0; MOST_ROWS])?;
            let word = word::NAMES.get(usize::from(told.number.wrapping_sub(1))).map_or(String::new(), |word| format!(" ({word})"));
            tried.push((other, format!("{}{word}", doing.said), told.number == 0));
        }
    }
    let joined = |accepted: bool| tried.iter().filter(|load| load.2 == accepted).map(|load| load.1.as_str()).collect::<Vec<_>>().join("; ");
    let (taken, refused) = (joined(true), joined(false));
    match (taken.is_empty(), refused.is_empty()) {
        (true, true) => None,
        (true, false) => Some(format!("tried here, and refused too: {refused}")),
        (false, true) => Some(format!("tried here, and would be accepted: {taken}")),
        (false, false) => Some(format!("tried here, and would be accepted: {taken}; refused too: {refused}")),
    }
}
