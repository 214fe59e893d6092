//! What calls met: how many arguments they pass, between which versions, what they tie and what is selected.

use std::fmt;

use crate::agree::tie;
use crate::classes::Classes;
use crate::code::Instruction;
use crate::file::LISTED;
use crate::load::is_new_tie;
use crate::signature::{Signature, MOST_ARGUMENTS};
use crate::step::instruction_of;
use crate::store::{cell, count, frame_base, Store, LIMITS};

/// A call at its turn that finds a method.
struct Passed {
    signature: Signature,
    /// The version of the caller's file and of the one that declares what is found.
    versions: [u8; 2],
    /// The new ties, and the types that they would be on if none were seen twice.
    ties: usize,
    tied: usize,
    room: usize,
    /// Has the named class, or one above it, a method of that name and result with another list?
    has_namesake: bool,
}

impl Passed {
    fn at_turn(store: &Store, classes: &Classes) -> Option<Passed> {
        let task = store.turn()?;
        let Instruction::Invokevirtual(at) = instruction_of(store, task)?.0 else {
            return None;
        };
        let base = frame_base(task, store.frame_count(task) - 1);
        let caller = store.frames[base + cell::CLASS] as u16;
        let here = store.loader_of(caller);
        let named = store.cached(here, at.class)?;
        let (nearest, found) = classes.method(store, named, at.signature)?;
        let rows = at.signature.types().filter_map(|of| tie(store.loader_of(nearest), here, of));
        let rows: Vec<[u16; 3]> = rows.filter(|&row| is_new_tie(store, &[], row)).collect();
        let ties = (0..rows.len()).filter(|&place| is_new_tie(store, &rows[..place], rows[place])).count();
        let mut signatures = classes.upward(named).filter_map(|class| store.file(class)).flat_map(|file| file.methods().map(|method| method.signature));
        let is_namesake = |other: Signature| {
            (other.name, other.result) == (at.signature.name, at.signature.result) && other.arguments != at.signature.arguments
        };
        Some(Passed {
            signature: at.signature,
            versions: [store.file(caller)?.version(), found.version],
            ties,
            tied: rows.len(),
            room: usize::from(LIMITS[count::TIES]) - store.count(count::TIES),
            has_namesake: signatures.any(is_namesake),
        })
    }

    fn passes(&self, count: usize) -> bool {
        self.signature.arguments.count() == count
    }
}

/// What a call may meet, and the test for it.
type Meeting = (&'static str, fn(&Passed) -> bool);

const CALLS: [Meeting; 11] = [
    ("no argument", |passed| passed.passes(0)),
    ("one argument", |passed| passed.passes(1)),
    ("two arguments", |passed| passed.passes(2)),
    ("three arguments", |passed| passed.passes(3)),
    ("four arguments", |passed| passed.passes(4)),
    ("a method of version 3 from a file before it", |passed| passed.versions[0] < LISTED && passed.versions[1] >= LISTED),
    ("a method of an earlier version from version 3", |passed| passed.versions[0] >= LISTED && passed.versions[1] < LISTED),
    ("a method of that name with another list", |passed| passed.has_namesake),
    ("three new ties or more", |passed| passed.ties >= 3),
    ("a type that would be tied twice", |passed| passed.tied > passed.ties),
    ("more than one new tie, and no room for all", |passed| passed.ties > 1 && passed.ties > passed.room),
];

/// How often calls met each of these.
#[derive(Clone, Default)]
pub struct Passing {
    calls: [u64; CALLS.len()],
}

impl Passing {
    /// Counts the call at its turn, if there is one.
    pub fn count(&mut self, store: &Store, classes: &Classes) {
        if let Some(passed) = Passed::at_turn(store, classes) {
            self.calls.iter_mut().zip(CALLS).for_each(|(times, (_, meets))| *times += u64::from(meets(&passed)));
        }
    }

    pub fn add(&mut self, other: &Passing) {
        self.calls.iter_mut().zip(other.calls).for_each(|(times, more)| *times += more);
    }

    /// What no call met.
    pub fn unmet(&self) -> Vec<&'static str> {
        CALLS.iter().zip(self.calls).filter(|(_, times)| *times == 0).map(|((what, _), _)| *what).collect()
    }

    /// The numbers of arguments that no call had: the first of what calls may meet.
    pub fn unpassed(&self) -> Vec<&'static str> {
        let unmet = self.unmet();
        CALLS[..=MOST_ARGUMENTS].iter().map(|(what, _)| *what).filter(|what| unmet.contains(what)).collect()
    }
}

impl fmt::Display for Passing {
    fn fmt(&self, f: &mut fmt::Formatter) -> fmt::Result {
        CALLS.iter().zip(self.calls).try_for_each(|((what, _), times)| writeln!(f, "   calls with {what:<43}{times:>8}"))
    }
}
