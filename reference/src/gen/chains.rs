//! Random call lists from a boot about constraints: ties and subtype constraints on a few names under a few loaders, posted before, between
//! and after the loads that they bear on, so that chains of every shape come about and loads clash at their far ends.

use super::build::{Code, Draft};
use super::rng::Rng;
use super::Trial;
use crate::answer::Reply;
use crate::store::{count, INT, OBJECT};

const NAMES: [u16; 5] = [10, 11, 12, 13, 14];
const MAIN: u16 = 20;
/// Classes that only post constraints have names from here on.
const POSTER: u16 = 1_000;

struct Chains {
    rng: Rng,
    loaders: u16,
    trial: Trial,
}

/// A list of so many turns, one to three calls each.
pub fn chains(seed: u64, turns: usize) -> Trial {
    let mut rng = Rng::new(seed ^ 0x63_68_61_69);
    let loaders = rng.within(2, 6) as u16;
    let mut chains = Chains { rng, loaders, trial: Trial::ready(1..=loaders) };
    for _ in 0..turns {
        chains.turn();
    }
    chains.trial
}

impl Chains {
    fn turn(&mut self) {
        match self.rng.weighted(&[3, 3, 3, 4, 1, 1]) {
            0 => self.tie(),
            1 => self.subtype(),
            2 => self.define(),
            3 => self.record(),
            4 => self.access(),
            _ => drop(self.trial.take_back()),
        }
    }

    fn loader(&mut self) -> u16 {
        self.rng.within(1, usize::from(self.loaders)) as u16
    }

    fn name(&mut self) -> u16 {
        self.rng.pick(&NAMES)
    }

    /// A name that no class has.
    fn poster(&self) -> u16 {
        POSTER + self.trial.calls.len() as u16
    }

    /// One loader overrides another's method on two of the names.
    fn tie(&mut self) {
        let (one, other) = (self.loader(), self.loader());
        let (argument, result) = (self.name(), self.name());
        let name = self.poster();
        let poster = |name| Draft::new(name).method(MAIN, argument, result, &Code::new().end(result));
        if let Reply::Defined(class) = self.trial.define(one, &poster(name)) {
            self.trial.record(other, name, class.into());
            self.trial.define(other, &poster(name + 5_000).under(name));
        }
    }

    /// One loader's class makes the verifier note up to three times that a name is below another.
    fn subtype(&mut self) {
        let (loader, name) = (self.loader(), self.poster());
        let mut code = Code::new();
        for _ in 0..self.rng.within(1, 3) {
            let (low, high) = (self.name(), self.name());
            code = code.object(low).getfield(high, 30, INT).pop();
        }
        self.trial.define(loader, &Draft::new(name).main(MAIN, &code.end(INT)));
    }

    /// A loader loads a name by a class of its own, mostly below another of the names.
    fn define(&mut self) {
        let (loader, name) = (self.loader(), self.name());
        let superclass = if self.rng.percent(30) { OBJECT } else { self.name() };
        self.trial.define(loader, &Draft::new(name).under(superclass));
    }

    /// A loader delegates one of the names.
    fn record(&mut self) {
        let store = &self.trial.store;
        let named = |class: &u16| NAMES.contains(&store.name_of(*class));
        let classes: Vec<u16> = (0..store.counts[count::CLASSES]).filter(named).collect();
        if classes.is_empty() {
            return self.define();
        }
        let (class, loader) = (self.rng.pick(&classes), self.loader());
        let name = self.trial.store.name_of(class);
        self.trial.record(loader, name, class);
    }

    /// A step ties a name between two loaders by a field, if they agree on it.
    fn access(&mut self) {
        let (one, other, of) = (self.loader(), self.loader(), self.name());
        let name = self.poster();
        let Reply::Defined(class) = self.trial.define(one, &Draft::new(name).field(30, of)) else {
            return;
        };
        self.trial.record(other, name, class.into());
        let code = Code::new().object(name).getfield(name, 30, of).pop().end(INT);
        self.trial.define(other, &Draft::new(name + 5_000).main(MAIN, &code));
        self.trial.start(0, other, name + 5_000, MAIN, 0);
        self.trial.run(9);
        self.trial.drop_task(0);
        self.trial.sweep();
    }
}
