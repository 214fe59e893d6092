//! Call lists from a boot that join groups of ties, by loads and by steps, and part them by taking loads back.

use super::build::{Code, Draft};
use super::cases::{subtype, tie, MAIN};
use super::rng::Rng;
use super::{Call, Trial};
use crate::answer::Reply;
use crate::store::{INT, OBJECT};

/// So many takings back.
fn take_back(trial: &mut Trial, times: usize) {
    for _ in 0..times {
        trial.take_back();
    }
}

/// A name that no class has yet, and the next.
fn unused(trial: &Trial) -> u16 {
    1_000 + 2 * trial.calls.len() as u16
}

/// Two groups of one name, with a subtype constraint before and between them; a third tie joins them, is taken back, and joins them again.
pub fn a_join() -> Trial {
    let mut trial = Trial::ready(1..5);
    subtype(&mut trial, 1, 13, 12);
    tie(&mut trial, 1, 2, 12);
    subtype(&mut trial, 1, 14, 12);
    tie(&mut trial, 3, 4, 12);
    tie(&mut trial, 2, 3, 12);
    trial.take_back();
    tie(&mut trial, 3, 2, 12);
    take_back(&mut trial, 99);
    trial
}

/// A class below two others, each of another loader: its define has a tie with each of them, and joins the three loaders' groups of a name at once.
pub fn three_at_once() -> Trial {
    let mut trial = Trial::ready(1..8);
    let end = Code::new().end(INT);
    tie(&mut trial, 1, 4, 12);
    tie(&mut trial, 2, 5, 12);
    tie(&mut trial, 3, 6, 12);
    trial.define(1, &Draft::new(20).method(MAIN, 12, INT, &end));
    let class = trial.store.counts[0] - 1;
    trial.record(2, 20, class);
    trial.define(2, &Draft::new(21).under(20).method(MAIN + 1, 12, INT, &end));
    trial.record(3, 21, class + 1);
    trial.define(3, &Draft::new(22).under(21).method(MAIN, 12, INT, &end).method(MAIN + 1, 12, INT, &end));
    take_back(&mut trial, 5);
    trial
}

/// A load that ties five names at once, of which two have groups.
pub fn five_names() -> Trial {
    let mut trial = Trial::ready(1..5);
    tie(&mut trial, 1, 3, 12);
    tie(&mut trial, 2, 4, 14);
    tie(&mut trial, 2, 3, 12);
    let poster = |name: u16| Draft::listed(name).method_of(MAIN, &[11, 12, 13, 14], 15, &Code::listed().end(15));
    trial.define(1, &poster(20));
    trial.record(2, 20, trial.store.counts[0] - 1);
    trial.define(2, &poster(21).under(20));
    take_back(&mut trial, 4);
    trial
}

/// Loader `other` reads field 30 of a class of loader `one`, by a quote that is run to its end: a step ties its type, 12, between them. Nothing of it is swept.
fn access(trial: &mut Trial, one: u16, other: u16, of: u16) {
    let name = unused(trial);
    let Reply::Defined(class) = trial.define(one, &Draft::new(name).field(30, of)) else {
        return;
    };
    trial.record(other, name, class.into());
    let code = Code::new().object(name).getfield(name, 30, of).pop().end(INT);
    trial.define(other, &Draft::new(name + 1).main(MAIN, &code));
    trial.start(0, other, name + 1, MAIN, 0);
    trial.step();
    trial.step();
    trial.run(9);
    trial.drop_task(0);
}

/// Loader `other` calls a method of a class of loader `one` with three names and another result: a step has up to four ties.
fn call(trial: &mut Trial, one: u16, other: u16) {
    let name = unused(trial);
    let (types, result) = ([12, 13, 12], 14);
    let callee = Draft::listed(name).method_of(MAIN + 1, &types, result, &Code::listed().end(result));
    let Reply::Defined(class) = trial.define(one, &callee) else {
        return;
    };
    trial.record(other, name, class.into());
    let code = Code::listed().object(name).null().null().null().call(name, MAIN + 1, &types, result).pop().end(INT);
    trial.define(other, &Draft::listed(name + 1).method_of(MAIN, &[INT], INT, &code));
    trial.start(1, other, name + 1, MAIN, 0);
    trial.run(9);
    trial.drop_task(1);
    trial.sweep();
}

/// Steps join groups: by a field, by a call, and once more by one that is there. What they joined can't be taken back.
pub fn by_steps() -> Trial {
    let mut trial = Trial::ready(1..7);
    subtype(&mut trial, 1, 13, 12);
    tie(&mut trial, 1, 2, 12);
    tie(&mut trial, 3, 4, 12);
    access(&mut trial, 2, 3, 12);
    tie(&mut trial, 5, 6, 12);
    tie(&mut trial, 5, 6, 13);
    call(&mut trial, 4, 5);
    access(&mut trial, 1, 6, 12);
    take_back(&mut trial, 3);
    trial
}

/// Joins that are refused: two groups mean two classes, so neither a define nor a step may join them, and the groups stay. A join with a group that means nothing yet is accepted.
pub fn refused() -> Trial {
    let mut trial = Trial::ready(1..7);
    tie(&mut trial, 1, 2, 12);
    tie(&mut trial, 3, 4, 12);
    tie(&mut trial, 5, 6, 12);
    trial.define(1, &Draft::new(12));
    trial.define(4, &Draft::new(12));
    tie(&mut trial, 2, 3, 12);
    access(&mut trial, 2, 3, 12);
    tie(&mut trial, 2, 5, 12);
    tie(&mut trial, 6, 3, 12);
    trial.define(6, &Draft::new(12));
    take_back(&mut trial, 40);
    trial
}

/// All loaders' groups of a name are joined one after another, the later with the earlier or the earlier with the later, and parted again.
pub fn a_line(backward: bool) -> Trial {
    let mut trial = Trial::ready(1..9);
    for pair in 0..4 {
        tie(&mut trial, 1 + 2 * pair, 2 + 2 * pair, 12);
    }
    for at in 0..3 {
        let at = if backward { 2 - at } else { at };
        tie(&mut trial, 2 + 2 * at, 3 + 2 * at, 12);
    }
    take_back(&mut trial, 33);
    trial
}

/// Boot leaves the cells, which say nothing then; ties after it are grouped afresh.
pub fn booted_again() -> Trial {
    let mut trial = a_join();
    trial.call(Call::Boot);
    for loader in 1..5 {
        trial.record(loader, OBJECT, 0);
    }
    tie(&mut trial, 3, 4, 12);
    tie(&mut trial, 1, 2, 12);
    trial
}

/// Every list here.
pub fn joined() -> Vec<Trial> {
    vec![a_join(), three_at_once(), five_names(), by_steps(), refused(), a_line(false), a_line(true), booted_again()]
}

const NAMES: [u16; 3] = [12, 13, 14];

/// A random list of so many turns, one to ten calls each.
pub fn joins(seed: u64, turns: usize) -> Trial {
    let mut rng = Rng::new(seed ^ 0x6A_6F_69_6E);
    let loaders = rng.pick(&[4, 6, 9, 15]);
    let mut joins = Joins { trial: Trial::ready(1..=loaders), names: rng.within(1, NAMES.len()), rng, loaders };
    (0..turns).for_each(|_| joins.turn());
    joins.trial
}

struct Joins {
    rng: Rng,
    trial: Trial,
    loaders: u16,
    names: usize,
}

impl Joins {
    fn turn(&mut self) {
        match self.rng.weighted(&[12, 3, 2, 2, 5, 2, 1]) {
            0 => self.tie(),
            1 => self.note(),
            2 => {
                let (one, other, of) = (self.loader(), self.loader(), self.name());
                access(&mut self.trial, one, other, of);
            }
            3 => {
                let (one, other) = (self.loader(), self.loader());
                call(&mut self.trial, one, other);
            }
            4 => {
                let times = self.rng.pick(&[1, 1, 1, 3, 4, 7, 33]);
                take_back(&mut self.trial, times);
            }
            5 => self.load(),
            _ => drop(self.trial.sweep()),
        }
    }

    fn loader(&mut self) -> u16 {
        self.rng.within(1, self.loaders.into()) as u16
    }

    fn name(&mut self) -> u16 {
        NAMES[self.rng.below(self.names)]
    }

    /// One loader overrides another's method on one to five of the names.
    fn tie(&mut self) {
        let (one, other) = (self.loader(), self.loader());
        let types: Vec<u16> = (0..self.rng.within(0, 4)).map(|_| self.name()).collect();
        let (name, result) = (unused(&self.trial), self.name());
        let poster = |name: u16| Draft::listed(name).method_of(MAIN, &types, result, &Code::listed().end(result));
        if let Reply::Defined(class) = self.trial.define(one, &poster(name)) {
            self.trial.record(other, name, class.into());
            self.trial.define(other, &poster(name + 1).under(name));
        }
    }

    /// A subtype constraint, so that numbers aren't places.
    fn note(&mut self) {
        let (loader, low, high) = (self.loader(), self.rng.within(30, 60) as u16, self.rng.within(61, 90) as u16);
        let code = Code::new().object(low).getfield(high, 30, INT).ireturn();
        self.trial.define(loader, &Draft::new(unused(&self.trial)).main(MAIN, &code));
    }

    /// A class of one of the names, or one that is there delegated to.
    fn load(&mut self) {
        let (loader, name) = (self.loader(), self.name());
        let found = (1..=self.loaders).find_map(|other| self.trial.store.cached(other, name));
        match found {
            Some(class) if self.rng.percent(75) => drop(self.trial.record(loader, name, class)),
            _ => drop(self.trial.define(loader, &Draft::new(name))),
        }
    }
}
