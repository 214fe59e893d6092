//! Call lists from a boot about loads that are taken back: what is undone, what closes, how many are remembered.

use super::build::{Code, Draft};
use super::cases::{f, ready, subtype, tie, MAIN};
use super::rng::Rng;
use super::{Call, Trial};
use crate::store::{count, INT, MOST_LOADS, OBJECT};

/// So many takings back.
fn take_back(trial: &mut Trial, times: usize) {
    for _ in 0..times {
        trial.take_back();
    }
}

/// So many loads: each of the next names is defined by loader 0.
fn load(trial: &mut Trial, times: usize) {
    for _ in 0..times {
        trial.define(0, &Draft::new(100 + trial.calls.len() as u16));
    }
}

/// A define with a note and two ties of its own, taken back and made again, and then every load since the boot.
pub fn an_override() -> Trial {
    let mut trial = ready();
    let poster = |name: u16| Draft::new(name).method(MAIN, 12, 13, &Code::new().object(14).getfield(15, 30, INT).pop().end(13));
    trial.define(1, &poster(10));
    trial.record(2, 10, 1);
    trial.define(2, &poster(11).under(10));
    trial.take_back();
    trial.define(2, &poster(11).under(10));
    take_back(&mut trial, 7);
    trial
}

/// Records: one that is there already is no load, in a row or behind another.
pub fn records() -> Trial {
    let mut trial = Trial::booted();
    trial.record(1, OBJECT, 0);
    trial.record(1, OBJECT, 0);
    trial.record(2, OBJECT, 0);
    trial.record(1, OBJECT, 0);
    take_back(&mut trial, 3);
    trial.record(0, OBJECT, 0);
    trial.take_back();
    trial
}

/// Loads that are refused, tries, an idle step and a run of nothing don't close, and don't count.
pub fn between() -> Trial {
    let mut trial = ready();
    trial.define(1, &f());
    trial.define(1, &f());
    trial.define(4, &f());
    trial.record(2, 11, 1);
    trial.step();
    trial.run(9);
    trial.run(0);
    trial.start(0, 1, 99, MAIN, 0);
    trial.drop_task(2);
    trial.call(Call::TryRecord { loader: 2, name: 10, class: 1, cells: 512 });
    trial.call(Call::TryDefine { loader: 2, file: f().file(), cells: 512 });
    take_back(&mut trial, 5);
    trial
}

/// 40 loads, of which 32 are taken back; the first eight stay. Then a load, and it is taken back.
pub fn forty() -> Trial {
    let mut trial = Trial::booted();
    load(&mut trial, 40);
    take_back(&mut trial, MOST_LOADS + 1);
    load(&mut trial, 1);
    take_back(&mut trial, 2);
    trial
}

/// 32 loads, five taken back, five more: none is lost. Then three more push three out.
pub fn five_back() -> Trial {
    let mut trial = Trial::booted();
    load(&mut trial, MOST_LOADS);
    take_back(&mut trial, 5);
    load(&mut trial, 5);
    let mut on = trial.clone();
    take_back(&mut trial, MOST_LOADS + 1);
    load(&mut on, 3);
    take_back(&mut on, MOST_LOADS + 1);
    for call in on.calls {
        trial.call(call);
    }
    trial
}

/// Each call that closes, behind a load: boot, start, a step that runs, one that finishes, a run, a drop of a task with and without frames, a sweep that frees an
/// object and one that frees none.
pub fn closing() -> Trial {
    let mut trial = ready();
    trial.define(1, &f());
    let quote = Call::Start { task: 0, loader: 1, name: 10, method: MAIN, int: 7 };
    let closing = [
        quote.clone(), Call::Step, Call::Step, quote.clone(), Call::Run { n: 1 }, Call::Run { n: 1 }, quote.clone(), Call::Run { n: 9 }, quote,
        Call::Drop { task: 0 }, Call::Drop { task: 0 }, Call::Drop { task: 1 }, Call::Sweep, Call::Sweep, Call::Boot,
    ];
    for call in closing {
        load(&mut trial, 2);
        trial.call(call);
        trial.take_back();
    }
    load(&mut trial, 1);
    take_back(&mut trial, 2);
    trial
}

/// A quote that wants a class: its refused step closes nothing, so what was loaded for it can be taken back, and it wants it again. Once it has gone on, it is too late.
pub fn wanting() -> Trial {
    let mut trial = ready();
    trial.define(1, &Draft::new(10).main(MAIN, &Code::new().object(11).pop().object(12).pop().iload(1).ireturn()));
    trial.start(0, 1, 10, MAIN, 7);
    trial.step();
    trial.define(1, &Draft::new(11));
    trial.take_back();
    trial.step();
    trial.define(1, &Draft::new(11).field(30, INT));
    trial.run(9);
    trial.take_back();
    trial.run(9);
    trial.define(1, &Draft::new(12));
    trial.run(0);
    trial.take_back();
    trial.run(1);
    trial.take_back();
    trial.define(1, &Draft::new(12));
    trial.run(9);
    trial.take_back();
    trial
}

/// What clashed agrees when the load that stood in the way is taken back; numbers of rows are given again.
pub fn in_the_way() -> Trial {
    let mut trial = ready();
    tie(&mut trial, 1, 2, 12);
    subtype(&mut trial, 1, 13, 12);
    trial.define(1, &Draft::new(12));
    trial.define(2, &Draft::new(12));
    trial.take_back();
    trial.define(2, &Draft::new(12));
    trial.define(1, &Draft::new(12));
    trial.record(1, 12, 4);
    take_back(&mut trial, 3);
    subtype(&mut trial, 1, 14, 12);
    tie(&mut trial, 2, 3, 12);
    take_back(&mut trial, 99);
    trial
}

/// Every list here.
pub fn taken_back() -> Vec<Trial> {
    vec![an_override(), records(), between(), forty(), five_back(), closing(), wanting(), in_the_way()]
}

/// A random list of so many turns, one to forty calls each.
pub fn taking(seed: u64, turns: usize) -> Trial {
    let mut rng = Rng::new(seed ^ 0x74_61_6B_65);
    let mut taking = Taking { trial: Trial::ready(1..4), loads: rng.pick(&[6, 12, 24]), rng };
    for _ in 0..turns {
        taking.turn();
    }
    taking.trial
}

struct Taking {
    rng: Rng,
    trial: Trial,
    /// How much more often loads come than what closes.
    loads: usize,
}

impl Taking {
    fn turn(&mut self) {
        match self.rng.weighted(&[self.loads, self.loads, 2 * self.loads / 3, 1, 1]) {
            0 => self.load(),
            1 => self.back(),
            2 => self.quiet(),
            3 => self.close(),
            _ => self.many(),
        }
    }

    fn loader(&mut self) -> u16 {
        self.rng.below(5) as u16
    }

    /// A load with rows of its own or without.
    fn load(&mut self) {
        let (one, other, name) = (self.loader(), self.loader(), self.rng.within(10, 14) as u16);
        let base = 1_000 + 2 * self.trial.calls.len() as u16;
        let poster = |name: u16| Draft::new(name).method(MAIN, 12, 11, &Code::new().end(11));
        match self.rng.below(6) {
            0 => drop(self.trial.define(one, &Draft::new(name).field(30, INT))),
            1 => {
                let superclass = self.rng.within(10, 14) as u16;
                self.trial.define(one, &Draft::new(name).under(superclass).field(31, name));
            }
            2 => {
                let class = self.rng.below(self.trial.store.count(count::CLASSES)) as u16;
                let name = self.trial.store.name_of(class);
                self.trial.record(other, name, class);
            }
            3 => {
                let high = self.rng.within(10, 14) as u16;
                let code = Code::new().object(name).getfield(high, 30, INT).ireturn();
                self.trial.define(one, &Draft::new(base).main(MAIN, &code));
            }
            4 => {
                self.trial.define(one, &poster(base));
                let class = self.trial.store.counts[count::CLASSES] - 1;
                let name = self.trial.store.name_of(class);
                self.trial.record(other, name, class);
                self.trial.define(other, &poster(base + 1).under(base));
            }
            _ => drop(self.trial.define(one, &f())),
        }
    }

    fn back(&mut self) {
        let times = self.rng.pick(&[1, 1, 1, 2, 3, 6, 33]);
        take_back(&mut self.trial, times);
    }

    /// Calls that mostly close nothing.
    fn quiet(&mut self) {
        match self.rng.below(5) {
            0 => drop(self.trial.step()),
            1 => {
                let n = self.rng.below(3) as u16;
                self.trial.run(n);
            }
            2 => {
                let loader = self.loader();
                self.trial.start(0, loader, 99, MAIN, 0);
            }
            3 => {
                let (loader, task) = (self.loader(), self.rng.below(2) as u16);
                self.trial.record(loader, OBJECT, 0);
                self.trial.drop_task(task + 2);
            }
            _ => {
                let loader = self.loader();
                self.trial.record(loader, OBJECT, 0);
            }
        }
    }

    fn close(&mut self) {
        let task = self.rng.below(2) as u16;
        match self.rng.below(8) {
            0 | 1 => drop(self.trial.drop_task(task)),
            2 => drop(self.trial.sweep()),
            3 => drop(self.trial.call(Call::Boot)),
            _ => {
                let loader = self.loader();
                self.trial.start(task, loader, 10, MAIN, 7);
            }
        }
    }

    /// A burst of loads: all loaders of Object, or as many defines.
    fn many(&mut self) {
        if self.rng.percent(50) {
            for loader in 0..16 {
                self.trial.record(loader, OBJECT, 0);
            }
        } else {
            let times = self.rng.within(8, 36);
            load(&mut self.trial, times);
        }
    }
}
