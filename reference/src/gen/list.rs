//! Random call lists from a boot: classes under several loaders, delegation, tasks taking turns.

use super::blueprint::{Blueprint, MAIN};
use super::rng::Rng;
use super::{Call, Trial};
use crate::answer::{Answer, Refusal, Reply};
use crate::store::{count, OBJECT};

/// Makes a list of so many calls, or a few more.
pub fn list(seed: u64, calls: usize) -> Trial {
    let mut lister = Lister::new(seed);
    while lister.trial.calls.len() < calls {
        lister.next();
    }
    lister.trial
}

/// A list of so many calls of document 01 alone, whose files are of version 1; fields are hidden in one of eight.
pub fn early_list(seed: u64, calls: usize) -> Trial {
    let mut lister = Lister::of(seed, |rng| {
        let hides = rng.percent(12);
        Blueprint::early(rng, hides)
    });
    while lister.trial.calls.len() < calls {
        lister.next();
    }
    lister.trial
}

/// A list of calls of any kind that goes on until some task has a frame, within reason.
pub fn busy_list(seed: u64, calls: usize) -> Trial {
    let mut lister = Lister::new(seed);
    let busy = |trial: &Trial| trial.store.turn().is_some() || trial.calls.len() > calls + 60;
    while lister.trial.calls.len() < calls || !busy(&lister.trial) {
        lister.next();
    }
    lister.trial
}

struct Lister {
    rng: Rng,
    blueprint: Blueprint,
    loaders: u16,
    trial: Trial,
}

impl Lister {
    fn new(seed: u64) -> Lister {
        Lister::of(seed, Blueprint::new)
    }

    fn of(seed: u64, blueprint: impl Fn(&mut Rng) -> Blueprint) -> Lister {
        let mut rng = Rng::new(seed);
        let blueprint = blueprint(&mut rng);
        let loaders = rng.pick(&[2, 2, 2, 3, 3, 4, 5, 16]);
        let mut lister = Lister { rng, blueprint, loaders, trial: Trial::booted() };
        if lister.rng.percent(80) {
            (0..loaders).for_each(|loader| lister.load_object(loader));
        }
        lister
    }

    fn next(&mut self) {
        let idle = self.trial.store.turn().is_none();
        let weights = if idle { [6, 2, 24, 2, 1, 1, 2, 3, 1] } else { [5, 2, 3, 26, 14, 1, 3, 3, 1] };
        match self.rng.weighted(&weights) {
            0 => self.load_something(),
            1 => self.record_something(),
            2 => self.start(),
            3 => self.step(),
            4 => self.run(),
            5 => {
                let task = self.task();
                self.trial.drop_task(task);
            }
            6 if self.blueprint.any_version => drop(self.trial.sweep()),
            8 if self.blueprint.any_version => drop(self.trial.take_back()),
            _ => self.stray(),
        }
    }

    fn loader(&mut self) -> u16 {
        self.rng.below(usize::from(self.loaders)) as u16
    }

    fn task(&mut self) -> u16 {
        self.rng.below(2) as u16
    }

    fn class_name(&mut self) -> u16 {
        let names = self.blueprint.names();
        self.rng.pick(&names)
    }

    fn load_object(&mut self, loader: u16) {
        self.trial.record(loader, OBJECT, 0);
    }

    fn load_something(&mut self) {
        let (loader, name) = (self.loader(), self.class_name());
        self.load(loader, name, 6);
    }

    /// Loads a request in some way, and first what the way wants.
    fn load(&mut self, loader: u16, name: u16, patience: usize) {
        let delegates = self.delegates(name);
        if name == OBJECT && self.rng.percent(97) {
            return self.load_object(loader);
        }
        if !delegates.is_empty() && self.rng.percent(50) {
            let class = self.rng.pick(&delegates);
            self.trial.record(loader, name, class);
            return;
        }
        let file = self.blueprint.draft(&mut self.rng, name).file();
        let call = Call::Define { loader: loader.into(), file };
        for left in (0..patience).rev() {
            let Reply::Denied(Refusal::Wanted(loader, name)) = self.trial.call(call.clone()) else {
                return;
            };
            self.load(u16::from(loader), name, left);
        }
    }

    /// The classes of that name that loaders have defined.
    fn delegates(&self, name: u16) -> Vec<u16> {
        let store = &self.trial.store;
        (0..store.counts[count::CLASSES]).filter(|&class| store.name_of(class) == name).collect()
    }

    fn record_something(&mut self) {
        let loader = self.loader();
        let class = self.rng.below(self.trial.store.count(count::CLASSES)) as u16;
        let name = if self.rng.percent(90) { self.trial.store.name_of(class) } else { self.class_name() };
        self.trial.record(loader, name, class);
    }

    fn start(&mut self) {
        let rows: Vec<[u16; 3]> = self.trial.store.cache_rows().filter(|row| row[1] != OBJECT).collect();
        let (loader, name) = if rows.is_empty() || self.rng.percent(8) {
            (self.loader(), self.class_name())
        } else {
            let row = self.rng.pick(&rows);
            (row[0], row[1])
        };
        let method = if self.rng.percent(95) { MAIN } else { MAIN + 7 };
        let task = self.task();
        let int = if self.rng.percent(25) { self.rng.pick(&[0, 1, -1, i32::MIN, i32::MAX]) } else { self.rng.draw() as i32 };
        if let Reply::Denied(Refusal::Wanted(loader, name)) = self.trial.start(task, loader, name, method, int) {
            self.load(u16::from(loader), name, 4);
        }
    }

    fn step(&mut self) {
        if let Reply::Stepped(answer) = self.trial.step() {
            self.react(answer);
        }
    }

    fn run(&mut self) {
        let n = match self.rng.below(4) {
            0 => self.rng.word().max(1),
            _ => self.rng.within(1, 12) as u16,
        };
        if let Reply::RanFor(_, answer) = self.trial.run(n) {
            self.react(answer);
        }
    }

    /// A wanted class is loaded, mostly; a task that can't go on is dropped, mostly.
    fn react(&mut self, answer: Answer) {
        match answer {
            Answer::Refused(Refusal::Wanted(loader, name)) if self.rng.percent(90) => {
                self.load(u16::from(loader), name, 6)
            }
            Answer::Refused(Refusal::Word(_)) if self.rng.percent(80) => {
                let task = self.trial.store.turn().unwrap_or(0) as u16;
                self.trial.drop_task(task);
            }
            _ => {}
        }
    }

    /// A call with arguments that may be anything.
    fn stray(&mut self) {
        let number = |rng: &mut Rng| match rng.below(8) {
            0 => rng.word().into(),
            1 => rng.pick(&[0x1_0000, 0x1_0001, 0x1_0002, u32::MAX, 256, 257]),
            2 | 3 => rng.pick(&[0, 1, 2, 15, 16, 64]),
            _ => rng.below(14) as u32,
        };
        let mut some = || number(&mut self.rng);
        let (a, b, c, d) = (some(), some(), some(), some());
        let call = match self.rng.below(12) {
            0 => Call::Boot,
            1 | 2 => Call::Record { loader: a, name: b, class: c },
            3 => Call::Start { task: a, loader: b, name: c as u16, method: d as u16, int: self.rng.draw() as u32 },
            4 => Call::Start { task: a % 3, loader: b % 17, name: c as u16, method: d as u16, int: b },
            5 => Call::Run { n: self.rng.pick(&[0, 1, 0x1_0000, 0x1_0001, u32::MAX]) },
            6 => Call::Drop { task: a },
            7..=9 => Call::Define { loader: a, file: self.some_file() },
            _ => Call::Define { loader: self.loader().into(), file: self.some_file() },
        };
        self.trial.call(call);
    }

    fn some_file(&mut self) -> Vec<u8> {
        let mut file = super::files::file(self.rng.draw());
        if let (false, Some(version @ (2 | 3))) = (self.blueprint.any_version, file.first_mut()) {
            *version = 1;
        }
        file
    }
}
