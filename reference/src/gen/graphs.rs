//! Random call lists from a boot about objects: chains, cycles and webs of them, held by locals, operands, frames that wait and fields, hidden
//! ones too, in both tasks, let go and swept, until the store is full and after that.

use super::build::{Code, Draft};
use super::rng::Rng;
use super::swept::{prepend, FIELDS, LOWER, LOWEST, NODE, OWN};
use super::Trial;
use crate::answer::{word, Answer, Refusal, Reply};
use crate::store::INT;

const MAIN: u16 = 20;
/// Methods from a node to a node; each calls those behind it, mostly.
const METHODS: [u16; 3] = [21, 22, 23];
/// Code that is longer gets no more instructions.
const LONG: usize = 360;

/// A list of so many turns, one to five calls each.
pub fn graphs(seed: u64, turns: usize) -> Trial {
    let mut rng = Rng::new(seed ^ 0x67_72_61_70);
    let mut trial = Trial::ready([1]);
    let fields = |draft: Draft| FIELDS.into_iter().fold(draft, |draft, field| draft.field(field, NODE));
    trial.define(1, &with_methods(&mut rng, fields(Draft::new(NODE).field(29, INT)), 100));
    let [lower, lowest] = [LOWER, LOWEST].map(|name| hiding(&mut rng, Draft::new(name).under(name - 1)));
    trial.define(1, &with_methods(&mut rng, lower.field(OWN, NODE), 50));
    trial.define(1, &lowest);
    if rng.percent(20) {
        (LOWEST + 1..LOWEST + 3).for_each(|name| crowd(&mut rng, &mut trial, name));
    }
    // Some lists hardly sweep, so that the store fills up.
    let sweeps = rng.pick(&[1, 4, 4, 8]);
    let mut graphs = Graphs { rng, trial, sweeps };
    for _ in 0..turns {
        graphs.turn();
    }
    graphs.trial
}

/// Adds fields that hide those of the node, mostly with their type.
fn hiding(rng: &mut Rng, draft: Draft) -> Draft {
    FIELDS.into_iter().fold(draft, |draft, field| match rng.below(5) {
        0 | 1 => draft.field(field, NODE),
        2 => draft.field(field, rng.pick(&[INT, LOWER])),
        _ => draft,
    })
}

/// A class with many fields, whose names those above have or have not; two of them pass the limit of fields at times.
fn crowd(rng: &mut Rng, trial: &mut Trial, name: u16) {
    let fields = rng.within(1, 8) as u16;
    let draft = (0..fields).fold(Draft::new(name).under(name - 1), |draft, i| draft.field(29 + i, NODE));
    trial.define(1, &draft);
}

/// Adds the methods, each so many times in a hundred.
fn with_methods(rng: &mut Rng, draft: Draft, percent: usize) -> Draft {
    let own = draft.name;
    let mut draft = draft.main(MAIN, &Weaver::new(rng, own, None).weave());
    for (place, &method) in METHODS.iter().enumerate() {
        if rng.percent(percent) {
            draft = draft.method(method, NODE, NODE, &Weaver::new(rng, own, Some(place)).weave());
        }
    }
    draft
}

struct Graphs {
    rng: Rng,
    trial: Trial,
    sweeps: usize,
}

impl Graphs {
    fn turn(&mut self) {
        let idle = self.trial.store.turn().is_none();
        let (start, sweeps) = if idle { (16, 1) } else { (3, self.sweeps) };
        match self.rng.weighted(&[start, 4, 10, sweeps, 1]) {
            0 => {
                let (task, class) = (self.rng.below(2) as u16, self.rng.pick(&[NODE, LOWER]));
                if self.trial.start(task, 1, class, MAIN, 7) == Reply::Denied(Refusal::Word(word::FULL)) {
                    self.trial.sweep();
                }
            }
            1 => drop(self.trial.step()),
            2 => self.run(),
            3 => drop(self.trial.sweep()),
            _ => {
                let task = self.rng.below(2) as u16;
                self.trial.drop_task(task);
            }
        }
    }

    /// A run; where it has no room it is swept, and a task that still can't go on is dropped, mostly.
    fn run(&mut self) {
        let n = self.rng.pick(&[3, 10, 30, 60, 300]);
        for _ in 0..2 {
            let Reply::RanFor(_, Answer::Refused(refusal)) = self.trial.run(n) else {
                return;
            };
            if refusal == Refusal::Word(word::FULL) && self.rng.percent(90) {
                self.trial.sweep();
                continue;
            }
            break;
        }
        if self.rng.percent(80) {
            let task = self.trial.store.turn().unwrap_or(0) as u16;
            self.trial.drop_task(task);
        }
    }
}

/// What a local holds: its type, nothing if that is null, and whether it can't be null.
#[derive(Clone, Copy)]
struct Held {
    of: Option<u16>,
    sure: bool,
}

/// Code under way, with what its locals hold and how many operands it has left lying.
struct Weaver<'a> {
    rng: &'a mut Rng,
    code: Code,
    locals: [Option<Held>; 8],
    left: usize,
    /// The method's place; none for the one that a task starts in.
    place: Option<usize>,
}

impl<'a> Weaver<'a> {
    fn new(rng: &'a mut Rng, own: u16, place: Option<usize>) -> Weaver<'a> {
        let mut locals = [None; 8];
        locals[0] = Some(Held { of: Some(own), sure: true });
        if place.is_some() {
            locals[1] = Some(Held { of: Some(NODE), sure: false });
        }
        Weaver { rng, code: Code::new(), locals, left: 0, place }
    }

    fn weave(mut self) -> Code {
        for _ in 0..self.rng.within(2, 30) {
            if self.code.bytes.len() < LONG {
                self.action();
            }
        }
        if self.place.is_none() {
            return self.code.end(INT);
        }
        self.some_value();
        self.code.areturn()
    }

    fn action(&mut self) {
        match self.rng.weighted(&[5, 8, 3, 2, 2, 1, 4, 2, 3]) {
            0 => self.make(),
            1 => self.link(),
            2 => self.follow(),
            3 => self.forget(),
            4 => self.leave(),
            5 => self.take_off(),
            6 => self.chain(),
            7 => self.ring(),
            _ => self.call(),
        }
    }

    fn emit(&mut self, change: impl FnOnce(Code) -> Code) {
        self.code = change(std::mem::take(&mut self.code));
    }

    /// A local to store in; `this` is kept.
    fn some_local(&mut self) -> u8 {
        self.rng.within(if self.place.is_some() { 1 } else { 2 }, 7) as u8
    }

    fn store(&mut self, held: Held) {
        let local = self.some_local();
        self.emit(|code| code.astore(local));
        self.locals[usize::from(local)] = Some(held);
    }

    /// Loads a local that can't be null: the class that it is known to have.
    fn receiver(&mut self) -> u16 {
        let is_sure = |&local: &u8| self.locals[usize::from(local)].is_some_and(|held| held.sure);
        let sure: Vec<u8> = (0..8).filter(is_sure).collect();
        let local = self.rng.pick(&sure);
        self.emit(|code| code.aload(local));
        self.locals[usize::from(local)].and_then(|held| held.of).expect("a class")
    }

    /// Loads some local that is set, or null.
    fn some_value(&mut self) {
        let set: Vec<u8> = (0..8).filter(|&local| self.locals[usize::from(local)].is_some()).collect();
        let local = self.rng.pick(&set);
        let is_null = self.rng.percent(10);
        self.emit(|code| if is_null { code.null() } else { code.aload(local) });
    }

    /// A class to name, the receiver's or one above it, and one of its fields.
    fn some_field(&mut self, of: u16) -> (u16, u16) {
        let class = self.rng.within(NODE.into(), of.into()) as u16;
        match self.rng.below(3) {
            0 if class != NODE => (class, OWN),
            place => (class, FIELDS[place % 2]),
        }
    }

    fn make(&mut self) {
        let class = self.rng.pick(&[NODE, NODE, LOWER, LOWEST]);
        self.emit(|code| code.object(class));
        self.store(Held { of: Some(class), sure: true });
    }

    fn link(&mut self) {
        let receiver = self.receiver();
        let (class, field) = self.some_field(receiver);
        self.some_value();
        self.emit(|code| code.putfield(class, field, NODE));
    }

    fn follow(&mut self) {
        let receiver = self.receiver();
        let (class, field) = self.some_field(receiver);
        self.emit(|code| code.getfield(class, field, NODE));
        self.store(Held { of: Some(NODE), sure: false });
    }

    fn forget(&mut self) {
        self.emit(|code| code.null());
        self.store(Held { of: None, sure: false });
    }

    /// Leaves an object among the operands.
    fn leave(&mut self) {
        if self.left < 8 {
            let class = self.rng.pick(&[NODE, LOWER, LOWEST]);
            let is_new = self.rng.percent(50);
            if is_new {
                self.emit(|code| code.object(class));
            } else {
                self.some_value();
            }
            self.left += 1;
        }
    }

    fn take_off(&mut self) {
        if self.left > 0 {
            self.emit(|code| code.pop());
            self.left -= 1;
        }
    }

    /// Some objects before what a local holds.
    fn chain(&mut self) {
        let local = self.some_local();
        if self.locals[usize::from(local)].is_none() {
            self.emit(|code| code.null().astore(local));
        }
        for _ in 0..self.rng.within(1, 9) {
            self.emit(|code| prepend(code, local));
        }
        self.locals[usize::from(local)] = Some(Held { of: Some(NODE), sure: true });
    }

    /// An object that holds itself.
    fn ring(&mut self) {
        let field = self.rng.pick(&FIELDS);
        self.emit(|code| code.object(NODE).dup().dup().putfield(NODE, field, NODE));
        self.store(Held { of: Some(NODE), sure: true });
    }

    fn call(&mut self) {
        let behind = self.place.map_or(0, |place| place + 1);
        if behind >= METHODS.len() && self.rng.percent(90) {
            return;
        }
        let method = METHODS[if self.rng.percent(10) { self.rng.below(3) } else { behind.min(2) }];
        self.receiver();
        self.some_value();
        self.emit(|code| code.invoke(NODE, method, NODE, NODE));
        if self.left < 8 && self.rng.percent(40) {
            self.left += 1;
        } else {
            self.store(Held { of: Some(NODE), sure: false });
        }
    }
}
