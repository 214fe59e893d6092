//! Random call lists from a boot about long runs: loops, recursion and call trees come by the same places again and again, with receivers of several
//! classes, hidden fields, classes of one name under several loaders, ties that are posted midway and refusals of every kind. They are cut into
//! runs of 1 to some thousands of steps, with sweeps, loads, takings back and the other task between.

use super::build::{Code, Draft};
use super::rng::Rng;
use super::Trial;
use crate::answer::{word, Answer, Refusal, Reply};
use crate::file::{LISTED as VERSION_3, MAPPED as VERSION_2};
use crate::store::{INT, QUOTE, REPORT};

const LOADERS: [u16; 3] = [1, 2, 3];
/// The family: kinds stand below the top or each other, some of them below the node.
const TOP: u16 = 10;
const NODE: u16 = 11;
const KINDS: std::ops::Range<u16> = 12..16;
/// A class that mostly is another one under each loader, and the one that tasks start in.
const HELPER: u16 = 16;
const DRIVER: u16 = 17;
/// Classes that are loaded when they are wanted, or not at all; types of fields and arguments, likewise.
const LATE: [u16; 2] = [18, 19];
const TIED: [u16; 5] = [20, 21, 22, 23, 24];

/// Fields: an int, the next of a ring, what is held, and those of the types above.
const COUNT: u16 = 30;
const NEXT: u16 = 31;
const HELD: u16 = 32;
const FAR: [u16; 4] = [33, 34, 35, 36];
const ABSENT: u16 = 37;

/// Methods of the family, by what they do; those with three arguments and with none are of version 3.
const PLAIN: u16 = 40;
const DEEP: u16 = 41;
const WALK: u16 = 42;
const TYING: u16 = 43;
const THREE: u16 = 44;
const NONE: u16 = 45;
const LEAVES: [u16; 2] = [46, 47];
const HELP: u16 = 48;
/// Where tasks start.
const MAINS: [u16; 2] = [50, 51];

/// How many rounds a task is started for, and some more.
const ROUNDS: [u16; 6] = [3, 30, 100, 400, 1_000, 3_000];
/// Parts from this one on, ties among them, mostly end a run or bring something new: in loops they stand behind some rounds.
const SELDOM: usize = 9;
/// Code that is longer gets no more parts.
const LONG: usize = 380;

/// A list of so many turns, one to three calls each.
pub fn lasting(seed: u64, turns: usize) -> Trial {
    let rng = Rng::new(seed ^ 0x6C_6F_6E_67);
    let mut lasting = Lasting { rng, trial: Trial::ready(LOADERS) };
    lasting.load_all();
    for _ in 0..turns {
        lasting.turn();
    }
    lasting.trial
}

/// The superclass of each class of the family but the top, by its place.
#[derive(Clone)]
struct Family {
    supers: Vec<u16>,
    /// Has the top methods of version 3?
    is_listed: bool,
}

impl Family {
    fn new(rng: &mut Rng) -> Family {
        let supers = KINDS.map(|kind| rng.within(TOP.into(), usize::from(kind) - 1) as u16);
        Family { supers: [TOP].into_iter().chain(supers).collect(), is_listed: rng.percent(70) }
    }

    fn superclass(&self, name: u16) -> Option<u16> {
        self.supers.get(usize::from(name.checked_sub(NODE)?)).copied()
    }

    /// A class and those above it.
    fn upward(&self, name: u16) -> Vec<u16> {
        std::iter::successors(Some(name), |&name| self.superclass(name)).collect()
    }

    /// A class and those below it.
    fn downward(&self, name: u16) -> Vec<u16> {
        (TOP..KINDS.end).filter(|&lower| self.upward(lower).contains(&name)).collect()
    }

    /// The top has every method and field that others override and hide.
    fn draft(&self, rng: &mut Rng, name: u16) -> Draft {
        let is_top = name == TOP;
        let version = if is_top && self.is_listed { VERSION_3 } else { rng.within(1, 3) as u8 };
        let mut draft = Draft { version, superclass: self.superclass(name).unwrap_or(2), ..Draft::new(name) };
        let mut fields = vec![(COUNT, INT, 40), (NEXT, if name == NODE { NODE } else { TOP }, if name == NODE { 100 } else { 10 }), (HELD, TOP, 20)];
        fields.extend(FAR.into_iter().zip(TIED).map(|(field, of)| (field, of, 5)));
        // the order is the class's own
        let first = rng.below(fields.len());
        fields.rotate_left(first);
        for (field, of, percent) in fields {
            if is_top || rng.percent(percent) {
                draft = draft.field(field, of);
            }
        }
        let methods: [(u16, &[u16], u16); 8] = [
            (PLAIN, &[INT], INT), (DEEP, &[INT], INT), (WALK, &[TOP], TOP), (TYING, &[TIED[0]], TIED[4]), (THREE, &[INT; 3], INT), (NONE, &[], INT),
            (LEAVES[0], &[INT], INT), (LEAVES[1], &[INT], INT),
        ];
        for (method, arguments, result) in methods {
            if (arguments.len() == 1 || version == VERSION_3) && (is_top || rng.percent(50)) {
                draft = draft.method_of(method, arguments, result, &Weaver::new(rng, self, version, name).body(method));
            }
        }
        draft
    }

    /// The class that tasks start in: loops over rings of the top's objects and of the node's.
    fn driver(&self, rng: &mut Rng) -> Draft {
        let version = rng.pick(&[VERSION_2, VERSION_3]);
        let bases = [TOP, rng.pick(&[TOP, NODE])];
        MAINS.into_iter().zip(bases).fold(Draft { version, ..Draft::new(DRIVER) }, |draft, (main, base)| {
            draft.main(main, &Weaver::new(rng, self, version, DRIVER).looping(base))
        })
    }
}

/// A method under way.
struct Weaver<'a> {
    rng: &'a mut Rng,
    family: &'a Family,
    version: u8,
    code: Code,
    /// The types of the locals at its maps.
    locals: Vec<u16>,
    /// The locals that hold receivers, the classes that may be named for them, and the local that holds an int, if there is one.
    receivers: Vec<u8>,
    named: Vec<u16>,
    int: Option<u8>,
    labels: u16,
}

impl<'a> Weaver<'a> {
    fn new(rng: &'a mut Rng, family: &'a Family, version: u8, own: u16) -> Weaver<'a> {
        let code = Code::of_version(version);
        Weaver { rng, family, version, code, locals: vec![own], receivers: vec![0], named: family.upward(own), int: None, labels: 0 }
    }

    fn emit(&mut self, change: impl FnOnce(Code) -> Code) {
        self.code = change(std::mem::take(&mut self.code));
    }

    fn label(&mut self) -> u16 {
        self.labels += 1;
        self.labels
    }

    fn point(&mut self, label: u16) {
        let locals = self.locals.clone();
        self.emit(|code| code.point(label, &locals, &[]));
    }

    /// A local that holds a receiver, and the class that is named for it.
    fn receiver(&mut self) -> (u8, u16) {
        (self.rng.pick(&self.receivers), self.rng.pick(&self.named))
    }

    /// A class of the family whose objects are made.
    fn kind(&mut self) -> u16 {
        self.rng.within(TOP.into(), usize::from(KINDS.end) - 1) as u16
    }

    /// Pushes the int, or a small one.
    fn push_int(&mut self) {
        let small = self.rng.within(0, 5) as i16;
        let int = self.int.filter(|_| self.rng.percent(70));
        self.emit(|code| if let Some(local) = int { code.iload(local) } else { code.int(small) });
    }

    /// A method of the family.
    fn body(mut self, method: u16) -> Code {
        let argument = match method {
            WALK => Some(TOP),
            TYING => Some(TIED[0]),
            NONE => None,
            _ => Some(INT),
        };
        self.locals.extend(argument);
        self.int = (argument == Some(INT)).then_some(1);
        self.begin(LEAVES.contains(&method));
        if method == DEEP {
            return self.deep();
        }
        let most = if method == PLAIN { 3 } else { usize::from(!LEAVES.contains(&method)) };
        for _ in 0..self.rng.within(0, most) {
            self.guarded(if method == PLAIN { &[6, 0, 3, 5, 2, 1, 2, 1, 0, 3, 1, 0] } else { &[6, 0, 2, 2, 2, 1, 0, 0, 0, 2, 0, 0] });
        }
        if method == WALK {
            return self.walked();
        }
        if method == TYING {
            return self.code.end(TIED[4]);
        }
        let (own, int, more) = (self.named[0], self.int, self.rng.below(100) as i16);
        match (int, self.rng.below(3)) {
            (Some(local), 0) => self.code.iload(local).int(more).iadd().ireturn(),
            (_, 1) => self.code.aload(0).getfield(own, COUNT, INT).int(more).iadd().ireturn(),
            _ => self.code.int(more).ireturn(),
        }
    }

    /// How many methods begin: an access to a field of this, and a call on it, at the same points, with other names.
    fn begin(&mut self, is_leaf: bool) {
        let ([from, to], (field, of)) = ([0, 1].map(|_| self.rng.pick(&self.named)), self.rng.pick(&[(COUNT, INT), (HELD, TOP)]));
        if self.rng.percent(60) {
            self.emit(|code| code.aload(0).dup().getfield(from, field, of).putfield(to, field, of));
        }
        if !is_leaf && self.rng.percent(60) {
            let (leaf, int) = (self.rng.pick(&LEAVES), self.rng.below(9) as i16);
            self.emit(|code| code.aload(0).dup().int(int).invoke(from, leaf, INT, INT).putfield(to, COUNT, INT));
        }
    }

    /// Gives this, the argument, the next one or a new one.
    fn walked(mut self) -> Code {
        let kind = self.kind();
        match self.rng.below(5) {
            0 => self.code.aload(0).areturn(),
            1 | 2 => self.code.aload(1).areturn(),
            3 => self.code.aload(0).getfield(TOP, NEXT, TOP).areturn(),
            _ => self.code.object(kind).areturn(),
        }
    }

    /// Calls itself, once or twice, on this or on the next, until its int is 0.
    fn deep(mut self) -> Code {
        if self.version < VERSION_2 {
            let named = self.rng.pick(&self.named);
            return self.code.aload(0).iload(1).invoke(named, PLAIN, INT, INT).ireturn();
        }
        let done = self.label();
        self.emit(|code| code.iload(1).ifeq(done));
        self.guarded(&[6, 2, 1, 3, 1, 1, 1, 1, 0, 1, 0, 0]);
        let twice = self.rng.percent(60);
        for at in 0..1 + usize::from(twice) {
            let (named, is_next) = (self.rng.pick(&self.named), self.rng.percent(50));
            self.emit(|code| if is_next { code.aload(0).getfield(TOP, NEXT, TOP) } else { code.aload(0) });
            self.emit(|code| code.iload(1).int(1).isub().invoke(if is_next { TOP } else { named }, DEEP, INT, INT));
            self.emit(|code| if at > 0 { code.iadd() } else { code });
        }
        self.emit(|code| code.ireturn());
        self.point(done);
        let more = self.rng.below(50) as i16;
        self.code.int(more).ireturn()
    }

    /// A ring of objects, and a loop that goes round it as many times as its int says; some aren't closed.
    fn looping(mut self, base: u16) -> Code {
        let kinds = self.family.downward(base);
        let ring: Vec<u16> = (0..self.rng.within(1, 5)).map(|_| self.rng.pick(&kinds)).collect();
        let link = |code: Code| if base == NODE { code.dup().aload(2).putfield(NODE, NEXT, NODE) } else { code };
        self.emit(|code| code.null().astore(2));
        for (at, &kind) in ring.iter().enumerate() {
            self.emit(|code| if at == 0 { code.object(kind).dup().astore(4) } else { code.object(kind) });
            self.emit(|code| link(code.dup().aload(2).putfield(TOP, NEXT, TOP)).astore(2));
        }
        if self.rng.percent(92) {
            self.emit(|code| link(code.aload(4).dup().aload(2).putfield(TOP, NEXT, TOP)).pop());
        }
        self.emit(|code| code.int(0).istore(3));
        self.locals.extend([INT, base, INT, base]);
        self.named = self.family.upward(base);
        self.receivers = vec![2, 2, 2, 4];
        self.int = Some(1);
        let [again, done] = [self.label(), self.label()];
        self.point(again);
        self.emit(|code| code.iload(1).ifeq(done));
        for _ in 0..self.rng.within(2, 6) {
            self.guarded(&[3, 6, 3, 3, 2, 3, 3, 3, 3, 8, 3, 3]);
        }
        self.emit(|code| code.aload(2).getfield(base, NEXT, base).astore(2).iload(1).int(1).isub().istore(1).goto(again));
        self.point(done);
        self.code.iload(3).ireturn()
    }

    /// A part, or one that is done only down to an int, or from it on, or at it, where the version has jumps and there is room.
    fn guarded(&mut self, weights: &[usize; 12]) {
        if self.code.bytes.len() > LONG {
            return;
        }
        let part = self.rng.weighted(weights);
        let (Some(int), true) = (self.int.filter(|_| self.version >= VERSION_2), part >= SELDOM || self.rng.percent(40)) else {
            return self.part(part);
        };
        let rounds = self.rng.pick(&ROUNDS);
        let at = (rounds - self.rng.below(rounds.min(40).into()) as u16) as i16;
        let skip = self.label();
        match self.rng.below(4) {
            0 | 1 if part < SELDOM => self.emit(|code| code.iload(int).int(at).if_icmplt(skip)),
            0..=2 => self.emit(|code| code.int(at).iload(int).if_icmplt(skip)),
            _ => {
                let yes = self.label();
                self.emit(|code| code.iload(int).int(at).isub().ifeq(yes).goto(skip));
                self.point(yes);
            }
        }
        self.part(part);
        self.point(skip);
    }

    /// One thing that leaves the operands as they were.
    fn part(&mut self, part: usize) {
        let (receiver, class) = self.receiver();
        match part {
            0 => self.bump(receiver, class),
            1 => self.call(receiver, class, PLAIN),
            2 => self.make(receiver, class),
            3 => {
                self.emit(|code| code.object(HELPER));
                self.push_int();
                self.emit(|code| code.invoke(HELPER, HELP, INT, INT).pop());
            }
            4 => {
                let kind = self.kind();
                self.emit(|code| code.object(kind).pop());
            }
            5 => self.count(),
            6 => self.walk(receiver, class),
            7 => self.listed(receiver, class),
            8 => {
                let deep = self.rng.pick(&[2, 4, 6, 8, 28, 40]);
                self.emit(|code| code.aload(receiver).int(deep).invoke(class, DEEP, INT, INT).pop());
            }
            SELDOM => self.tie(receiver, class),
            10 => self.divide(),
            _ => {
                let late = self.rng.pick(&LATE);
                let is_absent = self.rng.percent(30);
                self.emit(|code| if is_absent { code.aload(receiver).getfield(class, ABSENT, INT).pop() } else { code.object(late).pop() });
            }
        }
    }

    /// Adds to a field; the class that is named for the writing may be another, and so may be the field that is meant.
    fn bump(&mut self, receiver: u8, class: u16) {
        let other = self.rng.pick(&self.named);
        self.emit(|code| code.aload(receiver).aload(receiver).getfield(class, COUNT, INT));
        self.push_int();
        self.emit(|code| code.iadd().putfield(other, COUNT, INT));
    }

    /// A call whose result is put into a field.
    fn call(&mut self, receiver: u8, class: u16, method: u16) {
        self.emit(|code| code.aload(receiver).aload(receiver));
        self.push_int();
        self.emit(|code| code.invoke(class, method, INT, INT).putfield(class, COUNT, INT));
    }

    /// A new object that is held by another, in whose field one was that is then let go.
    fn make(&mut self, receiver: u8, class: u16) {
        let kind = self.kind();
        self.emit(|code| code.aload(receiver).object(kind).putfield(class, HELD, TOP));
    }

    /// An access or a call that ties a type, if its loaders differ.
    fn tie(&mut self, receiver: u8, class: u16) {
        let at = self.rng.below(FAR.len());
        match self.rng.below(3) {
            0 => self.emit(|code| code.aload(receiver).getfield(class, FAR[at], TIED[at]).pop()),
            1 => self.emit(|code| code.aload(receiver).null().putfield(class, FAR[at], TIED[at])),
            _ => self.emit(|code| code.aload(receiver).null().invoke(class, TYING, TIED[0], TIED[4]).pop()),
        }
    }

    /// Instructions that touch the frame alone; in a loop's method, a loop within it.
    fn count(&mut self) {
        if self.locals.len() < 5 {
            return self.emit(|code| code.int(3).dup().iadd().pop().null().pop());
        }
        let [again, done] = [self.label(), self.label()];
        let rounds = self.rng.within(1, 9) as i16;
        self.emit(|code| code.int(rounds).istore(3));
        self.point(again);
        self.emit(|code| code.iload(3).ifeq(done).iload(3).int(1).isub().istore(3).goto(again));
        self.point(done);
    }

    fn walk(&mut self, receiver: u8, class: u16) {
        self.emit(|code| code.aload(receiver).dup().dup().invoke(class, WALK, TOP, TOP).putfield(class, HELD, TOP));
    }

    /// Calls with three arguments and with none, where there are such.
    fn listed(&mut self, receiver: u8, class: u16) {
        if self.version < VERSION_3 || !self.family.is_listed {
            return self.bump(receiver, class);
        }
        if self.rng.percent(40) {
            return self.emit(|code| code.aload(receiver).dup().call(class, NONE, &[], INT).putfield(class, COUNT, INT));
        }
        self.emit(|code| code.aload(receiver).dup());
        (0..3).for_each(|_| self.push_int());
        self.emit(|code| code.call(class, THREE, &[INT; 3], INT).putfield(class, COUNT, INT));
    }

    /// A quotient whose divisor may be 0 at one int.
    fn divide(&mut self) {
        if self.version < VERSION_2 {
            return;
        }
        let less = self.rng.pick(&[0, 1, 7, 395]);
        self.push_int();
        self.emit(|code| code.dup().int(less).isub().idiv().pop());
    }
}

struct Lasting {
    rng: Rng,
    trial: Trial,
}

impl Lasting {
    /// Defines under the loader, and records under the others. A file that is refused is let go.
    fn share(&mut self, loader: u16, draft: &Draft, others: &[u16]) {
        if let Reply::Defined(class) = self.trial.define(loader, draft) {
            for &other in others.iter().filter(|&&other| other != loader) {
                self.trial.record(other, draft.name, class.into());
            }
        }
    }

    /// The family of loader 1, which others have too or have their own of; some of its kinds come from others.
    fn load_all(&mut self) {
        let family = Family::new(&mut self.rng);
        let (with, apart): (Vec<u16>, Vec<u16>) = LOADERS.into_iter().partition(|&loader| loader == 1 || self.rng.percent(75));
        let drafts: Vec<Draft> = (TOP..KINDS.end).map(|name| family.draft(&mut self.rng, name)).collect();
        for draft in &drafts {
            let from = if draft.name > NODE && self.rng.percent(50) { self.rng.pick(&with) } else { 1 };
            self.share(from, draft, &with);
        }
        for loader in apart {
            let are_same = self.rng.percent(50);
            for draft in &drafts {
                let draft = if are_same { draft.clone() } else { family.draft(&mut self.rng, draft.name) };
                self.share(loader, &draft, &[]);
            }
        }
        let mut driver = family.driver(&mut self.rng);
        for loader in LOADERS {
            for tied in TIED {
                if self.rng.percent(40) {
                    self.load(loader, tied);
                }
            }
            let helper = self.helper(loader);
            self.share(loader, &helper, &[]);
            if self.rng.percent(60) {
                driver = family.driver(&mut self.rng);
            }
            self.share(loader, &driver, &[]);
        }
    }

    /// A class with as many fields as its loader's number, and its own result.
    fn helper(&mut self, loader: u16) -> Draft {
        let draft = (0..loader).fold(Draft::new(HELPER), |draft, field| draft.field(COUNT + field, if field == 1 { HELPER } else { INT }));
        let code = Code::new().aload(0).iload(1).putfield(HELPER, COUNT, INT).int(loader as i16);
        let code = if self.rng.percent(30) { code.object(HELPER).pop() } else { code };
        draft.main(HELP, &code.iload(1).iadd().ireturn())
    }

    fn turn(&mut self) {
        let is_idle = self.trial.store.turn().is_none();
        match self.rng.weighted(&[if is_idle { 20 } else { 2 }, 14, 1, 2, 1, 2, 1]) {
            0 => self.start(),
            1 => self.run(),
            2 => _ = self.trial.step(),
            3 => _ = self.trial.sweep(),
            4 => _ = self.trial.drop_task(self.rng.below(2) as u16),
            5 => {
                let (loader, name) = (self.rng.pick(&LOADERS), self.rng.pick(&[&LATE[..], &TIED].concat()));
                self.load(loader, name);
            }
            _ => _ = self.trial.take_back(),
        }
    }

    fn start(&mut self) {
        let (task, loader, main) = (self.rng.pick(&[QUOTE, REPORT]), self.rng.pick(&[1, 2, 2, 3, 3]), self.rng.pick(&MAINS));
        let rounds = self.rng.pick(&ROUNDS) + self.rng.below(9) as u16;
        let reply = self.trial.start(task as u16, loader, DRIVER, main, rounds.into());
        if [word::FULL, word::SHARE_USED].map(|number| Reply::Denied(Refusal::Word(number))).contains(&reply) {
            self.trial.sweep();
        }
    }

    /// A run, and what a host does about a refusal, mostly.
    fn run(&mut self) {
        let most = self.rng.pick(&[1, 40, 254, 255, 256, 300, 600, 1_500, 4_000]);
        let n = most + self.rng.below(1 + most / 4);
        let Reply::RanFor(_, Answer::Refused(refusal)) = self.trial.run(n as u16) else {
            return;
        };
        let task = self.trial.store.turn().unwrap_or(QUOTE) as u16;
        let is_kind = self.rng.percent(75);
        match refusal {
            Refusal::Wanted(loader, name) if is_kind && name != DRIVER => self.load(loader.into(), name),
            Refusal::Word(word::FULL) if is_kind && self.trial.store.unused_object().is_none() => _ = self.trial.sweep(),
            Refusal::Word(word::SHARE_USED) if is_kind => _ = self.trial.sweep(),
            Refusal::Word(word::SHARE_USED) => self.start(),
            Refusal::Word(word::CLASH) if self.rng.percent(30) => _ = self.trial.take_back(),
            _ if self.rng.percent(95) => _ = self.trial.drop_task(task),
            _ => {}
        }
    }

    /// Loads a class that may be another's.
    fn load(&mut self, loader: u16, name: u16) {
        let theirs: Vec<u16> = LOADERS.into_iter().filter_map(|other| self.trial.store.cached(other, name)).collect();
        if !theirs.is_empty() && self.rng.percent(40) {
            let class = self.rng.pick(&theirs);
            self.trial.record(loader, name, class);
        } else {
            self.trial.define(loader, &Draft::new(name).field(COUNT, INT));
        }
    }
}
