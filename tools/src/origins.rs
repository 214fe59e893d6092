//! Where constraints come from: the call that posted each, and what in it did.

use reference::agree::{numbered, same_tie, Added, Constraint};
use reference::broken::unbroken;
use reference::file::{File, Method};
use reference::gen::Call;
use reference::host::Told;
use reference::store::TASKS;
use reference::verifier::seen;
use reference::Store;

use crate::machine;
use crate::names::Names;
use crate::rows::next_instruction;
use crate::tried::tried;
use crate::words::task;

/// What is remembered of the calls so far.
#[derive(Clone, Default)]
pub struct Origins {
    /// How many calls were made.
    pub calls: usize,
    /// For each constraint, by its number, where it comes from.
    rows: Vec<String>,
    /// How many steps of each task ran since it was started.
    steps: [u64; TASKS as usize],
}

impl Origins {
    /// Where the constraint of this number comes from.
    pub fn of(&self, row: u16) -> Option<&str> {
        self.rows.get(usize::from(row)).map(String::as_str).filter(|said| !said.is_empty())
    }

    /// Where a row of a chain comes from by which this call clashed: a constraint of the store, or one that the call itself would post.
    pub fn told(&self, row: u16, is_own: bool, call: &Call, constraint: Constraint, store: &Store, names: &Names) -> Option<String> {
        match is_own {
            true => cause(call, constraint, store, names),
            false => self.of(row).map(str::to_string),
        }
    }

    /// A changeover has filled a store with so many constraints, or was refused.
    pub fn carry(&mut self, constraints: Option<usize>) {
        self.calls += 1;
        if let Some(constraints) = constraints {
            self.rows = vec![format!("carried by call {}, the changeover", self.calls); constraints];
            self.steps = Default::default();
        }
    }

    /// Notes what a call did that led from one store to the other.
    pub fn note(&mut self, call: &Call, told: &Told, before: &Store, after: &Store, names: &Names) {
        self.calls += 1;
        if let Call::Start { task, .. } = *call {
            if let Some(steps) = self.steps.get_mut(task as usize) {
                *steps = 0;
            }
        }
        let (Some(_), Some(_)) = (unbroken(before), unbroken(after)) else {
            self.rows.clear();
            return;
        };
        match *call {
            Call::Step => self.step(told, before, after, names),
            Call::Run { .. } => self.run(told.cells[5], before, after, names),
            _ => self.post(call, before, after, names, ""),
        }
    }

    /// The constraints that are new: those of the highest numbers. After a boot, or what else has taken some away, the lower ones stay.
    fn post(&mut self, call: &Call, before: &Store, after: &Store, names: &Names, by: &str) {
        let now = numbered(after, &Added::default());
        if *call == Call::Boot {
            self.rows.clear();
        }
        self.rows.truncate(now.len());
        for &constraint in &now[self.rows.len()..] {
            let cause = cause(call, constraint, before, names).map_or(String::new(), |cause| format!(": {cause}"));
            self.rows.push(format!("posted by call {}{by}{cause}", self.calls));
        }
    }

    fn step(&mut self, told: &Told, before: &Store, after: &Store, names: &Names) {
        let Some(turn) = before.turn() else {
            return;
        };
        self.steps[turn] += u64::from(told.number == 0);
        let by = format!(", the {}'s step {}", task(turn as u32), self.steps[turn]);
        self.post(&Call::Step, before, after, names, &by);
    }

    /// A run's steps, all of one task; one by one, on a copy, where the run has posted something.
    fn run(&mut self, steps: u32, before: &Store, after: &Store, names: &Names) {
        if before.constraint_count() == after.constraint_count() {
            if let Some(turn) = before.turn() {
                self.steps[turn] += u64::from(steps);
            }
            return;
        }
        let mut store = before.clone();
        for _ in 0..steps {
            let then = store.clone();
            if let Some(told) = machine::make(&Call::Step, &mut store, &mut []) {
                self.step(&told, &then, &store, names);
            }
        }
    }
}

/// What in a call posts this constraint, on the store before it.
pub fn cause(call: &Call, constraint: Constraint, before: &Store, names: &Names) -> Option<String> {
    match (call, constraint) {
        (Call::Define { file, .. }, Constraint::Subtype([_, lower, higher])) => noted(File::read(file)?, (lower, higher), names),
        (&Call::Define { loader, ref file }, Constraint::Tie(row)) => overriding(File::read(file)?, loader as u16, row, before, names),
        (Call::Step | Call::Run { .. }, Constraint::Tie(row)) => {
            let is_own = tried(&Call::Step, before).ties.iter().any(|&tie| same_tie(tie, row));
            is_own.then(|| next_instruction(before, names))?
        }
        _ => None,
    }
}

/// A method of a class, without its types.
fn member(class: u16, method: Method, names: &Names) -> String {
    format!("{}.{}", names.class(class), names.member(method.signature.name))
}

/// The point at which the verifier notes that one name is below another.
fn noted(file: File, note: (u16, u16), names: &Names) -> Option<String> {
    file.methods().find_map(|method| {
        let (points, _) = seen(file.name(), method);
        let point = points.iter().find(|seen| seen.notes.contains(&note))?.point;
        Some(format!("noted by the verifier at point {point} of {}", member(file.name(), method, names)))
    })
}

/// The method that overrides another and ties their loaders by it.
fn overriding(file: File, loader: u16, row: [u16; 3], store: &Store, names: &Names) -> Option<String> {
    let (classes, superclass) = (unbroken(store)?, store.cached(loader, file.superclass())?);
    file.methods().find_map(|method| {
        let (nearest, other) = classes.method(store, superclass, method.signature)?;
        let is_it = method.signature.types().any(|of| same_tie([loader, store.loader_of(nearest), of], row));
        let (own, other) = (member(file.name(), method, names), member(store.name_of(nearest), other, names));
        is_it.then(|| format!("{own} overrides {other}"))
    })
}
