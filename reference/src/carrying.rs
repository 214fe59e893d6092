//! The changeover by the library beside this one: what it answers, all sixteen tables, and the calls that follow, beside the old machine's.

use std::fmt;

use crate::changeover::{carried, change_over, old_tables, side_by_side, Later, LATER};
use crate::compare::{both, sound};
use crate::gen::cells::each_cell;
use crate::gen::damage::probes;
use crate::gen::halfway::{after, damaged_old, half, halves_of_two, new_tables, using_up, SHAPES};
use crate::gen::{cases, Call};
use crate::host::{self, expected, CELLS};
use crate::old::{self, OldStore};
use crate::store::{count, Store, LENGTHS, TABLES};
use crate::{Answer, Reply};

/// Old histories and damaged old stores that go with a seed.
const HALVES: u64 = 2;
const STORES: u64 = 8;

/// What was carried and compared.
#[derive(Clone, Default)]
pub struct Carrying {
    /// Old stores that have each of `SHAPES`.
    pub shapes: [u64; SHAPES.len()],
    pub carried: u64,
    /// Refused with old tables that aren't broken, by the new table whose length is wrong.
    pub misshapen: [u64; TABLES.len()],
    /// Refused for an old store that is broken.
    pub broken: u64,
    /// Calls that both machines answered, and runs among them that finished.
    pub calls: u64,
    pub finished: u64,
    /// What ended the comparison.
    pub ends: [u64; LATER.len()],
}

/// The parts of `counts`, and where each begins.
pub const PARTS: [(&str, usize); 6] = [
    ("the counts", 0),
    ("the owners", count::OWNERS),
    ("the numbers of ties", count::TIE_NUMBERS),
    ("the numbers of subtype constraints", count::SUBTYPE_NUMBERS),
    ("the trace", count::LOADS),
    ("the groups", count::GROUPS),
];

/// Where two stores of the same lengths differ first: the table or its part, what stands there and what should.
fn difference(ours: &Store, theirs: &Store) -> Option<String> {
    let cells = |table: usize| (0..ours.lengths()[table]).find(|&cell| ours.get(table, cell) != theirs.get(table, cell));
    let (table, cell) = (0..TABLES.len()).find_map(|table| Some((table, cells(table)?)))?;
    let part = PARTS.iter().rev().find(|part| cell >= part.1).map_or("", |part| part.0);
    let part = if table == 0 { part.to_string() } else { format!("the {}", TABLES[table].0) };
    Some(format!("{part}: {}, not {}, in cell {cell}", theirs.get(table, cell), ours.get(table, cell)))
}

impl Carrying {
    /// Changes an old store over to new tables by both, and compares; the tables, if it is accepted.
    fn change(&mut self, old: &OldStore, new: &Store, cells: usize, label: &str) -> Option<Store> {
        const NOISE: u32 = 0x5EED;
        SHAPES.iter().zip(&mut self.shapes).for_each(|((_, has), stores)| *stores += u64::from(has(old)));
        let (mut ours, mut theirs, lent, mut answer) = (new.clone(), new.clone(), old.clone(), vec![NOISE; cells]);
        let reply = change_over(old, &mut ours);
        let told = expected(reply, 0);
        let number = host::change_over(&lent, &mut theirs, &mut answer);
        let wanted: Vec<u32> = (0..cells).map(|cell| *told.cells.get(cell).unwrap_or(&NOISE)).collect();
        assert!(number == told.number, "{label}: the changeover differs: returns {number}, not {}", told.number);
        assert!(answer == wanted, "{label}: the changeover differs: answers {answer:?}, not {wanted:?}");
        assert!(lent == *old, "{label}: the changeover differs: an old table is written");
        if let Some(what) = difference(&ours, &theirs) {
            let which = if reply == Reply::Accepted { "in" } else { "though it is refused, in" };
            panic!("{label}: the changeover differs {which} {what}");
        }
        self.carried += u64::from(reply == Reply::Accepted);
        self.broken += u64::from(old::broken(old));
        if !old::broken(old) {
            self.misshapen.iter_mut().zip(new.lengths().iter().zip(LENGTHS)).for_each(|(times, (&is, length))| *times += u64::from(is != length));
        }
        (reply == Reply::Accepted).then_some(ours)
    }

    /// Calls on a carried store by this machine and by the library, beside the old machine's on the old store.
    fn go_on(&mut self, old: &OldStore, new: &Store, calls: &[Call], is_sound: bool, label: &str) {
        let (mut old, mut ours, mut theirs) = (old.clone(), new.clone(), new.clone());
        let mut finished = 0;
        let compared = side_by_side(&mut old, &mut ours, calls, label, |call, store| {
            let reply = both(store, &mut theirs, call, CELLS, label);
            finished += u64::from(matches!(reply, Reply::RanFor(_, Answer::Finished(..)) | Reply::Stepped(Answer::Finished(..))));
            if is_sound {
                sound(&theirs, call, reply, label);
            }
            reply
        });
        self.calls += compared.calls as u64;
        self.finished += finished;
        compared.by.into_iter().for_each(|by: Later| self.ends[by as usize] += 1);
        // the call that ended it is made; those behind it are answered by today's rules alone
        for call in calls.iter().skip(compared.calls + 1) {
            both(&mut ours, &mut theirs, call, CELLS, label);
        }
    }

    /// What a seed stands for.
    pub fn seed(&mut self, seed: u64) {
        for seed in HALVES * seed..HALVES * (seed + 1) {
            let (half, label) = (half(seed), format!("half {seed}"));
            if let Some(new) = self.change(&half.old, &new_tables(seed), CELLS, &label) {
                sound(&new, &Call::Step, Reply::Accepted, &label);
                self.go_on(&half.old, &new, &half.calls, true, &label);
            }
        }
        for seed in STORES * seed..STORES * (seed + 1) {
            let (old, label) = (damaged_old(seed), format!("damaged old store {seed}"));
            if let Some(new) = self.change(&old, &new_tables(seed), seed as usize % 9, &label) {
                let mut calls = probes(seed, &new);
                calls.retain(|call| *call != Call::Boot && old::make(call, &mut OldStore::zeros()).is_some());
                self.go_on(&old, &new, &calls, false, &label);
            }
        }
    }

    /// Every cell of an old store changed alone, whose tasks are both half run; and what needs no seed.
    pub fn cells(&mut self) {
        let old = after(&halves_of_two([5, 6]).calls);
        each_cell(&carried(&old), |store, label| {
            self.change(&old_tables(store), &Store::zeros(), CELLS, label);
        });
        let store = cases::whole();
        self.change(&old_tables(&store), &store, CELLS, "a store of files of version 1");
        let half = using_up();
        if let Some(new) = self.change(&half.old, &store, CELLS, "a report that uses up its share") {
            self.go_on(&half.old, &new, &half.calls, true, "a report that uses up its share");
        }
    }

    pub fn add(&mut self, other: &Carrying) {
        let add = |one: &mut [u64], other: &[u64]| one.iter_mut().zip(other).for_each(|(one, other)| *one += other);
        add(&mut self.shapes, &other.shapes);
        add(&mut self.misshapen, &other.misshapen);
        add(&mut self.ends, &other.ends);
        self.carried += other.carried;
        self.broken += other.broken;
        self.calls += other.calls;
        self.finished += other.finished;
    }

    /// What should have been met and wasn't.
    pub fn unmet(&self) -> Vec<String> {
        let mut unmet: Vec<String> = SHAPES.iter().zip(self.shapes).filter(|(_, stores)| *stores == 0).map(|((what, _), _)| format!("no old store has {what}")).collect();
        unmet.extend(LATER.iter().zip(self.ends).filter(|(_, ends)| *ends == 0).map(|(by, _)| format!("no comparison of a carried store was ended by {by:?}")));
        unmet.extend(TABLES.iter().zip(self.misshapen).filter(|(_, times)| *times == 0).map(|(table, _)| format!("no new table {} had a wrong length", table.0)));
        for (what, times) in [("carried", self.carried), ("broken", self.broken), ("gone on with", self.calls), ("finished", self.finished)] {
            unmet.extend((times == 0).then(|| format!("nothing was {what} by a changeover")));
        }
        unmet
    }
}

impl fmt::Display for Carrying {
    fn fmt(&self, f: &mut fmt::Formatter) -> fmt::Result {
        writeln!(f, "Changeovers: {} accepted, {} of broken old stores; new tables of a wrong length: {:?}", self.carried, self.broken, self.misshapen)?;
        writeln!(f, "Calls answered as by the old machine: {}, runs that finished: {}, ended by {LATER:?}: {:?}", self.calls, self.finished, self.ends)?;
        SHAPES.iter().zip(&self.shapes).try_for_each(|((what, _), stores)| writeln!(f, "Old stores with {what}: {stores}"))
    }
}
