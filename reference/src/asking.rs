//! The search for an order of offered loads by the library beside this one: what it answers, both stores, and the loads found made one by one.

use std::fmt;

use crate::answer::word;
use crate::broken::broken;
use crate::carrying::PARTS;
use crate::compare::sound;
use crate::gen::dear::dear;
use crate::gen::offers::{asked, call_of, cases, misshapen_seconds, none_of, none_of_eight, seconds, unreadable, Asked};
use crate::gen::Trial;
use crate::host::make;
use crate::host_how::{self, expected, found, CELLS};
use crate::how::{how, Found, Offer, Question, MOST_OFFERS};
use crate::store::{count, Store, LENGTHS, MOST_LOADS, TABLES};
use crate::Reply;

/// Questions that go with a seed.
const QUESTIONS: u64 = 6;
/// One seed of so many, from this one on, has a question whose every order is gone through.
const DEAR: [u64; 2] = [128, 100];

/// What was asked and compared.
#[derive(Clone, Default)]
pub struct Asking {
    /// Orders found, by how many loads they have.
    pub found: [u64; MOST_OFFERS + 1],
    pub nothing: u64,
    /// Refused with 1 for the box, with 1 for a length of each second table, with 3, with 20.
    pub broken: u64,
    pub misshapen: [u64; TABLES.len()],
    pub unknown: u64,
    pub offers: u64,
    /// Questions with each of `SHAPES`.
    pub shapes: [u64; SHAPES.len()],
}

type Shape = (&'static str, fn(&Store, &Store, &Question, &Found) -> bool);

fn order(found: &Found) -> &[u8] {
    if let Found::Order(order) = found {
        order
    } else {
        &[]
    }
}

fn offers(question: &Question) -> Vec<Offer> {
    question.offers().unwrap_or_default()
}

/// What questions must have been met.
const SHAPES: [Shape; 13] = [
    ("an order that doesn't rise", |_, _, _, found| !order(found).is_sorted()),
    ("a set of offers of which the first isn't taken", |_, _, _, found| order(found).first().is_some_and(|&first| first > 0)),
    ("an order of all offers", |_, _, question, found| order(found).len() > 1 && order(found).len() == offers(question).len()),
    ("a record of a class that the order made", |own, _, question, found| {
        let is_made = |offer: &Offer| matches!(*offer, Offer::Record { class, .. } if class >= own.counts[count::CLASSES].into());
        order(found).iter().any(|&number| is_made(&offers(question)[usize::from(number)]))
    }),
    ("one of two equal offers", |_, _, question, found| {
        let all = offers(question);
        order(found).iter().any(|&number| all.iter().filter(|&offer| *offer == all[usize::from(number)]).count() > 1)
    }),
    ("a load behind 32 that are remembered", |own, _, _, found| !order(found).is_empty() && own.counts[count::LOADS] == MOST_LOADS as u16),
    ("an offer of no loader beside an order", |_, _, question, found| {
        let is_unknown = |offer: &Offer| matches!(*offer, Offer::Define { loader: 16.., .. } | Offer::Record { loader: 16.., .. });
        *found != Found::Nothing && offers(question).iter().any(is_unknown)
    }),
    ("a second store that is broken", |_, second, _, found| !matches!(found, Found::Denied(_)) && broken(second)),
    ("a second store that isn't", |_, second, _, found| !matches!(found, Found::Denied(_)) && !broken(second)),
    ("nothing, though every offer is accepted", |own, _, question, found| {
        let all = offers(question);
        *found == Found::Nothing && all.len() > 2 && all.iter().all(|offer| offer.load(&mut own.clone()))
    }),
    ("bad offers where the request is cached", |own, _, question, found| {
        *found == Found::Denied(word::OFFERS) && question.is_met(own)
    }),
    ("bad offers beside an unknown request", |_, _, question, found| *found == Found::Denied(word::UNKNOWN) && question.offers().is_none()),
    ("a broken box beside an unknown request", |_, _, question, found| *found == Found::Denied(word::BROKEN) && !question.is_known()),
];

/// Where two stores of the same lengths differ, by table or part of one.
fn differences(ours: &Store, theirs: &Store) -> Vec<String> {
    let mut all: Vec<String> = Vec::new();
    for (table, &length) in ours.lengths().iter().enumerate() {
        for cell in (0..length).filter(|&cell| ours.get(table, cell) != theirs.get(table, cell)) {
            let part = PARTS.iter().rev().find(|part| cell >= part.1).map_or("", |part| part.0);
            let part = if table == 0 { part.to_string() } else { format!("the {}", TABLES[table].0) };
            if all.last() != Some(&part) {
                all.push(part);
            }
        }
    }
    all
}

impl Asking {
    /// A question to both, each with second tables of its own, and an answer table of so many cells.
    fn ask(&mut self, asked: &Asked, cells: usize, label: &str) -> Found {
        const NOISE: u32 = 0x5EED;
        let Asked { own, second, question, .. } = asked;
        let (mut ours, mut theirs, lent, mut answer) = (second.clone(), second.clone(), own.clone(), vec![NOISE; cells]);
        let right = how(own, &mut ours, question);
        let number = host_how::how(&lent, &mut theirs, question, &mut answer);
        assert!(lent == *own, "{label}: the search differs: the box's store is written");
        let (told, wanted) = expected(&right);
        if let (Ok(all), true) = (<&[u32; CELLS]>::try_from(&answer[..]), number == told) {
            let theirs = found(number, all);
            assert!(theirs.as_ref() == Some(&right), "{label}: the search differs: it finds {theirs:?}, not {:?}", Some(&right));
        }
        assert!(number == told, "{label}: the search differs: returns {number}, not {told}");
        let wanted: Vec<u32> = (0..cells).map(|cell| *wanted.get(cell).unwrap_or(&NOISE)).collect();
        assert!(answer == wanted, "{label}: the search differs: answers {answer:?}, not {wanted:?}");
        let which = match right {
            Found::Denied(_) => "refused, and the second store is written in",
            Found::Order(ref order) if !order.is_empty() => "the second store isn't the box's after the loads found, in",
            _ => "the second store isn't the box's, in",
        };
        let parts = differences(&ours, &theirs);
        assert!(parts.is_empty(), "{label}: the search differs: {which} {parts:?}");
        self.count(asked, &right);
        right
    }

    /// The loads found, made one by one by the library on a copy of the box's store, are accepted and lead to the second store.
    fn made(asked: &Asked, right: &Found, label: &str) {
        let mut own = asked.own.clone();
        let mut second = asked.second.clone();
        how(&asked.own, &mut second, &asked.question);
        for &number in order(right) {
            let load = call_of(&offers(&asked.question)[usize::from(number)]);
            let refused = make(&load, &mut own, &mut [0; crate::host::CELLS], &mut []);
            assert!(refused == 0, "{label}: the load of offer {number} differs: it is refused with {refused}");
            if asked.is_booted {
                sound(&own, &load, Reply::Accepted, label);
            }
        }
        if !matches!(right, Found::Denied(_)) {
            assert!(own == second, "{label}: the loads found differ: they lead to another store");
        }
    }

    fn count(&mut self, asked: &Asked, right: &Found) {
        let Asked { own, second, question, .. } = asked;
        match right {
            Found::Order(order) => self.found[order.len()] += 1,
            Found::Nothing => self.nothing += 1,
            Found::Denied(word::UNKNOWN) => self.unknown += 1,
            Found::Denied(word::OFFERS) => self.offers += 1,
            Found::Denied(_) if broken(own) => self.broken += 1,
            Found::Denied(_) => {
                let pairs = second.lengths().into_iter().zip(LENGTHS);
                self.misshapen.iter_mut().zip(pairs).for_each(|(times, (is, length))| *times += u64::from(is != length));
            }
        }
        SHAPES.iter().zip(&mut self.shapes).for_each(|((_, has), times)| *times += u64::from(has(own, second, question, right)));
    }

    /// What needs no seed: the questions with a purpose, each on several second stores and with answer tables of several lengths.
    pub fn fixed(&mut self) {
        for (what, own, question, right) in cases() {
            for (at, second) in seconds(&own).into_iter().enumerate() {
                let asked = Asked { own: own.clone(), second, question: question.clone(), is_booted: true };
                let told = self.ask(&asked, [CELLS, CELLS + 2, 7, 0][at], what);
                assert!(told == right, "{what}: {told:?}, not {right:?}");
                Asking::made(&Asked { is_booted: false, ..asked }, &told, what);
            }
        }
        let (own, question) = none_of(2);
        let unknown = Question { loader: 16, ..question.clone() };
        let (_, bad) = unreadable().swap_remove(0);
        for second in misshapen_seconds(&own) {
            for question in [&question, &unknown, &bad] {
                let asked = Asked { own: own.clone(), second: second.clone(), question: question.clone(), is_booted: true };
                self.ask(&asked, CELLS, "a second store of a wrong length");
            }
        }
        for count in 0..=5 {
            let (own, question) = none_of(count);
            self.ask(&Asked { second: own.clone(), own, question, is_booted: true }, CELLS, "none of few");
        }
        for asked in dear() {
            let question = asked.cut(3);
            self.ask(&Asked { second: Store::zeros(), own: asked.own, question, is_booted: false }, CELLS, asked.name);
        }
    }

    /// What a seed stands for.
    pub fn seed(&mut self, seed: u64) {
        for seed in QUESTIONS * seed..QUESTIONS * (seed + 1) {
            let (asked, label) = (asked(seed), format!("asked {seed}"));
            let right = self.ask(&asked, CELLS, &label);
            Asking::made(&asked, &right, &label);
            self.ask(&asked, seed as usize % (CELLS + 3), &label);
        }
        if seed % DEAR[0] == DEAR[1] {
            let (own, question) = none_of_eight(Trial::ready(1..=3).store);
            self.ask(&Asked { second: own.clone(), own, question, is_booted: true }, CELLS, "none of eight");
        }
    }

    pub fn add(&mut self, other: &Asking) {
        let add = |one: &mut [u64], other: &[u64]| one.iter_mut().zip(other).for_each(|(one, other)| *one += other);
        add(&mut self.found, &other.found);
        add(&mut self.misshapen, &other.misshapen);
        add(&mut self.shapes, &other.shapes);
        self.nothing += other.nothing;
        self.broken += other.broken;
        self.unknown += other.unknown;
        self.offers += other.offers;
    }

    /// What should have been met and wasn't.
    pub fn unmet(&self) -> Vec<String> {
        let mut unmet: Vec<String> = SHAPES.iter().zip(self.shapes).filter(|shape| shape.1 == 0).map(|((what, _), _)| format!("no question had {what}")).collect();
        unmet.extend([0, 1, 2, 3, 4, MOST_OFFERS].into_iter().filter(|&loads| self.found[loads] == 0).map(|loads| format!("no order of {loads} loads was found")));
        unmet.extend(TABLES.iter().zip(self.misshapen).filter(|table| table.1 == 0).map(|(table, _)| format!("no second table {} had a wrong length", table.0)));
        for (what, times) in [("nothing", self.nothing), ("1 for the box", self.broken), ("3", self.unknown), ("20", self.offers)] {
            unmet.extend((times == 0).then(|| format!("no question was answered {what}")));
        }
        unmet
    }
}

impl fmt::Display for Asking {
    fn fmt(&self, f: &mut fmt::Formatter) -> fmt::Result {
        let Asking { found, nothing, broken, misshapen, unknown, offers, shapes } = self;
        writeln!(f, "Orders of offered loads, found by how many loads they have: {found:?}; nothing: {nothing}")?;
        writeln!(f, "Questions refused: {broken} for the box, {unknown} unknown, {offers} offers, by second tables of a wrong length {misshapen:?}")?;
        SHAPES.iter().zip(shapes).try_for_each(|((what, _), times)| writeln!(f, "Questions with {what}: {times}"))
    }
}
