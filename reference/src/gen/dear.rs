//! Questions to measure on: eight offered loads of which no order, or only the longest, gives the request.

use super::build::{Code, Draft};
use super::loops::repeating;
use super::offers::{define, question};
use super::Trial;
use crate::how::{Offer, Question, MOST_OFFERS, OFFER_ROW};
use crate::store::{count, Store, INT, OBJECT};

/// The names that are offered.
const NAMES: [u16; MOST_OFFERS] = [110, 111, 112, 113, 114, 115, 116, 117];
const WANTED: u16 = 99;
const MAIN: u16 = 20;
/// The first name of the chain, as far from the others.
const CHAIN: u16 = 3_000;

pub struct Dear {
    pub name: &'static str,
    pub own: Store,
    pub question: Question,
    /// Is every order gone through in a second or two?
    pub is_short: bool,
}

/// A store whose loader 1 knows Object alone, where no load can be taken back.
fn bare() -> Store {
    let mut store = Trial::ready([1]).store;
    store.close();
    store
}

/// 247 entries, and 240 ties and 230 subtype constraints in one chain.
pub fn constrained() -> Store {
    let mut store = bare();
    for i in 0..240 {
        let (near, far) = (i % 2, 1 - i % 2);
        store.add_tie([near, far, CHAIN + i]);
        if i < 230 {
            store.add_subtype([far, CHAIN + i, CHAIN + i + 1]);
        }
    }
    for i in (1..).take(247 - store.count(count::CACHE)) {
        store.add_cached([if i < 240 { i % 2 } else { 2 }, CHAIN + i, 0]);
    }
    store
}

/// A class whose verifier notes 23 pairs, the same in every class of this kind.
fn noting(name: u16) -> Draft {
    let code = (0..23).fold(Code::new(), |code, at| code.object(200 + at).getfield(300 + at, 30, INT).pop());
    Draft::new(name).main(MAIN, &code.end(INT))
}

/// A class of some 2,300 bytes whose 6,992 notes are 23 pairs again and again.
fn repeated(name: u16) -> Draft {
    let mut draft = repeating(name);
    draft.methods.truncate(4);
    draft
}

fn offered(draft: fn(u16) -> Draft) -> Vec<Offer> {
    NAMES.iter().map(|&name| define(1, &draft(name))).collect()
}

/// The same, but one is for the wanted name, and wants a class that nobody offers: a search that tries such loads last tries it at every end.
fn with_wanted(draft: fn(u16) -> Draft) -> Vec<Offer> {
    let mut offers = offered(draft);
    offers[MOST_OFFERS - 1] = define(1, &draft(WANTED).under(WANTED + 1));
    offers
}

/// Each below the next, so that the first is to be loaded last.
fn line() -> Vec<Offer> {
    let below = |at: usize| Draft::new(NAMES[at]).under(NAMES.get(at + 1).copied().unwrap_or(OBJECT));
    (0..MOST_OFFERS).map(|at| define(1, &below(at))).collect()
}

/// What is measured.
pub fn dear() -> Vec<Dear> {
    let none = |name, own, offers: Vec<Offer>, is_short| Dear { name, own, question: question(1, WANTED, &offers), is_short };
    vec![
        Dear { name: "eight in a line, found", own: bare(), question: question(1, NAMES[0], &line()), is_short: true },
        none("none, after boot, none for the request", bare(), offered(repeated), false),
        none("none, after boot, one for the request", bare(), with_wanted(Draft::new), true),
        none("none, 240 + 230 constraints, one for the request", constrained(), with_wanted(Draft::new), false),
        none("none, 240 + 230 constraints, 23 notes a file, one for the request", constrained(), with_wanted(noting), false),
        none("none, after boot, 6,992 notes a file, one for the request", bare(), with_wanted(repeated), false),
    ]
}

impl Dear {
    /// The same with the first offers alone.
    pub fn cut(&self, offers: usize) -> Question {
        Question { cells: self.question.cells[..offers * OFFER_ROW].to_vec(), ..self.question.clone() }
    }
}
