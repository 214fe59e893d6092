//! Paper 14: how could this load? Of some offered loads an order that is accepted throughout and ends with a request cached, found on a second
//! store: the fewest loads, then the lowest offer numbers, compared from the first. Every order is gone through, by length and then by numbers.

use crate::answer::word;
use crate::broken::{broken, lengths_fit};
use crate::load::{define, record};
use crate::store::{Store, LOADERS, OBJECT};

/// The most offers.
pub const MOST_OFFERS: usize = 8;
/// The cells of an offer's row: a kind, and three numbers by it.
pub const OFFER_ROW: usize = 4;

/// The kinds of offers.
pub mod kind {
    /// The numbers are the loader, where the file starts in the pool, and its size.
    pub const DEFINE: u32 = 1;
    /// The numbers are the loader, the name, and the class's number.
    pub const RECORD: u32 = 2;
}

/// A load that is offered.
#[derive(Clone, Debug, PartialEq, Eq)]
pub enum Offer {
    Define { loader: u32, file: Vec<u8> },
    Record { loader: u32, name: u16, class: u32 },
}

impl Offer {
    /// The offer of a row, if it can be read.
    fn read(row: &[u32], pool: &[u8]) -> Option<Offer> {
        match *row {
            [kind::DEFINE, loader, start, size] => {
                let (start, size) = (start as usize, size as usize);
                let file = pool.get(start..start.checked_add(size)?)?.to_vec();
                Some(Offer::Define { loader, file })
            }
            [kind::RECORD, loader, name, class] => Some(Offer::Record { loader, name: u16::try_from(name).ok()?, class }),
            _ => None,
        }
    }

    /// Makes the load: is it accepted?
    pub fn load(&self, store: &mut Store) -> bool {
        let reply = match *self {
            Offer::Define { loader, ref file } => define(store, loader, file),
            Offer::Record { loader, name, class } => record(store, loader, name.into(), class),
        };
        reply.refusal().is_none()
    }
}

/// The offers of these rows; nothing if there are too many, or one can't be read.
pub fn offers(cells: &[u32], pool: &[u8]) -> Option<Vec<Offer>> {
    if cells.len() > MOST_OFFERS * OFFER_ROW || cells.len() % OFFER_ROW != 0 {
        return None;
    }
    cells.chunks(OFFER_ROW).map(|row| Offer::read(row, pool)).collect()
}

/// What is asked: the wanted request, the rows of the offers, and the pool that has their files.
#[derive(Clone, Debug, Default, PartialEq, Eq)]
pub struct Question {
    pub loader: u32,
    pub name: u16,
    pub cells: Vec<u32>,
    pub pool: Vec<u8>,
}

impl Question {
    pub fn of(loader: u16, name: u16) -> Question {
        Question { loader: loader.into(), name, ..Question::default() }
    }

    /// One more offer, its file at the end of the pool.
    pub fn offer(&mut self, offer: &Offer) {
        match *offer {
            Offer::Define { loader, ref file } => {
                self.cells.extend([kind::DEFINE, loader, self.pool.len() as u32, file.len() as u32]);
                self.pool.extend(file);
            }
            Offer::Record { loader, name, class } => self.cells.extend([kind::RECORD, loader, name.into(), class]),
        }
    }

    pub fn offers(&self) -> Option<Vec<Offer>> {
        offers(&self.cells, &self.pool)
    }

    /// Can the wanted request be one at all?
    pub fn is_known(&self) -> bool {
        self.loader < LOADERS.into() && self.name >= OBJECT
    }

    /// Is the wanted request cached? It is one.
    pub fn is_met(&self, store: &Store) -> bool {
        store.cached(self.loader as u16, self.name).is_some()
    }
}

/// What is found.
#[derive(Clone, Debug, PartialEq, Eq)]
pub enum Found {
    /// The numbers of the offers, in the order of their loads; none if the request is cached already.
    Order(Vec<u8>),
    /// No order of any of them works.
    Nothing,
    /// The word that refuses the question.
    Denied(u8),
}

/// Searches on the second store, which ends as the box's would after the loads found, or equal to the box's. Of it only the lengths are looked at.
pub fn how(own: &Store, second: &mut Store, question: &Question) -> Found {
    if broken(own) || !lengths_fit(second) {
        return Found::Denied(word::BROKEN);
    }
    if !question.is_known() {
        return Found::Denied(word::UNKNOWN);
    }
    let Some(offers) = question.offers() else {
        return Found::Denied(word::OFFERS);
    };
    second.clone_from(own);
    let mut search = Search { question, offers: &offers, order: Vec::new() };
    let found = (0..=offers.len()).find_map(|loads| search.first(own, loads));
    match found {
        Some(after) => {
            *second = after;
            Found::Order(search.order)
        }
        None => Found::Nothing,
    }
}

struct Search<'a> {
    question: &'a Question,
    offers: &'a [Offer],
    /// The offers that led to the store at hand.
    order: Vec<u8>,
}

impl Search<'_> {
    /// The first order, by numbers, of so many more loads: it is left in `order`, and the store after it is given.
    fn first(&mut self, store: &Store, loads: usize) -> Option<Store> {
        if loads == 0 {
            return self.question.is_met(store).then(|| store.clone());
        }
        let mut after = store.clone();
        for (offer, number) in self.offers.iter().zip(0..) {
            if self.order.contains(&number) || !offer.load(&mut after) {
                continue;
            }
            self.order.push(number);
            if let Some(found) = self.first(&after, loads - 1) {
                return Some(found);
            }
            self.order.pop();
            after.clone_from(store);
        }
        None
    }
}

/// How many orders there are of so many offers, that of none included: 109,601 of eight.
pub fn orders(offers: usize) -> usize {
    let longer = |(all, of_length): (usize, usize), left: usize| (all + of_length * left, of_length * left);
    (1..=offers).rev().fold((1, 1), longer).0
}
