//! Offered loads and wanted requests: short questions with a purpose, random ones, and second stores of any content.

use super::build::{Code, Draft};
use super::chains::chains;
use super::damage::damaged;
use super::joins::joins;
use super::list::list;
use super::rng::Rng;
use super::taken::taking;
use super::{Call, Trial};
use crate::answer::word;
use crate::file::File;
use crate::how::{kind, Found, Offer, Question, MOST_OFFERS, OFFER_ROW};
use crate::store::{count, Store, INT, LENGTHS, LOADERS, MOST_LOADS, OBJECT, TABLES};

const MAIN: u16 = 20;
/// The names that offers are about.
const NAMES: [u16; 8] = [10, 11, 12, 13, 14, 15, 16, 17];

/// A question, the box's store, and the second as it is lent.
#[derive(Clone)]
pub struct Asked {
    pub own: Store,
    pub second: Store,
    pub question: Question,
    /// Does the box's store come from a boot?
    pub is_booted: bool,
}

pub fn define(loader: u16, draft: &Draft) -> Offer {
    Offer::Define { loader: loader.into(), file: draft.file() }
}

pub fn record(loader: u16, name: u16, class: u16) -> Offer {
    Offer::Record { loader: loader.into(), name, class: class.into() }
}

pub fn question(loader: u16, name: u16, offers: &[Offer]) -> Question {
    let mut question = Question::of(loader, name);
    offers.iter().for_each(|offer| question.offer(offer));
    question
}

/// The call that makes an offered load.
pub fn call_of(offer: &Offer) -> Call {
    match *offer {
        Offer::Define { loader, ref file } => Call::Define { loader, file: file.clone() },
        Offer::Record { loader, name, class } => Call::Record { loader, name: name.into(), class },
    }
}

/// Every cell is any number.
pub fn noise(rng: &mut Rng) -> Store {
    let mut store = Store::zeros();
    for (table, length) in LENGTHS.into_iter().enumerate() {
        (0..length).for_each(|cell| store.set(table, cell, rng.draw() as u32));
    }
    store
}

/// The same tables, one of them of another length.
pub fn misshapen(store: &Store, table: usize, length: usize) -> Store {
    let mut store = store.clone();
    match table {
        0 => store.counts.resize(length, 7),
        1 => store.classes.resize(length, 7),
        2 => store.kept.resize(length, 7),
        3 => store.cache.resize(length, 7),
        4 => store.ties.resize(length, 7),
        5 => store.subtypes.resize(length, 7),
        6 => store.objects.resize(length, 7),
        _ => store.frames.resize(length, 7),
    }
    store
}

/// A class of this name below another.
fn below(name: u16, superclass: u16) -> Draft {
    Draft::new(name).under(superclass)
}

/// Object is known to loaders 1 to 3.
fn ready() -> Store {
    Trial::ready(1..=3).store
}

/// The names in a line, each below the next: the first is to be loaded last.
fn line(loader: u16, names: usize) -> Vec<Offer> {
    (0..names).map(|at| define(loader, &below(NAMES[at], if at + 1 == names { OBJECT } else { NAMES[at + 1] }))).collect()
}

/// More loads than are remembered: each of the next names is defined by loader 3.
fn remembering(loads: usize) -> Store {
    let mut trial = Trial::ready(1..=3);
    for name in 0..loads as u16 {
        trial.define(3, &Draft::new(500 + name));
    }
    trial.store
}

/// A method by which an override ties a name.
fn tying(name: u16, of: u16) -> Draft {
    Draft::new(name).method(MAIN, of, INT, &Code::new().end(INT))
}

/// A store with loader 1's class 10, tied on 12 under loaders 1 and 2, where (1, 12) is loaded.
fn tied() -> Store {
    let mut trial = Trial::ready(1..=3);
    trial.define(1, &tying(10, 12));
    trial.record(2, 10, 1);
    trial.define(2, &tying(11, 12).under(10));
    trial.define(1, &Draft::new(12));
    trial.store
}

/// Two groups of ties on 12, of loaders 1 and 2 and of loaders 3 and 4; loader 3 knows loader 2's class 11.
fn two_groups() -> Store {
    let mut trial = Trial::ready(1..=4);
    trial.define(1, &tying(10, 12));
    trial.record(2, 10, 1);
    trial.define(2, &tying(11, 12).under(10));
    trial.define(4, &tying(14, 12));
    trial.record(3, 14, 3);
    trial.define(3, &tying(15, 12).under(14));
    trial.record(3, 11, 2);
    trial.store
}

/// A purpose, the box's store, the question, and what is found.
pub type Case = (&'static str, Store, Question, Found);

fn found(order: &[u8]) -> Found {
    Found::Order(order.to_vec())
}

/// Questions with a purpose.
pub fn cases() -> Vec<Case> {
    [orders(), stores(), refusals()].concat()
}

/// Which order it is.
fn orders() -> Vec<Case> {
    let object = record(4, OBJECT, 0);
    let [a, b] = [define(1, &Draft::new(10)), define(1, &Draft::new(11))];
    // both (1, 3) and (2, 0) give loader 2's 10 in two loads
    let two_ways = [record(2, 10, 1), define(2, &Draft::new(11)), define(1, &Draft::new(10)), define(2, &below(10, 11))];
    let (line, longest) = (line(1, 3), line(1, MOST_OFFERS));
    vec![
        ("one load", ready(), question(1, 10, &[b.clone(), a.clone()]), found(&[1])),
        ("superclasses last first", ready(), question(1, 10, &line), found(&[2, 1, 0])),
        ("eight in reverse", ready(), question(1, 10, &longest), found(&[7, 6, 5, 4, 3, 2, 1, 0])),
        ("the fourth of eight", ready(), question(1, 13, &longest), found(&[7, 6, 5, 4, 3])),
        ("a record first", Trial::booted().store, question(4, 10, &[define(4, &Draft::new(10)), object.clone()]), found(&[1, 0])),
        ("fewer though higher", ready(), question(1, 10, &[define(1, &below(10, 11)), b.clone(), a.clone()]), found(&[2])),
        ("the first of two equal offers", ready(), question(1, 10, &[b.clone(), a.clone(), a.clone()]), found(&[1])),
        ("compared from the first, though the other set is lower", ready(), question(2, 10, &two_ways), found(&[1, 3])),
        ("the other of them", ready(), question(2, 10, &two_ways[..3]), found(&[2, 0])),
        ("a number by its place, the other first", ready(), question(2, 10, &[a.clone(), b.clone(), record(2, 10, 2)]), found(&[1, 0, 2])),
        ("a number by its place, and all before it", ready(), question(2, 10, &[a.clone(), b.clone(), define(3, &Draft::new(12)), record(2, 10, 3)]), found(&[1, 2, 0, 3])),
        ("a number that no place gives", ready(), question(2, 10, &[a.clone(), b.clone(), record(2, 10, 3)]), Found::Nothing),
        ("a record by another's name", ready(), question(2, 10, &[b.clone(), record(2, 10, 1)]), Found::Nothing),
        ("another loader's", ready(), question(2, 10, std::slice::from_ref(&a)), Found::Nothing),
        ("no offers", ready(), question(1, 10, &[]), Found::Nothing),
        ("cached already", ready(), question(1, OBJECT, &[a.clone()]), found(&[])),
        ("cached already, no offers", ready(), question(1, OBJECT, &[]), found(&[])),
        ("no loader may define int", ready(), question(1, 10, &[Offer::Record { loader: 1, name: 1, class: 0 }, b.clone()]), Found::Nothing),
        ("an offer of no loader", ready(), question(1, 10, &[Offer::Define { loader: 16, file: Draft::new(10).file() }, a.clone()]), found(&[1])),
        ("an offer of no class", ready(), question(1, 10, &[Offer::Record { loader: 1, name: 10, class: 64 }, b.clone()]), Found::Nothing),
        ("an offer of no file", ready(), question(1, 10, &[Offer::Define { loader: 1, file: vec![] }, a.clone()]), found(&[1])),
        ("a loader that has no Object", ready(), question(9, 10, &[define(9, &Draft::new(10))]), Found::Nothing),
        ("a line that lacks one", ready(), question(1, 10, &line[..2]), Found::Nothing),
        ("two that make room for none", ready(), question(1, 12, &[a, b, define(2, &Draft::new(12))]), Found::Nothing),
    ]
}

/// What the stores make of it.
fn stores() -> Vec<Case> {
    let own_12 = define(2, &Draft::new(12));
    // joins the two groups; the wanted load comes after it in the search
    let joiner = define(3, &tying(16, 12).under(11));
    let wanted = define(1, &Draft::new(17));
    // is tried first, and its note is posted and then undone
    let noting = Code::new().object(14).getfield(15, 30, INT).pop().end(INT);
    let posting = define(2, &Draft::new(13).main(MAIN, &noting));
    let many = |loads| [remembering(loads), remembering(loads)];
    let [full, fuller] = many(MOST_LOADS + 3);
    let [nearly, _] = many(MOST_LOADS - 4);
    let three = line(1, 3);
    vec![
        ("its own clashes, the other's doesn't", tied(), question(2, 12, &[own_12.clone(), record(2, 12, 3)]), found(&[1])),
        ("its own clashes", tied(), question(2, 12, &[own_12]), Found::Nothing),
        ("a try that posts, then the wanted", tied(), question(1, 17, &[posting.clone(), wanted.clone()]), found(&[1])),
        ("a try that posts, then nothing", tied(), question(1, 16, &[posting, wanted.clone()]), Found::Nothing),
        ("a try that joins groups, then the wanted", two_groups(), question(1, 17, &[joiner.clone(), wanted]), found(&[1])),
        ("loads that join groups", two_groups(), question(3, 16, &[joiner]), found(&[0])),
        ("32 loads remembered, three more", full, question(1, 10, &three), found(&[2, 1, 0])),
        ("32 loads remembered, and none of these", fuller, question(1, 13, &three), Found::Nothing),
        ("room for some loads more", nearly, question(1, 10, &three), found(&[2, 1, 0])),
        ("a store before any boot", Store::zeros(), question(1, 10, &three), Found::Nothing),
    ]
}

/// Rows that can't be read, each with the word why, on a store where the request isn't cached.
pub fn unreadable() -> Vec<(&'static str, Question)> {
    let mut fine = question(1, 10, &line(1, 3));
    fine.offer(&record(2, 10, 1));
    let with = |cells: &[u32]| Question { cells: [&fine.cells[..], cells].concat(), ..fine.clone() };
    let size = fine.pool.len() as u32;
    let cut = |cells: usize| Question { cells: fine.cells[..fine.cells.len() - cells].to_vec(), ..fine.clone() };
    let nine = |offers: &[Offer]| {
        let mut question = question(1, 10, &line(1, 8));
        offers.iter().for_each(|offer| question.offer(offer));
        question
    };
    vec![
        ("nine offers", nine(&[record(2, 17, 4)])),
        ("nine offers, two of them equal", nine(&line(1, 8)[..1])),
        ("a cell too few", cut(1)),
        ("a cell of a row", with(&[kind::RECORD])),
        ("three cells of a row", with(&[kind::RECORD, 2, 10])),
        ("33 cells", Question { cells: vec![kind::RECORD; 33], ..fine.clone() }),
        ("kind 0", with(&[0, 1, 0, 0])),
        ("kind 3", with(&[3, 1, 0, 0])),
        ("the largest kind", with(&[u32::MAX, 1, 0, 0])),
        ("a file one byte outside", with(&[kind::DEFINE, 1, size - 4, 5])),
        ("a file behind the pool", with(&[kind::DEFINE, 1, size + 1, 0])),
        ("a file of the largest size", with(&[kind::DEFINE, 1, 1, u32::MAX])),
        ("a file from the largest start", with(&[kind::DEFINE, 1, u32::MAX, 1])),
        ("a record of name 65,536", with(&[kind::RECORD, 1, 65_536, 0])),
        ("a record of the largest name", with(&[kind::RECORD, 1, u32::MAX, 0])),
        ("a record whose lowest bits are a name", with(&[kind::RECORD, 2, 65_536 + 10, 1])),
        ("an offer of no loader with a file outside", with(&[kind::DEFINE, 16, size, 1])),
    ]
}

/// The first word that applies.
fn refusals() -> Vec<Case> {
    let fine = question(1, 10, &line(1, 3));
    let mut broken = ready();
    broken.counts[count::CLASSES] = 65;
    let of = |loader: u32, name: u16, question: &Question| Question { loader, name, ..question.clone() };
    let [by_box, unknown, offers] = [word::BROKEN, word::UNKNOWN, word::OFFERS].map(Found::Denied);
    let bad = unreadable().swap_remove(0).1;
    let mut all: Vec<Case> = unreadable().into_iter().map(|(what, question)| (what, ready(), question, offers.clone())).collect();
    all.extend(unreadable().into_iter().map(|(what, question)| (what, ready(), of(1, OBJECT, &question), offers.clone())));
    all.extend([
        ("a box that is broken", broken.clone(), fine.clone(), by_box.clone()),
        ("a broken box, and a wrong loader", broken.clone(), of(16, 10, &fine), by_box.clone()),
        ("a broken box, and bad offers", broken.clone(), bad.clone(), by_box.clone()),
        ("a broken box where it is cached", broken, of(1, OBJECT, &fine), by_box),
        ("loader 16", ready(), of(16, 10, &fine), unknown.clone()),
        ("the largest loader", ready(), of(u32::MAX, 10, &fine), unknown.clone()),
        ("a loader whose lowest bits are one", ready(), of(65_536, OBJECT, &fine), unknown.clone()),
        ("name 0", ready(), of(1, 0, &fine), unknown.clone()),
        ("name 1, int", ready(), of(1, INT, &fine), unknown.clone()),
        ("loader 16, and bad offers", ready(), of(16, 10, &bad), unknown.clone()),
        ("name 1, and bad offers", ready(), of(1, INT, &bad), unknown),
        ("loader 15", ready(), of(15, 10, &fine), Found::Nothing),
        ("the largest name", ready(), of(1, u16::MAX, &fine), Found::Nothing),
        ("a file that is the whole pool", ready(), question(1, 10, &[define(1, &Draft::new(10))]), found(&[0])),
        ("a file of no bytes at the pool's end", ready(), question(1, 10, &[define(1, &Draft::new(10)), Offer::Define { loader: 1, file: vec![] }]), found(&[0])),
        ("eight offers, all alike", ready(), question(1, 10, &vec![define(1, &Draft::new(10)); MOST_OFFERS]), found(&[0])),
        ("eight offers, all records of what is there", ready(), question(1, 10, &[record(1, OBJECT, 0), record(2, OBJECT, 0)]), Found::Nothing),
    ]);
    all
}

/// Second stores for a question with a purpose: zeros, noise, the box's own and another.
pub fn seconds(own: &Store) -> [Store; 4] {
    [Store::zeros(), noise(&mut Rng::new(14)), own.clone(), Trial::ready(1..=9).store]
}

/// Second stores with one table of a wrong length: shorter by one, longer by one, empty.
pub fn misshapen_seconds(own: &Store) -> Vec<Store> {
    let each = |(table, &length): (usize, &usize)| [0, length - 1, length + 1].map(|length| misshapen(own, table, length));
    LENGTHS.iter().enumerate().flat_map(each).collect()
}

/// A random question.
pub fn asked(seed: u64) -> Asked {
    let mut rng = Rng::new(seed ^ 0x6F_66_66_65);
    let most = if seed % 16 == 15 { 6 } else { 4 };
    let (own, mut question, is_booted) = match rng.weighted(&[5, 5, 4, 2]) {
        0 => family(&mut rng, most),
        1 => numbered(&mut rng, most),
        2 => cut_list(&mut rng, most),
        _ => {
            let (_, question, _) = family(&mut rng, most);
            (damaged(rng.draw()), question, false)
        }
    };
    spoil(&mut rng, &own, &mut question);
    Asked { second: second(&mut rng, &own), own, question, is_booted }
}

/// Something about the question is wrong, or what it asks for is there, or never comes.
fn spoil(rng: &mut Rng, own: &Store, question: &mut Question) {
    match rng.below(28) {
        0 => question.loader = rng.pick(&[LOADERS.into(), 17, 65_536, u32::MAX]),
        1 => question.name = rng.below(2) as u16,
        2 => question.name = rng.pick(&NAMES),
        3 => question.loader = rng.below(6) as u32,
        4 => {
            let cached = own.counts.get(count::CACHE).map_or(0, |&rows| usize::from(rows).min(own.cache.len() / 3));
            if cached > 0 {
                let row = rng.below(cached) * 3;
                (question.loader, question.name) = (own.cache[row].into(), own.cache[row + 1]);
            }
        }
        _ => {}
    }
    match rng.below(48) {
        0 => drop(question.cells.pop()),
        1 => question.cells.push(rng.below(4) as u32),
        2 => question.cells.extend([rng.pick(&[0, 3, u32::MAX]), 1, 0, 0]),
        3 => drop(question.pool.pop()),
        4 => question.cells.extend([kind::RECORD, 1, 65_536 + rng.below(20) as u32, 0]),
        5 => {
            let rows = question.cells.clone();
            while !rows.is_empty() && question.cells.len() <= MOST_OFFERS * OFFER_ROW {
                question.cells.extend(&rows);
            }
        }
        _ => {}
    }
}

/// What the second store holds before.
fn second(rng: &mut Rng, own: &Store) -> Store {
    match rng.below(20) {
        0..=2 => Store::zeros(),
        3..=5 => noise(rng),
        6 => own.clone(),
        7 => damaged(rng.draw()),
        8 => {
            let table = rng.below(TABLES.len());
            misshapen(&Store::zeros(), table, rng.pick(&[0, LENGTHS[table] - 1, LENGTHS[table] + 1]))
        }
        _ => chains(rng.draw(), 5).store,
    }
}

/// Puts offers in any order, with one of them twice at times.
fn shuffled(rng: &mut Rng, mut offers: Vec<Offer>, most: usize) -> Vec<Offer> {
    for at in (1..offers.len()).rev() {
        offers.swap(at, rng.below(at + 1));
    }
    offers.truncate(most);
    if !offers.is_empty() && offers.len() < most && rng.percent(20) {
        let again = offers[rng.below(offers.len())].clone();
        offers.insert(rng.below(offers.len() + 1), again);
    }
    offers
}

/// A box where loaders know Object, or not all, and perhaps more loads than are remembered.
fn any_box(rng: &mut Rng) -> Trial {
    let loaders = rng.within(1, 3) as u16;
    let mut trial = Trial::ready(1..=loaders);
    if rng.percent(30) {
        for name in 0..rng.within(MOST_LOADS - 6, MOST_LOADS + 6) as u16 {
            trial.define(1, &Draft::new(500 + name));
        }
    }
    if rng.percent(40) {
        trial.define(1, &tying(10, 12));
        trial.record(2, 10, trial.store.counts[count::CLASSES] - 1);
    }
    trial
}

/// A class of this name, with a method that an override ties, or with a note.
fn member(rng: &mut Rng, name: u16, superclass: u16) -> Draft {
    let draft = below(name, superclass);
    match rng.below(3) {
        0 => draft,
        1 => {
            let of = rng.pick(&NAMES);
            draft.method(MAIN, of, INT, &Code::new().end(INT))
        }
        _ => {
            let (low, high) = (rng.pick(&NAMES), rng.pick(&NAMES));
            draft.method(MAIN, INT, INT, &Code::new().object(low).getfield(high, 30, INT).pop().end(INT))
        }
    }
}

/// Offers that are one another's superclasses, with records of Object and of their classes by other loaders.
fn family(rng: &mut Rng, most: usize) -> (Store, Question, bool) {
    let trial = any_box(rng);
    let (loader, next) = (rng.within(1, 3) as u16, trial.store.counts[count::CLASSES]);
    let members = rng.within(1, 3);
    let mut offers: Vec<Offer> = Vec::new();
    for (at, &name) in NAMES[2..].iter().enumerate().take(members) {
        let superclass = match rng.below(4) {
            0 => OBJECT,
            _ if at == 0 => rng.pick(&[OBJECT, OBJECT, 10]),
            _ => NAMES[1 + at],
        };
        offers.push(define(loader, &member(rng, name, superclass)));
    }
    if rng.percent(50) {
        offers.push(record(loader, OBJECT, 0));
    }
    let other = rng.within(1, 4) as u16;
    offers.push(record(other, rng.pick(&NAMES[2..5]), next + rng.below(3) as u16));
    let any = rng.pick(&NAMES);
    let wanted = rng.pick(&[(loader, NAMES[1 + members]), (loader, NAMES[1 + members]), (loader, any), (other, NAMES[2])]);
    let offers = shuffled(rng, offers, most);
    (trial.store, question(wanted.0, wanted.1, &offers), true)
}

/// Defines of two or three names, and records of them by the numbers that some order gives.
fn numbered(rng: &mut Rng, most: usize) -> (Store, Question, bool) {
    let trial = any_box(rng);
    let next = trial.store.counts[count::CLASSES];
    let mut offers: Vec<Offer> = (0..rng.within(2, 3)).map(|at| define(1, &member(rng, NAMES[2 + at], OBJECT))).collect();
    let made = offers.len();
    for _ in 0..rng.within(1, 2) {
        let name = rng.pick(&NAMES[2..2 + made]);
        offers.push(record(rng.within(2, 3) as u16, name, next + rng.below(made) as u16));
    }
    let wanted = offers.iter().rev().find_map(|offer| match *offer {
        Offer::Record { loader, name, .. } => Some((loader as u16, name)),
        _ => None,
    });
    let offers = shuffled(rng, offers, most);
    let (loader, name) = wanted.unwrap_or((2, 12));
    (trial.store, question(loader, name, &offers), true)
}

/// A list of calls cut somewhere: the box is what it led to until there, and some of the later loads that were accepted are the offers.
fn cut_list(rng: &mut Rng, most: usize) -> (Store, Question, bool) {
    let seed = rng.draw();
    let trial = match rng.below(4) {
        0 => chains(seed, 30),
        1 => joins(seed, 30),
        2 => taking(seed, 30),
        _ => list(seed, 60),
    };
    let at = rng.below(trial.calls.len());
    let mut own = Store::zeros();
    for call in &trial.calls[..at.max(1)] {
        call.apply(&mut own);
    }
    let is_taken = |place: usize| trial.replies[place].refusal().is_none();
    let later = (at.max(1)..trial.calls.len()).filter(|&place| is_taken(place)).filter_map(|place| offer_of(&trial.calls[place]));
    let offers: Vec<Offer> = later.take(rng.within(1, most)).collect();
    let (loader, name) = offers.last().and_then(request_of).unwrap_or((1, 10));
    let offers = if rng.percent(30) { offers } else { shuffled(rng, offers, most) };
    (own, question(loader, name, &offers), true)
}

fn offer_of(call: &Call) -> Option<Offer> {
    match *call {
        Call::Define { loader, ref file } => Some(Offer::Define { loader, file: file.clone() }),
        Call::Record { loader, name, class } => Some(Offer::Record { loader, name: u16::try_from(name).ok()?, class }),
        _ => None,
    }
}

/// The request that an offer is for.
fn request_of(offer: &Offer) -> Option<(u16, u16)> {
    match *offer {
        Offer::Define { loader, ref file } => Some((loader as u16, File::read(file)?.name())),
        Offer::Record { loader, name, .. } => Some((loader as u16, name)),
    }
}

/// Eight offers that are all accepted in every order, and give nothing of what is wanted: each order is gone through.
pub fn none_of_eight(own: Store) -> (Store, Question) {
    let offers: Vec<Offer> = NAMES.iter().map(|&name| define(1, &Draft::new(name))).collect();
    (own, question(1, 99, &offers))
}

/// The same of fewer offers.
pub fn none_of(offers: usize) -> (Store, Question) {
    let (own, mut question) = none_of_eight(ready());
    question.cells.truncate(offers * OFFER_ROW);
    (own, question)
}
