//! Machines that search wrongly for an order of offered loads. Beside each name stands what the comparison must say of it.

use reference::answer::word;
use reference::broken::{broken, lengths_fit};
use reference::how::{kind, Found, Offer, Question, OFFER_ROW};
use reference::load::take_back;
use reference::store::{count, Store, LENGTHS, LOADERS};

use crate::faults::chosen;

/// The name of the fault, what is said of it, and the search that has it: the box's store, the second and the question.
pub type Fault = (&'static str, &'static str, fn(&mut Store, &mut Store, &Question) -> Option<Found>);

pub const FAULTS: [Fault; 33] = [
    ("one-order-a-set", "finds Some(Nothing), not Some(Order(.1, 0, 2.))", |own, second, question| by(own, second, question, one_a_set)),
    ("the-lowest-set-wins", "finds Some(Order(.2, 0.)), not Some(Order(.1, 3.))", |own, second, question| {
        by(own, second, question, |own, offers, question| fewest(own, offers, question).into_iter().min_by_key(|order| sorted(order)))
    }),
    ("the-highest-numbers-win", "finds Some(Order(.2.)), not Some(Order(.1.))", |own, second, question| {
        by(own, second, question, |own, offers, question| fewest(own, offers, question).pop())
    }),
    ("depth-first-without-length", "finds Some(Order(.0, 1.)), not Some(Order(.1.))", |own, second, question| {
        by(own, second, question, |own, offers, question| depth_first(own, offers, question, &mut Vec::new()))
    }),
    ("every-load-that-is-accepted-is-made", "finds Some(Order(.0, 1.)), not Some(Order(.1.))", |own, second, question| {
        by(own, second, question, greedy)
    }),
    ("seven-loads-at-most", "finds Some(Nothing), not Some(Order(.7, 6, 5, 4, 3, 2, 1, 0.))", |own, second, question| {
        by(own, second, question, |own, offers, question| fewest(own, offers, question).into_iter().find(|order| order.len() < 8))
    }),
    ("offers-are-judged-on-the-box-alone", "finds Some(Nothing), not Some(Order(.2, 1, 0.))", |own, second, question| {
        by(own, second, question, |own, offers, question| {
            let is_taken = |number: &u8| offers[usize::from(*number)].load(&mut own.clone());
            fewest(own, offers, question).into_iter().find(|order| order.iter().all(is_taken))
        })
    }),
    ("records-of-new-classes-arent-tried", "finds Some(Nothing), not Some(Order(.2, 0.))", |own, second, question| {
        by(own, second, question, |own, offers, question| {
            let is_new = |number: &u8| matches!(offers[usize::from(*number)], Offer::Record { class, .. } if class >= own.counts[0].into());
            fewest(own, offers, question).into_iter().find(|order| !order.iter().any(is_new))
        })
    }),
    ("any-loader-will-do", "finds Some(Order(.2.)), not Some(Order(.1, 3.))", |own, second, question| {
        by(own, second, question, |own, offers, question| {
            (0..LOADERS).flat_map(|loader| fewest(own, offers, &Question { loader: loader.into(), ..question.clone() })).min_by_key(Vec::len)
        })
    }),
    ("none-for-cached", "finds Some(Nothing), not Some(Order(..))", |own, second, question| {
        found(own, second, question, |found, _, _| if *found == Found::Order(Vec::new()) { *found = Found::Nothing })
    }),
    ("numbers-count-from-one", "finds Some(Order(.2.)), not Some(Order(.1.))", |own, second, question| {
        found(own, second, question, |found, _, _| {
            if let Found::Order(order) = found {
                order.iter_mut().for_each(|number| *number += 1);
            }
        })
    }),
    ("the-second-is-left-from-a-try", "isn't the box's.*\"the kept\"", |own, second, question| {
        tried(own, second, question, |own, tried| tried.counts.copy_from_slice(&own.counts))
    }),
    ("groups-arent-set-back", "finds Some(Nothing), not Some(Order(.1.))", |own, second, question| {
        tried(own, second, question, |own, tried| {
            let groups = tried.counts[count::GROUPS..].to_vec();
            tried.clone_from(own);
            tried.counts[count::GROUPS..].copy_from_slice(&groups);
        })
    }),
    ("the-trace-is-undone-by-taking-back", "32 loads remembered.*in .\"the trace\".", |own, second, question| {
        let mut undone = second.clone();
        let undoing = |own: &Store, tried: &mut Store| {
            if tried.level() != own.level() {
                take_back(tried);
            }
        };
        tried(own, &mut undone, question, undoing)?;
        // what the tries pushed out doesn't return
        found(own, second, question, |_, _, second| second.set_levels(&undone.levels()))
    }),
    ("the-trace-begins-anew", "in .\"the trace\".", |own, second, question| {
        found(own, second, question, |_, own, second| {
            let levels = second.levels();
            let new = second.count(count::CACHE) - own.count(count::CACHE);
            second.set_levels(&levels[levels.len() - new.min(levels.len())..]);
        })
    }),
    ("the-second-stays-the-boxs", "isn't the box's after the loads found, in", |own, second, question| {
        found(own, second, question, |_, own, second| second.clone_from(own))
    }),
    ("the-second-keeps-what-it-held-where-nothing-is-found", "the second store isn't the box's, in", |own, second, question| {
        let held = second.clone();
        found(own, second, question, |found, _, second| {
            if *found == Found::Nothing {
                *second = held.clone();
            }
        })
    }),
    ("a-refused-search-writes", "refused, and the second store is written in", |own, second, question| {
        let found = reference::how(own, second, question);
        if matches!(found, Found::Denied(word::UNKNOWN | word::OFFERS)) {
            second.clone_from(own);
        }
        Some(found)
    }),
    ("the-box-is-written", "the box's store is written", |own, second, question| {
        let mut written = own.clone();
        let found = found(own, second, question, |_, _, second| written.clone_from(second));
        *own = written;
        found
    }),
    ("offers-come-before-unknown", "returns 20, not 3", |own, second, question| {
        let is_read = !broken(own) && lengths_fit(second);
        (is_read && question.offers().is_none()).then_some(Found::Denied(word::OFFERS))
    }),
    ("an-offers-own-unknown-is-told", "returns 3, not 0", |own, second, question| {
        let is_unknown = |offer: &Offer| match *offer {
            Offer::Define { loader, .. } => loader >= LOADERS.into(),
            Offer::Record { loader, name, class } => loader >= LOADERS.into() || name < 2 || class >= 64,
        };
        let is_told = lengths_fit(second) && !broken(own) && question.offers().is_some_and(|offers| offers.iter().any(is_unknown));
        is_told.then_some(Found::Denied(word::UNKNOWN))
    }),
    ("cached-comes-before-offers", "returns 0, not 20", |own, second, question| {
        let is_read = !broken(own) && lengths_fit(second) && question.is_known();
        (is_read && question.is_met(own)).then(|| {
            second.clone_from(own);
            Found::Order(Vec::new())
        })
    }),
    ("the-second-is-looked-at", "returns 1, not 0", |_, second, _| broken(second).then_some(Found::Denied(word::BROKEN))),
    ("a-longer-second-is-taken", "returns 0, not 1", longer),
    ("the-loader-is-cut", "returns 0, not 3", |own, second, question| {
        Some(reference::how(own, second, &Question { loader: question.loader & 0xFFFF, ..question.clone() }))
    }),
    ("int-may-be-wanted", "returns 0, not 3", |own, second, question| {
        let is_int = question.name == 1;
        is_int.then(|| reference::how(own, second, &Question { name: u16::MAX, ..question.clone() }))
    }),
    ("the-ninth-offer-is-passed-over", "returns 0, not 20", |own, second, question| {
        read_as(own, second, question, |rows, _| rows.truncate(8))
    }),
    ("equal-offers-count-once", "returns 0, not 20", |own, second, question| {
        // by what they are, and not by where their files stand
        let load = |row: &Vec<u32>, question: &Question| Question { cells: row.clone(), ..question.clone() }.offers();
        read_as(own, second, question, |rows, question| {
            let all = rows.clone();
            let is_first = |at: usize| !all[..at].iter().any(|row| load(row, question) == load(&all[at], question));
            *rows = (0..all.len()).filter(|&at| is_first(at)).map(|at| all[at].clone()).collect();
        })
    }),
    ("a-cut-row-is-passed-over", "returns 0, not 20", |own, second, question| {
        read_as(own, second, question, |rows, _| rows.retain(|row| row.len() == OFFER_ROW))
    }),
    ("another-kind-is-passed-over", "returns 0, not 20", |own, second, question| {
        read_as(own, second, question, |rows, _| rows.retain(|row| [kind::DEFINE, kind::RECORD].contains(&row[0])))
    }),
    ("a-file-outside-is-no-file", "returns 0, not 20", |own, second, question| {
        read_as(own, second, question, |rows, question| {
            let pool = question.pool.len() as u64;
            let is_outside = |row: &[u32]| row[0] == kind::DEFINE && row.len() == OFFER_ROW && u64::from(row[2]) + u64::from(row[3]) > pool;
            rows.iter_mut().filter(|row| is_outside(row)).for_each(|row| row[2..].fill(0));
        })
    }),
    ("a-records-name-is-cut", "returns 0, not 20", |own, second, question| {
        read_as(own, second, question, |rows, _| {
            rows.iter_mut().filter(|row| row[0] == kind::RECORD && row.len() > 2).for_each(|row| row[2] &= 0xFFFF);
        })
    }),
    ("bad-offers-are-nothing", "returns 0, not 20", |own, second, question| {
        let found = reference::how(own, second, question);
        (found == Found::Denied(word::OFFERS)).then(|| {
            second.clone_from(own);
            Found::Nothing
        })
    }),
];

/// The search, wrongly if that is the fault.
pub fn how(own: &mut Store, second: &mut Store, question: &Question) -> Found {
    let wrong = FAULTS.iter().find(|fault| Some(fault.0) == chosen()).and_then(|fault| fault.2(own, second, question));
    wrong.unwrap_or_else(|| reference::how(own, second, question))
}

/// The right search, and then something to what was found and to the second store, if the question isn't refused.
fn found(own: &Store, second: &mut Store, question: &Question, mut change: impl FnMut(&mut Found, &Store, &mut Store)) -> Option<Found> {
    let mut found = reference::how(own, second, question);
    if !matches!(found, Found::Denied(_)) {
        change(&mut found, own, second);
    }
    Some(found)
}

/// The search where the order is found otherwise; its loads are made on a copy of the box's store.
fn by(own: &Store, second: &mut Store, question: &Question, find: fn(&Store, &[Offer], &Question) -> Option<Vec<u8>>) -> Option<Found> {
    let offers = question.offers().unwrap_or_default();
    found(own, second, question, |found, own, second| {
        second.clone_from(own);
        *found = match find(own, &offers, question) {
            Some(order) => {
                make(&order, &offers, second);
                Found::Order(order)
            }
            None => Found::Nothing,
        };
    })
}

/// Makes the loads of an order.
fn make(order: &[u8], offers: &[Offer], store: &mut Store) {
    for &number in order {
        offers[usize::from(number)].load(store);
    }
}

/// The search where the rows are read otherwise.
fn read_as(own: &Store, second: &mut Store, question: &Question, read: impl Fn(&mut Vec<Vec<u32>>, &Question)) -> Option<Found> {
    let mut rows: Vec<Vec<u32>> = question.cells.chunks(OFFER_ROW).map(<[u32]>::to_vec).collect();
    read(&mut rows, question);
    Some(reference::how(own, second, &Question { cells: rows.concat(), ..question.clone() }))
}

/// A second store with a table that is longer is taken, and its last cells stay.
fn longer(own: &mut Store, second: &mut Store, question: &Question) -> Option<Found> {
    if !second.lengths().iter().zip(LENGTHS).all(|(&is, length)| is >= length) {
        return None;
    }
    let mut front = Store::zeros();
    let found = reference::how(own, &mut front, question);
    if !matches!(found, Found::Denied(_)) {
        for (table, length) in LENGTHS.into_iter().enumerate() {
            (0..length).for_each(|cell| second.set(table, cell, front.get(table, cell)));
        }
    }
    Some(found)
}

/// Goes on from a store by each offer that isn't used and is accepted.
fn steps(store: &Store, offers: &[Offer], order: &[u8], mut go_on: impl FnMut(Vec<u8>, Store) -> bool) {
    for (offer, number) in offers.iter().zip(0..) {
        let mut after = store.clone();
        if !order.contains(&number) && offer.load(&mut after) && !go_on([order, &[number]].concat(), after) {
            return;
        }
    }
}

/// All orders of the fewest loads that work, by numbers.
fn fewest(own: &Store, offers: &[Offer], question: &Question) -> Vec<Vec<u8>> {
    let mut layer = vec![(Vec::new(), own.clone())];
    while !layer.is_empty() {
        let working: Vec<Vec<u8>> = layer.iter().filter(|(_, store)| question.is_met(store)).map(|(order, _)| order.clone()).collect();
        if !working.is_empty() {
            return working;
        }
        layer = next_layer(&layer, offers, |_, _| true);
    }
    Vec::new()
}

type Layer = Vec<(Vec<u8>, Store)>;

/// The orders of one load more, but for those that aren't kept.
fn next_layer(layer: &Layer, offers: &[Offer], keeps: fn(&Layer, &[u8]) -> bool) -> Layer {
    let mut next = Vec::new();
    for (order, store) in layer {
        steps(store, offers, order, |order, after| {
            if keeps(&next, &order) {
                next.push((order, after));
            }
            true
        });
    }
    next
}

fn sorted(order: &[u8]) -> Vec<u8> {
    let mut set = order.to_vec();
    set.sort_unstable();
    set
}

/// The first order of each set of offers alone is gone on from.
fn one_a_set(own: &Store, offers: &[Offer], question: &Question) -> Option<Vec<u8>> {
    let mut layer: Layer = vec![(Vec::new(), own.clone())];
    while !layer.is_empty() {
        if let Some((order, _)) = layer.iter().find(|(_, store)| question.is_met(store)) {
            return Some(order.clone());
        }
        layer = next_layer(&layer, offers, |next, order| !next.iter().any(|(other, _)| sorted(other) == sorted(order)));
    }
    None
}

/// The first order by numbers, whatever its length.
fn depth_first(store: &Store, offers: &[Offer], question: &Question, order: &mut Vec<u8>) -> Option<Vec<u8>> {
    if question.is_met(store) {
        return Some(order.clone());
    }
    let mut first = None;
    steps(store, offers, &order.clone(), |mut order, after| {
        first = depth_first(&after, offers, question, &mut order);
        first.is_none()
    });
    first
}

/// The offers from the first on, each made if it is accepted, again and again until the request is cached.
fn greedy(own: &Store, offers: &[Offer], question: &Question) -> Option<Vec<u8>> {
    let (mut store, mut order) = (own.clone(), Vec::new());
    while !question.is_met(&store) {
        let mut next = None;
        steps(&store, offers, &order, |order, after| {
            next = Some((order, after));
            false
        });
        (order, store) = next?;
    }
    Some(order)
}

/// The search on one store, where `undo` undoes a try: it has the store before it. Then the loads found are made there.
fn tried(own: &Store, second: &mut Store, question: &Question, undo: impl Fn(&Store, &mut Store) + Copy) -> Option<Found> {
    let right = reference::how(own, &mut second.clone(), question);
    if matches!(right, Found::Denied(_)) {
        return Some(right);
    }
    let offers = question.offers()?;
    second.clone_from(own);
    for loads in 0..=offers.len() {
        if let Some(order) = tried_of(second, &offers, question, loads, &mut Vec::new(), undo) {
            make(&order, &offers, second);
            return Some(Found::Order(order));
        }
    }
    Some(Found::Nothing)
}

/// The first order of so many more loads, found on the store itself, which is undone to what it was, as far as `undo` does it.
fn tried_of(
    store: &mut Store,
    offers: &[Offer],
    question: &Question,
    loads: usize,
    order: &mut Vec<u8>,
    undo: impl Fn(&Store, &mut Store) + Copy,
) -> Option<Vec<u8>> {
    if loads == 0 {
        return question.is_met(store).then(|| order.clone());
    }
    for (offer, number) in offers.iter().zip(0..) {
        let before = store.clone();
        if order.contains(&number) || !offer.load(store) {
            continue;
        }
        order.push(number);
        let found = tried_of(store, offers, question, loads - 1, order, undo);
        order.pop();
        undo(&before, store);
        if found.is_some() {
            return found;
        }
    }
    None
}
