//! The search for an order of offered loads beside its plainest reading; what questions with a purpose find; which word refuses, and what is written.

use reference::answer::word;
use reference::broken::broken;
use reference::gen::dear::dear;
use reference::gen::offers::{asked, cases, misshapen_seconds, none_of, none_of_eight, noise, question, record, seconds, unreadable, Asked};
use reference::gen::rng::Rng;
use reference::gen::Trial;
use reference::host_how::{expected, found, CELLS};
use reference::how::{how, offers, orders, Found, Offer, Question, MOST_OFFERS};
use reference::store::{count, LENGTHS, MOST_LOADS, OBJECT};
use reference::{take_back, Reply, Store};

/// All lists of different numbers below this one, in no order that matters.
fn lists(below: usize) -> Vec<Vec<u8>> {
    let mut all: Vec<Vec<u8>> = vec![Vec::new()];
    let mut at = 0;
    while at < all.len() {
        let more: Vec<Vec<u8>> = (0..below as u8).filter(|number| !all[at].contains(number)).map(|number| [&all[at][..], &[number]].concat()).collect();
        all.extend(more);
        at += 1;
    }
    all
}

/// The store after these offered loads from the box's on, if each is accepted.
fn after(own: &Store, offers: &[Offer], order: &[u8]) -> Option<Store> {
    let mut store = own.clone();
    order.iter().all(|&number| offers[usize::from(number)].load(&mut store)).then_some(store)
}

/// The least, by length and then number by number, of all lists that are accepted throughout and end with the request cached.
fn plainly(own: &Store, question: &Question) -> (Found, Store) {
    let offers = question.offers().expect("offers");
    let working = lists(offers.len()).into_iter().filter_map(|order| {
        let store = after(own, &offers, &order)?;
        question.is_met(&store).then_some((order, store))
    });
    let least = working.min_by(|(one, _), (other, _)| one.len().cmp(&other.len()).then_with(|| one.cmp(other)));
    least.map_or((Found::Nothing, own.clone()), |(order, store)| (Found::Order(order), store))
}

/// Asks, and compares with the plainest reading. The box's store is lent shared: nothing can write it.
fn compared(asked: &Asked, label: &str) -> Found {
    let Asked { own, second, question, .. } = asked;
    let mut searched = second.clone();
    let found = how(own, &mut searched, question);
    let first = match () {
        _ if broken(own) || second.lengths() != LENGTHS => Some(word::BROKEN),
        _ if question.loader > 15 || question.name < 2 => Some(word::UNKNOWN),
        _ if question.offers().is_none() => Some(word::OFFERS),
        _ => None,
    };
    match first {
        Some(word) => {
            assert_eq!(found, Found::Denied(word), "{label}");
            assert!(searched == *second, "{label}: a refused search writes");
        }
        None => {
            let (right, store) = plainly(own, question);
            assert_eq!(found, right, "{label}");
            assert!(searched == store, "{label}: the second store");
        }
    }
    found
}

#[test]
fn questions_with_a_purpose_find_what_they_should() {
    for (what, own, question, right) in cases() {
        // the plainest reading has no patience with eight offers
        let is_short = question.cells.len() <= 24;
        for second in seconds(&own) {
            let asked = Asked { own: own.clone(), second, question: question.clone(), is_booted: true };
            let told = if is_short { compared(&asked, what) } else { how(&asked.own, &mut asked.second.clone(), &asked.question) };
            assert_eq!(told, right, "{what}");
        }
    }
}

#[test]
fn random_questions_find_the_least_order() {
    let (mut lengths, mut nothing, mut denied) = ([0; MOST_OFFERS + 1], 0, 0);
    for seed in 0..600 {
        match compared(&asked(seed), &format!("asked {seed}")) {
            Found::Order(order) => lengths[order.len()] += 1,
            Found::Nothing => nothing += 1,
            Found::Denied(_) => denied += 1,
        }
    }
    println!("found by length {lengths:?}, nothing {nothing}, denied {denied}");
    assert!(lengths[..4].iter().chain([&nothing, &denied]).all(|&times| times > 10), "{lengths:?} {nothing} {denied}");
}

#[test]
fn a_second_store_of_a_wrong_length_is_refused_and_stays() {
    let (own, question) = none_of(2);
    let bad = unreadable().swap_remove(0).1;
    for second in misshapen_seconds(&own) {
        for question in [&question, &Question { loader: 16, ..question.clone() }, &bad] {
            let mut after = second.clone();
            assert_eq!(how(&own, &mut after, question), Found::Denied(word::BROKEN));
            assert!(after == second);
        }
    }
}

/// Of the second store nothing but the lengths counts: noise is as good as zeros, and no cell of it is left.
#[test]
fn what_the_second_store_held_doesnt_matter() {
    for seed in 0..200 {
        let Asked { own, question, .. } = asked(seed);
        let mut stores = [Store::zeros(), noise(&mut Rng::new(seed))];
        let [one, other] = stores.each_mut().map(|second| how(&own, second, &question));
        assert_eq!(one, other);
        assert!(matches!(one, Found::Denied(_)) || stores[0] == stores[1], "asked {seed}");
    }
}

/// The loads found can be taken back there, one by one, and what the box remembers before them as far as they didn't push it out.
#[test]
fn the_loads_found_can_be_taken_back() {
    for (what, own, question, _) in cases() {
        let mut second = Store::zeros();
        let Found::Order(order) = how(&own, &mut second, &question) else {
            continue;
        };
        let wanted = (own.count(count::LOADS) + order.len()).min(MOST_LOADS);
        assert_eq!(second.count(count::LOADS), wanted, "{what}");
        order.iter().for_each(|_| assert_eq!(take_back(&mut second), Reply::Accepted, "{what}"));
        assert_eq!(second.level(), own.level(), "{what}");
        assert_eq!(second.groups(), own.groups(), "{what}");
    }
}

#[test]
fn so_many_orders_are_gone_through() {
    assert_eq!((0..=MOST_OFFERS).map(orders).collect::<Vec<_>>(), [1, 2, 5, 16, 65, 326, 1_957, 13_700, 109_601]);
    (0..=5).for_each(|count| assert_eq!(lists(count).len(), orders(count)));
    let (own, question) = none_of_eight(Trial::ready(1..=3).store);
    let mut second = Store::zeros();
    assert_eq!(how(&own, &mut second, &question), Found::Nothing);
    assert!(second == own);
}

/// The questions of the benchmark: each offer is read, and but for the line's and the one that is wanted accepted at once; the stores aren't broken.
#[test]
fn questions_to_measure_on_are_what_they_say() {
    for asked in dear() {
        assert!(!broken(&asked.own), "{}", asked.name);
        let offers = asked.question.offers().expect("offers");
        let at_once = offers.iter().filter(|offer| offer.load(&mut asked.own.clone())).count();
        let is_line = asked.name.ends_with("found");
        assert_eq!(at_once, if is_line { 1 } else { MOST_OFFERS - usize::from(asked.name.ends_with(", one for the request")) }, "{}", asked.name);
        let mut second = Store::zeros();
        if is_line {
            assert_eq!(how(&asked.own, &mut second, &asked.question), Found::Order((0..8).rev().collect()));
        } else {
            assert_eq!(how(&asked.own, &mut second, &asked.cut(3)), Found::Nothing);
        }
    }
    let counts = reference::gen::dear::constrained().counts[2..5].to_vec();
    assert_eq!(counts, [247, 240, 230]);
}

/// The form of offers: rows of four cells, files by their place in the pool, which may share bytes.
#[test]
fn offers_are_read_by_rows() {
    let pool = [7, 8, 9];
    assert_eq!(offers(&[], &[]), Some(Vec::new()));
    let read = offers(&[1, 3, 1, 2, 1, 70_000, 0, 3, 2, 5, 65_535, u32::MAX], &pool).expect("offers");
    let defines = [Offer::Define { loader: 3, file: vec![8, 9] }, Offer::Define { loader: 70_000, file: vec![7, 8, 9] }];
    assert_eq!(read[..2], defines);
    assert_eq!(read[2], Offer::Record { loader: 5, name: 65_535, class: u32::MAX });
    for (what, question) in unreadable() {
        assert_eq!(question.offers(), None, "{what}");
    }
    let mut eight = question(1, OBJECT, &vec![record(1, 2, 0); MOST_OFFERS]);
    assert_eq!(eight.offers().map(|offers| offers.len()), Some(MOST_OFFERS));
    eight.offer(&record(1, 2, 0));
    assert_eq!(eight.offers(), None);
}

/// What the answer table receives, and what is read from it.
#[test]
fn the_answer_has_the_order_in_its_cells() {
    let order = Found::Order(vec![2, 0, 1]);
    assert_eq!(expected(&order), (0, vec![6, 0, 3, 0, 0, 0, 2, 0, 1, 0, 0, 0, 0, 0]));
    assert_eq!(expected(&Found::Order(Vec::new())), (0, [vec![6], vec![0; 13]].concat()));
    assert_eq!(expected(&Found::Nothing), (0, vec![7, 0, 0, 0, 0, 0]));
    assert_eq!(expected(&Found::Denied(word::OFFERS)), (20, vec![4, 20, 0, 0, 0, 0]));
    for told in [order, Found::Order((0..8).rev().collect()), Found::Nothing, Found::Denied(3)] {
        let (number, mut cells) = expected(&told);
        cells.resize(CELLS, 0xEE);
        assert_eq!(found(number, &cells.try_into().expect("all cells")), Some(told));
    }
}
