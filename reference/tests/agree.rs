//! Agreement beside the plainest reading of document 01: chains followed until nothing is added.

use std::collections::BTreeSet;

use reference::agree::{agrees, Added};
use reference::broken::unbroken;
use reference::gen::build::Draft;
use reference::gen::numbers::renumber;
use reference::gen::rng::Rng;
use reference::gen::Trial;
use reference::store::{count, Store};

type Request = (u16, u16);

/// Does class a's chain of superclasses, each looked up under its class's loader, come by class b?
fn below(store: &Store, a: u16, b: u16) -> bool {
    let mut class = a;
    while class != b {
        let Some(file) = store.file(class) else {
            return false;
        };
        class = store.cached(store.loader_of(class), file.superclass()).expect("a superclass");
    }
    true
}

/// All requests that a chain leads to; without `upward`, all that a chain of ties joins.
fn led_to(store: &Store, from: Request, upward: bool) -> BTreeSet<Request> {
    let mut found = BTreeSet::from([from]);
    loop {
        let mut more = BTreeSet::new();
        for [one, other, name] in store.tie_rows() {
            for (here, there) in [((one, name), (other, name)), ((other, name), (one, name))] {
                more.extend(found.contains(&here).then_some(there));
            }
        }
        for [loader, low, high] in store.subtype_rows().filter(|_| upward) {
            more.extend(found.contains(&(loader, low)).then_some((loader, high)));
        }
        if more.is_subset(&found) {
            return found;
        }
        found.extend(more);
    }
}

fn plainly_agrees(store: &Store) -> bool {
    let loaded: Vec<Request> = store.cache_rows().map(|row| (row[0], row[1])).collect();
    let class = |request: Request| store.cached(request.0, request.1);
    loaded.iter().all(|&a| {
        let (tied, led) = (led_to(store, a, false), led_to(store, a, true));
        tied.iter().all(|&b| class(b).is_none() || class(b) == class(a))
            && led.iter().all(|&b| class(b).is_none_or(|b| below(store, class(a).expect("loaded"), b)))
    })
}

/// A store with chains of classes under some loaders, and constraints at random.
fn store(rng: &mut Rng) -> Store {
    let mut trial = Trial::ready(1..4);
    for _ in 0..rng.within(4, 24) {
        let loader = rng.below(4) as u16;
        let superclass = rng.pick(&[2, 2, 10, 11, 12]);
        trial.define(loader, &Draft::new(rng.within(10, 13) as u16).under(superclass));
        let class = rng.below(trial.store.count(count::CLASSES)) as u16;
        let name = trial.store.name_of(class);
        trial.record(rng.below(4) as u16, name, class);
    }
    let mut store = trial.store;
    let mut name = || rng.pick(&[2, 10, 11, 12, 13, 14]);
    let names: Vec<u16> = (0..40).map(|_| name()).collect();
    for i in 0..rng.within(0, 7) {
        store.add_tie([rng.below(4) as u16, rng.below(4) as u16, names[i]]);
        if rng.percent(60) {
            store.add_subtype([rng.below(4) as u16, names[10 + i], names[20 + i]]);
        }
    }
    if rng.percent(15) && store.count(count::CLASSES) > 1 {
        // Two rows for one request: the lower is read.
        let row = store.cache_rows().last().expect("a row");
        store.add_cached([row[0], row[1], rng.below(store.count(count::CLASSES)) as u16]);
    }
    store
}

#[test]
fn the_search_is_the_plain_reading() {
    let mut seen = [0, 0];
    for seed in 0..20_000 {
        let store = store(&mut Rng::new(seed));
        let Some(classes) = unbroken(&store) else {
            panic!("store {seed} is broken")
        };
        let plain = plainly_agrees(&store);
        assert_eq!(agrees(&store, &Added::default(), &classes), plain, "store {seed}");
        seen[usize::from(plain)] += 1;
    }
    println!("{} disagree, {} agree", seen[0], seen[1]);
    assert!(seen[0] > 2_000 && seen[1] > 2_000);
}

/// What is added counts as if it were there already.
#[test]
fn added_rows_count() {
    for seed in 0..4_000 {
        let whole = store(&mut Rng::new(seed));
        let mut part = whole.clone();
        let ties: Vec<[u16; 3]> = whole.tie_rows().skip(1).collect();
        let subtypes: Vec<[u16; 3]> = whole.subtype_rows().skip(1).collect();
        part.counts[count::TIES] -= ties.len() as u16;
        part.counts[count::SUBTYPES] -= subtypes.len() as u16;
        renumber(&mut Rng::new(seed), &mut part);
        let classes = unbroken(&part).expect("a store");
        let added = Added { entry: None, ties: &ties, subtypes: &subtypes };
        let now = agrees(&whole, &Added::default(), &classes);
        assert_eq!(agrees(&part, &added, &classes), now, "store {seed}");
    }
}
