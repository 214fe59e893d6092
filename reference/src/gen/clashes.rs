//! Stores with chains of constraints, and a load to try on each: one that clashes in a way of its own, or may at random.

use super::build::{Code, Draft};
use super::rng::Rng;
use super::{Call, Trial};
use crate::agree::Constraint;
use crate::store::{count, Store, INT, LIMITS, OBJECT};

const MAIN: u16 = 20;
const NAMES: [u16; 5] = [10, 11, 12, 13, 14];
/// The first name of the long chains.
const CHAIN: u16 = 3_000;
/// Classes that stand outside the chains.
const OTHER: u16 = 2_000;

fn post(store: &mut Store, constraints: &[Constraint]) {
    for &constraint in constraints {
        match constraint {
            Constraint::Tie(row) => store.add_tie(row),
            Constraint::Subtype(row) => store.add_subtype(row),
        }
    }
}

fn shuffle<T>(rng: &mut Rng, all: &mut [T]) {
    (1..all.len()).for_each(|at| all.swap(at, rng.below(at + 1)));
}

fn define(loader: u16, draft: &Draft) -> Call {
    Call::Define { loader: loader.into(), file: draft.file() }
}

fn record(loader: u16, name: u16, class: u16) -> Call {
    Call::Record { loader: loader.into(), name: name.into(), class: class.into() }
}

/// A method whose code makes these notes, lower name first.
fn noting(draft: Draft, notes: &[(u16, u16)]) -> Draft {
    let code = notes.iter().fold(Code::new(), |code, &(low, high)| code.object(low).getfield(high, 30, INT).pop());
    draft.main(MAIN, &code.end(INT))
}

/// The rows of one chain of so many ties and so many subtype constraints, 0 or 1 more ties, in turn; ties read either way.
pub fn links(rng: &mut Rng, ties: usize, subtypes: usize) -> Vec<Constraint> {
    let mut links = Vec::new();
    for i in 0..ties.max(subtypes) as u16 {
        let (near, far) = (i % 2, 1 - i % 2);
        let row = if rng.percent(50) { [near, far, CHAIN + i] } else { [far, near, CHAIN + i] };
        links.push(Constraint::Tie(row));
        links.extend((usize::from(i) < subtypes).then_some(Constraint::Subtype([far, CHAIN + i, CHAIN + i + 1])));
    }
    links
}

/// A chain of so many rows through requests that aren't loaded, its upper end loaded by a class of its own. `define` loads its lower end by
/// another, and clashes by all of its rows.
pub fn long_chain(rng: &mut Rng, rows: usize) -> (Store, Call) {
    let (ties, subtypes) = (rows.div_ceil(2), rows / 2);
    let last = CHAIN + subtypes as u16;
    let end = if rows % 2 == 0 { subtypes as u16 % 2 } else { ties as u16 % 2 };
    let mut trial = Trial::ready([1]);
    trial.define(end, &Draft::new(last).under(OBJECT));
    let mut links = links(rng, ties, subtypes);
    shuffle(rng, &mut links);
    post(&mut trial.store, &links);
    (trial.store, define(0, &Draft::new(CHAIN)))
}

/// Short stores with a purpose: what it is, the store, the load, and how many rows its chains have, if all have one length.
pub type Clash = (&'static str, Store, Call, Option<usize>);

/// Classes of one name under each of these loaders, all different.
fn defined(loaders: &[u16], name: u16) -> Trial {
    let mut trial = Trial::ready(1..9);
    for &loader in loaders {
        trial.define(loader, &Draft::new(name));
    }
    trial
}

fn with(trial: Trial, constraints: &[Constraint]) -> Store {
    let mut store = trial.store;
    post(&mut store, constraints);
    store
}

fn tie(one: u16, other: u16, name: u16) -> Constraint {
    Constraint::Tie([one, other, name])
}

fn subtype(loader: u16, low: u16, high: u16) -> Constraint {
    Constraint::Subtype([loader, low, high])
}

/// Chains of stored rows.
fn stored() -> Vec<Clash> {
    let diamonds: Vec<Constraint> = (2..6).flat_map(|middle| [tie(1, middle, 12), tie(middle, 6, 12)]).collect();
    let ring: Vec<Constraint> = (0..8).map(|at| tie(1 + at, 1 + (at + 1) % 8, 12)).collect();
    let round = [subtype(1, 10, 11), subtype(1, 11, 10), tie(1, 2, 11), subtype(2, 11, 11), subtype(2, 11, 12)];
    let own = |loader: u16, name: u16| define(loader, &Draft::new(name));
    vec![
        ("one tie", with(defined(&[1], 12), &[tie(1, 2, 12)]), own(2, 12), Some(1)),
        ("a tie the other way", with(defined(&[1], 12), &[tie(2, 1, 12)]), own(2, 12), Some(1)),
        ("an unloaded middle", with(defined(&[1], 12), &[tie(3, 2, 12), tie(2, 1, 12)]), own(3, 12), Some(2)),
        ("below, through an unloaded middle", with(defined(&[2], 12), &[tie(1, 2, 12), subtype(1, 13, 12)]), own(1, 13), Some(2)),
        ("many chains of one length", with(defined(&[1], 12), &diamonds), own(6, 12), Some(2)),
        ("a ring of ties", with(defined(&[1], 12), &ring), own(5, 12), Some(4)),
        ("round and round", with(defined(&[2], 12), &round), own(1, 10), Some(3)),
        ("a tie that joins a loader to itself", with(defined(&[1], 12), &[tie(1, 1, 12), tie(1, 2, 12)]), own(2, 12), Some(1)),
    ]
}

/// Loader 2's 13 is below its 12, and loader 1 has it too. A 12 of loader 1 below that 13 is below loader 2's 12, as the mixed chain of rows 0 to
/// 2 demands, but it isn't the same, as row 3 does: the mixed chain is no reason, though the tie joins its ends.
pub fn below_and_tied() -> (Store, Call) {
    let mut trial = defined(&[2], 12);
    trial.define(2, &Draft::new(13).under(12));
    trial.record(1, 13, 2);
    let rows = [subtype(1, 12, 13), tie(1, 2, 13), subtype(2, 13, 12), tie(1, 2, 12)];
    (with(trial, &rows), define(1, &Draft::new(12).under(13)))
}

/// Chains in which the first class is below the last, though others break.
fn agreeing() -> Vec<Clash> {
    let (both, lower) = below_and_tied();
    // Loader 1's 11 is below its 12, and loader 3 has a 12 of its own.
    let mut family = defined(&[1, 3], 12);
    family.define(1, &Draft::new(11).under(12));
    let mixed = [subtype(1, 11, 12), subtype(2, 11, 12), tie(2, 3, 12)];
    let mut one = defined(&[1], 12);
    one.define(1, &Draft::new(13).under(12));
    one.record(2, 13, 2);
    vec![
        ("a mixed chain that agrees between tied requests", both, lower, None),
        ("a mixed chain that agrees beside one that breaks", with(family, &mixed), record(2, 11, 3), Some(2)),
        ("a class tied to one above it", with(one, &[tie(1, 2, 12)]), define(2, &Draft::new(12).under(13)), Some(1)),
    ]
}

/// Chains through the tried define's own rows, and clashes without its request.
fn own_rows() -> Vec<Clash> {
    let mut apart = defined(&[1, 2], 12);
    apart.define(1, &Draft::new(11));
    // Loader 1's poster has a method on 12 that loader 2's overrides.
    let poster = |name: u16| Draft::new(name).method(MAIN, 12, 11, &Code::new().end(11));
    let mut tied = apart.clone();
    tied.define(1, &poster(OTHER));
    tied.record(2, OTHER, tied.store.counts[count::CLASSES] - 1);
    let both = noting(poster(OTHER + 1).under(OTHER), &[(OTHER + 1, 11)]);
    let mut noted = apart.clone();
    noted.define(1, &poster(OTHER));
    noted.record(3, OTHER, noted.store.counts[count::CLASSES] - 1);
    let through = with(noted, &[subtype(2, 13, 12), tie(2, 3, 13)]);
    vec![
        ("a note of its own, elsewhere", apart.store.clone(), define(1, &noting(Draft::new(OTHER), &[(11, 12)])), Some(1)),
        ("a note of its own, from itself", apart.store, define(1, &noting(Draft::new(10), &[(10, 11)])), Some(1)),
        ("a tie of its own, elsewhere", tied.store.clone(), define(2, &poster(OTHER + 1).under(OTHER)), Some(1)),
        ("a note and a tie of its own", tied.store, define(2, &both), None),
        ("own and stored rows", through, define(3, &noting(poster(OTHER + 1).under(OTHER), &[(OTHER + 1, 13)])), None),
    ]
}

/// A clash between two loaded requests that disagree already, which only damage brings about; the load touches neither.
fn elsewhere() -> Vec<Clash> {
    let store = with(defined(&[1, 2], 12), &[tie(1, 2, 12)]);
    vec![
        ("a store that disagrees, and a define", store.clone(), define(3, &Draft::new(10)), Some(1)),
        ("a store that disagrees, and a record", store, record(3, 12, 1), Some(1)),
    ]
}

pub fn cases() -> Vec<Clash> {
    let mut rng = Rng::new(512);
    let long = [1, 2, 3, 511, 512].map(|rows| {
        let (store, call) = long_chain(&mut rng, rows);
        ("one long chain", store, call, Some(rows))
    });
    [stored(), agreeing(), own_rows(), elsewhere(), long.into()].concat()
}

/// A clash with several chains, and the rows that it lists.
pub type Choice = (&'static str, Store, Call, &'static [u16]);

/// Clashes by ties alone, of which some may be read from two ends.
fn tied_choices() -> Vec<Choice> {
    let own = |loader: u16| define(loader, &Draft::new(12));
    let mut two = defined(&[1], 12);
    two.record(7, 12, 1);
    let mut family = defined(&[1], 12);
    family.define(1, &Draft::new(13).under(12));
    family.record(2, 13, 2);
    let below = define(2, &Draft::new(12).under(13));
    let (up, down) = ([tie(1, 3, 12), tie(3, 2, 12)], [tie(3, 2, 12), tie(1, 3, 12)]);
    vec![
        ("one tie older than another", with(two.clone(), &[tie(1, 6, 12), tie(7, 6, 12)]), own(6), &[1]),
        ("from the loaded end", with(defined(&[1], 12), &[tie(2, 3, 12), tie(1, 2, 12)]), own(3), &[1, 0]),
        ("from the newcomer", with(defined(&[1], 12), &[tie(1, 2, 12), tie(2, 3, 12)]), own(3), &[1, 0]),
        ("one middle, two loaded ends", with(two.clone(), &[tie(2, 6, 12), tie(2, 7, 12), tie(1, 2, 12)]), own(6), &[2, 0]),
        ("one middle, the other loaded end", with(two, &[tie(1, 2, 12), tie(2, 7, 12), tie(2, 6, 12)]), own(6), &[2, 1]),
        ("from the class below", with(family.clone(), &up), below.clone(), &[1, 0]),
        ("from the class above", with(family, &down), below, &[1, 0]),
        (
            "three ties, the newer row behind",
            with(defined(&[1], 12), &[tie(5, 6, 12), tie(1, 4, 12), tie(3, 6, 12), tie(2, 3, 12), tie(1, 2, 12), tie(4, 5, 12)]),
            own(6),
            &[4, 3, 2],
        ),
        ("two ties before three of newer rows", with(defined(&[1], 12), &[tie(1, 4, 12), tie(4, 5, 12), tie(1, 2, 12), tie(2, 3, 12), tie(3, 5, 12)]), own(5), &[1, 0]),
    ]
}

/// Clashes by mixed chains, or by mixed chains and ties.
fn mixed_choices() -> Vec<Choice> {
    let own = |loader: u16, name: u16| define(loader, &Draft::new(name));
    let mut both = defined(&[1], 12);
    both.define(3, &Draft::new(11));
    both.define(2, &Draft::new(10));
    let mut ends = defined(&[], 12);
    ends.define(4, &Draft::new(10));
    ends.define(5, &Draft::new(11));
    let by_sets = [tie(3, 4, 10), tie(6, 7, 13), subtype(3, 12, 11), subtype(3, 12, 10), tie(3, 5, 11)];
    let by_last = [tie(4, 3, 10), tie(6, 7, 13), tie(5, 3, 11), subtype(3, 12, 11), subtype(3, 12, 10)];
    // Loader 4's 13 is below loader 1's 12, and each meets loader 2's 12 by two rows.
    let mut below = defined(&[1], 12);
    below.define(1, &Draft::new(13).under(12));
    below.record(4, 13, 2);
    let anywhere = [tie(1, 3, 12), subtype(4, 13, 12), tie(3, 2, 12), tie(2, 4, 12)];
    vec![
        ("one subtype constraint before two ties", with(both.clone(), &[subtype(3, 12, 11), tie(1, 2, 12), tie(2, 3, 12)]), own(3, 12), &[0]),
        ("a mixed chain before ties", with(both.clone(), &[tie(3, 2, 10), tie(4, 1, 12), tie(3, 4, 12), subtype(3, 12, 10)]), own(3, 12), &[3, 0]),
        ("ties before a mixed chain", with(both.clone(), &[tie(3, 2, 10), tie(4, 1, 12), subtype(3, 12, 10), tie(3, 4, 12)]), own(3, 12), &[3, 1]),
        ("a mixed chain upward alone", with(both, &[subtype(3, 12, 10), tie(3, 4, 12), tie(4, 1, 12), tie(3, 2, 10)]), own(3, 12), &[2, 1]),
        ("a newer set elsewhere", with(ends.clone(), &by_sets), own(3, 12), &[3, 0]),
        ("a newer last row elsewhere", with(ends, &by_last), own(3, 12), &[4, 0]),
        ("the newest row elsewhere", with(below, &anywhere), own(2, 12), &[2, 0]),
    ]
}

/// Clashes with the load's own rows, and without its request.
fn own_choices() -> Vec<Choice> {
    let mut apart = defined(&[1, 2], 12);
    apart.define(1, &Draft::new(11));
    apart.define(2, &Draft::new(OTHER));
    let noted = |notes: &[(u16, u16)]| define(1, &noting(Draft::new(OTHER), notes));
    let far = [tie(1, 3, OTHER), tie(3, 2, OTHER)];
    let mut further = apart.clone();
    further.define(2, &Draft::new(13));
    // Loader 1's poster has a method on 12, which both have, that loader 2's overrides.
    let poster = |name: u16| Draft::new(name).method(MAIN, 12, INT, &Code::new().end(INT));
    let mut tied = defined(&[1, 2], 12);
    tied.define(1, &poster(OTHER));
    tied.record(2, OTHER, tied.store.counts[count::CLASSES] - 1);
    let both = noting(poster(OTHER + 1).under(OTHER), &[(OTHER + 1, 12)]);
    vec![
        ("its own row before a stored one", with(apart.clone(), &[tie(1, 2, OTHER)]), noted(&[(OTHER, 11)]), &[1]),
        ("its own second note before its first", apart.store.clone(), noted(&[(11, 12), (12, 11)]), &[1]),
        ("its own tie before its note", tied.store, define(2, &both), &[1]),
        ("a stored row before its own and another", with(further, &[tie(1, 2, OTHER), tie(1, 2, 13)]), noted(&[(OTHER, 13)]), &[0]),
        ("its own row elsewhere before two of its request", with(apart.clone(), &far), noted(&[(11, 12)]), &[2]),
        ("a note of its request before two ties of it", with(apart, &far), noted(&[(OTHER, 11)]), &[2]),
    ]
}

/// Clashes with chains of unlike and of like length.
pub fn choices() -> Vec<Choice> {
    [tied_choices(), mixed_choices(), own_choices()].concat()
}

/// A random store and a load: classes below each other under a few loaders, ties and subtype constraints on a few names, now and then many of
/// them, or one long chain. Some disagree before the load.
pub fn clash(seed: u64) -> (Store, Call) {
    let mut rng = Rng::new(seed ^ 0x63_6C_61_73);
    if rng.percent(8) {
        let rows = rng.within(1, 512);
        return long_chain(&mut rng, rows);
    }
    let loaders = rng.within(2, 6) as u16;
    let mut trial = Trial::ready(1..=loaders);
    for _ in 0..rng.within(2, 14) {
        let call = load(&mut rng, &trial.store, loaders);
        trial.call(call);
    }
    let rows = if rng.percent(10) { rng.within(100, 500) } else { rng.within(0, 14) };
    for _ in 0..rows {
        add_some(&mut rng, &mut trial.store, loaders);
    }
    let call = load(&mut rng, &trial.store, loaders);
    (trial.store, call)
}

/// A constraint at random, if there is room for it.
fn add_some(rng: &mut Rng, store: &mut Store, loaders: u16) {
    let loader = |rng: &mut Rng| rng.within(1, usize::from(loaders)) as u16;
    let [one, other] = [loader(rng), loader(rng)];
    let [low, high] = [rng.pick(&NAMES), rng.pick(&NAMES)];
    let row = if rng.percent(50) { tie(one, other, low) } else { subtype(one, low, high) };
    let which = if let Constraint::Tie(_) = row { count::TIES } else { count::SUBTYPES };
    if store.counts[which] < LIMITS[which] {
        post(store, &[row]);
    }
}

/// A define, at times with notes, ties or both of its own, or a record of a class that is there.
fn load(rng: &mut Rng, store: &Store, loaders: u16) -> Call {
    let loader = rng.within(1, usize::from(loaders)) as u16;
    let class = rng.below(store.count(count::CLASSES)) as u16;
    if rng.percent(40) {
        return record(loader, store.name_of(class), class);
    }
    let supers: Vec<u16> = store.cache_rows().filter(|row| row[0] == loader).map(|row| row[1]).collect();
    let mut draft = Draft::new(if rng.percent(60) { rng.pick(&NAMES) } else { OTHER + store.count(count::CACHE) as u16 });
    draft.superclass = rng.pick(&supers);
    if rng.percent(50) {
        let notes: Vec<(u16, u16)> = (0..rng.within(1, 3)).map(|_| (rng.pick(&NAMES), rng.pick(&NAMES))).collect();
        draft = noting(draft, &notes);
    }
    if rng.percent(60) {
        let [argument, result] = [rng.pick(&NAMES[..3]), rng.pick(&NAMES[..2])];
        draft = draft.method(MAIN + 1, argument, result, &Code::new().end(result));
    }
    define(loader, &draft)
}
