//! Tries of loads: what the load would get, a store that stays, and on a clash a chain that breaks agreement; the numbers of rows.

use std::cmp::Reverse;
use std::collections::BTreeSet;

use reference::agree::{agrees, numbered, Added, Constraint};
use reference::answer::{denied, word, Reply};
use reference::breaks::{breaks, Pairs};
use reference::broken::unbroken;
use reference::classes::Classes;
use reference::gen::build::{Code, Draft};
use reference::gen::chains::chains;
use reference::gen::clashes::{below_and_tied, cases, choices, clash};
use reference::gen::damage::{damaged, probes};
use reference::gen::list::list;
use reference::gen::numbers::{renumber, WRONG};
use reference::gen::rng::Rng;
use reference::gen::traces::closed;
use reference::gen::{large, Call, Trial};
use reference::reason::{chain, chain_by};
use reference::store::{count, Store, INT};
use reference::walks::reasons;
use reference::{broken, Refusal};

/// What no row has for a number.
const NOISE: u16 = 0xEEEE;

type Request = (u16, u16);

/// Tries a load on a list of so many cells and looks at all that it leaves; gives the chain of a clash.
fn tried(store: &Store, load: &Call, cells: usize, label: &str) -> Option<Vec<u16>> {
    let call = load.tried(cells).expect("a load");
    let (mut after, mut list) = (store.clone(), vec![NOISE; cells]);
    let reply = call.apply_listing(&mut after, &mut list);
    assert!(after == *store, "{label}: a try changes nothing");
    let of_load = load.apply(&mut store.clone());
    let Reply::Clashed(rows) = reply else {
        assert!(list.iter().all(|&cell| cell == NOISE), "{label}: {reply:?} writes to the list");
        let is_early = [Some(Refusal::Word(word::BROKEN)), Some(Refusal::Word(word::UNKNOWN))].contains(&of_load.refusal());
        let expected = if cells < 512 && !is_early { denied(word::SHORT_LIST) } else { of_load };
        assert_eq!(reply, expected, "{label}, {cells} cells");
        return None;
    };
    assert!(cells >= 512, "{label}: {cells} cells are enough");
    assert_eq!(of_load, denied(word::CLASH), "{label}");
    let (rows, rest) = list.split_at(rows.into());
    assert!(rest.iter().all(|&cell| cell == NOISE), "{label}: the list past the chain is written");
    assert!(load.is_reason(store, rows), "{label}: {rows:?} doesn't break agreement");
    Some(rows.to_vec())
}

/// The load on lists of several lengths.
fn all_lists(store: &Store, load: &Call, label: &str) -> Option<Vec<u16>> {
    let given = [512, 600].map(|cells| tried(store, load, cells, label));
    [0, 1, 511].iter().for_each(|&cells| drop(tried(store, load, cells, label)));
    assert_eq!(given[0], given[1], "{label}");
    given[0].clone()
}

#[test]
fn loads_of_lists_and_damaged_stores() {
    let (mut clashes, mut tries) = (0, 0);
    let mut load = |store: &Store, call: &Call, label: &str| {
        if call.tried(0).is_some() {
            tries += 1;
            clashes += u64::from(all_lists(store, call, label).is_some());
        }
    };
    for seed in 0..300 {
        for trial in [list(seed, 60), chains(seed, 30)] {
            let mut store = Store::zeros();
            for (at, call) in trial.calls.iter().enumerate() {
                load(&store, call, &format!("list {seed}, call {at}"));
                call.apply(&mut store);
            }
        }
    }
    for seed in 0..2_000 {
        let store = damaged(seed);
        probes(seed, &store).iter().for_each(|call| load(&store, call, &format!("damage {seed}")));
    }
    println!("{tries} loads tried, {clashes} clash");
    assert!(clashes > 300);
}

/// Every clash yields a chain, and nothing else does.
#[test]
fn clashes_at_random() {
    let (mut clashes, mut longest, mut agreeing) = (0, 0, 0);
    // How the newcomer breaks agreement: tied, out of it, into it, not at all.
    let mut ways = [0; 4];
    for seed in 0..20_000 {
        let (store, call) = clash(seed);
        let rows = tried(&store, &call, 512, &format!("clash {seed}")).map_or(0, |rows| rows.len());
        clashes += u64::from(rows > 0);
        longest = longest.max(rows);
        let Some(plan) = call.plan(&store) else {
            continue;
        };
        agreeing += u64::from(rows == 0);
        let newcomer = Pairs::of(&store, &plan.added(), &plan.classes);
        assert!(rows > 0 || !newcomer.is_any(), "clash {seed}: a pair breaks agreement, and the load agrees");
        let found = [newcomer.tied, newcomer.out, newcomer.into, rows > 0 && !newcomer.is_any()];
        ways.iter_mut().zip(found).for_each(|(loads, is)| *loads += u64::from(is));
    }
    println!("{clashes} clash, {agreeing} would agree, the longest chain has {longest} rows, newcomers in pairs {ways:?}");
    assert!(clashes > 4_000 && agreeing > 1_000 && longest > 400 && ways.iter().all(|&loads| loads > 300), "{ways:?}");
}

#[test]
fn clashes_with_a_purpose() {
    for (what, store, call, rows) in cases() {
        let chain = all_lists(&store, &call, what).unwrap_or_else(|| panic!("{what}: no clash"));
        assert!(rows.is_none_or(|rows| rows == chain.len()), "{what}: {chain:?}");
    }
}

/// Papers 9 and 13: the shortest, and of those the one with the higher row at the earliest difference.
#[test]
fn the_shortest_and_newest() {
    for (what, store, call, rows) in choices() {
        assert_eq!(all_lists(&store, &call, what), Some(rows.to_vec()), "{what}");
    }
    let (mut clashes, mut several, mut longer) = (0, 0, 0);
    for seed in 0..20_000 {
        let (store, call) = clash(seed);
        let Some((plan, rows)) = call.plan(&store).zip(tried(&store, &call, 512, &format!("clash {seed}"))) else {
            continue;
        };
        let Some(all) = reasons(&store, &plan.added(), &plan.classes, rows.len() + 2) else {
            continue;
        };
        let least: Vec<&Vec<u16>> = all.iter().filter(|other| other.len() == rows.len()).collect();
        assert_eq!(least.iter().max(), Some(&&rows), "clash {seed}");
        assert!(all.iter().all(|other| rows.len() <= other.len()), "clash {seed}");
        let lowest = chain_by(&store, &plan.added(), &plan.classes, |row, other| row < other);
        assert_eq!(least.iter().copied().min(), lowest.as_ref(), "clash {seed}, the order turned");
        clashes += 1;
        several += u64::from(least.len() > 1);
        longer += u64::from(all.len() > least.len());
    }
    println!("{clashes} clashes, {several} with several chains of the least length, {longer} with longer ones");
    assert!(clashes > 2_000 && several > 700 && longer > 700);
}

/// What breaks is the chain that is listed. A chain of ties alone may be listed from either end.
#[test]
fn a_chain_that_agrees_is_no_reason() {
    let (store, load) = below_and_tied();
    for (rows, is_reason) in [
        (&[3][..], true), (&[0, 1, 2], false), (&[3, 0], true), (&[0, 3], false), (&[2, 3], true), (&[3, 2], false), (&[3, 0, 1], true),
        (&[2, 1, 0], false), (&[3, 3], false), (&[], false), (&[4], false), (&[3, 0, 1, 2], false),
    ] {
        assert_eq!(load.is_reason(&store, rows), is_reason, "{rows:?}");
    }
    let (store, load) = cases().into_iter().find(|case| case.0 == "an unloaded middle").map(|case| (case.1, case.2)).expect("a case");
    for (rows, is_reason) in [([0, 1], true), ([1, 0], true), ([0, 0], false)] {
        assert_eq!(load.is_reason(&store, &rows), is_reason, "{rows:?}");
    }
}

/// All chains between loaded requests that break agreement, by their rows: requests are walked as far as they go.
fn all_reasons(store: &Store, classes: &Classes) -> BTreeSet<Vec<u16>> {
    let rows: Vec<Constraint> = numbered(store, &Added::default());
    let mut found = BTreeSet::new();
    let loaded: BTreeSet<Request> = store.cache_rows().map(|row| (row[0], row[1])).collect();
    for &start in &loaded {
        let mut left = vec![(vec![start], Vec::new())];
        while let Some((requests, walked)) = left.pop() {
            let here = requests[requests.len() - 1];
            if is_reason(store, classes, &rows, start, here, &walked) {
                found.insert(walked.clone());
            }
            for (number, &row) in rows.iter().enumerate() {
                for next in next(row, here).into_iter().filter(|next| !requests.contains(next)) {
                    left.push(([&requests[..], &[next]].concat(), [&walked[..], &[number as u16]].concat()));
                }
            }
        }
    }
    found
}

fn next(row: Constraint, here: Request) -> Option<Request> {
    match row {
        Constraint::Tie([one, other, name]) if (one, name) == here => Some((other, name)),
        Constraint::Tie([one, other, name]) if (other, name) == here => Some((one, name)),
        Constraint::Subtype([loader, low, high]) if (loader, low) == here => Some((loader, high)),
        _ => None,
    }
}

fn is_reason(store: &Store, classes: &Classes, rows: &[Constraint], from: Request, to: Request, walked: &[u16]) -> bool {
    let class = |(loader, name)| store.cached(loader, name);
    let (Some(first), Some(last)) = (class(from), class(to)) else {
        return false;
    };
    let by_ties = walked.iter().all(|&row| matches!(rows[usize::from(row)], Constraint::Tie(_)));
    if by_ties { first != last } else { !classes.below(first, last) }
}

/// The store with what the load adds, whether or not it agrees.
fn loaded(mut store: Store, load: &Call) -> Store {
    if let Some(plan) = load.plan(&store) {
        if let Call::Define { loader, ref file } = *load {
            store.add_class(loader as u16, file);
        }
        plan.added().write(&mut store);
    }
    store
}

/// The checker takes exactly the chains that are found by walking everywhere, on stores with few rows.
#[test]
fn the_checker_is_the_definition() {
    let (mut taken, mut refused, mut disagree) = (0, 0, 0);
    for seed in 0..20_000 {
        let (store, load) = clash(seed);
        let store = loaded(store, &load);
        let few = store.constraint_count();
        let Some(classes) = unbroken(&store).filter(|_| (1..=7).contains(&few)) else {
            continue;
        };
        let reasons = all_reasons(&store, &classes);
        let agreed = agrees(&store, &Added::default(), &classes);
        assert_eq!(reasons.is_empty(), agreed, "store {seed}");
        disagree += u64::from(!agreed);
        let newest = reasons.iter().min_by_key(|rows| (rows.len(), Reverse(rows.to_vec())));
        assert_eq!(chain(&store, &Added::default(), &classes).as_ref(), newest, "store {seed}: the shortest and newest");
        for list in lists(few as u16, 4) {
            let is_reason = breaks(&store, &Added::default(), &classes, &list);
            assert_eq!(is_reason, reasons.contains(&list), "store {seed}: {list:?}");
            *(if is_reason { &mut taken } else { &mut refused }) += 1;
        }
    }
    println!("{disagree} stores disagree; {taken} lists taken, {refused} refused");
    assert!(taken > 200 && refused > 100_000 && disagree > 150);
}

/// All lists of numbers up to one past the rows, of this length at most.
fn lists(rows: u16, most: usize) -> Vec<Vec<u16>> {
    let mut all: Vec<Vec<u16>> = vec![vec![]];
    let mut last = all.clone();
    for _ in 0..most {
        last = last.iter().flat_map(|list| (0..=rows).map(move |row| [&list[..], &[row]].concat())).collect();
        all.extend(last.clone());
    }
    all
}

/// Word 16 comes straight after 3: before 2, 15, 6, 4, 5, 10 and 9, and before 13.
#[test]
fn the_order_of_words() {
    let mut trial = Trial::ready([1]);
    trial.define(1, &Draft::new(10));
    let files = [vec![], Draft::new(10).file(), Draft::new(12).under(40).file()];
    for (file, after) in files.into_iter().zip([word::FILE, word::TAKEN, word::WANTED]) {
        for (loader, cells, expected) in [(16, 0, word::UNKNOWN), (1, 511, word::SHORT_LIST), (1, 512, after)] {
            let call = Call::TryDefine { loader, file: file.clone(), cells };
            assert_eq!(call.apply(&mut trial.store).refusal().map(Refusal::number), Some(expected), "{after}, {cells} cells");
        }
    }
    for (loader, name, class, cells, expected) in [
        (16, 10, 1, 0, word::UNKNOWN), (1, 1, 1, 0, word::UNKNOWN), (1, 10, 2, 0, word::UNKNOWN),
        (2, 11, 1, 511, word::SHORT_LIST), (2, 11, 1, 512, word::MISNAMED), (1, 10, 1, 511, word::SHORT_LIST),
    ] {
        let call = Call::TryRecord { loader, name, class, cells };
        assert_eq!(call.apply(&mut trial.store), denied(expected), "{call:?}");
    }
    let same = Call::TryRecord { loader: 1, name: 10, class: 1, cells: 512 };
    assert_eq!(same.apply(&mut trial.store), Reply::Accepted);
    let mut cut = trial.store.clone();
    cut.counts.pop();
    assert_eq!(same.apply(&mut cut), denied(word::BROKEN));
}

/// A define numbers its notes, then its ties; a step numbers the tie that it posts behind them. Refused loads number nothing.
#[test]
fn numbers_as_posted() {
    let poster = |name: u16| Draft::new(name).method(20, 12, 13, &Code::new().object(14).getfield(15, 30, INT).pop().end(13));
    let mut trial = Trial::ready([1, 2]);
    let numbers = |store: &Store| (store.tie_numbers().to_vec(), store.subtype_numbers().to_vec());
    trial.define(1, &poster(10));
    assert_eq!(numbers(&trial.store), (vec![], vec![0]));
    trial.record(2, 10, 1);
    trial.define(2, &poster(11).under(10));
    assert_eq!(numbers(&trial.store), (vec![2, 3], vec![0, 1]), "notes, then ties");
    trial.define(2, &poster(11).under(10));
    assert_eq!(numbers(&trial.store), (vec![2, 3], vec![0, 1]), "taken");
    trial.define(1, &Draft::new(16).field(31, 12).field(32, 17));
    trial.record(2, 16, 3);
    let reads = |field: u16, of: u16| Code::new().object(16).getfield(16, field, of).pop();
    let code = Code::of([reads(31, 12).bytes, reads(32, 17).bytes].concat());
    trial.define(2, &Draft::new(18).main(20, &code.end(INT)));
    trial.start(0, 2, 18, 20, 0);
    trial.run(20);
    assert_eq!(numbers(&trial.store), (vec![2, 3, 4], vec![0, 1]), "the first field's tie is there already");
    trial.call(Call::Boot);
    assert_eq!(trial.store.counts[count::TIE_NUMBERS..][..3], [2, 3, 4], "boot writes none");
}

#[test]
fn wrong_numbers_are_broken() {
    let is_right = |store: &Store| {
        let rises = |numbers: &[u16]| numbers.windows(2).all(|two| two[0] < two[1]);
        let mut all = [store.tie_numbers(), store.subtype_numbers()].concat();
        all.sort_unstable();
        rises(store.tie_numbers()) && rises(store.subtype_numbers()) && all.into_iter().eq(0..store.constraint_count() as u16)
    };
    let mut seen = [[0; 2]; WRONG.len()];
    for seed in 0..4_000 {
        let mut rng = Rng::new(seed);
        let mut store = closed(&clash(seed).0);
        renumber(&mut rng, &mut store);
        assert!(!broken(&store), "store {seed} in another order");
        if store.constraint_count() == 0 {
            continue;
        }
        let way = rng.below(WRONG.len());
        WRONG[way].1(&mut rng, &mut store);
        store.regroup();
        assert_eq!(broken(&store), !is_right(&store), "store {seed}, {}", WRONG[way].0);
        seen[way][usize::from(broken(&store))] += 1;
    }
    println!("{seen:?}");
    assert!(seen.iter().all(|seen| seen[1] > 100), "{seen:?}");
    let mut store = large::grid();
    assert_eq!(store.constraint_count(), 512);
    store.counts[count::TIES] = 0;
    store.counts[count::SUBTYPES] = 0;
    store.counts[count::TIE_NUMBERS..count::LOADS].fill(u16::MAX);
    assert!(!broken(&store), "the numbers of rows past the counts say nothing");
}
