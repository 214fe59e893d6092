//! The groups beside the ties: what they are after every call, what loads, steps and takings back make of them, and which are broken.

use std::collections::BTreeSet;

use reference::broken;
use reference::gen::chains::chains;
use reference::gen::clashes::clash;
use reference::gen::damage::damaged;
use reference::gen::groups::{cases, has_wrong_groups, is_wrong, plain_groups, regrouped, some_ties, WRONG, WRONGS};
use reference::gen::joins::{a_join, a_line, booted_again, by_steps, five_names, joined, joins, refused, three_at_once};
use reference::gen::limits::LIMITS;
use reference::gen::list::busy_list;
use reference::gen::rng::Rng;
use reference::gen::taken::taking;
use reference::gen::traces::closed;
use reference::gen::{large, Call, Trial};
use reference::store::{count, Store, LENGTHS};

/// A loader and a name.
type Request = (u16, u16);

/// The requests that a chain of ties joins to one, itself among them.
fn tied(store: &Store, from: Request) -> BTreeSet<Request> {
    let (mut found, mut left) = (BTreeSet::from([from]), vec![from]);
    while let Some((loader, name)) = left.pop() {
        for row in store.tie_rows().filter(|row| row[2] == name && row[..2].contains(&loader)) {
            let more = [(row[0], name), (row[1], name)].into_iter().filter(|&other| found.insert(other));
            left.extend(more.collect::<Vec<_>>());
        }
    }
    found
}

/// Paper 11: "the lowest row, as Paper 3 numbers them, among its group's ties. Two requests share a number if and only if a chain of ties joins them."
fn is_right(store: &Store, label: &str) {
    assert_eq!(store.groups(), plain_groups(store), "{label}");
    let named: BTreeSet<Request> = store.tie_rows().flat_map(|row| [(row[0], row[2]), (row[1], row[2])]).collect();
    for &one in &named {
        let group = store.group_of(one.0, one.1).expect("a tie names it");
        let tied = tied(store, one);
        let own = store.tie_rows().zip(store.tie_numbers()).filter(|(row, _)| tied.contains(&(row[0], row[2]))).map(|(_, &number)| number);
        assert_eq!(own.min(), Some(group), "{label}: {one:?}");
        for &other in &named {
            assert_eq!(store.group_of(other.0, other.1) == Some(group), tied.contains(&other), "{label}: {one:?} and {other:?}");
        }
    }
    assert_eq!(store.group_of(0, 0), None, "{label}: no tie names it");
}

/// Plays a list, and looks at the groups where ties have come or gone.
fn watch(trial: &Trial, label: &str) {
    let mut store = Store::zeros();
    for (at, call) in trial.calls.iter().enumerate() {
        let before = store.groups().to_vec();
        call.apply(&mut store);
        if store.groups() != before {
            is_right(&store, &format!("{label}, call {at}"));
        }
    }
}

#[test]
fn groups_after_every_call() {
    for seed in 0..120 {
        watch(&joins(seed, 40), &format!("joins {seed}"));
        watch(&chains(seed, 30), &format!("chains {seed}"));
        watch(&taking(seed, 40), &format!("taking {seed}"));
        watch(&busy_list(seed, 80), &format!("list {seed}"));
    }
    joined().iter().for_each(|trial| watch(trial, "a case"));
    for (name, limit) in LIMITS.iter().filter(|(name, _)| name.contains("tie")) {
        is_right(&limit(&mut Rng::new(1)).store, name);
    }
    for (at, store) in [large::grid(), large::usual(), large::chain(256, 256), large::full(large::Repeated::NullPop)].iter().enumerate() {
        is_right(store, &format!("large store {at}"));
    }
}

/// The groups of a list's store wherever they changed.
fn history(trial: &Trial) -> Vec<Vec<u16>> {
    let mut store = Store::zeros();
    let mut all = Vec::new();
    for call in &trial.calls {
        let before = store.groups().to_vec();
        call.apply(&mut store);
        if store.groups() != before {
            all.push(store.groups().to_vec());
        }
    }
    all
}

#[test]
fn lists_about_groups() {
    let join = [vec![1], vec![1, 3], vec![1, 1, 1], vec![1, 3], vec![1, 1, 1], vec![1, 3], vec![1], vec![]];
    assert_eq!(history(&a_join()), join, "rows 0 and 2 are subtype constraints");
    assert_eq!(history(&three_at_once()), [vec![0], vec![0, 1], vec![0, 1, 2], vec![0; 5], vec![0, 1, 2]]);
    let three: Vec<[u16; 3]> = three_at_once().store.tie_rows().collect();
    assert_eq!(three.len(), 3, "both ties of the define are taken back");
    let line = |backward: bool| history(&a_line(backward))[4..7].to_vec();
    assert_eq!(line(false), [vec![0, 0, 2, 3, 0], vec![0, 0, 0, 3, 0, 0], vec![0; 7]]);
    assert_eq!(line(true), [vec![0, 1, 2, 2, 2], vec![0, 1, 1, 1, 1, 1], vec![0; 7]]);
    let all = history(&booted_again());
    assert_eq!(all[all.len() - 2..], [vec![0], vec![0, 1]], "groups afresh");
}

/// The ties of a store with their groups.
fn grouped(store: &Store) -> Vec<([u16; 3], u16)> {
    store.tie_rows().zip(store.groups().iter().copied()).collect()
}

#[test]
fn several_ties_of_one_call() {
    let all = history(&five_names());
    // (1,3), (2,4) on 14, (2,3) on 12; then the load's ties of 1 and 2 on 11, 12, 13, 14, 15.
    assert_eq!(all[..3], [vec![0], vec![0, 1], vec![0, 1, 0]]);
    assert_eq!(all[3], [0, 1, 0, 3, 0, 5, 1, 7]);
    assert_eq!(all[4], [0, 1, 0], "parted again");
    let trial = by_steps();
    let of = |name: u16| grouped(&trial.store).into_iter().filter(|(row, _)| row[2] == name).map(|(_, group)| group).collect::<BTreeSet<u16>>();
    assert_eq!(of(12), BTreeSet::from([1]), "all are joined by steps, under the row behind the subtype constraint");
    assert_eq!(of(13).len(), 1);
    assert!(trial.replies.iter().filter(|reply| reply.refusal().is_some()).count() <= 3, "{:?}", trial.replies);
}

/// A join that is refused leaves the groups as they were.
#[test]
fn refused_joins() {
    let trial = refused();
    let mut store = Store::zeros();
    let mut clashes = 0;
    for (call, reply) in trial.calls.iter().zip(&trial.replies) {
        let before = store.clone();
        call.apply(&mut store);
        if reply.refusal().map(|refusal| refusal.number()) == Some(9) {
            clashes += 1;
            assert!(store == before);
        }
    }
    assert!(clashes >= 3, "{clashes}");
}

/// Groups by hand. What stands behind the ties says nothing.
#[test]
fn broken_groups() {
    let cases = cases();
    assert!(cases.iter().filter(|case| case.2).count() > 15 && cases.iter().filter(|case| !case.2).count() >= 6);
    for (what, store, is_broken) in cases {
        assert_eq!(broken(&store), is_broken, "{what}: {:?}", store.groups());
        assert_eq!(has_wrong_groups(&store), is_broken, "{what}: nothing else is wrong");
        assert!(!broken(&regrouped(&store)), "{what}: made anew");
        let mut behind = store.clone();
        let ties = behind.count(count::TIES);
        behind.counts[count::GROUPS + ties..].fill(u16::MAX);
        assert_eq!(broken(&behind), is_broken, "{what}: cells behind the ties");
        behind.counts[count::TIES] = 0;
        behind.counts[count::SUBTYPES] = 0;
        assert!(!broken(&behind), "{what}: no ties");
    }
}

/// Each way of wrong groups, on stores with chains: broken exactly if the cells aren't those of the plainest reading.
#[test]
fn groups_in_each_wrong_way() {
    let mut seen = [[0; 2]; WRONG.len()];
    for seed in 0..4_000 {
        let mut rng = Rng::new(seed);
        let mut store = closed(&clash(seed).0);
        if store.constraint_count() > 60 {
            continue;
        }
        some_ties(&mut rng, &mut store);
        let way = rng.below(WRONG.len());
        WRONG[way].1(&mut rng, &mut store);
        assert_eq!(broken(&store), store.groups() != plain_groups(&store), "store {seed}, {}", WRONG[way].0);
        seen[way][usize::from(broken(&store))] += 1;
    }
    println!("{seen:?}");
    assert!(seen.iter().all(|seen| seen[1] > 20), "{seen:?}");
}

#[test]
fn damaged_groups() {
    let mut wrong = [0; WRONGS.len()];
    for seed in 0..10_000 {
        let store = damaged(seed);
        if store.lengths() == LENGTHS && !broken(&store) {
            assert_eq!(store.groups(), plain_groups(&store), "damage {seed}");
        }
        if has_wrong_groups(&store) {
            assert_ne!(store.groups(), plain_groups(&store), "damage {seed}");
            wrong.iter_mut().zip(WRONGS).for_each(|(times, reason)| *times += usize::from(is_wrong(&store, reason)));
        }
    }
    println!("{wrong:?} times {WRONGS:?}");
    assert!(wrong.iter().all(|&times| times > 20), "{wrong:?}");
}

/// A taking back on tables that nobody left parts what the ties that go had joined; the cells behind the ties stay.
#[test]
fn a_taking_back_parts() {
    let mut store = cases()[0].1.clone();
    let [classes, kept, entries, ..] = store.level();
    store.set_levels(&[[classes, kept, entries, 3, 1]]);
    assert!(!broken(&store));
    assert_eq!(Call::TakeBack.apply(&mut store).refusal(), None);
    assert_eq!(store.groups(), [0, 2, 3]);
    assert_eq!(store.counts[count::GROUPS..][..8], [0, 2, 3, 0, 6, 7, 0, 0]);
}
