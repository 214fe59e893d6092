//! The groups of ties, made, kept or judged wrongly.

use reference::agree::{agrees, Added};
use reference::answer::{denied, word};
use reference::gen::groups::{has_wrong_groups, is_wrong, regrouped, Wrong};
use reference::gen::Call;
use reference::step::take_step;
use reference::store::count;
use reference::{broken, Reply, Store};

use crate::faults::stepping;
use crate::made::write;
use crate::taken::then;
use crate::tried::Listing;

/// How the groups of new ties are made first, then what keeps them, what agreement is read from, and last which groups are broken.
pub const FAULTS: [Listing; 26] = [
    ("the-higher-number-is-kept", |call, store, list| {
        posting(call, store, list, |store, row| match ends(store, row) {
            [Some(one), Some(other)] => ([Some(one.min(other)), None], one.max(other)),
            [one, other] => ([None; 2], one.or(other).unwrap_or(number(store, row))),
        })
    }),
    ("the-new-ties-number-is-taken", |call, store, list| posting(call, store, list, |store, row| (ends(store, row), number(store, row)))),
    ("a-rows-place-for-its-number", |call, store, list| posting(call, store, list, |store, row| joined(ends(store, row), row as u16))),
    ("a-constraint-too-many-is-counted", |call, store, list| posting(call, store, list, |store, row| joined(ends(store, row), number(store, row) + 1))),
    ("the-first-end-alone-is-united", |call, store, list| {
        posting(call, store, list, |store, row| joined([ends(store, row)[0], None], number(store, row)))
    }),
    ("the-second-end-alone-is-united", |call, store, list| {
        posting(call, store, list, |store, row| joined([None, ends(store, row)[1]], number(store, row)))
    }),
    ("the-other-ties-of-a-group-stay", |call, store, list| {
        posting(call, store, list, |store, row| ([None; 2], joined(ends(store, row), number(store, row)).1))
    }),
    ("each-tie-has-its-own-number", |call, store, list| posting(call, store, list, |store, row| ([None; 2], number(store, row)))),
    ("names-dont-count", |call, store, list| {
        posting(call, store, list, |store, row| {
            let [one, other, _] = tie(store, row);
            joined([one, other].map(|loader| first(store, row, |tie| tie[..2].contains(&loader))), number(store, row))
        })
    }),
    ("loaders-dont-count", |call, store, list| {
        posting(call, store, list, |store, row| {
            let name = tie(store, row)[2];
            joined([first(store, row, |tie| tie[2] == name), None], number(store, row))
        })
    }),
    ("the-order-of-a-ties-loaders-counts", |call, store, list| {
        posting(call, store, list, |store, row| {
            let [one, other, name] = tie(store, row);
            let of_ends = [first(store, row, |tie| tie[1..] == [one, name]), first(store, row, |tie| (tie[0], tie[2]) == (other, name))];
            joined(of_ends, number(store, row))
        })
    }),
    ("a-step-writes-its-tie-and-no-group", |call, store, _| {
        stepping(call, store, |store, classes| {
            let before = store.counts[count::GROUPS..].to_vec();
            let answer = take_step(store, classes);
            store.counts[count::GROUPS..].copy_from_slice(&before);
            answer
        })
    }),
    ("a-load-writes-its-ties-and-no-group", |call, store, list| {
        then(call, store, list, |before, store, call, _| {
            if call.tried(0).is_some() {
                store.counts[count::GROUPS..].copy_from_slice(&before.counts[count::GROUPS..]);
            }
        })
    }),
    ("groups-arent-made-anew-after-a-taking-back", |call, store, list| {
        then(call, store, list, |before, store, call, _| {
            if *call == Call::TakeBack {
                store.counts[count::GROUPS..].copy_from_slice(&before.counts[count::GROUPS..]);
            }
        })
    }),
    ("a-taking-back-clears-the-groups-behind", |call, store, list| {
        then(call, store, list, |before, store, call, _| {
            if *call == Call::TakeBack {
                let [now, then] = [store.count(count::TIES), before.count(count::TIES)];
                store.counts[count::GROUPS..][now..then].fill(0);
            }
        })
    }),
    ("boot-clears-the-groups", |call, store, list| {
        then(call, store, list, |_, store, call, reply| {
            if (call, reply) == (&Call::Boot, Reply::Accepted) {
                store.counts[count::GROUPS..].fill(0);
            }
        })
    }),
    ("a-refused-define-joins-groups", |call, store, list| {
        then(call, store, list, |before, store, call, reply| {
            if let (Call::Define { .. }, Some(plan)) = (call, call.plan(before).filter(|_| reply == denied(word::CLASH))) {
                let mut posted = before.clone();
                plan.added().write(&mut posted);
                let ties = before.count(count::TIES);
                store.counts[count::GROUPS..][..ties].copy_from_slice(&posted.groups()[..ties]);
            }
        })
    }),
    ("a-loads-own-ties-arent-in-its-groups", |call, store, _| {
        let plan = call.plan(store).filter(|_| call.load().is_none() && call.apply(&mut store.clone()) == denied(word::CLASH))?;
        let without = Added { entry: Some(plan.entry), ties: &[], subtypes: &plan.subtypes };
        if !agrees(store, &without, &plan.classes) {
            return None;
        }
        write(call, store).map(|(reply, _)| reply)
    }),
    ("groups-are-never-broken", |call, store, list| judged(call, store, list, |_| true)),
    ("groups-are-compared-for-the-first-tie-alone", |call, store, list| judged(call, store, list, |store| is_wrong(store, Wrong::ButFirst))),
    ("the-right-partition-under-another-number-is-right", |call, store, list| judged(call, store, list, |store| is_wrong(store, Wrong::Numbers))),
    ("any-number-of-the-groups-own-ties-is-right", |call, store, list| judged(call, store, list, |store| is_wrong(store, Wrong::OwnNumbers))),
    ("one-number-for-two-groups-is-right", |call, store, list| judged(call, store, list, |store| is_wrong(store, Wrong::Joined))),
    ("a-group-may-have-two-numbers", |call, store, list| judged(call, store, list, |store| is_wrong(store, Wrong::Split))),
    ("ties-that-are-gone-count-for-groups", |call, store, list| judged(call, store, list, |store| is_wrong(store, Wrong::Gone))),
    ("the-cells-behind-the-groups-are-looked-at", |call, store, _| {
        let is_behind = *call != Call::Boot && !broken(store) && store.counts[count::GROUPS + store.count(count::TIES)..].iter().any(|&cell| cell > 600);
        is_behind.then_some(denied(word::BROKEN))
    }),
];

/// A tie's row.
fn tie(store: &Store, row: usize) -> [u16; 3] {
    store.tie_rows().nth(row).expect("a row of it")
}

fn number(store: &Store, row: usize) -> u16 {
    store.tie_numbers()[row]
}

/// The group beside the first of the ties before one that is such.
fn first(store: &Store, row: usize, is_such: impl Fn([u16; 3]) -> bool) -> Option<u16> {
    store.tie_rows().take(row).position(is_such).map(|found| store.groups()[found])
}

/// The groups of a tie's two requests, by the ties before it.
fn ends(store: &Store, row: usize) -> [Option<u16>; 2] {
    let [one, other, name] = tie(store, row);
    [one, other].map(|loader| first(store, row, |tie| tie[..2].contains(&loader) && tie[2] == name))
}

/// The groups that get a number, and the number, which is a new tie's own group.
type Joining = ([Option<u16>; 2], u16);

/// These groups and a new tie of this number are joined, rightly.
fn joined(groups: [Option<u16>; 2], number: u16) -> Joining {
    (groups, groups.into_iter().flatten().fold(number, u16::min))
}

/// Groups the ties from a first on in another way, with the groups before them as they were.
fn group_again(before: &[u16], store: &mut Store, first: usize, joining: fn(&Store, usize) -> Joining) {
    if store.count(count::TIES) <= first {
        return;
    }
    store.counts[count::GROUPS..].copy_from_slice(before);
    for row in first..store.count(count::TIES) {
        let (groups, to) = joining(store, row);
        let cells = &mut store.counts[count::GROUPS..][..=row];
        cells[..row].iter_mut().filter(|cell| groups.contains(&Some(**cell))).for_each(|cell| *cell = to);
        cells[row] = to;
    }
}

/// Loads and steps whose new ties are grouped in another way, by the store with the ties before one and by its row.
fn posting(call: &Call, store: &mut Store, list: &mut [u16], joining: fn(&Store, usize) -> Joining) -> Option<Reply> {
    let stepped = stepping(call, store, |store, classes| {
        let (before, first) = (store.counts[count::GROUPS..].to_vec(), store.count(count::TIES));
        let answer = take_step(store, classes);
        group_again(&before, store, first, joining);
        answer
    });
    stepped.or_else(|| {
        then(call, store, list, |before, store, call, _| {
            if call.tried(0).is_some() {
                group_again(&before.counts[count::GROUPS..], store, before.count(count::TIES), joining);
            }
        })
    })
}

/// A call on a store that its groups alone break, and that is taken for whole.
fn judged(call: &Call, store: &mut Store, list: &mut [u16], fits: fn(&Store) -> bool) -> Option<Reply> {
    (*call != Call::Boot && has_wrong_groups(store) && fits(store)).then(|| call.apply_listing(&mut regrouped(store), list))
}
