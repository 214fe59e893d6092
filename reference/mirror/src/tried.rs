//! Tries of loads, and the numbers of constraints, done wrongly.

use reference::agree::{entries, numbered, Constraint};
use reference::answer::{denied, word};
use reference::breaks::{self, Request};
use reference::classes::Classes;
use reference::gen::numbers::{has_numbers, has_wrong_numbers, renumber};
use reference::gen::rng::Rng;
use reference::gen::Call;
use reference::load::Plan;
use reference::step::take_step;
use reference::store::{count, MOST_ROWS};
use reference::{Refusal, Reply, Store};

use crate::faults::stepping;

/// The name of the fault and the calls that have it, with the list that a try is lent.
pub type Listing = (&'static str, fn(&Call, &mut Store, &mut [u16]) -> Option<Reply>);

/// Chains that are no reasons first, then how they are listed and told, when word 16 is given, and last the numbers of rows.
pub const FAULTS: [Listing; 23] = [
    ("a-subtype-is-walked-downward", |call, store, list| replaced(call, store, list, downward, |_, classes, a, b| !classes.below(a, b))),
    ("a-chain-between-requests-that-agree", |call, store, list| {
        replaced(call, store, list, breaks::ways, |chain, _, a, b| chain.iter().all(is_tie) && a == b)
    }),
    ("a-mixed-chain-whose-classes-agree", |call, store, list| {
        replaced(call, store, list, breaks::ways, |chain, classes, a, b| !chain.iter().all(is_tie) && classes.below(a, b))
    }),
    ("a-request-comes-twice", |call, store, list| {
        relisted(call, store, list, |store, plan, chain| {
            let first = numbered(store, &plan.added())[usize::from(chain[0])];
            if is_tie(&first) && chain.len() + 2 <= MOST_ROWS {
                chain.splice(0..0, [chain[0]; 2]);
            }
        })
    }),
    ("a-chain-without-its-last-row", |call, store, list| {
        relisted(call, store, list, |_, _, chain| {
            if chain.len() > 1 {
                chain.pop();
            }
        })
    }),
    ("the-chain-is-listed-downward", |call, store, list| relisted(call, store, list, |_, _, chain| chain.reverse())),
    ("rows-are-listed-by-table", |call, store, list| {
        relisted(call, store, list, |store, plan, chain| {
            let kinds: Vec<bool> = numbered(store, &plan.added()).iter().map(is_tie).collect();
            let place = |row: u16| kinds[..usize::from(row)].iter().filter(|&&kind| kind == kinds[usize::from(row)]).count() as u16;
            chain.iter_mut().for_each(|row| *row = place(*row));
        })
    }),
    ("own-rows-come-before-stored-ones", |call, store, list| {
        relisted(call, store, list, |store, plan, chain| {
            let (stored, own) = (store.constraint_count() as u16, plan.added().posted().count() as u16);
            chain.iter_mut().for_each(|row| *row = if *row < stored { *row + own } else { *row - stored });
        })
    }),
    ("own-ties-come-before-own-notes", |call, store, list| {
        relisted(call, store, list, |store, plan, chain| {
            let (stored, notes, ties) = (store.constraint_count() as u16, plan.subtypes.len() as u16, plan.ties.len() as u16);
            for row in chain.iter_mut().filter(|row| **row >= stored) {
                *row = if *row < stored + notes { *row + ties } else { *row - notes };
            }
        })
    }),
    ("a-clash-yields-no-chain", |call, store, list| match call.apply_listing(&mut store.clone(), &mut list.to_vec()) {
        Reply::Clashed(_) => Some(Reply::Clashed(0)),
        _ => None,
    }),
    ("no-chain-without-the-newcomer", |call, store, list| {
        unlisted(call, store, list, |_, plan, requests| !requests.contains(&(plan.entry[0], plan.entry[1])))
    }),
    ("no-chain-through-an-unloaded-request", |call, store, list| {
        unlisted(call, store, list, |store, plan, requests| {
            let is_loaded = |at: &Request| entries(store, &plan.added()).any(|row| (row[0], row[1]) == *at);
            !requests.iter().all(is_loaded)
        })
    }),
    ("a-list-is-written-without-a-clash", |call, store, list| {
        let reply = call.load().map(|_| call.apply_listing(store, list))?;
        if let (Reply::Accepted | Reply::Defined(_), Some(first)) = (reply, list.first_mut()) {
            *first = 0;
        }
        Some(reply)
    }),
    ("the-list-is-written-past-the-chain", |call, store, list| {
        let reply = call.apply_listing(store, list);
        if let Reply::Clashed(rows) = reply {
            list.iter_mut().skip(rows.into()).for_each(|cell| *cell = 0);
        }
        Some(reply)
    }),
    ("a-list-one-short-is-enough", |call, store, list| {
        let mut long = vec![0; MOST_ROWS];
        let reply = call.load()?.tried(MOST_ROWS)?.apply_listing(store, &mut long);
        let rows = if let Reply::Clashed(rows) = reply { rows.into() } else { 0 };
        (list.len() == MOST_ROWS - 1 && rows < MOST_ROWS).then(|| {
            list[..rows].copy_from_slice(&long[..rows]);
            reply
        })
    }),
    ("a-short-list-is-refused-last", |call, store, list| {
        let refusal = call.load()?.apply(&mut store.clone()).refusal().filter(|&refusal| refusal != Refusal::Word(word::CLASH));
        (list.len() < MOST_ROWS).then_some(Reply::Denied(refusal?))
    }),
    ("a-short-list-is-refused-first", |call, store, list| {
        let is_early = call.load()?.apply(&mut store.clone()) == denied(word::UNKNOWN);
        (is_early && list.len() < MOST_ROWS).then_some(denied(word::SHORT_LIST))
    }),
    ("a-try-loads", |call, store, list| {
        let reply = call.load().map(|_| call.apply_listing(store, list))?;
        call.load()?.apply(store);
        Some(reply)
    }),
    ("wrong-numbers-are-accepted", |call, store, list| {
        has_wrong_numbers(store).then(|| {
            let mut mended = store.clone();
            renumber(&mut Rng::new(0), &mut mended);
            call.apply_listing(&mut mended, list)
        })
    }),
    ("a-step-numbers-no-ties", |call, store, _| {
        stepping(call, store, |store, classes| {
            let before = store.counts[count::TIE_NUMBERS..count::LOADS].to_vec();
            let answer = take_step(store, classes);
            store.counts[count::TIE_NUMBERS..count::LOADS].copy_from_slice(&before);
            answer
        })
    }),
    ("boot-clears-the-numbers", |call, store, _| {
        let is_booted = *call == Call::Boot && call.apply(store) == Reply::Accepted;
        is_booted.then(|| {
            store.counts[count::TIE_NUMBERS..count::LOADS].fill(0);
            Reply::Accepted
        })
    }),
    ("constraints-are-numbered-by-table", |call, store, _| {
        defined(call, store, |_, place, _| place)
    }),
    ("ties-are-numbered-before-notes", |call, store, _| {
        let [ties, notes] = new_rows(call, store)?;
        defined(call, store, |number, _, first| if first == count::TIE_NUMBERS { number - notes } else { number + ties })
    }),
];

pub fn is_tie(constraint: &Constraint) -> bool {
    matches!(constraint, Constraint::Tie(_))
}

/// The ways of a row, with a subtype constraint walked from its higher name to its lower.
fn downward(constraint: Constraint) -> Vec<(Request, Request)> {
    let ways = breaks::ways(constraint);
    if is_tie(&constraint) { ways } else { ways.into_iter().map(|(from, to)| (to, from)).collect() }
}

/// A try whose chain is changed before it is listed.
pub fn relisted(call: &Call, store: &mut Store, list: &mut [u16], change: impl Fn(&Store, &Plan, &mut Vec<u16>)) -> Option<Reply> {
    call.load()?;
    let mut own = list.to_vec();
    let Reply::Clashed(rows) = call.apply_listing(store, &mut own) else {
        return None;
    };
    let mut chain = own[..rows.into()].to_vec();
    change(store, &call.plan(store)?, &mut chain);
    list[..chain.len()].copy_from_slice(&chain);
    Some(Reply::Clashed(chain.len() as u16))
}

/// A try that finds no chain for a clash, where the requests along the right one are such.
fn unlisted(call: &Call, store: &mut Store, list: &[u16], is_missed: fn(&Store, &Plan, &[Request]) -> bool) -> Option<Reply> {
    call.load()?;
    let mut own = list.to_vec();
    let Reply::Clashed(rows) = call.apply_listing(store, &mut own) else {
        return None;
    };
    let plan = call.plan(store)?;
    let constraints = numbered(store, &plan.added());
    let chain: Vec<Constraint> = own[..rows.into()].iter().map(|&row| constraints[usize::from(row)]).collect();
    let requests = breaks::ways(chain[0]).into_iter().find_map(|(start, _)| breaks::walked(start, &chain))?;
    is_missed(store, &plan, &requests).then_some(Reply::Clashed(0))
}

/// A try that lists another chain, if there is one: the first between loaded requests, by these ways, that is wanted for its rows and the
/// classes of its ends.
fn replaced(
    call: &Call,
    store: &mut Store,
    list: &mut [u16],
    ways: fn(Constraint) -> Vec<(Request, Request)>,
    wanted: fn(&[Constraint], &Classes, u16, u16) -> bool,
) -> Option<Reply> {
    relisted(call, store, list, |store, plan, chain| {
        let added = plan.added();
        let constraints = numbered(store, &added);
        let class = |request: Request| entries(store, &added).find(|row| (row[0], row[1]) == request).map(|row| row[2]);
        for [loader, name, _] in entries(store, &added) {
            for (rows, end) in walks((loader, name), &constraints, ways) {
                let walked: Vec<Constraint> = rows.iter().map(|&row| constraints[usize::from(row)]).collect();
                let (Some(first), Some(last)) = (class((loader, name)), class(end)) else {
                    continue;
                };
                if wanted(&walked, &plan.classes, first, last) {
                    *chain = rows;
                    return;
                }
            }
        }
    })
}

/// Chains from a request, one to each that it leads to, by their rows.
fn walks(from: Request, constraints: &[Constraint], ways: fn(Constraint) -> Vec<(Request, Request)>) -> Vec<(Vec<u16>, Request)> {
    let mut found = vec![(Vec::new(), from)];
    let mut at = 0;
    while at < found.len() && at < 64 {
        let (rows, here) = found[at].clone();
        at += 1;
        for (row, &constraint) in (0..).zip(constraints) {
            for (_, to) in ways(constraint).into_iter().filter(|&(from, _)| from == here) {
                if found.iter().all(|&(_, there)| there != to) {
                    found.push(([&rows[..], &[row]].concat(), to));
                }
            }
        }
    }
    found.split_off(1)
}

/// How many ties and how many notes a define adds.
fn new_rows(call: &Call, store: &Store) -> Option<[u16; 2]> {
    let plan = call.plan(store)?;
    Some([plan.ties.len() as u16, plan.subtypes.len() as u16])
}

/// A define whose rows get another number, by the right one, the row's place in its table, and the first cell of the table's numbers.
fn defined(call: &Call, store: &mut Store, number: impl Fn(u16, u16, usize) -> u16) -> Option<Reply> {
    if !has_numbers(store) || !matches!(call, Call::Define { .. }) {
        return None;
    }
    let before = [store.count(count::TIES), store.count(count::SUBTYPES)];
    let reply @ Reply::Defined(_) = call.apply(store) else {
        return None;
    };
    let after = [store.count(count::TIES), store.count(count::SUBTYPES)];
    for (kind, first) in [count::TIE_NUMBERS, count::SUBTYPE_NUMBERS].into_iter().enumerate() {
        for place in before[kind]..after[kind] {
            store.counts[first + place] = number(store.counts[first + place], place as u16, first);
        }
    }
    Some(reply)
}
