//! Tries that list a chain which breaks agreement, but not the shortest and newest.

use std::cmp::Reverse;

use reference::agree::{entries, numbered, Constraint};
use reference::breaks::{walked, ways, Request};
use reference::gen::Call;
use reference::load::Plan;
use reference::reason::chain_by;
use reference::store::MOST_ROWS;
use reference::walks::reasons;
use reference::{Reply, Store};

use crate::tried::{is_tie, relisted};

/// The name of the fault, the choice of gen/clashes.rs that is there to show it, and the tries that have it.
pub type Choosing = (&'static str, &'static str, Chosen);

pub type Chosen = fn(&Call, &mut Store, &mut [u16]) -> Option<Reply>;

/// Lengths first, then the order between chains of one length, and last which chains and readings are looked at.
pub const FAULTS: [Choosing; 14] = [
    ("a-longer-chain", "two ties before three of newer rows", |call, store, list| {
        relisted(call, store, list, |store, plan, chain| {
            let longer = rivals(store, plan, chain.len() + 1).into_iter().find(|rival| rival.rows.len() > chain.len());
            replace(chain, longer);
        })
    }),
    ("the-newer-row-before-the-length", "one subtype constraint before two ties", |call, store, list| {
        relisted(call, store, list, |store, plan, chain| {
            // Of two chains that begin alike the shorter.
            let ended = |rival: &Rival| [&rival.rows[..], &[u16::MAX]].concat();
            replace(chain, rivals(store, plan, chain.len() + 1).into_iter().max_by_key(ended));
        })
    }),
    ("the-lower-row-at-the-first-difference", "one tie older than another", |call, store, list| {
        relisted(call, store, list, |store, plan, chain| {
            *chain = chain_by(store, &plan.added(), &plan.classes, |row, other| row < other).expect("a chain");
        })
    }),
    ("the-newer-row-at-the-last-difference", "a newer last row elsewhere", |call, store, list| {
        by(call, store, list, |_, _, rival| rival.rows.iter().rev().copied().collect())
    }),
    ("the-newest-row-anywhere", "the newest row elsewhere", |call, store, list| {
        by(call, store, list, |_, _, rival| rival.rows.iter().max().copied().into_iter().collect())
    }),
    ("the-newer-set-of-rows", "a newer set elsewhere", |call, store, list| {
        by(call, store, list, |_, _, rival| {
            let mut rows = rival.rows.clone();
            rows.sort_unstable_by_key(|&row| Reverse(row));
            rows
        })
    }),
    ("own-rows-are-the-lowest", "its own row before a stored one", |call, store, list| {
        by(call, store, list, |store, _, rival| {
            let stored = store.constraint_count() as u16;
            rival.rows.iter().map(|&row| if row < stored { row + MOST_ROWS as u16 } else { row }).collect()
        })
    }),
    ("ties-come-before-mixed-chains", "a mixed chain before ties", |call, store, list| {
        by(call, store, list, |_, _, rival| [&[u16::from(rival.is_tied)], &rival.rows[..]].concat())
    }),
    ("mixed-chains-come-before-ties", "ties before a mixed chain", |call, store, list| {
        by(call, store, list, |_, _, rival| [&[u16::from(!rival.is_tied)], &rival.rows[..]].concat())
    }),
    ("the-other-reading", "from the loaded end", |call, store, list| {
        relisted(call, store, list, |store, plan, chain| {
            let constraints = numbered(store, &plan.added());
            if chain.iter().all(|&row| is_tie(&constraints[usize::from(row)])) {
                chain.reverse();
            }
        })
    }),
    ("ties-are-read-from-the-end-that-isnt-below", "from the class below", |call, store, list| {
        among(call, store, list, |_, plan, rival| !rival.is_tied || !plan.classes.below(rival.classes[0], rival.classes[1]))
    }),
    ("ties-are-read-from-the-end-cached-first", "from the newcomer", |call, store, list| {
        among(call, store, list, |store, plan, rival| !rival.is_tied || places(store, plan, rival).is_sorted())
    }),
    ("ties-are-read-from-the-end-cached-last", "from the loaded end", |call, store, list| {
        among(call, store, list, |store, plan, rival| !rival.is_tied || !places(store, plan, rival).is_sorted())
    }),
    ("the-shortest-with-the-newcomer", "its own row elsewhere before two of its request", |call, store, list| {
        relisted(call, store, list, |store, plan, chain| {
            let newcomer = (plan.entry[0], plan.entry[1]);
            let with = rivals(store, plan, chain.len() + 1).into_iter().filter(|rival| rival.ends.contains(&newcomer));
            replace(chain, with.min_by_key(|rival| (rival.rows.len(), Reverse(rival.rows.clone()))));
        })
    }),
];

/// The tries that have this fault, if it is one of these.
pub fn fault(name: &str) -> Option<Chosen> {
    FAULTS.iter().find(|fault| fault.0 == name).map(|fault| fault.2)
}

/// A chain that breaks agreement.
struct Rival {
    rows: Vec<u16>,
    is_tied: bool,
    ends: [Request; 2],
    classes: [u16; 2],
}

/// The chains of at most so many rows; none if there are too many ways to walk.
fn rivals(store: &Store, plan: &Plan, most: usize) -> Vec<Rival> {
    let added = plan.added();
    let constraints = numbered(store, &added);
    let class = |at: Request| entries(store, &added).find(|row| (row[0], row[1]) == at).expect("a loaded end")[2];
    let rival = |rows: Vec<u16>| {
        let chain: Vec<Constraint> = rows.iter().map(|&row| constraints[usize::from(row)]).collect();
        let requests = ways(chain[0]).into_iter().find_map(|(start, _)| walked(start, &chain)).expect("a chain");
        let ends = [requests[0], requests[requests.len() - 1]];
        Rival { is_tied: chain.iter().all(is_tie), classes: ends.map(class), ends, rows }
    };
    reasons(store, &added, &plan.classes, most).unwrap_or_default().into_iter().map(rival).collect()
}

/// The rows of the cache that a chain's ends have, the new one behind the others.
fn places(store: &Store, plan: &Plan, rival: &Rival) -> [Option<usize>; 2] {
    rival.ends.map(|at| entries(store, &plan.added()).position(|row| (row[0], row[1]) == at))
}

fn replace(chain: &mut Vec<u16>, rival: Option<Rival>) {
    if let Some(rival) = rival {
        *chain = rival.rows;
    }
}

/// A try that lists the chain of the least length with the highest key, and of those with one key the newest.
fn by(call: &Call, store: &mut Store, list: &mut [u16], key: fn(&Store, &Plan, &Rival) -> Vec<u16>) -> Option<Reply> {
    relisted(call, store, list, |store, plan, chain| {
        replace(chain, rivals(store, plan, chain.len()).into_iter().max_by_key(|rival| (key(store, plan, rival), rival.rows.clone())));
    })
}

/// A try that lists the newest chain of the least length among those that are looked at. One row is the same from both ends, and is looked at.
fn among(
    call: &Call,
    store: &mut Store,
    list: &mut [u16],
    is_seen: fn(&Store, &Plan, &Rival) -> bool,
) -> Option<Reply> {
    relisted(call, store, list, |store, plan, chain| {
        let seen = rivals(store, plan, chain.len()).into_iter().filter(|rival| rival.rows.len() == 1 || is_seen(store, plan, rival));
        replace(chain, seen.max_by_key(|rival| rival.rows.clone()));
    })
}
