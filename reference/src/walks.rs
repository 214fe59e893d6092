//! All chains that break agreement, by walking everywhere. Only few constraints make few enough ways for that; the search of reason.rs needs none of it.

use std::collections::BTreeMap;

use crate::agree::{entries, numbered, Added, Constraint};
use crate::breaks::{ends_break, ways, Request};
use crate::classes::Classes;
use crate::store::Store;

/// The constraints, and the ways to walk along them, that aren't too many.
const ROWS: usize = 64;
const WALKS: usize = 2_000;

/// The lists of at most so many rows that break agreement, each once, in their order; nothing if there are too many ways to walk.
pub fn reasons(store: &Store, added: &Added, classes: &Classes, most: usize) -> Option<Vec<Vec<u16>>> {
    let constraints = numbered(store, added);
    if constraints.len() > ROWS {
        return None;
    }
    let mut next: BTreeMap<Request, Vec<(u16, Request)>> = BTreeMap::new();
    for (row, &constraint) in (0..).zip(&constraints) {
        ways(constraint).into_iter().for_each(|(from, to)| next.entry(from).or_default().push((row, to)));
    }
    let mut found = Vec::new();
    let mut left: Vec<(Vec<Request>, Vec<u16>)> = entries(store, added).map(|row| (vec![(row[0], row[1])], Vec::new())).collect();
    let mut walked = 0;
    while let Some((requests, rows)) = left.pop() {
        walked += 1;
        if walked > WALKS {
            return None;
        }
        let chain: Vec<Constraint> = rows.iter().map(|&row| constraints[usize::from(row)]).collect();
        if ends_break(store, added, classes, &requests, &chain) {
            found.push(rows.clone());
        }
        if rows.len() == most {
            continue;
        }
        for &(row, to) in next.get(&requests[requests.len() - 1]).into_iter().flatten() {
            if !requests.contains(&to) {
                left.push(([&requests[..], &[to]].concat(), [&rows[..], &[row]].concat()));
            }
        }
    }
    found.sort_unstable();
    found.dedup();
    Some(found)
}
