//! Does a list of rows break agreement, and does the request that a load adds? Judged by the definition alone, apart from the searches of agree.rs
//! and reason.rs.
//!
//! Paper 3: the rows, upward, of one chain of constraints between two loaded requests that breaks agreement, in the store as it would be after
//! the tried load. A tie may be walked either way, a subtype constraint from its lower name to its higher. No chain repeats a request.

use std::collections::{BTreeMap, BTreeSet};

use crate::agree::{entries, numbered, Added, Constraint};
use crate::classes::Classes;
use crate::store::Store;

/// A loader and a class name.
pub type Request = (u16, u16);

/// Is the list the rows of a chain that breaks agreement? `classes` holds the new class, if the load defines one.
pub fn breaks(store: &Store, added: &Added, classes: &Classes, list: &[u16]) -> bool {
    let constraints = numbered(store, added);
    let chain: Option<Vec<Constraint>> = list.iter().map(|&row| constraints.get(usize::from(row)).copied()).collect();
    chain.is_some_and(|chain| {
        // Which way the first row is walked says where the chain begins.
        let mut ways = chain.first().map_or(Vec::new(), |&first| ways(first)).into_iter();
        ways.any(|(start, _)| walked(start, &chain).is_some_and(|requests| ends_break(store, added, classes, &requests, &chain)))
    })
}

/// The ways in which a row may be walked: from, to.
pub fn ways(constraint: Constraint) -> Vec<(Request, Request)> {
    match constraint {
        Constraint::Tie([one, other, name]) => vec![((one, name), (other, name)), ((other, name), (one, name))],
        Constraint::Subtype([loader, low, high]) => vec![((loader, low), (loader, high))],
    }
}

/// The requests along the chain from its first one on, if each row goes on where the one before ended and none comes twice.
pub fn walked(start: Request, chain: &[Constraint]) -> Option<Vec<Request>> {
    let mut requests = vec![start];
    for &constraint in chain {
        let here = requests[requests.len() - 1];
        let (_, next) = ways(constraint).into_iter().find(|&(from, _)| from == here)?;
        if requests.contains(&next) {
            return None;
        }
        requests.push(next);
    }
    Some(requests)
}

/// How a newcomer breaks agreement with other loaded requests.
#[derive(Default)]
pub struct Pairs {
    /// It is tied to one of another class.
    pub tied: bool,
    /// It leads to one, not tied to it, whose class isn't its own or above.
    pub out: bool,
    /// One leads to it that isn't tied to it and whose class isn't its own or below.
    pub into: bool,
}

impl Pairs {
    pub fn is_any(&self) -> bool {
        self.tied || self.out || self.into
    }

    /// Of the request that is added, by the definition.
    pub fn of(store: &Store, added: &Added, classes: &Classes) -> Pairs {
        let Some([loader, name, class]) = added.entry else {
            return Pairs::default();
        };
        let all: Vec<Constraint> = numbered(store, added);
        let ties: Vec<Constraint> = all.iter().copied().filter(|row| matches!(row, Constraint::Tie(_))).collect();
        let upward = |rows: &[Constraint]| rows.iter().flat_map(|&row| ways(row)).collect::<Vec<_>>();
        let downward: Vec<_> = upward(&all).into_iter().map(|(from, to)| (to, from)).collect();
        let tied = led((loader, name), &upward(&ties));
        let meets = |led: BTreeSet<Request>, is_bad: &dyn Fn(u16) -> bool| {
            led.into_iter().any(|at| loaded(store, added, at).is_some_and(is_bad))
        };
        let apart = |led: BTreeSet<Request>| led.difference(&tied).copied().collect();
        Pairs {
            out: meets(apart(led((loader, name), &upward(&all))), &|other| !classes.below(class, other)),
            into: meets(apart(led((loader, name), &downward)), &|other| !classes.below(other, class)),
            tied: meets(tied, &|other| other != class),
        }
    }
}

/// The requests that one leads to by these steps, itself among them.
fn led(start: Request, steps: &[(Request, Request)]) -> BTreeSet<Request> {
    let mut next: BTreeMap<Request, Vec<Request>> = BTreeMap::new();
    steps.iter().for_each(|&(from, to)| next.entry(from).or_default().push(to));
    let (mut led, mut left) = (BTreeSet::from([start]), vec![start]);
    while let Some(here) = left.pop() {
        left.extend(next.get(&here).into_iter().flatten().filter(|&&to| led.insert(to)));
    }
    led
}

/// The class of a request that is loaded.
fn loaded(store: &Store, added: &Added, (loader, name): Request) -> Option<u16> {
    entries(store, added).find(|row| (row[0], row[1]) == (loader, name)).map(|row| row[2])
}

/// Are both ends of the requests along a chain loaded, and do their classes break agreement: two classes, if ties alone join them, or a first that isn't the last or below?
pub fn ends_break(store: &Store, added: &Added, classes: &Classes, requests: &[Request], chain: &[Constraint]) -> bool {
    let ends = [requests[0], requests[requests.len() - 1]].map(|at| loaded(store, added, at));
    let [Some(first), Some(last)] = ends else {
        return false;
    };
    let is_tied = chain.iter().all(|constraint| matches!(constraint, Constraint::Tie(_)));
    (is_tied && first != last) || !classes.below(first, last)
}
