//! The reason of a clash: of all chains of constraints that break agreement the shortest, and of those of one length the first, which is the newest.
//!
//! Paper 9: "The chain of Paper 3 becomes the shortest one there is. A chain of ties alone may be read from either end." Which of one length is the
//! first, paper 13 says anew: "Among shortest chains of Paper 9, the higher row at the earliest difference wins. Length still comes first."
//!
//! From all loaded requests of one class at once, the lists of one row are made, then those of two and so on. Where a list has led is a request, and
//! whether ties alone led there: that and the class decide whether it breaks agreement, and what may come behind it. So of the lists of one length that
//! have led to one place only the first is kept, and none that leads where a shorter one has led. Then a list that breaks agreement and has the least
//! length repeats no request, since without the rows between it would be shorter.

use std::collections::BTreeMap;

use crate::agree::{entries, key, numbered, Added, Constraint};
use crate::classes::Classes;
use crate::store::{count, Store, LIMITS};

/// Between two rows: does the one make its chain the first?
pub type Order = fn(u16, u16) -> bool;

/// Paper 13's order.
pub const NEWER_FIRST: Order = |row, other| row > other;

/// Of two lists of one length: is the one before the other, by the earliest position where they differ?
pub fn is_before(one: &[u16], other: &[u16], order: Order) -> bool {
    one.iter().zip(other).find(|(row, other)| row != other).is_some_and(|(&row, &other)| order(row, other))
}

/// Is the one shorter, or as long and before the other?
fn is_better(one: &[u16], other: &[u16], order: Order) -> bool {
    one.len() < other.len() || one.len() == other.len() && is_before(one, other, order)
}

/// No class.
const NONE: u16 = u16::MAX;

/// A way to leave a request: by this row, to this request, and whether it is a tie.
type Way = (u16, u16, bool);

/// The requests that are loaded or that a constraint names, numbered, and the ways to leave each.
struct Map {
    /// The class of each request that is loaded, else `NONE`.
    classes: Vec<u16>,
    ways: Vec<Vec<Way>>,
}

impl Map {
    fn new(store: &Store, added: &Added) -> Map {
        let ends: Vec<(u32, u32, bool)> = numbered(store, added).into_iter().map(ends).collect();
        let mut requests: Vec<u32> = entries(store, added).map(|row| key(row[0], row[1])).collect();
        requests.extend(ends.iter().flat_map(|&(from, to, _)| [from, to]));
        requests.sort_unstable();
        requests.dedup();
        let number = |request: u32| requests.binary_search(&request).expect("a request of the store");
        let mut map = Map { classes: vec![NONE; requests.len()], ways: vec![Vec::new(); requests.len()] };
        for [loader, name, class] in entries(store, added) {
            let of = &mut map.classes[number(key(loader, name))];
            // Of two rows for one request the lower is read.
            *of = if *of == NONE { class } else { *of };
        }
        for (row, &(from, to, is_tie)) in (0..).zip(&ends) {
            let (from, to) = (number(from), number(to));
            map.ways[from].push((row, to as u16, is_tie));
            if is_tie {
                map.ways[to].push((row, from as u16, true));
            }
        }
        map
    }
}

/// A row's lower and higher request, and whether it is a tie.
fn ends(constraint: Constraint) -> (u32, u32, bool) {
    match constraint {
        Constraint::Tie([one, other, name]) => (key(one, name), key(other, name), true),
        Constraint::Subtype([loader, low, high]) => (key(loader, low), key(loader, high), false),
    }
}

/// The rows, upward, of the chain that is the reason; nothing if the store would agree. `classes` holds the new class, if there is one.
pub fn chain(store: &Store, added: &Added, classes: &Classes) -> Option<Vec<u16>> {
    chain_by(store, added, classes, NEWER_FIRST)
}

/// The same, with this order between chains of one length.
pub fn chain_by(store: &Store, added: &Added, classes: &Classes, order: Order) -> Option<Vec<u16>> {
    let map = Map::new(store, added);
    let mut best: Option<Vec<u16>> = None;
    for class in (0..LIMITS[count::CLASSES]).filter(|class| map.classes.contains(class)) {
        let most = best.as_ref().map_or(usize::MAX, Vec::len);
        let found = from_class(&map, class, classes, most, order);
        best = match (best, found) {
            (Some(best), Some(found)) => Some(if is_better(&found, &best, order) { found } else { best }),
            (best, found) => best.or(found),
        };
    }
    best
}

/// Where a list has led: a request, and whether by ties alone.
type Place = (u16, bool);

/// The best list of at most so many rows from a loaded request of this class to one that it breaks agreement with.
fn from_class(map: &Map, class: u16, classes: &Classes, most: usize, order: Order) -> Option<Vec<u16>> {
    let breaks = |&(to, by_ties): &Place| {
        let other = map.classes[usize::from(to)];
        other != NONE && (by_ties && other != class || !classes.below(class, other))
    };
    let starts = (0..map.classes.len()).filter(|&at| map.classes[at] == class);
    let mut layer: BTreeMap<Place, Vec<u16>> = starts.map(|at| ((at as u16, true), Vec::new())).collect();
    let mut led = vec![[false; 2]; map.classes.len()];
    for _ in 0..most {
        layer.keys().for_each(|&(to, by_ties)| led[usize::from(to)][usize::from(by_ties)] = true);
        layer = longer(map, &layer, &led, order);
        if layer.is_empty() {
            return None;
        }
        let reasons = layer.iter().filter(|(place, _)| breaks(place)).map(|(_, list)| list);
        let first = reasons.reduce(|one, other| if is_before(other, one, order) { other } else { one });
        if first.is_some() {
            return first.cloned();
        }
    }
    None
}

/// The lists with one row more, the first for each place where no shorter one has led.
fn longer(map: &Map, layer: &BTreeMap<Place, Vec<u16>>, led: &[[bool; 2]], order: Order) -> BTreeMap<Place, Vec<u16>> {
    let mut next: BTreeMap<Place, Vec<u16>> = BTreeMap::new();
    for (&(here, by_ties), list) in layer {
        for &(row, to, is_tie) in &map.ways[usize::from(here)] {
            let place = (to, by_ties && is_tie);
            if led[usize::from(to)][usize::from(place.1)] {
                continue;
            }
            let longer = [&list[..], &[row]].concat();
            if next.get(&place).is_none_or(|there| is_before(&longer, there, order)) {
                next.insert(place, longer);
            }
        }
    }
    next
}
