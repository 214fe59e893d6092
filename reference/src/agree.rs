//! Ties, subtype constraints, and whether a store agrees: on ties by their groups.

use crate::classes::Classes;
use crate::groups::Groups;
use crate::store::{count, Store, INT, LIMITS, MOST_ROWS};

/// What a call would add: a cache entry, ties and subtype constraints.
#[derive(Default)]
pub struct Added<'a> {
    pub entry: Option<[u16; 3]>,
    pub ties: &'a [[u16; 3]],
    pub subtypes: &'a [[u16; 3]],
}

impl Added<'_> {
    pub fn is_empty(&self) -> bool {
        self.entry.is_none() && self.ties.is_empty() && self.subtypes.is_empty()
    }

    /// Would a limit be passed?
    pub fn is_too_much(&self, store: &Store) -> bool {
        let over = |which: usize, more: usize| store.count(which) + more > usize::from(LIMITS[which]);
        over(count::CACHE, usize::from(self.entry.is_some()))
            || over(count::TIES, self.ties.len())
            || over(count::SUBTYPES, self.subtypes.len())
    }

    /// The constraints in the order in which they are posted. Document 01, 'Constraints': "define posts the verifier's notes under its loader;
    /// then, for each method, ties on argument and result"; paper 7 ties each argument in turn. The notes are in the verifier's order, the ties method by method.
    pub fn posted(&self) -> impl Iterator<Item = Constraint> + '_ {
        let notes = self.subtypes.iter().map(|&row| Constraint::Subtype(row));
        notes.chain(self.ties.iter().map(|&row| Constraint::Tie(row)))
    }

    /// The groups with these ties, which get the numbers behind those of the notes. The store isn't broken.
    pub fn groups(&self, store: &Store) -> Groups {
        Groups::read(store, self.ties, (store.constraint_count() + self.subtypes.len()) as u16)
    }

    /// Writes the rows behind the used ones, each constraint with the next number, and the groups with the ties.
    pub fn write(&self, store: &mut Store) {
        if let Some(entry) = self.entry {
            store.add_cached(entry);
        }
        for constraint in self.posted() {
            match constraint {
                Constraint::Tie(row) => store.add_tie(row),
                Constraint::Subtype(row) => store.add_subtype(row),
            }
        }
    }
}

/// A constraint's row, of either kind.
#[derive(Clone, Copy, Debug, PartialEq, Eq)]
pub enum Constraint {
    /// Two loaders and the name that means one class under both.
    Tie([u16; 3]),
    /// A loader, its lower name and its higher name.
    Subtype([u16; 3]),
}

/// The constraints of the store and of what is added, by number: the stored ones by the numbers that they keep, the added ones behind them
/// as they would be posted. The store isn't broken.
pub fn numbered(store: &Store, added: &Added) -> Vec<Constraint> {
    let ties = store.tie_rows().map(Constraint::Tie).zip(store.tie_numbers());
    let subtypes = store.subtype_rows().map(Constraint::Subtype).zip(store.subtype_numbers());
    let mut stored: Vec<(Constraint, &u16)> = ties.chain(subtypes).collect();
    stored.sort_unstable_by_key(|&(_, number)| number);
    stored.into_iter().map(|(constraint, _)| constraint).chain(added.posted()).collect()
}

/// The tie of a type between two loaders, unless it says nothing.
pub fn tie(one: u16, other: u16, of: u16) -> Option<[u16; 3]> {
    (one != other && of != INT).then_some([one, other, of])
}

/// Do two rows say the same? The order of a tie's loaders doesn't count.
pub fn same_tie(a: [u16; 3], b: [u16; 3]) -> bool {
    a == b || a == [b[1], b[0], b[2]]
}

pub fn key(loader: u16, name: u16) -> u32 {
    u32::from(loader) << 16 | u32::from(name)
}

/// The requests of cache and constraints, numbered, and which of them have one group.
struct Joined {
    requests: Vec<u32>,
    /// The first request of each one's group; a request that no tie names is tied to itself alone.
    first: Vec<u32>,
}

impl Joined {
    fn new(store: &Store, added: &Added) -> Joined {
        let mut requests = Vec::new();
        requests.extend(entries(store, added).map(|row| key(row[0], row[1])));
        requests.extend(ties(store, added).flat_map(|[one, other, name]| [key(one, name), key(other, name)]));
        requests.extend(subtypes(store, added).flat_map(|[at, low, high]| [key(at, low), key(at, high)]));
        requests.sort_unstable();
        requests.dedup();
        let groups = added.groups(store);
        let mut of_group = [None; MOST_ROWS];
        let first = requests.iter().zip(0..).map(|(&request, number)| match groups.of(request) {
            Some(group) => *of_group[usize::from(group)].get_or_insert(number),
            None => number,
        });
        Joined { first: first.collect(), requests }
    }

    /// The number of a request; every request of the store has one.
    fn number(&self, loader: u16, name: u16) -> usize {
        self.requests.binary_search(&key(loader, name)).expect("a request of the store")
    }

    /// The number that stands for all requests tied to this one.
    fn group(&self, loader: u16, name: u16) -> usize {
        self.first[self.number(loader, name)] as usize
    }

    /// The one class of each group; nothing if tied loaded requests mean two.
    fn loaded(&self, store: &Store, added: &Added) -> Option<Vec<Option<u16>>> {
        let mut read = vec![false; self.requests.len()];
        let mut classes = vec![None; self.requests.len()];
        for [loader, name, class] in entries(store, added) {
            // Of two rows for one request the lower is read.
            if std::mem::replace(&mut read[self.number(loader, name)], true) {
                continue;
            }
            if *classes[self.group(loader, name)].get_or_insert(class) != class {
                return None;
            }
        }
        Some(classes)
    }
}

/// Which groups a subtype constraint leads to from each, one run a group.
struct Upward {
    first: Vec<u32>,
    next: Vec<u32>,
}

impl Upward {
    fn new(joined: &Joined, store: &Store, added: &Added) -> Upward {
        let edges: Vec<(usize, usize)> = subtypes(store, added)
            .map(|[at, low, high]| (joined.group(at, low), joined.group(at, high)))
            .collect();
        let mut first = vec![0; joined.requests.len() + 1];
        edges.iter().for_each(|&(from, _)| first[from + 1] += 1);
        (1..first.len()).for_each(|i| first[i] += first[i - 1]);
        let (mut next, mut place) = (vec![0; edges.len()], first.clone());
        for (from, to) in edges {
            next[place[from] as usize] = to as u32;
            place[from] += 1;
        }
        Upward { first, next }
    }

    fn from(&self, group: u32) -> &[u32] {
        let group = group as usize;
        &self.next[self.first[group] as usize..self.first[group + 1] as usize]
    }

    /// Does `fits` hold of every group that `start` leads to? `seen` keeps the last start by group.
    fn all(&self, start: u32, seen: &mut [u32], left: &mut Vec<u32>, fits: impl Fn(u32) -> bool) -> bool {
        left.push(start);
        seen[start as usize] = start;
        while let Some(group) = left.pop() {
            if !fits(group) {
                return false;
            }
            for &to in self.from(group) {
                if seen[to as usize] != start {
                    seen[to as usize] = start;
                    left.push(to);
                }
            }
        }
        true
    }
}

/// Would the store, which isn't broken, agree with what is added? `classes` holds the new class, if the call defines one.
pub fn agrees(store: &Store, added: &Added, classes: &Classes) -> bool {
    let joined = Joined::new(store, added);
    let Some(loaded) = joined.loaded(store, added) else {
        return false;
    };
    let upward = Upward::new(&joined, store, added);
    let (mut seen, mut left) = (vec![u32::MAX; loaded.len()], Vec::new());
    loaded.iter().enumerate().all(|(start, class)| match *class {
        Some(a) => upward.all(start as u32, &mut seen, &mut left, |group| {
            loaded[group as usize].is_none_or(|b| classes.below(a, b))
        }),
        None => true,
    })
}

pub fn entries<'a>(store: &'a Store, added: &'a Added) -> impl Iterator<Item = [u16; 3]> + 'a {
    store.cache_rows().chain(added.entry)
}

fn ties<'a>(store: &'a Store, added: &'a Added) -> impl Iterator<Item = [u16; 3]> + 'a {
    store.tie_rows().chain(added.ties.iter().copied())
}

fn subtypes<'a>(store: &'a Store, added: &'a Added) -> impl Iterator<Item = [u16; 3]> + 'a {
    store.subtype_rows().chain(added.subtypes.iter().copied())
}
