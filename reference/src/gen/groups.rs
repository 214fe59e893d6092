//! The groups of ties: by the plainest reading, and wrong ones, by hand and at random.

use super::cases::ready;
use super::damage::is_whole;
use super::numbers::has_numbers;
use super::rng::Rng;
use crate::store::{count, Store, LIMITS, MOST_ROWS, ROW};

/// The groups of ties by the plainest reading: beside each tie stands the lowest number among the ties that it shares a request with, and theirs, and so on.
pub fn plainly(rows: &[[u16; 3]], numbers: &[u16]) -> Vec<u16> {
    let shares = |one: [u16; 3], other: [u16; 3]| one[2] == other[2] && one[..2].iter().any(|loader| other[..2].contains(loader));
    let mut groups = numbers.to_vec();
    loop {
        let lowest = |&row: &[u16; 3]| rows.iter().zip(&groups).filter(|(&other, _)| shares(row, other)).map(|(_, &group)| group).min();
        let next: Vec<u16> = rows.iter().map(|row| lowest(row).expect("the tie itself")).collect();
        if next == groups {
            return groups;
        }
        groups = next;
    }
}

/// The groups that a store's ties have by the plainest reading.
pub fn plain_groups(store: &Store) -> Vec<u16> {
    plainly(&store.tie_rows().collect::<Vec<_>>(), store.tie_numbers())
}

/// A copy of the store with its groups made anew.
pub fn regrouped(store: &Store) -> Store {
    let mut copy = store.clone();
    copy.regroup();
    copy
}

/// Is the store broken by its groups alone?
pub fn has_wrong_groups(store: &Store) -> bool {
    has_numbers(store) && !is_whole(store) && is_whole(&regrouped(store))
}

/// A copy of the store with these groups beside its first ties.
fn with(store: &Store, groups: &[u16]) -> Store {
    let mut copy = store.clone();
    copy.counts[count::GROUPS..][..groups.len()].copy_from_slice(groups);
    copy
}

/// Stores with groups by hand: what it is, the store, and whether it is broken.
pub type Case = (&'static str, Store, bool);

/// Ties 0, 2, 3, 5, 6, 7 and 8, of which 5 joins those of 0 and 2; 6 has one loader twice, 7 is on int, and 8 is there already. Subtype constraints 1 and 4.
fn seven() -> Store {
    let mut store = ready().store;
    store.close();
    store.add_tie([1, 2, 12]);
    store.add_subtype([1, 13, 12]);
    store.add_tie([3, 4, 12]);
    store.add_tie([1, 2, 13]);
    store.add_subtype([1, 14, 12]);
    store.add_tie([3, 2, 12]);
    store.add_tie([5, 5, 12]);
    store.add_tie([1, 2, 1]);
    store.add_tie([2, 1, 12]);
    store
}

/// The store of seven with one tie less, and so on, whose cells stay as they are with all.
fn cut() -> Vec<Case> {
    let store = seven();
    let cut = |ties: u16| {
        let mut level = store.level();
        (level[3], level[4]) = (ties, [0, 1, 1, 1, 2][usize::from(ties).min(4)]);
        let mut left = store.clone();
        left.lower(level);
        left
    };
    vec![
        ("without the last tie", cut(6), false),
        ("without three ties that join nothing", cut(4), false),
        ("the groups of a join that is taken back", cut(3), true),
        ("the same, made anew", regrouped(&cut(3)), false),
        ("one tie", cut(1), false),
        ("no tie", cut(0), false),
    ]
}

pub fn cases() -> Vec<Case> {
    let store = seven();
    let of = |what: &'static str, groups: [u16; 7], is_broken: bool| (what, with(&store, &groups), is_broken);
    let mut behind = store.clone();
    behind.counts[count::GROUPS + 7..].fill(u16::MAX);
    let cases = vec![
        of("as it is", [0, 0, 3, 0, 6, 7, 0], false),
        ("other cells behind the ties", behind, false),
        of("the higher number of two that are joined", [2, 2, 3, 2, 6, 7, 2], true),
        of("the highest number of a group", [8, 8, 3, 8, 6, 7, 8], true),
        of("the number of the tie that joins", [5, 5, 3, 5, 6, 7, 5], true),
        of("a number that no row has", [9, 9, 3, 9, 6, 7, 9], true),
        of("a number far too large", [0, 0, u16::MAX, 0, 6, 7, 0], true),
        of("places for numbers", [0, 0, 2, 0, 4, 5, 0], true),
        of("groups counted on", [0, 0, 1, 0, 2, 3, 0], true),
        of("a subtype constraint's number", [1, 1, 3, 1, 6, 7, 1], true),
        of("a lower subtype constraint's number", [0, 0, 1, 0, 6, 7, 0], true),
        of("one number for two names of two loaders", [0, 0, 0, 0, 6, 7, 0], true),
        of("one number for all", [0; 7], true),
        of("a group split, as before the join", [0, 2, 3, 0, 6, 7, 0], true),
        of("a group split by the tie that joins", [0, 2, 3, 2, 6, 7, 0], true),
        of("a tie that is there twice in a group of its own", [0, 0, 3, 0, 6, 7, 8], true),
        of("each tie's own number", [0, 2, 3, 5, 6, 7, 8], true),
        of("a tie of one loader counted among others of its name", [0, 0, 3, 0, 0, 7, 0], true),
        of("int has none", [0, 0, 3, 0, 6, 0, 0], true),
        of("the first is right alone", [0, 1, 1, 1, 1, 1, 1], true),
        of("the last is wrong alone", [0, 0, 3, 0, 6, 7, 7], true),
        of("the first is wrong alone", [3, 0, 3, 0, 6, 7, 0], true),
    ];
    [cases, cut()].concat()
}

/// The groups that there are, each once, by the right cells.
fn distinct(groups: &[u16]) -> Vec<u16> {
    let mut all = groups.to_vec();
    all.sort_unstable();
    all.dedup();
    all
}

/// Every cell of a group changed to another number.
fn renamed(store: &mut Store, group: u16, to: u16) {
    let ties = store.count(count::TIES);
    store.counts[count::GROUPS..][..ties].iter_mut().filter(|cell| **cell == group).for_each(|cell| *cell = to);
}

/// The numbers of the ties of a group.
fn members(store: &Store, group: u16) -> Vec<u16> {
    store.groups().iter().zip(store.tie_numbers()).filter(|(&of, _)| of == group).map(|(_, &number)| number).collect()
}

/// The ways in which groups are wrong, on a store that isn't broken and has a tie. What a way does may come to nothing.
pub const WRONG: [(&str, fn(&mut Rng, &mut Store)); 10] = [
    ("another number of the group", |rng, store| {
        let group = rng.pick(store.groups());
        let to = rng.pick(&members(store, group));
        renamed(store, group, to);
    }),
    ("the highest number of each group", |_, store| {
        for group in distinct(store.groups()) {
            let highest = members(store, group).into_iter().max().expect("a tie");
            renamed(store, group, highest);
        }
    }),
    ("places for numbers", |_, store| {
        let numbers = store.tie_numbers().to_vec();
        for group in distinct(store.groups()) {
            let place = numbers.iter().position(|&number| number == group).expect("the lowest tie");
            renamed(store, group, place as u16);
        }
    }),
    ("one number for two groups", |rng, store| {
        let (one, other) = (rng.pick(store.groups()), rng.pick(store.groups()));
        renamed(store, one.max(other), one.min(other));
    }),
    ("a group split", |rng, store| {
        let from = rng.below(store.count(count::TIES));
        let (group, number) = (store.groups()[from], store.tie_numbers()[from]);
        let cells = &mut store.counts[count::GROUPS..];
        (from..LIMITS[count::TIES].into()).filter(|_| rng.percent(70)).for_each(|row| {
            if cells[row] == group {
                cells[row] = number;
            }
        });
    }),
    ("a subtype constraint's number", |rng, store| {
        if store.count(count::SUBTYPES) > 0 {
            let (group, to) = (rng.pick(store.groups()), rng.pick(store.subtype_numbers()));
            renamed(store, group, to);
        }
    }),
    ("as each tie was posted", |_, store| {
        let (rows, numbers): (Vec<[u16; 3]>, _) = (store.tie_rows().collect(), store.tie_numbers().to_vec());
        for row in 0..rows.len() {
            store.counts[count::GROUPS + row] = plainly(&rows[..=row], &numbers[..=row])[row];
        }
    }),
    ("with ties that are gone", |rng, store| {
        let all = store.constraint_count();
        let left = rng.within(all.saturating_sub(4), all - 1) as u16;
        let rows = [store.tie_numbers(), store.subtype_numbers()].map(|numbers| numbers.iter().filter(|&&number| number < left).count() as u16);
        let mut level = store.level();
        (level[3], level[4]) = (rows[0], rows[1]);
        store.lower(level);
    }),
    ("one cell", |rng, store| {
        let at = count::GROUPS + rng.below(store.count(count::TIES));
        let here = store.counts[at];
        store.counts[at] = rng.pick(&[here + 1, here.wrapping_sub(1), 0, store.constraint_count() as u16, MOST_ROWS as u16, u16::MAX]);
    }),
    ("the first alone is right", |rng, store| {
        let ties = store.count(count::TIES);
        let to = rng.pick(store.tie_numbers());
        store.counts[count::GROUPS + 1..][..ties - 1].fill(to);
    }),
];

/// The way with ties that are gone, which often comes to nothing.
const GONE: usize = 7;

/// Ties of one name or two, first of pairs of loaders and then of loaders of any two pairs, which joins groups, with subtype constraints between them.
pub fn some_ties(rng: &mut Rng, store: &mut Store) {
    let names: Vec<u16> = (0..rng.within(1, 2)).map(|_| rng.within(2, 40) as u16).collect();
    let pairs = rng.within(2, 4);
    for turn in 0..pairs + rng.within(1, 4) {
        let name = rng.pick(&names);
        if rng.percent(30) && !store.is_full(count::SUBTYPES) {
            store.add_subtype([rng.below(6) as u16, name, name + 1]);
        }
        let loaders = if turn < pairs { [2 * turn, 2 * turn + 1] } else { [rng.below(2 * pairs), rng.below(2 * pairs)] };
        if !store.is_full(count::TIES) {
            store.add_tie([loaders[0] as u16, loaders[1] as u16, name]);
        }
    }
}

/// Groups that are wrong in one of the ways, mostly, or right ones with other cells behind them.
pub fn wrong_groups(rng: &mut Rng, store: &mut Store) {
    if !is_whole(store) {
        return;
    }
    if rng.percent(80) {
        some_ties(rng, store);
    }
    let behind = count::GROUPS + store.count(count::TIES);
    if rng.percent(20) {
        (behind..store.counts.len()).for_each(|at| store.counts[at] = rng.word());
    }
    if store.count(count::TIES) > 0 && rng.percent(85) {
        let way = if rng.percent(20) { GONE } else { rng.below(WRONG.len()) };
        WRONG[way].1(rng, store);
    }
}

/// What is wrong about groups, where nothing else is.
#[derive(Clone, Copy, Debug, PartialEq, Eq)]
pub enum Wrong {
    /// Those of one group share a number, and no others do; some number is another.
    Numbers,
    /// The same, and each number is one of the group's own ties.
    OwnNumbers,
    /// Two groups have one number, and no group is split.
    Joined,
    /// A group has two numbers, and no two groups share one.
    Split,
    /// A group has the number of a subtype constraint.
    Subtypes,
    /// They are those of more ties, which stand behind the count.
    Gone,
    /// The first tie's is right.
    ButFirst,
}

pub const WRONGS: [Wrong; 7] = [Wrong::Numbers, Wrong::OwnNumbers, Wrong::Joined, Wrong::Split, Wrong::Subtypes, Wrong::Gone, Wrong::ButFirst];

/// Is this wrong about the groups, and nothing else about the store?
pub fn is_wrong(store: &Store, wrong: Wrong) -> bool {
    if !has_wrong_groups(store) {
        return false;
    }
    let (cells, right) = (store.groups(), plain_groups(store));
    let all = |holds: &dyn Fn(usize, usize) -> bool| (0..cells.len()).all(|one| (0..cells.len()).all(|other| holds(one, other)));
    let is_split = !all(&|one, other| right[one] != right[other] || cells[one] == cells[other]);
    let is_joined = !all(&|one, other| cells[one] != cells[other] || right[one] == right[other]);
    let is_own = |row: usize| store.tie_numbers().iter().zip(&right).any(|(&number, &of)| number == cells[row] && of == right[row]);
    match wrong {
        Wrong::Numbers => !is_split && !is_joined,
        Wrong::OwnNumbers => !is_split && !is_joined && (0..cells.len()).all(is_own),
        Wrong::Joined => is_joined && !is_split,
        Wrong::Split => is_split && !is_joined,
        Wrong::Subtypes => cells.iter().any(|cell| store.subtype_numbers().contains(cell)),
        Wrong::Gone => (cells.len() + 1..=LIMITS[count::TIES].into()).take(12).any(|ties| is_of_more(store, ties)),
        Wrong::ButFirst => cells[0] == right[0],
    }
}

/// Are the groups those of so many ties, of which some stand behind the count?
fn is_of_more(store: &Store, ties: usize) -> bool {
    let rows: Vec<[u16; 3]> = store.ties.chunks_exact(ROW).take(ties).map(|row| [row[0], row[1], row[2]]).collect();
    plainly(&rows, &store.counts[count::TIE_NUMBERS..][..ties])[..store.count(count::TIES)] == *store.groups()
}
