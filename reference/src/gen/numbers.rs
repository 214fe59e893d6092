//! The numbers of constraints: made right for rows that nobody posted, and made wrong.

use super::damage::is_whole;
use super::groups::regrouped;
use super::rng::Rng;
use crate::store::{count, Store, LENGTHS, LIMITS, MOST_ROWS};

/// Are there counts, and none of rows over its limit, so that each used row has a number?
pub fn has_numbers(store: &Store) -> bool {
    store.counts.len() == LENGTHS[0] && [count::TIES, count::SUBTYPES].iter().all(|&which| store.counts[which] <= LIMITS[which])
}

/// Numbers the used rows as if they had been posted in some order, each table's own kept, and groups the ties by these numbers.
pub fn renumber(rng: &mut Rng, store: &mut Store) {
    if !has_numbers(store) {
        return;
    }
    let (mut tie, mut subtype) = (0, 0);
    let (ties, subtypes) = (store.count(count::TIES), store.count(count::SUBTYPES));
    for number in 0..(ties + subtypes) as u16 {
        let is_tie = tie < ties && (subtype == subtypes || rng.percent(50));
        let (first, next) = if is_tie { (count::TIE_NUMBERS, &mut tie) } else { (count::SUBTYPE_NUMBERS, &mut subtype) };
        store.counts[first + *next] = number;
        *next += 1;
    }
    store.regroup();
}

/// The cells of the used rows' numbers.
fn places(store: &Store) -> Vec<usize> {
    let ties = count::TIE_NUMBERS..count::TIE_NUMBERS + store.count(count::TIES);
    ties.chain(count::SUBTYPE_NUMBERS..count::SUBTYPE_NUMBERS + store.count(count::SUBTYPES)).collect()
}

/// The ways in which numbers are wrong.
pub const WRONG: [(&str, fn(&mut Rng, &mut Store)); 5] = [
    ("a gap", |rng, store| {
        let above = rng.below(store.constraint_count()) as u16;
        places(store).into_iter().for_each(|at| store.counts[at] += u16::from(store.counts[at] >= above));
    }),
    ("a double", |rng, store| {
        let places = places(store);
        let (one, other) = (rng.pick(&places), rng.pick(&places));
        store.counts[one] = store.counts[other];
    }),
    ("a fall", |rng, store| {
        let places = places(store);
        let (one, other) = (rng.pick(&places), rng.pick(&places));
        store.counts.swap(one, other);
    }),
    ("a number too large", |rng, store| {
        let at = rng.pick(&places(store));
        store.counts[at] = rng.pick(&[store.constraint_count() as u16, 255, 256, MOST_ROWS as u16, u16::MAX]);
    }),
    ("by table", |_, store| {
        let ties = store.count(count::TIES);
        (0..ties).for_each(|at| store.counts[count::TIE_NUMBERS + at] = at as u16);
        (0..store.count(count::SUBTYPES)).for_each(|at| store.counts[count::SUBTYPE_NUMBERS + at] = at as u16);
    }),
];

/// Numbers that are wrong in one of the ways, mostly: what a way does may come to nothing.
pub fn wrong_numbers(rng: &mut Rng, store: &mut Store) {
    if is_whole(store) && store.constraint_count() > 0 {
        WRONG[rng.below(WRONG.len())].1(rng, store);
        store.regroup();
    }
}

/// Is the store broken by its numbers alone? The groups are those by these numbers.
pub fn has_wrong_numbers(store: &Store) -> bool {
    has_numbers(store) && *store == regrouped(store) && can_be_mended(store)
}

/// Is the store broken by its numbers and groups alone?
pub fn can_be_mended(store: &Store) -> bool {
    let mut mended = store.clone();
    renumber(&mut Rng::new(0), &mut mended);
    crate::broken(store) && !crate::broken(&mended)
}
