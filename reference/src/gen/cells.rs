//! Every used cell of a store, and some that aren't, changed alone to each of a few values.

use crate::store::{count, Store, FRAME_ROW, LENGTHS, OBJECT_ROW, ROW};

/// The values a cell is changed to, besides its neighbours.
const WORDS: [u16; 9] = [0, 1, 2, 3, 15, 16, 17, 256, u16::MAX];
const BYTES: [u8; 9] = [0, 1, 2, 8, 9, 0x57, 0x6C, 0xAC, 0xFF];

/// Which table, as `Store` orders them.
fn ranges(store: &Store) -> [Vec<usize>; 8] {
    let rows = |which: usize, cells: usize| (0..(store.count(which) + 1) * cells).collect::<Vec<_>>();
    let report = 32 * FRAME_ROW;
    let quote = 0..(store.frame_count(0) + 1) * FRAME_ROW;
    let numbers = |first: usize, which: usize| first - 1..=first + store.count(which);
    let ties = numbers(count::TIE_NUMBERS, count::TIES);
    let counts = (0..=count::OWNERS + store.count(count::OBJECTS)).chain(ties).chain(numbers(count::SUBTYPE_NUMBERS, count::SUBTYPES));
    let groups = numbers(count::GROUPS, count::TIES);
    [
        counts.chain(groups).chain([LENGTHS[0] - 1]).collect(),
        rows(count::CLASSES, ROW),
        (0..store.count(count::KEPT) + 2).collect(),
        rows(count::CACHE, ROW),
        rows(count::TIES, ROW),
        rows(count::SUBTYPES, ROW),
        rows(count::OBJECTS, OBJECT_ROW),
        quote.chain(report..report + (store.frame_count(1) + 1) * FRAME_ROW).collect(),
    ]
}

/// Calls `each` with every store that comes about. The store has the published lengths.
pub fn each_cell(store: &Store, mut each: impl FnMut(&Store, &str)) {
    let mut changed = store.clone();
    for (table, cells) in ranges(store).into_iter().enumerate() {
        for cell in cells {
            for value in values(store, table, cell) {
                changed.set(table, cell, value);
                each(&changed, &format!("table {table}, cell {cell}, value {value}"));
            }
            changed.set(table, cell, store.get(table, cell));
        }
    }
}

fn values(store: &Store, table: usize, cell: usize) -> Vec<u32> {
    let here = store.get(table, cell);
    let near = [here.wrapping_add(1), here.wrapping_sub(1)];
    match table {
        2 => BYTES.iter().map(|&byte| byte.into()).chain(near).collect(),
        6 | 7 => WORDS.iter().map(|&word| word.into()).chain(near).chain([0x1_0000, 0x1_0001, u32::MAX]).collect(),
        _ => WORDS.iter().map(|&word| word.into()).chain(near).collect(),
    }
}
