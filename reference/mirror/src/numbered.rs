//! Wrong answers to the question for a row by its number.

use reference::numbered::{row, Row};
use reference::{Refusal, Store};

type Said = Result<Row, Refusal>;

/// The row at that place of its table, instead of the one of that number; and a subtype constraint with its names the other way round.
pub const FAULTS: [(&str, fn(&Store, u32) -> Said); 2] = [
    ("row-by-its-place", |store, number| {
        let tie = store.tie_rows().nth(number as usize).map(Row::Tie);
        row(store, number).map(|said| tie.unwrap_or(said))
    }),
    ("row-downward", |store, number| match row(store, number) {
        Ok(Row::Subtype([loader, low, high])) => Ok(Row::Subtype([loader, high, low])),
        said => said,
    }),
];

pub fn said(fault: Option<&str>, store: &Store, number: u32) -> Said {
    FAULTS.iter().find(|wrong| Some(wrong.0) == fault).map_or_else(|| row(store, number), |wrong| wrong.1(store, number))
}
