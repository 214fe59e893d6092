//! A stored row of constraints by its number, as the tries list them.

use crate::answer::{word, Refusal};
use crate::broken::broken;
use crate::store::Store;

/// What a row says: of a tie its two loaders and the name, of a subtype constraint its loader, the lower name and the higher.
#[derive(Clone, Copy, Debug, PartialEq, Eq)]
pub enum Row {
    Tie([u16; 3]),
    Subtype([u16; 3]),
}

pub fn row(store: &Store, number: u32) -> Result<Row, Refusal> {
    if broken(store) {
        return Err(Refusal::Word(word::BROKEN));
    }
    let tie = store.tie_rows().zip(store.tie_numbers()).find(|&(_, &its)| u32::from(its) == number).map(|(row, _)| Row::Tie(row));
    let subtype = || store.subtype_rows().zip(store.subtype_numbers()).find(|&(_, &its)| u32::from(its) == number).map(|(row, _)| Row::Subtype(row));
    tie.or_else(subtype).ok_or(Refusal::Word(word::UNKNOWN))
}

#[cfg(test)]
mod tests {
    use super::{row, Row};
    use crate::answer::{word, Refusal};
    use crate::store::{count, Store};

    #[test]
    fn a_row_is_the_one_of_its_number() {
        let mut store = Store::zeros();
        crate::boot(&mut store);
        assert_eq!(row(&store, 0), Err(Refusal::Word(word::UNKNOWN)));
        store.ties[..6].copy_from_slice(&[1, 2, 30, 2, 3, 30]);
        store.subtypes[..3].copy_from_slice(&[4, 10, 11]);
        (store.counts[count::TIES], store.counts[count::SUBTYPES]) = (2, 1);
        (store.counts[count::TIE_NUMBERS + 1], store.counts[count::SUBTYPE_NUMBERS]) = (2, 1);
        store.regroup();
        let said: Vec<_> = (0..4).map(|number| row(&store, number)).collect();
        assert_eq!(said, [Ok(Row::Tie([1, 2, 30])), Ok(Row::Subtype([4, 10, 11])), Ok(Row::Tie([2, 3, 30])), Err(Refusal::Word(word::UNKNOWN))]);
        store.counts[count::SUBTYPE_NUMBERS] = 2;
        assert_eq!(row(&store, 0), Err(Refusal::Word(word::BROKEN)));
    }
}
