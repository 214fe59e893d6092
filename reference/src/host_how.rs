//! The search for an order of offered loads as the library does it, and what its answer table should receive.

use crate::how::{Found, MOST_OFFERS};

#[cfg(feature = "host")]
pub use library::how;

/// Cells of the answer table: six as for every call, then the numbers of the offers found.
pub const CELLS: usize = crate::host::CELLS + MOST_OFFERS;

/// The number that is returned, and the cells that the answer table should receive; those behind them stay.
///
/// | kind | found | number | one | two, three, count | cells 6 to 13 |
/// |---|---|---|---|---|---|
/// | 6 | an order | 0 | how many loads | 0 | their offers, then 0 |
/// | 7 | nothing | 0 | 0 | 0 | stay |
/// | 4 | denied | the word's | 0 | 0 | stay |
pub fn expected(found: &Found) -> (u8, Vec<u32>) {
    match found {
        Found::Order(order) => {
            let mut cells = vec![6, 0, order.len() as u32, 0, 0, 0];
            cells.extend(order.iter().map(|&offer| u32::from(offer)));
            cells.resize(CELLS, 0);
            (0, cells)
        }
        Found::Nothing => (0, vec![7, 0, 0, 0, 0, 0]),
        Found::Denied(word) => (*word, vec![4, (*word).into(), 0, 0, 0, 0]),
    }
}

/// The answer as people read it, from the cells of a table that had room for all.
pub fn found(number: u8, cells: &[u32; CELLS]) -> Option<Found> {
    let loads = usize::try_from(cells[2]).ok().filter(|&loads| loads <= MOST_OFFERS)?;
    match (number, cells[0]) {
        (0, 6) => Some(Found::Order(cells[crate::host::CELLS..][..loads].iter().map(|&offer| offer as u8).collect())),
        (0, 7) => Some(Found::Nothing),
        (word, 4) => Some(Found::Denied(word)),
        _ => None,
    }
}

#[cfg(feature = "host")]
mod library {
    use crate::how::Question;
    use crate::store::Store;

    extern "C" {
        fn tariff_how(
            counts: *const u16, counts_length: usize,
            classes: *const u16, classes_length: usize,
            kept: *const u8, kept_length: usize,
            cache: *const u16, cache_length: usize,
            ties: *const u16, ties_length: usize,
            subtypes: *const u16, subtypes_length: usize,
            objects: *const u32, objects_length: usize,
            frames: *const u32, frames_length: usize,
            second_counts: *mut u16, second_counts_length: usize,
            second_classes: *mut u16, second_classes_length: usize,
            second_kept: *mut u8, second_kept_length: usize,
            second_cache: *mut u16, second_cache_length: usize,
            second_ties: *mut u16, second_ties_length: usize,
            second_subtypes: *mut u16, second_subtypes_length: usize,
            second_objects: *mut u32, second_objects_length: usize,
            second_frames: *mut u32, second_frames_length: usize,
            loader: u32, name: u16,
            offers: *const u32, offers_length: usize,
            files: *const u8, files_length: usize,
            answer: *mut u32, answer_length: usize,
        ) -> u8;
    }

    /// The search by the library, with this answer table: the number that it returns.
    pub fn how(own: &Store, second: &mut Store, question: &Question, answer: &mut [u32]) -> u8 {
        // SAFETY: every pointer comes with the length of a slice that lives through the call, and no two overlap.
        unsafe {
            tariff_how(
                own.counts.as_ptr(), own.counts.len(),
                own.classes.as_ptr(), own.classes.len(),
                own.kept.as_ptr(), own.kept.len(),
                own.cache.as_ptr(), own.cache.len(),
                own.ties.as_ptr(), own.ties.len(),
                own.subtypes.as_ptr(), own.subtypes.len(),
                own.objects.as_ptr(), own.objects.len(),
                own.frames.as_ptr(), own.frames.len(),
                second.counts.as_mut_ptr(), second.counts.len(),
                second.classes.as_mut_ptr(), second.classes.len(),
                second.kept.as_mut_ptr(), second.kept.len(),
                second.cache.as_mut_ptr(), second.cache.len(),
                second.ties.as_mut_ptr(), second.ties.len(),
                second.subtypes.as_mut_ptr(), second.subtypes.len(),
                second.objects.as_mut_ptr(), second.objects.len(),
                second.frames.as_mut_ptr(), second.frames.len(),
                question.loader, question.name,
                question.cells.as_ptr(), question.cells.len(),
                question.pool.as_ptr(), question.pool.len(),
                answer.as_mut_ptr(), answer.len(),
            )
        }
    }
}
