//! The search for an order of offered loads behind the C interface.

use faulty::searched;
use reference::host_how::expected;
use reference::how::Question;
use reference::Store;

use crate::{give_back, lent};

/// The tables of a store as they are lent.
macro_rules! store_of {
    ($counts:ident, $classes:ident, $kept:ident, $cache:ident, $ties:ident, $subtypes:ident, $objects:ident, $frames:ident) => {
        Store {
            counts: $counts.to_vec(),
            classes: $classes.to_vec(),
            kept: $kept.to_vec(),
            cache: $cache.to_vec(),
            ties: $ties.to_vec(),
            subtypes: $subtypes.to_vec(),
            objects: $objects.to_vec(),
            frames: $frames.to_vec(),
        }
    };
}

/// # Safety
/// Each pointer comes with the length of a slice that is lent for the call. The box's tables are read alone, but by one wrong machine.
#[no_mangle]
pub unsafe extern "C" fn tariff_how(
    counts: *const u16, counts_length: usize,
    classes: *const u16, classes_length: usize,
    kept: *const u8, kept_length: usize,
    cache: *const u16, cache_length: usize,
    ties: *const u16, ties_length: usize,
    subtypes: *const u16, subtypes_length: usize,
    objects: *const u32, objects_length: usize,
    frames: *const u32, frames_length: usize,
    second_counts: *mut u16, second_counts_length: usize,
    second_classes: *mut u16, second_classes_length: usize,
    second_kept: *mut u8, second_kept_length: usize,
    second_cache: *mut u16, second_cache_length: usize,
    second_ties: *mut u16, second_ties_length: usize,
    second_subtypes: *mut u16, second_subtypes_length: usize,
    second_objects: *mut u32, second_objects_length: usize,
    second_frames: *mut u32, second_frames_length: usize,
    loader: u32, name: u16,
    offers: *const u32, offers_length: usize,
    files: *const u8, files_length: usize,
    answer: *mut u32, answer_length: usize,
) -> u8 {
    let counts = lent(counts as *mut u16, counts_length);
    let classes = lent(classes as *mut u16, classes_length);
    let kept = lent(kept as *mut u8, kept_length);
    let cache = lent(cache as *mut u16, cache_length);
    let ties = lent(ties as *mut u16, ties_length);
    let subtypes = lent(subtypes as *mut u16, subtypes_length);
    let objects = lent(objects as *mut u32, objects_length);
    let frames = lent(frames as *mut u32, frames_length);
    let mut own = store_of!(counts, classes, kept, cache, ties, subtypes, objects, frames);
    let second_counts = lent(second_counts, second_counts_length);
    let second_classes = lent(second_classes, second_classes_length);
    let second_kept = lent(second_kept, second_kept_length);
    let second_cache = lent(second_cache, second_cache_length);
    let second_ties = lent(second_ties, second_ties_length);
    let second_subtypes = lent(second_subtypes, second_subtypes_length);
    let second_objects = lent(second_objects, second_objects_length);
    let second_frames = lent(second_frames, second_frames_length);
    let mut second = store_of!(
        second_counts, second_classes, second_kept, second_cache, second_ties, second_subtypes, second_objects, second_frames
    );
    let cells = lent(offers as *mut u32, offers_length).to_vec();
    let pool = lent(files as *mut u8, files_length).to_vec();
    let found = searched::how(&mut own, &mut second, &Question { loader, name, cells, pool });
    give_back(counts, &own.counts);
    give_back(second_counts, &second.counts);
    give_back(second_classes, &second.classes);
    give_back(second_kept, &second.kept);
    give_back(second_cache, &second.cache);
    give_back(second_ties, &second.ties);
    give_back(second_subtypes, &second.subtypes);
    give_back(second_objects, &second.objects);
    give_back(second_frames, &second.frames);
    let (number, told) = expected(&found);
    lent(answer, answer_length).iter_mut().zip(told).for_each(|(cell, told)| *cell = told);
    number
}
