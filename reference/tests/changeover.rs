//! The machine of document 01, and the changeover from its tables (paper 12).

use reference::agree::{agrees, Added};
use reference::answer::{denied, word, Reply};
use reference::broken::unbroken;
use reference::changeover::{carried, change_over, old_tables, side_by_side, LATER};
use reference::file::File;
use reference::gen::files::file;
use reference::gen::halfway::{after, damaged_old, half, made, new_tables, SHAPES};
use reference::gen::rng::Rng;
use reference::gen::Call;
use reference::old::{self, OldStore};
use reference::store::{count, Store, LENGTHS};
use reference::{broken, check, misplaced, take_back};

const SEEDS: u64 = 1_500;

/// The old machine beside today's on lists of document 01's calls, from a boot: all is the same until something later is involved.
#[test]
fn the_old_machine_is_todays_without_the_papers() {
    let mut ends = [0; LATER.len()];
    for seed in 0..SEEDS {
        let trial = reference::gen::list::early_list(seed, 100);
        let (mut old, mut new) = (OldStore::zeros(), Store::zeros());
        // its cells behind the counts are a changeover's
        change_over(&old, &mut new);
        let compared = side_by_side(&mut old, &mut new, &trial.calls, &format!("list {seed}"), |call, store| call.apply(store));
        compared.by.into_iter().for_each(|by| ends[by as usize] += 1);
    }
    assert!(ends[0] > 0, "{ends:?}");
}

/// Files of version 1 are judged alike; those of any other version are none.
#[test]
fn the_old_file_rules_and_verifier() {
    let mut seen = [0; 3];
    for seed in 0..40_000 {
        let mut bytes = file(seed);
        let number = |bytes: &[u8]| match old::read(bytes) {
            None => 2,
            Some(file) if old::verify(&file).is_none() => 6,
            Some(_) => 0,
        };
        if bytes.first().is_some_and(|&version| version != 1) {
            assert_eq!(number(&bytes), 2, "file {seed}");
            bytes[0] = 1;
        }
        assert_eq!(number(&bytes), check(&bytes), "file {seed}: {bytes:02X?}");
        seen[[0, 2, 6].iter().position(|&word| word == number(&bytes)).expect("a word")] += 1;
    }
    assert!(seen.iter().all(|&files| files > 100), "{seen:?}");
}

/// Half run stores go on as they would have, and what comes from a boot stays sound.
#[test]
fn half_run_stores_go_on() {
    let (mut ends, mut calls, mut finished) = ([0; LATER.len() + 1], 0, 0);
    for seed in 0..SEEDS {
        let mut half = half(seed);
        let (label, mut new) = (format!("half {seed}"), new_tables(2 * seed));
        if new.lengths() != LENGTHS {
            new = Store::zeros();
        }
        assert_eq!(change_over(&half.old, &mut new), Reply::Accepted, "{label}");
        sound(&new, &label);
        let compared = side_by_side(&mut half.old, &mut new, &half.calls, &label, |call, store| {
            let reply = call.apply(store);
            finished += usize::from(matches!(reply, Reply::RanFor(_, reference::Answer::Finished(..))));
            sound(store, &label);
            reply
        });
        calls += compared.calls;
        ends[compared.by.map_or(LATER.len(), |by| by as usize)] += 1;
    }
    println!("{calls} calls, {finished} runs to an end; ended by {LATER:?} or not: {ends:?}");
    assert!(calls > 10_000 && finished > 100 && ends[..LATER.len()].iter().all(|&ends| ends > 0), "{calls}, {finished}, {ends:?}");
}

fn sound(store: &Store, label: &str) {
    let classes = unbroken(store).unwrap_or_else(|| panic!("{label}: broken"));
    assert_eq!(misplaced(store), 0, "{label}");
    assert!(agrees(store, &Added::default(), &classes), "{label}");
}

/// Of a damaged store: refused exactly if document 01 calls it broken, which is today's rule of the carried tables and a look at versions; if not, calls go on
/// as they would have.
#[test]
fn damaged_old_stores() {
    let (mut shapes, mut refused) = ([0; SHAPES.len()], 0);
    for seed in 0..SEEDS {
        let (mut old, label) = (damaged_old(seed), format!("damaged {seed}"));
        SHAPES.iter().zip(&mut shapes).for_each(|((_, has), stores)| *stores += u64::from(has(&old)));
        let (before, mut new) = (new_tables(seed), new_tables(seed));
        let reply = change_over(&old, &mut new);
        let fits = old.lengths() == old::tables::LENGTHS && old.counts.iter().zip(reference::store::LIMITS).all(|(&count, limit)| count <= limit);
        let is_broken = !fits || broken(&carried(&old)) || keeps_later(&old);
        assert_eq!(is_broken, old::broken(&old), "{label}");
        if is_broken || before.lengths() != LENGTHS {
            assert_eq!((reply, &new), (denied(word::BROKEN), &before), "{label}");
            refused += 1;
            continue;
        }
        assert_eq!((reply, &new), (Reply::Accepted, &carried(&old)), "{label}");
        let mut calls = reference::gen::damage::probes(seed, &new);
        calls.retain(|call| *call != Call::Boot && *call != Call::Sweep && *call != Call::TakeBack);
        side_by_side(&mut old, &mut new, &calls, &label, |call, store| call.apply(store));
    }
    for ((what, _), stores) in SHAPES.iter().zip(shapes) {
        println!("{stores} with {what}");
        assert!(stores > 0, "no old store has {what}");
    }
    assert!(refused > 100, "{refused}");
}

/// Is a kept file of another version than 1?
fn keeps_later(old: &OldStore) -> bool {
    let store = carried(old);
    (1..store.counts[count::CLASSES]).any(|class| store.file_bytes(class).and_then(File::read).is_some_and(|file| file.version() != 1))
}

/// The cells behind the counts, one by one.
#[test]
fn the_cells_that_are_filled() {
    let mut old = OldStore::zeros();
    old::make(&Call::Boot, &mut old);
    for (row, cells) in [[1, 2, 10], [4, 5, 11], [2, 3, 10]].into_iter().enumerate() {
        old.ties[3 * row..3 * row + 3].copy_from_slice(&cells);
    }
    old.counts[3..6].copy_from_slice(&[3, 2, 1]);
    old.subtypes[..6].copy_from_slice(&[1, 12, 13, 2, 14, 15]);
    old.frames[3_327] = 77;
    let mut new = new_tables(3);
    new = if new.lengths() == LENGTHS { new } else { Store::zeros() };
    assert_eq!(change_over(&old, &mut new), Reply::Accepted);
    assert_eq!(new.counts[..8], old.counts[..]);
    assert!(new.counts[8..264].iter().all(|&owner| owner == 1));
    assert!(new.counts[264..520].iter().zip(0..).all(|(&number, row)| number == row));
    assert!(new.counts[520..776].iter().zip(3..).all(|(&number, row)| number == row));
    assert!(new.counts[776..937].iter().all(|&cell| cell == 0));
    assert_eq!(new.counts[937..940], [0, 1, 0]);
    assert!(new.counts[940..].iter().all(|&cell| cell == 0));
    assert_eq!(old_tables(&new), old);
    assert_eq!(take_back(&mut new), denied(word::TOO_LATE));
}

/// An old report may have made all 256 objects: they are the quote's then, and no call is told of a share.
#[test]
fn a_reports_objects_are_the_quotes() {
    let mut most = 0;
    for seed in 0..40 {
        let old = after(&made(&mut Rng::new(seed)).calls);
        let mut new = Store::zeros();
        assert_eq!(change_over(&old, &mut new), Reply::Accepted);
        assert_eq!([new.made_by(0), new.made_by(1)], [old.count(5), 0]);
        assert!(!new.is_share_used(1));
        most = most.max(old.count(5));
    }
    assert_eq!(most, 256);
}
