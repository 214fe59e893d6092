//! `box change-over`: a saved store of the old layout, a quote half run in it, and today's tables in a file.
//! `cargo test --features host`.

#![cfg(feature = "host")]

use std::fs;
use std::path::PathBuf;

use reference::gen::halfway::{after, halves_of_two};
use reference::gen::Call;
use reference::old::{self, OldStore};
use reference::store::LENGTHS;
use reference::{Answer, Reply, Store};
use writer::old::{read, run};

fn bytes(old: &OldStore) -> Vec<u8> {
    let words = |cells: &[u16]| cells.iter().flat_map(|cell| cell.to_le_bytes()).collect::<Vec<u8>>();
    let longs = |cells: &[u32]| cells.iter().flat_map(|cell| cell.to_le_bytes()).collect::<Vec<u8>>();
    let rows = [words(&old.cache), words(&old.ties), words(&old.subtypes)].concat();
    [words(&old.counts), words(&old.classes), old.kept.clone(), rows, longs(&old.objects), longs(&old.frames)].concat()
}

/// Today's tables, as a program keeps them in one piece.
fn store(bytes: &[u8]) -> Store {
    assert_eq!(bytes.len(), 70_868);
    let mut at = 0;
    let mut part = |length: usize| {
        at += length;
        &bytes[at - length..at]
    };
    let words = |bytes: &[u8]| bytes.chunks_exact(2).map(|cell| u16::from_le_bytes([cell[0], cell[1]])).collect::<Vec<u16>>();
    let longs = |bytes: &[u8]| bytes.chunks_exact(4).map(|cell| u32::from_le_bytes([cell[0], cell[1], cell[2], cell[3]])).collect::<Vec<u32>>();
    let (counts, classes, kept) = (words(part(2 * LENGTHS[0])), words(part(2 * LENGTHS[1])), part(LENGTHS[2]).to_vec());
    let [cache, ties, subtypes] = [3, 4, 5].map(|table| words(part(2 * LENGTHS[table])));
    part(2);
    let [objects, frames] = [6, 7].map(|table| longs(part(4 * LENGTHS[table])));
    Store { counts, classes, kept, cache, ties, subtypes, objects, frames }
}

fn file(name: &str) -> PathBuf {
    std::env::temp_dir().join(format!("changeover-{}-{name}", std::process::id()))
}

/// The bytes in a file, changed over, and what today's tables hold; or the status and what is said.
fn changed(name: &str, bytes: &[u8]) -> Result<(String, Store), (u8, String)> {
    let (from, to) = (file(name), file(&format!("{name}-new")));
    fs::write(&from, bytes).expect("a file");
    let done = run(&from.to_string_lossy(), Some(&to.to_string_lossy()));
    let new = fs::read(&to);
    assert_eq!(done.is_ok(), new.is_ok(), "a refusal writes nothing");
    [from, to].iter().for_each(|file| drop(fs::remove_file(file)));
    done.map(|said| (said, store(&new.expect("a file"))))
}

#[test]
fn a_quote_half_run_is_finished_with_the_same_premium() {
    let mut old = after(&halves_of_two([5, 6]).calls);
    assert!(old.frame_count(0) > 1, "a frame of the quote's waits");
    let (said, mut new) = changed("half", &bytes(&old)).expect("it is changed over");
    assert!(said.contains("is changed over\n") && said.contains("70868 bytes"), "{said}");
    assert_eq!(read(&bytes(&old)), Some(old.clone()));
    let end = Call::Run { n: 1_000 };
    for _ in 0..2 {
        let premium = old::make(&end, &mut old).expect("a call of the old machine's");
        assert!(matches!(premium, Reply::RanFor(_, Answer::Finished(..))), "{premium:?}");
        assert_eq!(end.apply(&mut new), premium);
    }
}

#[test]
fn other_files_are_refused() {
    for length in [0, 68_495, 68_497, 70_868] {
        let (status, said) = changed("length", &vec![0; length]).expect_err("another length");
        assert!(status == 1 && said.contains(&format!("has {length} bytes, and an old store 68496")), "{status}: {said}");
    }
    let mut old = OldStore::zeros();
    old.counts[3] = 257;
    let (status, said) = changed("broken", &bytes(&old)).expect_err("a broken store");
    assert!(status == 1 && said.contains("refused: 1, broken, by the first document's rules"), "{status}: {said}");
    assert!(changed("zeros", &bytes(&OldStore::zeros())).is_ok(), "before any boot");
    assert_eq!(run("/nowhere/at-all", None).expect_err("no file").0, 2);
}
