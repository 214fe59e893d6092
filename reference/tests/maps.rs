//! Files of version 2: word 15, the verifier and its notes beside the plainest reading, and what each slip of a machine would change.

use reference::file::File;
use reference::gen::files::file;
use reference::gen::plain::{judged, Note, Slip, SLIPS};
use reference::verifier::refused;

/// The notes of a file, or the word that refuses it.
fn ours(file: File) -> Result<Vec<Note>, u8> {
    let mut notes = Vec::new();
    let refused = refused(file, &mut |lower, higher| notes.push((lower, higher)));
    refused.map(|()| notes).map_err(|(word, _)| word)
}

#[test]
fn the_verifier_is_the_plain_reading() {
    let (mut words, mut seen) = ([0; 16], [0; SLIPS.len()]);
    for seed in 0..40_000 {
        let bytes = file(seed);
        let Some(file) = File::read(&bytes) else {
            continue;
        };
        let found = ours(file);
        assert_eq!(found, judged(file, Slip::Nothing), "file {seed}: {bytes:02X?}");
        words[found.as_ref().map_or_else(|&word| usize::from(word), |_| 0)] += usize::from(file.version() == 2);
        for ((_, slip), seen) in SLIPS.iter().zip(&mut seen) {
            *seen += usize::from(judged(file, *slip) != found);
        }
    }
    println!("of version 2: {} accepted, {} unmapped, {} unverified", words[0], words[15], words[6]);
    for ((name, _), seen) in SLIPS.iter().zip(seen) {
        println!("{seen:>6} {name}");
    }
    assert!([0, 6, 15].iter().all(|&word| words[word] > 1_000), "{words:?}");
    assert!(seen.iter().all(|&seen| seen > 20), "a slip that hardly a file shows");
}
