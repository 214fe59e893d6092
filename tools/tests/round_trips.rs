//! Every file has a listing, and the listing assembles to the same bytes: the examples', the generators', damaged ones.

mod common;

use reference::file::File;
use reference::gen::codes::{rejected, taken};
use reference::gen::files::{edge, file, of_length};
use reference::gen::{counts, mapped};
use reference::gen::rng::Rng;
use writer::input;
use writer::lesson::Lesson;
use writer::listing::listing;
use writer::names::Names;
use writer::source::Source;

/// The bytes of every text in this listing.
fn assembled(text: &str) -> Vec<(String, Vec<u8>)> {
    let source = Source { file: "listing".into(), text: text.into() };
    let lesson = Lesson::read(&source).unwrap_or_else(|problems| panic!("{}\n{text}", source.show_all(&problems)));
    lesson.texts.into_iter().map(|text| (text.called, text.bytes)).collect()
}

fn goes_round(bytes: &[u8]) {
    let text = listing(bytes, "Listed", &Names::default());
    assert_eq!(assembled(&text), [("Listed".to_string(), bytes.to_vec())], "{text}");
    let reads = File::read(bytes).is_some();
    assert_eq!(text.contains("# No class file: at byte "), !reads, "{text}");
    let says = |word: &str| !text.starts_with('#') && text.contains(&format!("  {word}: "));
    let number = reference::check(bytes);
    assert_eq!(says("REJECTED") || says("UNMAPPED"), reads && [6, 15].contains(&number), "{text}");
    assert!(number != 6 || !says("UNMAPPED"), "{text}");
}

#[test]
fn generated_and_damaged_files() {
    let mut kinds = [0; 16];
    for seed in 0..20_000 {
        let bytes = file(seed);
        goes_round(&bytes);
        kinds[usize::from(reference::check(&bytes))] += 1;
    }
    assert!([0, 2, 6, 15].iter().all(|&number| kinds[number] > 900), "{kinds:?}");
    let mut rng = Rng::new(7);
    (0..2_000).for_each(|_| goes_round(&edge(&mut rng)));
}

#[test]
fn each_reason_of_the_verifier() {
    rejected().into_iter().chain(taken()).for_each(|draft| goes_round(&draft.file()));
}

#[test]
fn files_of_version_2() {
    let drafts = mapped::taken().into_iter().chain(mapped::unmapped()).chain(mapped::rejected());
    drafts.for_each(|draft| goes_round(&draft.file()));
    mapped::bad().iter().for_each(|bytes| goes_round(bytes));
}

#[test]
fn files_of_version_3() {
    let drafts = counts::taken().into_iter().chain(counts::unmapped()).chain(counts::rejected());
    drafts.for_each(|draft| goes_round(&draft.file()));
    counts::bad().iter().for_each(|bytes| goes_round(bytes));
}

#[test]
fn every_length() {
    let long = of_length(10, 4_096);
    goes_round(&long);
    goes_round(&of_length(10, 4_098));
    (0..300).for_each(|length| goes_round(&long[..length]));
    goes_round(&vec![0x5A; 70_000]);
}

#[test]
fn the_examples() {
    for path in common::examples("box").into_iter().chain(common::examples("lesson")) {
        let source = common::source(&path);
        let read = input::read(&source.file, source.text.clone().into_bytes(), Names::default());
        let input = read.unwrap_or_else(|(source, problems)| panic!("{}", source.show_all(&problems)));
        assert!(!input.pieces.is_empty());
        let mut text = String::new();
        for (name, number) in input.names.declared() {
            text.push_str(&format!("name {name} {number}\n"));
        }
        input.pieces.iter().for_each(|piece| text.push_str(&listing(&piece.bytes, &piece.called, &input.names)));
        let pieces: Vec<_> = input.pieces.into_iter().map(|piece| (piece.called, piece.bytes)).collect();
        assert_eq!(assembled(&text), pieces, "{text}");
    }
}

#[test]
fn bytes_and_hexadecimal_are_one() {
    let bytes = of_length(300, 40);
    let digits: String = bytes.iter().map(|byte| format!("{byte:02x}\n")).collect();
    for written in [bytes.clone(), digits.into_bytes()] {
        let input = input::read("a", written, Names::default()).unwrap_or_else(|_| panic!("no input"));
        assert_eq!(input.pieces[0].bytes, bytes);
    }
}
