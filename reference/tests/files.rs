//! The desk's check on files of all kinds, beside a second reader of the file rules.

use reference::check;
use reference::gen::build::{Code, Draft};
use reference::gen::codes::{rejected, taken};
use reference::gen::files::{edge, file, of_length};
use reference::gen::{counts, mapped};
use reference::gen::rng::Rng;
use reference::gen::Trial;
use reference::store::INT;
use reference::{Refusal, Reply};

/// The file rules read off from front to back.
struct Reader<'a>(&'a [u8]);

impl Reader<'_> {
    fn byte(&mut self) -> Option<u8> {
        let (&first, rest) = self.0.split_first()?;
        self.0 = rest;
        Some(first)
    }

    fn word(&mut self) -> Option<u16> {
        Some(u16::from(self.byte()?) << 8 | u16::from(self.byte()?))
    }

    fn word_from(&mut self, least: u16) -> Option<u16> {
        self.word().filter(|&word| word >= least)
    }

    /// The types of the arguments: one, or in version 3 as many as a byte says.
    fn list(&mut self, version: u8) -> Option<Vec<u16>> {
        let count = if version == 3 { self.byte().filter(|&count| count <= 4)? } else { 1 };
        (0..count).map(|_| self.word_from(1)).collect()
    }

    fn maps(&mut self) -> Option<()> {
        let mut offsets = Vec::new();
        for _ in 0..self.byte()? {
            offsets.push(self.word()?);
            (0..8).try_for_each(|_| self.word().map(|_| ()))?;
            let operands = self.byte().filter(|&count| count <= 16)?;
            (0..operands).try_for_each(|_| self.word_from(1).map(|_| ()))?;
        }
        offsets.windows(2).all(|pair| pair[0] < pair[1]).then_some(())
    }
}

fn reads(bytes: &[u8]) -> Option<()> {
    let mut reader = Reader(bytes);
    let version = reader.byte().filter(|version| [1, 2, 3].contains(version))?;
    (bytes.len() <= 4_096).then_some(())?;
    (usize::from(reader.word()?) == reader.0.len()).then_some(())?;
    reader.word_from(2)?;
    reader.word_from(2)?;
    let mut fields = Vec::new();
    for _ in 0..reader.byte().filter(|&count| count <= 8)? {
        let field = reader.word_from(1)?;
        reader.word_from(1)?;
        (!fields.contains(&field)).then(|| fields.push(field))?;
    }
    let mut methods = Vec::new();
    for _ in 0..reader.byte().filter(|&count| count <= 8)? {
        let method = (reader.word_from(1)?, reader.list(version)?, reader.word_from(1)?);
        (!methods.contains(&method)).then(|| methods.push(method))?;
        for _ in 0..reader.word().filter(|&length| (1..=512).contains(&length))? {
            reader.byte()?;
        }
        if version > 1 {
            reader.maps()?;
        }
    }
    reader.0.is_empty().then_some(())
}

#[test]
fn many_files() {
    let mut seen = [0u64; 16];
    for seed in 0..30_000 {
        let bytes = file(seed);
        let number = check(&bytes);
        assert_eq!(number == 2, reads(&bytes).is_none(), "file {seed}: {bytes:02X?}");
        seen[usize::from(number)] += 1;
        let reply = Trial::ready([1]).call(reference::gen::Call::Define { loader: 1, file: bytes });
        let refused = match reply {
            Reply::Denied(Refusal::Word(given @ (2 | 6 | 15))) => given,
            _ => 0,
        };
        assert_eq!(refused, number, "file {seed}: define says {reply:?}");
    }
    println!("good {}, bad files {}, unmapped {}, unverified {}", seen[0], seen[2], seen[15], seen[6]);
    assert!([0, 2, 6, 15].iter().all(|&number| seen[number] > 1_000));
}

#[test]
fn edges_on_both_sides() {
    let mut rng = Rng::new(5);
    let numbers: Vec<u8> = (0..2_000).map(|_| check(&edge(&mut rng))).collect();
    assert!(numbers.contains(&0) && numbers.contains(&2));
}

#[test]
fn lengths() {
    for length in (22..600).chain(4_000..4_097) {
        let bytes = of_length(10, length);
        assert_eq!((bytes.len(), check(&bytes)), (length, 0));
    }
    assert_eq!(check(&of_length(10, 4_097)), 2);
    let good = of_length(10, 300);
    for length in 0..300 {
        assert_eq!(check(&good[..length]), 2);
    }
    let mut longer = good;
    longer.push(0);
    assert_eq!(check(&longer), 2);
}

#[test]
fn the_verifier_rejects() {
    for (at, draft) in rejected().into_iter().enumerate() {
        assert_eq!(check(&draft.file()), 6, "case {at}: {:02X?}", draft.methods);
    }
}

#[test]
fn the_verifier_takes() {
    for (at, draft) in taken().into_iter().enumerate() {
        assert_eq!(check(&draft.file()), 0, "case {at}: {:02X?}", draft.methods);
    }
}

/// Files by the desk's number for them.
fn by_hand(drafts: [(u8, Vec<Draft>); 3], bad: Vec<Vec<u8>>) {
    for (number, drafts) in drafts {
        for (at, draft) in drafts.into_iter().enumerate() {
            assert_eq!(check(&draft.file()), number, "case {at}: {:02X?}", draft.methods);
        }
    }
    for (at, bytes) in bad.into_iter().enumerate() {
        assert_eq!(check(&bytes), 2, "case {at}: {bytes:02X?}");
        assert!(reads(&bytes).is_none(), "case {at}");
    }
}

#[test]
fn files_of_version_2_by_hand() {
    by_hand([(0, mapped::taken()), (15, mapped::unmapped()), (6, mapped::rejected())], mapped::bad());
}

#[test]
fn files_of_version_3_by_hand() {
    by_hand([(0, counts::taken()), (15, counts::unmapped()), (6, counts::rejected())], counts::bad());
}

#[test]
fn notes_in_order() {
    let first = Code::new().aload(0).aload(1).putfield(12, 30, 13).object(14).aload(0).invoke(15, 21, 16, 17).areturn();
    let second = Code::new().aload(0).getfield(10, 30, INT).ireturn();
    let third = Code::new().object(19).getfield(10, 30, INT).null().pop().ireturn();
    let mut trial = Trial::ready([1]);
    let draft = Draft::new(10).method(20, 11, 18, &first).main(21, &second).main(22, &third);
    assert_eq!(trial.define(1, &draft), Reply::Defined(1));
    let notes = [[1, 10, 12], [1, 11, 13], [1, 14, 15], [1, 10, 16], [1, 17, 18], [1, 19, 10]];
    assert_eq!(trial.store.subtype_rows().collect::<Vec<_>>(), notes);
}
