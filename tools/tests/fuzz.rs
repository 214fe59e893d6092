//! Any bytes as a lesson, a script, a text or a class file: no panic. FUZZ_SECONDS says for how long, 2 if it isn't set, and
//! FUZZ_SEED the first seed, 0 if it isn't.

mod common;

use std::time::{Duration, Instant};
use std::{env, io};

use reference::gen::files::file;
use reference::gen::rng::Rng;
use writer::check::{check, Verdict};
use writer::input;
use writer::lesson::Lesson;
use writer::listing::listing;
use writer::names::Names;
use writer::page::page;
use writer::play::{Play, Show};
use writer::script;
use writer::source::Source;
use writer::talk::Talk;

/// Pieces that make sense somewhere.
const WORDS: [&str; 52] = [
    "insurer Red 2\n",
    "insurer Blue\nready Blue 1 2\n",
    "Red defines ",
    "order A {\n",
    "mistake compares-by-name\n",
    "mistake sweep-frees-all\n",
    "ask ",
    "> </script><script>\n",
    "version 2 ",
    "version 3 ",
    "again: ",
    "again:\n",
    "goto again\n",
    "ifeq 7\n",
    "if_icmplt done ",
    "map [int] {Object - int}\n",
    "map at 3 [] {}\n",
    "[",
    "] - ",
    "name ",
    "class ",
    "extends ",
    "Object ",
    "int ",
    "field ",
    "method ",
    "{",
    "}",
    "(",
    ")",
    ".",
    ":",
    "# ",
    "> ",
    "bytes ",
    "file ",
    "expect ",
    "repeat 3 {",
    "damage counts 5 300",
    "damage kept 3 0\n",
    "run 65535\n",
    "step\n",
    "sweep\n",
    "take back\n",
    "damage counts 9 1\n",
    "quote ",
    "-2147483649 ",
    "4294967296 ",
    "99999999999999999999 ",
    "damage frames 0 4294967295\n",
    "é",
    "\u{0}",
];

/// The bytes with a few parts changed, left out, doubled or moved.
fn mutated(mut bytes: Vec<u8>, rng: &mut Rng) -> Vec<u8> {
    for _ in 0..rng.within(1, 6) {
        let at = rng.below(bytes.len() + 1);
        let end = (at + rng.below(30)).min(bytes.len());
        match rng.below(6) {
            0 => drop(bytes.drain(at..end)),
            1 => {
                let part: Vec<u8> = bytes[at..end].to_vec();
                let to = rng.below(bytes.len() + 1);
                drop(bytes.splice(to..to, part));
            }
            2 => bytes.truncate(at.max(1)),
            3 if at < bytes.len() => bytes[at] = rng.draw() as u8,
            4 if at < bytes.len() => bytes[at] = b"0123456789 \n{}.#>-aA"[rng.below(20)],
            _ => drop(bytes.splice(at..at, WORDS[rng.below(WORDS.len())].bytes())),
        }
    }
    bytes
}

fn drawn(seed: u64, texts: &[Vec<u8>]) -> Vec<u8> {
    let mut rng = Rng::new(seed);
    let text = texts[rng.below(texts.len())].clone();
    match rng.below(8) {
        0 => {
            let length = rng.below(300);
            rng.bytes(length)
        }
        1 => file(seed),
        2 => mutated(file(seed).iter().map(|byte| format!("{byte:02X} ")).collect::<String>().into_bytes(), &mut rng),
        3 => mutated(listing(&file(seed), "Listed", &Names::default()).into_bytes(), &mut rng),
        4 => (0..rng.below(60)).flat_map(|_| WORDS[rng.below(WORDS.len())].bytes()).collect(),
        _ => mutated(text, &mut rng),
    }
}

/// Everything that the program does with a file.
fn try_all(name: &str, bytes: Vec<u8>) {
    match input::read(name, bytes.clone(), Names::default()) {
        Ok(input) => {
            input.pieces.iter().for_each(|piece| drop(listing(&piece.bytes, &piece.called, &input.names)));
            let (verdict, said) = check(&input);
            assert!(verdict != Verdict::Differ, "{said}");
        }
        Err((source, problems)) => assert!(source.show_all(&problems).contains(" | ")),
    }
    let lossy = String::from_utf8_lossy(&bytes).into_owned();
    // those write files
    if !lossy.contains("save") && !lossy.contains("draw") {
        let talked = Talk::new(&mut io::sink()).and_then(|mut talk| talk.talk(&mut &bytes[..], false));
        talked.expect("a talk that ends with its input");
    }
    drop(script::beside(&lossy, "R 0 0 0 0\nN 5 1 2 3\nD", &Names::default()));
    match Source::new(name, bytes) {
        Ok(source) => {
            let lesson =
                if name.ends_with(".box") { Ok(script::lesson(&source, Names::default())) } else { Lesson::read(&source) };
            match lesson {
                Ok(lesson) => {
                    for why in [false, true] {
                        let outcome = Play::run(&source, &lesson, Show { store: true, draw: true, why, how: !why }, &mut io::sink());
                        drop(outcome.expect("a machine").strip.svg());
                    }
                    let made = page(&source, &lesson, name, None).expect("a machine");
                    assert_eq!(made.html.matches("</script>").count(), 2, "a lesson ends the page's script");
                }
                Err(problems) => assert!(source.show_all(&problems).contains(" | ")),
            }
        }
        Err((source, problems)) => assert!(source.show_all(&problems).contains(" | ")),
    }
}

#[test]
fn any_bytes() {
    let number = |name: &str| env::var(name).ok().and_then(|text| text.parse::<u64>().ok());
    let seconds = number("FUZZ_SECONDS").unwrap_or(2);
    let first = number("FUZZ_SEED").unwrap_or(0);
    let end = Instant::now() + Duration::from_secs(seconds);
    let paths = common::examples("lesson").into_iter().chain(common::examples("box"));
    let texts: Vec<Vec<u8>> = paths.map(|path| common::source(&path).text.into_bytes()).collect();
    let mut seed = first;
    while seed < first + 300 || Instant::now() < end {
        let name = ["a.lesson", "a.box", "a.class"][(seed % 3) as usize];
        let bytes = drawn(seed, &texts);
        let tried = std::panic::catch_unwind(|| try_all(name, bytes.clone()));
        assert!(tried.is_ok(), "seed {seed}, {name}: {}", String::from_utf8_lossy(&bytes));
        seed += 1;
    }
    println!("{} inputs", seed - first);
}
