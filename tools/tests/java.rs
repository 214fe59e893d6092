//! Java on HotSpot and on the box: programs written by hand and drawn at random, compiled by javac, with the same results on HotSpot, by the
//! library of the proved machine, and by boxscript.
//!
//! JAVA_PROGRAMS says how many are drawn, JAVA_SEED from which seed on, BOXSCRIPT where boxscript is.

#[path = "java/generate.rs"]
mod generate;

use std::collections::HashMap;
use std::fs;
use std::io::Write;
use std::path::{Path, PathBuf};
use std::process::{Command, Stdio};
use std::sync::OnceLock;

use reference::answer::word;
use reference::gen::rng::Rng;
use reference::gen::Call;
use reference::Store;
use writer::java::classfile::ClassFile;
use writer::java::compile::{class_files, Folder};
use writer::java::names::Library;
use writer::java::refusals;
use writer::java::translate::{translate, Given};
use writer::machine;

fn number(name: &str) -> Option<u64> {
    std::env::var(name).ok()?.parse().ok()
}

fn here() -> PathBuf {
    Path::new(env!("CARGO_MANIFEST_DIR")).join("tests/java")
}

/// Classes under their loaders, and methods from int to int to run.
#[derive(Default)]
struct Case {
    said: String,
    /// Loader, name and class file, superclasses first.
    defines: Vec<(u16, String, PathBuf)>,
    /// Loader, name and the loader that it leaves the name to.
    records: Vec<(u16, String, u16)>,
    /// Loader, class, method, int.
    runs: Vec<(u16, String, String, i32)>,
}

fn javac(files: &[PathBuf], into: &Path, list: &Path) {
    let names: String = files.iter().map(|file| format!("{}\n", file.display())).collect();
    fs::write(list, names).expect("a list of files");
    let given = Command::new("javac").args(["-nowarn", "-Xlint:none", "-g:lines,source", "-proc:none", "-encoding", "UTF-8", "-cp"]).arg(into)
        .arg("-d").arg(into).arg(format!("@{}", list.display())).output().expect("javac: sudo apt-get install default-jdk-headless");
    assert!(given.status.success(), "{}", String::from_utf8_lossy(&given.stderr));
}

/// What HotSpot makes of each run, one after the other.
fn on_hotspot(cases: &[Case]) -> Vec<String> {
    let mut plan = String::new();
    for case in cases {
        plan.push_str("fresh\n");
        for (loader, name, path) in &case.defines {
            plan.push_str(&format!("loader {loader} defines {name} {}\n", path.display()));
        }
        for (loader, name, of) in &case.records {
            plan.push_str(&format!("loader {loader} records {name} of {of}\n"));
        }
        for (loader, class, method, int) in &case.runs {
            plan.push_str(&format!("run {loader} {class} {method} {int}\n"));
        }
    }
    let mut java = Command::new("java").args(["-XX:TieredStopAtLevel=1", "-XX:+UseSerialGC", "-Xshare:auto", "-cp"]).arg(compiled().0).arg("Runner")
        .stdin(Stdio::piped()).stdout(Stdio::piped()).spawn().expect("java");
    let mut input = java.stdin.take().expect("its input");
    let write = std::thread::spawn(move || input.write_all(plan.as_bytes()));
    let output = java.wait_with_output().expect("java");
    write.join().expect("a thread").expect("its input");
    assert!(output.status.success());
    String::from_utf8(output.stdout).expect("text").lines().map(str::to_string).collect()
}

/// The box files of a case by loader and name, and the names.
type Boxed = (HashMap<(u16, String), Vec<u8>>, Library);

/// The box files of a case; what is refused if it is. The classes of one loader are translated together, with the others at hand.
fn boxed(case: &Case) -> Result<Boxed, String> {
    let mut library = Library::default();
    let mut files = HashMap::new();
    let bytes = |path: &Path| fs::read(path).expect("a class file");
    for loader in 1..=3 {
        let own: Vec<_> = case.defines.iter().filter(|define| define.0 == loader).collect();
        let given: Vec<Given> = own.iter().map(|define| Given { path: define.1.clone(), bytes: bytes(&define.2), source: None }).collect();
        let others: Vec<Vec<u8>> = case.defines.iter().filter(|define| define.0 != loader).map(|define| bytes(&define.2)).collect();
        let made = translate(&given, &others, &mut library).map_err(|refused| refusals::show(&refused))?;
        files.extend(made.into_iter().map(|made| ((loader, made.called), made.bytes)));
    }
    Ok((files, library))
}

/// The calls that load a case's classes. A record goes before the first define of its loader where it can, else behind all.
fn loads(case: &Case, (files, library): &Boxed) -> Vec<Call> {
    let number = |name: &str| library.names.number(name).expect("a name");
    let mut calls = Vec::new();
    let mut classes: HashMap<(u16, &str), u32> = HashMap::new();
    for loader in 1..=3u32 {
        calls.push(Call::Record { loader, name: 2, class: 0 });
    }
    for (loader, name, _) in &case.defines {
        for (to, recorded, of) in case.records.iter().filter(|record| record.0 == *loader) {
            if let (Some(&class), false) = (classes.get(&(*of, recorded.as_str())), classes.contains_key(&(*to, recorded.as_str()))) {
                calls.push(Call::Record { loader: u32::from(*to), name: number(recorded).into(), class });
                classes.insert((*to, recorded), class);
            }
        }
        let class = case.defines.iter().position(|define| define.0 == *loader && define.1 == *name).expect("a class") as u32 + 1;
        calls.push(Call::Define { loader: u32::from(*loader), file: files[&(*loader, name.clone())].clone() });
        classes.insert((*loader, name), class);
    }
    for (to, recorded, of) in case.records.iter().filter(|record| !classes.contains_key(&(record.0, record.1.as_str()))) {
        calls.push(Call::Record { loader: u32::from(*to), name: number(recorded).into(), class: classes[&(*of, recorded.as_str())] });
    }
    calls
}

/// What ends a run on the box, in the words that the runner has; nothing if it isn't to be compared.
fn ended(number: u8, result: u32) -> Option<String> {
    match number {
        0 => Some((result as i32).to_string()),
        word::ZERO_DIVISOR => Some("zero divisor".into()),
        word::NULL => Some("null".into()),
        word::CLASH => Some("clash".into()),
        word::FULL => None,
        other => Some(format!("refused with {other}")),
    }
}

const MOST_STEPS: u32 = 200_000;

/// A run by the library: what ended it, and how many steps ran before.
fn by_library(store: &mut Store, start: &Call) -> (Option<String>, u32) {
    let make = |call: &Call, store: &mut Store| machine::make(call, store, &mut []).expect("a machine");
    let started = make(start, store);
    assert_eq!(started.number, 0, "{start:?}");
    let mut steps = 0;
    loop {
        let told = make(&Call::Run { n: 60_000 }, store);
        let [_, number, one, _, result, ran] = told.cells;
        steps += ran;
        if number != 0 || one == 2 || steps > MOST_STEPS {
            make(&Call::Drop { task: 0 }, store);
            make(&Call::Sweep, store);
            let is_over = number != 0 || one == 2;
            return (is_over.then(|| ended(number as u8, result)).flatten(), steps);
        }
    }
}

fn line(call: &Call) -> String {
    match call {
        Call::Record { loader, name, class } => format!("R {loader} {name} {class}\n"),
        Call::Define { loader, file } => format!("D {loader} {}\n", file.iter().map(|byte| format!("{byte:02X}")).collect::<String>()),
        Call::Start { task, loader, name, method, int } => format!("S {task} {loader} {name} {method} {}\n", *int as i32),
        _ => "X 0\n".into(),
    }
}

/// A run by boxscript, on a store of its own, of so many steps and the one that ends it: its last line in words.
fn by_boxscript(boxscript: &Path, loads: &[Call], start: &Call, steps: u32) -> Option<String> {
    let mut script: String = loads.iter().chain([start]).map(line).collect();
    script.push_str(&"N\n".repeat(steps as usize + 1));
    let mut child = Command::new(boxscript).stdin(Stdio::piped()).stdout(Stdio::piped()).spawn().expect("boxscript");
    let mut input = child.stdin.take().expect("its input");
    let write = std::thread::spawn(move || input.write_all(script.as_bytes()));
    let output = child.wait_with_output().expect("boxscript");
    write.join().expect("a thread").expect("its input");
    let text = String::from_utf8(output.stdout).expect("text");
    let words: Vec<i64> = text.lines().last().expect("a line").split(' ').skip(1).map(|word| word.parse().expect("a number")).collect();
    ended(words[0] as u8, words[3] as i32 as u32)
}

/// How many runs were compared, how many weren't, and how many cases were refused.
#[derive(Default, Debug)]
struct Tally {
    compared: usize,
    scripts: usize,
    skipped: usize,
    taken: usize,
    refused: usize,
}

/// Compares a case's runs with what HotSpot made of them.
fn compare(case: &Case, boxed: &Boxed, hotspot: &[String], boxscript: Option<&Path>, tally: &mut Tally) {
    let loads = loads(case, boxed);
    let mut store = Store::zeros();
    machine::make(&Call::Boot, &mut store, &mut []).expect("a machine");
    for call in &loads {
        let told = machine::make(call, &mut store, &mut []).expect("a machine");
        assert_eq!(told.number, 0, "{}: {call:?}", case.said);
    }
    for ((loader, class, method, int), expected) in case.runs.iter().zip(hotspot) {
        let name = |word: &str| boxed.1.names.number(word).expect("a name");
        let start = Call::Start { task: 0, loader: (*loader).into(), name: name(class), method: name(method), int: *int as u32 };
        let (ended, steps) = by_library(&mut store, &start);
        let Some(ended) = ended else {
            tally.skipped += 1;
            continue;
        };
        assert_eq!(&ended, expected, "{}: {class}.{method} {int} on the box, and on HotSpot", case.said);
        tally.compared += 1;
        if let Some(boxscript) = boxscript.filter(|_| steps < 3_000) {
            assert_eq!(by_boxscript(boxscript, &loads, &start, steps).as_ref(), Some(expected), "{}: {class}.{method} {int} by boxscript", case.said);
            tally.scripts += 1;
        }
    }
}

fn boxscript() -> Option<PathBuf> {
    std::env::var_os("BOXSCRIPT").map(PathBuf::from)
}

/// Runs all cases on both sides. Those that are refused must be few, and refused for a limit.
fn on_both(cases: Vec<Case>, scripts: usize) -> Tally {
    let mut tally = Tally::default();
    let hotspot = on_hotspot(&cases);
    assert_eq!(hotspot.len(), cases.iter().map(|case| case.runs.len()).sum::<usize>());
    let mut answers = &hotspot[..];
    let boxscript = boxscript();
    for (place, case) in cases.iter().enumerate() {
        let (own, rest) = answers.split_at(case.runs.len());
        answers = rest;
        match boxed(case) {
            Ok(boxed) => {
                tally.taken += 1;
                compare(case, &boxed, own, boxscript.as_deref().filter(|_| place < scripts), &mut tally);
            }
            Err(said) => {
                let is_limit = |line: &str| ["bytes", "locals", "spare local", "operands at once", "maps on", "fields", "methods"].iter().any(|word| line.contains(word));
                let first = said.lines().step_by(2).filter(|line| !line.contains("taken; nothing was written"));
                first.for_each(|line| assert!(is_limit(line), "{}: {said}", case.said));
                tally.refused += 1;
            }
        }
    }
    tally
}

/// The ints that the programs written by hand are run with.
const INTS: [i32; 14] = [i32::MIN, -100_000, -7, -1, 0, 1, 2, 3, 7, 12, 25, 60, 1_000_003, i32::MAX];

/// The class files of a folder that come from this Java file, superclasses first.
fn in_order(folder: &Path, source: &str) -> Vec<(String, PathBuf)> {
    let read = |path: PathBuf| (ClassFile::read(&fs::read(&path).expect("a file")).expect("a class"), path);
    let mut left: Vec<_> = class_files(folder).expect("class files").into_iter().map(read).collect();
    left.retain(|(class, _)| class.source.as_deref() == Some(source));
    let mut all: Vec<(String, PathBuf)> = Vec::new();
    while !left.is_empty() {
        let is_ready = |class: &ClassFile| class.superclass.as_ref().is_none_or(|name| !left.iter().any(|other| other.0.name == *name));
        let place = left.iter().position(|(class, _)| is_ready(class)).expect("a class whose superclass is there");
        let (class, path) = left.remove(place);
        all.push((class.name, path));
    }
    all
}

/// The folder with the compiled runner and the compiled programs that are written by hand.
fn compiled() -> (&'static Path, Vec<PathBuf>) {
    static FOLDER: OnceLock<Folder> = OnceLock::new();
    let entries = fs::read_dir(here().join("programs")).expect("programs");
    let mut programs: Vec<PathBuf> = entries.map(|entry| entry.expect("a program").path()).collect();
    programs.sort();
    let folder = FOLDER.get_or_init(|| {
        let folder = Folder::new().expect("a folder");
        let files = [&programs[..], &[here().join("Runner.java")]].concat();
        javac(&files, folder.path(), &folder.path().join("list"));
        folder
    });
    (folder.path(), programs)
}

/// Programs written by hand, each by itself: the class of the file's name, from int to int.
#[test]
fn by_hand() {
    let (folder, programs) = compiled();
    let mut cases = Vec::new();
    for file in programs {
        let name = file.file_stem().expect("a name").to_string_lossy().into_owned();
        let defines = in_order(folder, &format!("{name}.java")).into_iter().map(|(name, path)| (1, name, path)).collect();
        let runs = INTS.map(|int| (1, name.clone(), "of".to_string(), int)).to_vec();
        cases.push(Case { said: name, defines, records: Vec::new(), runs });
    }
    let count = cases.len();
    let tally = on_both(cases, usize::MAX);
    println!("by hand: {tally:?}");
    assert!(tally.taken == count && count >= 12 && tally.refused == 0 && tally.skipped == 0, "{tally:?}");
}

/// The shared classes, Brown's and Smith's, under loaders of their own: Brown's override is called, and Smith's Discount stops his tariff
/// from being linked, on HotSpot as on the box, whose lesson says so.
#[test]
fn two_insurers() {
    let folder = Folder::new().expect("a folder");
    let (sources, at) = (Path::new(env!("CARGO_MANIFEST_DIR")).join("../examples/java"), |name: &str| folder.path().join(name));
    for (insurer, files) in [("shared", &["Tariff", "Discount"][..]), ("brown", &["BrownTariff"]), ("smith", &["Discount", "SmithTariff"])] {
        fs::create_dir(at(insurer)).expect("a folder");
        let files: Vec<PathBuf> = files.iter().map(|file| sources.join(insurer).join(format!("{file}.java"))).collect();
        let path = [at("shared"), at(insurer)];
        let given = Command::new("javac").arg("-d").arg(at(insurer)).arg("-cp").arg(std::env::join_paths(path).expect("paths")).args(files).status();
        assert!(given.expect("javac").success());
    }
    let class = |loader: u16, folder: &str, name: &str| (loader, name.to_string(), at(folder).join(format!("{name}.class")));
    let to = |loader: u16, name: &str| (loader, name.to_string(), 1);
    let run = |loader: u16, name: &str| (loader, name.to_string(), "quote".to_string(), 1000);
    let brown = Case {
        said: "two insurers".into(),
        defines: vec![class(1, "shared", "Discount"), class(1, "shared", "Tariff"), class(2, "brown", "BrownDiscount"), class(2, "brown", "BrownTariff")],
        records: vec![to(2, "Discount"), to(2, "Tariff")],
        runs: vec![run(2, "BrownTariff"), run(1, "Tariff")],
    };
    let smith = Case {
        said: "Smith".into(),
        defines: vec![class(1, "shared", "Discount"), class(1, "shared", "Tariff"), class(3, "smith", "Discount"), class(3, "smith", "SmithTariff")],
        records: vec![to(3, "Tariff")],
        runs: vec![run(3, "SmithTariff")],
    };
    assert_eq!(on_hotspot(&[smith]), ["clash"]);
    let tally = on_both(vec![brown], 1);
    assert_eq!((tally.compared, tally.taken), (2, 1), "{tally:?}");
}

/// A class file is taken, and then the proved desk takes what comes of it, or it is refused with a reason.
fn taken_or_refused(bytes: &[u8], said: &str) -> bool {
    let given = [Given { path: said.into(), bytes: bytes.to_vec(), source: None }];
    match translate(&given, &[], &mut Library::default()) {
        Ok(made) => {
            assert_eq!(made.len(), 1, "{said}");
            assert_eq!(machine::check(&made[0].bytes), Some(0), "{said}");
            true
        }
        Err(refused) => {
            assert!(!refused.is_empty(), "{said}");
            let shown = refusals::show(&refused);
            assert!(shown.lines().count() % 2 == 1 && shown.contains("    instead: "), "{shown}");
            false
        }
    }
}

/// Classes of the JDK itself, every fortieth of its base.
#[test]
fn of_the_jdk() {
    let folder = Folder::new().expect("a folder");
    let status = Command::new("java").arg("-cp").arg(compiled().0).arg("Runner").arg(folder.path()).arg("40").status().expect("java");
    assert!(status.success());
    let files = class_files(folder.path()).expect("class files");
    let taken = files.iter().filter(|path| taken_or_refused(&fs::read(path).expect("a file"), &path.display().to_string())).count();
    println!("{} classes of the JDK, {taken} of them taken", files.len());
    assert!(files.len() >= 100);
}

/// Class files with bytes changed, left out or doubled: any of them may come.
#[test]
fn damaged() {
    let classes: Vec<Vec<u8>> = class_files(compiled().0).expect("class files").iter().map(|path| fs::read(path).expect("a file")).collect();
    let mut rng = Rng::new(number("JAVA_SEED").unwrap_or(1));
    let mut taken = 0;
    let count = number("JAVA_DAMAGED").unwrap_or(4_000);
    for place in 0..count {
        let mut bytes = classes[rng.below(classes.len())].clone();
        for _ in 0..rng.within(1, 3) {
            let at = rng.below(bytes.len());
            match rng.below(8) {
                0 => bytes.truncate(at.max(1)),
                1 => drop(bytes.drain(at..(at + rng.within(1, 4)).min(bytes.len()))),
                2 => drop(bytes.splice(at..at, [rng.draw() as u8, 0])),
                3 => bytes[at] ^= 1 << rng.below(8),
                4 => bytes[at] = 0xFF,
                5 => bytes[at] = bytes[at].wrapping_add(1),
                _ => bytes[at] = rng.draw() as u8,
            }
            if bytes.is_empty() {
                bytes.push(0);
            }
        }
        taken += u64::from(taken_or_refused(&bytes, &format!("damaged {place}")));
    }
    println!("{count} damaged class files, {taken} of them taken");
    assert!(taken > 0 && taken < count);
}

/// Programs drawn at random: most in one loader, every eighth with its classes under three.
#[test]
fn drawn() {
    let folder = Folder::new().expect("a folder");
    let (count, seed) = (number("JAVA_PROGRAMS").unwrap_or(200), number("JAVA_SEED").unwrap_or(1));
    let (mut files, mut cases, mut text) = (Vec::new(), Vec::new(), String::new());
    let classes = folder.path().join("classes");
    fs::create_dir(&classes).expect("a folder");
    for place in 0..count {
        let crosses = place % 8 == 7;
        let program = generate::program(seed * 1_000_000 + place, place, if crosses { "public " } else { "" });
        let mut case = Case { said: format!("program {place} of seed {seed}"), ..Case::default() };
        for (at, (name, own)) in program.classes.iter().enumerate() {
            case.defines.push((if crosses { at as u16 + 1 } else { 1 }, name.clone(), classes.join(format!("{name}.class"))));
            if crosses {
                files.push(folder.path().join(format!("{name}.java")));
                fs::write(files.last().expect("a file"), own).expect("a file");
            } else {
                text.push_str(own);
            }
        }
        let (last, name) = (if crosses { 3 } else { 1 }, &program.classes[2].0);
        if crosses {
            let (upper, lower) = (&program.classes[0].0, &program.classes[1].0);
            case.records = vec![(2, upper.clone(), 1), (3, upper.clone(), 1), (3, lower.clone(), 2), (1, lower.clone(), 2)];
        }
        case.runs = generate::INPUTS.map(|int| (last, name.clone(), "of".to_string(), int)).to_vec();
        cases.push(case);
        if text.len() > 200_000 || place + 1 == count {
            files.push(folder.path().join(format!("Many{place}.java")));
            fs::write(files.last().expect("a file"), std::mem::take(&mut text)).expect("a file");
        }
    }
    javac(&files, &classes, &folder.path().join("list"));
    let tally = on_both(cases, number("JAVA_SCRIPTS").unwrap_or(200) as usize);
    println!("drawn: {tally:?}");
    assert!(tally.refused * 10 <= tally.taken && tally.skipped * 10 <= tally.compared, "{tally:?}");
    assert!(tally.taken as u64 >= count - count / 10, "{tally:?}");
}
