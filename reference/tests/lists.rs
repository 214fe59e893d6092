//! Call lists from a boot: what holds after every call, and which words and opcodes they reach.

use reference::agree::{agrees, Added};
use reference::answer::{word, Answer, Refusal, Reply};
use reference::broken::unbroken;
use reference::gen::chains::chains;
use reference::gen::graphs::graphs;
use reference::gen::hidden::hidden;
use reference::gen::joins::{joined, joins};
use reference::gen::limits::LIMITS;
use reference::gen::list::list;
use reference::gen::listed::listed;
use reference::gen::loops::loops;
use reference::gen::rates::rates;
use reference::gen::rng::Rng;
use reference::gen::shares::{shared, shares};
use reference::gen::swept::swept;
use reference::gen::taken::{taken_back, taking};
use reference::gen::{cases, Call, Trial};
use reference::sharing::keeps_room;
use reference::store::Store;
use reference::tally::{Tally, ENDS_FROM_A_BOOT, FROM_A_BOOT};
use reference::{misplaced, step};

const SEEDS: u64 = 400;
const CALLS: usize = 120;

/// Plays the calls of a trial again and looks at every store on the way.
fn watch(trial: &Trial, label: &str, tally: &mut Tally) {
    let mut store = Store::zeros();
    for (at, (call, &reply)) in trial.calls.iter().zip(&trial.replies).enumerate() {
        let before = store.clone();
        for tried in [512, 600, 511][at % 3..].iter().filter_map(|&cells| call.tried(cells)) {
            let reply = tried.apply(&mut store);
            assert!(store == before, "{label}, call {at}: a try changed the store");
            tally.count(&before, &tried, reply, &store);
        }
        assert_eq!(call.apply(&mut store), reply, "{label}, call {at}: the same calls give the same answers");
        if reply.refusal().is_some() {
            assert!(store == before, "{label}, call {at}: a refused {call:?} changed the store");
        }
        if let Call::Run { n } = *call {
            as_steps(&before, n, reply, &store, label);
        }
        sound(&store, reply, &format!("{label}, call {at}"));
        assert!(keeps_room(call, reply, &store), "{label}, call {at}: {reply:?}");
        tally.count(&before, call, reply, &store);
    }
}

fn sound(store: &Store, reply: Reply, label: &str) {
    let Some(classes) = unbroken(store) else {
        panic!("{label}: broken after {reply:?}")
    };
    assert_eq!(misplaced(store), 0, "{label}: misplaced values");
    assert!(agrees(store, &Added::default(), &classes), "{label}: the store disagrees");
    let refusal = match reply {
        Reply::RanFor(_, Answer::Refused(refusal)) => Some(refusal),
        _ => reply.refusal(),
    };
    let never = [Some(Refusal::Word(word::STUCK)), Some(Refusal::Word(word::BROKEN))];
    assert!(refusal.is_none() || !never.contains(&refusal), "{label}: {reply:?} from a boot");
}

/// A run is its steps and no more.
fn as_steps(before: &Store, n: u32, reply: Reply, after: &Store, label: &str) {
    let Reply::RanFor(ran, last) = reply else {
        assert!(n == 0 || n > 65_535);
        assert_eq!(reply, Reply::Denied(Refusal::Word(word::UNKNOWN)));
        return;
    };
    let mut store = before.clone();
    let mut steps = 0;
    let end = loop {
        let answer = step(&mut store);
        steps += u16::from(matches!(answer, Answer::Ran(_)));
        if u32::from(steps) == n || !matches!(answer, Answer::Ran(_)) {
            break answer;
        }
    };
    assert_eq!((steps, end), (ran, last), "{label}: run({n})");
    assert!(store == *after, "{label}: run({n}) leaves another store than its steps");
}

fn tables(store: &Store) -> [Vec<u32>; 8] {
    let wide = |cells: &[u16]| cells.iter().map(|&cell| u32::from(cell)).collect();
    [
        wide(&store.counts),
        wide(&store.classes),
        store.kept.iter().map(|&byte| u32::from(byte)).collect(),
        wide(&store.cache),
        wide(&store.ties),
        wide(&store.subtypes),
        store.objects.clone(),
        store.frames.clone(),
    ]
}

/// Tables of noise, booted, answer as zeros do; a cell is written in both or in neither.
fn amid_noise(seed: u64, trial: &Trial) {
    let mut rng = Rng::new(seed);
    let mut noisy = Store::zeros();
    noisy.counts.iter_mut().chain(&mut noisy.classes).for_each(|cell| *cell = rng.word());
    noisy.cache.iter_mut().chain(&mut noisy.ties).for_each(|cell| *cell = rng.word());
    noisy.subtypes.iter_mut().for_each(|cell| *cell = rng.word());
    noisy.kept.iter_mut().for_each(|cell| *cell = rng.draw() as u8);
    noisy.objects.iter_mut().chain(&mut noisy.frames).for_each(|cell| *cell = rng.draw() as u32);
    let noise = tables(&noisy);
    for (call, &reply) in trial.calls.iter().zip(&trial.replies) {
        assert_eq!(call.apply(&mut noisy), reply, "list {seed} amid noise");
    }
    let (clean, noisy) = (tables(&trial.store), tables(&noisy));
    for table in 0..8 {
        for cell in 0..clean[table].len() {
            let (value, amid, before) = (clean[table][cell], noisy[table][cell], noise[table][cell]);
            assert!(amid == value || (value == 0 && amid == before), "list {seed}: table {table}, cell {cell}");
        }
    }
}

#[test]
fn random_lists() {
    let mut tally = Tally::default();
    for seed in 0..SEEDS {
        let trial = list(seed, CALLS);
        watch(&trial, &format!("list {seed}"), &mut tally);
        amid_noise(seed, &trial);
        watch(&chains(seed, 30), &format!("chains {seed}"), &mut tally);
        let trial = graphs(seed, 50);
        watch(&trial, &format!("graphs {seed}"), &mut tally);
        amid_noise(seed, &trial);
        watch(&taking(seed, 30), &format!("taking {seed}"), &mut tally);
        let trial = joins(seed, 30);
        watch(&trial, &format!("joins {seed}"), &mut tally);
        amid_noise(seed, &trial);
        let trial = shared(seed, 30);
        watch(&trial, &format!("shared {seed}"), &mut tally);
        amid_noise(seed, &trial);
    }
    println!("{SEEDS} random lists, as many about constraints, about objects, about the report's share, about takings back and about groups\n{tally}");
    assert_eq!(tally.unswept(), Vec::<&str>::new(), "what sweeps never had");
    assert_eq!(tally.hiding.unmet(), Vec::<&str>::new(), "what accesses never met");
    assert_eq!(tally.sharing.unmet(), Vec::<&str>::new(), "what starts and news never met");
    assert_eq!(tally.grouping.unmet(), Vec::<&str>::new(), "what calls never did to groups");
    for trial in cases::cases().iter().chain(&swept()).chain(&loops()).chain(&rates()).chain(&hidden()).chain(&listed()).chain(&shares()).chain(&taken_back()).chain(&joined()) {
        watch(trial, "a case", &mut tally);
    }
    for (name, limit) in LIMITS {
        watch(&limit(&mut Rng::new(1)), name, &mut tally);
    }
    println!("with cases and limits\n{tally}");
    for (call, words) in FROM_A_BOOT {
        assert_eq!(tally.given(call), words, "{call}: words from a boot");
    }
    assert_eq!(tally.unreasoned(), Vec::<&str>::new(), "what chains of clashes never had");
    assert_eq!(tally.ended(), ENDS_FROM_A_BOOT, "the ends of runs");
    assert_eq!(tally.idle_opcodes(), Vec::<&str>::new(), "opcodes that never ran");
    assert_eq!(tally.passing.unmet(), Vec::<&str>::new(), "what no call met");
}

#[test]
fn every_limit_is_reached_and_not_before() {
    for seed in 0..4 {
        for (name, limit) in LIMITS {
            let trial = limit(&mut Rng::new(seed));
            let (last, before) = trial.replies.split_last().expect("a list with calls");
            assert_eq!(last.refusal(), Some(Refusal::Word(word::FULL)), "{name}: {last:?}");
            for (at, reply) in before.iter().enumerate() {
                assert_eq!(reply.refusal(), None, "{name}, call {at}: {:?}", trial.calls[at]);
            }
        }
    }
}

#[test]
fn limits_are_at_their_counts() {
    let counts = |name: &str| {
        let limit = LIMITS.iter().find(|limit| limit.0 == name).expect("a limit").1;
        limit(&mut Rng::new(7)).store.counts
    };
    assert_eq!(counts("define: classes")[0], 64);
    assert_eq!(counts("define: kept bytes")[1], 16_384);
    assert_eq!(counts("define: cache entries")[2], 256);
    assert_eq!(counts("record: cache entries")[2], 256);
    assert_eq!(counts("define: ties")[3], 256);
    assert_eq!(counts("step: a tie")[3], 256);
    assert_eq!(counts("step: two ties with room for one")[3], 255);
    assert_eq!(counts("step: five ties with room for four")[3], 252);
    assert_eq!(counts("define: five ties with room for two")[3], 254);
    assert_eq!(counts("define: subtype constraints")[4], 256);
    assert_eq!(counts("start: objects")[5], 256);
    assert_eq!(counts("step: objects")[5], 256);
    for name in ["start: objects, after a sweep", "step: objects, after a sweep"] {
        assert!(counts(name)[8..264].iter().all(|&owner| owner != 0), "{name}");
    }
    let frames = counts("step: frames");
    assert_eq!(frames[6].max(frames[7]), 32);
}
