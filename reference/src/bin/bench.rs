//! The verified machine beside this one, on the same input, in one run. Prints the tables of docs/BENCHMARKS.md.
//!
//! Every figure is the least of many rounds, in which the two sides take turns, in five passes over all cases. Before each round a prepared
//! store is copied into the same tables, outside the clock, so the tables lie in the processor's caches as far as they fit. The clock
//! is that of the thread's own time, so that other work on the machine counts less. With the argument `verified` or `second` and a name, one case is measured by that side alone, for a profiler; with `how`,
//! the searches alone. With `steps`, a name of a run and a number, the verified side runs that case once, for so many steps, so that a counter
//! of instructions can be read for two numbers of steps; with `steps` alone, the runs are listed with all of their steps.

#[path = "bench/searches.rs"]
mod searches;

use std::time::{Duration, Instant};

use reference::gen::large::{
    chain, chain_clashes, chain_define, chain_record, empty, full, full_remembering, grid, grid_reason, grid_record, joining, joining_by_a_step, long_files, longest_reason, looping, making, objects, posting, remembering, tall_tree,
    tree, tree_of_three, usual, usual_define, usual_record, Held, Repeated, Round,
};
use reference::gen::{Call, Trial};
use reference::host::{self, CELLS};
use reference::store::{count, LENGTHS, LIMITS, MOST_ROWS};
use reference::{Answer, Reply, Store};

#[repr(C)]
struct Time {
    seconds: i64,
    nanoseconds: i64,
}

extern "C" {
    fn clock_gettime(clock: i32, time: *mut Time) -> i32;
}

/// The time in nanoseconds for which this thread had a processor.
fn own_time() -> f64 {
    const THREAD: i32 = 3;
    let mut time = Time { seconds: 0, nanoseconds: 0 };
    // SAFETY: the pointer is to a time that lives through the call.
    let failed = unsafe { clock_gettime(THREAD, &mut time) };
    assert_eq!(failed, 0, "this system has no clock of a thread's time");
    time.seconds as f64 * 1e9 + time.nanoseconds as f64
}

/// A side makes a call on a store, with the list that a try is lent.
type Side = fn(&Call, &mut Store, &mut [u16]);

const SIDES: [(&str, Side); 2] = [("verified", verified), ("second", second)];

fn verified(call: &Call, store: &mut Store, list: &mut [u16]) {
    let mut answer = [0; CELLS];
    host::make(call, store, &mut answer, list);
    std::hint::black_box(answer);
}

fn second(call: &Call, store: &mut Store, list: &mut [u16]) {
    std::hint::black_box(call.apply_listing(store, list));
}

/// What is measured: a call on a store, so many times in a row.
struct Case {
    name: String,
    store: Store,
    call: Call,
    /// How often a round makes the call, if that is fixed; else as often as fits a quarter of a millisecond, at least once.
    times: Option<usize>,
    /// The cells of counts that are set back before the next call: those that the call changes, for rows past the counts are free. A call
    /// that goes on from the store that it left has none.
    set_back: Vec<usize>,
    /// By what the time of one call is divided.
    units: f64,
    /// The least times of both sides so far, in nanoseconds a unit.
    least: [f64; 2],
}

impl Case {
    fn new(name: impl Into<String>, store: Store, call: Call) -> Case {
        let mut after = store.clone();
        call.apply(&mut after);
        let set_back = (0..store.counts.len()).filter(|&cell| store.counts[cell] != after.counts[cell]).collect();
        Case { name: name.into(), store, call, times: None, set_back, units: 1.0, least: [f64::MAX; 2] }
    }

    /// A case of a hundred steps in a row.
    fn steps(name: &str, store: Store) -> Case {
        Case { times: Some(100), set_back: Vec::new(), ..Case::new(name, store, Call::Step) }
    }

    /// A case of a whole run, by its steps. It finishes, or goes on for longer.
    fn run(name: &str, store: Store) -> Case {
        let call = Call::Run { n: 65_535 };
        let steps = match call.apply(&mut store.clone()) {
            Reply::RanFor(ran, Answer::Finished(..)) => f64::from(ran) + 1.0,
            Reply::RanFor(ran, Answer::Ran(_)) => ran.into(),
            reply => panic!("{name}: {reply:?}"),
        };
        Case { times: Some(1), units: steps, ..Case::new(format!("{name}, a step of {steps}"), store, call) }
    }

    /// The time of a round of so many calls, in nanoseconds a unit.
    fn round(&self, side: Side, store: &mut Store, times: usize) -> f64 {
        store.clone_from(&self.store);
        let mut list = vec![0; self.call.cells()];
        let before = own_time();
        for _ in 0..times {
            side(&self.call, store, &mut list);
            for &cell in &self.set_back {
                store.counts[cell] = self.store.counts[cell];
            }
        }
        (own_time() - before) / times as f64 / self.units
    }

    fn times(&self, side: Side, store: &mut Store) -> usize {
        self.times.unwrap_or_else(|| (250_000.0 / self.round(side, store, 1)).clamp(1.0, 100.0) as usize)
    }

    /// A pass: at least ten rounds of both sides, and more until a fifth of a second is over.
    fn pass(&mut self) {
        let mut store = self.store.clone();
        let times = SIDES.map(|(_, side)| self.times(side, &mut store));
        let (clock, mut rounds) = (Instant::now(), 0);
        while rounds < 10 || clock.elapsed() < Duration::from_millis(200) {
            for (at, (_, side)) in SIDES.iter().enumerate() {
                self.least[at] = self.least[at].min(self.round(*side, &mut store, times[at]));
            }
            rounds += 1;
        }
    }

    fn print(&self) {
        let [verified, second] = self.least;
        println!("| {} | {} | {} | {:.2} |", self.name, figure(verified), figure(second), verified / second);
    }
}

fn figure(nanoseconds: f64) -> String {
    match nanoseconds {
        ..=999.5 => format!("{nanoseconds:.1} ns"),
        ..=999_500.0 => format!("{:.2} µs", nanoseconds / 1e3),
        ..=999_500_000.0 => format!("{:.2} ms", nanoseconds / 1e6),
        _ => format!("{:.2} s", nanoseconds / 1e9),
    }
}

fn runs() -> Vec<Case> {
    vec![
        Case::run("tree", tree()),
        Case::run("tall tree", tall_tree()),
        Case::run("tree of three arguments", tree_of_three()),
        Case::run("254 objects in new rows", making(false)),
        Case::run("254 objects in freed rows", making(true)),
        Case::run("loop of ints", looping(Round::Ints)),
        Case::run("loop with a field", looping(Round::Field)),
    ]
}

fn steps() -> Vec<Case> {
    vec![
        Case { times: Some(2_000), ..Case::steps("idle, after boot", Trial::booted().store) },
        Case::steps("tree, its first 100", tree()),
        Case::steps("full store, null and pop", full(Repeated::NullPop)),
        Case::steps("full store, aload, getfield and pop", full(Repeated::AloadGetfieldPop)),
        Case { times: Some(1), ..Case::new("getfield that posts a tie, longest chain", posting(), Call::Step) },
    ]
}

fn loads() -> Vec<Case> {
    let (clashing, [first, last]) = chain_clashes();
    let (grid_store, grid_define) = grid_reason();
    vec![
        Case::new("record, after boot", Trial::booted().store, Call::Record { loader: 1, name: 2, class: 0 }),
        Case::new("define, Object alone", empty(), Call::Define { loader: 1, file: reference::gen::cases::f().file() }),
        Case::new("record, usual store", usual(), usual_record()),
        Case::new("define, usual store", usual(), usual_define()),
        Case::new("record, longest chain", chain(256, 256), chain_record()),
        Case::new("define, longest chain", chain(256, 256), chain_define()),
        Case::new("record, grid", grid(), grid_record()),
        Case::new("define, longest chain, clash out of it", clashing.clone(), first),
        Case::new("define, longest chain, clash into it", clashing, last),
        Case::new("define, grid, clash", grid_store, grid_define),
    ]
}

/// Defines of the longest files.
fn long_defines() -> Vec<Case> {
    let store = empty();
    long_files().into_iter().map(|(what, file)| Case::new(what, store.clone(), Call::Define { loader: 1, file })).collect()
}

/// Tries of loads: the longest chain there can be, and the grid, which clashes or takes the load.
fn tries() -> Vec<Case> {
    let cases = [
        ("define, a chain of 512 rows", longest_reason()), ("define, grid", grid_reason()), ("record, grid, accepted", (grid(), grid_record())),
        ("define, longest chain, accepted", (chain(256, 256), chain_define())),
    ];
    cases.into_iter().map(|(name, (store, load))| Case::new(name, store, load.tried(MOST_ROWS).expect("a load"))).collect()
}

/// A sweep of 256 objects, and beside it a step on the same store, which looks at the store and pushes a null or takes it off, or is idle.
fn sweeps() -> Vec<Case> {
    let stores = [
        ("one chain upward", Held::Upward), ("one chain downward", Held::Downward), ("all reached from frames", Held::ByFrames),
        ("none reached", Held::Nothing),
    ];
    let both = |(name, held): (&str, Held)| {
        let store = objects(held);
        [Case::new(format!("sweep, {name}"), store.clone(), Call::Sweep), Case::steps(&format!("step, {name}"), store)]
    };
    stores.into_iter().flat_map(both).collect()
}

/// A load where none is remembered and where 32 are; taking it back; a step where no load is open and where 32 are, each time anew.
fn takings() -> Vec<Case> {
    let mut all = Vec::new();
    for (loads, store, full) in [("no load", usual(), full(Repeated::NullPop)), ("32 loads", remembering(), full_remembering(Repeated::NullPop))] {
        for (what, load) in [("record", usual_record()), ("define", usual_define())] {
            let mut after = store.clone();
            load.apply(&mut after);
            all.push(Case::new(format!("{what}, {loads} before it"), store.clone(), load));
            all.push(Case::new(format!("take back of that {what}"), after, Call::TakeBack));
        }
        all.push(Case { times: Some(2_000), ..Case::steps(&format!("idle step, {loads}"), store) });
        all.push(Case { set_back: vec![count::LOADS], ..Case::steps(&format!("step, full store, {loads}"), full) });
    }
    all.push(Case::new("take back, full store, 32 loads", full_remembering(Repeated::NullPop), Call::TakeBack));
    all.push(Case::new("take back, too late", usual(), Call::TakeBack));
    all
}

/// Idle steps, which look at the groups, on few and many ties; a load and a step that join two groups of 28 ties each among 224, and the load taken back.
fn groups() -> Vec<Case> {
    let (store, define) = joining();
    let mut after = store.clone();
    define.apply(&mut after);
    let idle = |what: &str, store: Store| Case { times: Some(2_000), ..Case::steps(&format!("idle step, {what}"), store) };
    vec![
        idle("12 ties of 4 names", usual()),
        idle("256 ties of 16 names", grid()),
        idle("256 ties of 256 names", chain(256, 256)),
        idle("224 ties of 4 names", store.clone()),
        Case::new("record, 224 ties of 4 names", store.clone(), Call::Record { loader: 9, name: 2, class: 0 }),
        Case::new("define that joins two groups", store, define),
        Case::new("take back of that define", after, Call::TakeBack),
        Case { times: Some(1), ..Case::new("getfield that joins two groups", joining_by_a_step(), Call::Step) },
    ]
}

/// How the cost grows: entries after the call, and ties, with as many subtype constraints.
fn growth() -> Vec<Case> {
    let mut all = Vec::new();
    for entries in [16, 64, 256] {
        for links in [0, 16, 64, 256] {
            let name = format!("{entries} entries, {links} + {links} constraints");
            all.push(Case::new(name, chain(entries, links), chain_record()));
        }
    }
    all
}

/// The bytes of all tables.
fn bytes() -> usize {
    const WIDTHS: [usize; 8] = [2, 2, 1, 2, 2, 2, 4, 4];
    LENGTHS.iter().zip(WIDTHS).map(|(length, width)| length * width).sum()
}

fn profile(side: &str, name: &str) {
    let (_, side) = SIDES.iter().find(|(label, _)| *label == side).expect("verified or second");
    let mut all = tables().into_iter().flat_map(|(_, cases)| cases);
    let case = all.find(|case| case.name.starts_with(name)).expect("a name of a case");
    let mut store = case.store.clone();
    let times = case.times.unwrap_or(20);
    let (clock, mut rounds) = (Instant::now(), 0);
    while clock.elapsed() < Duration::from_secs(5) {
        case.round(*side, &mut store, times);
        rounds += 1;
    }
    println!("{}: {} calls", case.name, rounds * times);
}

/// One run of so many steps by the verified side, on a store that is copied before.
fn count(name: &str, steps: &str) {
    let case = runs().into_iter().find(|case| case.name.starts_with(&format!("{name}, a step"))).expect("a name of a run");
    let call = Call::Run { n: steps.parse().expect("a number of steps") };
    let mut store = case.store.clone();
    verified(&call, &mut store, &mut []);
}

/// The names of the runs, each with all of its steps.
fn list() {
    for case in runs() {
        println!("{};{}", case.name.split(", a step").next().unwrap_or_default(), case.units);
    }
}

/// Every table with its cases.
fn tables() -> [(&'static str, Vec<Case>); 9] {
    [
        ("run", runs()), ("step", steps()), ("sweep of 256 objects", sweeps()), ("record and define", loads()), ("tries", tries()),
        ("loads taken back", takings()), ("groups of ties", groups()), ("define of 4,096 bytes", long_defines()), ("record, one chain", growth()),
    ]
}

fn main() {
    let arguments: Vec<String> = std::env::args().skip(1).collect();
    match &arguments[..] {
        [table] if table == "how" => return searches::print(),
        [steps] if steps == "steps" => return list(),
        [mode, name, steps] if mode == "steps" => return count(name, steps),
        [side, name] => return profile(side, name),
        _ => {}
    }
    let mut tables = tables();
    for _ in 0..5 {
        tables.iter_mut().flat_map(|(_, cases)| cases).for_each(Case::pass);
    }
    println!("Bytes of all tables: {}. Limits: {LIMITS:?}.", bytes());
    for (what, cases) in tables {
        println!("\n| {what} | verified | second | verified ÷ second |\n|---|---|---|---|");
        cases.iter().for_each(Case::print);
    }
    searches::print();
}
