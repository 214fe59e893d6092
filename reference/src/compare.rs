//! The verified machine beside this one: call by call, answer by answer, cell by cell. The first difference panics and says where it was.

use std::fmt;
use std::sync::atomic::{AtomicBool, AtomicU64, Ordering};
use std::thread;
use std::time::{Duration, Instant};

use crate::agree::{agrees, Added};
use crate::answer::{word, Answer, Refusal, Reply};
use crate::asking::Asking;
use crate::broken::unbroken;
use crate::carrying::Carrying;
use crate::code::op;
use crate::gen::chains::chains;
use crate::gen::clashes::{self, clash};
use crate::gen::codes::{rejected, taken};
use crate::gen::damage::{damaged, probes, SHAPES};
use crate::gen::cells::each_cell;
use crate::gen::files::file;
use crate::gen::graphs::graphs;
use crate::gen::hidden::hidden;
use crate::gen::joins::{joined, joins};
use crate::gen::lasting::lasting;
use crate::gen::limits::LIMITS;
use crate::gen::list::list;
use crate::gen::rng::Rng;
use crate::gen::loops::loops;
use crate::gen::rates;
use crate::gen::shares::{shared, shares};
use crate::gen::stuck::stuck;
use crate::gen::swept::swept;
use crate::gen::taken::{taken_back, taking};
use crate::gen::{cases, counts, groups, javas, large, listed, mapped, passed, traces, Call, Trial, CALLS};
use crate::host::{self, expected, expected_row, CELLS};
use crate::placed::misplaced;
use crate::running::Running;
use crate::sharing::keeps_room;
use crate::store::{Store, LENGTHS, MOST_ROWS, QUOTE};
use crate::tally::{Tally, ENDS_FROM_A_BOOT, FROM_A_BOOT, ONLY_DAMAGE};

/// Damaged stores and files that go with a seed.
const STORES: u64 = 8;
const FILES: u64 = 40;
/// Stores with chains, each with a load.
const CLASHES: u64 = 12;
/// The turns of a list of long runs.
const LONG_TURNS: usize = 24;

/// What was compared so far.
#[derive(Clone)]
pub struct Comparison {
    /// Calls of lists from a boot.
    pub booted: Tally,
    /// Calls on other stores.
    pub damaged: Tally,
    /// Calls on tables of a wrong length, by call.
    pub misshapen: [u64; CALLS.len()],
    /// Damaged stores that have each of `SHAPES`.
    pub shapes: [u64; SHAPES.len()],
    /// Calls that followed the boot of a damaged store.
    pub rebooted: u64,
    /// Questions which of some offered loads would have a request cached.
    pub asking: Asking,
    /// Old stores that were changed over.
    pub carrying: Carrying,
    /// What the desk answered to so many files, by number.
    pub desk: [u64; 16],
    /// So many rows by number: ties, subtype constraints, unknown, broken.
    pub rows: [u64; 4],
    /// So many files had a place past point 0.
    pub placed: u64,
    pub seeds: u64,
}

impl Default for Comparison {
    fn default() -> Comparison {
        Comparison {
            booted: Tally::default(),
            damaged: Tally::default(),
            misshapen: [0; CALLS.len()],
            shapes: [0; SHAPES.len()],
            rebooted: 0,
            asking: Asking::default(),
            carrying: Carrying::default(),
            desk: [0; 16],
            rows: [0; 4],
            placed: 0,
            seeds: 0,
        }
    }
}

/// The task whose turn it is, which a 'wanted' names; tables of a wrong length answer as if their cells were 0.
fn turn(store: &Store) -> u32 {
    u32::from(store.counts.get(6).is_none_or(|&frames| frames == 0))
}

/// The tables that differ.
fn differences(one: &Store, other: &Store) -> Vec<&'static str> {
    let same = [
        ("counts", one.counts == other.counts),
        ("classes", one.classes == other.classes),
        ("kept", one.kept == other.kept),
        ("cache", one.cache == other.cache),
        ("ties", one.ties == other.ties),
        ("subtypes", one.subtypes == other.subtypes),
        ("objects", one.objects == other.objects),
        ("frames", one.frames == other.frames),
    ];
    same.iter().filter(|(_, same)| !same).map(|(name, _)| *name).collect()
}

/// What a list holds before a try: no row's number.
const UNLISTED: u16 = 0xEEEE;

/// The lists must be the same, cell for cell. On a clash the first cells are a chain that breaks agreement, by its definition alone; otherwise nothing is
/// listed, and the list past the chain stays as it was.
fn same_list(call: &Call, store: &Store, reply: Reply, lists: [&[u16]; 2], label: &str) {
    let chains = lists.map(|list| list.split(|&row| row == UNLISTED).next().unwrap_or(&[]));
    let is_right = if let Reply::Clashed(_) = reply { call.is_reason(store, chains[0]) } else { chains[0].is_empty() };
    assert!(is_right, "{label}: {call:?} lists {:?}, which is no reason", chains[0]);
    assert!(lists[0] == lists[1], "{label}: {call:?} differs: it lists {:?}, not {:?}", chains[1], chains[0]);
}

/// Makes the call on both stores, which are alike, and compares answers and tables. The answer table has so many cells of noise: the
/// library writes as many of the answer's cells as there is room for, and no others.
pub fn both(ours: &mut Store, theirs: &mut Store, call: &Call, cells: usize, label: &str) -> Reply {
    const NOISE: u32 = 0x5EED;
    let turn = turn(ours);
    let [mut our_list, mut list] = [vec![UNLISTED; call.cells()], vec![UNLISTED; call.cells()]];
    let reply = call.apply_listing(ours, &mut our_list);
    let told = expected(reply, turn);
    let mut answer = vec![NOISE; cells];
    let number = host::make(call, theirs, &mut answer, &mut list);
    same_list(call, ours, reply, [&our_list, &list], label);
    let wanted: Vec<u32> = (0..cells).map(|cell| *told.cells.get(cell).unwrap_or(&NOISE)).collect();
    assert!(number == told.number, "{label}: {call:?} differs: returns {number}, not {}", told.number);
    assert!(answer == wanted, "{label}: {call:?} differs: answers {answer:?}, not {wanted:?}");
    let tables = differences(ours, theirs);
    assert!(tables.is_empty(), "{label}: {call:?} differs in {tables:?} after {reply:?}");
    reply
}

/// The tries of a load: on a list that is long enough, and on one that is longer or too short, in turn.
fn tries(load: &Call, turn: usize) -> Vec<Call> {
    let cells = [MOST_ROWS, [MOST_ROWS - 1, 600, 0, 1][turn % 4]];
    cells.into_iter().filter_map(|cells| load.tried(cells)).collect()
}

/// What demand 3 says of a store from a boot, what the call answered there, and the room that is kept for quotes.
pub fn sound(store: &Store, call: &Call, reply: Reply, label: &str) {
    assert!(keeps_room(call, reply, store), "{label}: {reply:?} with {} objects of the quote's", store.made_by(QUOTE));
    let Some(classes) = unbroken(store) else {
        panic!("{label}: broken after {reply:?}")
    };
    assert_eq!(misplaced(store), 0, "{label}: misplaced values");
    assert!(agrees(store, &Added::default(), &classes), "{label}: the store disagrees");
    let refusal = match reply {
        Reply::RanFor(_, Answer::Refused(refusal)) => Some(refusal),
        _ => reply.refusal(),
    };
    assert!(!refusal.is_some_and(|refusal| [1, 14].contains(&refusal.number())), "{label}: {reply:?} from a boot");
}

/// Cells 3 and 4 of the counts, or 0 where the table ends: how many rows of constraints there are at least said to be.
fn constraints(store: &Store) -> u32 {
    [3, 4].iter().map(|&cell| store.counts.get(cell).map_or(0, |&count| u32::from(count))).sum()
}

impl Comparison {
    /// A stored row by a number, there or not, from both: answers must be the same, and no table may change.
    fn row(&mut self, store: &Store, turn: usize, cells: usize, label: &str) {
        const NOISE: u32 = 0x5EED;
        let number = if turn % 64 == 63 { u32::MAX - turn as u32 } else { turn as u32 % (constraints(store) + 2) };
        let told = expected_row(crate::row(store, number));
        let (mut theirs, mut answer) = (store.clone(), vec![NOISE; cells]);
        let returned = host::row(&mut theirs, number, &mut answer);
        let wanted: Vec<u32> = (0..cells).map(|cell| *told.cells.get(cell).unwrap_or(&NOISE)).collect();
        assert!((returned, &answer) == (told.number, &wanted), "{label}: row {number} differs: {returned} {answer:?}, not {} {wanted:?}", told.number);
        assert!(differences(store, &theirs).is_empty(), "{label}: row {number} differs in tables");
        let kind = match told.cells[..2] {
            [8, _] => 0,
            [9, _] => 1,
            [_, 3] => 2,
            _ => 3,
        };
        self.rows[kind] += 1;
    }

    /// A call list from a boot.
    fn play(&mut self, trial: &Trial, label: &str) {
        let (mut ours, mut theirs) = (Store::zeros(), Store::zeros());
        for (at, call) in trial.calls.iter().enumerate() {
            let label = format!("{label}, call {at}");
            for tried in tries(call, at) {
                let reply = both(&mut ours, &mut theirs, &tried, CELLS, &label);
                self.booted.count(&ours, &tried, reply, &ours);
            }
            let before = ours.clone();
            let reply = both(&mut ours, &mut theirs, call, CELLS, &label);
            sound(&theirs, call, reply, &label);
            self.booted.count(&before, call, reply, &ours);
            self.row(&ours, at, CELLS, &label);
        }
    }

    /// A call on any tables, and the tries of a load before it; gives the tables after it.
    fn call(&mut self, before: &Store, call: &Call, cells: usize, label: &str) -> Store {
        let (mut ours, mut theirs) = (before.clone(), before.clone());
        for call in tries(call, cells + label.len()).iter().chain([call]) {
            let reply = both(&mut ours, &mut theirs, call, cells, label);
            self.damaged.count(before, call, reply, &ours);
            self.misshapen[call.kind()] += u64::from(before.lengths() != LENGTHS);
        }
        self.row(&ours, label.len() + call.kind(), cells, label);
        ours
    }

    fn damage(&mut self, seed: u64) {
        let store = damaged(seed);
        SHAPES.iter().zip(&mut self.shapes).for_each(|((_, has), stores)| *stores += u64::from(has(&store)));
        let mut going = store.clone();
        for (at, call) in probes(seed, &store).iter().enumerate() {
            let label = format!("damage {seed}, call {at}");
            self.call(&store, call, (seed as usize + at) % 9, &label);
            if *call != Call::Boot {
                going = self.call(&going, call, CELLS, &label);
            }
        }
        if seed % STORES == 0 {
            self.reboot(&store, &list(seed, 40), &format!("damage {seed}, booted"));
            self.reboot(&store, &graphs(seed, 10), &format!("damage {seed}, booted for objects"));
            self.reboot(&store, &shared(seed, 10), &format!("damage {seed}, booted for shares"));
        }
    }

    /// A list of calls, which begins with a boot, on any tables. What boot leaves takes it as zeros do; other lengths refuse every call.
    fn reboot(&mut self, store: &Store, trial: &Trial, label: &str) {
        let (mut ours, mut theirs) = (store.clone(), store.clone());
        for (at, (call, &from_zeros)) in trial.calls.iter().zip(&trial.replies).enumerate() {
            let label = format!("{label}, call {at}");
            let reply = both(&mut ours, &mut theirs, call, CELLS, &label);
            if store.lengths() == LENGTHS {
                assert!(reply == from_zeros, "{label}: {call:?} answers {reply:?}, and {from_zeros:?} from zeros");
                sound(&theirs, call, reply, &label);
                self.rebooted += u64::from(at > 0);
            }
        }
    }

    fn check(&mut self, bytes: &[u8], label: &str) {
        let (theirs, ours) = (host::check(bytes), crate::check(bytes));
        assert!(theirs == ours, "{label}: the desk differs: {theirs}, not {ours}, for {bytes:02X?}");
        self.desk[usize::from(ours)] += 1;
        self.check_at(bytes, ours, label);
    }

    /// The same with the place, on an answer table of 0 to 4 cells.
    fn check_at(&mut self, bytes: &[u8], number: u8, label: &str) {
        let mut answer = vec![77; bytes.len() % 5];
        let expected: Vec<u32> = crate::check_at(bytes).into_iter().chain([77]).take(answer.len()).collect();
        let theirs = host::check_at(bytes, &mut answer);
        assert!(theirs == number && answer == expected, "{label}: the desk differs in the place: {theirs} {answer:?}, not {number} {expected:?}, for {bytes:02X?}");
        self.placed += u64::from(answer.len() > 2 && answer[2] > 0);
    }

    /// A file through the desk's check, and through define on a store where classes stand.
    fn file(&mut self, store: &Store, bytes: Vec<u8>, label: &str) {
        self.check(&bytes, label);
        let loader = bytes.len() as u32 % 4;
        self.call(store, &Call::Define { loader, file: bytes }, CELLS, label);
    }

    /// What a seed stands for.
    fn seed(&mut self, seed: u64) {
        self.seeds += 1;
        self.play(&list(seed, 120), &format!("list {seed}"));
        self.play(&chains(seed, 30), &format!("chains {seed}"));
        self.play(&graphs(seed, 50), &format!("graphs {seed}"));
        self.play(&shared(seed, 30), &format!("shared {seed}"));
        self.play(&taking(seed, 30), &format!("taking {seed}"));
        self.play(&joins(seed, 30), &format!("joins {seed}"));
        (STORES * seed..STORES * (seed + 1)).for_each(|seed| self.damage(seed));
        for seed in CLASHES * seed..CLASHES * (seed + 1) {
            let (store, load) = clash(seed);
            self.call(&store, &load, seed as usize % 9, &format!("clash {seed}"));
        }
        self.asking.seed(seed);
        self.carrying.seed(seed);
        let store = cases::whole();
        (FILES * seed..FILES * (seed + 1)).for_each(|seed| self.file(&store, file(seed), &format!("file {seed}")));
    }

    /// What needs no seed.
    fn fixed(&mut self) {
        for (what, store, _) in groups::cases() {
            [Call::TakeBack, Call::Step, Call::Sweep, Call::Record { loader: 4, name: 2, class: 0 }].iter().for_each(|call| drop(self.call(&store, call, CELLS, what)));
        }
        for (what, store, _) in traces::cases() {
            [Call::TakeBack, Call::Step, Call::Sweep].iter().for_each(|call| drop(self.call(&store, call, CELLS, what)));
        }
        for (at, trial) in cases::cases().iter().chain(&swept()).chain(&loops()).chain(&rates::rates()).chain(&hidden()).chain(&listed::listed()).chain(&shares()).chain(&taken_back()).chain(&joined()).enumerate() {
            self.play(trial, &format!("case {at}"));
        }
        for seed in 0..4 {
            LIMITS.iter().for_each(|(name, limit)| self.play(&limit(&mut Rng::new(seed)), name));
        }
        for (what, store, _) in stuck() {
            self.call(&store, &Call::Step, CELLS, &what);
            self.call(&store, &Call::Run { n: 5 }, CELLS, &what);
        }
        let store = cases::whole();
        for draft in rejected().iter().chain(&taken()) {
            self.file(&store, draft.file(), "a method");
        }
        for draft in mapped::taken().iter().chain(&mapped::unmapped()).chain(&mapped::rejected()) {
            self.file(&store, draft.file(), "a method of version 2");
        }
        for draft in counts::taken().iter().chain(&counts::unmapped()).chain(&counts::rejected()) {
            self.file(&store, draft.file(), "a method of version 3");
        }
        counts::bad().into_iter().for_each(|bytes| self.file(&store, bytes, "a bad file of version 3"));
        mapped::bad().into_iter().for_each(|bytes| self.file(&store, bytes, "a bad file of version 2"));
        for (what, store, load, _) in clashes::cases() {
            self.call(&store, &load, CELLS, what);
        }
        for (what, store, load, _) in clashes::choices() {
            self.call(&store, &load, CELLS, what);
        }
        self.large();
        self.asking.fixed();
    }

    /// The stores of the benchmark.
    fn large(&mut self) {
        let run = Call::Run { n: 65_535 };
        let (chain, grid, usual) = (large::chain(256, 256), large::grid(), large::usual());
        let full = [large::full(large::Repeated::NullPop), large::full(large::Repeated::AloadGetfieldPop)];
        let calls = [
            (large::tree(), run.clone()), (large::tall_tree(), run.clone()), (large::tree_of_three(), run.clone()), (full[0].clone(), run.clone()),
            (full[1].clone(), Call::Run { n: 100 }), (chain.clone(), large::chain_define()),
            (chain, large::chain_record()), (grid, large::grid_record()), (usual.clone(), large::usual_define()),
            (usual, large::usual_record()), (large::posting(), Call::Step),
        ];
        let (clashing, [first, last]) = large::chain_clashes();
        let reasons = [large::longest_reason(), large::grid_reason(), (clashing.clone(), first), (clashing, last)];
        let held = [large::Held::Upward, large::Held::Downward, large::Held::ByFrames, large::Held::Nothing];
        let swept = held.map(|held| (large::objects(held), Call::Sweep));
        let made = [false, true].map(|freed| (large::making(freed), run.clone()));
        let looping = [large::Round::Ints, large::Round::Field].map(|round| (large::looping(round), run.clone()));
        let long = large::long_files().map(|(_, file)| (large::empty(), Call::Define { loader: 1, file }));
        let (open, open_full) = (large::remembering(), large::full_remembering(large::Repeated::NullPop));
        let taken = [
            (open.clone(), large::usual_define()), (open.clone(), large::usual_record()), (open.clone(), Call::Step), (open, Call::TakeBack),
            (open_full.clone(), Call::Step), (open_full.clone(), Call::Sweep), (open_full, Call::TakeBack),
        ];
        let ((parted, joins), mut joined) = (large::joining(), large::joining().0);
        joins.apply(&mut joined);
        let grouped = [(parted, joins), (joined, Call::TakeBack), (large::joining_by_a_step(), Call::Step)];
        for (at, (store, call)) in calls.iter().chain(&reasons).chain(&swept).chain(&made).chain(&looping).chain(&long).chain(&taken).chain(&grouped).enumerate() {
            self.call(store, call, CELLS, &format!("large store {at}"));
        }
    }

    /// Every cell of a store changed alone.
    fn cells(&mut self) {
        let record = Call::Record { loader: 3, name: 11, class: 2 };
        each_cell(&cases::whole(), |store, label| {
            self.call(store, &Call::Step, CELLS, label);
            self.call(store, &record, CELLS, label);
            self.call(store, &Call::Sweep, CELLS, label);
            self.call(store, &Call::TakeBack, CELLS, label);
        });
        self.carrying.cells();
    }

    fn add(&mut self, other: &Comparison) {
        self.booted.add(&other.booted);
        self.damaged.add(&other.damaged);
        (0..CALLS.len()).for_each(|call| self.misshapen[call] += other.misshapen[call]);
        (0..16).for_each(|number| self.desk[number] += other.desk[number]);
        (0..4).for_each(|kind| self.rows[kind] += other.rows[kind]);
        self.placed += other.placed;
        (0..SHAPES.len()).for_each(|shape| self.shapes[shape] += other.shapes[shape]);
        self.rebooted += other.rebooted;
        self.asking.add(&other.asking);
        self.carrying.add(&other.carrying);
        self.seeds += other.seeds;
    }

    /// What can occur and did not, and what can't and did.
    pub fn odd(&self) -> Vec<String> {
        let mut odd = Vec::new();
        let mut demand = |holds: bool, what: String| odd.extend((!holds).then_some(what));
        for ((call, words), (_, damage)) in FROM_A_BOOT.into_iter().zip(ONLY_DAMAGE) {
            let (booted, damaged) = (self.booted.given(call), self.damaged.given(call));
            demand(booted == words, format!("{call} from a boot was given {booted:?}, not {words:?}"));
            let missing: Vec<_> = damage.iter().filter(|word| !damaged.contains(word)).collect();
            demand(missing.is_empty(), format!("{call} on damaged stores was not given {missing:?}"));
            let strange: Vec<_> = damaged.iter().filter(|word| !words.contains(word) && !damage.contains(word)).collect();
            demand(strange.is_empty(), format!("{call} on damaged stores was given {strange:?}"));
        }
        let (booted, damaged) = (self.booted.ended(), self.damaged.ended());
        demand(booted == ENDS_FROM_A_BOOT, format!("runs from a boot ended with {booted:?}"));
        let is_fit = damaged.contains(&14) && damaged.contains(&17) && !damaged.contains(&1);
        demand(is_fit, format!("runs on damaged stores ended with {damaged:?}"));
        demand(self.booted.idle_opcodes().is_empty(), format!("never ran: {:?}", self.booted.idle_opcodes()));
        for (tally, what) in [(&self.booted, "from a boot"), (&self.damaged, "on damaged stores")] {
            demand(tally.unswept().is_empty(), format!("sweeps {what} never had {:?}", tally.unswept()));
            demand(tally.unreasoned().is_empty(), format!("chains of clashes {what} never had {:?}", tally.unreasoned()));
            demand(tally.passing.unpassed().is_empty(), format!("calls {what} never had {:?}", tally.passing.unpassed()));
            demand(tally.hiding.unmet().is_empty(), format!("accesses {what} never met {:?}", tally.hiding.unmet()));
        }
        demand(self.booted.sharing.unmet().is_empty(), format!("starts and news from a boot never met {:?}", self.booted.sharing.unmet()));
        demand(self.booted.grouping.unmet().is_empty(), format!("from a boot there were no {:?}", self.booted.grouping.unmet()));
        demand(self.booted.passing.unmet().is_empty(), format!("calls from a boot never met {:?}", self.booted.passing.unmet()));
        demand(self.booted.hiding.undone().is_empty(), format!("no define from a boot {:?}", self.booted.hiding.undone()));
        demand(self.misshapen.iter().all(|&calls| calls > 0), format!("calls on misshapen tables: {:?}", self.misshapen));
        for ((what, _), &stores) in SHAPES.iter().zip(&self.shapes) {
            demand(stores > 0, format!("no damaged store has {what}"));
        }
        self.asking.unmet().into_iter().for_each(|what| demand(false, what));
        self.carrying.unmet().into_iter().for_each(|what| demand(false, what));
        demand(self.rebooted > 0, "no calls after the boot of a damaged store".into());
        demand(self.damaged.long_runs > 0, "no run of a thousand steps on damaged stores".into());
        demand(self.rows.iter().all(|&rows| rows > 0), format!("rows by number: {:?}", self.rows));
        demand([0, 2, 6, 15].iter().all(|&number| self.desk[number] > 0), format!("the desk answered {:?}", self.desk));
        demand(self.placed > 0, format!("{} places past point 0", self.placed));
        odd
    }
}

impl fmt::Display for Comparison {
    fn fmt(&self, f: &mut fmt::Formatter) -> fmt::Result {
        writeln!(f, "{} seeds\n\nCall lists from a boot\n{}", self.seeds, self.booted)?;
        writeln!(f, "Single calls, mostly on damaged stores\n{}", self.damaged)?;
        writeln!(f, "Calls on tables of a wrong length: {:?}", self.misshapen)?;
        SHAPES.iter().zip(&self.shapes).try_for_each(|((what, _), stores)| writeln!(f, "Damaged stores with {what}: {stores}"))?;
        writeln!(f, "Calls after the boot of a damaged store: {}", self.rebooted)?;
        write!(f, "{}", self.asking)?;
        write!(f, "{}", self.carrying)?;
        let [sound, no_file, unmapped, unverified] = [0, 2, 15, 6].map(|number| self.desk[number]);
        let [ties, subtypes, unknown, broken] = self.rows;
        writeln!(f, "Rows by number: {ties} ties, {subtypes} subtype constraints, {unknown} unknown, {broken} broken")?;
        writeln!(f, "The desk: {sound} sound, {no_file} no files, {unmapped} unmapped, {unverified} unverified; {} places past point 0", self.placed)
    }
}

/// The choices of gen/clashes.rs for which the library lists other rows than are written down there, by their purposes.
pub fn choices() -> Vec<String> {
    let wrong = clashes::choices().into_iter().filter_map(|(what, mut store, load, rows)| {
        let mut list = [UNLISTED; MOST_ROWS];
        host::make(&load.tried(MOST_ROWS)?, &mut store, &mut [0; CELLS], &mut list);
        let listed = list.split(|&row| row == UNLISTED).next().unwrap_or(&[]);
        (listed != rows).then(|| format!("{what}: differs: it lists {listed:?}, not {rows:?}"))
    });
    wrong.collect()
}

/// What java/Rates.java prints, by the library: each of its pairs by a step, beside ours, and a divisor 0 stepped twice.
pub fn rates() -> String {
    let [mut of_imul, mut of_idiv] = [op::IMUL, op::IDIV].map(|opcode| [rates::before(opcode), rates::before(opcode)]);
    rates::figures(|opcode, lower, upper| {
        let [ours, theirs] = if opcode == op::IMUL { &mut of_imul } else { &mut of_idiv };
        let label = format!("{opcode:02X} of {lower} and {upper}");
        rates::give(ours, lower, upper);
        rates::give(theirs, lower, upper);
        let reply = both(ours, theirs, &Call::Step, CELLS, &label);
        if reply == Reply::Stepped(Answer::Ran(0)) {
            return rates::result(theirs);
        }
        let refused = Reply::Stepped(Answer::Refused(Refusal::Word(word::ZERO_DIVISOR)));
        assert_eq!([reply, both(ours, theirs, &Call::Step, CELLS, &label)], [refused; 2], "{label}");
        None
    })
}

/// What java/Hidden.java prints, by the library: each access by steps, beside ours.
pub fn hidden_fields() -> String {
    javas::printed(|store| {
        let mut ours = store.clone();
        both(&mut ours, store, &Call::Step, CELLS, "Java's accesses")
    })
}

/// What java/Arguments.java prints, by the library: each call by steps, beside ours.
pub fn arguments() -> String {
    passed::printed(|store| {
        let mut ours = store.clone();
        both(&mut ours, store, &Call::Step, CELLS, "Java's calls")
    })
}

/// Says of a worker that it has met a difference, by which it ends.
struct Ended<'a>(&'a AtomicBool);

impl Drop for Ended<'_> {
    fn drop(&mut self) {
        self.0.fetch_or(thread::panicking(), Ordering::Relaxed);
    }
}

/// Does pieces of work by number on all processors until one says that there is no more, and adds up what they found. When one has met a
/// difference, no other is begun.
fn on_all<T: Default + Send>(piece: impl Fn(&mut T, u64) -> bool + Sync, add: fn(&mut T, &T)) -> T {
    let (next, ended) = (AtomicU64::new(0), AtomicBool::new(false));
    let work = || {
        let mut own = T::default();
        let _ended = Ended(&ended);
        while !ended.load(Ordering::Relaxed) && piece(&mut own, next.fetch_add(1, Ordering::Relaxed)) {}
        own
    };
    let mut whole = T::default();
    thread::scope(|scope| {
        let workers: Vec<_> = (0..thread::available_parallelism().map_or(1, usize::from)).map(|_| scope.spawn(work)).collect();
        for worker in workers {
            add(&mut whole, &worker.join().expect("the machines are the same"));
        }
    });
    whole
}

/// Compares for so many seeds from the first on, and for more until so much time is over.
pub fn all(first: u64, seeds: u64, time: Duration) -> Comparison {
    let clock = Instant::now();
    let piece = |own: &mut Comparison, at: u64| {
        match at {
            0 => own.fixed(),
            _ if at - 1 == seeds => own.cells(),
            _ if at - 1 < seeds => own.seed(first + at - 1),
            _ if clock.elapsed() < time => own.seed(first + at - 2),
            _ => return false,
        }
        true
    };
    on_all(piece, Comparison::add)
}

/// Compares lists of long runs in the same way.
pub fn long_runs(first: u64, seeds: u64, time: Duration) -> Running {
    let clock = Instant::now();
    let piece = |own: &mut Running, at: u64| {
        let is_wanted = at < seeds || clock.elapsed() < time;
        if is_wanted {
            play_long(own, first + at);
        }
        is_wanted
    };
    on_all(piece, Running::add)
}

fn play_long(running: &mut Running, seed: u64) {
    running.lists += 1;
    let (mut ours, mut theirs) = (Store::zeros(), Store::zeros());
    for (at, call) in lasting(seed, LONG_TURNS).calls.iter().enumerate() {
        let (label, before) = (format!("long runs {seed}, call {at}"), ours.clone());
        let reply = both(&mut ours, &mut theirs, call, CELLS, &label);
        sound(&theirs, call, reply, &label);
        running.count(&before, call, reply);
    }
}
