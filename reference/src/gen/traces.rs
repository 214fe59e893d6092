//! Damage to the trace of loads: levels that nobody wrote, right and wrong.

use super::build::Draft;
use super::cases::{f, ready, subtype, tie, MAIN};
use super::damage::{constraints, is_whole};
use super::rng::Rng;
use crate::store::{cell, count, frame_base, Level, Store, FRAME_ROW, LENGTHS, LIMITS, MOST_LOADS, ROW, TASKS};

/// Stores with traces by hand: what it is, the store, and whether it is broken.
pub type Case = (&'static str, Store, bool);

/// The store with these levels, the oldest first.
fn with(store: &Store, levels: &[Level]) -> Store {
    let mut copy = store.clone();
    copy.set_levels(levels);
    copy
}

/// Three classes of loader 1, the second below the first.
fn classes() -> Vec<Case> {
    let mut trial = ready();
    trial.define(1, &f());
    trial.define(1, &Draft::new(11).under(10));
    trial.define(1, &Draft::new(12));
    let (levels, store) = (trial.store.levels(), closed(&trial.store));
    let (now, size) = (store.level(), store.counts[count::KEPT]);
    let [before_f, before_11, before_12] = [3, 4, 5].map(|load| levels[load]);
    let off = |at: usize, value: u16| {
        let mut level = before_12;
        level[at] = value;
        with(&store, &[level])
    };
    let mut many = with(&store, &[now; MOST_LOADS]);
    many.counts[count::LOADS] += 1;
    vec![
        ("as it is", with(&store, &levels), false),
        ("takes nothing", with(&store, &[now]), false),
        ("takes three classes", with(&store, &[before_f]), false),
        ("in turn", with(&store, &[before_f, before_11, before_12, now]), false),
        ("more rows than are there at that turn", with(&store, &[before_12, before_11]), true),
        ("nothing between", with(&store, &[before_11; 3]), false),
        ("takes all", with(&store, &[[0; 5]]), false),
        ("takes all but Object, which needs no entry", with(&store, &[[1, 0, 0, 0, 0]]), false),
        ("kept bytes that aren't there", with(&store, &[[now[0], size + 1, now[2], 0, 0]]), true),
        ("the entry stays and the class goes", off(0, before_11[0]), true),
        ("the class stays and its file goes", off(0, now[0]), true),
        ("bytes stay that no class has", off(1, size), false),
        ("a file is cut", off(1, before_12[1] - 1), true),
        ("the entry goes and the class stays", off(2, before_11[2]), false),
        ("the entry of a superclass goes", off(2, before_f[2]), true),
        ("the entry of a superclass goes at last", with(&store, &[[before_12[0], before_12[1], 0, 0, 0], before_12, now]), true),
        ("a tie that isn't there", off(3, 1), true),
        ("far more than are there", off(4, u16::MAX), true),
        ("past the limit", off(0, 65), true),
        ("32 loads", with(&store, &[now; MOST_LOADS]), false),
        ("33 loads", many, true),
    ]
}

/// An object's class can't go, dead or not, until a sweep; nor a frame's.
fn objects() -> Vec<Case> {
    let mut trial = ready();
    trial.define(1, &f());
    let before = trial.store.level();
    trial.define(1, &Draft::new(11).under(10));
    trial.start(1, 1, 11, MAIN, 0);
    trial.drop_task(1);
    let dead = with(&trial.store, &[before]);
    trial.sweep();
    let swept = with(&trial.store, &[before]);
    trial.start(1, 1, 10, MAIN, 0);
    let other = with(&trial.store, &[before]);
    let mut frame = other.clone();
    frame.frames[frame_base(1, 0) + cell::CLASS] = 2;
    vec![
        ("a dead object's class", dead, true), ("after a sweep", swept, false), ("another class's object", other, false), ("a frame's class", frame, true),
    ]
}

/// Ties 0 and 2 and subtype constraint 1: what is left must be numbered from 0 on.
fn numbers() -> Vec<Case> {
    let mut trial = ready();
    tie(&mut trial, 1, 2, 12);
    subtype(&mut trial, 1, 13, 12);
    tie(&mut trial, 2, 3, 12);
    let store = closed(&trial.store);
    let [n, k, e, ..] = store.level();
    let left = [(2, 1, false), (1, 1, false), (1, 0, false), (0, 0, false), (2, 0, true), (0, 1, true)];
    left.map(|(ties, subtypes, is_broken)| ("numbers that are cut", with(&store, &[[n, k, e, ties, subtypes]]), is_broken)).into()
}

pub fn cases() -> Vec<Case> {
    [classes(), objects(), numbers(), vec![("no rows at all", with(&Store::zeros(), &[[0; 5]; 3]), false)]].concat()
}

/// A copy of the store without a load to be taken back.
pub fn closed(store: &Store) -> Store {
    let mut copy = store.clone();
    copy.close();
    copy
}

/// Is the store broken by its trace alone?
pub fn has_wrong_trace(store: &Store) -> bool {
    let is_read = store.lengths() == LENGTHS && store.counts.iter().zip(LIMITS).all(|(&count, limit)| count <= limit);
    is_read && !is_whole(store) && is_whole(&closed(store))
}

/// The lowest number of classes with which the classes of all objects and frames are there.
pub fn least_classes(store: &Store) -> u16 {
    let objects = store.objects_in_use().map(|object| u32::from(store.object_class(object)));
    let each = |task: usize| (0..store.frame_count(task)).map(move |depth| frame_base(task, depth));
    let frames = (0..usize::from(TASKS)).flat_map(each).map(|base| store.frames[base..base + FRAME_ROW][cell::CLASS]);
    objects.chain(frames).max().map_or(0, |class| class as u16 + 1)
}

/// The highest number of cache rows of which none has a class from this one on.
fn most_entries(store: &Store, classes: u16) -> u16 {
    store.cache_rows().take_while(|row| row[2] < classes).count() as u16
}

/// The lowest number of kept bytes that holds the files of the classes below this one.
fn least_kept(store: &Store, classes: u16) -> u16 {
    let end = |class: u16| store.classes[usize::from(class) * ROW + 1] + store.classes[usize::from(class) * ROW + 2];
    (1..classes.min(store.counts[count::CLASSES])).map(end).max().unwrap_or(0)
}

/// How many rows of both tables have a number below this one.
fn rows_below(store: &Store, number: usize) -> [u16; 2] {
    [store.tie_numbers(), store.subtype_numbers()].map(|numbers| numbers.iter().filter(|&&other| usize::from(other) < number).count() as u16)
}

/// A level to which a store that isn't broken and has no trace can be cut, mostly.
fn some_level(rng: &mut Rng, store: &Store) -> Level {
    let [classes, kept, ..] = store.level();
    let between = |rng: &mut Rng, low: u16, high: u16| {
        if low >= high || rng.percent(40) { high } else { rng.within(low.into(), high.into()) as u16 }
    };
    let n = between(rng, least_classes(store), classes);
    let k = if rng.percent(50) { least_kept(store, n) } else { between(rng, least_kept(store, n), kept) };
    let most = most_entries(store, n);
    let e = if rng.percent(70) { most } else { between(rng, 0, most) };
    let [t, s] = rows_below(store, between(rng, 0, store.constraint_count() as u16).into());
    [n, k, e, t, s]
}

/// A trace of some loads, mostly one that can be taken back in turn; at times one count is one off, or anything.
pub fn a_trace(rng: &mut Rng, store: &mut Store) {
    if !is_whole(store) {
        return;
    }
    if rng.percent(50) {
        constraints(rng, store);
    }
    let mut left = closed(store);
    let mut levels = Vec::new();
    for _ in 0..rng.pick(&[1, 1, 2, 3, 5, 9]) {
        let fits = (0..6).map(|_| some_level(rng, &left)).find(|&level| {
            let mut cut = left.clone();
            cut.cut(level);
            is_whole(&cut)
        });
        let Some(level) = fits else {
            break;
        };
        left.cut(level);
        levels.insert(0, level);
    }
    let Some(&oldest) = levels.first() else {
        return;
    };
    if rng.percent(15) {
        levels.splice(0..0, std::iter::repeat_n(oldest, MOST_LOADS - levels.len()));
    }
    store.set_levels(&levels);
    if rng.percent(55) {
        spoil(rng, store);
    }
}

/// One count of one level changed, two levels in each other's place, or too many levels.
fn spoil(rng: &mut Rng, store: &mut Store) {
    let levels = store.count(count::LOADS);
    let at = count::LEVELS + 5 * rng.below(levels);
    let superclass = some_superclass_row(rng, store, store.counts[at]);
    let cell = &mut store.counts[at + rng.weighted(&[3, 4, 3, 2, 2])];
    match rng.below(21) {
        0..=3 => *cell = cell.saturating_sub(1),
        4..=6 => *cell = cell.saturating_add(1),
        7 => *cell = rng.pick(&[0, 1, 255, 256, u16::MAX]),
        8 => store.counts[count::LOADS] = rng.pick(&[MOST_LOADS as u16 + 1, 33, 64, u16::MAX]),
        9 | 10 => store.counts[at + count::CACHE] = superclass.unwrap_or(0),
        11..=13 => store.counts[at] = store.counts[at].saturating_sub(1),
        14..=17 => {
            let (which, rows) = rng.pick(&[(count::TIES, store.counts[count::TIES]), (count::SUBTYPES, store.counts[count::SUBTYPES])]);
            store.counts[at + which] = rng.within(0, rows.into()) as u16;
        }
        18 | 19 => used_class(store),
        _ => {
            let other = count::LEVELS + 5 * rng.below(levels);
            (0..5).for_each(|cell| store.counts.swap(at + cell, other + cell));
        }
    }
}

/// The oldest level takes a class that an object or a frame has, with its entries.
fn used_class(store: &mut Store) {
    let classes = least_classes(store).saturating_sub(1);
    let entries = most_entries(store, classes);
    let [n, _, e, ..] = &mut store.counts[count::LEVELS..][..5] else {
        return;
    };
    (*n, *e) = ((*n).min(classes), (*e).min(entries));
}

/// The cache row of the superclass of some class below this one.
fn some_superclass_row(rng: &mut Rng, store: &Store, classes: u16) -> Option<u16> {
    let classes = usize::from(classes.min(store.counts[count::CLASSES]));
    if classes < 2 {
        return None;
    }
    let class = rng.within(1, classes - 1) as u16;
    let request = (store.loader_of(class), store.file(class)?.superclass());
    store.cache_rows().position(|row| (row[0], row[1]) == request).map(|row| row as u16)
}

/// Why a trace can't be taken back.
#[derive(Clone, Copy, Debug, PartialEq, Eq)]
pub enum Wrong {
    /// A level needs rows that aren't there.
    Rows,
    /// A file of a class that stays ends past the kept bytes.
    Files,
    /// A superclass of a class that stays has no cache row.
    Superclasses,
    /// A cache row that stays has a class that goes.
    Entries,
    /// An object or a frame has a class that goes.
    Objects,
    /// The numbers of the constraints that stay don't count from 0 on.
    Numbers,
}

pub const WRONGS: [Wrong; 6] = [Wrong::Rows, Wrong::Files, Wrong::Superclasses, Wrong::Entries, Wrong::Objects, Wrong::Numbers];

/// What is wrong about cutting a store, which isn't broken or was cut from such a one, to a level.
pub fn wrongs(left: &Store, level: Level) -> Vec<Wrong> {
    let [n, k, e, t, s] = level;
    let is = |wrong: Wrong| match wrong {
        Wrong::Rows => level.iter().zip(left.level()).any(|(&rows, there)| rows > there),
        Wrong::Files => least_kept(left, n) > k,
        Wrong::Superclasses => (1..n.min(left.level()[0])).any(|class| {
            let Some(file) = left.file(class) else {
                return false;
            };
            let request = (left.loader_of(class), file.superclass());
            left.cache_rows().take(e.into()).all(|row| (row[0], row[1]) != request)
        }),
        Wrong::Entries => left.cache_rows().take(e.into()).any(|row| row[2] >= n),
        Wrong::Objects => least_classes(left) > n,
        Wrong::Numbers => {
            let stay = left.tie_numbers().iter().take(t.into()).chain(left.subtype_numbers().iter().take(s.into()));
            stay.max().is_some_and(|&highest| u32::from(highest) >= u32::from(t) + u32::from(s))
        }
    };
    WRONGS.into_iter().filter(|&wrong| is(wrong)).collect()
}

/// All that is wrong about a trace, level by level from the latest on, up to the first that is wrong.
pub fn wrongs_in_turn(store: &Store) -> Vec<Wrong> {
    let mut left = closed(store);
    for &level in store.levels().iter().rev() {
        let wrongs = wrongs(&left, level);
        if !wrongs.is_empty() {
            return wrongs;
        }
        left.cut(level);
    }
    Vec::new()
}
