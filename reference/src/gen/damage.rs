//! Damaged stores: good ones with cells, counts, rows, files or lengths changed.

use super::blueprint::Blueprint;
use super::build::{Code, Draft};
use super::cases::{self, MAIN};
use super::graphs::graphs;
use super::groups::{self, has_wrong_groups, wrong_groups};
use super::hides::hidden_fields;
use super::large;
use super::list::busy_list;
use super::loops::{spinning, unset_at_a_join, waiting};
use super::numbers::{can_be_mended, has_wrong_numbers, renumber, wrong_numbers};
use super::objects::{a_share, all_in_use, an_owner, free_rows, is_past_the_share, links, many_objects, unused_number};
use super::rng::Rng;
use super::traces::{a_trace, closed, has_wrong_trace, wrongs_in_turn, Wrong};
use super::unverified::{has_unverified, jumps_out, map_bytes, other_version, unseen_calls, unseen_jumps, unseen_rates};
use super::{Call, Trial};
use crate::file::File;
use crate::store::{cell, count, frame_base, Store};
use crate::store::{FIELDS, FRAME_ROW, INT, LENGTHS, LIMITS, OBJECT, OBJECT_ROW, MOST_LOADS, REPORT, ROW, SHARE, TASKS};

/// Kinds of damage, each a way to change a good store.
const KINDS: [fn(&mut Rng, &mut Store); 42] = [
    any_cells, a_count, uniform_table, wrong_length, second_cache_row, overlapping_files, superclass_not_lower,
    code_bytes, kept_byte, top_frame, operand_count, a_value, constraints, full_frames, uniform_store, file_place,
    nested_file, full_rows, many_fields, many_fields, hidden_fields, hidden_fields, many_classes, report_past_its_code, an_owner, free_rows,
    unused_number, links, many_objects, unseen_jumps, unseen_jumps, unseen_jumps, other_version, map_bytes,
    unseen_rates, unseen_calls, a_share, a_share, a_trace, a_trace, a_trace, a_trace,
];

/// What a damaged store may have, and the test for it.
pub type Shape = (&'static str, fn(&Store) -> bool);

/// What damaged stores must have among them.
pub const SHAPES: [Shape; 37] = [
    ("a class of more than 16 fields", |store| classes(store).iter().any(|&class| field_names(store, class).len() > FIELDS)),
    ("a field's name repeated below", |store| has_repeated_field(store, 2)),
    ("a field's name in three classes", |store| has_repeated_field(store, 3)),
    ("19 and more classes", |store| store.counts.first() >= Some(&19) && is_whole(store)),
    ("a report's frame past its code, and a quote", has_report_past_its_code),
    ("a value in field 3 or above", has_high_value),
    ("an owner above 2", |store| looked_at(store) && store.owners().iter().any(|&owner| owner > TASKS)),
    ("a free row below an object", |store| is_whole(store) && store.objects_in_use().zip(0..).any(|(object, place)| object > place)),
    ("a free row with any cells", |store| is_whole(store) && crate::broken(&all_in_use(store, false))),
    ("a value that names a free row", |store| looked_at(store) && crate::broken(store) && is_whole(&all_in_use(store, true))),
    ("256 objects in use", |store| is_whole(store) && store.unused_object().is_none()),
    ("192 of the report's objects", |store| is_whole(store) && store.made_by(REPORT) == SHARE),
    ("192 of the report's objects among 256", |store| is_whole(store) && store.made_by(REPORT) == SHARE && store.unused_object().is_none()),
    ("193 of the report's objects and more, and nothing else", is_past_the_share),
    ("a trace of loads", |store| is_whole(store) && store.count(count::LOADS) > 0),
    ("a trace of 32 loads", |store| is_whole(store) && store.count(count::LOADS) == MOST_LOADS),
    ("a trace that is wrong, and nothing else", has_wrong_trace),
    ("a trace that needs rows alone", |store| is_wrong(store, &[Wrong::Rows])),
    ("a trace that cuts a superclass's entry alone", |store| is_wrong(store, &[Wrong::Superclasses])),
    ("a trace that cuts an entry's class alone", |store| is_wrong(store, &[Wrong::Entries])),
    ("a trace that cuts an object's class alone", |store| is_wrong(store, &[Wrong::Objects])),
    ("a trace that cuts files alone", |store| is_wrong(store, &[Wrong::Files])),
    ("a trace that cuts numbers alone", |store| is_wrong(store, &[Wrong::Numbers])),
    ("a file of version 2 that define refuses", has_unverified),
    ("a jump out of the code", jumps_out),
    ("wrong numbers of constraints, and nothing else", has_wrong_numbers),
    ("constraints numbered in turn", |store| {
        is_whole(store) && store.tie_numbers().first() > Some(&0) && store.subtype_numbers().last() < store.tie_numbers().last()
    }),
    ("wrong groups, and nothing else", has_wrong_groups),
    ("the right groups under other numbers", |store| groups::is_wrong(store, groups::Wrong::Numbers)),
    ("the right groups under other numbers of their own", |store| groups::is_wrong(store, groups::Wrong::OwnNumbers)),
    ("one number for two groups", |store| groups::is_wrong(store, groups::Wrong::Joined)),
    ("two numbers for one group", |store| groups::is_wrong(store, groups::Wrong::Split)),
    ("a subtype constraint's number for a group", |store| groups::is_wrong(store, groups::Wrong::Subtypes)),
    ("groups with ties that are gone", |store| groups::is_wrong(store, groups::Wrong::Gone)),
    ("wrong groups, but not the first tie's", |store| groups::is_wrong(store, groups::Wrong::ButFirst)),
    ("groups of three ties under a number that isn't the row's place", |store| is_whole(store) && has_a_group_of_three(store)),
    ("other cells behind the groups", |store| is_whole(store) && store.counts[count::GROUPS + store.count(count::TIES)..].iter().any(|&cell| cell > 600)),
];

/// Is the trace wrong for this alone, where nothing else is?
fn is_wrong(store: &Store, wrongs: &[Wrong]) -> bool {
    has_wrong_trace(store) && store.count(count::LOADS) <= MOST_LOADS && wrongs_in_turn(store) == wrongs
}

/// Has a group three ties, under a number that isn't the place of its row?
fn has_a_group_of_three(store: &Store) -> bool {
    let is_such = |(&group, place): (&u16, usize)| {
        let ties = store.groups().iter().filter(|&&other| other == group).count();
        store.tie_numbers()[place] == group && usize::from(group) != place && ties >= 3
    };
    store.groups().iter().zip(0..).any(is_such)
}

/// A store from a boot with some damage, from one change to three.
pub fn damaged(seed: u64) -> Store {
    let mut rng = Rng::new(seed ^ 0x64_61_6D_61);
    let mut store = good(seed, &mut rng);
    // Other damage is mostly done where no load can be taken back.
    if rng.percent(80) {
        store = closed(&store);
    }
    for _ in 0..rng.pick(&[1, 1, 2, 3]) {
        spoil(&mut rng, &mut store);
    }
    // Rows that were changed leave groups that aren't theirs, and counts rows without a number of their own; mostly they get them.
    if has_wrong_groups(&store) && rng.percent(90) {
        store.regroup();
    }
    if can_be_mended(&store) && rng.percent(90) {
        renumber(&mut rng, &mut store);
    }
    if rng.percent(4) {
        wrong_numbers(&mut rng, &mut store);
    }
    if rng.percent(12) {
        wrong_groups(&mut rng, &mut store);
    }
    store
}

/// One change of any kind.
pub fn spoil(rng: &mut Rng, store: &mut Store) {
    let kind = rng.below(KINDS.len());
    KINDS[kind](rng, store);
}

/// A store from a boot, mostly with frames.
fn good(seed: u64, rng: &mut Rng) -> Store {
    if rng.percent(3) {
        // Thousands of steps are left.
        return if rng.percent(80) { large::tree() } else { large::tall_tree() };
    }
    if rng.percent(20) {
        return graphs(seed, rng.within(5, 60)).store;
    }
    if rng.percent(5) {
        // Waiting frames before maps, unset locals, loops under way.
        let trial = [waiting(), unset_at_a_join(), spinning()][rng.below(3)].clone();
        return after(&trial, rng.within(4, trial.calls.len()));
    }
    if rng.percent(80) {
        return busy_list(seed, rng.within(20, 90)).store;
    }
    let code = [cases::reader(), cases::caller(), cases::null_reader()][rng.below(3)].clone();
    let mut trial = cases::across(&code, rng.percent(50), rng.percent(50));
    for _ in 0..rng.below(3) {
        trial.step();
    }
    trial.store
}

/// The store after the first calls of a list.
fn after(trial: &Trial, calls: usize) -> Store {
    let mut store = Store::zeros();
    for call in &trial.calls[..calls] {
        call.apply(&mut store);
    }
    store
}

/// Calls of each kind to try on a store, with arguments that mostly make sense there.
pub fn probes(seed: u64, store: &Store) -> Vec<Call> {
    let mut rng = Rng::new(seed ^ 0x70_72_6F_62);
    let blueprint = Blueprint::new(&mut rng);
    let draft = blueprint.draft(&mut rng, 10 + seed as u16 % 7);
    let [loader, name, class] = some_entry(&mut rng, store);
    let other = rng.below(5) as u32;
    let int = rng.draw() as u32;
    vec![
        Call::Boot,
        Call::TakeBack,
        Call::Define { loader: other, file: draft.file() },
        Call::Define { loader: loader.into(), file: Draft::new(rng.within(2, 30) as u16).file() },
        Call::Record { loader: other, name: name.into(), class: class.into() },
        Call::Record { loader: rng.below(17) as u32, name: rng.below(16) as u32, class: rng.below(9) as u32 },
        Call::Sweep,
        Call::Start { task: rng.below(2) as u32, loader: loader.into(), name, method: 20, int },
        Call::Start { task: rng.below(3) as u32, loader: other, name: rng.below(16) as u16, method: 20, int },
        Call::Step,
        Call::Run { n: if rng.percent(40) { rng.word().into() } else { rng.within(0, 40) as u32 } },
        Call::Drop { task: rng.below(3) as u32 },
        Call::Sweep,
        Call::TakeBack,
        Call::Record { loader: 15, name: OBJECT.into(), class: 0 },
        Call::TakeBack,
    ]
}

/// Some row of the cache, used or not.
fn some_entry(rng: &mut Rng, store: &Store) -> [u16; 3] {
    let used = store.counts.get(count::CACHE).map_or(0, |&n| usize::from(n)).min(store.cache.len() / ROW);
    let at = rng.below(used.max(1)) * ROW;
    store.cache.get(at..at + ROW).map_or([1, 2, 0], |row| [row[0], row[1], row[2]])
}

/// A number that is small, near an edge, or anything.
pub fn number(rng: &mut Rng) -> u32 {
    match rng.below(5) {
        0 => rng.draw() as u32,
        1 => rng.pick(&[u32::MAX, 0x7FFF_FFFF, 0xFFFF, 0x1_0000, 255, 256, 257]),
        _ => rng.below(18) as u32,
    }
}

fn word(rng: &mut Rng) -> u16 {
    number(rng) as u16
}

fn table<'a>(rng: &mut Rng, store: &'a mut Store) -> (&'a mut Vec<u16>, usize) {
    let used = |cells: usize, rows: u16| (cells * usize::from(rows)).max(1);
    let counts = store.counts.clone();
    let count = |i: usize| counts.get(i).copied().unwrap_or(1);
    match rng.below(5) {
        0 => (&mut store.counts, 8),
        1 => (&mut store.classes, used(ROW, count(0))),
        2 => (&mut store.cache, used(ROW, count(2))),
        3 => (&mut store.ties, used(ROW, count(3))),
        _ => (&mut store.subtypes, used(ROW, count(4))),
    }
}

/// Some cells of used rows, whatever they hold.
fn any_cells(rng: &mut Rng, store: &mut Store) {
    for _ in 0..rng.within(1, 3) {
        let value = number(rng);
        match rng.below(4) {
            0 => set(rng, &mut store.objects, 4 * OBJECT_ROW, value),
            1 => set(rng, &mut store.frames, 2 * FRAME_ROW, value),
            _ => {
                let (cells, used) = table(rng, store);
                set(rng, cells, used, value as u16);
            }
        }
    }
}

fn set<T>(rng: &mut Rng, cells: &mut [T], used: usize, value: T) {
    let end = used.min(cells.len());
    if end > 0 {
        cells[rng.below(end)] = value;
    }
}

/// A count at, past or below its limit, or one off.
fn a_count(rng: &mut Rng, store: &mut Store) {
    let which = rng.below(8);
    let Some(count) = store.counts.get_mut(which) else {
        return;
    };
    *count = match rng.below(7) {
        0 => LIMITS[which],
        1 => LIMITS[which] + 1,
        2 => 0,
        3 => u16::MAX,
        4 => count.wrapping_add(1),
        5 => count.saturating_sub(1),
        _ => rng.below(usize::from(LIMITS[which]) + 1) as u16,
    };
}

fn fill(store: &mut Store, which: usize, bits: u32) {
    match which {
        0 => store.counts.fill(bits as u16),
        1 => store.classes.fill(bits as u16),
        2 => store.kept.fill(bits as u8),
        3 => store.cache.fill(bits as u16),
        4 => store.ties.fill(bits as u16),
        5 => store.subtypes.fill(bits as u16),
        6 => store.objects.fill(bits),
        _ => store.frames.fill(bits),
    }
}

/// A table of zeros or ones.
fn uniform_table(rng: &mut Rng, store: &mut Store) {
    let bits = rng.pick(&[0, u32::MAX, 1]);
    fill(store, rng.below(8), bits);
}

/// Every table of zeros or ones, now and then with counts that fit.
fn uniform_store(rng: &mut Rng, store: &mut Store) {
    let bits = rng.pick(&[0, u32::MAX]);
    (0..8).for_each(|which| fill(store, which, bits));
    if rng.percent(50) && store.counts.len() == LENGTHS[0] {
        for (count, limit) in store.counts.iter_mut().zip(LIMITS) {
            *count = rng.below(usize::from(limit) + 1) as u16;
        }
        store.counts[count::LOADS] = rng.pick(&[0, 0, 1, 32]);
    }
}

fn resize<T: Clone + Default>(cells: &mut Vec<T>, change: usize) {
    match change {
        0 => cells.clear(),
        1 => drop(cells.pop()),
        2 => cells.push(T::default()),
        _ => cells.extend(cells.clone()),
    }
}

/// A table that is too short or too long.
pub fn wrong_length(rng: &mut Rng, store: &mut Store) {
    let change = rng.below(4);
    match rng.below(8) {
        0 => resize(&mut store.counts, change),
        1 => resize(&mut store.classes, change),
        2 => resize(&mut store.kept, change),
        3 => resize(&mut store.cache, change),
        4 => resize(&mut store.ties, change),
        5 => resize(&mut store.subtypes, change),
        6 => resize(&mut store.objects, change),
        _ => resize(&mut store.frames, change),
    }
}

/// Are the tables such that rows can be damaged with care?
pub fn is_whole(store: &Store) -> bool {
    !crate::broken(store)
}

/// Two rows for one request, the new one below or above the old.
fn second_cache_row(rng: &mut Rng, store: &mut Store) {
    let used = store.counts.get(count::CACHE).map_or(0, |&n| usize::from(n));
    if !is_whole(store) || used == 0 || store.is_full(count::CACHE) {
        return;
    }
    let at = rng.below(used) * ROW;
    let class = rng.below(store.count(count::CLASSES)) as u16;
    let row = [store.cache[at], store.cache[at + 1], class];
    store.add_cached(row);
    if rng.percent(50) {
        store.cache.swap(at + 2, used * ROW + 2);
    }
}

/// A class whose file is another class's.
fn overlapping_files(rng: &mut Rng, store: &mut Store) {
    let classes = store.counts.first().map_or(0, |&n| usize::from(n));
    if !is_whole(store) || classes < 3 {
        return;
    }
    let (from, to) = (rng.within(1, classes - 1) * ROW, rng.within(1, classes - 1) * ROW);
    store.classes.copy_within(from + 1..from + ROW, to + 1);
}

/// A class whose file stands within another's code.
fn nested_file(rng: &mut Rng, store: &mut Store) {
    let Some(code) = some_code(rng, store) else {
        return;
    };
    let bytes = Draft::new(rng.within(2, 16) as u16).file();
    if bytes.len() > code.len() {
        return;
    }
    let class = rng.within(1, store.count(count::CLASSES) - 1);
    store.kept[code.start..code.start + bytes.len()].copy_from_slice(&bytes);
    let place = [code.start as u16, bytes.len() as u16];
    store.classes[class * ROW + 1..(class + 1) * ROW].copy_from_slice(&place);
}

/// A cache row of a superclass with a number that isn't lower.
fn superclass_not_lower(rng: &mut Rng, store: &mut Store) {
    let classes = store.counts.first().map_or(0, |&n| n);
    if !is_whole(store) || classes < 2 {
        return;
    }
    let class = rng.within(1, usize::from(classes) - 1) as u16;
    let Some(file) = store.file(class) else {
        return;
    };
    let request = (store.loader_of(class), file.superclass());
    let found = store.cache_rows().position(|row| (row[0], row[1]) == request);
    if let Some(row) = found {
        store.cache[row * ROW + 2] = rng.within(usize::from(class), usize::from(classes) - 1) as u16;
    }
}

/// Where the code of some method stands in the kept bytes.
fn some_code(rng: &mut Rng, store: &Store) -> Option<std::ops::Range<usize>> {
    let classes = usize::from(*store.counts.first()?);
    if !is_whole(store) || classes < 2 {
        return None;
    }
    let class = match store.turn() {
        Some(task) if rng.percent(70) => {
            store.frames[frame_base(task, store.frame_count(task) - 1) + cell::CLASS] as u16
        }
        _ => rng.within(1, classes - 1) as u16,
    };
    let file = store.file(class)?;
    let code = file.method(rng.below(file.method_count().max(1)))?.code;
    let start = code.as_ptr() as usize - store.kept.as_ptr() as usize;
    Some(start..start + code.len())
}

/// Code that no verifier has seen.
fn code_bytes(rng: &mut Rng, store: &mut Store) {
    for _ in 0..rng.within(1, 4) {
        let Some(code) = some_code(rng, store) else {
            return;
        };
        let at = rng.within(code.start, code.end - 1);
        store.kept[at] = match rng.below(4) {
            0 => rng.draw() as u8,
            1 => rng.below(16) as u8,
            _ => rng.pick(&crate::code::op::ALL),
        };
    }
}

fn kept_byte(rng: &mut Rng, store: &mut Store) {
    let used = store.counts.get(count::KEPT).map_or(0, |&n| usize::from(n)).min(store.kept.len());
    if used > 0 {
        let at = rng.below(used);
        store.kept[at] = rng.draw() as u8;
    }
}

/// A class's start or size moved.
fn file_place(rng: &mut Rng, store: &mut Store) {
    let classes = store.counts.first().map_or(0, |&n| usize::from(n)).min(store.classes.len() / ROW);
    if classes > 1 {
        let at = rng.within(1, classes - 1) * ROW + rng.within(1, 2);
        store.classes[at] = store.classes[at].wrapping_add(rng.pick(&[1, u16::MAX, 0x8000]));
    }
}

/// The cells of the top frame of the task at its turn.
fn top(store: &mut Store) -> Option<&mut [u32]> {
    if !is_whole(store) {
        return None;
    }
    let task = store.turn()?;
    let base = frame_base(task, store.frame_count(task) - 1);
    Some(&mut store.frames[base..base + FRAME_ROW])
}

/// Class, method or point of the top frame.
fn top_frame(rng: &mut Rng, store: &mut Store) {
    let classes = store.counts.first().map_or(1, |&n| usize::from(n).max(1));
    let Some(frame) = top(store) else {
        return;
    };
    match rng.below(4) {
        0 => frame[cell::CLASS] = rng.below(classes) as u32,
        1 => frame[cell::METHOD] = rng.pick(&[0, 1, 2, 8, 0xFFFF_FFFF]),
        _ => frame[cell::POINT] = number(rng),
    }
}

/// An operand count that isn't the verifier's; the operands are ints or nulls, but for one at times.
fn operand_count(rng: &mut Rng, store: &mut Store) {
    let (kind, count) = (rng.pick(&[1, 2]), rng.pick(&[0, 1, 2, 15, 16, 16, 17]));
    let Some(frame) = top(store) else {
        return;
    };
    frame[cell::OPERANDS] = count;
    for operand in 0..16 {
        let at = cell::OPERAND_0 + 2 * operand;
        frame[at..at + 2].copy_from_slice(&[kind, 0]);
    }
    if rng.percent(30) {
        let at = cell::OPERAND_0 + 2 * rng.below(16);
        frame[at..at + 2].copy_from_slice(&rng.pick(&[[0, 0], [2, 1], [3, 999], [4, 0], [3, 0]]));
    }
}

/// A value of the top frame or of an object changed to another kind.
fn a_value(rng: &mut Rng, store: &mut Store) {
    let objects = store.counts.get(count::OBJECTS).map_or(1, |&n| u32::from(n).max(1));
    let object = rng.draw() as u32 % objects;
    let pair = rng.pick(&[[0, 0], [1, 5], [2, 0], [3, object], [3, object], [3, objects], [2, 1], [4, 0], [0, 1]]);
    if rng.percent(40) && is_whole(store) {
        let at = Store::field_cell(object, rng.below(FIELDS));
        store.objects[at..at + 2].copy_from_slice(&pair);
    } else if let Some(frame) = top(store) {
        let places = rng.pick(&[3, 12, 12]);
        let at = cell::LOCAL_0 + 2 * rng.below(places);
        frame[at..at + 2].copy_from_slice(&pair);
    }
}

/// Constraints that nobody posted; the store may disagree with them.
pub fn constraints(rng: &mut Rng, store: &mut Store) {
    if !is_whole(store) {
        return;
    }
    for _ in 0..rng.within(1, 6) {
        let (one, other) = (rng.below(5) as u16, rng.below(5) as u16);
        let name = |rng: &mut Rng| if rng.percent(95) { rng.within(2, 16) as u16 } else { word(rng) };
        let (low, high) = (name(rng), name(rng));
        if rng.percent(50) && !store.is_full(count::TIES) {
            store.add_tie([one, other, low]);
        } else if !store.is_full(count::SUBTYPES) {
            store.add_subtype([one, low, high]);
        }
    }
}

/// The cache, the ties or the subtype constraints filled, but for a row or two at times, by rows that say nothing of other requests.
fn full_rows(rng: &mut Rng, store: &mut Store) {
    let (which, left) = (rng.within(count::CACHE, count::SUBTYPES), rng.pick(&[0, 0, 1, 2]));
    if !is_whole(store) || store.counts[count::CLASSES] == 0 {
        return;
    }
    while store.counts[which] + left < LIMITS[which] {
        let name = 60_000 + store.counts[which];
        match which {
            count::CACHE => store.add_cached([15, name, 0]),
            count::TIES => store.add_tie([15, 14, name]),
            _ => store.add_subtype([15, 2, name]),
        }
    }
}

/// A task with all its frames, copies of the top one.
fn full_frames(rng: &mut Rng, store: &mut Store) {
    let Some(frame) = top(store).map(|frame| frame.to_vec()) else {
        return;
    };
    let Some(task) = store.turn() else {
        return;
    };
    let frames = rng.pick(&[2, 31, 32]);
    for depth in store.frame_count(task)..frames {
        let base = frame_base(task, depth);
        store.frames[base..base + FRAME_ROW].copy_from_slice(&frame);
    }
    store.counts[count::FRAMES + task] = store.counts[count::FRAMES + task].max(frames as u16);
}

/// Are lengths and counts such that rows can be looked at?
pub fn looked_at(store: &Store) -> bool {
    store.lengths() == LENGTHS && store.counts.iter().zip(LIMITS).all(|(&count, limit)| count <= limit)
}

/// The classes but Object of a store, whatever is damaged; none if they can't be looked at.
fn classes(store: &Store) -> Vec<u16> {
    if looked_at(store) { (1..store.counts[0]).collect() } else { Vec::new() }
}

/// The names of a class's fields, its own first and then those upward, as long as superclasses have lower numbers.
fn field_names(store: &Store, class: u16) -> Vec<u16> {
    let Some(file) = store.file_bytes(class).and_then(File::read) else {
        return Vec::new();
    };
    let mut names: Vec<u16> = file.fields().map(|field| field.name).collect();
    match store.cached(store.loader_of(class), file.superclass()) {
        Some(up) if up != 0 && up < class => names.extend(field_names(store, up)),
        _ => {}
    }
    names
}

/// Has a class, with those above it, a field's name so many times?
fn has_repeated_field(store: &Store, times: usize) -> bool {
    let repeats = |&class: &u16| {
        let mut names = field_names(store, class);
        names.sort_unstable();
        names.windows(times).any(|few| few[0] == few[times - 1])
    };
    is_whole(store) && classes(store).iter().any(repeats)
}

fn has_report_past_its_code(store: &Store) -> bool {
    let both = store.counts.get(count::FRAMES..count::OWNERS).is_some_and(|counts| counts.iter().all(|&frames| frames > 0));
    let past = || store.frames[frame_base(1, store.frame_count(1) - 1) + cell::POINT] >= 512;
    both && is_whole(store) && past()
}

/// A value other than the first that a field has.
fn has_high_value(store: &Store) -> bool {
    let Some(classes) = crate::broken::unbroken(store) else {
        return false;
    };
    let high = |object: u32| {
        let fields = classes.field_count(store.object_class(object));
        (3..fields).any(|field| ![[1, 0], [2, 0]].contains(&[0, 1].map(|i| store.objects[Store::field_cell(object, field) + i])))
    };
    store.objects_in_use().any(high)
}

/// Adds a class that no define has looked at, of a loader that knows its superclass. Nothing if there is no room.
pub fn add_unseen(store: &mut Store, loader: u16, draft: &Draft) -> Option<u16> {
    let file = draft.file();
    let room = store.count(count::KEPT) + file.len() <= usize::from(LIMITS[count::KEPT]);
    if !room || store.is_full(count::CLASSES) || store.is_full(count::CACHE) {
        return None;
    }
    let class = store.add_class(loader, &file);
    store.add_cached([loader, draft.name, class]);
    Some(class)
}

/// A name that no class has.
pub fn unused_name(store: &Store) -> u16 {
    50_000 + store.counts[count::CLASSES]
}

/// The frames of a task that starts in a method of this class, if it has room for its object, and then the object.
pub fn start_in(rng: &mut Rng, store: &mut Store, loader: u16, name: u16) -> Option<u32> {
    let (task, object) = (rng.below(2), store.unused_object());
    store.counts[count::FRAMES..count::OWNERS].fill(0);
    crate::start(store, task as u32, loader.into(), name, MAIN, 7);
    object
}

/// Three classes below each other with 16 fields or more; if it isn't more, a task that uses the last of them, and values there.
fn many_fields(rng: &mut Rng, store: &mut Store) {
    if !is_whole(store) || store.cached(0, OBJECT) != Some(0) {
        return;
    }
    let last = rng.pick(&[0, 0, 0, 1, 8]);
    let (mut superclass, first) = (OBJECT, 600);
    for (place, fields) in [8, 8, last].into_iter().enumerate() {
        let name = unused_name(store);
        let own = first + 8 * place as u16;
        let (old, new) = (first + rng.within(3, 15) as u16, first + rng.within(3, 15) as u16);
        let code = Code::new().aload(0).aload(0).getfield(name, old, INT).putfield(name, new, INT).aload(0);
        let mut draft = Draft::new(name).under(superclass).main(MAIN, &code.getfield(name, new, INT).ireturn());
        draft.fields = (own..own + fields).map(|field| (field, INT)).collect();
        if add_unseen(store, 0, &draft).is_none() {
            return;
        }
        superclass = name;
    }
    if last > 0 {
        return;
    }
    let Some(object) = start_in(rng, store, 0, superclass) else {
        return;
    };
    for field in 3..FIELDS {
        let value = rng.pick(&[[1, 5], [1, u32::MAX], [1, 0], [2, 0], [3, object]]);
        let value = if rng.percent(97) { [1, value[1]] } else { value };
        let at = Store::field_cell(object, field);
        store.objects[at..at + 2].copy_from_slice(&value);
    }
}

/// Classes up to a number between 19 and their limit.
fn many_classes(rng: &mut Rng, store: &mut Store) {
    let wanted = rng.within(19, 64) as u16;
    if !is_whole(store) || store.cached(0, OBJECT) != Some(0) {
        return;
    }
    while store.counts[count::CLASSES] < wanted {
        let name = unused_name(store);
        let under = if rng.percent(50) && store.cached(0, name - 1).is_some() { name - 1 } else { OBJECT };
        let draft = Draft::new(name).under(under).main(MAIN, &Code::new().iload(1).ireturn());
        if add_unseen(store, 0, &draft).is_none() {
            return;
        }
    }
}

/// Both tasks have a frame, and the report's stands past its code.
fn report_past_its_code(rng: &mut Rng, store: &mut Store) {
    let Some(frame) = top(store).map(|frame| frame.to_vec()) else {
        return;
    };
    for task in 0..2 {
        if store.frame_count(task) == 0 {
            let base = frame_base(task, 0);
            store.frames[base..base + FRAME_ROW].copy_from_slice(&frame);
            store.counts[count::FRAMES + task] = 1;
        }
    }
    let base = frame_base(1, store.frame_count(1) - 1);
    store.frames[base + cell::POINT] = rng.pick(&[512, 513, 0xFFFF, u32::MAX]);
}
