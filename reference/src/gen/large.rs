//! Stores to measure on: call trees, chains of constraints, a usual store, a full one, stores full of objects. None is broken; all agree. No load can be taken
//! back in them, but for `remembering` and `full_remembering`.

use super::build::{Code, Draft};
use super::clashes::long_chain;
use super::files::{of_length, of_maps};
use super::loops::repeating;
use super::rng::Rng;
use super::{Call, Trial};
use crate::broken::unbroken;
use crate::store::{cell, count, frame_base, Level, Store, Value, INT, MOST_LOADS, MOST_OBJECTS, MOST_ROWS, OPERANDS, ROW};
use crate::task::make_object;

/// The class of the trees, and of the upper half of the tall one.
const TREE: u16 = 10;
const UPPER: u16 = 11;
const TOTAL: u16 = 5;
const ROOT: u16 = 20;
/// The field by which objects are linked.
const NEXT: u16 = 6;

/// The first name of the chains, the names of the grid.
const CHAIN: u16 = 3_000;
const GRID: u16 = 100;

/// Adds to the total, calls the next method twice, and adds what they give.
fn inner(class: u16, next: u16) -> Code {
    let twice = |code: Code| code.aload(0).iload(1).invoke(class, next, INT, INT);
    let total = Code::new().aload(0).aload(0).getfield(class, TOTAL, INT).iload(1).iadd().putfield(class, TOTAL, INT);
    twice(twice(total)).iadd().ireturn()
}

fn leaf(code: Code) -> Code {
    code.aload(0).getfield(TREE, TOTAL, INT).iload(1).iadd().ireturn()
}

fn started(drafts: &[Draft], name: u16) -> Store {
    let mut trial = Trial::ready([1]);
    for draft in drafts {
        trial.define(1, draft);
    }
    trial.start(0, 1, name, ROOT, 3);
    trial.store
}

/// The quote at the root of a tree of calls: eight levels of one class, an object made in each leaf.
pub fn tree() -> Store {
    let inner = (0..7).fold(Draft::new(TREE).field(TOTAL, INT), |draft, level| {
        draft.main(ROOT + level, &inner(TREE, ROOT + level + 1))
    });
    started(&[inner.main(ROOT + 7, &leaf(Code::new().object(TREE).astore(2)))], TREE)
}

/// The types of the three arguments of `tree_of_three`.
const THREE: [u16; 3] = [INT; 3];

/// Adds to the total, calls the next method twice with the three ints in these locals, and adds what they give.
fn inner_of_three(next: u16, locals: [u8; 3]) -> Code {
    let twice = |code: Code| locals.into_iter().fold(code.aload(0), Code::iload).call(TREE, next, &THREE, INT);
    let total = Code::listed().aload(0).aload(0).getfield(TREE, TOTAL, INT).iload(1).iadd().putfield(TREE, TOTAL, INT);
    twice(twice(total)).iadd().ireturn()
}

/// The tree of eight levels in version 3: below the root, which starts with one int, each method has three arguments and each leaf adds them all.
pub fn tree_of_three() -> Store {
    let root = Draft::listed(TREE).field(TOTAL, INT).main(ROOT, &inner_of_three(ROOT + 1, [1, 1, 1]));
    let inner = (1..7).fold(root, |draft, level| draft.method_of(ROOT + level, &THREE, INT, &inner_of_three(ROOT + level + 1, [1, 2, 3])));
    let leaf = Code::listed().object(TREE).astore(4).aload(0).getfield(TREE, TOTAL, INT);
    let leaf = (1..=3).fold(leaf, |code, local| code.iload(local).iadd()).ireturn();
    started(&[inner.method_of(ROOT + 7, &THREE, INT, &leaf)], TREE)
}

/// The tree of one argument with twelve levels, the upper six in a class below that of the others; objects are made on level six.
pub fn tall_tree() -> Store {
    let mut lower = Draft::new(TREE).field(TOTAL, INT);
    let mut upper = Draft::new(UPPER).under(TREE);
    for level in 0..6 {
        upper = upper.main(ROOT + level, &inner(UPPER, ROOT + level + 1));
    }
    for level in 6..11 {
        let code = inner(TREE, ROOT + level + 1);
        let made = Code::new().object(TREE).astore(2);
        let code = if level == 6 { Code::of([made.bytes, code.bytes].concat()) } else { code };
        lower = lower.main(ROOT + level, &code);
    }
    started(&[lower.main(ROOT + 11, &leaf(Code::new())), upper], UPPER)
}

/// One chain of so many ties and as many subtype constraints in turn; every second of its requests is loaded, as Object, until there are
/// so many entries, 8 or more, with the one of `chain_define` or `chain_record`, which loads the first request.
pub fn chain(entries: usize, links: usize) -> Store {
    let mut trial = Trial::ready([5]);
    trial.define(5, &Draft::new(CHAIN));
    let mut store = trial.store;
    add_chain(&mut store, entries - 1, links);
    store.close();
    store
}

/// Adds the links of a chain, and entries until there are so many.
fn add_chain(store: &mut Store, entries: usize, links: usize) {
    for i in 0..links as u16 {
        let (near, far) = (i % 2, 1 - i % 2);
        store.add_tie([near, far, CHAIN + i]);
        store.add_subtype([far, CHAIN + i, CHAIN + i + 1]);
    }
    for i in (1..).take(entries.saturating_sub(store.count(count::CACHE))) {
        let loader = if usize::from(i) < links { i % 2 } else { 2 };
        store.add_cached([loader, CHAIN + i, 0]);
    }
}

/// A chain of 255 ties and as many subtype constraints with 256 entries, and the quote before a getfield that posts one more tie.
pub fn posting() -> Store {
    let mut trial = Trial::ready([5, 6]);
    trial.define(5, &Draft::new(50).field(30, CHAIN));
    trial.record(6, 50, 1);
    let code = Code::new().object(50).getfield(50, 30, CHAIN).pop().iload(1).ireturn();
    trial.define(6, &Draft::new(51).main(ROOT, &code));
    trial.start(0, 6, 51, ROOT, 3);
    trial.step();
    add_chain(&mut trial.store, 256, 255);
    trial.store
}

/// Eight groups: four names, each tied by every pair of loaders 0 to 7 and by every pair of 8 to 15, which makes 224 ties; and loader 8's class 50, known to
/// loader 7. The define joins the two groups of the first name.
pub fn joining() -> (Store, Call) {
    let mut trial = Trial::ready([7, 8]);
    let poster = |name: u16| Draft::new(name).method(ROOT, CHAIN, INT, &Code::new().end(INT));
    trial.define(8, &poster(50).field(30, CHAIN));
    trial.record(7, 50, 1);
    let mut store = trial.store;
    add_groups(&mut store);
    store.close();
    (store, Call::Define { loader: 7, file: poster(51).under(50).file() })
}

/// The same eight groups, and the quote before a getfield whose tie joins two of them.
pub fn joining_by_a_step() -> Store {
    let mut store = joining().0;
    let code = Code::new().object(50).getfield(50, 30, CHAIN).pop().iload(1).ireturn();
    let file = Draft::new(51).main(ROOT, &code).file();
    crate::define(&mut store, 7, &file);
    crate::start(&mut store, 0, 7, 51, ROOT, 3);
    crate::step(&mut store);
    store
}

fn add_groups(store: &mut Store) {
    for name in CHAIN..CHAIN + 4 {
        for (first, last) in [(0, 8), (8, 16)] {
            (first..last).for_each(|one| (one + 1..last).for_each(|other| store.add_tie([one, other, name])));
        }
        store.add_subtype([0, name, name + 1]);
    }
}

/// The call that loads the first request of a chain by a class of its own.
pub fn chain_define() -> Call {
    Call::Define { loader: 0, file: Draft::new(CHAIN).file() }
}

/// The call that loads the first request of a chain by the class that is there.
pub fn chain_record() -> Call {
    Call::Record { loader: 0, name: CHAIN.into(), class: 1 }
}

/// The longest chain, with a class that is there in Object's place, and defines that clash with all of its loaded requests: of its first one, which
/// leads to them, and of its last one, to which they lead.
pub fn chain_clashes() -> (Store, [Call; 2]) {
    let mut store = chain(256, 256);
    let loaded = store.count(count::CACHE);
    store.cache.chunks_mut(ROW).take(loaded).filter(|row| row[1] > CHAIN).for_each(|row| row[2] = 1);
    (store, [CHAIN, CHAIN + 256].map(|name| Call::Define { loader: 0, file: Draft::new(name).file() }))
}

/// 16 names under 16 loaders, each name's class below the next's; 256 ties and 256 subtype constraints lead from every request of a name to
/// every one of the higher names. All but two are loaded, which makes 255 entries; `grid_record` loads one more.
pub fn grid() -> Store {
    let mut trial = Trial::booted();
    for k in 0..16 {
        trial.define(0, &Draft::new(GRID + k).under(if k == 0 { 2 } else { GRID + k - 1 }));
    }
    let mut store = trial.store;
    for name in GRID..GRID + 16 {
        (0..16).for_each(|loader| store.add_tie([loader, (loader + 1) % 16, name]));
    }
    for loader in 0..16 {
        (1..16).for_each(|k| store.add_subtype([loader, GRID + k, GRID + k - 1]));
        store.add_subtype([loader, GRID + 15, GRID]);
    }
    for loader in 1..16 {
        let loaded = (0..16).filter(|&k| (loader, k) != (7, 7) && (loader, k) != (15, 15));
        loaded.for_each(|k| store.add_cached([loader, GRID + k, k + 1]));
    }
    store.close();
    store
}

pub fn grid_record() -> Call {
    Call::Record { loader: 7, name: u32::from(GRID) + 7, class: 8 }
}

/// A chain of 512 rows through requests that aren't loaded, and the define that clashes by all of them.
pub fn longest_reason() -> (Store, Call) {
    let (mut store, load) = long_chain(&mut Rng::new(512), MOST_ROWS);
    store.close();
    (store, load)
}

/// The grid, and a define that loads its last request but one by a class of its own: it is below all that the higher names mean. The ties of its
/// name break agreement, and so do the lower names, which lead to it.
pub fn grid_reason() -> (Store, Call) {
    let name = GRID + 7;
    (grid(), Call::Define { loader: 7, file: Draft::new(name).under(name - 1).file() })
}

/// 30 entries, 12 ties and 8 subtype constraints: loader 1's six classes, each below the one before, delegated to by 2, 3 and 4.
pub fn usual() -> Store {
    let mut store = usual_loaded();
    store.close();
    store
}

/// The usual store with its loads, which are 29: they can be taken back, and the oldest is remembered three times more, which makes 32.
pub fn remembering() -> Store {
    let mut store = usual_loaded();
    let levels = store.levels();
    let oldest = vec![levels[0]; MOST_LOADS - levels.len()];
    store.set_levels(&[oldest, levels].concat());
    store
}

fn usual_loaded() -> Store {
    let mut trial = Trial::ready(1..6);
    for k in 0..6 {
        trial.define(1, &Draft::new(10 + k).under(if k == 0 { 2 } else { 9 + k }).field(30 + k, INT));
    }
    for loader in 2..5 {
        for k in 0..6 {
            trial.record(loader, 10 + k, k + 1);
        }
    }
    let mut store = trial.store;
    for loader in 1..4 {
        (10..14).for_each(|name| store.add_tie([loader, loader + 1, name]));
    }
    for [loader, low, high] in
        [[2, 11, 10], [2, 12, 11], [2, 13, 12], [2, 14, 13], [3, 15, 14], [3, 13, 10], [4, 14, 12], [4, 15, 10]]
    {
        store.add_subtype([loader, low, high]);
    }
    store
}

/// Loader 5 delegates a class of the chain of ties.
pub fn usual_record() -> Call {
    Call::Record { loader: 5, name: 12, class: 3 }
}

/// Loader 5 defines a class below Object.
pub fn usual_define() -> Call {
    Call::Define { loader: 5, file: Draft::new(40).field(30, INT).main(ROOT, &Code::new().iload(1).ireturn()).file() }
}

/// The store with Object alone, known to loader 1.
pub fn empty() -> Store {
    let mut store = Trial::ready([1]).store;
    store.close();
    store
}

/// What the quote of the full store repeats: two instructions that change only their frame, or three with a getfield.
#[derive(Clone, Copy)]
pub enum Repeated {
    NullPop,
    AloadGetfieldPop,
}

/// A method that repeats these instructions.
fn fifty_times(part: Code) -> Code {
    Code::of(part.bytes.repeat(50)).end(INT)
}

/// Every table full: 64 classes of 16 fields below each other, all bytes, entries, constraints, objects and frames, 15 operands in each
/// frame. The quote can run 100 steps.
pub fn full(repeated: Repeated) -> Store {
    let mut trial = Trial::booted();
    let part = match repeated {
        Repeated::NullPop => Code::new().null().pop(),
        Repeated::AloadGetfieldPop => Code::new().aload(0).getfield(11, 37, INT).pop(),
    };
    let fields = |draft: Draft, first: u16| (0..8).fold(draft, |draft, i| draft.field(first + i, INT));
    trial.define(0, &fields(Draft::new(11), 30).main(ROOT, &fifty_times(part)));
    trial.define(0, &fields(Draft::new(12), 40).under(11));
    let mut store = trial.store;
    for class in 3..64 {
        let left = store.kept.len() - store.count(count::KEPT);
        let mut file = of_length(10 + class, left / (64 - usize::from(class)));
        file[5..7].copy_from_slice(&(9 + class).to_be_bytes());
        store.add_class(0, &file);
        store.add_cached([0, 10 + class, class]);
    }
    for i in 0..256 {
        store.add_tie([i % 2, 1 - i % 2, CHAIN + i]);
        store.add_subtype([1 - i % 2, CHAIN + i, CHAIN + i + 1]);
        if !store.is_full(count::CACHE) {
            store.add_cached([i % 2, CHAIN + i, 0]);
        }
    }
    let classes = unbroken(&store).expect("a store");
    while make_object(&mut store, &classes, 63, 0).is_some() {}
    for task in 0..2 {
        (0..32).for_each(|depth| fill_frame(&mut store, task, depth));
    }
    store.close();
    store
}

/// The full store with 32 loads that can be taken back, each with an entry, a tie and a subtype constraint.
pub fn full_remembering(repeated: Repeated) -> Store {
    let mut store = full(repeated);
    let [classes, kept, entries, ties, subtypes] = store.level();
    let level = |back: u16| [classes, kept, entries - back, ties - back, subtypes - back];
    let levels: Vec<Level> = (1..=MOST_LOADS as u16).rev().map(level).collect();
    store.set_levels(&levels);
    store
}

fn fill_frame(store: &mut Store, task: usize, depth: usize) {
    store.enter(task, 1, 0, Value::Object(255), &[Value::Int(7)]);
    let base = frame_base(task, depth);
    store.frames[base + cell::OPERANDS] = OPERANDS as u32 - 1;
    for place in 0..OPERANDS - 1 {
        Value::Object(place as u32).write(&mut store.frames, base + cell::OPERAND_0 + 2 * place);
    }
    for local in 2..8 {
        Value::Object(local).write(&mut store.frames, base + cell::LOCAL_0 + 2 * local as usize);
    }
}

/// What reaches the objects of a store with 256 of them.
#[derive(Clone, Copy, Debug, PartialEq, Eq)]
pub enum Held {
    /// Each is held by a field of the one before, and the first by the quote.
    Upward,
    /// Each is held by a field of the one behind, and the last by the quote.
    Downward,
    /// The quote's 32 frames hold eight each, in locals and operands.
    ByFrames,
    /// No task has a frame.
    Nothing,
}

/// 256 objects of a class with one field. The quote, if it has a frame, can run 100 steps, which change only that.
pub fn objects(held: Held) -> Store {
    let code = fifty_times(Code::new().null().pop());
    let mut store = started(&[Draft::new(TREE).field(NEXT, TREE).main(ROOT, &code)], TREE);
    let classes = unbroken(&store).expect("a store");
    while make_object(&mut store, &classes, 1, 0).is_some() {}
    let last = MOST_OBJECTS as u32 - 1;
    let mut link = |from: u32, to: u32| Value::Object(to).write(&mut store.objects, Store::field_cell(from, 0));
    match held {
        Held::Upward => (0..last).for_each(|object| link(object, object + 1)),
        Held::Downward => {
            (0..last).for_each(|object| link(object + 1, object));
            Value::Object(last).write(&mut store.frames, cell::LOCAL_0);
        }
        Held::ByFrames => (0..32).for_each(|depth| hold_eight(&mut store, depth)),
        Held::Nothing => store.counts[count::FRAMES] = 0,
    }
    store
}

/// The quote's frame at this depth holds eight objects of its own: six locals, two operands.
fn hold_eight(store: &mut Store, depth: usize) {
    let first = 8 * depth as u32;
    if depth > 0 {
        store.enter(0, 1, 0, Value::Object(first), &[Value::Int(7)]);
    }
    let base = frame_base(0, depth);
    store.frames[base + cell::OPERANDS] = 2;
    for place in 0..8 {
        // The operands stand behind the locals.
        Value::Object(first + place as u32).write(&mut store.frames, base + cell::LOCAL_0 + 2 * (2 + place));
    }
}

/// The quote before 254 objects that it makes and lets go, in rows that were never used or, if `freed`, in rows that a sweep has freed.
pub fn making(freed: bool) -> Store {
    let many = (0..127).fold(Code::new(), |code, _| code.object(TREE).pop());
    let twice = Code::new().aload(0).iload(1).invoke(TREE, ROOT + 1, INT, INT).aload(0).iload(1).invoke(TREE, ROOT + 1, INT, INT);
    let draft = Draft::new(TREE).field(NEXT, TREE).field(TOTAL, INT).main(ROOT, &twice.iadd().ireturn());
    let mut store = started(&[draft.main(ROOT + 1, &many.iload(1).ireturn())], TREE);
    if freed {
        let classes = unbroken(&store).expect("a store");
        while make_object(&mut store, &classes, 1, 0).is_some() {}
        crate::sweep(&mut store);
    }
    store
}

/// What the loops of ten instructions do in a round.
#[derive(Clone, Copy)]
pub enum Round {
    /// Adds its counter to a local, counts down, and jumps by a local that is 0.
    Ints,
    /// Puts its counter into a field, counts down, and jumps if 0 is less than the counter.
    Field,
}

/// The quote before a loop of ten instructions that goes on for more steps than a run has.
pub fn looping(round: Round) -> Store {
    const AGAIN: u16 = 1;
    let zeros = Code::new().int(7_000).istore(1).int(0).istore(2).int(0).istore(3);
    let code = zeros.point(AGAIN, &[TREE, INT, INT, INT], &[]);
    let count = |code: Code| code.iload(1).int(1).isub().istore(1);
    let code = match round {
        Round::Ints => count(code.iload(2).iload(1).iadd().istore(2)).iload(3).ifeq(AGAIN),
        Round::Field => count(code.aload(0).iload(1).putfield(TREE, TOTAL, INT)).int(0).iload(1).if_icmplt(AGAIN),
    };
    started(&[Draft::mapped(TREE).field(TOTAL, INT).main(ROOT, &code.iload(2).ireturn())], TREE)
}

/// Files of 4,096 bytes or a little less: of version 1, with as many maps as fit, with as many notes as fit.
pub fn long_files() -> [(&'static str, Vec<u8>); 3] {
    let maps = Draft::mapped(TREE).main(ROOT, &of_maps(194).end(INT));
    [("version 1", of_length(TREE, 4_096)), ("194 maps", maps.file()), ("12,236 notes", repeating(TREE).file())]
}

#[cfg(test)]
mod tests {
    use super::*;
    use crate::agree::{agrees, Added};
    use crate::answer::{denied, word, Answer, Reply};
    use crate::breaks::Pairs;

    fn sound(store: &Store, label: &str) {
        let classes = unbroken(store).unwrap_or_else(|| panic!("{label}: broken"));
        assert!(agrees(store, &Added::default(), &classes), "{label}: the store disagrees");
    }

    #[test]
    fn reasons_have_their_rows() {
        for ((mut store, load), rows) in [(longest_reason(), 512), (grid_reason(), 1)] {
            sound(&store, "a reason");
            let before = store.clone();
            assert_eq!(load.tried(MOST_ROWS).map(|call| call.apply(&mut store)), Some(Reply::Clashed(rows)));
            assert!(store == before);
        }
        let call = grid_record().tried(MOST_ROWS).expect("a load");
        assert_eq!(call.apply(&mut grid()), Reply::Accepted);
    }

    #[test]
    fn clashes_have_the_newcomer() {
        let (chain, [first, last]) = chain_clashes();
        let (grid, tied) = grid_reason();
        for (mut store, load, ways) in
            [(chain.clone(), first, [false, true, false]), (chain, last, [false, false, true]), (grid, tied, [true, false, true])]
        {
            sound(&store, "a clash");
            let plan = load.plan(&store).expect("a plan");
            let found = Pairs::of(&store, &plan.added(), &plan.classes);
            assert_eq!([found.tied, found.out, found.into], ways);
            assert_eq!(load.apply(&mut store), denied(word::CLASH));
        }
    }

    #[test]
    fn trees_finish() {
        for (mut store, steps) in [(tree(), 2_674), (tall_tree(), 39_026)] {
            sound(&store, "a tree");
            let reply = crate::run(&mut store, 65_535);
            assert!(matches!(reply, Reply::RanFor(ran, Answer::Finished(0, _)) if ran == steps - 1), "{reply:?}");
        }
    }

    #[test]
    fn loops_go_on() {
        for round in [Round::Ints, Round::Field] {
            let mut store = looping(round);
            sound(&store, "a loop");
            assert_eq!(crate::run(&mut store, 65_535), Reply::RanFor(65_535, Answer::Ran(0)));
        }
        for (what, file) in long_files() {
            assert!((3_900..=4_096).contains(&file.len()), "{what}: {} bytes", file.len());
            assert_eq!(crate::define(&mut Trial::ready([1]).store, 1, &file), Reply::Defined(1), "{what}");
        }
    }

    #[test]
    fn stores_have_their_counts_and_take_the_calls() {
        let last = |store: &Store| store.counts[2..5].to_vec();
        for (entries, links) in [(8, 0), (16, 256), (256, 16), (256, 256)] {
            let mut store = chain(entries, links);
            sound(&store, "chain");
            assert_eq!(last(&store), [entries as u16 - 1, links as u16, links as u16]);
            assert_eq!(chain_define().apply(&mut store.clone()), Reply::Defined(2));
            assert_eq!(chain_record().apply(&mut store), Reply::Accepted);
        }
        let mut posting = posting();
        sound(&posting, "posting");
        assert_eq!(last(&posting), [256, 255, 255]);
        assert_eq!(crate::step(&mut posting), Answer::Ran(0));
        assert_eq!(last(&posting), [256, 256, 255]);
        let (mut grid, mut usual) = (grid(), usual());
        sound(&grid, "grid");
        assert_eq!(last(&grid), [255, 256, 256]);
        assert_eq!(grid_record().apply(&mut grid), Reply::Accepted);
        sound(&usual, "usual");
        assert_eq!(last(&usual), [30, 12, 8]);
        assert!(matches!(usual_define().apply(&mut usual.clone()), Reply::Defined(_)));
        assert_eq!(usual_record().apply(&mut usual), Reply::Accepted);
    }

    #[test]
    fn groups_are_joined_and_parted() {
        let different = |store: &Store| store.groups().iter().collect::<std::collections::BTreeSet<_>>().len();
        let (store, define) = joining();
        sound(&store, "joining");
        assert_eq!((store.count(count::TIES), different(&store)), (224, 8));
        let mut after = store.clone();
        assert_eq!(define.apply(&mut after), Reply::Defined(2));
        assert_eq!((after.count(count::TIES), different(&after)), (225, 7));
        assert_eq!(crate::take_back(&mut after), Reply::Accepted);
        assert_eq!(different(&after), 8);
        let mut stepped = joining_by_a_step();
        sound(&stepped, "joining by a step");
        assert_eq!(crate::step(&mut stepped), Answer::Ran(0));
        assert_eq!((stepped.count(count::TIES), different(&stepped)), (225, 7));
    }

    #[test]
    fn the_full_store_is_full_and_runs() {
        for repeated in [Repeated::NullPop, Repeated::AloadGetfieldPop] {
            let mut store = full(repeated);
            sound(&store, "full");
            assert_eq!(store.counts[..count::OWNERS], crate::store::LIMITS);
            assert_eq!(store.unused_object(), None);
            assert_eq!(crate::run(&mut store, 100), Reply::RanFor(100, Answer::Ran(0)));
        }
    }

    #[test]
    fn loads_are_remembered_and_taken_back() {
        let full = full_remembering(Repeated::NullPop);
        assert_eq!(crate::run(&mut full.clone(), 100), Reply::RanFor(100, Answer::Ran(0)));
        for (store, what) in [(remembering(), "usual"), (full, "full")] {
            sound(&store, what);
            let mut going = store.clone();
            for level in store.levels().into_iter().rev() {
                assert_eq!(crate::take_back(&mut going), Reply::Accepted, "{what}");
                assert_eq!(going.level(), level, "{what}");
            }
            assert_eq!(crate::take_back(&mut going), denied(word::TOO_LATE), "{what}");
        }
        for load in [usual_record(), usual_define()] {
            let mut store = remembering();
            load.apply(&mut store);
            assert_eq!(store.count(count::LOADS), MOST_LOADS);
            assert_ne!(store.levels()[0], store.levels()[3], "the oldest was pushed out");
        }
        for store in [empty(), usual(), grid(), chain(256, 256), longest_reason().0, posting(), tree()] {
            assert_eq!(store.count(count::LOADS), 0);
        }
    }

    #[test]
    fn objects_are_held_and_made() {
        for (held, freed) in [(Held::Upward, 0), (Held::Downward, 0), (Held::ByFrames, 0), (Held::Nothing, 256)] {
            let mut store = objects(held);
            sound(&store, "objects");
            assert_eq!(store.objects_in_use().count(), 256);
            let steps = if held == Held::Nothing { (0, Answer::Idle) } else { (100, Answer::Ran(0)) };
            assert_eq!(crate::run(&mut store.clone(), 100), Reply::RanFor(steps.0, steps.1));
            assert_eq!(crate::sweep(&mut store), Reply::Swept(freed), "{held:?}");
        }
        for freed in [false, true] {
            let mut store = making(freed);
            sound(&store, "making");
            assert_eq!(store.counts[count::OBJECTS], if freed { 256 } else { 1 });
            assert!(matches!(crate::run(&mut store, 65_535), Reply::RanFor(_, Answer::Finished(0, 6))));
            assert_eq!(store.unused_object(), Some(255));
        }
    }
}
