//! Old stores to change over: histories of the machine of document 01 that are carried half run, with calls to go on with; damaged ones; new tables
//! of any lengths that hold anything.

use super::blueprint::MAIN;
use super::build::{Code, Draft};
use super::chains::chains;
use super::damage::{add_unseen, constraints, damaged, spoil, unused_name, wrong_length};
use super::graphs::graphs;
use super::list::early_list;
use super::rng::Rng;
use super::{cases, Call, Trial};
use crate::changeover::{carried, old_tables};
use crate::old::tables::{Place, CLASSES, FRAMES, OBJECTS, TIES};
use crate::old::{self, OldStore, World};
use crate::store::{count, Store, LENGTHS, OBJECT};

/// An old store under way, and the calls that are to come.
pub struct Half {
    pub old: OldStore,
    pub calls: Vec<Call>,
}

/// A history from the old machine's boot, cut somewhere; what is left of it, mostly without later calls.
pub fn half(seed: u64) -> Half {
    let mut rng = Rng::new(seed ^ 0x68_61_6C_66);
    let trial = history(seed, &mut rng);
    // Mostly where a task has a frame.
    let cut = rng.within(1, trial.calls.len());
    let (mut old, mut place) = (OldStore::zeros(), 0);
    while place < trial.calls.len() && (place < cut || rng.percent(90) && old.turn().is_none()) {
        old::make(&trial.calls[place], &mut old);
        place += 1;
    }
    let mut calls = trial.calls[place..].to_vec();
    if rng.percent(80) {
        calls.retain(|call| old::make(call, &mut OldStore::zeros()).is_some());
    }
    calls.extend(more(&mut rng));
    Half { old, calls }
}

fn history(seed: u64, rng: &mut Rng) -> Trial {
    match rng.below(20) {
        0..=11 => early_list(seed, rng.within(40, 110)),
        12..=14 => chains(seed, 30),
        15 | 16 => graphs(seed, 40),
        17 => made(rng),
        18 => halves_of_two([rng.within(3, 8), rng.within(3, 30)]),
        _ => {
            let cases = cases::cases();
            cases[rng.below(cases.len())].clone()
        }
    }
}

/// Steps and runs to the end of what is under way, and then a later call.
fn more(rng: &mut Rng) -> Vec<Call> {
    let later = [Call::Sweep, Call::TakeBack, Call::Define { loader: 1, file: Draft::mapped(900).file() }, Call::TryRecord { loader: 9, name: 2, class: 0, cells: 512 }];
    let mut calls = vec![Call::Step, Call::Run { n: rng.within(1, 30) as u32 }, Call::Run { n: 2_000 }, Call::Record { loader: 15, name: 2, class: 0 }];
    calls.push(Call::Drop { task: rng.below(2) as u32 });
    calls.push(Call::Run { n: 2_000 });
    calls.push(later[rng.below(later.len())].clone());
    calls.push(Call::TakeBack);
    calls
}

/// A class of whose objects a task makes a hundred, and lets them go, in a method without a jump.
const NODE: u16 = 10;

fn maker() -> Draft {
    let code = (0..100).fold(Code::new(), |code, _| code.object(NODE).pop());
    Draft::new(NODE).field(30, NODE).main(MAIN, &code.iload(1).ireturn())
}

/// Reports and quotes that make objects until the store is full, or the report's share is used up.
pub fn made(rng: &mut Rng) -> Trial {
    let mut trial = Trial::ready([1]);
    trial.define(1, &maker());
    for _ in 0..8 {
        let task = rng.pick(&[0, 1, 1, 1]);
        trial.start(task, 1, NODE, MAIN, 7);
        trial.run(rng.pick(&[1, 17, 90, 180, 400]));
        if rng.percent(50) {
            trial.drop_task(task);
        }
    }
    trial
}

/// The store after these calls of the old machine's.
pub fn after(calls: &[Call]) -> OldStore {
    let mut old = OldStore::zeros();
    for call in calls {
        old::make(call, &mut old);
    }
    old
}

/// A report that makes more objects after a changeover than it may hold.
pub fn using_up() -> Half {
    let mut trial = Trial::ready([1]);
    trial.define(1, &maker());
    let cut = trial.calls.len();
    for _ in 0..3 {
        trial.start(1, 1, NODE, MAIN, 7);
        trial.run(400);
        trial.drop_task(1);
    }
    Half { old: after(&trial.calls[..cut]), calls: trial.calls[cut..].to_vec() }
}

/// Both tasks half run, the report for so many steps and then the quote: each is in a method that another frame of its waits for from 3 to 10 steps,
/// with objects of both, and a note that was posted before a tie.
pub fn halves_of_two([report, quote]: [usize; 2]) -> Trial {
    let mut trial = Trial::ready([1, 2]);
    let inner = Code::new().object(12).dup().iload(1).putfield(12, 31, 1).getfield(12, 31, 1).ireturn();
    let outer = |class: u16| Code::new().aload(0).iload(1).invoke(class, MAIN + 1, 1, 1).int(5).iadd().ireturn();
    trial.define(1, &Draft::new(12).field(31, 1));
    trial.record(2, 12, 1);
    cases::subtype(&mut trial, 1, 50, 51);
    cases::tie(&mut trial, 1, 2, 12);
    cases::tie(&mut trial, 1, 2, 13);
    for loader in [1, 2] {
        trial.define(loader, &Draft::new(20).main(MAIN, &outer(20)).main(MAIN + 1, &inner));
    }
    trial.start(1, 2, 20, MAIN, 40);
    for _ in 0..report {
        trial.step();
    }
    trial.start(0, 1, 20, MAIN, 70);
    for _ in 0..quote {
        trial.step();
    }
    trial
}

/// An old store with some damage, or none.
pub fn damaged_old(seed: u64) -> OldStore {
    let mut rng = Rng::new(seed ^ 0x6F_6C_64_21);
    let mut old = half(seed).old;
    if rng.percent(4) {
        return OldStore::zeros();
    }
    if rng.percent(10) {
        // One of today's, by its first eight counts.
        return old_tables(&damaged(seed));
    }
    for _ in 0..rng.pick(&[0, 1, 1, 1, 2, 3]) {
        if old::broken(&old) {
            break;
        }
        old = match rng.below(10) {
            0 => a_later_file(&mut rng, &old),
            1 => other_counts(&mut rng, &old),
            kind => {
                let mut store = carried(&old);
                let change = if kind == 2 { constraints } else { spoil };
                change(&mut rng, &mut store);
                old_tables(&store)
            }
        };
    }
    old
}

/// A kept file of version 2 or 3, good by its rules, and nothing else.
fn a_later_file(rng: &mut Rng, old: &OldStore) -> OldStore {
    let mut store = carried(old);
    let name = unused_name(&store);
    let draft = [Draft::mapped(name), Draft::listed(name)][rng.below(2)].clone();
    if store.cached(0, OBJECT) == Some(0) {
        add_unseen(&mut store, 0, &draft.main(MAIN, &Code::new().iload(1).ireturn()));
    }
    old_tables(&store)
}

/// Counts of another length: those of a later layout among them, whose first eight are the same.
fn other_counts(rng: &mut Rng, old: &OldStore) -> OldStore {
    let length = rng.pick(&[0, 7, 9, 16, 264, 776, 937, LENGTHS[0]]);
    let mut counts = carried(old).counts;
    counts.truncate(length);
    OldStore { counts, ..old.clone() }
}

/// New tables: what they hold is never looked at, and their lengths are mostly right.
pub fn new_tables(seed: u64) -> Store {
    let mut rng = Rng::new(seed ^ 0x6E_65_77_21);
    let mut new = Store::zeros();
    match rng.below(4) {
        0 => {}
        1 => new = super::list::list(seed, 30).store,
        2 => {
            new = damaged(seed);
            if new.lengths() != LENGTHS {
                new = Store::zeros();
            }
        }
        _ => {
            new.counts.fill(rng.word());
            new.classes.fill(rng.word());
            new.kept.fill(rng.word() as u8);
            new.objects.fill(rng.draw() as u32);
            new.frames.fill(rng.draw() as u32);
        }
    }
    if rng.percent(12) {
        wrong_length(&mut rng, &mut new);
    }
    new
}

/// What an old store may have, and the test for it.
pub type Shape = (&'static str, fn(&OldStore) -> bool);

/// What old stores must have among them.
pub const SHAPES: [Shape; 19] = [
    ("a quote half run", |old| is_whole(old) && old.frame_count(0) > 0),
    ("a report half run", |old| is_whole(old) && old.frame_count(1) > 0),
    ("both half run", |old| is_whole(old) && old.frame_count(0) > 0 && old.frame_count(1) > 0),
    ("a frame that waits", |old| is_whole(old) && old.counts[FRAMES..].iter().any(|&frames| frames > 1)),
    ("an object that no frame of the quote's names and one of the report's does", |old| is_whole(old) && held(old, 1).iter().any(|object| !held(old, 0).contains(object))),
    ("200 objects and more", |old| is_whole(old) && old.counts[OBJECTS] > 200),
    ("an object that would be swept", |old| is_whole(old) && crate::sweep(&mut carried(old)) != crate::Reply::Swept(0)),
    ("ties in two groups and more, and subtype constraints", |old| is_whole(old) && has_groups(old)),
    ("two ties of one group", |old| is_whole(old) && carried(old).groups().iter().zip(0..).any(|(&group, row)| group != row)),
    ("all broken by a later file alone", |old| old::broken(old) && old.lengths() == old::tables::LENGTHS && !crate::broken(&safely_carried(old))),
    ("a hidden field", |old| World::of(old).is_some_and(|world| has_hidden(&world))),
    ("rows that disagree", |old| is_whole(old) && disagrees(&carried(old))),
    ("a misplaced value", |old| is_whole(old) && crate::misplaced(&carried(old)) > 0),
    ("two cache rows for one request", |old| is_whole(old) && has_two_rows(old)),
    ("no class at all", |old| is_whole(old) && old.counts[CLASSES] == 0),
    ("counts of today's length", |old| old.counts.len() == LENGTHS[0]),
    ("counts of seven cells", |old| old.counts.len() == 7),
    ("a table but counts of a wrong length", |old| old.lengths()[1..] != old::tables::LENGTHS[1..]),
    ("cells behind the used rows", |old| is_whole(old) && old.ties[3 * old.count(TIES)..].iter().any(|&cell| cell > 0)),
];

fn is_whole(old: &OldStore) -> bool {
    !old::broken(old)
}

/// As carried, if the counts let it be; else zeros without a class, which aren't whole.
fn safely_carried(old: &OldStore) -> Store {
    let fits = old.counts.iter().zip(crate::store::LIMITS).all(|(&count, limit)| count <= limit);
    if fits { carried(old) } else { Store { counts: Vec::new(), ..Store::zeros() } }
}

/// The objects that a task's frames name.
fn held(old: &OldStore, task: usize) -> Vec<u32> {
    let of_frame = |depth: usize| {
        let frame = Place::of(task, depth);
        let cells = (0..8).map(move |local| frame.local(local)).chain((0..old.operands(frame)).map(move |operand| frame.operand(operand)));
        cells.filter_map(|at| if old.frames[at] == 3 { Some(old.frames[at + 1]) } else { None }).collect::<Vec<_>>()
    };
    (0..old.frame_count(task)).flat_map(of_frame).collect()
}

fn has_groups(old: &OldStore) -> bool {
    let store = carried(old);
    let mut groups = store.groups().to_vec();
    groups.sort_unstable();
    groups.dedup();
    groups.len() > 1 && store.count(count::SUBTYPES) > 0
}

fn has_hidden(world: &World) -> bool {
    (0..world.classes.len() as u16).any(|class| {
        let mut names: Vec<u16> = world.fields(class).into_iter().map(|field| field.0).collect();
        names.sort_unstable();
        names.windows(2).any(|two| two[0] == two[1])
    })
}

fn has_two_rows(old: &OldStore) -> bool {
    let rows = old.cache_rows();
    rows.iter().any(|row| old.cached(row[0], row[1]) != Some(row[2]))
}

fn disagrees(store: &Store) -> bool {
    crate::broken::unbroken(store).is_some_and(|classes| !crate::agree::agrees(store, &crate::agree::Added::default(), &classes))
}
