//! Changeovers that carry wrongly, carry what they should refuse, or refuse what they should carry.

use reference::answer::{denied, word};
use reference::broken::lengths_fit;
use reference::changeover::{carried, change_over};
use reference::gen::reach::{reached, Without};
use reference::old::tables::{Place, LENGTHS as OLD_LENGTHS, OBJECTS};
use reference::old::{self, OldStore, World};
use reference::store::{cell, count, frame_base, Store, FREE, LENGTHS, LIMITS};
use reference::{broken, Reply};

/// A fault: its name, what the comparison says of it, and what it leaves in the new tables and answers.
type Changing = (&'static str, &'static str, fn(&OldStore, &mut Store) -> Reply);

/// What is filled otherwise first, then what is judged otherwise.
pub const FAULTS: [Changing; 23] = [
    ("numbers-go-row-by-row-in-turn", "in the numbers of ties", |old, new| {
        filled(old, new, |old, store| {
            // a tie, a subtype constraint, a tie, as long as there are both
            let [ties, subtypes] = [count::TIES, count::SUBTYPES].map(|which| old.counts[which]);
            for row in 0..ties {
                store.counts[count::TIE_NUMBERS + usize::from(row)] = row + row.min(subtypes);
            }
            for row in 0..subtypes {
                store.counts[count::SUBTYPE_NUMBERS + usize::from(row)] = row + (row + 1).min(ties);
            }
            store.regroup();
        })
    }),
    ("subtype-constraints-are-numbered-first", "in the numbers of ties", |old, new| {
        filled(old, new, |old, store| {
            number(store, count::TIE_NUMBERS, old.counts[count::SUBTYPES]);
            number(store, count::SUBTYPE_NUMBERS, 0);
            store.regroup();
        })
    }),
    ("both-kinds-are-numbered-from-zero", "in the numbers of subtype constraints", |old, new| filled(old, new, |_, store| number(store, count::SUBTYPE_NUMBERS, 0))),
    ("numbers-past-the-rows-are-zero", "in the numbers of ties: 0, not", |old, new| {
        filled(old, new, |_, store| {
            for (section, which) in [(count::TIE_NUMBERS, count::TIES), (count::SUBTYPE_NUMBERS, count::SUBTYPES)] {
                let used = store.count(which);
                store.counts[section..section + 256][used..].fill(0);
            }
        })
    }),
    ("an-object-is-its-holders", "in the owners: 2, not 1", |old, new| {
        filled(old, new, |old, store| {
            let [quotes, reports] = [0, 1].map(|task| held(old, task));
            for object in reports.into_iter().filter(|object| !quotes.contains(object)) {
                store.counts[count::OWNERS + object as usize] = 2;
            }
        })
    }),
    ("objects-are-the-reports", "in the owners: 2, not 1", |old, new| {
        filled(old, new, |_, store| store.owners_mut().iter_mut().take(192).for_each(|owner| *owner = 2))
    }),
    ("the-copy-is-swept", "in the owners: 0, not 1", |old, new| {
        filled(old, new, |_, store| {
            let reached = reached(store, Without::Nothing);
            for object in (0..store.count(count::OBJECTS)).filter(|&object| !reached.contains(&(object as u32))) {
                store.counts[count::OWNERS + object] = FREE;
            }
        })
    }),
    ("owners-past-the-objects-are-zero", "in the owners: 0, not 1", |old, new| {
        filled(old, new, |_, store| {
            let used = store.count(count::OBJECTS);
            store.counts[count::OWNERS..count::TIE_NUMBERS][used..].fill(FREE);
        })
    }),
    ("the-last-objects-that-nobody-holds-go", "in the counts: ", |old, new| {
        filled(old, new, |_, store| {
            let left = reached(store, Without::Nothing).last().map_or(0, |&last| last as usize + 1);
            store.owners_mut()[left..].fill(FREE);
            store.counts[count::OBJECTS] = left as u16;
        })
    }),
    ("the-trace-is-the-new-tables", "in the trace", |old, new| {
        let before = new.clone();
        kept(old, new, |store| store.counts[count::LOADS..count::GROUPS].copy_from_slice(&before.counts[count::LOADS..count::GROUPS]))
    }),
    ("every-class-is-a-load", "in the trace", |old, new| {
        filled(old, new, |_, store| {
            if store.count(count::CLASSES) > 1 {
                store.set_levels(&[store.level()]);
            }
        })
    }),
    ("groups-are-zero", "in the groups: 0, not", |old, new| filled(old, new, |_, store| store.counts[count::GROUPS..].fill(0))),
    ("each-tie-is-its-own-group", "in the groups", |old, new| {
        filled(old, new, |_, store| {
            let numbers = store.tie_numbers().to_vec();
            store.counts[count::GROUPS..][..numbers.len()].copy_from_slice(&numbers);
        })
    }),
    ("groups-past-the-ties-stay", "in the groups", |old, new| {
        let before = new.clone();
        kept(old, new, |store| {
            let used = count::GROUPS + store.count(count::TIES);
            store.counts[used..].copy_from_slice(&before.counts[used..]);
        })
    }),
    ("a-waiting-frame-goes-back-to-its-call", "in the frames", |old, new| filled(old, new, |old, store| moved_back(old, store))),
    ("a-repeated-row-is-dropped", "in the counts: ", |old, new| {
        filled(old, new, |old, store| {
            let rows = old.cache_rows();
            if rows.last().is_some_and(|last| rows[..rows.len() - 1].iter().any(|row| row[..2] == last[..2])) {
                store.counts[count::CACHE] -= 1;
            }
        })
    }),
    ("cells-past-the-rows-arent-carried", "in the ties", |old, new| {
        filled(old, new, |_, store| {
            let used = 3 * store.count(count::TIES);
            store.ties[used..].fill(0);
        })
    }),
    ("a-later-file-is-carried", "returns 0, not 1", |old, new| {
        let is_carried = lengths_fit(new) && is_shaped(old) && !broken(&carried(old));
        if is_carried { put(new, carried(old)) } else { change_over(old, new) }
    }),
    ("a-hidden-field-is-refused", "returns 1, not 0", |old, new| {
        if World::of(old).is_some_and(|world| has_hidden(&world)) { denied(word::BROKEN) } else { change_over(old, new) }
    }),
    ("filled-before-it-is-judged", "though it is refused", |old, new| {
        if lengths_fit(new) && is_shaped(old) {
            *new = carried(old);
        }
        if old::broken(old) || !lengths_fit(new) { denied(word::BROKEN) } else { Reply::Accepted }
    }),
    ("the-new-tables-contents-are-judged", "returns 1, not 0", |old, new| if broken(new) { denied(word::BROKEN) } else { change_over(old, new) }),
    ("counts-of-a-later-layout-are-carried", "returns 0, not 1", |old, new| {
        let cut = OldStore { counts: old.counts[..old.counts.len().min(8)].to_vec(), ..old.clone() };
        change_over(&cut, new)
    }),
    ("only-the-new-counts-length-is-asked-for", "returns 0, not 1", |old, new| {
        if new.counts.len() != LENGTHS[0] || lengths_fit(new) || old::broken(old) {
            return change_over(old, new);
        }
        Reply::Accepted
    }),
];

/// What the machine with this fault does, if it is one of these.
pub fn wrongly(fault: &str, old: &OldStore, new: &mut Store) -> Option<Reply> {
    FAULTS.iter().find(|each| each.0 == fault).map(|each| each.2(old, new))
}

fn put(new: &mut Store, store: Store) -> Reply {
    *new = store;
    Reply::Accepted
}

/// A changeover that is accepted, and then something else in the new tables.
fn filled(old: &OldStore, new: &mut Store, change: fn(&OldStore, &mut Store)) -> Reply {
    kept(old, new, |store| change(old, store))
}

fn kept(old: &OldStore, new: &mut Store, change: impl Fn(&mut Store)) -> Reply {
    let reply = change_over(old, new);
    if reply == Reply::Accepted {
        change(new);
    }
    reply
}

/// Have the old tables their lengths, and the counts their limits?
fn is_shaped(old: &OldStore) -> bool {
    old.lengths() == OLD_LENGTHS && old.counts.iter().zip(LIMITS).all(|(&count, limit)| count <= limit)
}

fn number(store: &mut Store, section: usize, first: u16) {
    store.counts[section..section + 256].iter_mut().zip(first..).for_each(|(cell, number)| *cell = number);
}

fn has_hidden(world: &World) -> bool {
    (0..world.classes.len() as u16).any(|class| {
        let fields = world.fields(class);
        (1..fields.len()).any(|place| fields[..place].iter().any(|field| field.0 == fields[place].0))
    })
}

/// The objects that a task's frames name.
fn held(old: &OldStore, task: usize) -> Vec<u32> {
    let mut held = Vec::new();
    for frame in (0..old.frame_count(task)).map(|depth| Place::of(task, depth)) {
        let cells = (0..8).map(|local| frame.local(local)).chain((0..old.operands(frame)).map(|operand| frame.operand(operand)));
        held.extend(cells.filter(|&at| old.frames[at] == 3).map(|at| old.frames[at + 1]));
    }
    held.retain(|&object| object < old.counts[OBJECTS].into());
    held
}

/// Frames that wait for a call stand at the call, 9 bytes before.
fn moved_back(old: &OldStore, store: &mut Store) {
    for task in 0..2 {
        for frame in (1..old.frame_count(task)).map(|depth| frame_base(task, depth - 1)) {
            let point = &mut store.frames[frame + cell::POINT];
            *point = point.saturating_sub(9);
        }
    }
}
