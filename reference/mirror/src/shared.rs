//! The report's share of the objects, asked for in other places, of others, or counted otherwise.

use reference::answer::{denied, word};
use reference::code::Instruction;
use reference::gen::objects::{is_past_the_share, without_reports};
use reference::gen::Call;
use reference::step::{instruction_of, take_step};
use reference::store::{count, owner_of, FREE, QUOTE, REPORT, SHARE};
use reference::{broken, Answer, Refusal, Reply, Store};

use crate::faults::{stepping, Fault};

/// The limit and whose it is first, then what counts, when it is asked and which words come before it, and last what breaks a store.
pub const FAULTS: [Fault; 21] = [
    ("a-share-of-one-more", |call, store| sharing(call, store, |store, task| task == REPORT && store.made_by(REPORT) > SHARE)),
    ("a-share-of-one-less", |call, store| sharing(call, store, |store, task| task == REPORT && store.made_by(REPORT) + 1 >= SHARE)),
    ("no-share-at-all", |call, store| sharing(call, store, |_, _| false)),
    ("the-share-is-asked-of-both-tasks", |call, store| sharing(call, store, |store, _| store.made_by(REPORT) >= SHARE)),
    ("each-task-has-a-share", |call, store| sharing(call, store, |store, task| store.made_by(task) >= SHARE)),
    ("the-share-is-the-quotes", |call, store| sharing(call, store, |store, task| task == QUOTE && store.made_by(QUOTE) >= SHARE)),
    ("the-quotes-objects-are-counted", |call, store| {
        sharing(call, store, |store, task| task == REPORT && store.made_by(QUOTE) >= SHARE)
    }),
    ("everyones-objects-are-counted", |call, store| {
        sharing(call, store, |store, task| task == REPORT && store.objects_in_use().count() >= SHARE)
    }),
    ("a-freed-row-is-still-counted", |call, store| {
        sharing(call, store, |store, task| {
            task == REPORT && store.owners().iter().filter(|&&owner| owner != owner_of(QUOTE)).count() >= SHARE
        })
    }),
    ("rows-past-the-count-are-counted", |call, store| {
        sharing(call, store, |store, task| {
            let owners = &store.counts[count::OWNERS..count::TIE_NUMBERS];
            task == REPORT && owners.iter().filter(|&&owner| owner == owner_of(REPORT)).count() >= SHARE
        })
    }),
    ("a-task-without-frames-holds-nothing", |call, store| {
        sharing(call, store, |store, task| store.frame_count(REPORT) > 0 && store.is_share_used(task))
    }),
    ("start-asks-for-no-share", |call, store| if let Call::Start { .. } = call { sharing(call, store, |_, _| false) } else { None }),
    ("new-asks-for-no-share", |call, store| if let Call::Start { .. } = call { None } else { sharing(call, store, |_, _| false) }),
    ("the-share-isnt-counted-along-a-run", |call, store| {
        let used = if broken(store) { 0 } else { store.made_by(REPORT) };
        if matches!(call, Call::Run { .. }) { sharing(call, store, |_, task| task == REPORT && used >= SHARE) } else { None }
    }),
    ("full-comes-before-the-share", |call, store| {
        worded(call, store, Store::is_share_used, |refusal| refusal.is_none())
    }),
    ("the-share-comes-first", |call, store| {
        worded(call, store, Store::is_share_used, |refusal| refusal.is_none_or(|number| ![word::BROKEN, word::UNKNOWN].contains(&number)))
    }),
    ("drop-gives-the-share-back", |call, store| match (call, call.apply(&mut store.clone())) {
        (&Call::Drop { task: 1 }, reply @ Reply::Accepted) => {
            *store = without_reports(store);
            call.apply(store);
            Some(reply)
        }
        _ => None,
    }),
    ("drop-frees-the-reports-objects", |call, store| match call.apply(store) {
        reply @ Reply::Accepted if *call == (Call::Drop { task: 1 }) => {
            store.owners_mut().iter_mut().filter(|owner| **owner == owner_of(REPORT)).for_each(|owner| *owner = FREE);
            Some(reply)
        }
        reply => Some(reply),
    }),
    ("a-sweep-gives-what-it-leaves-to-the-quote", |call, store| match call.apply(store) {
        reply @ Reply::Swept(_) => {
            *store = without_reports(store);
            Some(reply)
        }
        reply => Some(reply),
    }),
    ("a-store-past-the-share-isnt-broken", |call, store| {
        (is_past_the_share(store) && *call != Call::Boot).then(|| call.apply(&mut without_reports(store)))
    }),
    ("a-used-share-is-broken", |call, store| {
        let is_used = *call != Call::Boot && !broken(store) && store.made_by(REPORT) == SHARE;
        is_used.then_some(denied(word::BROKEN))
    }),
];

/// A start, step or run on a store that isn't broken, in which a task is refused with 18 where `is_used` says so, as it comes.
fn sharing(call: &Call, store: &mut Store, is_used: impl Fn(&Store, usize) -> bool) -> Option<Reply> {
    worded(call, store, is_used, |refusal| refusal.is_none_or(|number| number == word::FULL))
}

/// The same; `gives_way` says which words, or none, 18 takes the place of.
fn worded(call: &Call, store: &mut Store, is_used: impl Fn(&Store, usize) -> bool, gives_way: fn(Option<u8>) -> bool) -> Option<Reply> {
    if broken(store) {
        return None;
    }
    if let Call::Start { task, .. } = *call {
        let mut after = store.clone();
        let reply = unshared(&mut after, |store| call.apply(store));
        if task <= REPORT as u32 && gives_way(reply.refusal().map(Refusal::number)) && is_used(store, task as usize) {
            return Some(denied(word::SHARE_USED));
        }
        *store = after;
        return Some(reply);
    }
    stepping(call, store, |store, classes| {
        let task = store.turn().filter(|&task| matches!(instruction_of(store, task), Some((Instruction::New(_), _))));
        let mut after = store.clone();
        let answer = unshared(&mut after, |store| take_step(store, classes));
        let refusal = if let Answer::Refused(refusal) = answer { Some(refusal.number()) } else { None };
        if task.is_some_and(|task| gives_way(refusal) && is_used(store, task)) {
            return Answer::Refused(Refusal::Word(word::SHARE_USED));
        }
        *store = after;
        answer
    })
}

/// Does something to a store in which no object is the report's yet; what was the report's is so again.
pub fn unshared<T>(store: &mut Store, then: impl FnOnce(&mut Store) -> T) -> T {
    let before = store.owners().to_vec();
    *store = without_reports(store);
    let answer = then(store);
    for (owner, then) in store.owners_mut().iter_mut().zip(before) {
        if then == owner_of(REPORT) {
            *owner = then;
        }
    }
    answer
}
