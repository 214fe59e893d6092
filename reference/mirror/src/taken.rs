//! Loads taken back, and the trace of them, done wrongly.

use reference::answer::{denied, word};
use reference::broken::lengths_fit;
use reference::gen::traces::{closed, wrongs, Wrong, WRONGS};
use reference::gen::Call;
use reference::store::{count, Level, MOST_LOADS, ROW};
use reference::{broken, Answer, Refusal, Reply, Store};

use crate::tried::Listing;

/// What is remembered first, then what a taking back undoes, then what closes and what doesn't, and last which traces are broken.
pub const FAULTS: [Listing; 45] = [
    ("a-try-is-remembered", |call, store, list| {
        let before = if broken(store) { None } else { Some(store.level()) };
        let reply = call.load().map(|_| call.apply_listing(store, list))?;
        if let (Reply::Accepted | Reply::Defined(_), Some(level)) = (reply, before) {
            store.remember(level);
        }
        Some(reply)
    }),
    ("a-record-of-what-is-there-is-remembered", |call, store, list| {
        then(call, store, list, |before, store, call, reply| {
            if is_there(before, store, call, reply) {
                store.remember(before.level());
            }
        })
    }),
    ("a-record-isnt-remembered", |call, store, list| unremembered(call, store, list, |call| matches!(call, Call::Record { .. }))),
    ("a-define-isnt-remembered", |call, store, list| unremembered(call, store, list, |call| matches!(call, Call::Define { .. }))),
    ("a-refused-load-is-remembered", |call, store, list| {
        then(call, store, list, |before, store, call, reply| {
            if call.tried(0).is_some() && reply.refusal().is_some() {
                store.remember(before.level());
            }
        })
    }),
    ("the-oldest-is-kept-at-the-thirty-third", |call, store, list| {
        loading(call, store, list, |levels, level| {
            if levels.len() < MOST_LOADS {
                levels.push(level);
            }
        })
    }),
    ("the-latest-is-overwritten-at-the-thirty-third", |call, store, list| {
        loading(call, store, list, |levels, level| {
            levels.truncate(MOST_LOADS - 1);
            levels.push(level);
        })
    }),
    ("thirty-one-loads-are-remembered", |call, store, list| {
        loading(call, store, list, |levels, level| {
            levels.push(level);
            levels.drain(..levels.len().saturating_sub(MOST_LOADS - 1));
        })
    }),
    ("the-latest-stands-first", |call, store, list| loading(call, store, list, |levels, level| levels.insert(0, level))),
    ("a-level-is-what-the-load-left", |call, store, list| {
        then(call, store, list, |before, store, _, _| {
            if let Some((_, older)) = store.levels().split_last().filter(|_| store.level() != before.level()) {
                let levels = [older, &[store.level()]].concat();
                store.set_levels(&levels);
            }
        })
    }),
    ("classes-arent-cut", |call, store, list| uncut(call, store, list, count::CLASSES)),
    ("kept-bytes-arent-cut", |call, store, list| uncut(call, store, list, count::KEPT)),
    ("entries-arent-cut", |call, store, list| uncut(call, store, list, count::CACHE)),
    ("ties-arent-cut", |call, store, list| uncut(call, store, list, count::TIES)),
    ("subtypes-arent-cut", |call, store, list| uncut(call, store, list, count::SUBTYPES)),
    ("cut-rows-are-cleared", |call, store, list| {
        then(call, store, list, |before, store, call, reply| {
            if (call, reply) == (&Call::TakeBack, Reply::Accepted) {
                let [from, to] = [store.count(count::CACHE), before.count(count::CACHE)].map(|rows| rows * ROW);
                store.cache[from..to].fill(0);
            }
        })
    }),
    ("all-is-taken-back", |call, store, list| {
        then(call, store, list, |before, store, call, reply| {
            if let (Call::TakeBack, Reply::Accepted, Some(&oldest)) = (call, reply, before.levels().first()) {
                store.cut(oldest);
                store.close();
            }
        })
    }),
    ("a-taking-back-closes", |call, store, list| closing(call, store, list, |_, _, call, _| *call == Call::TakeBack)),
    ("a-load-taken-back-still-counts", |call, store, list| {
        then(call, store, list, |before, store, call, reply| {
            if (call, reply) == (&Call::TakeBack, Reply::Accepted) {
                store.set_levels(&before.levels());
            }
        })
    }),
    ("nothing-to-take-back-is-accepted", |call, store, list| {
        let reply = call.apply_listing(store, list);
        Some(if reply == denied(word::TOO_LATE) { Reply::Accepted } else { reply })
    }),
    ("too-late-comes-before-broken", |call, store, _| {
        let is_late = *call == Call::TakeBack && lengths_fit(store) && store.count(count::LOADS) == 0;
        is_late.then_some(denied(word::TOO_LATE))
    }),
    ("an-idle-step-closes", |call, store, list| closing(call, store, list, |_, _, _, reply| reply == Reply::Stepped(Answer::Idle))),
    ("a-refused-step-closes", |call, store, list| {
        closing(call, store, list, |_, _, _, reply| matches!(reply, Reply::Stepped(Answer::Refused(_))))
    }),
    ("a-run-of-nothing-closes", |call, store, list| {
        closing(call, store, list, |_, _, _, reply| matches!(reply, Reply::RanFor(0, Answer::Idle | Answer::Refused(_))))
    }),
    ("a-refused-load-closes", |call, store, list| {
        closing(call, store, list, |_, _, call, reply| call.tried(0).is_some() && reply.refusal().is_some())
    }),
    ("a-refused-start-closes", |call, store, list| {
        closing(call, store, list, |_, _, call, reply| matches!(call, Call::Start { .. }) && reply.refusal().is_some())
    }),
    ("a-record-of-what-is-there-closes", |call, store, list| closing(call, store, list, is_there)),
    ("boot-doesnt-close", |call, store, list| open(call, store, list, |_, call, _| *call == Call::Boot)),
    ("start-doesnt-close", |call, store, list| open(call, store, list, |_, call, _| matches!(call, Call::Start { .. }))),
    ("drop-doesnt-close", |call, store, list| open(call, store, list, |_, call, _| matches!(call, Call::Drop { .. }))),
    ("drop-of-an-empty-task-doesnt-close", |call, store, list| {
        open(call, store, list, |before, call, _| matches!(*call, Call::Drop { task } if before.frame_count(task as usize) == 0))
    }),
    ("sweep-doesnt-close", |call, store, list| open(call, store, list, |_, call, _| *call == Call::Sweep)),
    ("a-sweep-that-frees-nothing-doesnt-close", |call, store, list| open(call, store, list, |_, _, reply| reply == Reply::Swept(0))),
    ("a-step-that-ran-doesnt-close", |call, store, list| open(call, store, list, |_, _, reply| matches!(reply, Reply::Stepped(Answer::Ran(_))))),
    ("a-step-that-finished-doesnt-close", |call, store, list| {
        open(call, store, list, |_, _, reply| matches!(reply, Reply::Stepped(Answer::Finished(..))))
    }),
    ("a-run-doesnt-close", |call, store, list| open(call, store, list, |_, call, _| matches!(call, Call::Run { .. }))),
    ("the-last-step-of-a-run-doesnt-close", |call, store, list| {
        open(call, store, list, |_, _, reply| matches!(reply, Reply::RanFor(1, Answer::Ran(_)) | Reply::RanFor(0, Answer::Finished(..))))
    }),
    ("a-trace-is-never-broken", |call, store, list| judged(call, store, list, |_| true)),
    ("levels-are-judged-on-the-whole-store", |call, store, list| {
        judged(call, store, list, |store| {
            let whole = closed(store);
            store.levels().into_iter().all(|level| wrongs(&whole, level).is_empty())
        })
    }),
    ("the-oldest-is-taken-back-first", |call, store, list| judged(call, store, list, |store| in_turn(store, store.levels(), &[]))),
    ("the-superclasss-row-isnt-tested", |call, store, list| {
        judged(call, store, list, |store| in_turn(store, latest_first(store), &[Wrong::Superclasses]))
    }),
    ("numbers-arent-cut", |call, store, list| judged(call, store, list, |store| in_turn(store, latest_first(store), &[Wrong::Numbers]))),
    ("the-classes-of-objects-arent-tested", |call, store, list| {
        judged(call, store, list, |store| in_turn(store, latest_first(store), &[Wrong::Objects]))
    }),
    ("files-arent-tested", |call, store, list| judged(call, store, list, |store| in_turn(store, latest_first(store), &[Wrong::Files]))),
    ("the-classes-of-entries-arent-tested", |call, store, list| {
        judged(call, store, list, |store| in_turn(store, latest_first(store), &[Wrong::Entries]))
    }),
];

/// The right call, and then something to the store, by the store before, the call and its reply.
pub fn then(call: &Call, store: &mut Store, list: &mut [u16], change: impl Fn(&Store, &mut Store, &Call, Reply)) -> Option<Reply> {
    let before = store.clone();
    let reply = call.apply_listing(store, list);
    let is_read = *call == Call::Boot && reply == Reply::Accepted || lengths_fit(&before) && !broken(&before);
    if is_read {
        change(&before, store, call, reply);
    }
    Some(reply)
}

/// A record of an entry that is there.
fn is_there(before: &Store, store: &Store, call: &Call, reply: Reply) -> bool {
    matches!(call, Call::Record { .. }) && reply == Reply::Accepted && before == store
}

/// Loads that are made and not remembered.
fn unremembered(call: &Call, store: &mut Store, list: &mut [u16], is_it: fn(&Call) -> bool) -> Option<Reply> {
    then(call, store, list, |before, store, call, reply| {
        if is_it(call) && reply.refusal().is_none() {
            store.counts[count::LOADS..count::GROUPS].copy_from_slice(&before.counts[count::LOADS..count::GROUPS]);
        }
    })
}

/// Loads that are remembered in another way.
fn loading(call: &Call, store: &mut Store, list: &mut [u16], remember: fn(&mut Vec<Level>, Level)) -> Option<Reply> {
    then(call, store, list, |before, store, call, _| {
        if call.tried(0).is_some() && before.level() != store.level() {
            let mut levels = before.levels();
            remember(&mut levels, before.level());
            levels.truncate(MOST_LOADS);
            store.counts[count::LOADS..count::GROUPS].copy_from_slice(&before.counts[count::LOADS..count::GROUPS]);
            store.set_levels(&levels);
        }
    })
}

/// A taking back that leaves a count.
fn uncut(call: &Call, store: &mut Store, list: &mut [u16], which: usize) -> Option<Reply> {
    then(call, store, list, |before, store, call, _| {
        if *call == Call::TakeBack {
            store.counts[which] = before.counts[which];
        }
    })
}

/// Calls that close where they shouldn't.
fn closing(call: &Call, store: &mut Store, list: &mut [u16], closes: fn(&Store, &Store, &Call, Reply) -> bool) -> Option<Reply> {
    then(call, store, list, |before, store, call, reply| {
        if closes(before, store, call, reply) {
            store.close();
        }
    })
}

/// Calls that close nothing where they should.
fn open(call: &Call, store: &mut Store, list: &mut [u16], stays: fn(&Store, &Call, Reply) -> bool) -> Option<Reply> {
    then(call, store, list, |before, store, call, reply| {
        if reply.refusal().is_none() && stays(before, call, reply) {
            store.counts[count::LOADS] = before.counts[count::LOADS];
        }
    })
}

fn latest_first(store: &Store) -> Vec<Level> {
    store.levels().into_iter().rev().collect()
}

/// Can the levels be taken back one after another, but for what isn't tested?
fn in_turn(store: &Store, levels: Vec<Level>, untested: &[Wrong]) -> bool {
    let mut left = closed(store);
    levels.into_iter().all(|level| {
        let fits = wrongs(&left, level).iter().all(|wrong| untested.contains(wrong));
        left.cut(level);
        fits
    })
}

/// A call on a store whose trace alone is judged otherwise.
fn judged(call: &Call, store: &mut Store, list: &mut [u16], fits: fn(&Store) -> bool) -> Option<Reply> {
    if *call == Call::Boot || !lengths_fit(store) || broken(&closed(store)) || store.count(count::LOADS) > MOST_LOADS {
        return None;
    }
    assert_eq!(in_turn(store, latest_first(store), &[]), !broken(store), "what is wrong about a trace is told by {WRONGS:?}");
    match (fits(store), broken(store)) {
        (true, true) => Some(call.apply_listing(&mut closed(store), list)),
        (false, false) => Some(Reply::Denied(Refusal::Word(word::BROKEN))),
        _ => None,
    }
}
