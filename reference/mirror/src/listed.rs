//! Methods with a list of arguments, called, found and tied wrongly.

use reference::agree::tie;
use reference::answer::{denied, word};
use reference::broken::unbroken;
use reference::classes::Classes;
use reference::code::{op, Instruction, MethodRef};
use reference::file::{File, LISTED};
use reference::gen::Call;
use reference::load::is_new_tie;
use reference::signature::Signature;
use reference::step::{instruction_of, take_step};
use reference::store::{cell, count, Value, INT, LIMITS};
use reference::{Answer, Refusal, Reply, Store};

use crate::faults::{stepping, Fault};
use crate::mapped::{method_at, top};

/// Locals first, then kinds, searches, ties, and what can't be read.
pub const FAULTS: [Fault; 17] = [
    ("arguments-in-reverse", |call, store| entering(call, store, |at, locals| locals[1..=at.signature.arguments.count()].reverse())),
    ("arguments-from-local-zero", |call, store| entering(call, store, |at, locals| locals[..=at.signature.arguments.count()].rotate_left(1))),
    ("a-local-less", |call, store| {
        entering(call, store, |at, locals| match at.signature.arguments.count() {
            4 => locals[4] = [0, 0],
            _ => {}
        })
    }),
    ("kinds-of-the-last-argument-alone", |call, store| kinds_of(call, store, |place, count| place + 1 == count)),
    ("kinds-of-the-first-argument-alone", |call, store| kinds_of(call, store, |place, _| place == 0)),
    ("lists-without-their-length", |call, store| finding(call, store, |one, other| one.iter().zip(other).all(|(one, other)| one == other))),
    ("lists-by-their-length", |call, store| finding(call, store, |one, other| one.len() == other.len())),
    ("lists-in-any-order", |call, store| {
        finding(call, store, |one, other| {
            let [mut one, mut other] = [one.to_vec(), other.to_vec()];
            one.sort_unstable();
            other.sort_unstable();
            one == other
        })
    }),
    ("start-finds-a-method-without-arguments", |call, store| starting(call, store, &[])),
    ("start-finds-a-method-of-two-ints", |call, store| starting(call, store, &[INT, INT])),
    ("version-one-calls-no-version-three", |call, store| {
        stepping(call, store, |store, classes| {
            let version = top(store).and_then(|frame| Some(method_at(store, frame)?.version));
            let found = called(store).and_then(|at| found(store, classes, at.class, at.signature));
            match (version, found) {
                (Some(1..LISTED), Some(LISTED)) => Answer::Refused(Refusal::Word(word::ABSENT)),
                _ => take_step(store, classes),
            }
        })
    }),
    ("only-the-first-argument-is-tied", |call, store| {
        tying(call, store, |signature, rows| {
            let first = signature.arguments.types().first().copied();
            rows.retain(|row| [first, Some(signature.result)].contains(&Some(row[2])));
        })
    }),
    ("the-result-is-tied-first", |call, store| tying(call, store, |signature, rows| rows.sort_by_key(|row| row[2] != signature.result))),
    ("arguments-are-tied-from-the-last", |call, store| tying(call, store, |_, rows| rows.reverse())),
    ("repeated-types-count-for-full", |call, store| {
        let is_defined = matches!(call.apply(&mut store.clone()), Reply::Defined(_));
        (is_defined && store.count(count::TIES) + repeated(call, store)? > usize::from(LIMITS[count::TIES])).then_some(denied(word::FULL))
    }),
    ("ties-that-have-room-are-posted", |call, store| {
        stepping(call, store, |store, classes| {
            let (at, answer) = (called(store), take_step(store, classes));
            if let (Some(at), Answer::Refused(Refusal::Word(word::FULL))) = (at, answer) {
                post_some(store, classes, at);
            }
            answer
        })
    }),
    ("a-count-of-five-runs", |call, store| {
        stepping(call, store, |store, classes| match count_at_turn(store) {
            Some(5) => Answer::Refused(Refusal::Word(word::ABSENT)),
            _ => take_step(store, classes),
        })
    }),
];

/// The call at its turn.
fn called(store: &Store) -> Option<MethodRef> {
    match instruction_of(store, store.turn()?)?.0 {
        Instruction::Invokevirtual(at) => Some(at),
        _ => None,
    }
}

/// The loader of the frame's class at its turn, and the class of this name there.
fn named(store: &Store, class: u16) -> Option<(u16, u16)> {
    let loader = store.loader_of(store.frames[top(store)? + cell::CLASS] as u16);
    Some((loader, store.cached(loader, class)?))
}

/// The version of the file in which a method is found.
fn found(store: &Store, classes: &Classes, class: u16, signature: Signature) -> Option<u8> {
    let (_, method) = classes.method(store, named(store, class)?.1, signature)?;
    Some(method.version)
}

/// Calls in which something happens to the locals of the new frame.
fn entering(call: &Call, store: &mut Store, then: impl Fn(MethodRef, &mut [[u32; 2]])) -> Option<Reply> {
    stepping(call, store, |store, classes| {
        let at = called(store);
        let answer = take_step(store, classes);
        if let (Some(at), Answer::Ran(_), Some(frame)) = (at, answer, top(store)) {
            let cells = &mut store.frames[frame + cell::LOCAL_0..frame + cell::OPERAND_0];
            let mut locals: Vec<[u32; 2]> = cells.chunks(2).map(|value| [value[0], value[1]]).collect();
            then(at, &mut locals);
            cells.copy_from_slice(&locals.concat());
        }
        answer
    })
}

/// Calls in which the arguments of some places alone are looked at: the others are taken for what they should be.
fn kinds_of(call: &Call, store: &mut Store, is_looked_at: fn(usize, usize) -> bool) -> Option<Reply> {
    stepping(call, store, |store, classes| {
        let before = store.clone();
        if let (Some(at), Some(frame)) = (called(store), top(store)) {
            let types = at.signature.arguments.types();
            let lowest = (store.frames[frame + cell::OPERANDS] as usize).checked_sub(types.len());
            for (place, &of) in types.iter().enumerate().filter(|(place, _)| !is_looked_at(*place, types.len())) {
                let Some(at) = lowest.map(|lowest| frame + cell::OPERAND_0 + 2 * (lowest + place)) else {
                    break;
                };
                if !Value::read(&store.frames, at).is_some_and(|value| value.is_kind_of(of)) {
                    Value::first(of).write(&mut store.frames, at);
                }
            }
        }
        let answer = take_step(store, classes);
        if matches!(answer, Answer::Refused(_)) {
            *store = before;
        }
        answer
    })
}

/// Calls that find a method by name, result and a wrong comparison of the lists; it is not entered.
fn finding(call: &Call, store: &mut Store, alike: fn(&[u16], &[u16]) -> bool) -> Option<Reply> {
    stepping(call, store, |store, classes| {
        let answer = take_step(store, classes);
        let (Some(at), Answer::Refused(Refusal::Word(word::ABSENT))) = (called(store), answer) else {
            return answer;
        };
        let is_alike = |other: Signature| {
            let lists = [other, at.signature].map(|signature| signature.arguments);
            (other.name, other.result) == (at.signature.name, at.signature.result) && alike(lists[0].types(), lists[1].types())
        };
        let named = named(store, at.class).map(|(_, class)| class);
        let mut upward = named.into_iter().flat_map(|class| classes.upward(class)).filter_map(|class| store.file(class));
        match upward.any(|file| file.methods().any(|method| is_alike(method.signature))) {
            true => Answer::Ran(store.turn().unwrap_or(0) as u8),
            false => answer,
        }
    })
}

/// A start that takes a method with this list where there is none with one int.
fn starting(call: &Call, store: &mut Store, arguments: &[u16]) -> Option<Reply> {
    let Call::Start { loader, name, method, .. } = *call else {
        return None;
    };
    let classes = unbroken(store)?;
    let is_absent = call.apply(&mut store.clone()) == denied(word::ABSENT);
    let class = store.cached(u16::try_from(loader).ok()?, name)?;
    let other = classes.method(store, class, Signature::new(method, arguments, INT)).is_some();
    (is_absent && other).then_some(Reply::Accepted)
}

/// Calls and defines whose new ties, those of one signature, are changed before they are written.
fn tying(call: &Call, store: &mut Store, change: fn(Signature, &mut Vec<[u16; 3]>)) -> Option<Reply> {
    let before = store.counts.get(count::TIES).copied().map(usize::from)?;
    let stepped = stepping(call, store, |store, classes| {
        let (at, before) = (called(store), store.count(count::TIES));
        let answer = take_step(store, classes);
        if let (Some(at), Answer::Ran(_)) = (at, answer) {
            rewrite(store, before, at.signature, change);
        }
        answer
    });
    stepped.or_else(|| {
        let signature = only_method(call)?;
        let reply = call.apply(store);
        if let Reply::Defined(_) = reply {
            rewrite(store, before, signature, change);
        }
        Some(reply)
    })
}

/// The signature of a define's file with one method.
fn only_method(call: &Call) -> Option<Signature> {
    let Call::Define { file, .. } = call else {
        return None;
    };
    let file = File::read(file)?;
    file.method(0).filter(|_| file.method_count() == 1).map(|method| method.signature)
}

fn rewrite(store: &mut Store, before: usize, signature: Signature, change: fn(Signature, &mut Vec<[u16; 3]>)) {
    let mut rows: Vec<[u16; 3]> = store.tie_rows().skip(before).collect();
    change(signature, &mut rows);
    store.counts[count::TIES] = before as u16;
    store.regroup();
    rows.into_iter().for_each(|row| store.add_tie(row));
}

/// How many ties a define with one method would add if none that it posts itself were seen again.
fn repeated(call: &Call, store: &Store) -> Option<usize> {
    let (&Call::Define { loader, ref file }, signature) = (call, only_method(call)?) else {
        return None;
    };
    let superclass = store.cached(loader as u16, File::read(file)?.superclass())?;
    let (nearest, _) = unbroken(store)?.method(store, superclass, signature)?;
    let rows = signature.types().filter_map(|of| tie(loader as u16, store.loader_of(nearest), of));
    Some(rows.filter(|&row| is_new_tie(store, &[], row)).count())
}

/// Posts the ties of a call as far as there is room.
fn post_some(store: &mut Store, classes: &Classes, at: MethodRef) {
    let Some((here, class)) = named(store, at.class) else {
        return;
    };
    let Some(there) = classes.method(store, class, at.signature).map(|(nearest, _)| store.loader_of(nearest)) else {
        return;
    };
    for row in at.signature.types().filter_map(|of| tie(there, here, of)) {
        if !store.is_full(count::TIES) && is_new_tie(store, &[], row) {
            store.add_tie(row);
        }
    }
}

/// The count inline of a call of version 3 at its turn, whether it can be read or not.
fn count_at_turn(store: &Store) -> Option<u8> {
    let frame = top(store)?;
    let method = method_at(store, frame).filter(|method| method.version >= LISTED)?;
    let code = method.code.get(store.frames[frame + cell::POINT] as usize..)?;
    (code.first() == Some(&op::INVOKEVIRTUAL)).then(|| code.get(5).copied())?
}
