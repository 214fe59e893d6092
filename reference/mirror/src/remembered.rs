//! Long runs that remember wrongly what they found at a place, or that return, walk and make objects too quickly. Beside each name stands what
//! the comparison of long runs must say of it.

use std::cell::RefCell;
use std::collections::HashMap;

use reference::classes::Classes;
use reference::code::Instruction;
use reference::gen::Call;
use reference::hidden::Access;
use reference::running::LONG;
use reference::step::{instruction_of, take_step};
use reference::store::{cell, count, frame_base, owner_of, Value, FREE, MOST_OBJECTS, OBJECT_ROW, QUOTE};
use reference::{Answer, Reply, Store};

use crate::faults::stepping;
use crate::hidden::swap;
use crate::shared::unshared;

/// The name of the fault, what is said of it, and the runs that have it.
pub type Remembering = (&'static str, &'static str, fn(&Call, &mut Store) -> Option<Reply>);

/// What was found at a place; a key's cells are those that the memory is asked for.
type Memory<T> = HashMap<[u32; 4], T>;

pub const FAULTS: [Remembering; 19] = [
    ("calls-remembered-for-any-class", "long runs .*: Run .* differs", |call, store| calls(call, store, |at| [at.class, at.method, at.point, 0])),
    ("calls-remembered-for-the-class-alone", "long runs .*: Run .* differs", |call, store| calls(call, store, |at| [at.receiver, 0, 0, 0])),
    ("calls-kept-across-classes", "long runs .*: Run .* differs", |call, store| calls(call, store, |at| [0, at.method, at.point, at.receiver])),
    ("calls-kept-across-methods", "long runs .*: Run .* differs", |call, store| calls(call, store, |at| [at.class, 0, at.point, at.receiver])),
    ("calls-kept-across-runs", "long runs .*: Run .* differs", |call, store| {
        thread_local!(static KEPT: RefCell<Memory<[u32; 2]>> = RefCell::default());
        KEPT.with(|kept| calls_of(call, store, kept, |at| [at.class, at.method, at.point, at.receiver]))
    }),
    ("slots-kept-across-classes", "long runs .*: Run .* differs", |call, store| slots(call, store, |at, _| [0, at.method, at.point, at.receiver])),
    ("slots-kept-across-methods", "long runs .*: Run .* differs", |call, store| slots(call, store, |at, _| [at.class, 0, at.point, at.receiver])),
    ("slots-remembered-by-the-objects-class", "Run .* differs in .\"objects\"", |call, store| {
        slots(call, store, |at, access| [at.receiver, access.at.field.into(), access.at.of.into(), 0])
    }),
    ("remembered-before-the-tie-is-posted", "Run .* differs in .\"counts\", \"ties\"", |call, store| {
        long(call, store, |store, classes| {
            let (ties, counts) = (store.ties.clone(), store.counts.clone());
            let answer = take_step(store, classes);
            if store.count(count::TIES) > usize::from(counts[count::TIES]) {
                store.ties = ties;
                store.counts[count::TIES] = counts[count::TIES];
                store.counts[count::TIE_NUMBERS..].copy_from_slice(&counts[count::TIE_NUMBERS..]);
                store.close();
            }
            answer
        })
    }),
    ("classes-remembered-by-name", "long runs .*: Run .* differs", |call, store| {
        let memory = RefCell::<HashMap<u16, u16>>::default();
        long(call, store, |store, classes| {
            making(store, classes, |store, name, object| {
                let class = *memory.borrow_mut().entry(name).or_insert(store.object_class(object));
                fill(store, classes, object, class);
            })
        })
    }),
    ("a-quick-return-forgets-the-depth", "Run .* differs: answers .3, 10,", |call, store| {
        returning(call, store, |store, task, _| store.counts[count::FRAMES + task] += 1)
    }),
    ("a-quick-return-forgets-the-point", "long runs .*: Run .* differs", |call, store| {
        let memory = RefCell::<HashMap<[u32; 2], u32>>::default();
        // it goes on where the method was first called from
        returning(call, store, |store, task, returned| {
            let point = frame_base(task, store.frame_count(task) - 1) + cell::POINT;
            store.frames[point] = *memory.borrow_mut().entry(returned).or_insert(store.frames[point]);
        })
    }),
    ("a-quick-return-leaves-the-operand", "Run .* differs: answers .3, 14,", |call, store| {
        returning(call, store, |store, task, _| {
            let base = frame_base(task, store.frame_count(task) - 1);
            store.frames[base + cell::OPERANDS] -= 1;
        })
    }),
    ("a-walk-goes-a-step-too-far", "Run .* differs in .\"frames\". after RanFor(.*, Ran(", |call, store| match long(call, store, take_step)? {
        Reply::RanFor(ran, answer @ Answer::Ran(_)) if is_plain(store) => {
            let _ = reference::step(store);
            Some(Reply::RanFor(ran, answer))
        }
        reply => Some(reply),
    }),
    ("a-walk-counts-the-step-that-ends-it", "Run .* differs: answers", |call, store| match long(call, store, take_step)? {
        Reply::RanFor(ran, answer @ Answer::Refused(_)) => Some(Reply::RanFor(ran + 1, answer)),
        reply => Some(reply),
    }),
    ("a-remembered-new-takes-the-next-row", "long runs .*: Run .* differs", |call, store| {
        let last = RefCell::<Option<usize>>::default();
        long(call, store, |store, classes| {
            let next = last.borrow().map(|row| row + 1).filter(|&row| row < MOST_OBJECTS && row <= store.count(count::OBJECTS) && is_new(store));
            let answer = if let Some(row) = next { at_row(store, row, |store| take_step(store, classes)) } else { take_step(store, classes) };
            if let Some(object) = made(store, answer) {
                *last.borrow_mut() = Some(object as usize);
            }
            answer
        })
    }),
    ("a-remembered-new-forgets-the-share", "Run .* differs: answers .*, not .3, 18,", |call, store| {
        let memory = RefCell::<Memory<()>>::default();
        long(call, store, |store, classes| {
            let Some(at) = At::turn(store).filter(|_| is_new(store)) else {
                return take_step(store, classes);
            };
            if memory.borrow_mut().insert([at.class, at.method, at.point, 0], ()).is_none() {
                return take_step(store, classes);
            }
            let turn = store.turn().unwrap_or(QUOTE);
            unshared(store, |store| {
                let answer = take_step(store, classes);
                if let Some(object) = made(store, answer) {
                    store.own_object(object, turn);
                }
                answer
            })
        })
    }),
    ("a-remembered-new-is-the-quotes", "Run .* differs in .\"counts\". after", |call, store| {
        long(call, store, |store, classes| making(store, classes, |store, _, object| store.own_object(object, QUOTE)))
    }),
    ("a-remembered-new-keeps-the-fields", "Run .* differs in .\"objects\"", |call, store| {
        let before = RefCell::new(Vec::new());
        long(call, store, |store, classes| {
            if is_new(store) {
                *before.borrow_mut() = store.objects.clone();
            }
            making(store, classes, |store, _, object| {
                let fields = Store::field_cell(object, 0)..(object as usize + 1) * OBJECT_ROW;
                // a row that was never used has no field to keep
                if before.borrow()[fields.start] != 0 {
                    store.objects[fields.clone()].copy_from_slice(&before.borrow()[fields]);
                }
            })
        })
    }),
];

/// A run of so many steps that it remembers; others are right.
fn long(call: &Call, store: &mut Store, step: impl Fn(&mut Store, &Classes) -> Answer) -> Option<Reply> {
    matches!(call, Call::Run { n } if *n >= LONG.into()).then(|| stepping(call, store, step))?
}

/// Where a task's top frame stands, and the class of the receiver of what it does there, if it has one.
struct At {
    class: u32,
    method: u32,
    point: u32,
    receiver: u32,
}

impl At {
    fn turn(store: &Store) -> Option<At> {
        let task = store.turn()?;
        let frame = &store.frames[frame_base(task, store.frame_count(task) - 1)..];
        let below = match instruction_of(store, task)?.0 {
            Instruction::Getfield(_) => 1,
            Instruction::Putfield(_) => 2,
            Instruction::Invokevirtual(at) => 1 + at.signature.arguments.count(),
            _ => 0,
        };
        let place = (frame[cell::OPERANDS] as usize).checked_sub(below).filter(|_| below > 0);
        let receiver = place.and_then(|place| match Value::read(frame, cell::OPERAND_0 + 2 * place)? {
            Value::Object(object) => Some(store.object_class(object).into()),
            _ => None,
        });
        Some(At { class: frame[cell::CLASS], method: frame[cell::METHOD], point: frame[cell::POINT], receiver: receiver.unwrap_or(u32::MAX) })
    }
}

fn is_new(store: &Store) -> bool {
    store.turn().is_some_and(|task| matches!(instruction_of(store, task), Some((Instruction::New(_), _))))
}

/// Does the instruction at its turn touch its frame alone?
fn is_plain(store: &Store) -> bool {
    use Instruction::*;
    let instruction = store.turn().and_then(|task| instruction_of(store, task));
    instruction.is_some_and(|(at, _)| !matches!(at, Getfield(_) | Putfield(_) | Invokevirtual(_) | New(_) | Ireturn | Areturn | Idiv))
}

/// Calls that enter what is remembered under the key.
fn calls(call: &Call, store: &mut Store, key: fn(&At) -> [u32; 4]) -> Option<Reply> {
    calls_of(call, store, &RefCell::default(), key)
}

fn calls_of(call: &Call, store: &mut Store, memory: &RefCell<Memory<[u32; 2]>>, key: fn(&At) -> [u32; 4]) -> Option<Reply> {
    long(call, store, |store, classes| {
        let (at, depth) = (At::turn(store), store.turn().map(|task| store.frame_count(task)));
        let answer = take_step(store, classes);
        if let (Some(at), Answer::Ran(task)) = (at, answer) {
            let task = usize::from(task);
            if Some(store.frame_count(task)) > depth {
                let base = frame_base(task, store.frame_count(task) - 1);
                let entered = [store.frames[base + cell::CLASS], store.frames[base + cell::METHOD]];
                let entered = *memory.borrow_mut().entry(key(&at)).or_insert(entered);
                store.frames[base..base + 2].copy_from_slice(&entered);
            }
        }
        answer
    })
}

/// Accesses to the slot that is remembered under the key.
fn slots(call: &Call, store: &mut Store, key: fn(&At, &Access) -> [u32; 4]) -> Option<Reply> {
    let memory = RefCell::<Memory<usize>>::default();
    long(call, store, |store, classes| {
        let (Some(at), Some(access)) = (At::turn(store), Access::at_turn(store, classes)) else {
            return take_step(store, classes);
        };
        let slot = *memory.borrow_mut().entry(key(&at, &access)).or_insert(access.place);
        // what is in that slot stands in the right one for the step
        swap(store, &access, slot);
        let answer = take_step(store, classes);
        swap(store, &access, slot);
        answer
    })
}

/// Returns to a frame below, and something done to the store then: by the task, and the class and method that returned.
fn returning(call: &Call, store: &mut Store, then: impl Fn(&mut Store, usize, [u32; 2])) -> Option<Reply> {
    long(call, store, |store, classes| {
        let (at, depth) = (At::turn(store), store.turn().map(|task| store.frame_count(task)));
        let answer = take_step(store, classes);
        if let (Some(at), Answer::Ran(task)) = (at, answer) {
            if Some(store.frame_count(task.into())) < depth {
                then(store, task.into(), [at.class, at.method]);
            }
        }
        answer
    })
}

/// The object that a `new` has made, which is the top operand.
fn made(store: &Store, answer: Answer) -> Option<u32> {
    let Answer::Ran(task) = answer else {
        return None;
    };
    let base = frame_base(task.into(), store.frame_count(task.into()).checked_sub(1)?);
    let top = (store.frames[base + cell::OPERANDS] as usize).checked_sub(1)?;
    match Value::read(&store.frames, base + cell::OPERAND_0 + 2 * top)? {
        Value::Object(object) => Some(object),
        _ => None,
    }
}

/// A step, and something done to the store if it was a `new` that ran: by the name and the object.
fn making(store: &mut Store, classes: &Classes, then: impl Fn(&mut Store, u16, u32)) -> Answer {
    let instruction = store.turn().and_then(|task| instruction_of(store, task));
    let answer = take_step(store, classes);
    if let (Some((Instruction::New(name), _)), Some(object)) = (instruction, made(store, answer)) {
        then(store, name, object);
    }
    answer
}

/// Writes a class and its fields' first values.
fn fill(store: &mut Store, classes: &Classes, object: u32, class: u16) {
    store.objects[object as usize * OBJECT_ROW] = class.into();
    for (field, (_, of)) in classes.field_types(store, class).iter().enumerate() {
        Value::first(of).write(&mut store.objects, Store::field_cell(object, field));
    }
}

/// A step to which this row is the lowest that is free, whatever it is.
fn at_row(store: &mut Store, row: usize, then: impl FnOnce(&mut Store) -> Answer) -> Answer {
    let before = store.owners().to_vec();
    store.owners_mut()[..row].iter_mut().filter(|owner| **owner == FREE).for_each(|owner| *owner = owner_of(QUOTE));
    store.owners_mut().iter_mut().skip(row).take(1).for_each(|owner| *owner = FREE);
    let answer = then(store);
    let is_made = matches!(answer, Answer::Ran(_));
    for (at, (owner, then)) in store.owners_mut().iter_mut().zip(before).enumerate() {
        if at != row || !is_made {
            *owner = then;
        }
    }
    answer
}
