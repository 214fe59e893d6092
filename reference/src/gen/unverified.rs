//! Damage to classes of version 2: jumps, maps, products and quotients that no verifier has seen, and frames among them.

use super::build::{Code, Draft, MapDraft};
use super::cases::MAIN;
use super::damage::{add_unseen, is_whole, start_in, unused_name};
use super::rng::Rng;
use crate::code::op;
use crate::file::MAPPED;
use crate::store::{cell, frame_base, Store, Value, INT, OBJECT};

/// Does some class have a file of version 2 that define would refuse?
pub fn has_unverified(store: &Store) -> bool {
    let classes = if is_whole(store) { 1..store.counts[0].max(1) } else { 1..1 };
    classes.into_iter().filter_map(|class| store.file(class)).any(|file| {
        file.version() >= MAPPED && crate::verifier::refused(file, &mut |_, _| ()).is_err()
    })
}

/// Is a task before a jump out of its code?
pub fn jumps_out(store: &Store) -> bool {
    let out = |task: usize| {
        let target = crate::step::instruction_of(store, task)?.0.target()?;
        let base = frame_base(task, store.frame_count(task) - 1);
        let method = store.file(store.frames[base + cell::CLASS] as u16)?.method(store.frames[base + cell::METHOD] as usize)?;
        Some(target >= method.code.len())
    };
    is_whole(store) && store.turn().and_then(out) == Some(true)
}

const RATES: [u8; 2] = [op::IMUL, op::IDIV];

/// Code with jumps to anywhere, some of it counting, and maps at any offsets that rise.
fn anywhere(rng: &mut Rng) -> Code {
    let mut code = Code::new();
    for _ in 0..rng.within(1, 9) {
        let target = if rng.percent(85) { rng.below(30) as u16 } else { rng.word() };
        code = match rng.below(9) {
            0 => code.names(op::GOTO, &[target]),
            1 => code.iload(1).names(op::IFEQ, &[target]),
            2 => code.iload(1).int(rng.below(9) as i16).names(op::IF_ICMPLT, &[target]),
            3 => code.iload(1).int(1).isub().istore(1),
            4 => code.object(OBJECT).astore(2),
            5 => code.iload(1).iload(1),
            6 => code.iload(1).int(rng.pick(&[0, 1, -1, 7])).plain(rng.pick(&RATES)).istore(1),
            7 => code.plain(rng.pick(&RATES)),
            _ => code.aload(0).iload(1).invoke(OBJECT, MAIN, INT, INT),
        };
    }
    let code = if rng.percent(60) { code.iload(1).ireturn() } else { code };
    let mut offsets: Vec<u16> = (0..rng.below(4)).map(|_| rng.below(30) as u16).collect();
    offsets.sort_unstable();
    offsets.dedup();
    let maps: Vec<MapDraft> = offsets.into_iter().map(|offset| MapDraft::new(offset, &[OBJECT, INT], &[])).collect();
    code.with_maps(&maps)
}

/// A class of version 2 that no verifier has seen, and a task in it.
pub fn unseen_jumps(rng: &mut Rng, store: &mut Store) {
    if !is_whole(store) || store.cached(0, OBJECT) != Some(0) {
        return;
    }
    let name = unused_name(store);
    let code = if rng.percent(25) { Code::new().names(op::GOTO, &[rng.pick(&[3, 4, 500, 0xFFFF])]) } else { anywhere(rng) };
    let draft = if rng.percent(90) { Draft::mapped(name) } else { Draft::new(name) };
    if add_unseen(store, 0, &draft.main(MAIN, &code)).is_some() {
        start_in(rng, store, 0, name);
    }
}

/// A task before a product or quotient of any operands, too few among them.
pub fn unseen_rates(rng: &mut Rng, store: &mut Store) {
    if !is_whole(store) || store.cached(0, OBJECT) != Some(0) {
        return;
    }
    let name = unused_name(store);
    let draft = if rng.percent(90) { Draft::mapped(name) } else { Draft::new(name) };
    let code = Code::new().plain(rng.pick(&RATES)).ireturn();
    if add_unseen(store, 0, &draft.main(MAIN, &code)).is_none() {
        return;
    }
    let (Some(object), Some(task)) = (start_in(rng, store, 0, name), store.turn()) else {
        return;
    };
    let base = frame_base(task, 0);
    store.frames[base + cell::OPERANDS] = rng.pick(&[0, 1, 2, 2, 2, 2, 3]);
    for place in 0..3 {
        let int = Value::Int(rng.pick(&[0, 0, 0, 7, u32::MAX, 1 << 31, i32::MAX as u32]));
        let value = if rng.percent(80) { int } else { rng.pick(&[Value::Null, Value::Object(object)]) };
        value.write(&mut store.frames, base + cell::OPERAND_0 + 2 * place);
    }
}

/// A task before a call with a list of any length, with any operands, too few among them. Mostly the method is there.
pub fn unseen_calls(rng: &mut Rng, store: &mut Store) {
    if !is_whole(store) || store.cached(0, OBJECT) != Some(0) {
        return;
    }
    let name = unused_name(store);
    let types: Vec<u16> = (0..rng.below(5)).map(|_| rng.pick(&[INT, name])).collect();
    let mut named = types.clone();
    if rng.percent(10) {
        named = (0..rng.below(6)).map(|_| rng.pick(&[INT, name])).collect();
    }
    let code = Code::listed().call(name, MAIN + 1, &named, INT).ireturn();
    let draft = Draft::listed(name).main(MAIN, &code).method_of(MAIN + 1, &types, INT, &Code::listed().end(INT));
    if add_unseen(store, 0, &draft).is_none() {
        return;
    }
    let (Some(object), Some(task)) = (start_in(rng, store, 0, name), store.turn()) else {
        return;
    };
    let (base, count) = (frame_base(task, 0), types.len() + 1 - usize::from(rng.percent(15)));
    store.frames[base + cell::OPERANDS] = count as u32;
    for (place, of) in [OBJECT].into_iter().chain(types).enumerate() {
        let fits = if of == INT { Value::Int(place as u32 + 5) } else { rng.pick(&[Value::Object(object), Value::Null]) };
        let value = if rng.percent(92) { fits } else { rng.pick(&[Value::Int(3), Value::Null, Value::Object(object)]) };
        value.write(&mut store.frames, base + cell::OPERAND_0 + 2 * place);
    }
}

/// The version byte of a class's file, which then may read by the other version's rules.
pub fn other_version(rng: &mut Rng, store: &mut Store) {
    let classes = store.counts.first().map_or(0, |&classes| usize::from(classes));
    if !is_whole(store) || classes < 2 {
        return;
    }
    let class = rng.within(1, classes - 1);
    let start = usize::from(store.classes[3 * class + 1]);
    store.kept[start] = rng.pick(&[1, 2, 3, 0]);
}

/// Bytes of a map, wherever they stand in it.
pub fn map_bytes(rng: &mut Rng, store: &mut Store) {
    let Some(class) = mapped_class(rng, store) else {
        return;
    };
    let start = usize::from(store.classes[3 * class + 1]);
    let end = start + usize::from(store.classes[3 * class + 2]);
    let Some(method) = store.file(class as u16).and_then(|file| file.methods().find(|method| method.maps().next().is_some())) else {
        return;
    };
    let behind = method.code.as_ptr() as usize - store.kept.as_ptr() as usize + method.code.len() + 1;
    for _ in 0..rng.within(1, 3) {
        let at = rng.within(behind, end.min(behind + 40) - 1);
        store.kept[at] = rng.pick(&[0, 1, 2, 3, 10, 11, 12, 255]);
    }
}

/// A class of version 2, one of a frame mostly.
fn mapped_class(rng: &mut Rng, store: &Store) -> Option<usize> {
    if !is_whole(store) {
        return None;
    }
    let is_mapped = |&class: &u16| store.file(class).is_some_and(|file| file.version() >= MAPPED);
    let all: Vec<u16> = (1..store.counts[0].max(1)).filter(is_mapped).collect();
    (!all.is_empty()).then(|| usize::from(rng.pick(&all)))
}
