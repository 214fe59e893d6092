//! Methods of version 2 or 3 with one thing changed: mostly a rule of the file, of the maps or of the verifier is broken by it.

use super::build::{Code, MapDraft};
use super::rng::Rng;
use crate::code::{decode, op};
use crate::file::{LISTED, MAPPED};

/// Ways to change a method.
const WAYS: [fn(&mut Rng, &mut Code); 19] = [
    without_a_map, another_local, another_operand, an_operand_less, an_operand_more, offset_moved, maps_swapped, an_offset_twice,
    operand_0, many_operands, map_inside, map_behind, another_target, an_unknown_opcode, a_bad_local,
    cut_off, not_ended, another_count, cut_list,
];

/// Changes the method in some way, if it can be changed so.
pub fn spoil(rng: &mut Rng, code: &mut Code) {
    WAYS[rng.below(WAYS.len())](rng, code);
}

fn some_map<'a>(rng: &mut Rng, code: &'a mut Code) -> Option<&'a mut MapDraft> {
    let count = code.maps.len();
    (count > 0).then(|| &mut code.maps[rng.below(count)])
}

fn without_a_map(rng: &mut Rng, code: &mut Code) {
    if !code.maps.is_empty() {
        let place = rng.below(code.maps.len());
        code.maps.remove(place);
    }
}

fn another_local(rng: &mut Rng, code: &mut Code) {
    let (local, of) = (rng.below(8), rng.pick(&[0, 1, 2, 10, 11, 12]));
    some_map(rng, code).into_iter().for_each(|map| map.locals[local] = of);
}

fn another_operand(rng: &mut Rng, code: &mut Code) {
    let of = rng.pick(&[1, 2, 10, 11, 12]);
    some_map(rng, code).and_then(|map| map.operands.first_mut()).into_iter().for_each(|operand| *operand = of);
}

fn an_operand_less(rng: &mut Rng, code: &mut Code) {
    some_map(rng, code).into_iter().for_each(|map| map.operands.truncate(map.operands.len().saturating_sub(1)));
}

fn an_operand_more(rng: &mut Rng, code: &mut Code) {
    let of = rng.pick(&[1, 2, 10]);
    some_map(rng, code).into_iter().for_each(|map| map.operands.push(of));
}

fn offset_moved(rng: &mut Rng, code: &mut Code) {
    let by = rng.pick(&[1, u16::MAX, 2, 3, 0x100, 0x8000]);
    some_map(rng, code).into_iter().for_each(|map| map.offset = map.offset.wrapping_add(by));
}

fn maps_swapped(rng: &mut Rng, code: &mut Code) {
    if code.maps.len() > 1 {
        let place = rng.within(1, code.maps.len() - 1);
        code.maps.swap(place - 1, place);
    }
}

fn an_offset_twice(rng: &mut Rng, code: &mut Code) {
    if !code.maps.is_empty() {
        let place = rng.below(code.maps.len());
        let map = code.maps[place].clone();
        code.maps.insert(place, map);
    }
}

fn operand_0(rng: &mut Rng, code: &mut Code) {
    some_map(rng, code).into_iter().for_each(|map| map.operands.push(0));
}

fn many_operands(rng: &mut Rng, code: &mut Code) {
    let count = rng.pick(&[16, 17, 18, 255]);
    some_map(rng, code).into_iter().for_each(|map| map.operands.resize(count, 1));
}

/// The starts of the instructions that can be read.
fn starts(code: &Code) -> Vec<usize> {
    let version = if code.listed { LISTED } else { MAPPED };
    let next = |&point: &usize| decode(version, &code.bytes, point).map(|(_, next)| next);
    std::iter::successors(Some(0), next).filter(|&point| point < code.bytes.len()).collect()
}

/// A map is put where its offset belongs.
fn add_map(code: &mut Code, offset: usize, locals: &[u16]) {
    let place = code.maps.iter().take_while(|map| usize::from(map.offset) < offset).count();
    code.maps.insert(place, MapDraft::new(offset as u16, locals, &[]));
}

fn map_inside(rng: &mut Rng, code: &mut Code) {
    let starts = starts(code);
    let inside: Vec<usize> = (0..code.bytes.len()).filter(|offset| !starts.contains(offset)).collect();
    if !inside.is_empty() {
        add_map(code, rng.pick(&inside), &[]);
    }
}

fn map_behind(rng: &mut Rng, code: &mut Code) {
    let offset = code.bytes.len() + rng.pick(&[0, 0, 1, 600, 60_000]);
    add_map(code, offset, &[]);
}

/// The points of the instructions with these opcodes.
fn points_of(code: &Code, opcodes: &[u8]) -> Vec<usize> {
    starts(code).into_iter().filter(|&point| opcodes.contains(&code.bytes[point])).collect()
}

/// A local above 7, which the verifier rejects and the reading for 15 passes by.
fn a_bad_local(rng: &mut Rng, code: &mut Code) {
    let points = points_of(code, &[op::ILOAD, op::ALOAD, op::ISTORE, op::ASTORE]);
    if let Some(local) = points.first().and_then(|point| code.bytes.get_mut(point + 1)) {
        *local = rng.pick(&[8, 9, 255]);
    }
    if rng.percent(50) {
        without_a_map(rng, code);
    }
}

fn another_target(rng: &mut Rng, code: &mut Code) {
    let jumps = points_of(code, &[op::GOTO, op::IFEQ, op::IF_ICMPLT]);
    if jumps.is_empty() {
        return;
    }
    let (at, end) = (rng.pick(&jumps) + 1, code.bytes.len());
    let mapped: Vec<u16> = code.maps.iter().map(|map| map.offset).collect();
    let target = match rng.below(4) {
        0 => rng.word(),
        1 | 2 if !mapped.is_empty() => rng.pick(&mapped),
        _ => rng.below(end + 2) as u16,
    };
    if let Some(inline) = code.bytes.get_mut(at..at + 2) {
        inline.copy_from_slice(&target.to_be_bytes());
    }
}

fn an_unknown_opcode(rng: &mut Rng, code: &mut Code) {
    let starts = starts(code);
    if !starts.is_empty() {
        let at = rng.pick(&starts);
        code.bytes[at] = rng.pick(&[0xFF, 0x00, 0x9A, 0xA2, 0xA8, 0x69, 0x6D, 0x70]);
    }
}

/// Another count of arguments inline, 5 if there is one of 4; the types behind it stay.
fn another_count(rng: &mut Rng, code: &mut Code) {
    let counts: Vec<usize> = points_of(code, &[op::INVOKEVIRTUAL]).iter().map(|point| point + 5).collect();
    let four = counts.iter().copied().find(|&at| code.bytes.get(at) == Some(&4));
    if code.listed && !counts.is_empty() {
        let (at, count) = four.map_or_else(|| (rng.pick(&counts), rng.pick(&[0, 1, 2, 3, 4, 5, 6, 255])), |at| (at, 5));
        code.bytes.get_mut(at).into_iter().for_each(|byte| *byte = count);
    }
}

/// The end of the code cuts off a call: before its count, or within what follows it.
fn cut_list(rng: &mut Rng, code: &mut Code) {
    let calls = points_of(code, &[op::INVOKEVIRTUAL]);
    if !calls.is_empty() {
        code.bytes.truncate(rng.pick(&calls) + rng.within(5, 8));
    }
}

fn cut_off(rng: &mut Rng, code: &mut Code) {
    let length = code.bytes.len();
    code.bytes.truncate(length - rng.below(length.min(4)));
}

/// The last instruction isn't a goto or a return any more.
fn not_ended(rng: &mut Rng, code: &mut Code) {
    if let Some(&last) = starts(code).last() {
        code.bytes.truncate(last);
        code.bytes.push(rng.pick(&[op::ACONST_NULL, op::POP, op::DUP]));
    }
}
