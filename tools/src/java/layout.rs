//! Code laid out anew: points, jumps from the start of the code, and a map wherever a jump goes and behind a goto or return.

use reference::gen::build::MapDraft;
use reference::store::INT;

use super::decode::{Instruction, Op};
use super::flow::{Kind, LOCALS};
use super::lower::{astray, Begin, Lowered, Source, Step};
use super::types::{self, package};
use super::world::World;

/// A method's code on the box.
pub struct Laid {
    pub code: Vec<u8>,
    pub maps: Vec<MapDraft>,
    /// The points at which a Java line begins, with the line, by rising point.
    pub lines: Vec<(u16, u16)>,
}

pub fn lay_out(lowered: &Lowered, source: &Source, world: &mut World) -> Step<Laid> {
    let mut points: Vec<usize> = Vec::new();
    let mut length = 0;
    for item in &lowered.items {
        points.push(length);
        length += item.bytes.len();
    }
    let mut targets = vec![false; lowered.items.len()];
    let mut code = Vec::new();
    for (i, item) in lowered.items.iter().enumerate() {
        let mut bytes = item.bytes.clone();
        if let Some(place) = item.jump {
            let target = begin_of(lowered, place)?;
            let point = points.get(target).copied().ok_or_else(|| astray("a jump behind the code"))?;
            targets[target] = true;
            bytes.truncate(1);
            bytes.extend((point as u16).to_be_bytes());
        }
        code.extend(bytes);
        if item.ends_path() && i + 1 < targets.len() {
            targets[i + 1] = true;
        }
    }
    let mut maps = Vec::new();
    for (item, _) in targets.iter().enumerate().filter(|(_, is_target)| **is_target) {
        let begin = lowered.begins.iter().rfind(|begin| begin.item == item).ok_or_else(|| astray("a point without a stack map"))?;
        maps.push(map(begin, points[item], source, world)?);
    }
    Ok(Laid { code, maps, lines: lines(lowered, &points) })
}

/// The first item of the code at a place.
fn begin_of(lowered: &Lowered, place: usize) -> Step<usize> {
    let at = lowered.begins.binary_search_by_key(&place, |begin| begin.place);
    at.map(|at| lowered.begins[at].item).map_err(|_| astray("a jump to a point without a stack map"))
}

/// The locals that are read later, and all operands.
fn map(begin: &Begin, point: usize, source: &Source, world: &mut World) -> Step<MapDraft> {
    let home = package(source.class).to_string();
    let live = source.live[begin.place];
    let mut map = MapDraft { offset: point as u16, ..MapDraft::default() };
    for (local, number) in map.locals.iter_mut().enumerate().take(LOCALS).filter(|(local, _)| live & 1 << local != 0) {
        *number = match begin.state.local(local) {
            Kind::Int => INT,
            Kind::Class(name) => world.class(name, &home)?,
            Kind::Null | Kind::Unset => 0,
        };
    }
    for (place, kind) in begin.state.operands.iter().enumerate() {
        map.operands.push(match kind {
            Kind::Int => INT,
            Kind::Class(name) => world.class(name, &home)?,
            Kind::Null => world.class(&demanded(source, begin, place), &home)?,
            Kind::Unset => return Err(astray("an operand without a type")),
        });
    }
    Ok(map)
}

/// The class that is demanded of an operand where it is taken: a map can't say null.
fn demanded(source: &Source, begin: &Begin, operand: usize) -> String {
    let mut place = begin.place;
    let mut height = begin.state.operands.len();
    for _ in 0..source.instructions.len() {
        let Some(Instruction { op, .. }) = source.instructions.get(place) else {
            break;
        };
        let (taken, left) = effect(op);
        let lowest = height.saturating_sub(taken);
        if lowest <= operand {
            return demand(op, source, operand - lowest).unwrap_or(types::OBJECT.into());
        }
        height = lowest + left;
        place = match op {
            Op::Goto(target) => source.place(*target).unwrap_or(usize::MAX),
            _ => place + 1,
        };
    }
    types::OBJECT.into()
}

/// How many operands an instruction takes and leaves.
fn effect(op: &Op) -> (usize, usize) {
    match op {
        Op::Nothing | Op::Increase(..) | Op::Goto(_) | Op::Return | Op::Refused(_) => (0, 0),
        Op::Null | Op::Int(_) | Op::LoadInt(_) | Op::LoadReference(_) | Op::New(_) => (0, 1),
        Op::StoreInt(_) | Op::StoreReference(_) | Op::If(..) | Op::Switch { .. } | Op::ReturnInt | Op::ReturnReference => (1, 0),
        Op::Pop(count) => (*count, 0),
        Op::Dup => (1, 2),
        Op::Shuffle((taken, left)) => (*taken, left.len()),
        Op::Add | Op::Sub | Op::Mul | Op::Div | Op::Rem => (2, 1),
        Op::Neg | Op::Get(_) => (1, 1),
        Op::IfTwo(..) | Op::Put(_) => (2, 0),
        Op::Call(at) | Op::CallItself(at) => types::method(&at.descriptor).map_or((1, 0), |descriptor| {
            (descriptor.arguments.len() + 1, usize::from(descriptor.result.is_some()))
        }),
    }
}

/// The class that an instruction demands of one of the operands that it takes, counted from the lowest.
fn demand(op: &Op, source: &Source, operand: usize) -> Option<String> {
    let class = |of: Option<&types::JavaType>| match of {
        Some(types::JavaType::Class(name)) => Some(name.clone()),
        _ => None,
    };
    match op {
        Op::ReturnReference => class(source.descriptor.result.as_ref()),
        Op::Get(at) | Op::Put(at) | Op::Call(at) | Op::CallItself(at) if operand == 0 => Some(at.class.clone()),
        Op::Put(at) => class(types::field(&at.descriptor).as_ref()),
        Op::Call(at) | Op::CallItself(at) => class(types::method(&at.descriptor)?.arguments.get(operand - 1)),
        _ => None,
    }
}

/// Where the Java line changes.
fn lines(lowered: &Lowered, points: &[usize]) -> Vec<(u16, u16)> {
    let mut all: Vec<(u16, u16)> = Vec::new();
    for (item, &point) in lowered.items.iter().zip(points) {
        if let Some(line) = item.line.filter(|line| all.last().map(|last| last.1) != Some(*line)) {
            all.push((point as u16, line));
        }
    }
    all
}
