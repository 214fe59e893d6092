//! Word 15, the verifier and its notes in the plainest way: a map is looked for among all maps, and each flow is gone through by itself. It is
//! right, or has one slip, as a machine may have it.

use crate::answer::word;
use crate::code::{decode, op, Instruction};
use crate::file::{File, Map, Method, LISTED, MAPPED};
use crate::signature::{Arguments, Signature};
use crate::store::{INT, OBJECT};
use crate::verifier::{follow, Type, Types};

/// What goes wrong.
#[derive(Clone, Copy, Debug, PartialEq, Eq)]
pub enum Slip {
    Nothing,
    /// Offsets count from the instruction.
    OffsetsFromTheInstruction,
    /// 15 comes after 6, or method by method, or not at all.
    UnmappedLast,
    UnmappedByMethod,
    NoUnmapped,
    /// An instruction that can't be read needs a map behind a goto or return.
    UnreadableNeedsMap,
    /// An inline name 0, a class below 2 or a local above 7 ends the reading for 15.
    BadNamesEndTheReading,
    /// Version 1 is read for 15 as version 2 is.
    UnmappedInVersion1,
    /// Version 1 knows imul and idiv.
    RatesInVersion1,
    /// Flows that nobody checks.
    Target,
    Entry,
    Next,
    OperandCounts,
    UnsetForInt,
    UnsetForClass,
    /// A local doesn't become unset, null doesn't meet a map's name.
    SetStaysSet,
    NullMeetsNothing,
    /// Notes in another order.
    NextBeforeTarget,
    EntryLast,
    OwnLast,
    OperandsBeforeLocals,
    /// 'What the map says below what flows.'
    NotesUpsideDown,
    /// The flow's types stand at a mapped point.
    WalksTypes,
    MapsInside,
    MapsBehind,
    OffTheEnd,
    /// What nothing jumps to behind a goto or return isn't verified.
    DeadCode,
    /// A return is the last instruction in version 2 too.
    ReturnsLast,
    /// The arguments are taken in reverse, or only the last one is looked at, or the notes of a call come in reverse.
    ArgumentsReversed,
    LastArgumentAlone,
    CallsNotesReversed,
    /// The arguments are local 0 and so on.
    LocalsFrom0,
    /// An inline count of 5 is taken for 4.
    CountOf5,
}

/// The slips, with the name of the machine that has it.
pub const SLIPS: [(&str, Slip); 32] = [
    ("offsets-from-the-instruction", Slip::OffsetsFromTheInstruction),
    ("unmapped-after-unverified", Slip::UnmappedLast),
    ("unmapped-method-by-method", Slip::UnmappedByMethod),
    ("unmapped-is-unverified", Slip::NoUnmapped),
    ("unreadable-needs-a-map", Slip::UnreadableNeedsMap),
    ("bad-names-end-the-reading", Slip::BadNamesEndTheReading),
    ("unmapped-in-version-one", Slip::UnmappedInVersion1),
    ("rates-in-version-one", Slip::RatesInVersion1),
    ("flow-to-the-target-not-checked", Slip::Target),
    ("flow-from-entry-not-checked", Slip::Entry),
    ("flow-to-the-next-not-checked", Slip::Next),
    ("operand-counts-not-compared", Slip::OperandCounts),
    ("unset-for-int", Slip::UnsetForInt),
    ("unset-for-a-class", Slip::UnsetForClass),
    ("a-set-local-stays-set", Slip::SetStaysSet),
    ("null-meets-no-map", Slip::NullMeetsNothing),
    ("next-before-target", Slip::NextBeforeTarget),
    ("entry-last", Slip::EntryLast),
    ("own-notes-last", Slip::OwnLast),
    ("operands-before-locals", Slip::OperandsBeforeLocals),
    ("notes-upside-down", Slip::NotesUpsideDown),
    ("walks-types-after-a-join", Slip::WalksTypes),
    ("maps-inside-instructions", Slip::MapsInside),
    ("maps-behind-the-code", Slip::MapsBehind),
    ("off-the-end", Slip::OffTheEnd),
    ("dead-code-not-verified", Slip::DeadCode),
    ("returns-stand-last", Slip::ReturnsLast),
    ("verifies-arguments-in-reverse", Slip::ArgumentsReversed),
    ("verifies-the-last-argument-alone", Slip::LastArgumentAlone),
    ("notes-of-a-call-in-reverse", Slip::CallsNotesReversed),
    ("locals-from-zero", Slip::LocalsFrom0),
    ("a-count-of-five-is-taken", Slip::CountOf5),
];

/// A requirement 'a below b'.
pub type Note = (u16, u16);
/// A point, its instruction, the next point.
type Line = (usize, Instruction, usize);

/// The notes of a file that reads, or the word that refuses it.
pub fn judged(file: File, slip: Slip) -> Result<Vec<Note>, u8> {
    let is_unmapped = |method: &Method| {
        (method.version >= MAPPED || slip == Slip::UnmappedInVersion1) && slip != Slip::NoUnmapped && unmapped(*method, slip)
    };
    if ![Slip::UnmappedLast, Slip::UnmappedByMethod].contains(&slip) && file.methods().any(|method| is_unmapped(&method)) {
        return Err(word::UNMAPPED);
    }
    let mut notes = Vec::new();
    for method in file.methods() {
        if slip == Slip::UnmappedByMethod && is_unmapped(&method) {
            return Err(word::UNMAPPED);
        }
        notes.extend(verified(file.name(), method, slip).ok_or(word::UNVERIFIED)?);
    }
    if file.methods().any(|method| is_unmapped(&method)) {
        return Err(word::UNMAPPED);
    }
    Ok(notes)
}

/// The instructions as far as they can be read, and whether that is all.
fn lines(method: Method, slip: Slip) -> (Vec<Line>, bool) {
    let (mut all, mut point) = (Vec::new(), 0);
    while let Some((instruction, next)) = read(method, point, slip) {
        all.push((point, instruction, next));
        point = next;
    }
    (all, point == method.code.len())
}

fn read(method: Method, point: usize, slip: Slip) -> Option<(Instruction, usize)> {
    let is_rate = [op::IMUL, op::IDIV].map(Some).contains(&method.code.get(point).copied());
    let is_later = slip == Slip::UnmappedInVersion1 || (slip == Slip::RatesInVersion1 && is_rate);
    let is_listed = method.version >= LISTED && method.code.get(point) == Some(&op::INVOKEVIRTUAL);
    if slip == Slip::CountOf5 && is_listed && method.code.get(point + 5) == Some(&5) {
        let four = [&method.code[..point + 5], &[4], &method.code[point + 6..]].concat();
        return decode(method.version, &four, point);
    }
    decode(if is_later { method.version.max(MAPPED) } else { method.version }, method.code, point)
}

fn map_at(method: Method, offset: usize) -> Option<Map> {
    method.maps().find(|map| map.offset() == offset)
}

fn target((point, instruction, _): Line, slip: Slip) -> Option<usize> {
    let from = if slip == Slip::OffsetsFromTheInstruction { point } else { 0 };
    instruction.target().map(|target| (from + target) % (1 << 16))
}

fn is_badly_named(instruction: Instruction) -> bool {
    match instruction {
        Instruction::Iload(local) | Instruction::Aload(local) | Instruction::Istore(local) | Instruction::Astore(local) => local > 7,
        Instruction::Getfield(at) | Instruction::Putfield(at) => at.class < 2 || at.field == 0 || at.of == 0,
        Instruction::Invokevirtual(at) => at.class < 2 || at.signature.has_name_0(),
        Instruction::New(class) => class < 2,
        _ => false,
    }
}

/// Is there a target, or an instruction behind a goto or return, without a map?
fn unmapped(method: Method, slip: Slip) -> bool {
    let (mut all, _) = lines(method, slip);
    if slip == Slip::BadNamesEndTheReading {
        let bad = all.iter().position(|line| is_badly_named(line.1)).unwrap_or(all.len());
        all.truncate(bad);
    }
    let is_read = |point: usize| all.iter().any(|line| line.0 == point);
    let is_needed = |point: usize| is_read(point) || (slip == Slip::UnreadableNeedsMap && point < method.code.len());
    all.iter().any(|&line| {
        let target = target(line, slip).is_some_and(|target| map_at(method, target).is_none());
        target || (line.1.ends_path() && is_needed(line.2) && map_at(method, line.2).is_none())
    })
}

/// Does each map stand at an instruction's start?
fn maps_stand(method: Method, all: &[Line], slip: Slip) -> bool {
    method.maps().all(|map| {
        let offset = map.offset();
        let is_let_by = if offset < method.code.len() { slip == Slip::MapsInside } else { slip == Slip::MapsBehind };
        is_let_by || all.iter().any(|line| line.0 == offset)
    })
}

/// The note that a type makes where a map demands one, if it makes any; nothing if it doesn't fit.
fn met(stands: Type, demanded: u16, slip: Slip) -> Option<Vec<Note>> {
    let fits = match (stands, demanded) {
        (Type::Unset, 0) => true,
        (_, 0) => slip != Slip::SetStaysSet,
        (Type::Unset, INT) => slip == Slip::UnsetForInt,
        (Type::Unset, _) => slip == Slip::UnsetForClass,
        (Type::Int, _) => demanded == INT,
        (Type::Null, _) => demanded != INT && slip != Slip::NullMeetsNothing,
        (Type::Class(_), _) => demanded != INT,
    };
    fits.then(|| match stands {
        Type::Class(name) if demanded != 0 && demanded != name => {
            vec![if slip == Slip::NotesUpsideDown { (demanded, name) } else { (name, demanded) }]
        }
        _ => Vec::new(),
    })
}

/// The notes of a flow into a map; nothing if it doesn't fit.
fn flowed(types: &Types, map: Map, slip: Slip) -> Option<Vec<Note>> {
    if types.operands().len() != map.operand_count() && slip != Slip::OperandCounts {
        return None;
    }
    let each = |stands: &[Type], demanded: Vec<u16>| -> Option<Vec<Note>> {
        let all: Option<Vec<Vec<Note>>> = stands.iter().zip(demanded).map(|(&stands, of)| met(stands, of, slip)).collect();
        Some(all?.concat())
    };
    let (locals, operands) = (each(&types.locals, map.locals().collect())?, each(types.operands(), map.operands().collect())?);
    Some(if slip == Slip::OperandsBeforeLocals { [operands, locals].concat() } else { [locals, operands].concat() })
}

/// The notes of the flow from a line to its target, and to the next; nothing if one doesn't fit or runs off the end.
fn flows(method: Method, line: Line, types: &Types, slip: Slip) -> Option<[Vec<Note>; 2]> {
    let (_, instruction, next) = line;
    let to_target = match target(line, slip).filter(|_| slip != Slip::Target) {
        Some(target) => match map_at(method, target) {
            None if slip == Slip::UnmappedLast => Vec::new(),
            map => flowed(types, map?, slip)?,
        },
        None => Vec::new(),
    };
    if instruction.ends_path() {
        return Some([to_target, Vec::new()]);
    }
    if next == method.code.len() {
        return (slip == Slip::OffTheEnd).then_some([to_target, Vec::new()]);
    }
    let map = map_at(method, next).filter(|_| slip != Slip::Next);
    Some([to_target, map.map_or(Some(Vec::new()), |map| flowed(types, map, slip))?])
}

/// The types at a line: its map's, or what flows there if anything does.
fn types_at(line: Line, flowing: Option<Types>, method: Method, slip: Slip) -> Option<Types> {
    match (map_at(method, line.0), flowing) {
        (Some(map), None) => Some(Types::of_map(map)),
        (Some(map), Some(_)) if slip != Slip::WalksTypes => Some(Types::of_map(map)),
        (_, flowing) => flowing,
    }
}

/// What a slip about arguments takes a call for.
fn taken_for(instruction: Instruction, types: &Types, slip: Slip) -> Instruction {
    let Instruction::Invokevirtual(mut at) = instruction else {
        return instruction;
    };
    let mut list = at.signature.arguments.types().to_vec();
    let count = list.len();
    match slip {
        Slip::ArgumentsReversed => list.reverse(),
        Slip::LastArgumentAlone if count > 1 && count <= types.operands().len() => {
            let stand = &types.operands()[types.operands().len() - count..];
            list.iter_mut().zip(stand).take(count - 1).for_each(|(of, &stands)| *of = own_type(stands));
        }
        _ => {}
    }
    at.signature = Signature { arguments: Arguments::new(&list), ..at.signature };
    Instruction::Invokevirtual(at)
}

/// A type that something of this one meets without a note.
fn own_type(stands: Type) -> u16 {
    match stands {
        Type::Int => INT,
        Type::Class(name) => name,
        _ => OBJECT,
    }
}

/// The notes of a line in their order, and the types behind it; nothing if it is rejected.
fn line_notes(method: Method, line: Line, mut types: Types, slip: Slip) -> Option<(Vec<Note>, Types)> {
    let mut own = Vec::new();
    let instruction = taken_for(line.1, &types, slip);
    follow(&mut types, instruction, method.signature.result, &mut |lower, higher| own.push((lower, higher))).ok()?;
    if slip == Slip::CallsNotesReversed && matches!(instruction, Instruction::Invokevirtual(_)) {
        own.reverse();
    }
    let stands_last = method.version < MAPPED || slip == Slip::ReturnsLast;
    let is_return = matches!(line.1, Instruction::Ireturn | Instruction::Areturn);
    if stands_last && is_return && line.2 < method.code.len() {
        return None;
    }
    let [to_target, to_next] = flows(method, line, &types, slip)?;
    let notes = match slip {
        Slip::NextBeforeTarget => [own, to_next, to_target].concat(),
        Slip::OwnLast => [to_target, to_next, own].concat(),
        _ => [own, to_target, to_next].concat(),
    };
    Some((notes, types))
}

/// The notes of a method; nothing if it is rejected.
fn verified(own_name: u16, method: Method, slip: Slip) -> Option<Vec<Note>> {
    let (all, is_all) = lines(method, slip);
    if !is_all || !maps_stand(method, &all, slip) {
        return None;
    }
    let mut types = Types::at_point_0(own_name, method.signature.arguments.types());
    if slip == Slip::LocalsFrom0 {
        types.locals.rotate_left(1);
    }
    let entry = map_at(method, 0).filter(|_| slip != Slip::Entry).map_or(Some(Vec::new()), |map| flowed(&types, map, slip))?;
    let (mut rest, mut flowing) = (Vec::new(), Some(types));
    for (place, &line) in all.iter().enumerate() {
        let is_dead = flowing.is_none() && !all[..place].iter().any(|&jump| target(jump, slip) == Some(line.0));
        if is_dead && (slip == Slip::DeadCode || (slip == Slip::UnmappedLast && map_at(method, line.0).is_none())) {
            continue;
        }
        let (notes, types) = line_notes(method, line, types_at(line, flowing, method, slip)?, slip)?;
        rest.extend(notes);
        flowing = (!line.1.ends_path()).then_some(types);
    }
    Some(if slip == Slip::EntryLast { [rest, entry].concat() } else { [entry, rest].concat() })
}
