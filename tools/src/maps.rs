//! A map that fits what flows to a point, to be proposed where one is missing or doesn't fit.

use std::collections::BTreeMap;

use reference::code::decode;
use reference::file::{Map, Method};
use reference::store::OBJECT;
use reference::verifier::{follow, Type, Types};

use crate::names::Names;

/// The map at a point as the text form writes it, with the types of all that comes there, as far as it can be followed; from entry, if
/// nothing does.
pub fn proposed(own_name: u16, method: Method, point: usize, names: &Names) -> String {
    let from_entry = || Types::at_point_0(own_name, method.signature.arguments.types());
    let types = flows(own_name, method, point).unwrap_or_else(from_entry);
    let written = |of: Type| match of {
        Type::Unset => "-".to_string(),
        Type::Int => "int".into(),
        // a map has no word for null, which fits any class
        Type::Null => names.class(OBJECT),
        Type::Class(name) => names.class(name),
    };
    let set = types.locals.iter().rposition(|&of| of != Type::Unset).map_or(0, |last| last + 1);
    let list = |types: &[Type]| types.iter().map(|&of| written(of)).collect::<Vec<_>>().join(" ");
    format!("map [{}] {{{}}}", list(types.operands()), list(&types.locals[..set]))
}

/// The types that come to a point, from entry on, whatever map stands there.
fn flows(own_name: u16, method: Method, wanted: usize) -> Option<Types> {
    let map_at = |point: usize| -> Option<Map> { method.maps().find(|map| map.offset() == point && point != wanted) };
    let mut known = BTreeMap::from([(0, Types::at_point_0(own_name, method.signature.arguments.types()))]);
    let mut left = vec![0];
    while let Some(point) = left.pop() {
        let mut types = map_at(point).map_or_else(|| known[&point].clone(), Types::of_map);
        let Some((instruction, next)) = decode(method.version, method.code, point) else {
            continue;
        };
        if follow(&mut types, instruction, method.signature.result, &mut |_, _| ()).is_err() {
            continue;
        }
        let goes_on = (!instruction.ends_path()).then_some(next);
        for to in instruction.target().into_iter().chain(goes_on) {
            let merged = known.get(&to).map_or_else(|| types.clone(), |there| merged(there, &types));
            if known.get(&to) != Some(&merged) {
                known.insert(to, merged);
                left.push(to);
            }
        }
    }
    known.remove(&wanted)
}

/// Types that both fit, as far as locals go; of operands the first ones stay.
fn merged(one: &Types, other: &Types) -> Types {
    let mut types = one.clone();
    for (local, &also) in types.locals.iter_mut().zip(&other.locals) {
        *local = match (*local, also) {
            (same, also) if same == also => same,
            (Type::Null, Type::Class(name)) | (Type::Class(name), Type::Null) => Type::Class(name),
            (Type::Class(_), Type::Class(_)) => Type::Class(OBJECT),
            _ => Type::Unset,
        };
    }
    types
}
