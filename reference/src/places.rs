//! The desk's number with the place of a 6 or 15: the first method, by its number in the file's order, at which the check fails, and the
//! point of its code. docs/HOST.md says which point that is.

use crate::answer::word;
use crate::code::decode;
use crate::file::{File, Method, MAPPED};
use crate::verifier::{flow, follow, Mapped, Types};

/// Number, method and point; of a 0 or 2 there is no place, and both are 0.
pub fn check_at(bytes: &[u8]) -> [u32; 3] {
    let Some(file) = File::read(bytes) else {
        return [word::FILE.into(), 0, 0];
    };
    let own_name = file.name();
    let lacks = first(file, |method| (method.version >= MAPPED).then(|| lack(method))?);
    let stops = || first(file, |method| stop(own_name, method));
    match lacks.map(|place| (word::UNMAPPED, place)).or_else(|| stops().map(|place| (word::UNVERIFIED, place))) {
        Some((number, (method, point))) => [number.into(), method, point],
        None => [0; 3],
    }
}

/// The first method that has such a point.
fn first(file: File, point: impl Fn(Method) -> Option<usize>) -> Option<(u32, u32)> {
    file.methods().zip(0..).find_map(|(method, number)| Some((number, point(method)? as u32)))
}

/// The instruction that has no map where it follows a goto or return, or whose target has none, before the first that can't be read.
fn lack(method: Method) -> Option<usize> {
    let mapped = Mapped::new(method);
    let (mut point, mut follows_an_end) = (0, false);
    while let Some((instruction, next)) = decode(method.version, method.code, point) {
        let bare = |offset: usize| mapped.at(offset).is_none();
        if (follows_an_end && bare(point)) || instruction.target().is_some_and(bare) {
            return Some(point);
        }
        follows_an_end = instruction.ends_path();
        point = next;
    }
    None
}

/// The point at which the walk over a method stands when it stops, if it isn't accepted.
fn stop(own_name: u16, method: Method) -> Option<usize> {
    let (mapped, end) = (Mapped::new(method), method.code.len());
    let offsets: Vec<usize> = method.maps().map(|map| map.offset()).collect();
    let mut types = Types::at_point_0(own_name, method.signature.arguments.types());
    let (mut point, mut behind) = (0, 0);
    if let Some(map) = mapped.at(0) {
        if flow(&types, map, &mut |_, _| ()).is_err() {
            return Some(0);
        }
        types = Types::of_map(map);
    }
    loop {
        match offsets.get(behind) {
            Some(&offset) if offset < point => return Some(point),
            Some(&offset) if offset == point => behind += 1,
            _ => {}
        }
        let Some((instruction, next)) = decode(method.version, method.code, point) else {
            return Some(point);
        };
        if follow(&mut types, instruction, method.signature.result, &mut |_, _| ()).is_err() {
            return Some(point);
        }
        if let Some(target) = instruction.target() {
            if !mapped.at(target).is_some_and(|map| flow(&types, map, &mut |_, _| ()).is_ok()) {
                return Some(point);
            }
        }
        let map = mapped.at(next);
        if instruction.ends_path() {
            if next == end {
                return (behind < offsets.len()).then_some(end);
            }
            if map.is_none() {
                return Some(point);
            }
        } else if map.is_some_and(|map| flow(&types, map, &mut |_, _| ()).is_err()) {
            return Some(point);
        }
        types = map.map_or(types, Types::of_map);
        point = next;
    }
}

#[cfg(test)]
mod tests {
    use super::check_at;

    /// Class 10 of that version with one method 20 from int to int.
    fn file(version: u8, code: &[u8], maps: &[u8]) -> Vec<u8> {
        let mut bytes = vec![version, 0, 0, 0, 10, 0, 2, 0, 1, 0, 20, 0, 1, 0, 1, 0, code.len() as u8];
        bytes.extend(code.iter().chain(maps));
        bytes[2] = bytes.len() as u8 - 3;
        bytes
    }

    fn map(offset: u8, two: u8) -> Vec<u8> {
        let mut map = vec![0; 19];
        (map[1], map[5]) = (offset, two);
        map
    }

    #[test]
    fn the_place_is_the_one_written_down() {
        let one = |offset, two| [vec![1], map(offset, two)].concat();
        assert_eq!(check_at(&[0; 4]), [2, 0, 0]);
        assert_eq!(check_at(&file(1, &[0x15, 1, 0xAC], &[])), [0, 0, 0]);
        assert_eq!(check_at(&file(1, &[0x15, 1, 0x57, 0x57, 0x15, 1, 0xAC], &[])), [6, 0, 3]);
        assert_eq!(check_at(&file(1, &[0x15, 1], &[])), [6, 0, 2], "off the end");
        assert_eq!(check_at(&file(1, &[0x15, 1, 0xAC, 0x01], &[])), [6, 0, 2], "behind a return");
        assert_eq!(check_at(&file(2, &[0x15, 1, 0xAC], &one(1, 1))), [6, 0, 2], "a map within an instruction");
        assert_eq!(check_at(&file(2, &[0x15, 1, 0xAC], &one(3, 1))), [6, 0, 3], "a map left");
        assert_eq!(check_at(&file(2, &[0x15, 1, 0xAC, 0x15, 1, 0xAC], &[0])), [15, 0, 3], "behind a return, unmapped");
        assert_eq!(check_at(&file(2, &[0x15, 1, 0x99, 0, 5, 0x15, 1, 0xAC], &[0])), [15, 0, 2], "a target, unmapped");
    }
}
