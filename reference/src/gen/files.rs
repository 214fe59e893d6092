//! Files: good ones, mutated, cut off, random, and at the edges of the file rules.

use super::blueprint::{Blueprint, FIRST};
use super::build::{set_length, Code, Draft, MapDraft};
use super::rng::Rng;
use super::spoils::spoil;
use super::walk;
use crate::code::op;
use crate::store::INT;

/// A file, or bytes that might have been one.
pub fn file(seed: u64) -> Vec<u8> {
    let mut rng = Rng::new(seed ^ 0x66_69_6C_65);
    match rng.weighted(&[3, 5, 2, 1, 3, 3, 4, 2, 1]) {
        0 => good(&mut rng),
        1 => mutated(&mut rng),
        2 => cut(&mut rng),
        3 => {
            let length = rng.below(40);
            rng.bytes(length)
        }
        4 => edge(&mut rng),
        5 => random_code(&mut rng),
        6 => spoiled(&mut rng),
        7 => random_jumps(&mut rng),
        _ => random_calls(&mut rng),
    }
}

fn good(rng: &mut Rng) -> Vec<u8> {
    let blueprint = Blueprint::new(rng);
    let names = blueprint.names();
    let name = rng.pick(&names);
    blueprint.draft(rng, name).file()
}

/// A class of version 2 or 3 with two methods, spoiled or not.
fn spoiled(rng: &mut Rng) -> Vec<u8> {
    let blueprint = Blueprint::new(rng);
    let (own, version) = (blueprint.names()[0], rng.pick(&[2, 3]));
    let count = if version == 2 { 1 } else { rng.below(5) };
    let arguments: Vec<u16> = (0..count).map(|_| rng.pick(&[INT, FIRST, FIRST + 1])).collect();
    let mut codes: Vec<Code> = (0..2).map(|_| walk::method(rng, &blueprint, version, own, &arguments, INT)).collect();
    for _ in 0..rng.below(3) {
        let at = rng.below(2);
        spoil(rng, &mut codes[at]);
    }
    let [one, other] = &codes[..] else {
        unreachable!("two methods")
    };
    let draft = Draft { version, ..Draft::new(own) };
    draft.method_of(20, &arguments, INT, one).method_of(21, &arguments, INT, other).file()
}

fn mutated(rng: &mut Rng) -> Vec<u8> {
    let mut bytes = good(rng);
    for _ in 0..rng.within(1, 3) {
        let at = rng.below(bytes.len());
        match rng.below(6) {
            0 => bytes[at] = rng.draw() as u8,
            1 => bytes[at] ^= 1 << rng.below(8),
            2 => bytes[at] = bytes[at].wrapping_add(1),
            3 => bytes[at] = 0,
            4 => bytes.insert(at, rng.draw() as u8),
            _ => drop(bytes.remove(at)),
        }
        if bytes.len() < 4 {
            break;
        }
    }
    if rng.percent(60) {
        set_length(&mut bytes);
    }
    bytes
}

fn cut(rng: &mut Rng) -> Vec<u8> {
    let mut bytes = good(rng);
    let length = rng.below(bytes.len() + 1);
    bytes.truncate(length);
    if rng.percent(50) {
        set_length(&mut bytes);
    }
    if rng.percent(20) {
        bytes.push(0);
    }
    bytes
}

/// A file at one edge of the file rules, on one side or the other.
pub fn edge(rng: &mut Rng) -> Vec<u8> {
    let end = Code::new().end(INT);
    let many = |count: u16| (0..count).fold(Draft::new(10), |draft, i| draft.main(20 + i, &end));
    match rng.below(14) {
        0 => (0..rng.within(7, 9) as u16).fold(Draft::new(10), |draft, i| draft.field(30 + i, INT)).file(),
        1 => many(rng.within(7, 9) as u16).file(),
        2 => Draft::new(rng.below(4) as u16).under(rng.below(4) as u16).file(),
        3 => Draft::new(10).field(rng.below(3) as u16, rng.below(3) as u16).file(),
        4 => Draft::new(10).method(rng.below(2) as u16, INT, rng.below(3) as u16, &end).file(),
        5 => Draft::new(10).field(30, INT).field(30, rng.within(1, 11) as u16).file(),
        6 => Draft::new(10).main(20, &end).main(20 + rng.below(2) as u16, &end).file(),
        7 => Draft::new(10).main(20, &end).method(20, rng.within(1, 2) as u16, INT, &end).file(),
        8 => Draft::new(10).main(20, &padded(rng.within(510, 514))).file(),
        9 => Draft::new(10).main(20, &Code::new()).file(),
        10 => {
            let length = rng.within(4_094, 4_098);
            of_length(10, length)
        }
        11 => edge_of_maps(rng).file(),
        12 => edge_of_lists(rng),
        _ => {
            let mut bytes = many(1).file();
            bytes[0] = rng.below(5) as u8;
            bytes
        }
    }
}

/// Maps at one edge of the file rules: none or many, offsets that rise or don't, 15 to 17 operands, type 0.
fn edge_of_maps(rng: &mut Rng) -> Draft {
    let offset = rng.pick(&[0, 1, 2, 3, 0xFFFE, 0xFFFF]);
    let mut code = (0..rng.within(15, 17)).fold(Code::new(), |code, _| code.iload(1));
    match rng.below(5) {
        0 => code = of_maps(rng.within(192, 196)),
        1 => {
            let operands = vec![INT; code.bytes.len() / 2];
            code = code.map(&[10, INT], &operands);
        }
        2 => code.maps = [0, offset].map(|at| MapDraft::new(at, &[], &[])).to_vec(),
        3 => code.maps = [offset, 3].map(|at| MapDraft::new(at, &[], &[])).to_vec(),
        _ => code.maps = vec![MapDraft::new(0, &[10, INT], &[rng.below(2) as u16])],
    }
    Draft::mapped(10).main(20, &code.end(INT))
}

/// Lists at one edge of the file rules: 3 to 6 arguments, type 0, two methods alike or hardly, a count or its types cut off.
fn edge_of_lists(rng: &mut Rng) -> Vec<u8> {
    let (end, types) = (Code::listed().end(INT), [INT, 10, INT, 10, INT, 10]);
    let mut arguments = types[..rng.within(3, 6)].to_vec();
    match rng.below(4) {
        0 => Draft::listed(10).method_of(20, &arguments, INT, &end).file(),
        1 => {
            arguments.truncate(rng.within(1, 4));
            let at = rng.below(arguments.len());
            arguments[at] = rng.below(2) as u16;
            Draft::listed(10).method_of(20, &arguments, INT, &end).file()
        }
        2 => {
            let mut other = types[..rng.below(5)].to_vec();
            if rng.percent(30) {
                other.reverse();
            }
            arguments.truncate(rng.within(0, 4));
            Draft::listed(10).method_of(20, &arguments, INT, &end).method_of(20, &other, rng.pick(&[INT, INT, 10]), &end).file()
        }
        _ => {
            arguments.truncate(4);
            let mut bytes = Draft::listed(10).method_of(20, &arguments, INT, &end).file();
            bytes.truncate(rng.within(9, 24));
            set_length(&mut bytes);
            bytes
        }
    }
}

/// Code with so many maps: 194 are as many as a file has room for.
pub fn of_maps(count: usize) -> Code {
    (0..count).fold(Code::new(), |code, _| code.map(&[10, INT], &[]).null().pop())
}

/// Code of exactly so many bytes, 5 or more, that returns an int.
pub fn padded(length: usize) -> Code {
    let mut code = Code::new();
    let ending = 4 - length % 2;
    while code.bytes.len() + ending < length {
        code = code.null().pop();
    }
    if ending == 4 {
        code.int(0).ireturn()
    } else {
        code.iload(1).ireturn()
    }
}

/// A good file below Object of exactly so many bytes, from 22 to 4,098.
pub fn of_length(name: u16, length: usize) -> Vec<u8> {
    let methods = (length - 9).div_ceil(8 + 512);
    let mut left = length - 9 - 8 * methods;
    let mut draft = Draft::new(name);
    for i in (1..=methods).rev() {
        let code = padded(left / i);
        left -= code.bytes.len();
        draft = draft.main(20 + i as u16, &code);
    }
    draft.file()
}

/// Readable files whose code is drawn instruction by instruction with no regard to types.
fn random_code(rng: &mut Rng) -> Vec<u8> {
    let own = rng.pick(&[1, 3]);
    let mut code = Code::of_version(own);
    for _ in 0..rng.within(1, 8) {
        let version = if rng.percent(95) { own } else { 2 };
        let opcode = rng.pick(op::of(version));
        let mut name = || rng.pick(&[1, 2, 10, 11, 30]) - u16::from(rng.percent(3));
        code = match opcode {
            op::SIPUSH | op::NEW => code.names(opcode, &[name()]),
            op::IFEQ | op::IF_ICMPLT | op::GOTO => code.names(opcode, &[rng.below(12) as u16]),
            op::ILOAD | op::ALOAD | op::ISTORE | op::ASTORE => code.local(opcode, rng.below(9) as u8),
            op::GETFIELD | op::PUTFIELD => code.names(opcode, &[name(), name(), name()]),
            op::INVOKEVIRTUAL => {
                let (class, method, result, types) = (name(), name(), name(), [name(), name(), name(), name(), name()]);
                let count = if own < 3 { 1 } else { rng.pick(&[0, 1, 1, 2, 3, 4, 5]) };
                code.call(class, method, &types[..count], result)
            }
            _ => code.plain(opcode),
        };
    }
    let result = rng.pick(&[INT, 11]);
    let draft = Draft { version: own, ..Draft::new(10) };
    draft.method(20, rng.pick(&[INT, 10]), result, &code.end(result)).file()
}

/// Readable files of version 2 with a map at most instructions, each with names of its own, so that most flows make notes.
fn random_jumps(rng: &mut Rng) -> Vec<u8> {
    let mut code = Code::new().object(11).astore(2).object(12).astore(3);
    let count = rng.within(2, 7) as u16;
    for label in 0..count {
        let mut of = |usual: u16| if rng.percent(75) { usual } else { rng.pick(&[0, 1, 2, 11, 12, 13, 14]) };
        let locals = [of(10), of(INT), of(11), of(12)];
        code = if rng.percent(85) { code.point(label, &locals, &[]) } else { code.label(label) };
        let to = rng.below(usize::from(count)) as u16;
        code = match rng.below(8) {
            0 => code.goto(to),
            1 => code.iload(1).ifeq(to),
            2 => code.iload(1).int(rng.below(5) as i16).if_icmplt(to),
            3 => code.object(rng.pick(&[10, 11, 12])).astore(2),
            4 => code.null().astore(rng.pick(&[2, 3])),
            5 if rng.percent(50) => code.iload(1).int(3).plain(rng.pick(&[op::IMUL, op::IDIV])).istore(1),
            5 => code.aload(2).pop(),
            6 => code.aload(0).null().putfield(rng.pick(&[12, 13]), 30, 12),
            _ => code.end(INT),
        };
    }
    code = if rng.percent(90) { code.end(INT) } else { code };
    code = if rng.percent(20) { code.plain(0xFF) } else { code };
    Draft::mapped(10).main(20, &code).file()
}

/// Readable files of version 3 with a few calls: operands that fit mostly, other names than the lists say, now and then a count of 5.
fn random_calls(rng: &mut Rng) -> Vec<u8> {
    let mut code = Code::listed();
    for _ in 0..rng.within(1, 3) {
        let types: Vec<u16> = (0..rng.within(0, 4)).map(|_| rng.pick(&[INT, 11, 12, 13])).collect();
        code = code.object(rng.pick(&[10, 11]));
        for &of in &types {
            let of = if rng.percent(95) { of } else { rng.pick(&[INT, 11]) };
            code = if of == INT { code.iload(1) } else { code.object(rng.pick(&[of, 12, 14])) };
        }
        let at = code.bytes.len() + 5;
        code = code.call(10, 21, &types, INT).pop();
        if rng.percent(15) {
            code.bytes[at] = rng.pick(&[types.len() as u8 + 1, 5]);
        }
    }
    Draft::listed(10).main(20, &code.end(INT)).file()
}
