//! Files of version 3 by hand, by the desk's number for them: counts and types of arguments in methods and inline, fine, wrong and cut off.

use super::build::{set_length, Code, Draft};
use crate::code::op;
use crate::signature::MOST_ARGUMENTS;
use crate::store::INT;

const NAMES: [u16; 5] = [11, INT, 12, 13, 14];

fn c() -> Code {
    Code::listed()
}

/// A class 10 of version 3 with one method from int to int.
fn main(code: Code) -> Draft {
    Draft::listed(10).main(20, &code)
}

/// Null as the receiver, and then a null or an int for each of these types.
fn operands(types: &[u16]) -> Code {
    types.iter().fold(c().null(), |code, &of| if of == INT { code.int(0) } else { code.null() })
}

/// A call with a count that needn't be that of the types behind it.
fn counted(code: Code, count: u8, types: &[u16]) -> Code {
    let mut code = code.names(op::INVOKEVIRTUAL, &[10, 21]);
    code.bytes.push(count);
    types.iter().for_each(|of| code.bytes.extend(of.to_be_bytes()));
    code
}

/// Calls with too many arguments, right for an instruction that counts them all.
fn too_many() -> Vec<Code> {
    let five = counted(operands(&NAMES), 5, &[&NAMES[..], &[INT]].concat()).ireturn();
    // a machine that takes no more than four reads on in the middle of the list
    let four = counted(operands(&NAMES[..4]), 5, &[&NAMES[..4], &[INT]].concat()).ireturn();
    let mut all = vec![five, four];
    all.extend([6, 7, 0x10, 0x7F, 0x80, 0xFF].map(|count| counted(operands(&[]), count, &[INT; 3]).ireturn()));
    all
}

/// A call cut off at every byte behind its opcode.
fn cut_off() -> Vec<Code> {
    let mut all = Vec::new();
    for count in 0..=MOST_ARGUMENTS {
        let types = &NAMES[..count];
        let (before, whole) = (operands(types), operands(types).call(10, 21, types, INT));
        all.extend((before.bytes.len() + 1..whole.bytes.len()).map(|end| Code::of(whole.bytes[..end].to_vec())));
    }
    all
}

/// Operands that don't fit the list, one place at a time.
fn misfits() -> Vec<Code> {
    let mut all = Vec::new();
    for count in 0..=MOST_ARGUMENTS {
        let types = &NAMES[..count];
        for place in 0..count {
            let mut wrong = types.to_vec();
            wrong[place] = if types[place] == INT { 11 } else { INT };
            all.push(operands(&wrong).call(10, 21, types, INT).ireturn());
            let mut zero = types.to_vec();
            zero[place] = 0;
            all.push(operands(types).call(10, 21, &zero, INT).ireturn());
        }
        let missing = types.iter().fold(c(), |code, &of| if of == INT { code.int(0) } else { code.null() });
        all.push(missing.call(10, 21, types, INT).ireturn());
        all.push(operands(types).call(1, 21, types, INT).ireturn());
        all.push(operands(types).call(10, 0, types, INT).ireturn());
        all.push(operands(types).call(10, 21, types, 0).pop().end(INT));
        // an int for the receiver
        all.push(types.iter().fold(c().int(0), |code, &of| if of == INT { code.int(0) } else { code.null() }).call(10, 21, types, INT).ireturn());
    }
    all
}

/// The desk says 0.
pub fn taken() -> Vec<Draft> {
    let mut all = vec![Draft::listed(10), main(c().end(INT))];
    for count in 0..=MOST_ARGUMENTS {
        let types = &NAMES[..count];
        all.push(main(operands(types).call(10, 21, types, INT).ireturn()));
        all.push(main(operands(types).call(10, 21, types, 11).pop().end(INT)));
        all.push(Draft::listed(10).method_of(20, types, INT, &c().end(INT)));
        let used = types.iter().zip(1..).fold(c(), |code, (&of, local)| if of == INT { code.iload(local).pop() } else { code.aload(local).pop() });
        all.push(Draft::listed(10).method_of(20, types, INT, &used.end(INT)));
        // each argument is of another class than the list says
        let objects = types.iter().fold(c().object(30), |code, &of| if of == INT { code.int(0) } else { code.object(of + 20) });
        all.push(main(objects.call(10, 21, types, INT).ireturn()));
        let mapped = operands(types).map(&[10, INT], &[&[10][..], types].concat());
        all.push(main(mapped.call(10, 21, types, INT).map(&[], &[INT]).ireturn()));
    }
    let alike = [&[][..], &[INT], &[INT, INT], &[11], &[11, INT], &[INT, 11], &[INT, INT, INT], &[INT, INT, INT, INT]];
    all.push(alike.iter().fold(Draft::listed(10), |draft, types| draft.method_of(20, types, INT, &c().end(INT))));
    all
}

/// The desk says 15: what can't be read ends the reading, and a want before it counts.
pub fn unmapped() -> Vec<Draft> {
    let mut all: Vec<Draft> = Vec::new();
    for count in 0..=MOST_ARGUMENTS {
        let types = &NAMES[..count];
        all.push(main(c().end(INT).call(10, 21, types, INT).ireturn()));
        all.push(main(operands(types).call(10, 21, types, INT).ireturn().null().areturn()));
    }
    all.push(main(counted(c().end(INT).null().pop(), 5, &[INT; 6]).ireturn()));
    all.push(main(counted(c().names(op::GOTO, &[3]), 5, &[INT; 6]).ireturn()));
    all.extend([0, 1, 4].map(|count| main(counted(c().end(INT).null(), count, &[]))));
    all
}

/// The desk says 6.
pub fn rejected() -> Vec<Draft> {
    let mut all: Vec<Draft> = too_many().into_iter().chain(cut_off()).chain(misfits()).map(main).collect();
    // behind a return they need no map
    all.extend((5..=255).map(|count| main(counted(c().end(INT), count, &[INT; 6]).ireturn())));
    all.extend((0..=4).map(|count| main(counted(c().end(INT), count, &[]))));
    all.push(main(c().end(INT).names(op::INVOKEVIRTUAL, &[10, 21])));
    // what a jump behind it would want isn't read
    all.push(main(counted(operands(&[]), 5, &[INT; 6]).names(op::GOTO, &[0])));
    for count in 0..=MOST_ARGUMENTS {
        let types = &NAMES[..count];
        all.push(Draft::listed(10).method_of(20, types, INT, &c().aload(count as u8 + 1).pop().end(INT)));
        all.push(Draft::listed(10).method_of(20, types, INT, &c().iload(count as u8 + 1).ireturn()));
        // calls as versions 1 and 2 have them
        all.push(main(operands(&NAMES[..1]).names(op::INVOKEVIRTUAL, &[10, 21, 11, INT]).ireturn()));
    }
    all
}

/// The desk says 2.
pub fn bad() -> Vec<Vec<u8>> {
    let file = |types: &[u16]| Draft::listed(10).method_of(20, types, INT, &c().end(INT)).file();
    let mut all = vec![file(&NAMES), file(&[INT; 6]), file(&[INT; 255])];
    for count in 0..=MOST_ARGUMENTS {
        let good = file(&NAMES[..count]);
        for place in 0..count {
            let mut types = NAMES[..count].to_vec();
            types[place] = 0;
            all.push(file(&types));
        }
        for end in 0..good.len() {
            let mut bytes = good[..end].to_vec();
            set_length(&mut bytes);
            all.push(bytes);
        }
        for other in (0..=255).filter(|&other| usize::from(other) > MOST_ARGUMENTS || other == count as u8 + 1) {
            let mut bytes = good.clone();
            bytes[11] = other;
            all.push(bytes);
        }
        for version in [0, 1, 2, 4, 255] {
            let mut bytes = good.clone();
            bytes[0] = version;
            all.push(bytes);
        }
        let types = &NAMES[..count];
        all.push(Draft::listed(10).method_of(20, types, 11, &c().end(11)).method_of(20, types, 11, &c().null().areturn()).file());
    }
    let mut second = Draft::mapped(10).main(20, &c().end(INT)).file();
    second[0] = 3;
    all.push(second);
    all
}
