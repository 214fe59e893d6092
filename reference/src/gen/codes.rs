//! Methods that the verifier rejects, each for one reason, and some that it takes.

use super::build::{Code, Draft};
use crate::code::op;
use crate::store::INT;

/// A class 10 with one method with this code.
fn method(argument: u16, result: u16, code: Code) -> Draft {
    Draft::new(10).method(20, argument, result, &code)
}

fn main(code: Code) -> Draft {
    method(INT, INT, code)
}

pub fn rejected() -> Vec<Draft> {
    let c = Code::new;
    let unknown = (0..=255u8).filter(|opcode| !op::of(1).contains(opcode));
    let mut all: Vec<Draft> = unknown.map(|opcode| main(c().plain(opcode).end(INT))).collect();
    all.extend(locals_and_operands().into_iter().chain(kinds()).chain(inline_names()).map(main));
    all.push(method(INT, 11, c().end(INT)));
    all.push(method(11, INT, c().iload(1).ireturn()));
    all.push(method(INT, INT, c().end(11)));
    all.push(main((0..16).fold(c(), |code, _| code.null()).end(INT)));
    all.push(main((0..16).fold(c(), |code, _| code.iload(1)).dup().ireturn()));
    all.extend(cut_off().into_iter().map(main));
    all
}

fn locals_and_operands() -> Vec<Code> {
    let c = Code::new;
    vec![
        c().iload(2).ireturn(), c().aload(2).pop().end(INT), c().iload(0).ireturn(), c().aload(1).pop().end(INT),
        c().iload(8).ireturn(), c().int(0).istore(8).end(INT), c().null().astore(8).end(INT), c().aload(8).pop().end(INT),
        c().ireturn(), c().pop().end(INT), c().dup().end(INT), c().int(0).iadd().ireturn(), c().int(0).isub().ireturn(),
        c().istore(2).end(INT), c().astore(2).end(INT), c().iadd().ireturn(), c().getfield(10, 30, INT).ireturn(),
        c().null().putfield(10, 30, 11).end(INT), c().putfield(10, 30, 11).end(INT),
        c().int(0).putfield(10, 30, INT).end(INT), c().int(0).invoke(10, 20, INT, INT).ireturn(),
        c().int(0), c().int(0).ireturn().ireturn(), c().int(0).ireturn().pop(), c().int(0).pop(),
        c().int(0).istore(0).aload(0).pop().end(INT), c().null().astore(1).iload(1).ireturn(),
    ]
}

fn kinds() -> Vec<Code> {
    let c = Code::new;
    vec![
        c().int(0).null().iadd().ireturn(), c().null().int(0).iadd().ireturn(), c().null().istore(2).end(INT),
        c().int(0).astore(2).end(INT), c().null().ireturn(), c().null().areturn(), c().int(0).areturn(),
        c().aload(0).ireturn(), c().aload(0).istore(2).end(INT), c().aload(0).int(1).isub().ireturn(),
        c().int(0).getfield(10, 30, INT).ireturn(), c().null().getfield(10, 30, 11).ireturn(),
        c().null().null().putfield(10, 30, INT).end(INT), c().null().aload(0).putfield(10, 30, INT).end(INT),
        c().null().int(0).putfield(10, 30, 11).end(INT), c().int(0).null().putfield(10, 30, 11).end(INT),
        c().null().null().invoke(10, 20, INT, INT).ireturn(), c().null().aload(0).invoke(10, 20, INT, INT).ireturn(),
        c().null().int(0).invoke(10, 20, 11, INT).ireturn(), c().int(0).int(0).invoke(10, 20, INT, INT).ireturn(),
        c().null().int(0).invoke(10, 20, INT, 11).ireturn(),
    ]
}

fn inline_names() -> Vec<Code> {
    let c = Code::new;
    let mut all = vec![c().object(0).pop().end(INT), c().object(1).pop().end(INT)];
    for class in [0, 1] {
        all.push(c().null().getfield(class, 30, INT).ireturn());
        all.push(c().null().int(0).putfield(class, 30, INT).end(INT));
        all.push(c().null().int(0).invoke(class, 20, INT, INT).ireturn());
    }
    all.extend([
        c().null().getfield(10, 0, INT).ireturn(), c().null().getfield(10, 30, 0).pop().end(INT),
        c().null().int(0).putfield(10, 0, INT).end(INT), c().null().null().putfield(10, 30, 0).end(INT),
        c().null().int(0).invoke(10, 0, INT, INT).ireturn(), c().null().null().invoke(10, 20, 0, INT).ireturn(),
        c().null().int(0).invoke(10, 20, INT, 0).pop().end(INT),
    ]);
    all
}

/// Every instruction with inline bytes, cut off.
fn cut_off() -> Vec<Code> {
    let c = Code::new;
    let whole = [
        c().int(0), c().iload(1), c().aload(0), c().int(0).istore(2), c().null().astore(2), c().object(10),
        c().null().getfield(10, 30, INT), c().null().int(0).putfield(10, 30, INT),
        c().null().int(0).invoke(10, 20, INT, INT),
    ];
    let cut = |code: &Code, less: usize| Code::of(code.bytes[..code.bytes.len() - less].to_vec());
    whole.iter().flat_map(|code| (0..code.bytes.len()).map(move |less| cut(code, less))).collect()
}

pub fn taken() -> Vec<Draft> {
    let c = Code::new;
    let codes = [
        c().null().astore(2).aload(2).getfield(10, 1, INT).ireturn(),
        c().null().astore(0).aload(0).iload(1).invoke(10, 1, INT, INT).ireturn(),
        c().null().int(0).invoke(2, 1, INT, 2).pop().end(INT),
        c().null().null().null().end(INT),
        c().int(3).istore(0).iload(0).ireturn(),
        c().aload(0).astore(7).aload(7).null().putfield(11, 30, 2).end(INT),
        (0..15).fold(c(), |code, _| code.null()).end(INT),
        (0..15).fold(c(), |code, _| code.iload(1)).dup().ireturn(),
        (0..15).fold(c(), |code, _| code.iload(1)).aload(0).getfield(10, 30, INT).ireturn(),
        c().null().dup().putfield(10, 30, 10).end(INT),
        c().object(65_535).pop().end(INT),
    ];
    let mut all: Vec<Draft> = codes.into_iter().map(main).collect();
    all.push(method(11, 12, c().aload(1).areturn()));
    all.push(method(11, 11, c().aload(1).areturn()));
    all.push(method(2, 2, c().null().areturn()));
    all
}
