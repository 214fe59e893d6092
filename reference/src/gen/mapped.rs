//! Files of version 2 by hand, by the desk's number for them: each rule of shape, each want of a map, each reason of the verifier.

use super::build::{set_length, Code, Draft, MapDraft};
use super::files::of_maps;
use crate::code::op;
use crate::store::INT;

/// The labels of these methods.
const AGAIN: u16 = 1;
const DONE: u16 = 2;

const JUMPS: [u8; 3] = [op::IFEQ, op::IF_ICMPLT, op::GOTO];
const RATES: [u8; 2] = [op::IMUL, op::IDIV];

fn c() -> Code {
    Code::new()
}

/// A class 10 of version 2 with one method from int to int.
fn main(code: Code) -> Draft {
    Draft::mapped(10).main(20, &code)
}

fn mains(codes: Vec<Code>) -> Vec<Draft> {
    codes.into_iter().map(main).collect()
}

/// Two methods: the first has one flaw, the second another.
fn both(one: Code, other: Code) -> Draft {
    main(one).main(21, &other)
}

/// A jump to an offset.
fn to(code: Code, opcode: u8, offset: u16) -> Code {
    code.names(opcode, &[offset])
}

/// What a jump takes.
fn operands_of(opcode: u8) -> Code {
    match opcode {
        op::IFEQ => c().iload(1),
        op::IF_ICMPLT => c().iload(1).iload(1),
        _ => c(),
    }
}

/// Sums up the ints from the argument, if it isn't 0, down to 1.
pub fn countdown() -> Code {
    let code = c().int(0).istore(2).point(AGAIN, &[10, INT, INT], &[]).iload(2).iload(1).iadd().istore(2);
    code.iload(1).int(1).isub().dup().istore(1).ifeq(DONE).goto(AGAIN).point(DONE, &[10, INT, INT], &[]).iload(2).ireturn()
}

/// One that the verifier rejects, and one that lacks a map.
fn rejected_code() -> Code {
    c().iload(2).ireturn()
}

fn unmapped_code() -> Code {
    c().goto(DONE).label(DONE).end(INT)
}

/// The desk says 0.
pub fn taken() -> Vec<Draft> {
    let many: Vec<u16> = vec![INT; 16];
    let ints = |count: usize| (0..count).fold(c(), |code, _| code.iload(1));
    let mut all = mains(vec![
        countdown(),
        c().end(INT),
        c().map(&[10, INT], &[]).end(INT),
        c().map(&[], &[]).end(INT),
        c().map(&[2, INT], &[]).end(INT),
        c().point(AGAIN, &[10, INT], &[]).goto(AGAIN),
        c().point(AGAIN, &[], &[]).goto(AGAIN),
        c().iload(1).ifeq(DONE).end(INT).point(DONE, &[], &[]).end(INT),
        c().iload(1).iload(1).if_icmplt(DONE).end(INT).point(DONE, &[], &[]).end(INT),
        ints(16).map(&[10, INT], &many).ireturn(),
        ints(15).iload(1).ifeq(DONE).goto(DONE).point(DONE, &[10], &many[..15]).ireturn(),
        // null meets a name, a name its own and another, and what is set becomes unset
        c().null().astore(2).aload(0).astore(3).iload(1).istore(4).map(&[11, 0, 12, 13], &[]).end(INT),
        c().null().aload(0).iload(1).map(&[], &[12, 13, INT]).ireturn(),
        // behind a goto or return the types are the map's alone
        c().end(INT).map(&[INT, 11, 0, 12], &[INT, 12]).pop().ireturn(),
        c().goto(DONE).map(&[], &[INT]).ireturn().point(DONE, &[], &[]).end(INT),
        c().end(INT).point(AGAIN, &[], &[]).goto(AGAIN),
        // maps at points that follow each other, and where nothing jumps to
        c().map(&[10, INT], &[]).null().map(&[2], &[11]).pop().map(&[], &[]).end(INT),
        c().point(AGAIN, &[10, INT], &[]).iload(1).ifeq(AGAIN).iload(1).int(9).if_icmplt(AGAIN).end(INT),
        of_maps(194).end(INT),
    ]);
    for opcode in RATES {
        all.push(main(c().iload(1).int(0).plain(opcode).ireturn()));
        all.push(main(ints(16).plain(opcode).map(&[], &many[..15]).plain(opcode).ireturn()));
    }
    all.push(Draft::mapped(10));
    all.push(Draft::mapped(10).method(20, 11, 12, &c().aload(1).map(&[], &[12]).areturn().map(&[], &[12]).areturn()));
    all.push(both(countdown(), c().end(INT)).main(22, &countdown()));
    all
}

/// The desk says 15.
pub fn unmapped() -> Vec<Draft> {
    let mut all = mains(vec![
        unmapped_code(),
        c().end(INT).end(INT),
        c().goto(DONE).label(DONE).goto(DONE),
        c().point(AGAIN, &[], &[]).goto(AGAIN).end(INT),
        // a map that stands elsewhere
        c().iload(1).ifeq(DONE).map(&[10, INT], &[]).end(INT).label(DONE).end(INT),
        c().end(INT).null().map(&[], &[10]).pop().end(INT),
        // what the verifier rejects may stand before, and behind as long as it can be read
        c().pop().goto(DONE).label(DONE).end(INT),
        c().iload(200).ifeq(DONE).label(DONE).end(INT),
        c().null().getfield(0, 0, 0).goto(DONE).label(DONE).end(INT),
        c().object(1).goto(DONE).label(DONE).end(INT),
        c().goto(DONE).label(DONE).iload(200).plain(0xFF),
        c().end(INT).null(),
        c().iload(1).ifeq(DONE).label(DONE),
    ]);
    for opcode in JUMPS {
        let code = || operands_of(opcode);
        all.push(main(code().jump(opcode, DONE).end(INT).map(&[], &[]).end(INT).label(DONE).end(INT)));
        for offset in [0, 1, 100, 0xFFFF] {
            all.push(main(to(code(), opcode, offset).map(&[], &[]).end(INT)));
        }
    }
    all.push(main(to(c().int(0).pop(), op::GOTO, 1)));
    all.push(Draft::mapped(10).method(20, 11, 12, &c().aload(1).areturn().aload(1).areturn()));
    all.push(both(rejected_code(), unmapped_code()));
    all.push(both(unmapped_code(), rejected_code()));
    all.push(both(c().plain(0xFF), c().end(INT).end(INT)));
    all.push(both(c().end(INT), c().end(INT)).main(22, &unmapped_code()));
    all
}

/// Maps and targets out of place, paths that run off the end, what can't be read.
fn out_of_place() -> Vec<Code> {
    let map_at = |code: Code, offset: u16| code.with_maps(&[MapDraft::new(offset, &[], &[])]);
    let mut all = vec![
        map_at(c().end(INT), 1),
        map_at(c().end(INT), 2),
        map_at(c().end(INT), 4),
        map_at(c().end(INT), 5),
        map_at(c().end(INT), 512),
        map_at(c().end(INT), 0xFFFF),
        map_at(to(c(), op::GOTO, 1), 1),
        map_at(to(c(), op::GOTO, 3), 3),
        map_at(to(c(), op::GOTO, 600), 600),
        map_at(to(c().int(0).pop(), op::GOTO, 1), 1),
        c().iload(1).ireturn().plain(0xFF),
        c().iload(1).ireturn().plain(op::GOTO),
        c().plain(0xFF).goto(DONE).label(DONE).end(INT),
        c().plain(op::SIPUSH),
        c().iload(1).plain(op::IFEQ).plain(0),
        c().null().pop(),
        c().point(AGAIN, &[10, INT], &[]).iload(1).ifeq(AGAIN),
        c().point(AGAIN, &[10, INT], &[]).iload(1).iload(1).if_icmplt(AGAIN),
        c().end(INT).map(&[], &[]).pop().end(INT),
        c().end(INT).map(&[], &[]).null().pop(),
    ];
    for opcode in JUMPS {
        all.push(c().plain(opcode));
        all.push(c().plain(opcode).plain(0));
    }
    all
}

/// Locals 2 and 3 are null and an int, and the operands null, this and an int.
fn stood(code: Code) -> Code {
    code.null().astore(2).iload(1).istore(3).null().aload(0).iload(1)
}

/// What flows somewhere and doesn't fit: into a map from entry, from the point before and from a jump.
fn misfits() -> Vec<Code> {
    let own: &[u16] = &[10, INT];
    let mut all = vec![
        c().map(&[INT, INT], &[]).end(INT),
        c().map(&[10, 11], &[]).end(INT),
        c().map(&[10, INT, INT], &[]).end(INT),
        c().map(&[10, INT, 11], &[]).end(INT),
        c().map(&[10, INT, 0, 0, 0, 0, 0, INT], &[]).end(INT),
        c().map(own, &[INT]).ireturn(),
        c().map(&[], &[]).iload(1).ireturn(),
        c().map(&[0, INT], &[]).aload(0).pop().end(INT),
    ];
    let operands: &[u16] = &[12, 10, INT];
    let wrong: [(&[u16], &[u16]); 11] = [
        (&[10, INT, INT], operands), (&[10, INT, 12, 12], operands), (&[10, 12, 12], operands), (&[10, INT, 12, INT, INT], operands),
        (&[10, INT, 12, INT, 12], operands), (&[INT], operands), (&[], &[12, 10]), (&[], &[12, 10, INT, INT]),
        (&[], &[INT, 10, INT]), (&[], &[12, INT, INT]), (&[], &[12, 10, 12]),
    ];
    for (locals, operands) in wrong {
        all.push(stood(c()).map(locals, operands).end(INT));
        all.push(stood(c()).goto(DONE).point(DONE, locals, operands).end(INT));
        all.push(stood(c()).iload(1).ifeq(DONE).pop().end(INT).point(DONE, locals, operands).end(INT));
        all.push(stood(c()).iload(1).iload(1).if_icmplt(DONE).end(INT).point(DONE, locals, operands).end(INT));
        all.push(stood(c().goto(AGAIN).point(DONE, locals, operands).end(INT).point(AGAIN, own, &[])).goto(DONE));
    }
    all.extend([
        c().ifeq(DONE).point(DONE, &[], &[]).end(INT), c().aload(0).ifeq(DONE).point(DONE, &[], &[]).end(INT),
        c().null().ifeq(DONE).point(DONE, &[], &[]).end(INT), c().iload(1).if_icmplt(DONE).point(DONE, &[], &[]).end(INT),
        c().iload(1).null().if_icmplt(DONE).point(DONE, &[], &[]).end(INT),
        c().null().iload(1).if_icmplt(DONE).point(DONE, &[], &[]).end(INT),
        // ifeq and if_icmplt have taken their operands when they flow
        c().iload(1).ifeq(DONE).point(DONE, &[], &[INT]).ireturn(),
        c().iload(1).iload(1).if_icmplt(DONE).point(DONE, &[], &[INT, INT]).ireturn(),
    ]);
    all
}

/// Products and quotients of what aren't two ints, and opcodes beside theirs, which nobody knows.
fn unfit_rates() -> Vec<Code> {
    let unknown = (0..=255u8).filter(|opcode| !op::ALL.contains(opcode));
    let mut all: Vec<Code> = unknown.map(|opcode| c().iload(1).iload(1).plain(opcode).ireturn()).collect();
    for opcode in RATES {
        let operands = [
            c(), c().iload(1), c().iload(1).null(), c().null().iload(1), c().iload(1).aload(0), c().aload(0).iload(1),
            c().aload(0).int(0), c().int(0).aload(0),
        ];
        all.extend(operands.into_iter().map(|code| code.plain(opcode).ireturn()));
        // one int is left, and no reference
        all.push(c().iload(1).iload(1).plain(opcode).pop().ireturn());
        all.push(c().iload(1).iload(1).plain(opcode).astore(2).end(INT));
    }
    all
}

/// The desk says 6.
pub fn rejected() -> Vec<Draft> {
    let mut all = mains(out_of_place().into_iter().chain(misfits()).chain(unfit_rates()).collect());
    all.push(both(c().end(INT), rejected_code()));
    all.push(both(countdown(), c().plain(0xFF).goto(DONE).label(DONE).end(INT)));
    // in version 1 these are no opcodes
    for opcode in JUMPS {
        all.push(Draft::new(10).main(20, &to(operands_of(opcode), opcode, 0).end(INT)));
        all.push(Draft::new(10).main(20, &to(c().end(INT), opcode, 0)));
    }
    for opcode in RATES {
        all.push(Draft::new(10).main(20, &c().iload(1).iload(1).plain(opcode).ireturn()));
    }
    all
}

/// The desk says 2.
pub fn bad() -> Vec<Vec<u8>> {
    let map = |offset: u16, operands: &[u16]| MapDraft::new(offset, &[10, INT], operands);
    let with = |maps: &[MapDraft]| main(c().iload(1).iload(1).ireturn().with_maps(maps)).file();
    let mut all = vec![
        with(&[map(0, &[]), map(0, &[])]),
        with(&[map(2, &[INT]), map(0, &[])]),
        with(&[map(0, &[]), map(2, &[INT]), map(2, &[INT])]),
        with(&[map(0xFFFF, &[]), map(0, &[])]),
        with(&[map(0, &[INT; 17])]),
        with(&[map(0, &[INT; 255])]),
        with(&[map(0, &[0])]),
        with(&[map(0, &[]), map(2, &[0]), map(4, &[INT, INT])]),
        with(&[map(0, &[]), map(2, &[INT, 0, INT])]),
    ];
    let good = with(&[map(0, &[]), map(2, &[INT])]);
    for cut in 1..good.len() {
        let mut bytes = good[..good.len() - cut].to_vec();
        set_length(&mut bytes);
        all.push(bytes);
    }
    for (at, byte) in [(0, 0), (0, 1), (0, 3), (0, 255), (22, 0), (22, 1), (22, 3), (22, 255)] {
        let mut bytes = good.clone();
        bytes[at] = byte;
        all.push(bytes);
    }
    let mut longer = good;
    longer.push(0);
    set_length(&mut longer);
    all.push(longer);
    // a file of version 1 has no count behind its code, and one of version 2 always has
    let mut first = Draft::new(10).main(20, &c().end(INT)).file();
    first[0] = 2;
    all.push(first);
    all.push(main(of_maps(195).end(INT)).file());
    all
}
