//! Why and where a file is refused.

use reference::code::op;
use reference::file::{File, Flaw, Rule, Sketch};
use reference::gen::build::{Code, Draft, MapDraft};
use reference::gen::files::{file, of_length};
use reference::store::INT;
use reference::verifier::{refused, seen, verify, Misfit, Rejected, Type, Why};

fn flaw(bytes: &[u8]) -> (usize, Rule) {
    let Flaw { at, rule } = File::explained(bytes).expect_err("a flaw");
    (at, rule)
}

fn changed(at: usize, byte: u8) -> Vec<u8> {
    let mut bytes = Draft::new(10).field(30, INT).field(31, 12).main(20, &Code::new().end(INT)).file();
    bytes[at] = byte;
    bytes
}

#[test]
fn each_file_rule() {
    assert_eq!(flaw(&[]), (0, Rule::CutOff));
    assert_eq!(flaw(&[1, 0, 6, 0]), (4, Rule::CutOff));
    assert_eq!(flaw(&of_length(10, 4_097)), (4_096, Rule::TooLong));
    assert_eq!(flaw(&changed(0, 9)), (0, Rule::Version(9)));
    assert_eq!(flaw(&changed(2, 1)), (1, Rule::Length(1, 26)));
    assert_eq!(flaw(&changed(4, 1)), (3, Rule::ClassBelow2(1)));
    assert_eq!(flaw(&changed(6, 0)), (5, Rule::ClassBelow2(0)));
    assert_eq!(flaw(&changed(7, 9)), (7, Rule::TooManyFields(9)));
    assert_eq!(flaw(&changed(9, 0)), (8, Rule::Name0));
    assert_eq!(flaw(&changed(13, 30)), (12, Rule::SameField(30)));
    assert_eq!(flaw(&changed(16, 10)), (16, Rule::TooManyMethods(10)));
    assert_eq!(flaw(&changed(16, 0)), (17, Rule::BytesLeft(12)));
    assert_eq!(flaw(&changed(16, 2)), (29, Rule::CutOff));
    assert_eq!(flaw(&changed(22, 0)), (21, Rule::Name0));
    assert_eq!(flaw(&changed(23, 9)), (23, Rule::CodeLength(0x904)));
    assert_eq!(flaw(&changed(24, 0)), (23, Rule::CodeLength(0)));
    let end = Code::new().end(INT);
    assert_eq!(flaw(&Draft::new(10).main(20, &end).main(20, &end).file()), (21, Rule::SameMethod(20)));
}

#[test]
fn each_rule_of_maps() {
    // The code of four bytes ends at byte 21; the count of maps stands there, and the first map behind it.
    let with = |maps: &[MapDraft]| Draft::mapped(10).main(20, &Code::new().end(INT).with_maps(maps)).file();
    let map = |offset: u16, operands: &[u16]| MapDraft::new(offset, &[10], operands);
    assert_eq!(flaw(&with(&[map(0, &[]), map(0, &[])])), (41, Rule::MapOffset(0)));
    assert_eq!(flaw(&with(&[map(3, &[INT]), map(2, &[])])), (43, Rule::MapOffset(2)));
    assert_eq!(flaw(&with(&[map(0, &[INT; 17])])), (40, Rule::TooManyMapOperands(17)));
    assert_eq!(flaw(&with(&[map(0, &[INT, 0])])), (43, Rule::MapOperand0));
    let mut bytes = with(&[map(0, &[INT])]);
    bytes[21] = 2;
    assert_eq!(flaw(&bytes), (43, Rule::CutOff));
    bytes[21] = 0;
    assert_eq!(flaw(&bytes), (22, Rule::BytesLeft(21)));
    let mut first = Draft::new(10).main(20, &Code::new().end(INT)).file();
    first[0] = 2;
    assert_eq!(flaw(&first), (21, Rule::CutOff));
    // Two methods alike, the second behind the maps of the first.
    let twice = Draft::mapped(10).main(20, &Code::new().map(&[10, INT], &[]).end(INT)).main(20, &Code::new().end(INT));
    assert_eq!(flaw(&twice.file()), (41, Rule::SameMethod(20)));
}

#[test]
fn places_and_reasons_of_maps() {
    let c = Code::new;
    let flows = |into: usize, misfit: Misfit| Why::Flow(into, misfit);
    let at = |offset: u16| [MapDraft::new(offset, &[], &[])];
    let cases = [
        (c().map(&[INT], &[]).end(INT), 0, flows(0, Misfit::Local(0, Type::Class(10), Type::Int))),
        (c().iload(1).map(&[], &[12]).ireturn(), 0, flows(2, Misfit::Operand(0, Type::Int, Type::Class(12)))),
        (c().iload(1).ifeq(1).end(INT).point(1, &[], &[INT]).ireturn(), 2, flows(9, Misfit::OperandCount(0, 1))),
        (c().end(INT).with_maps(&at(2)), 0, Why::MapInside(2)),
        (c().end(INT).with_maps(&at(9)), 3, Why::MapBehind(9)),
        (c().point(1, &[10, INT], &[]).iload(1).ifeq(1), 2, Why::EndsWithoutReturn),
        (c().end(INT).plain(0xFF), 4, Why::UnknownOpcode(0xFF)),
    ];
    for (code, point, why) in cases {
        let bytes = Draft::mapped(10).main(20, &code).file();
        let rejected = Rejected { method: 0, point, why };
        assert_eq!(refused(File::read(&bytes).expect("a file"), &mut |_, _| ()), Err((6, rejected)));
    }
    let unmapped = [(c().int(0).ifeq(1).label(1).end(INT), 3, Why::TargetUnmapped(6)), (c().end(INT).end(INT), 3, Why::NextUnmapped)];
    for (code, point, why) in unmapped {
        let bytes = Draft::mapped(10).main(19, &c().iload(2).ireturn()).main(20, &code).file();
        let rejected = Rejected { method: 1, point, why };
        assert_eq!(refused(File::read(&bytes).expect("a file"), &mut |_, _| ()), Err((15, rejected)));
    }
}

#[test]
fn places_and_reasons_of_lists() {
    let c = Code::listed;
    let file = |types: &[u16]| Draft::listed(10).method_of(20, types, INT, &c().end(INT)).file();
    assert_eq!(flaw(&file(&[INT; 5])), (11, Rule::TooManyArguments(5)));
    assert_eq!(flaw(&file(&[INT, 10, 0])), (16, Rule::Name0));
    let twice = Draft::listed(10).method_of(20, &[], INT, &c().end(INT)).method_of(20, &[], INT, &c().end(INT));
    assert_eq!(flaw(&twice.file()), (21, Rule::SameMethod(20)));
    let mut five = c().aload(0).call(10, 20, &[INT; 3], INT).end(INT);
    five.bytes[7] = 5;
    let cut = Code::of(c().aload(0).call(10, 20, &[INT; 3], INT).bytes[..12].to_vec());
    let cases = [
        (five, 2, Why::TooManyArguments(5)),
        (cut, 2, Why::CutOff(op::INVOKEVIRTUAL)),
        (c().aload(0).names(op::INVOKEVIRTUAL, &[10, 20]), 2, Why::CutOff(op::INVOKEVIRTUAL)),
        (c().aload(0).int(1).call(10, 20, &[INT, INT], INT).ireturn(), 5, Why::TooFewOperands),
        (c().int(0).int(1).int(2).call(10, 20, &[INT, INT], INT).ireturn(), 9, Why::NoReference(Type::Int)),
        (c().aload(0).null().int(1).call(10, 20, &[INT, INT], INT).ireturn(), 6, Why::NoInt(Type::Null)),
        (c().aload(0).call(10, 20, &[10, 0], INT).ireturn(), 2, Why::Name0),
        (c().call(10, 20, &[], INT).ireturn(), 0, Why::TooFewOperands),
    ];
    for (code, point, why) in cases {
        let bytes = Draft::listed(10).main(20, &code).file();
        let rejected = Rejected { method: 0, point, why };
        assert_eq!(verify(File::read(&bytes).expect("a file"), &mut |_, _| ()), Err(rejected));
    }
}

#[test]
fn places_and_reasons_of_the_verifier() {
    let c = Code::new;
    let cases = [
        (c().int(0).plain(0xFF), 3, Why::UnknownOpcode(0xFF)),
        (c().plain(op::SIPUSH), 0, Why::CutOff(op::SIPUSH)),
        (c().object(1), 0, Why::ClassBelow2(1)),
        (c().null().getfield(10, 0, INT), 1, Why::Name0),
        (c().iload(8), 0, Why::NoLocal(8)),
        (c().iload(2), 0, Why::UnsetLocal(2)),
        (c().pop(), 0, Why::TooFewOperands),
        ((0..17).fold(c(), |code, _| code.null()), 16, Why::TooManyOperands),
        (c().int(0).null().iadd(), 4, Why::NoInt(Type::Null)),
        (c().int(0).areturn(), 3, Why::ResultIsInt),
        (c().aload(1), 0, Why::NoReference(Type::Int)),
        (c().int(0), 0, Why::EndsWithoutReturn),
        (c().int(0).ireturn().pop(), 3, Why::GoesOnAfterReturn),
    ];
    for (code, point, why) in cases {
        let bytes = Draft::new(10).main(19, &c().end(INT)).main(20, &code).file();
        let file = File::read(&bytes).expect("a file");
        assert_eq!(verify(file, &mut |_, _| ()), Err(Rejected { method: 1, point, why }));
    }
    let bytes = Draft::new(10).method(20, INT, 12, &c().end(INT)).file();
    let rejected = verify(File::read(&bytes).expect("a file"), &mut |_, _| ());
    assert_eq!(rejected, Err(Rejected { method: 0, point: 3, why: Why::ResultIsNoInt(12) }));
}

#[test]
fn notes_have_their_points() {
    let code = Code::new().aload(0).aload(1).putfield(12, 30, 13).object(14).areturn();
    let bytes = Draft::new(10).method(20, 11, 15, &code).file();
    let file = File::read(&bytes).expect("a file");
    let (points, rejected) = seen(10, file.method(0).expect("a method"));
    let notes: Vec<_> = points.into_iter().map(|seen| (seen.point, seen.notes)).collect();
    let expected = [(0, vec![]), (2, vec![]), (4, vec![(10, 12), (11, 13)]), (11, vec![]), (14, vec![(14, 15)])];
    assert_eq!((notes, rejected), (expected.to_vec(), None));
}

#[test]
fn a_sketch_has_what_a_file_has() {
    for bytes in (0..5_000).map(file) {
        let sketch = Sketch::read(&bytes);
        let Some(file) = File::read(&bytes) else {
            continue;
        };
        assert_eq!((sketch.name, sketch.superclass), (Some(file.name()), Some(file.superclass())));
        assert_eq!(sketch.fields, file.fields().collect::<Vec<_>>());
        let maps = |method: reference::file::Method| format!("{:?}", method.maps().collect::<Vec<_>>());
        let methods = |method: reference::file::Method| (method.signature, method.code.to_vec(), maps(method));
        let own: Vec<_> = file.methods().map(methods).collect();
        assert_eq!(sketch.methods.into_iter().map(methods).collect::<Vec<_>>(), own);
    }
}
