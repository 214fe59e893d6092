//! Stores that no boot leads to, each made for one refusal of a step: code that no verifier has seen, operands
//! and locals that aren't there or of another kind, frames out of place.

use super::build::{Code, Draft};
use crate::answer::{word, Refusal};
use crate::code::op;
use crate::file::LISTED;
use crate::store::{cell, count, frame_base, Store, Value, INT, OPERANDS};
use crate::task::make_object;

/// What is wrong, the store, and the refusal of its next step.
pub type Stuck = (String, Store, Refusal);

const MAIN: u16 = 20;
const STUCK: Refusal = Refusal::Word(word::STUCK);
const FULL: Refusal = Refusal::Word(word::FULL);

/// An object of class 10, and one of class 11, which is no relation of it.
const TEN: Value = Value::Object(0);
const ELEVEN: Value = Value::Object(1);
const SEVEN: Value = Value::Int(7);
const ZERO: Value = Value::Int(0);

/// Loader 1 has class 10 with field 30 (int), 31 (class 10), the code as method 20, and method 21 from 10 to
/// 10; and class 11. The quote is at the start of the code with these operands.
pub fn holding(code: &Code, operands: &[Value]) -> Store {
    drafted(Draft::new(10), code, operands)
}

/// The same with a class of version 2, whose code has no map.
fn mapped(code: &Code, operands: &[Value]) -> Store {
    drafted(Draft::mapped(10), code, operands)
}

/// The same with a class of version 3, and method 23 with four arguments.
fn listed(code: &Code, operands: &[Value]) -> Store {
    drafted(Draft::listed(10), code, operands)
}

/// The arguments of method 23.
const FOUR: [u16; 4] = [10, INT, 10, INT];

fn drafted(draft: Draft, code: &Code, operands: &[Value]) -> Store {
    let mut store = Store::zeros();
    crate::boot(&mut store);
    store.add_cached([1, 2, 0]);
    let ten = draft.field(30, INT).field(31, 10).main(MAIN, code);
    let ten = ten.method(21, 10, 10, &Code::new().aload(1).areturn()).main(22, &Code::new().iload(1).ireturn());
    let ten = if ten.version >= LISTED { ten.method_of(23, &FOUR, INT, &Code::new().iload(2).ireturn()) } else { ten };
    for (name, draft) in [(10, ten), (11, Draft::new(11))] {
        let class = store.add_class(1, &draft.file());
        store.add_cached([1, name, class]);
    }
    let classes = crate::broken::unbroken(&store).expect("a store");
    for class in 1..3 {
        make_object(&mut store, &classes, class, 0).expect("room");
    }
    store.enter(0, 1, 0, TEN, &[SEVEN]);
    put(&mut store, 0, operands);
    store
}

/// Gives the quote's frame at this depth these operands.
fn put(store: &mut Store, depth: usize, operands: &[Value]) {
    let base = frame_base(0, depth);
    store.frames[base + cell::OPERANDS] = operands.len() as u32;
    for (place, operand) in operands.iter().enumerate() {
        operand.write(&mut store.frames, base + cell::OPERAND_0 + 2 * place);
    }
}

fn names(opcode: u8, inline: &[u16]) -> Code {
    Code::new().names(opcode, inline)
}

fn int_field(opcode: u8) -> Code {
    names(opcode, &[10, 30, INT])
}

fn class_field(opcode: u8) -> Code {
    names(opcode, &[10, 31, 10])
}

fn call(method: u16, argument: u16, result: u16) -> Code {
    names(op::INVOKEVIRTUAL, &[10, method, argument, result])
}

/// All of them.
pub fn stuck() -> Vec<Stuck> {
    let mut all = unreadable();
    all.extend(operands_missing());
    all.extend(locals_missing());
    all.extend(wrong_kinds());
    all.extend(no_room());
    all.extend(names_that_no_verifier_takes());
    all.extend(jumps());
    all.extend(unfit_rates());
    all.extend(zero_divisors());
    all.extend(lists());
    all
}

/// Jumps that can't be read, or lack what they compare.
fn jumps() -> Vec<Stuck> {
    let mut all = Vec::new();
    for opcode in (0..=255).filter(|opcode| !op::ALL.contains(opcode)) {
        all.push((format!("unknown opcode {opcode:02X} in version 2"), mapped(&Code::new().plain(opcode), &[SEVEN, SEVEN]), STUCK));
    }
    for opcode in [op::GOTO, op::IFEQ, op::IF_ICMPLT] {
        let whole = names(opcode, &[0]);
        for there in 1..3 {
            let code = Code::of(whole.bytes[..there].to_vec());
            all.push((format!("{opcode:02X} cut off"), mapped(&code, &[SEVEN, SEVEN]), STUCK));
        }
        all.push((format!("{opcode:02X} in version 1"), holding(&whole, &[SEVEN, SEVEN]), STUCK));
    }
    let rows: [(u8, Vec<Value>); 9] = [
        (op::IFEQ, vec![]), (op::IFEQ, vec![TEN]), (op::IFEQ, vec![Value::Null]), (op::IFEQ, vec![SEVEN, TEN]),
        (op::IF_ICMPLT, vec![]), (op::IF_ICMPLT, vec![SEVEN]), (op::IF_ICMPLT, vec![SEVEN, TEN]), (op::IF_ICMPLT, vec![TEN, SEVEN]),
        (op::IF_ICMPLT, vec![Value::Null, Value::Null]),
    ];
    for (opcode, operands) in rows {
        all.push((format!("{opcode:02X} of {operands:?}"), mapped(&names(opcode, &[0]), &operands), STUCK));
    }
    all
}

/// Calls with lists: counts that can't be, lists that are cut off or not found, operands missing or of another kind at each place.
fn lists() -> Vec<Stuck> {
    let call = |types: &[u16]| Code::listed().call(10, 23, types, INT);
    let good = [TEN, ELEVEN, SEVEN, Value::Null, ZERO];
    let mut all = Vec::new();
    for count in 5..=255 {
        let mut code = Code::listed().call(10, 23, &[INT; 6], INT);
        code.bytes[5] = count;
        all.push((format!("a count of {count}"), listed(&code, &good), STUCK));
    }
    let whole = call(&FOUR);
    for length in 1..whole.bytes.len() {
        let code = Code::of(whole.bytes[..length].to_vec());
        all.push((format!("a call cut off after {length} bytes"), listed(&code, &good), STUCK));
    }
    for there in 0..good.len() {
        all.push((format!("a call with {there} operands of 5"), listed(&whole, &good[good.len() - there..]), STUCK));
    }
    for place in 0..good.len() {
        let wrong = if matches!(good[place], Value::Int(_)) { [TEN, Value::Null] } else { [SEVEN, ZERO] };
        for operand in wrong {
            for receiver in [TEN, Value::Null] {
                let mut operands = good;
                operands[0] = receiver;
                operands[place] = operand;
                all.push((format!("{operand:?} at place {place} of a call on {receiver:?}"), listed(&whole, &operands), STUCK));
            }
        }
    }
    all.push(("a call of four on another class".into(), listed(&whole, &[ELEVEN, TEN, SEVEN, TEN, SEVEN]), STUCK));
    all.push(("a call of four on null".into(), listed(&whole, &[Value::Null, TEN, SEVEN, TEN, SEVEN]), Refusal::Word(word::NULL)));
    let absent = Refusal::Word(word::ABSENT);
    for types in [&[][..], &FOUR[..1], &FOUR[..2], &FOUR[..3], &[INT, 10, 10, INT], &[10, INT, INT, 10], &[INT, 10, INT, 10], &[10, INT, 10, 0]] {
        all.push((format!("no method of {types:?}"), listed(&call(types), &good), absent));
    }
    for version in [1, 2] {
        let code = Code::new().call(10, 23, &[10], INT);
        let draft = Draft { version, ..Draft::new(10) };
        all.push((format!("no such method in version {version}"), drafted(draft, &code, &good), absent));
    }
    let mut store = listed(&whole, &[]);
    while store.counts[count::FRAMES] < 32 {
        store.enter(0, 1, 0, TEN, &[SEVEN]);
    }
    put(&mut store, 31, &good);
    all.push(("a call of four from 32 frames".into(), store, FULL));
    all
}

/// Products and quotients without two ints: that comes before a divisor 0.
fn unfit_rates() -> Vec<Stuck> {
    let mut all = Vec::new();
    for opcode in [op::IMUL, op::IDIV] {
        let code = Code::new().plain(opcode);
        for upper in [SEVEN, ZERO, TEN, Value::Null] {
            all.push((format!("{opcode:02X} of {upper:?} alone"), mapped(&code, &[upper]), STUCK));
            for lower in [TEN, Value::Null] {
                all.push((format!("{opcode:02X} of {lower:?}, {upper:?}"), mapped(&code, &[lower, upper]), STUCK));
                all.push((format!("{opcode:02X} of {upper:?}, {lower:?}"), mapped(&code, &[upper, lower]), STUCK));
            }
        }
        all.push((format!("{opcode:02X} with no operand"), mapped(&code, &[]), STUCK));
        all.push((format!("{opcode:02X} in version 1"), holding(&code, &[SEVEN, ZERO]), STUCK));
    }
    all
}

/// Quotients of ints by 0, with nothing, one operand and as many as fit below them.
fn zero_divisors() -> Vec<Stuck> {
    let mut all = Vec::new();
    for lower in [SEVEN, ZERO, Value::Int(u32::MAX), Value::Int(1 << 31)] {
        for below in [vec![], vec![TEN], vec![Value::Null; OPERANDS - 2]] {
            let operands = [below, vec![lower, ZERO]].concat();
            let store = mapped(&Code::new().idiv().ireturn(), &operands);
            all.push((format!("idiv of {operands:?}"), store, Refusal::Word(word::ZERO_DIVISOR)));
        }
    }
    all
}

fn unreadable() -> Vec<Stuck> {
    let frame = |at: usize, value: u32| {
        let mut store = holding(&Code::new().null().pop(), &[]);
        store.frames[at] = value;
        store
    };
    let mut all = vec![
        ("class without methods".into(), frame(cell::CLASS, 0), STUCK),
        ("no such method".into(), frame(cell::METHOD, 3), STUCK),
        ("no such method by far".into(), frame(cell::METHOD, u32::MAX), STUCK),
        ("point at the end".into(), frame(cell::POINT, 2), STUCK),
        ("point past the code".into(), frame(cell::POINT, u32::MAX), STUCK),
    ];
    for opcode in (0..=255).filter(|opcode| !op::of(1).contains(opcode)) {
        all.push((format!("unknown opcode {opcode:02X}"), holding(&Code::new().plain(opcode), &[SEVEN, SEVEN]), STUCK));
    }
    let inline = [
        (op::SIPUSH, 2), (op::ILOAD, 1), (op::ALOAD, 1), (op::ISTORE, 1), (op::ASTORE, 1), (op::GETFIELD, 6),
        (op::PUTFIELD, 6), (op::INVOKEVIRTUAL, 8), (op::NEW, 2),
    ];
    for (opcode, length) in inline {
        for there in 0..length {
            let mut code = Code::new().plain(opcode);
            code.bytes.resize(1 + there, 0);
            // Full operands and a name that isn't cached come after.
            let store = holding(&code, &[TEN; OPERANDS]);
            all.push((format!("{opcode:02X} with {there} bytes of {length}"), store, STUCK));
        }
    }
    all
}

fn operands_missing() -> Vec<Stuck> {
    let one = [
        Code::new().pop(), Code::new().dup(), Code::new().istore(2), Code::new().astore(2), int_field(op::GETFIELD),
        Code::new().ireturn(), Code::new().areturn(),
    ];
    let two = [
        Code::new().iadd(), Code::new().isub(), int_field(op::PUTFIELD), class_field(op::PUTFIELD), call(21, 10, 10),
        call(22, INT, INT),
    ];
    let mut all = Vec::new();
    for code in one.iter().chain(&two) {
        all.push((format!("{:02X} with no operand", code.bytes[0]), holding(code, &[]), STUCK));
    }
    for code in &two {
        for operand in [SEVEN, Value::Null, TEN] {
            all.push((format!("{:02X} with one operand", code.bytes[0]), holding(code, &[operand]), STUCK));
        }
    }
    all
}

fn locals_missing() -> Vec<Stuck> {
    let mut all = Vec::new();
    for local in [2, 7, 8, 9, 255] {
        all.push((format!("iload {local}"), holding(&Code::new().iload(local), &[]), STUCK));
        all.push((format!("aload {local}"), holding(&Code::new().aload(local), &[]), STUCK));
        if local > 7 {
            all.push((format!("istore {local}"), holding(&Code::new().istore(local), &[SEVEN]), STUCK));
            all.push((format!("astore {local}"), holding(&Code::new().astore(local), &[TEN]), STUCK));
        }
    }
    all
}

fn wrong_kinds() -> Vec<Stuck> {
    let rows: Vec<(&str, Code, Vec<Value>)> = vec![
        ("iload of a reference", Code::new().iload(0), vec![]),
        ("aload of an int", Code::new().aload(1), vec![]),
        ("istore of a reference", Code::new().istore(2), vec![TEN]),
        ("istore of null", Code::new().istore(2), vec![Value::Null]),
        ("astore of an int", Code::new().astore(2), vec![SEVEN]),
        ("iadd of a reference above", Code::new().iadd(), vec![SEVEN, TEN]),
        ("iadd of a reference below", Code::new().iadd(), vec![TEN, SEVEN]),
        ("isub of null", Code::new().isub(), vec![Value::Null, SEVEN]),
        ("getfield on an int", int_field(op::GETFIELD), vec![SEVEN]),
        ("getfield on another class", int_field(op::GETFIELD), vec![ELEVEN]),
        ("putfield on an int", int_field(op::PUTFIELD), vec![SEVEN, SEVEN]),
        ("putfield on another class", int_field(op::PUTFIELD), vec![ELEVEN, SEVEN]),
        ("putfield of a reference for an int", int_field(op::PUTFIELD), vec![TEN, TEN]),
        ("putfield of null for an int", int_field(op::PUTFIELD), vec![TEN, Value::Null]),
        ("putfield of an int for a reference", class_field(op::PUTFIELD), vec![TEN, SEVEN]),
        ("putfield on null of a wrong kind", class_field(op::PUTFIELD), vec![Value::Null, SEVEN]),
        ("call on an int", call(22, INT, INT), vec![SEVEN, SEVEN]),
        ("call on another class", call(22, INT, INT), vec![ELEVEN, SEVEN]),
        ("call with a reference for an int", call(22, INT, INT), vec![TEN, TEN]),
        ("call with an int for a reference", call(21, 10, 10), vec![TEN, SEVEN]),
        ("call on null with a wrong kind", call(21, 10, 10), vec![Value::Null, SEVEN]),
        ("ireturn of a reference", Code::new().ireturn(), vec![TEN]),
        ("areturn of an int", Code::new().areturn(), vec![SEVEN]),
        ("areturn of a first frame", Code::new().areturn(), vec![TEN]),
        ("areturn of null of a first frame", Code::new().areturn(), vec![Value::Null]),
    ];
    let mut all: Vec<Stuck> =
        rows.iter().map(|(what, code, operands)| ((*what).into(), holding(code, operands), STUCK)).collect();
    for (code, operand) in [(Code::new().ireturn(), TEN), (Code::new().areturn(), SEVEN)] {
        let mut store = holding(&code, &[]);
        store.enter(0, 1, 0, TEN, &[SEVEN]);
        put(&mut store, 1, &[operand]);
        all.push((format!("{:02X} to a caller", code.bytes[0]), store, STUCK));
    }
    all
}

fn no_room() -> Vec<Stuck> {
    let mut all = Vec::new();
    let pushes = [
        Code::new().null(), Code::new().int(1), Code::new().iload(1), Code::new().aload(0), Code::new().dup(),
        Code::new().object(10), Code::new().iload(0), Code::new().aload(9),
    ];
    for code in pushes {
        all.push((format!("{:02X} on 16 operands", code.bytes[0]), holding(&code, &[SEVEN; OPERANDS]), FULL));
    }
    for (code, operands) in [(Code::new().ireturn(), vec![SEVEN]), (Code::new().areturn(), vec![])] {
        let mut store = holding(&code, &[SEVEN; OPERANDS]);
        store.enter(0, 1, 0, TEN, &[SEVEN]);
        put(&mut store, 1, &operands);
        all.push((format!("{:02X} onto 16 operands", code.bytes[0]), store, FULL));
    }
    for operands in [vec![], vec![Value::Null, Value::Null], vec![TEN, TEN]] {
        let mut store = holding(&call(21, 10, 10), &[]);
        while store.counts[count::FRAMES] < 32 {
            store.enter(0, 1, 0, TEN, &[SEVEN]);
        }
        put(&mut store, 31, &operands);
        all.push(("a call from 32 frames".into(), store, FULL));
    }
    all
}

fn names_that_no_verifier_takes() -> Vec<Stuck> {
    let mut all = Vec::new();
    for class in [0, 1, 12] {
        let wanted = Refusal::Wanted(1, class);
        for inline in [&[class, 30, INT][..], &[class, 0, 0]] {
            for opcode in [op::GETFIELD, op::PUTFIELD] {
                all.push((format!("{opcode:02X} of class {class}"), holding(&names(opcode, inline), &[]), wanted));
            }
        }
        let call = names(op::INVOKEVIRTUAL, &[class, 0, 0, 0]);
        all.push((format!("call of class {class}"), holding(&call, &[]), wanted));
        all.push((format!("new of class {class}"), holding(&names(op::NEW, &[class]), &[SEVEN; 16]), wanted));
    }
    let absent = Refusal::Word(word::ABSENT);
    all.push(("field 0".into(), holding(&names(op::GETFIELD, &[10, 0, INT]), &[]), absent));
    all.push(("field of type 0".into(), holding(&names(op::PUTFIELD, &[10, 30, 0]), &[]), absent));
    all.push(("field of another type".into(), holding(&names(op::PUTFIELD, &[10, 30, 10]), &[]), absent));
    all.push(("method 0".into(), holding(&names(op::INVOKEVIRTUAL, &[10, 0, INT, INT]), &[]), absent));
    let null = Refusal::Word(word::NULL);
    all.push(("getfield on null".into(), holding(&int_field(op::GETFIELD), &[Value::Null]), null));
    all.push(("putfield on null".into(), holding(&class_field(op::PUTFIELD), &[Value::Null, ELEVEN]), null));
    all.push(("call on null".into(), holding(&call(21, 10, 10), &[Value::Null, Value::Null]), null));
    all
}
