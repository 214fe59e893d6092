//! Code of the box under way: instructions with their Java lines, and what is known of each operand's making.

use reference::code::op;

use super::flow::{Kind, LOCALS};

/// One instruction of the box.
#[derive(Clone, Debug)]
pub struct Item {
    pub bytes: Vec<u8>,
    /// The place of the Java instruction that it jumps to.
    pub jump: Option<usize>,
    pub line: Option<u16>,
}

impl Item {
    /// Does nothing go from it to the next instruction?
    pub fn ends_path(&self) -> bool {
        matches!(self.bytes.first(), Some(&(op::GOTO | op::IRETURN | op::ARETURN)))
    }
}

/// How an operand can be had again without its code.
#[derive(Clone, Debug, PartialEq, Eq)]
pub enum Simple {
    Int(i32),
    Local(u8),
}

/// How far the making of an operand depends on what else happens.
#[derive(Clone, Copy, Debug, PartialEq, Eq, PartialOrd, Ord)]
pub enum Level {
    Constant,
    /// It reads locals.
    Locals,
    /// It reads fields, or may be refused, as a division.
    Fields,
    /// It calls or makes objects.
    Calls,
}

/// An operand.
#[derive(Clone, Debug)]
pub struct Operand {
    pub kind: Kind,
    /// The items that make it, from and to, if they stand together.
    pub made: Option<(usize, usize)>,
    pub level: Level,
    pub simple: Option<Simple>,
}

impl Operand {
    /// One of which nothing is known but its type.
    pub fn opaque(kind: Kind) -> Operand {
        Operand { kind, made: None, level: Level::Calls, simple: None }
    }
}

#[derive(Default)]
pub struct Items {
    pub all: Vec<Item>,
    pub line: Option<u16>,
}

impl Items {
    pub fn bytes(&mut self, bytes: &[u8]) {
        self.all.push(Item { bytes: bytes.to_vec(), jump: None, line: self.line });
    }

    pub fn plain(&mut self, opcode: u8) {
        self.bytes(&[opcode]);
    }

    pub fn names(&mut self, opcode: u8, names: &[u16]) {
        let inline = names.iter().flat_map(|name| name.to_be_bytes());
        self.bytes(&[opcode].into_iter().chain(inline).collect::<Vec<u8>>());
    }

    pub fn jump(&mut self, opcode: u8, place: usize) {
        self.all.push(Item { bytes: vec![opcode, 0, 0], jump: Some(place), line: self.line });
    }

    pub fn load(&mut self, kind: &Kind, local: u8) {
        self.bytes(&[if *kind == Kind::Int { op::ILOAD } else { op::ALOAD }, local]);
    }

    pub fn store(&mut self, kind: &Kind, local: u8) {
        self.bytes(&[if *kind == Kind::Int { op::ISTORE } else { op::ASTORE }, local]);
    }

    pub fn int(&mut self, int: i32) {
        for part in constant(int) {
            match part {
                Part::Short(short) => self.names(op::SIPUSH, &[short as u16]),
                Part::Op(opcode) => self.plain(opcode),
            }
        }
    }

    pub fn simple(&mut self, kind: &Kind, simple: &Simple) {
        match *simple {
            Simple::Int(int) => self.int(int),
            Simple::Local(local) => self.load(kind, local),
        }
    }

    /// Where the making of these operands, the lowest first, begins, if it stands together at the end of the code.
    pub fn together(&self, operands: &[Operand]) -> Option<usize> {
        let mut end = self.all.len();
        for operand in operands.iter().rev() {
            let (from, to) = operand.made?;
            if to != end {
                return None;
            }
            end = from;
        }
        Some(end)
    }
}

/// A part of a constant's making.
#[derive(Clone, Copy)]
enum Part {
    Short(i16),
    Op(u8),
}

/// The instructions that make an int: sipush alone, or shorts multiplied and added, which wraps as it should.
fn constant(int: i32) -> Vec<Part> {
    use Part::{Op, Short};
    if let Ok(short) = i16::try_from(int) {
        return vec![Short(short)];
    }
    let product = |a: i16, b: i16| if a == b { vec![Short(a), Op(op::DUP), Op(op::IMUL)] } else { vec![Short(a), Short(b), Op(op::IMUL)] };
    if let Some((a, b)) = factors(int) {
        return product(a, b);
    }
    let is_near = i16::try_from(int / i32::from(i16::MAX)).is_ok();
    let (a, b) = nearest_product(if is_near { int } else { int / 2 });
    let mut parts = product(a, b);
    let mut made = i32::from(a).wrapping_mul(b.into());
    if !is_near {
        parts.extend([Op(op::DUP), Op(op::IADD)]);
        made = made.wrapping_add(made);
    }
    match int.wrapping_sub(made) {
        0 => {}
        rest => {
            parts.extend(constant(rest));
            parts.push(Op(op::IADD));
        }
    }
    parts
}

/// Two shorts with this product: equal ones if there are any.
fn factors(int: i32) -> Option<(i16, i16)> {
    let root = (f64::from(int.max(0)).sqrt().round() as i32).clamp(0, i16::MAX.into());
    if root * root == int {
        return Some((root as i16, root as i16));
    }
    let other = |a: i32| (int % a == 0).then(|| i16::try_from(int / a).ok())?;
    (2..=32_767).find_map(|a| Some((a as i16, other(a)?)))
}

/// Two shorts whose product is near; of the largest, which are doubled then and wrap, one product does.
fn nearest_product(int: i32) -> (i16, i16) {
    if int.unsigned_abs() > 32_767 * 32_768 {
        return (i16::MIN, i16::MIN);
    }
    let side = (f64::from(int).abs().sqrt().round() as i32).clamp(1, i16::MAX.into());
    let other = (int / side).clamp(i16::MIN.into(), i16::MAX.into());
    (side as i16, other as i16)
}

/// The locals of a frame that may be written without harm, the highest first.
pub fn spare(live: u8) -> impl Iterator<Item = u8> {
    (0..LOCALS as u8).rev().filter(move |local| live & 1 << local == 0)
}

#[cfg(test)]
mod tests {
    use super::*;

    fn value(int: i32) -> (i32, usize) {
        let (mut stack, mut bytes) = (Vec::new(), 0);
        for part in constant(int) {
            bytes += if let Part::Short(_) = part { 3 } else { 1 };
            match part {
                Part::Short(short) => stack.push(i32::from(short)),
                Part::Op(op::DUP) => stack.push(*stack.last().unwrap()),
                Part::Op(opcode) => {
                    let (b, a) = (stack.pop().unwrap(), stack.pop().unwrap());
                    stack.push(if opcode == op::IMUL { a.wrapping_mul(b) } else { a.wrapping_add(b) });
                }
            }
        }
        assert_eq!(stack.len(), 1);
        (stack[0], bytes)
    }

    #[test]
    fn every_constant_is_made() {
        let edges = [0, 1, 1 << 15, 1 << 16, 1 << 30, i32::MAX, i32::MIN, -(1 << 30), 1_000_000, 65_535, -32_769, 99_991 * 7];
        let near = edges.iter().flat_map(|&edge: &i32| (-40..=40).map(move |by| edge.wrapping_add(by)));
        let spread = (0..40_000u32).map(|i| i.wrapping_mul(2_654_435_761) as i32);
        for int in near.chain(spread) {
            let (made, bytes) = value(int);
            assert_eq!(made, int);
            assert!(bytes <= 21, "{int} takes {bytes} bytes");
        }
    }
}
