//! Comparisons, jumps and switches, by the three jumps of the box: ifeq, if_icmplt and goto.

use reference::code::op;

use super::decode::Condition::{self, *};
use super::decode::Op;
use super::flow::Kind;
use super::items::{Level, Operand, Simple};
use super::lower::{astray, Lower, Step};

impl Lower<'_, '_> {
    fn target(&self, point: usize) -> Step<usize> {
        self.source.place(point).ok_or_else(|| astray("a jump to where no instruction starts"))
    }

    pub fn if_zero(&mut self, condition: Condition, target: usize) -> Step<()> {
        self.pop_kind(true)?;
        match condition {
            Equal | NotEqual => self.jump_if(op::IFEQ, condition == Equal, target),
            Less | AtLeast => {
                self.items.int(0);
                self.jump_if(op::IF_ICMPLT, condition == Less, target)
            }
            AtMost | Greater => {
                self.items.int(1);
                self.jump_if(op::IF_ICMPLT, condition == AtMost, target)
            }
        }
    }

    pub fn if_two(&mut self, condition: Condition, target: usize) -> Step<()> {
        let (b, a) = (self.pop_kind(true)?, self.pop_kind(true)?);
        match condition {
            Equal | NotEqual => {
                self.items.plain(op::ISUB);
                self.jump_if(op::IFEQ, condition == Equal, target)
            }
            Less | AtLeast => self.jump_if(op::IF_ICMPLT, condition == Less, target),
            AtMost | Greater => {
                // a <= b is a < b + 1 where b + 1 doesn't wrap
                let is_better = condition == AtMost || !self.swaps(&a, &b);
                if let Some(more) = if is_better { self.one_more(&b) } else { None } {
                    self.items.int(more);
                    return self.jump_if(op::IF_ICMPLT, condition == AtMost, target);
                }
                self.swap(&a, &b)?;
                self.jump_if(op::IF_ICMPLT, condition == Greater, target)
            }
        }
    }

    /// Of a constant that can be one more, its code is taken away.
    fn one_more(&mut self, b: &Operand) -> Option<i32> {
        let Some(Simple::Int(int)) = b.simple else {
            return None;
        };
        let more = int.checked_add(1)?;
        let from = self.items.together(std::slice::from_ref(b))?;
        self.items.all.truncate(from);
        Some(more)
    }

    /// Can the two topmost operands be made in the other order? What one does must not matter to the other.
    fn swaps(&self, a: &Operand, b: &Operand) -> bool {
        let apart = match a.level.min(b.level) {
            Level::Constant | Level::Locals => true,
            Level::Fields | Level::Calls => false,
        };
        apart && self.items.together(&[a.clone(), b.clone()]).is_some()
    }

    /// Brings the two topmost operands into the other order.
    fn swap(&mut self, a: &Operand, b: &Operand) -> Step<()> {
        if self.swaps(a, b) {
            if let (Some((from, _)), Some((middle, _))) = (a.made, b.made) {
                self.items.all[from..].rotate_left(middle - from);
                return Ok(());
            }
        }
        let spares = self.spares(2, "this comparison")?;
        spares.iter().for_each(|&local| self.items.store(&Kind::Int, local));
        spares.iter().for_each(|&local| self.items.load(&Kind::Int, local));
        Ok(())
    }

    /// A jump that is taken if the opcode's test holds, or if it doesn't.
    fn jump_if(&mut self, opcode: u8, holds: bool, target: usize) -> Step<()> {
        let target = self.target(target)?;
        if holds {
            self.items.jump(opcode, target);
            return Ok(());
        }
        if let Some(over) = self.goto_behind(target)? {
            self.items.jump(opcode, over);
            self.skips = 1;
            return Ok(());
        }
        self.items.jump(opcode, self.place + 1);
        self.items.jump(op::GOTO, target);
        self.marks_next = true;
        Ok(())
    }

    /// Where a goto behind this jump goes, if this one jumps just over it and nothing else comes to it.
    fn goto_behind(&self, target: usize) -> Step<Option<usize>> {
        let next = self.place + 1;
        match self.source.instructions.get(next).map(|instruction| &instruction.op) {
            Some(Op::Goto(over)) if target == next + 1 && !self.source.is_framed(next) => self.target(*over).map(Some),
            _ => Ok(None),
        }
    }

    pub fn goto(&mut self, target: usize) -> Step<()> {
        let target = self.target(target)?;
        if target != self.place + 1 {
            self.items.jump(op::GOTO, target);
        }
        Ok(())
    }

    pub fn switch(&mut self, default: usize, cases: &[(i32, usize)]) -> Step<()> {
        let value = self.pop_kind(true)?;
        let local = self.in_a_local(&value)?;
        let default = self.target(default)?;
        let mut cases = cases.iter().map(|&(int, target)| Ok((int, self.target(target)?))).collect::<Step<Vec<_>>>()?;
        cases.sort_by_key(|case| case.0);
        cases.dedup_by_key(|case| case.0);
        let ranges = ranges(default, &cases);
        cases.retain(|case| case.1 != default);
        let before = self.items.all.len();
        let last = self.by_ranges(local, &ranges);
        let by_ranges = self.items.all.split_off(before);
        self.one_by_one(local, &cases);
        let size = |items: &[super::items::Item]| items.iter().map(|item| item.bytes.len()).sum::<usize>();
        let is_shorter = size(&by_ranges) < size(&self.items.all[before..]);
        if is_shorter {
            self.items.all.truncate(before);
            self.items.all.extend(by_ranges);
        }
        let rest = if is_shorter { last } else { default };
        if rest != self.place + 1 {
            self.items.jump(op::GOTO, rest);
        }
        Ok(())
    }

    /// A local that holds the topmost int, which is taken away.
    fn in_a_local(&mut self, value: &Operand) -> Step<u8> {
        if let (Some(Simple::Local(local)), Some(from)) = (&value.simple, self.items.together(std::slice::from_ref(value))) {
            self.items.all.truncate(from);
            return Ok(*local);
        }
        let local = self.spares(1, "switch")?[0];
        self.items.store(&Kind::Int, local);
        Ok(local)
    }

    /// A jump for each case.
    fn one_by_one(&mut self, local: u8, cases: &[(i32, usize)]) {
        for &(int, target) in cases {
            self.items.load(&Kind::Int, local);
            if int != 0 {
                self.items.int(int);
                self.items.plain(op::ISUB);
            }
            self.items.jump(op::IFEQ, target);
        }
    }

    /// A jump for each range but the last, whose target is given.
    fn by_ranges(&mut self, local: u8, ranges: &[(i32, usize)]) -> usize {
        for pair in ranges.windows(2) {
            self.items.load(&Kind::Int, local);
            self.items.int(pair[1].0);
            self.items.jump(op::IF_ICMPLT, pair[0].1);
        }
        ranges.last().map_or(0, |range| range.1)
    }
}

/// The ranges of ints that go to one target, each by its first, from the least int on.
fn ranges(default: usize, cases: &[(i32, usize)]) -> Vec<(i32, usize)> {
    let mut all = vec![(i32::MIN, default)];
    for &(int, target) in cases {
        if int == i32::MIN {
            all.clear();
        }
        all.push((int, target));
        all.extend(int.checked_add(1).map(|next| (next, default)));
    }
    // of two that begin with one int the later counts; neighbours of one target are one range
    let mut kept: Vec<(i32, usize)> = Vec::new();
    for range in all {
        if kept.last().is_some_and(|last| last.0 == range.0) {
            kept.pop();
        }
        if kept.last().map(|last| last.1) != Some(range.1) {
            kept.push(range);
        }
    }
    kept
}
