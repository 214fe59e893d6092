//! Choices, loops and dead code for a walk, with the maps that they need.

use super::walk::Walk;
use crate::store::{INT, LOCALS, OBJECT};
use crate::verifier::Type;

/// The types that flow somewhere.
#[derive(Clone)]
struct State {
    operands: Vec<Type>,
    locals: [Type; LOCALS],
}

impl Walk<'_> {
    /// Something with a jump in it.
    pub fn branch(&mut self) {
        let (floor, fixed) = (self.floor, self.fixed);
        self.depth += 1;
        self.floor = self.operands.len();
        match self.rng.weighted(&[6, 5, 2, 2, 1]) {
            0 => self.choice(),
            1 => self.countdown(),
            2 => self.dead_code(),
            3 => self.early_return(),
            _ => self.spin(),
        }
        self.depth -= 1;
        (self.floor, self.fixed) = (floor, fixed);
    }

    fn new_label(&mut self) -> u16 {
        self.labels += 1;
        self.labels
    }

    fn state(&self) -> State {
        State { operands: self.operands.clone(), locals: self.locals }
    }

    fn restore(&mut self, state: State) {
        (self.operands, self.locals) = (state.operands, state.locals);
    }

    /// A name that stands above these, mostly, or one of them; nothing where ints and references meet or a local is unset.
    fn joined(&mut self, types: &[Type]) -> Option<u16> {
        if types.contains(&Type::Unset) || types.contains(&Type::Int) {
            return types.iter().all(|&of| of == Type::Int).then_some(INT);
        }
        let names: Vec<u16> = types.iter().filter_map(|of| if let Type::Class(name) = of { Some(*name) } else { None }).collect();
        let alike = names.windows(2).all(|pair| pair[0] == pair[1]);
        Some(match names.first() {
            None => self.some_class(),
            Some(&name) if alike && self.rng.percent(75) => name,
            Some(_) => match self.rng.below(20) {
                0 => self.some_class(),
                1..=4 => OBJECT,
                5..=9 => self.above(&names),
                _ => self.rng.pick(&names),
            },
        })
    }

    /// A class that all of these are below by the blueprint, else Object.
    fn above(&mut self, names: &[u16]) -> u16 {
        let up = self.blueprint.upward(names[0]);
        let is_above = |name: u16| names.iter().all(|&lower| self.blueprint.downward(name).contains(&lower));
        let above: Vec<u16> = up.iter().map(|sketch| sketch.name).filter(|&name| is_above(name)).collect();
        if above.is_empty() { OBJECT } else { self.rng.pick(&above) }
    }

    /// A map here that these flow into, mostly; its types are those of the point.
    fn map(&mut self, states: &[State]) {
        let mut locals = [0; LOCALS];
        for (local, of) in locals.iter_mut().enumerate() {
            let types: Vec<Type> = states.iter().map(|state| state.locals[local]).collect();
            let is_fixed = self.fixed >> local & 1 == 1 && self.rng.percent(98);
            *of = match types[0] {
                Type::Class(name) if is_fixed => name,
                _ if !is_fixed && self.rng.percent(12) => 0,
                _ => self.joined(&types).unwrap_or(0),
            };
        }
        let operands: Vec<u16> = (0..states[0].operands.len())
            .map(|place| {
                let types: Vec<Type> = states.iter().map(|state| state.operands[place]).collect();
                self.joined(&types).unwrap_or(INT)
            })
            .collect();
        self.emit(|code| code.map(&locals, &operands));
        self.operands = operands.into_iter().map(Type::named).collect();
        self.locals = locals.map(|of| if of == 0 { Type::Unset } else { Type::named(of) });
    }

    fn point(&mut self, label: u16, states: &[State]) {
        self.emit(|code| code.label(label));
        self.map(states);
    }

    /// Point 0 may have a map too.
    pub fn map_at_entry(&mut self) {
        let state = self.state();
        let label = self.new_label();
        self.point(label, &[state]);
    }

    /// A jump that is taken or not.
    fn condition(&mut self, label: u16) {
        self.int();
        if self.rng.percent(50) {
            self.operands.pop();
            return self.emit(|code| code.ifeq(label));
        }
        self.int();
        self.operands.truncate(self.operands.len() - 2);
        self.emit(|code| code.if_icmplt(label));
    }

    /// A few actions, after which as many operands are left as before.
    fn block(&mut self) {
        for _ in 0..self.rng.below(4) {
            self.action();
        }
        while self.operands.len() > self.floor {
            self.pop();
        }
    }

    /// A block for each way, and then perhaps an operand that both leave.
    fn choice(&mut self) {
        let (other, join) = (self.new_label(), self.new_label());
        let leaves = self.rng.below(3);
        self.condition(other);
        let before = self.state();
        let mut flowing = Vec::new();
        self.block();
        if self.rng.percent(15) {
            self.give_back();
        } else {
            self.leave(leaves);
            self.emit(|code| code.goto(join));
            flowing.push(self.state());
        }
        self.restore(before.clone());
        self.point(other, &[before]);
        self.block();
        self.leave(leaves);
        flowing.push(self.state());
        self.point(join, &flowing);
    }

    /// Leaves nothing, an int or a reference.
    fn leave(&mut self, what: usize) {
        match what {
            0 => {}
            1 => self.int(),
            _ => self.some_reference(),
        }
    }

    /// A loop that counts a local down to 0.
    fn countdown(&mut self) {
        let free: Vec<u8> = (2..8).filter(|local| self.fixed >> local & 1 == 0).collect();
        if free.is_empty() {
            return self.early_return();
        }
        let (again, done) = (self.new_label(), self.new_label());
        let (counter, times) = (self.rng.pick(&free), self.rng.within(1, 4) as i16);
        self.emit(|code| code.int(times).istore(counter));
        self.locals[usize::from(counter)] = Type::Int;
        self.fixed |= 1 << counter;
        let state = self.state();
        self.point(again, &[state]);
        self.fixed = (0..8).filter(|&local| self.locals[local] != Type::Unset).fold(0, |fixed, local| fixed | 1 << local);
        self.block();
        self.emit(|code| code.iload(counter).int(1).isub().istore(counter));
        if self.rng.percent(50) {
            return self.emit(|code| code.int(0).iload(counter).if_icmplt(again));
        }
        self.emit(|code| code.iload(counter).ifeq(done).goto(again));
        let state = self.state();
        self.point(done, &[state]);
    }

    /// Code that nothing jumps to, with types of its own. It ends by a return, by a jump to itself, or in what follows.
    fn dead_code(&mut self) {
        let (over, dead) = (self.new_label(), self.new_label());
        self.emit(|code| code.goto(over));
        let state = self.state();
        for local in 0..LOCALS {
            let name = self.some_class();
            self.locals[local] = self.rng.pick(&[Type::Unset, Type::Int, Type::Class(name)]);
        }
        let own = self.state();
        self.point(dead, &[own]);
        self.block();
        let mut flowing = vec![state];
        match self.rng.below(3) {
            0 => self.give_back(),
            1 => {
                let own = self.state();
                let label = self.new_label();
                self.point(label, &[own]);
                self.emit(|code| code.goto(label));
            }
            _ => flowing.push(self.state()),
        }
        self.restore(flowing[0].clone());
        self.point(over, &flowing);
    }

    fn early_return(&mut self) {
        let past = self.new_label();
        self.condition(past);
        let before = self.state();
        self.block();
        self.give_back();
        self.restore(before.clone());
        self.point(past, &[before]);
    }

    /// A goto to itself, which is passed by mostly.
    fn spin(&mut self) {
        let (past, here) = (self.new_label(), self.new_label());
        let runs = i16::from(self.rng.percent(8));
        self.emit(|code| code.int(runs).ifeq(past));
        let state = self.state();
        self.point(here, std::slice::from_ref(&state));
        self.emit(|code| code.goto(here));
        self.point(past, &[state]);
    }
}
