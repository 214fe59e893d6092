//! Random Java programs within what is taken: three classes each, one below another, and methods that call the earlier ones.

use std::fmt::Write;

use reference::gen::rng::Rng;

/// The ints that each program's method `of` is run with.
pub const INPUTS: [i32; 5] = [i32::MIN, -3, 0, 5, 1_000_003];

/// A program: its classes, superclasses first, each with its Java text; the last one has the method `of`.
pub struct Program {
    pub classes: Vec<(String, String)>,
}

#[derive(Clone, Copy, PartialEq, Eq)]
enum Of {
    Int,
    Bool,
    /// The upper class of the two small ones.
    Upper,
}

/// A method that may be called: on what, and its arguments.
#[derive(Clone)]
struct Callable {
    on: Of,
    name: String,
    arguments: Vec<Of>,
    result: Option<Of>,
    level: usize,
}

struct Writer {
    rng: Rng,
    out: String,
    number: u64,
    /// Locals in scope; those that are loop counters aren't written.
    locals: Vec<(String, Of, bool)>,
    /// The fields of this, as far as they are known.
    fields: Vec<(String, Of)>,
    callables: Vec<Callable>,
    level: usize,
    /// How many locals the method has had, and loops it is in.
    count: usize,
    loops: usize,
    result: Option<Of>,
    words: usize,
    is_small: bool,
}

/// A program whose classes and members are visible so: `public ` or nothing.
pub fn program(seed: u64, number: u64, visible: &str) -> Program {
    let mut writer = Writer {
        rng: Rng::new(seed), out: String::new(), number, locals: Vec::new(), fields: Vec::new(), callables: Vec::new(), level: 0, count: 0,
        loops: 0, result: None, words: 0, is_small: false,
    };
    let parts: [fn(&mut Writer, &str); 3] = [Writer::upper_class, Writer::lower_class, Writer::main];
    let texts = parts.map(|part| {
        part(&mut writer, visible);
        std::mem::take(&mut writer.out)
    });
    let names = ["A", "B", ""].map(|end| format!("P{number}{end}"));
    Program { classes: names.into_iter().zip(texts).collect() }
}

/// The methods of the two small classes: one without calls, and one that may call it.
fn small() -> [Callable; 2] {
    let g = Callable { on: Of::Upper, name: "g".into(), arguments: vec![Of::Int, Of::Int], result: Some(Of::Int), level: 0 };
    let f = Callable { on: Of::Upper, name: "f".into(), arguments: vec![Of::Int], result: Some(Of::Int), level: 1 };
    [g, f]
}

impl Writer {
    fn pick<'a>(&mut self, of: &[&'a str]) -> &'a str {
        of[self.rng.below(of.len())]
    }

    fn chance(&mut self, of: usize) -> bool {
        self.rng.below(of) == 0
    }

    fn upper_class(&mut self, visible: &str) {
        let number = self.number;
        self.fields = vec![("x".into(), Of::Int), ("q".into(), Of::Bool), ("next".into(), Of::Upper)];
        let _ = writeln!(self.out, "{visible}class P{number}A {{\n    {visible}int x;\n    {visible}boolean q;\n    {visible}P{number}A next;");
        for method in small() {
            self.method(&method, visible);
            self.callables.push(method);
        }
        self.out.push_str("}\n");
    }

    /// It may hide the field and override the methods.
    fn lower_class(&mut self, visible: &str) {
        let number = self.number;
        let _ = writeln!(self.out, "{visible}class P{number}B extends P{number}A {{\n    {visible}int y;");
        self.fields.push(("y".into(), Of::Int));
        if self.chance(2) {
            let _ = writeln!(self.out, "    {visible}int x;");
        }
        for method in small() {
            if self.chance(2) {
                self.method(&method, visible);
            }
        }
        self.out.push_str("}\n");
    }

    fn main(&mut self, visible: &str) {
        let number = self.number;
        self.fields = vec![("t".into(), Of::Int), ("b".into(), Of::Bool), ("a".into(), Of::Upper)];
        let _ = writeln!(self.out, "{visible}class P{number} {{\n    int t;\n    boolean b;\n    P{number}A a;");
        for place in 0..self.rng.within(1, 4) {
            let count = self.rng.below(4);
            let kinds = [Of::Int, Of::Int, Of::Int, Of::Bool, Of::Upper];
            let arguments = (0..count).map(|_| kinds[self.rng.below(5)]).collect();
            let result = [Some(Of::Int), Some(Of::Int), Some(Of::Bool), None, Some(Of::Upper)][self.rng.below(5)];
            let callable = Callable { on: Of::Int, name: format!("m{place}"), arguments, result, level: 2 + place };
            let own = if self.chance(3) { "private " } else { visible };
            self.method(&callable, own);
            self.callables.push(callable);
        }
        let of = Callable { on: Of::Int, name: "of".into(), arguments: vec![Of::Int], result: Some(Of::Int), level: 9 };
        self.method(&of, visible);
        self.out.push_str("}\n");
    }

    fn said(&self, of: Option<Of>) -> String {
        match of {
            None => "void".into(),
            Some(Of::Int) => "int".into(),
            Some(Of::Bool) => "boolean".into(),
            Some(Of::Upper) => format!("P{}A", self.number),
        }
    }

    fn method(&mut self, callable: &Callable, visible: &str) {
        self.level = callable.level;
        self.result = callable.result;
        self.is_small = callable.level < 2;
        self.locals = callable.arguments.iter().enumerate().map(|(place, &of)| (format!("p{place}"), of, true)).collect();
        (self.count, self.loops, self.words) = (self.locals.len(), 0, 0);
        let arguments: Vec<String> = self.locals.iter().map(|(name, of, _)| format!("{} {name}", self.said(Some(*of)))).collect();
        let _ = writeln!(self.out, "    {visible}{} {}({}) {{", self.said(callable.result), callable.name, arguments.join(", "));
        let statements = self.rng.within(1, if self.is_small { 3 } else { 5 });
        self.block(statements, 2);
        if let Some(of) = callable.result {
            let value = self.value(of, 2);
            let _ = writeln!(self.out, "        return {value};");
        }
        self.out.push_str("    }\n");
    }

    /// Statements, after which the locals that they declare are gone.
    fn block(&mut self, statements: usize, depth: usize) {
        let there = self.locals.len();
        for _ in 0..statements {
            if self.words < 40 {
                self.statement(depth);
            }
        }
        self.locals.truncate(there);
    }

    fn line(&mut self, text: &str) {
        let _ = writeln!(self.out, "        {text}");
    }

    fn statement(&mut self, depth: usize) {
        self.words += 4;
        match self.rng.below(12) {
            0 | 1 if self.count < 5 => self.declare(),
            2..=4 => self.assign(),
            5 | 6 if depth > 0 => self.choose(depth),
            7 if depth > 0 && self.loops == 0 && self.count < 5 => self.repeat(depth),
            8 if depth > 0 => self.switch(depth),
            9 => {
                let call = self.call_statement();
                self.line(&call);
            }
            10 if self.loops > 0 => {
                let (when, what) = (self.value(Of::Bool, 1), self.pick(&["break", "continue"]));
                self.line(&format!("if ({when}) {what};"));
            }
            11 if depth > 0 => {
                let when = self.value(Of::Bool, 1);
                let value = self.result.map(|of| self.value(of, 1)).unwrap_or_default();
                self.line(&format!("if ({when}) return {value};"));
            }
            _ => self.assign(),
        }
    }

    fn declare(&mut self) {
        let of = [Of::Int, Of::Int, Of::Bool, Of::Upper][self.rng.below(4)];
        let value = if of == Of::Upper && self.chance(3) { "null".into() } else { self.value(of, 2) };
        let name = format!("v{}", self.count);
        self.line(&format!("{} {name} = {value};", self.said(Some(of))));
        self.count += 1;
        self.locals.push((name, of, true));
    }

    fn assign(&mut self) {
        match self.rng.below(6) {
            0 => {
                let place = self.place(Of::Bool);
                let value = self.value(Of::Bool, 2);
                self.line(&format!("{place} = {value};"));
            }
            1 => {
                let place = self.place(Of::Upper);
                let value = if self.chance(4) { "null".into() } else { self.value(Of::Upper, 1) };
                self.line(&format!("{place} = {value};"));
            }
            2 => {
                let (place, by) = (self.place(Of::Int), self.pick(&["++", "--"]));
                self.line(&format!("{place}{by};"));
            }
            3 => {
                let (one, other, value) = (self.place(Of::Int), self.place(Of::Int), self.value(Of::Int, 1));
                self.line(&format!("{one} = {other} = {value};"));
            }
            _ => {
                let (place, by) = (self.place(Of::Int), self.pick(&["=", "=", "+=", "-=", "*=", "/=", "%="]));
                let value = self.value(Of::Int, 3);
                self.line(&format!("{place} {by} {value};"));
            }
        }
    }

    /// Something that can be written.
    fn place(&mut self, of: Of) -> String {
        let mut all: Vec<String> = self.locals.iter().filter(|local| local.1 == of && local.2).map(|local| local.0.clone()).collect();
        all.extend(self.fields.iter().filter(|field| field.1 == of).map(|field| field.0.clone()));
        if self.chance(4) {
            let on = self.value(Of::Upper, 1);
            let field = match of {
                Of::Int => "x",
                Of::Bool => "q",
                Of::Upper => "next",
            };
            return format!("{on}.{field}");
        }
        all[self.rng.below(all.len())].clone()
    }

    fn choose(&mut self, depth: usize) {
        let when = self.value(Of::Bool, 2);
        self.line(&format!("if ({when}) {{"));
        self.block(2, depth - 1);
        if self.chance(2) {
            self.line("} else {");
            self.block(2, depth - 1);
        }
        self.line("}");
    }

    fn repeat(&mut self, depth: usize) {
        let name = format!("v{}", self.count);
        let most = self.rng.within(1, 4);
        self.count += 1;
        self.loops += 1;
        let there = self.locals.len();
        let way = self.rng.below(3);
        self.line(&match way {
            0 => format!("for (int {name} = 0; {name} < {most}; {name}++) {{"),
            1 => format!("for (int {name} = {most}; {name} > 0; {name} -= 1) {{"),
            _ => format!("int {name} = {most}; while ({name}-- >= 1) {{"),
        });
        self.locals.push((name, Of::Int, false));
        self.block(2, depth - 1);
        self.line("}");
        self.locals.truncate(there);
        self.loops -= 1;
    }

    fn switch(&mut self, depth: usize) {
        let on = self.value(Of::Int, 1);
        let on = if self.chance(2) { format!("({on}) % 7") } else { on };
        self.line(&format!("switch ({on}) {{"));
        let mut next = self.rng.within(0, 6) as i64 - 3;
        for _ in 0..self.rng.within(1, 4) {
            self.line(&format!("case {next}:"));
            if self.chance(4) {
                self.assign();
            } else {
                self.block(1, depth - 1);
                self.line("break;");
            }
            next += [1, 1, 1, 2, 40_000][self.rng.below(5)];
        }
        if self.chance(2) {
            self.line("default:");
            self.assign();
        }
        self.line("}");
    }

    /// A call with its arguments, of a method with this result; nothing if there is none.
    fn call(&mut self, result: Option<Of>, depth: usize) -> Option<String> {
        let level = self.level;
        let fits = |callable: &&Callable| callable.level < level && callable.result == result && self.loops + depth < 4;
        let all: Vec<Callable> = self.callables.iter().filter(fits).cloned().collect();
        if all.is_empty() {
            return None;
        }
        let callable = all[self.rng.below(all.len())].clone();
        self.words += 3;
        let arguments: Vec<String> = callable.arguments.iter().map(|&of| self.value(of, depth.saturating_sub(1))).collect();
        let on = match callable.on {
            Of::Upper if self.is_small => String::new(),
            Of::Upper => format!("{}.", self.value(Of::Upper, 1)),
            _ => String::new(),
        };
        Some(format!("{on}{}({})", callable.name, arguments.join(", ")))
    }

    fn call_statement(&mut self) -> String {
        let result = [None, Some(Of::Int), Some(Of::Bool), Some(Of::Upper)][self.rng.below(4)];
        let other = if self.is_small { "x++" } else { "t++" };
        format!("{};", self.call(result, 2).unwrap_or(other.into()))
    }

    fn value(&mut self, of: Of, depth: usize) -> String {
        self.words += 1;
        match of {
            Of::Int => self.int(depth),
            Of::Bool => self.bool(depth),
            Of::Upper => self.upper(depth),
        }
    }

    fn leaf(&mut self, of: Of) -> Option<String> {
        let mut all: Vec<String> = self.locals.iter().filter(|local| local.1 == of).map(|local| local.0.clone()).collect();
        all.extend(self.fields.iter().filter(|field| field.1 == of).map(|field| field.0.clone()));
        (!all.is_empty()).then(|| all[self.rng.below(all.len())].clone())
    }

    fn int(&mut self, depth: usize) -> String {
        if depth == 0 || self.words > 60 || self.chance(4) {
            return match self.rng.below(3) {
                0 => self.literal(),
                _ => self.leaf(Of::Int).unwrap_or("1".into()),
            };
        }
        let down = depth - 1;
        match self.rng.below(14) {
            0..=4 => {
                let (a, by, b) = (self.int(down), self.pick(&["+", "-", "*", "+", "-", "*", "/", "%"]), self.int(down));
                format!("({a} {by} {b})")
            }
            5 => format!("-({})", self.int(down)),
            6 => format!("({} ? {} : {})", self.bool(down), self.int(down), self.int(down)),
            7 | 8 => self.call(Some(Of::Int), depth).unwrap_or_else(|| self.literal()),
            9 => format!("{}.x", self.upper(1)),
            10 => {
                let (place, by) = (self.place(Of::Int), self.pick(&["++", "--"]));
                if self.chance(2) { format!("{place}{by}") } else { format!("{by}{place}") }
            }
            11 => {
                let (place, by, value) = (self.place(Of::Int), self.pick(&["=", "+=", "*="]), self.int(down));
                format!("({place} {by} {value})")
            }
            _ => self.leaf(Of::Int).unwrap_or("2".into()),
        }
    }

    fn literal(&mut self) -> String {
        match self.rng.below(8) {
            0 => ["Integer.MAX_VALUE", "Integer.MIN_VALUE", "65536", "-32769", "1000000", "123456789", "-2000000011"][self.rng.below(7)].into(),
            1 => ((self.rng.draw() as i32) >> 8).to_string(),
            _ => (self.rng.below(12) as i32 - 3).to_string(),
        }
    }

    fn bool(&mut self, depth: usize) -> String {
        if depth == 0 || self.words > 60 {
            return match self.rng.below(4) {
                0 => self.pick(&["true", "false"]).into(),
                1 => self.compared(0),
                _ => self.leaf(Of::Bool).unwrap_or("true".into()),
            };
        }
        let down = depth - 1;
        match self.rng.below(10) {
            0 => format!("!({})", self.bool(down)),
            1 | 2 => {
                let (a, by, b) = (self.bool(down), self.pick(&["&&", "||"]), self.bool(down));
                format!("({a} {by} {b})")
            }
            3 => {
                let (a, by, b) = (self.bool(down), self.pick(&["==", "!="]), self.bool(down));
                format!("(({a}) {by} ({b}))")
            }
            4 => self.call(Some(Of::Bool), depth).unwrap_or("true".into()),
            5 => format!("{}.q", self.upper(1)),
            _ => self.compared(down),
        }
    }

    fn compared(&mut self, depth: usize) -> String {
        let (a, by, b) = (self.int(depth), self.pick(&["<", "<=", ">", ">=", "==", "!="]), self.int(depth));
        format!("{a} {by} {b}")
    }

    fn upper(&mut self, depth: usize) -> String {
        let number = self.number;
        match self.rng.below(8) {
            0 | 1 => format!("new P{number}A()"),
            2 => format!("new P{number}B()"),
            3 if depth > 0 && !self.is_small => self.call(Some(Of::Upper), depth).unwrap_or(format!("new P{number}B()")),
            4 if depth > 0 => format!("{}.next", self.upper(depth - 1)),
            5 if depth > 1 => format!("({} ? {} : {})", self.bool(0), self.upper(0), self.upper(0)),
            _ => self.leaf(Of::Upper).unwrap_or(format!("new P{number}A()")),
        }
    }
}
