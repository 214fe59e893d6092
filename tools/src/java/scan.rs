//! What of a class isn't taken, found before anything is translated: its kind, its members, its constructors, and each instruction.

use std::collections::HashMap;

use super::bytes::Unreadable;
use super::classfile::{flag, ClassFile, Code, Member};
use super::decode::{decode, Instruction, Op};
use super::pool::MemberRef;
use super::refusals::{Construct, Refusal};
use super::types::{self, package, simple, JavaType};
use super::world::{of_no_box, reachable, Found, World};

/// Limits of the box.
pub const FIELDS: usize = 8;
pub const METHODS: usize = 8;
pub const ALL_FIELDS: usize = 16;
pub const ARGUMENTS: usize = 4;
pub const OPERANDS: u16 = 16;
/// No Java method of more bytes can fit into 512 of the box, but for a table of no use.
const JAVA_CODE: usize = 4_096;
/// The first version whose methods have stack maps.
const FIRST_MAPPED: u16 = 50;

/// Collects what is refused of one class.
pub struct Report<'a> {
    pub file: &'a str,
    /// The Java file's text, if it is at hand.
    pub text: Option<&'a str>,
    pub all: Vec<Refusal>,
}

impl Report<'_> {
    pub fn refuse(&mut self, line: Option<u32>, member: &str, construct: Construct) {
        self.all.push(Refusal { file: self.file.into(), line, member: member.into(), construct });
    }

    pub fn unreadable(&mut self, member: &str, unreadable: Unreadable) {
        let said = format!("the class file can't be read at byte {}: {}", unreadable.at, unreadable.said);
        self.refuse(None, member, Construct::new(said, "compile the source anew"));
    }

    /// The line of the text with all of these words, in their order.
    pub fn line_with(&self, words: &[&str]) -> Option<u32> {
        self.line_that(|there| {
            let mut there = there.iter();
            words.iter().all(|word| there.any(|other| other == word))
        })
    }

    /// The line on which a class is declared.
    pub fn line_of_class(&self, name: &str) -> Option<u32> {
        let own = simple(name).rsplit('$').next().unwrap_or(name);
        let words = ["class", "interface", "enum", "record"];
        self.line_that(|there| there.windows(2).any(|pair| words.contains(&pair[0]) && pair[1] == own))
    }

    fn line_that(&self, fits: impl Fn(&[&str]) -> bool) -> Option<u32> {
        let is_between = |c: char| !(c.is_alphanumeric() || c == '_' || c == '$');
        let words = |line: &'_ str| -> Vec<String> {
            let code = line.split("//").next().unwrap_or("");
            code.split(is_between).filter(|word| !word.is_empty()).map(str::to_string).collect()
        };
        let has = |line: &str| fits(&words(line).iter().map(String::as_str).collect::<Vec<_>>());
        u32::try_from(self.text?.lines().position(has)? + 1).ok()
    }
}

/// A member as people write it.
pub fn said(class: &ClassFile, member: &Member) -> String {
    let name = if member.name == "<init>" { simple(&class.name) } else { &member.name };
    types::method(&member.descriptor).map_or(name.to_string(), |descriptor| format!("{name}{}", descriptor.said()))
}

/// A class that is looked at, in the world of the others.
pub struct Scan<'a, 'b> {
    pub class: &'a ClassFile,
    pub world: &'a World<'a>,
    pub report: &'a mut Report<'b>,
}

impl Scan<'_, '_> {
    pub fn class(&mut self) {
        let line = self.report.line_of_class(&self.class.name);
        if let Some(construct) = self.kind() {
            return self.report.refuse(line, "", construct);
        }
        for construct in self.above() {
            self.report.refuse(line, "", construct);
        }
        self.fields(line);
        self.methods(line);
    }

    /// Why it is no class that the box could have.
    fn kind(&self) -> Option<Construct> {
        let ClassFile { flags, name, superclass, version, .. } = self.class;
        let (home, own) = (package(name), simple(name));
        let is = |flag: u16| flags & flag != 0;
        let is_below = |name: &str| superclass.as_deref() == Some(name);
        let (said, instead) = if is(flag::MODULE) {
            ("a module".into(), "give the class files of classes")
        } else if is(flag::INTERFACE) {
            (format!("interface {own}"), "make it a class whose methods return 0, and extend it")
        } else if is(flag::ENUM) || is_below("java/lang/Enum") {
            (format!("enum {own}"), "use an int for each of its values")
        } else if is_below("java/lang/Record") {
            (format!("record {own}"), "write a class with the fields, and set them after new")
        } else if home.starts_with("java/") {
            (format!("a class of the package {}", home.trim_end_matches('/').replace('/', ".")), "write a class of your own")
        } else if *version < FIRST_MAPPED {
            (format!("a class file of version {version}, without stack maps"), "compile the source anew, with a javac of today")
        } else {
            return None;
        };
        Some(Construct::new(said, instead))
    }

    /// What is wrong with what stands above it.
    fn above(&self) -> Vec<Construct> {
        let instead = "leave out implements; what is shared goes into a class above";
        let interfaces = self.class.interfaces.iter().map(|name| Construct::new(format!("interface {}", simple(name)), instead));
        interfaces.chain(self.superclass()).collect()
    }

    fn superclass(&self) -> Option<Construct> {
        let name = self.class.superclass.as_deref().unwrap_or("");
        if name == "java/lang/Throwable" || name.ends_with("Exception") && name.starts_with("java/") {
            return Some(Construct::new("an exception", "return an int that says so, as -1"));
        }
        if let Err(construct) = reachable(name, package(&self.class.name)) {
            return Some(construct);
        }
        let is_there = name == types::OBJECT || self.world.classes.contains_key(name);
        let said = || Construct::new(format!("the superclass {}, whose class file isn't at hand", simple(name)), format!("give {}.class too, or put it beside this one", simple(name)));
        (!is_there).then(said)
    }

    fn fields(&mut self, line: Option<u32>) {
        let mut count = 0;
        for field in &self.class.fields {
            let of = types::field(&field.descriptor);
            let word = of.as_ref().map_or(String::new(), JavaType::said);
            let word = word.split('[').next().unwrap_or("").to_string();
            let line = self.report.line_with(&[&word, &field.name]).or(line);
            count += usize::from(!field.is(flag::STATIC));
            if let Some(construct) = self.field(field, of) {
                self.report.refuse(line, &format!("the field {}", field.name), construct);
            }
        }
        if count > FIELDS {
            self.report.refuse(line, "", Construct::new(format!("{count} fields"), format!("a class has at most {FIELDS}: put some into another class")));
        }
        let all = self.all_fields();
        if all > ALL_FIELDS {
            let instead = format!("an object has at most {ALL_FIELDS}: put some into another class");
            self.report.refuse(line, "", Construct::new(format!("{all} fields with those of the classes above"), instead));
        }
    }

    fn field(&self, field: &Member, of: Option<JavaType>) -> Option<Construct> {
        if field.name.starts_with("this$") {
            return Some(Construct::new("an inner class, which keeps its outer object", "make it static, or a class of its own"));
        }
        if field.is(flag::STATIC) {
            let is_taken = field.is(flag::FINAL) && field.is_constant && matches!(of, Some(JavaType::Int | JavaType::Boolean));
            let instead = "make it a field of an object, or a method that returns it; a static final int with its value is taken";
            return (!is_taken).then(|| Construct::new("static", instead));
        }
        if self.class.fields.iter().filter(|other| other.name == field.name).count() > 1 {
            return Some(Construct::new("two fields of one name", "call one of them something else"));
        }
        of.map_or_else(|| Some(Construct::new("a type that can't be read", "compile the source anew")), |of| not_on_the_box(&of, package(&self.class.name)))
    }

    /// The fields of an object of the class, as far as the classes above are at hand.
    fn all_fields(&self) -> usize {
        let own = |class: &ClassFile| class.fields.iter().filter(|field| !field.is(flag::STATIC)).count();
        let above = |class: &&ClassFile| class.superclass.as_ref().and_then(|name| self.world.classes.get(name));
        std::iter::successors(Some(self.class), above).take(self.world.classes.len() + 1).map(own).sum()
    }

    fn methods(&mut self, line: Option<u32>) {
        // the body of a lambda is refused where the lambda stands
        for method in self.class.methods.iter().filter(|method| !(method.is(flag::SYNTHETIC) && method.name.starts_with("lambda$"))) {
            let member = said(self.class, method);
            let begin = method.code.as_ref().and_then(|code| code.line(0)).map(u32::from);
            let begin = begin.or_else(|| self.report.line_with(&[&method.name]));
            match self.method(method) {
                Some(construct) => self.report.refuse(begin, &member, construct),
                None => self.code(method, &member),
            }
        }
        let count = self.class.methods.iter().filter(|method| !method.name.starts_with('<')).count();
        if count > METHODS {
            self.report.refuse(line, "", Construct::new(format!("{count} methods"), format!("a class has at most {METHODS}: put some into another class")));
        }
    }

    /// What is wrong with the method as a whole.
    fn method(&self, method: &Member) -> Option<Construct> {
        let refuse = |said: &str, instead: &str| Some(Construct::new(said, instead));
        let Some(descriptor) = types::method(&method.descriptor) else {
            return refuse("a type that can't be read", "compile the source anew");
        };
        if method.name == "<clinit>" {
            return refuse("static: code that runs when the class is loaded", "leave it out, or put it into a method");
        }
        for (flag, said, instead) in [
            (flag::STATIC, "a static method", "leave out static, and call it on an object"),
            (flag::NATIVE, "a native method", "write it in Java"),
            (flag::ABSTRACT, "an abstract method", "give it code, as { return 0; }"),
            (flag::SYNCHRONIZED, "synchronized", "leave it out: the box runs one quote at a time"),
        ] {
            if method.is(flag) {
                return refuse(said, instead);
            }
        }
        let home = package(&self.class.name);
        if let Some(construct) = descriptor.arguments.iter().chain(&descriptor.result).find_map(|of| not_on_the_box(of, home)) {
            return Some(construct);
        }
        let count = descriptor.arguments.len();
        if method.name == "<init>" {
            return if count > 0 { Some(arguments_of_a_constructor()) } else { None };
        }
        if count > ARGUMENTS {
            return Some(Construct::new(format!("{count} arguments"), format!("a method has at most {ARGUMENTS}: put some into the fields of an object")));
        }
        if method.code.is_none() {
            return refuse("a method without code", "compile the source anew");
        }
        self.alike(method)
    }

    /// A method of the class or above that would be the same one on the box.
    fn alike(&self, method: &Member) -> Option<Construct> {
        if method.is(flag::PRIVATE) {
            return None;
        }
        let at = MemberRef { class: self.class.name.clone(), name: method.name.clone(), descriptor: method.descriptor.clone() };
        let (class, other) = self.world.mistaken(&at)?;
        let result = other.result.map_or("void".into(), |of| of.said());
        let arguments: Vec<String> = other.arguments.iter().map(JavaType::said).collect();
        let said = format!("{} beside {result} {class}.{}({})", method.name, method.name, arguments.join(", "));
        Some(Construct::new(said, "call one of the two something else: boolean, void and int are one type on the box"))
    }

    /// What of a method's instructions isn't taken.
    fn code(&mut self, method: &Member, member: &str) {
        let Some(code) = &method.code else {
            return;
        };
        if code.bytes.len() > JAVA_CODE {
            let said = format!("{} bytes of Java code", code.bytes.len());
            return self.report.refuse(code.line(0).map(u32::from), member, Construct::new(said, "a method has at most 512 bytes on the box: share the work among methods"));
        }
        let instructions = match decode(&code.bytes, &self.class.pool) {
            Ok(instructions) => instructions,
            Err(unreadable) => return self.report.unreadable(member, unreadable),
        };
        if method.name == "<init>" {
            return self.constructor(code, &instructions, member);
        }
        self.limits(code, member);
        if let Some(&handler) = code.handlers.first() {
            let construct = Construct::new("try: an exception", "return an int that says so, as -1, and test it");
            self.report.refuse(code.line(handler.into()).map(u32::from), member, construct);
        }
        let mut lines: HashMap<(u32, String), ()> = HashMap::new();
        for instruction in &instructions {
            let Some(construct) = self.instruction(&instruction.op) else {
                continue;
            };
            let line = code.line(instruction.at).map(u32::from);
            if lines.insert((line.unwrap_or(0), construct.said.clone()), ()).is_none() {
                self.report.refuse(line, member, construct);
            }
        }
    }

    fn limits(&mut self, code: &Code, member: &str) {
        let line = code.line(0).map(u32::from);
        if usize::from(code.locals) > super::flow::LOCALS {
            let construct = Construct::new(format!("{} locals", code.locals), "a method has at most 8, this and the arguments among them: share the work among methods");
            self.report.refuse(line, member, construct);
        }
        if code.operands > OPERANDS {
            let construct = Construct::new(format!("{} operands at once", code.operands), "there are at most 16: put parts of the sum into locals first");
            self.report.refuse(line, member, construct);
        }
    }

    /// A constructor calls that of the class above, and may write to its fields what they hold already.
    fn constructor(&mut self, code: &Code, instructions: &[Instruction], member: &str) {
        let class = self.class;
        let is_own = |at: &MemberRef| at.class == class.name && matches!(self.world.field(at), Found::Member(in_class, _) if in_class.name == class.name);
        let is_super = |at: &MemberRef| at.name == "<init>" && at.descriptor == "()V" && Some(&at.class) == class.superclass.as_ref();
        let mut rest: &[Instruction] = instructions;
        loop {
            let ops: Vec<&Op> = rest.iter().take(3).map(|instruction| &instruction.op).collect();
            rest = match ops[..] {
                [Op::Return] => return,
                [Op::LoadReference(0), Op::CallItself(at), ..] if is_super(at) && rest.len() == instructions.len() => &rest[2..],
                [Op::LoadReference(0), Op::Int(0) | Op::Null, Op::Put(at)] if is_own(at) => &rest[3..],
                _ => break,
            };
        }
        let line = rest.first().and_then(|instruction| code.line(instruction.at)).map(u32::from);
        self.report.refuse(line, member, Construct::new("a constructor that does something, as a field with a value",
            "leave it out, and set the fields after new, or in a method that returns this"));
    }

    fn instruction(&self, op: &Op) -> Option<Construct> {
        let home = package(&self.class.name);
        match op {
            Op::Refused(construct) => Some(construct.clone()),
            Op::New(name) => reachable(name, home).err(),
            Op::Get(at) | Op::Put(at) => reachable(&at.class, home).err().or_else(|| {
                types::field(&at.descriptor).map_or_else(|| Some(of_no_box(&at.descriptor)), |of| not_on_the_box(&of, home))
            }),
            Op::Call(at) | Op::CallItself(at) => self.call(op, at),
            _ => None,
        }
    }

    fn call(&self, op: &Op, at: &MemberRef) -> Option<Construct> {
        let home = package(&self.class.name);
        if let Err(construct) = reachable(&at.class, home) {
            return Some(construct);
        }
        let Some(descriptor) = types::method(&at.descriptor) else {
            return Some(of_no_box(&at.descriptor));
        };
        if at.name == "<init>" {
            return (!descriptor.arguments.is_empty()).then(arguments_of_a_constructor);
        }
        if let Some(construct) = descriptor.arguments.iter().chain(&descriptor.result).find_map(|of| not_on_the_box(of, home)) {
            return Some(construct);
        }
        let found = self.world.method(at);
        match (&found, op) {
            (Found::Absent, _) => {
                return Some(Construct::new(format!("a call of Object's method {}", at.name), "the box's Object has no methods: write one of your own"));
            }
            (Found::Unknown, _) if is_of_one_nest(&at.class, &self.class.name) => {
                let name = simple(&at.class);
                return Some(Construct::new(format!("a call of a method of {name}, whose class file isn't at hand"), format!("give {name}.class too")));
            }
            (Found::Member(_, method), Op::CallItself(_)) if method.is(flag::PRIVATE) => {}
            (_, Op::CallItself(_)) => {
                let said = format!("super.{}: a call of what is overridden", at.name);
                return Some(Construct::new(said, "put what both need into a method of another name, and call that"));
            }
            _ => {}
        }
        let (class, other) = self.world.mistaken(at).filter(|_| !matches!(&found, Found::Member(_, method) if method.is(flag::PRIVATE)))?;
        let said = format!("a call of {}{} beside {class}.{}{}", at.name, descriptor.said(), at.name, other.said());
        Some(Construct::new(said, "call one of the two something else: boolean, void and int are one type on the box"))
    }
}

/// Do the classes come from one outermost class? Then one may call the other's private methods.
fn is_of_one_nest(a: &str, b: &str) -> bool {
    let host = |name: &str| name.split('$').next().unwrap_or("").to_string();
    a != b && (a.contains('$') || b.contains('$')) && host(a) == host(b)
}

fn arguments_of_a_constructor() -> Construct {
    Construct::new("a constructor with arguments", "set the fields after new, or in a method that returns this: Discount of(int r) { rate = r; return this; }")
}

fn not_on_the_box(of: &JavaType, home: &str) -> Option<Construct> {
    match of {
        JavaType::Class(name) => reachable(name, home).err(),
        JavaType::Other(said) => Some(of_no_box(said)),
        _ => None,
    }
}
