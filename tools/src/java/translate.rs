//! Class files of Java, all at once, into files of the box: either every one is taken, or all that is refused is said.

use std::collections::HashMap;

use reference::file::File;
use reference::gen::build::{Draft, MethodDraft};
use reference::verifier::{refused, Why};

use super::classfile::{flag, ClassFile, Code, Member};
use super::decode::decode;
use super::flow::{frames, live, State};
use super::layout::{lay_out, Laid};
use super::lines::{Line, Lines};
use super::lower::{astray, lower, Source, Step};
use super::names::Library;
use super::refusals::{Construct, Refusal};
use super::scan::{said, Report, Scan};
use super::types::{self, package, simple, Descriptor};
use super::world::World;

/// A class file that is given.
pub struct Given {
    /// The class file's path, or the Java file's where that was given.
    pub path: String,
    pub bytes: Vec<u8>,
    /// The Java file: its path, as people know it, and its text.
    pub source: Option<(String, String)>,
}

/// A file of the box.
#[derive(Clone, Debug)]
pub struct Made {
    /// The class's name without its package.
    pub called: String,
    pub bytes: Vec<u8>,
    pub lines: Lines,
}

const MOST_CODE: usize = 512;
const MOST_MAPS: usize = 255;
const MOST_BYTES: usize = 4_096;

/// Translates class files. The others are at hand, but aren't translated: superclasses above all.
pub fn translate(given: &[Given], others: &[Vec<u8>], library: &mut Library) -> Result<Vec<Made>, Vec<Refusal>> {
    let mut refusals = Vec::new();
    let mut classes: HashMap<String, ClassFile> = HashMap::new();
    let mut own: Vec<(&Given, String)> = Vec::new();
    for one in given {
        match read(one, &own, &classes) {
            Ok(class) => {
                own.push((one, class.name.clone()));
                classes.insert(class.name.clone(), class);
            }
            Err(refusal) => refusals.push(refusal),
        }
    }
    for class in others.iter().filter_map(|bytes| ClassFile::read(bytes).ok()) {
        classes.entry(class.name.clone()).or_insert(class);
    }
    let mut made = Vec::new();
    let mut after = library.clone();
    for (one, name) in &own {
        let mut world = World { classes: &classes, library: &mut after };
        let file = file_of(one, &classes[name]);
        let mut report = Report { file: &file, text: one.source.as_ref().map(|source| source.1.as_str()), all: Vec::new() };
        made.extend(class(&classes[name], &mut world, &mut report));
        refusals.extend(report.all);
    }
    if !refusals.is_empty() {
        return Err(refusals);
    }
    *library = after;
    Ok(made)
}

/// The Java file if it is known, else the class file with the Java file's name behind it.
fn file_of(one: &Given, class: &ClassFile) -> String {
    match (&one.source, &class.source) {
        (Some((path, _)), _) => path.clone(),
        (None, Some(name)) => format!("{} ({name})", one.path),
        (None, None) => one.path.clone(),
    }
}

fn read(one: &Given, own: &[(&Given, String)], classes: &HashMap<String, ClassFile>) -> Result<ClassFile, Refusal> {
    let refuse = |construct: Construct| Refusal { file: one.path.clone(), line: None, member: String::new(), construct };
    let class = ClassFile::read(&one.bytes).map_err(|unreadable| {
        let said = format!("no class file of Java: at byte {}, {}", unreadable.at, unreadable.said);
        refuse(Construct::new(said, "give a class file as javac writes it"))
    })?;
    let is_there = classes.contains_key(&class.name) || own.iter().any(|(_, other)| simple(other) == simple(&class.name));
    if is_there {
        let said = format!("a second class called {}", simple(&class.name));
        return Err(refuse(Construct::new(said, "translate the two in two calls, each into a folder of its own, with the same file of names")));
    }
    Ok(class)
}

/// One class; what is refused of it goes into the report.
fn class(class: &ClassFile, world: &mut World, report: &mut Report) -> Option<Made> {
    Scan { class, world, report }.class();
    if !report.all.is_empty() {
        return None;
    }
    let line = report.line_of_class(&class.name);
    let (mut draft, mut lines) = match head(class, world) {
        Ok(draft) => (draft, Vec::new()),
        Err(construct) => {
            report.refuse(line, "", construct);
            return None;
        }
    };
    for member in class.methods.iter().filter(|member| member.name != "<init>") {
        if let Some((method, laid)) = method(class, member, world, report) {
            draft.methods.push(method);
            lines.push(laid.lines);
        }
    }
    if !report.all.is_empty() {
        return None;
    }
    let bytes = draft.file();
    let text = report.text;
    let methods: Vec<Vec<Line>> = lines.into_iter().map(|lines| with_text(lines, text)).collect();
    if bytes.len() > MOST_BYTES {
        let said = format!("a class of {} bytes on the box", bytes.len());
        report.refuse(line, "", Construct::new(said, format!("a class has at most {MOST_BYTES}, its maps included: put some methods into another class")));
        return None;
    }
    check(class, &bytes, &methods, report)?;
    let source = class.source.clone().unwrap_or_else(|| simple(&class.name).into());
    Some(Made { called: simple(&class.name).into(), bytes, lines: Lines { source, methods } })
}

fn with_text(lines: Vec<(u16, u16)>, text: Option<&str>) -> Vec<Line> {
    let all: Vec<&str> = text.map_or(Vec::new(), |text| text.lines().collect());
    let text = |number: u16| all.get(usize::from(number).wrapping_sub(1)).map_or("", |line| line.trim());
    let printed = |number: u16| text(number).chars().filter(|c| !c.is_control()).collect();
    lines.into_iter().map(|(point, number)| Line { point, number, text: printed(number) }).collect()
}

/// The class with its fields.
fn head(class: &ClassFile, world: &mut World) -> Step<Draft> {
    let home = package(&class.name);
    let above = class.superclass.as_deref().unwrap_or(types::OBJECT);
    let mut draft = Draft::listed(world.class(&class.name, home)?).under(world.class(above, home)?);
    for field in class.fields.iter().filter(|field| !field.is(flag::STATIC)) {
        let of = types::field(&field.descriptor).ok_or_else(|| astray("a field's type can't be read"))?;
        draft.fields.push((world.member(&field.name)?, world.of_type(&of, home)?));
    }
    Ok(draft)
}

fn method(class: &ClassFile, member: &Member, world: &mut World, report: &mut Report) -> Option<(MethodDraft, Laid)> {
    let (descriptor, code) = (types::method(&member.descriptor)?, member.code.as_ref()?);
    let said = said(class, member);
    let draft = match signature(class, member, &descriptor, world) {
        Ok(draft) => draft,
        Err(construct) => {
            report.refuse(code.line(0).map(u32::from), &said, construct);
            return None;
        }
    };
    let laid = body(class, &descriptor, code, world).map_err(|(point, construct)| {
        report.refuse(code.line(point).map(u32::from), &said, construct);
    });
    let laid = laid.ok()?;
    Some((MethodDraft { code: laid.code.clone(), maps: laid.maps.clone(), ..draft }, laid))
}

fn signature(class: &ClassFile, member: &Member, descriptor: &Descriptor, world: &mut World) -> Step<MethodDraft> {
    let home = package(&class.name);
    let private_in = member.is(flag::PRIVATE).then_some(class.name.as_str());
    let name = world.method_name(&member.name, private_in)?;
    let arguments = descriptor.arguments.iter().map(|of| world.of_type(of, home)).collect::<Step<Vec<u16>>>()?;
    let result = world.of_type(descriptor.result.as_ref().unwrap_or(&types::JavaType::Int), home)?;
    Ok(MethodDraft { name, arguments, result, code: Vec::new(), maps: Vec::new() })
}

/// The method's code on the box, or what is refused and at which point of the Java code.
fn body(class: &ClassFile, descriptor: &Descriptor, code: &Code, world: &mut World) -> Result<Laid, (usize, Construct)> {
    let unreadable = |unreadable: super::bytes::Unreadable| (0, astray(&unreadable.said));
    let instructions = decode(&code.bytes, &class.pool).map_err(unreadable)?;
    let mut places = vec![None; code.bytes.len()];
    instructions.iter().enumerate().for_each(|(place, instruction)| places[instruction.at] = Some(place));
    let place = |point: usize| places.get(point).copied().flatten();
    let said = frames(code, &class.pool, &instructions, State::at_entry(&class.name, descriptor)).map_err(unreadable)?;
    let mut at_places = Vec::new();
    for (point, state) in said {
        at_places.push((place(point).ok_or_else(|| (0, astray("a stack map where no instruction starts")))?, state));
    }
    let live = live(&instructions, &place);
    let source = Source { class: &class.name, descriptor, code, instructions: &instructions, frames: &at_places, places: &places, live: &live };
    let lowered = lower(&source, world).map_err(|stopped| (instructions.get(stopped.place).map_or(0, |at| at.at), stopped.construct))?;
    let laid = lay_out(&lowered, &source, world).map_err(|construct| (0, construct))?;
    for (count, most, what) in [(laid.code.len(), MOST_CODE, "bytes of code on the box"), (laid.maps.len(), MOST_MAPS, "maps on the box")] {
        if count > most {
            return Err((0, Construct::new(format!("{count} {what}"), format!("a method has at most {most}: share its work among methods"))));
        }
    }
    Ok(laid)
}

/// What the second implementation's desk says of the file: a file that is handed on isn't refused by the proved one.
fn check(class: &ClassFile, bytes: &[u8], lines: &[Vec<Line>], report: &mut Report) -> Option<()> {
    let Some(file) = File::read(bytes) else {
        report.refuse(None, "", astray("the box can't read what comes of it"));
        return None;
    };
    let Err((_, rejected)) = refused(file, &mut |_, _| ()) else {
        return Some(());
    };
    let line = lines.get(rejected.method).and_then(|lines| lines.iter().rev().find(|line| usize::from(line.point) <= rejected.point));
    let member = class.methods.iter().filter(|member| member.name != "<init>").nth(rejected.method).map_or(String::new(), |member| said(class, member));
    let construct = match rejected.why {
        Why::TooManyOperands => Construct::new("more than 16 operands at once on the box", "put parts of the sum into locals first"),
        why => astray(&format!("the box's verifier says {why:?}")),
    };
    report.refuse(line.map(|line| u32::from(line.number)), &member, construct);
    None
}
