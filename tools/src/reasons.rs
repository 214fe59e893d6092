//! Why a file is bad or unverified, in words.

use reference::code::op;
use reference::file::Rule;
use reference::verifier::{Misfit, Type, Why};

use crate::names::Names;
use crate::words::counted;

pub fn of_type(of: Type, names: &Names) -> String {
    match of {
        Type::Unset => "-".into(),
        Type::Int => "int".into(),
        Type::Null => "null".into(),
        Type::Class(name) => names.class(name),
    }
}

/// The rule of the file that is broken.
pub fn rule(rule: Rule, names: &Names) -> String {
    match rule {
        Rule::TooLong => "a file has at most 4,096 bytes".into(),
        Rule::CutOff => "the file ends here, and more should follow".into(),
        Rule::Version(version) => format!("the version byte is {version}, and versions 1 to 3 are known"),
        Rule::Length(said, follow) => format!("the length bytes say {said}, and {follow} bytes follow them"),
        Rule::ClassBelow2(name) => format!("a class's or superclass's name is 2 or more, and this is {name}"),
        Rule::Name0 => "a name or type is 0".into(),
        Rule::TooManyFields(count) => format!("{count} fields, and a class has at most 8"),
        Rule::TooManyMethods(count) => format!("{count} methods, and a class has at most 8"),
        Rule::TooManyArguments(count) => format!("{count} arguments, and a method has at most 4"),
        Rule::CodeLength(length) => format!("a method of {length} bytes of code, and it has 1 to 512"),
        Rule::MapOffset(offset) => format!("a map at {offset}, and the maps' offsets rise"),
        Rule::TooManyMapOperands(count) => format!("a map with {count} operands, and it has at most 16"),
        Rule::MapOperand0 => "an operand's type is 0 in a map: only a local may be unset".into(),
        Rule::BytesLeft(1) => "the last method ends here, and 1 byte is left".into(),
        Rule::BytesLeft(left) => format!("the last method ends here, and {left} bytes are left"),
        Rule::SameField(name) => format!("a second field named {}", names.member(name)),
        Rule::SameMethod(name) => format!("a second method {} with the same types", names.member(name)),
    }
}

/// Why the verifier rejects an instruction, with the labels of its text.
pub fn why_at<'a>(why: Why, names: &Names, label: impl Fn(usize) -> Option<&'a str>) -> String {
    let named = |point: usize| label(point).map_or(point.to_string(), |label| format!("{label} ({point})"));
    match why {
        Why::TargetUnmapped(target) => format!("a jump to {}, where there is no map", named(target)),
        Why::Flow(into, misfit) => format!("into the map at {}: {}", named(into), misfit_in_words(misfit, names)),
        _ => self::why(why, names),
    }
}

/// Why the verifier rejects an instruction.
pub fn why(why: Why, names: &Names) -> String {
    match why {
        Why::UnknownOpcode(opcode) => format!("{opcode:02X} is no opcode"),
        Why::CutOff(opcode) => {
            let name = op::form(opcode).map_or("the instruction", |form| form.0);
            format!("the code ends before all that belongs to {name}")
        }
        Why::TooManyArguments(count) => format!("a call with {count} arguments, and a method has at most 4"),
        Why::Name0 => "a name in the instruction is 0".into(),
        Why::ClassBelow2(name) => format!("a class is demanded, and {name} is none: a class's name is 2 or more"),
        Why::NoLocal(number) => format!("there is no local {number}: locals are 0 to 7"),
        Why::UnsetLocal(number) => format!("local {number} is unset here"),
        Why::TooManyOperands => "a 17th operand, and there is room for 16".into(),
        Why::TooFewOperands => "the instruction takes more operands than there are".into(),
        Why::NoInt(of) => format!("an int is demanded, and {} stands there", of_type(of, names)),
        Why::NoReference(Type::Int) => "a reference is demanded, and an int stands there".into(),
        Why::NoReference(of) => format!("a reference is demanded, and {} stands there", of_type(of, names)),
        Why::ResultIsNoInt(of) => format!("ireturn returns an int, and the method's result is {}", names.class(of)),
        Why::ResultIsInt => "areturn returns a reference, and the method's result is int".into(),
        Why::EndsWithoutReturn => "the code ends here, and a path runs off its end".into(),
        Why::GoesOnAfterReturn => "a return, and more code behind it: a return is the last instruction".into(),
        Why::TargetUnmapped(target) => format!("a jump to {target}, where there is no map"),
        Why::NextUnmapped => "the instruction behind it has no map, and nothing comes to that one from here".into(),
        Why::MapInside(offset) => format!("a map at {offset}, where no instruction starts"),
        Why::MapBehind(offset) => format!("a map at {offset}, and the code ends before it"),
        Why::Flow(into, misfit) => format!("into the map at {into}: {}", misfit_in_words(misfit, names)),
    }
}

/// Why something doesn't fit a map.
fn misfit_in_words(misfit: Misfit, names: &Names) -> String {
    let fits = |what: &str, place: usize, stands: Type, demanded: Type| {
        let stands = if stands == Type::Unset { "unset".into() } else { of_type(stands, names) };
        format!("{what} {place} is {stands}, and the map says {}", of_type(demanded, names))
    };
    match misfit {
        Misfit::OperandCount(there, demanded) => format!("{}, and the map has {demanded}", counted(there, "operand")),
        Misfit::Local(local, stands, demanded) => fits("local", local, stands, demanded),
        Misfit::Operand(operand, stands, demanded) => fits("operand", operand, stands, demanded),
    }
}
