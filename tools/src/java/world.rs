//! The classes that are at hand: which class has a field or method that an instruction names, and by which number the box knows it.

use std::collections::HashMap;

use reference::store::{INT, OBJECT};

use super::classfile::{flag, ClassFile, Member};
use super::names::{is_word, Library};
use super::pool::MemberRef;
use super::refusals::Construct;
use super::types::{self, package, simple, Descriptor, JavaType};

/// Class files by the names of their classes, and the library's numbers.
pub struct World<'a> {
    pub classes: &'a HashMap<String, ClassFile>,
    pub library: &'a mut Library,
}

/// What a search upward comes to.
pub enum Found<'a> {
    Member(&'a ClassFile, &'a Member),
    /// No class up to Object has it.
    Absent,
    /// A class on the way isn't at hand.
    Unknown,
}

type Taken<T> = Result<T, Construct>;

impl World<'_> {
    /// The nearest class from this one upward with a member that fits.
    fn nearest(&self, class: &str, members: fn(&ClassFile) -> &[Member], fits: &dyn Fn(&Member) -> bool) -> Found<'_> {
        let mut name = class.to_string();
        for _ in 0..=self.classes.len() {
            if name == types::OBJECT {
                return Found::Absent;
            }
            let Some(class) = self.classes.get(&name) else {
                return Found::Unknown;
            };
            if let Some(member) = members(class).iter().find(|member| fits(member)) {
                return Found::Member(class, member);
            }
            name = class.superclass.clone().unwrap_or_default();
        }
        Found::Unknown
    }

    pub fn field(&self, at: &MemberRef) -> Found<'_> {
        self.nearest(&at.class, |class| &class.fields, &|field| field.name == at.name && field.descriptor == at.descriptor)
    }

    pub fn method(&self, at: &MemberRef) -> Found<'_> {
        self.nearest(&at.class, |class| &class.methods, &|method| method.name == at.name && method.descriptor == at.descriptor)
    }

    /// The nearest method, from the named class upward, that would be the same one on the box though Java tells the two apart.
    pub fn mistaken(&self, at: &MemberRef) -> Option<(String, Descriptor)> {
        let own = types::method(&at.descriptor)?;
        let alike = |method: &Member| {
            let is_other = method.name == at.name && method.descriptor != at.descriptor && !method.is(flag::PRIVATE | flag::STATIC);
            is_other && types::method(&method.descriptor).is_some_and(|other| other.is_alike(&own))
        };
        match self.nearest(&at.class, |class| &class.methods, &alike) {
            Found::Member(class, method) => Some((simple(&class.name).into(), types::method(&method.descriptor)?)),
            _ => None,
        }
    }

    fn word(&mut self, word: &str) -> Taken<u16> {
        if !is_word(word) {
            let said = format!("the name {}", word.chars().take(40).collect::<String>());
            return Err(Construct::new(said, "use letters, digits and _ in names, and no digit first"));
        }
        let full = || Construct::new("one name more than there are numbers, 65,535", "leave out names from the file of names that nothing uses");
        self.library.number(word).ok_or_else(full)
    }

    /// The number of a class that a class of this package names.
    pub fn class(&mut self, name: &str, home: &str) -> Taken<u16> {
        if name == types::OBJECT {
            return Ok(OBJECT);
        }
        reachable(name, home)?;
        self.word(simple(name))
    }

    pub fn of_type(&mut self, of: &JavaType, home: &str) -> Taken<u16> {
        match of {
            JavaType::Int | JavaType::Boolean => Ok(INT),
            JavaType::Class(name) => self.class(name, home),
            JavaType::Other(said) => Err(of_no_box(said)),
        }
    }

    pub fn member(&mut self, name: &str) -> Taken<u16> {
        self.word(name)
    }

    /// A method's number. One that is private has a name of its own class, since no method of a class below overrides it.
    pub fn method_name(&mut self, name: &str, private_in: Option<&str>) -> Taken<u16> {
        if name.contains('$') {
            return Err(Construct::new(format!("the method name {name}"), "leave out the $, which compilers keep for names that they make"));
        }
        match private_in {
            Some(class) => self.word(&format!("{name}${}", simple(class))),
            None => self.word(name),
        }
    }
}

/// A type that the box doesn't have.
pub fn of_no_box(said: &str) -> Construct {
    let instead = match said {
        _ if said.ends_with(']') => "use fields or arguments of their own, or a chain of objects with a field for the next",
        "byte" | "char" | "short" => "use int, and % where it should wrap",
        _ => "use int: whole pence, percent or per mille, with * before /",
    };
    let what = if said.ends_with(']') { "an array" } else { "the type" };
    Construct::new(format!("{what} {said}"), instead)
}

/// A class names those of its own package alone, and Object.
pub fn reachable(name: &str, home: &str) -> Taken<()> {
    if name == types::OBJECT || package(name) == home {
        return if simple(name) == "Object" && name != types::OBJECT {
            Err(Construct::new("a class of one's own called Object", "call it something else"))
        } else {
            Ok(())
        };
    }
    let dotted = name.replace('/', ".");
    Err(match name {
        "java/lang/String" => Construct::new("a string", "the box has ints and objects: give what the text would say a number"),
        _ if name.starts_with("java/") => {
            Construct::new(format!("another package: {dotted}"), "write a class of your own: of Java's library the box has Object alone")
        }
        _ => Construct::new(format!("another package: {dotted}"), "put the classes of a tariff into one package, or into none"),
    })
}
