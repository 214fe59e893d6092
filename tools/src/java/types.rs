//! Java's types as descriptors write them (JVMS 4.3), and what the box has in their place.

pub const OBJECT: &str = "java/lang/Object";

#[derive(Clone, Debug, PartialEq, Eq)]
pub enum JavaType {
    Int,
    /// An int, 0 or 1, on the box.
    Boolean,
    Class(String),
    /// What the box doesn't have, as people write it.
    Other(String),
}

/// A method's arguments and result; no result is void.
#[derive(Clone, Debug, PartialEq, Eq)]
pub struct Descriptor {
    pub arguments: Vec<JavaType>,
    pub result: Option<JavaType>,
}

/// The type of a field; nothing if the text is none.
pub fn field(descriptor: &str) -> Option<JavaType> {
    let (of, rest) = first(descriptor)?;
    rest.is_empty().then_some(of)
}

/// A method's types; nothing if the text has none.
pub fn method(descriptor: &str) -> Option<Descriptor> {
    let (list, result) = descriptor.strip_prefix('(')?.split_once(')')?;
    let mut arguments = Vec::new();
    let mut rest = list;
    while !rest.is_empty() {
        let (of, behind) = first(rest)?;
        arguments.push(of);
        rest = behind;
    }
    let result = if result == "V" { None } else { Some(field(result)?) };
    Some(Descriptor { arguments, result })
}

/// The first type of a text, and what stands behind it.
fn first(text: &str) -> Option<(JavaType, &str)> {
    let letter = text.chars().next()?;
    let rest = &text[letter.len_utf8()..];
    let word = |word: &str| JavaType::Other(word.into());
    let of = match letter {
        'I' => JavaType::Int,
        'Z' => JavaType::Boolean,
        'B' => word("byte"),
        'C' => word("char"),
        'S' => word("short"),
        'J' => word("long"),
        'F' => word("float"),
        'D' => word("double"),
        'L' => {
            let (name, behind) = rest.split_once(';')?;
            return (!name.is_empty()).then(|| (JavaType::Class(name.into()), behind));
        }
        '[' => {
            let element = rest.trim_start_matches('[');
            let (of, behind) = first(element)?;
            let brackets = "[]".repeat(rest.len() - element.len() + 1);
            return Some((JavaType::Other(format!("{}{brackets}", of.said())), behind));
        }
        _ => return None,
    };
    Some((of, rest))
}

impl JavaType {
    pub fn said(&self) -> String {
        match self {
            JavaType::Int => "int".into(),
            JavaType::Boolean => "boolean".into(),
            JavaType::Class(name) => simple(name).into(),
            JavaType::Other(said) => said.clone(),
        }
    }

    /// Do the two look the same on the box?
    pub fn is_alike(&self, other: &JavaType) -> bool {
        let is_int = |of: &JavaType| matches!(of, JavaType::Int | JavaType::Boolean);
        self == other || is_int(self) && is_int(other)
    }
}

impl Descriptor {
    /// As people write it behind a method's name.
    pub fn said(&self) -> String {
        let arguments: Vec<String> = self.arguments.iter().map(JavaType::said).collect();
        format!("({})", arguments.join(", "))
    }

    /// Are two methods with these types, and one name, alike on the box? void is an int there.
    pub fn is_alike(&self, other: &Descriptor) -> bool {
        let int = JavaType::Int;
        let result = |of: &Descriptor| of.result.clone().unwrap_or(int.clone());
        let pairs = self.arguments.iter().zip(&other.arguments);
        self.arguments.len() == other.arguments.len() && pairs.into_iter().all(|(a, b)| a.is_alike(b)) && result(self).is_alike(&result(other))
    }
}

/// A class's name without its package.
pub fn simple(name: &str) -> &str {
    name.rsplit('/').next().unwrap_or(name)
}

/// A class's package, with the slash behind it.
pub fn package(name: &str) -> &str {
    name.rfind('/').map_or("", |end| &name[..=end])
}
