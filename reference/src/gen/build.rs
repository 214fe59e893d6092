//! Files and code, written out by hand.

use crate::code::op;
use crate::file::{LISTED, MAPPED};
use crate::store::{INT, LOCALS, OBJECT};

/// A class before it is a file.
#[derive(Clone, Debug)]
pub struct Draft {
    pub version: u8,
    pub name: u16,
    pub superclass: u16,
    pub fields: Vec<(u16, u16)>,
    pub methods: Vec<MethodDraft>,
}

#[derive(Clone, Debug)]
pub struct MethodDraft {
    pub name: u16,
    pub arguments: Vec<u16>,
    pub result: u16,
    pub code: Vec<u8>,
    pub maps: Vec<MapDraft>,
}

/// A map before it is bytes; local type 0 is unset.
#[derive(Clone, Debug, Default, PartialEq, Eq)]
pub struct MapDraft {
    pub offset: u16,
    pub locals: [u16; LOCALS],
    pub operands: Vec<u16>,
}

impl MapDraft {
    /// The locals that aren't given are unset.
    pub fn new(offset: u16, locals: &[u16], operands: &[u16]) -> MapDraft {
        let mut map = MapDraft { offset, operands: operands.to_vec(), ..MapDraft::default() };
        map.locals[..locals.len()].copy_from_slice(locals);
        map
    }
}

impl Draft {
    pub fn new(name: u16) -> Draft {
        Draft { version: 1, name, superclass: OBJECT, fields: Vec::new(), methods: Vec::new() }
    }

    /// A class of version 2.
    pub fn mapped(name: u16) -> Draft {
        Draft { version: MAPPED, ..Draft::new(name) }
    }

    /// A class of version 3.
    pub fn listed(name: u16) -> Draft {
        Draft { version: LISTED, ..Draft::new(name) }
    }

    pub fn under(mut self, superclass: u16) -> Draft {
        self.superclass = superclass;
        self
    }

    pub fn field(mut self, name: u16, of: u16) -> Draft {
        self.fields.push((name, of));
        self
    }

    /// A method with one argument.
    pub fn method(self, name: u16, argument: u16, result: u16, code: &Code) -> Draft {
        self.method_of(name, &[argument], result, code)
    }

    /// A method with a list of arguments.
    pub fn method_of(mut self, name: u16, arguments: &[u16], result: u16, code: &Code) -> Draft {
        let (code, maps) = (code.bytes.clone(), code.maps.clone());
        self.methods.push(MethodDraft { name, arguments: arguments.to_vec(), result, code, maps });
        self
    }

    /// A method from int to int.
    pub fn main(self, name: u16, code: &Code) -> Draft {
        self.method(name, INT, INT, code)
    }

    /// The file. Only the length bytes are worked out; the rest is written as it is.
    pub fn file(&self) -> Vec<u8> {
        let mut bytes = vec![self.version, 0, 0];
        put(&mut bytes, self.name);
        put(&mut bytes, self.superclass);
        bytes.push(self.fields.len() as u8);
        for &(name, of) in &self.fields {
            put(&mut bytes, name);
            put(&mut bytes, of);
        }
        bytes.push(self.methods.len() as u8);
        for method in &self.methods {
            put(&mut bytes, method.name);
            put_list(&mut bytes, self.version >= LISTED, &method.arguments);
            put(&mut bytes, method.result);
            put(&mut bytes, method.code.len() as u16);
            bytes.extend_from_slice(&method.code);
            if self.version >= MAPPED {
                bytes.push(method.maps.len() as u8);
                method.maps.iter().for_each(|map| put_map(&mut bytes, map));
            }
        }
        set_length(&mut bytes);
        bytes
    }
}

/// The types, and from version 3 on their count before them.
fn put_list(bytes: &mut Vec<u8>, listed: bool, types: &[u16]) {
    if listed {
        bytes.push(types.len() as u8);
    }
    types.iter().for_each(|&of| put(bytes, of));
}

fn put_map(bytes: &mut Vec<u8>, map: &MapDraft) {
    put(bytes, map.offset);
    map.locals.iter().for_each(|&of| put(bytes, of));
    bytes.push(map.operands.len() as u8);
    map.operands.iter().for_each(|&of| put(bytes, of));
}

fn put(bytes: &mut Vec<u8>, word: u16) {
    bytes.extend_from_slice(&word.to_be_bytes());
}

/// Makes the length bytes right again.
pub fn set_length(bytes: &mut [u8]) {
    if bytes.len() >= 3 {
        let length = (bytes.len() - 3) as u16;
        bytes[1..3].copy_from_slice(&length.to_be_bytes());
    }
}

/// Code under way: each call adds an instruction, a label or a map.
#[derive(Clone, Debug, Default)]
pub struct Code {
    pub bytes: Vec<u8>,
    pub maps: Vec<MapDraft>,
    /// Do its calls have a count before the types of their arguments, as from version 3 on?
    pub listed: bool,
    /// The labels that are placed, and where.
    labels: Vec<(u16, u16)>,
    /// The jumps to labels that aren't placed yet, by the place of their inline bytes.
    waiting: Vec<(u16, usize)>,
}

impl Code {
    pub fn new() -> Code {
        Code::default()
    }

    /// Code of a file of version 3.
    pub fn listed() -> Code {
        Code::of_version(LISTED)
    }

    pub fn of_version(version: u8) -> Code {
        Code { listed: version >= LISTED, ..Code::default() }
    }

    /// These bytes, without maps.
    pub fn of(bytes: Vec<u8>) -> Code {
        Code { bytes, ..Code::default() }
    }

    /// The offset of what comes next.
    pub fn here(&self) -> u16 {
        self.bytes.len() as u16
    }

    /// Places a label here. Jumps to it may stand before or behind.
    pub fn label(mut self, label: u16) -> Code {
        let here = self.here();
        self.labels.push((label, here));
        for (_, at) in self.waiting.iter().filter(|(waiting, _)| *waiting == label) {
            self.bytes[*at..at + 2].copy_from_slice(&here.to_be_bytes());
        }
        self
    }

    /// A map here: the locals that aren't given are unset.
    pub fn map(mut self, locals: &[u16], operands: &[u16]) -> Code {
        self.maps.push(MapDraft::new(self.here(), locals, operands));
        self
    }

    /// These maps, whatever their offsets, in place of others.
    pub fn with_maps(self, maps: &[MapDraft]) -> Code {
        Code { maps: maps.to_vec(), ..self }
    }

    /// A label and a map.
    pub fn point(self, label: u16, locals: &[u16], operands: &[u16]) -> Code {
        self.label(label).map(locals, operands)
    }

    pub fn jump(mut self, opcode: u8, label: u16) -> Code {
        let placed = self.labels.iter().rfind(|(placed, _)| *placed == label).map(|(_, at)| *at);
        if placed.is_none() {
            self.waiting.push((label, self.bytes.len() + 1));
        }
        self.names(opcode, &[placed.unwrap_or(0)])
    }

    pub fn goto(self, label: u16) -> Code {
        self.jump(op::GOTO, label)
    }

    pub fn ifeq(self, label: u16) -> Code {
        self.jump(op::IFEQ, label)
    }

    pub fn if_icmplt(self, label: u16) -> Code {
        self.jump(op::IF_ICMPLT, label)
    }

    pub fn plain(mut self, opcode: u8) -> Code {
        self.bytes.push(opcode);
        self
    }

    pub fn local(mut self, opcode: u8, number: u8) -> Code {
        self.bytes.extend_from_slice(&[opcode, number]);
        self
    }

    pub fn names(mut self, opcode: u8, names: &[u16]) -> Code {
        self.bytes.push(opcode);
        names.iter().for_each(|&name| put(&mut self.bytes, name));
        self
    }

    pub fn null(self) -> Code {
        self.plain(op::ACONST_NULL)
    }

    pub fn int(self, int: i16) -> Code {
        self.names(op::SIPUSH, &[int as u16])
    }

    pub fn iload(self, number: u8) -> Code {
        self.local(op::ILOAD, number)
    }

    pub fn aload(self, number: u8) -> Code {
        self.local(op::ALOAD, number)
    }

    pub fn istore(self, number: u8) -> Code {
        self.local(op::ISTORE, number)
    }

    pub fn astore(self, number: u8) -> Code {
        self.local(op::ASTORE, number)
    }

    pub fn pop(self) -> Code {
        self.plain(op::POP)
    }

    pub fn dup(self) -> Code {
        self.plain(op::DUP)
    }

    pub fn iadd(self) -> Code {
        self.plain(op::IADD)
    }

    pub fn isub(self) -> Code {
        self.plain(op::ISUB)
    }

    pub fn imul(self) -> Code {
        self.plain(op::IMUL)
    }

    pub fn idiv(self) -> Code {
        self.plain(op::IDIV)
    }

    pub fn getfield(self, class: u16, field: u16, of: u16) -> Code {
        self.names(op::GETFIELD, &[class, field, of])
    }

    pub fn putfield(self, class: u16, field: u16, of: u16) -> Code {
        self.names(op::PUTFIELD, &[class, field, of])
    }

    /// A call with one argument.
    pub fn invoke(self, class: u16, method: u16, argument: u16, result: u16) -> Code {
        self.call(class, method, &[argument], result)
    }

    /// A call with a list of arguments.
    pub fn call(self, class: u16, method: u16, arguments: &[u16], result: u16) -> Code {
        let mut code = self.names(op::INVOKEVIRTUAL, &[class, method]);
        put_list(&mut code.bytes, code.listed, arguments);
        put(&mut code.bytes, result);
        code
    }

    pub fn object(self, class: u16) -> Code {
        self.names(op::NEW, &[class])
    }

    pub fn ireturn(self) -> Code {
        self.plain(op::IRETURN)
    }

    pub fn areturn(self) -> Code {
        self.plain(op::ARETURN)
    }

    /// Ends a method with this result type and nothing of interest to return.
    pub fn end(self, result: u16) -> Code {
        if result == INT {
            self.int(0).ireturn()
        } else {
            self.null().areturn()
        }
    }
}
