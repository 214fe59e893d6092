//! The classes of a store: superclasses, below, counts of fields, and searches upward.

use crate::file::{File, Method};
use crate::signature::Signature;
use crate::store::{count, Store, FIELDS, LIMITS, LOADERS, ROW};

const MOST: usize = LIMITS[count::CLASSES] as usize;

/// What the kept files and the cache say of the classes, gathered once a call.
#[derive(Clone)]
pub struct Classes {
    supers: [u8; MOST],
    /// Bit b of entry a: class a is class b or below it.
    aboves: [u64; MOST],
    fields: [u8; MOST],
    count: u16,
}

impl Classes {
    /// Nothing if the class rows, files or superclasses are broken. Lengths and counts have been looked at.
    pub fn read(store: &Store) -> Option<Classes> {
        let mut classes = Classes { supers: [0; MOST], aboves: [0; MOST], fields: [0; MOST], count: 0 };
        let used = store.counts[count::CLASSES];
        if used == 0 {
            return Some(classes);
        }
        if store.classes[..ROW] != [0, 0, 0] {
            return None;
        }
        classes.aboves[0] = 1;
        classes.count = 1;
        for class in 1..used {
            let loader = store.loader_of(class);
            let file = File::read(store.file_bytes(class)?)?;
            let superclass = store.cached(loader, file.superclass())?;
            if loader >= LOADERS || superclass >= class {
                return None;
            }
            classes.add(superclass, file)?;
        }
        Some(classes)
    }

    /// Adds the next class below one that is there; nothing if it has too many fields.
    pub fn add(&mut self, superclass: u16, file: File) -> Option<()> {
        let (class, up) = (usize::from(self.count), usize::from(superclass));
        let fields = usize::from(self.fields[up]) + file.field_count();
        if fields > FIELDS {
            return None;
        }
        self.supers[class] = superclass as u8;
        self.aboves[class] = self.aboves[up] | 1 << class;
        self.fields[class] = fields as u8;
        self.count += 1;
        Some(())
    }

    pub fn has(&self, class: u32) -> bool {
        class < u32::from(self.count)
    }

    /// Is a class b or below it?
    pub fn below(&self, a: u16, b: u16) -> bool {
        self.aboves[usize::from(a)] >> b & 1 == 1
    }

    /// Fields of a class, inherited ones included.
    pub fn field_count(&self, class: u16) -> usize {
        usize::from(self.fields[usize::from(class)])
    }

    /// The class, its superclass and so on up to Object.
    pub fn upward(&self, class: u16) -> impl Iterator<Item = u16> + '_ {
        std::iter::successors(Some(class), |&class| {
            (class != 0).then(|| u16::from(self.supers[usize::from(class)]))
        })
    }

    /// Where a class's own fields begin in its objects.
    pub fn first_own_field(&self, class: u16) -> usize {
        self.field_count(u16::from(self.supers[usize::from(class)]))
    }

    /// The nearest class upward with a field of that name and type, and the field's place in an object.
    pub fn field(&self, store: &Store, from: u16, name: u16, of: u16) -> Option<(u16, usize)> {
        self.upward(from).find_map(|class| {
            let place = store.file(class)?.fields().position(|field| field.name == name && field.of == of)?;
            Some((class, self.first_own_field(class) + place))
        })
    }

    /// The nearest class upward with a method of that name, those arguments and that result.
    pub fn method<'a>(&self, store: &'a Store, from: u16, signature: Signature) -> Option<(u16, Method<'a>)> {
        self.upward(from).find_map(|class| {
            let method = store.file(class)?.methods().find(|method| method.signature == signature)?;
            Some((class, method))
        })
    }

    /// The types of an object's fields in their order, each with the class that declares it.
    pub fn field_types(&self, store: &Store, class: u16) -> FieldTypes {
        let mut types = FieldTypes { of: [(0, 0); FIELDS], count: self.field_count(class) };
        for declarer in self.upward(class) {
            let Some(file) = store.file(declarer) else {
                break;
            };
            let first = self.first_own_field(declarer);
            for (place, field) in file.fields().enumerate() {
                types.of[first + place] = (declarer, field.of);
            }
        }
        types
    }
}

/// Declaring class and type of each field of a class.
pub struct FieldTypes {
    of: [(u16, u16); FIELDS],
    count: usize,
}

impl FieldTypes {
    pub fn iter(&self) -> impl Iterator<Item = (u16, u16)> + '_ {
        self.of[..self.count].iter().copied()
    }
}
