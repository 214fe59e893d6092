//! The classes of an old store that isn't broken: superclasses, searches upward; and document 01's word 1.

use super::class::{read, ClassFile, Head};
use super::tables::{OldStore, Value, CLASSES, KEPT, LENGTHS, LIMITS, LOADERS, MOST_FIELDS, MOST_LOCALS, MOST_OPERANDS, OBJECT, OBJECTS};

/// A class: class 0, Object, has no file and no superclass.
#[derive(Clone, Debug)]
pub struct Class {
    pub loader: u16,
    pub file: Option<ClassFile>,
    pub superclass: Option<u16>,
}

/// The classes by number.
#[derive(Clone, Debug)]
pub struct World {
    pub classes: Vec<Class>,
}

impl World {
    /// Nothing if the store is broken.
    pub fn of(store: &OldStore) -> Option<World> {
        let fits = store.lengths() == LENGTHS && store.counts.iter().zip(LIMITS).all(|(&count, limit)| count <= limit);
        let world = World::classes_of(store).filter(|_| fits)?;
        (world.rows_fit(store) && world.objects_fit(store) && world.frames_fit(store)).then_some(world)
    }

    /// The classes, if lengths and counts let them be read and each is as it should be.
    fn classes_of(store: &OldStore) -> Option<World> {
        let mut world = World { classes: Vec::new() };
        if store.lengths() != LENGTHS || store.counts[CLASSES] > LIMITS[CLASSES] || store.counts[KEPT] > LIMITS[KEPT] {
            return None;
        }
        for (number, [loader, start, size]) in store.class_rows().into_iter().enumerate() {
            let class = if number == 0 {
                let is_boots = [loader, start, size] == [0, 0, 0];
                is_boots.then_some(Class { loader, file: None, superclass: None })?
            } else {
                let end = usize::from(start) + usize::from(size);
                let file = read(store.kept[..store.count(KEPT)].get(start.into()..end)?)?;
                let superclass = store.cached(loader, file.superclass).filter(|&up| usize::from(up) < number)?;
                Class { loader, file: Some(file), superclass: Some(superclass) }
            };
            world.classes.push(class);
            let is_sound = u32::from(loader) < LOADERS && world.field_types(number as u16).len() <= MOST_FIELDS;
            is_sound.then_some(())?;
        }
        Some(world)
    }

    pub fn has(&self, class: u32) -> bool {
        (class as usize) < self.classes.len()
    }

    fn class(&self, number: u16) -> &Class {
        &self.classes[usize::from(number)]
    }

    pub fn loader(&self, class: u16) -> u16 {
        self.class(class).loader
    }

    pub fn name(&self, class: u16) -> u16 {
        self.class(class).file.as_ref().map_or(OBJECT, |file| file.name)
    }

    /// The class itself, its superclass, and so on.
    pub fn upward(&self, class: u16) -> Vec<u16> {
        std::iter::successors(Some(class), |&class| self.class(class).superclass).collect()
    }

    pub fn is_below(&self, lower: u16, upper: u16) -> bool {
        self.upward(lower).contains(&upper)
    }

    fn own_fields(&self, class: u16) -> &[(u16, u16)] {
        self.class(class).file.as_ref().map_or(&[], |file| &file.fields)
    }

    /// The names and types of an object's fields: the topmost class's first.
    pub fn fields(&self, class: u16) -> Vec<(u16, u16)> {
        self.upward(class).iter().rev().flat_map(|&up| self.own_fields(up)).copied().collect()
    }

    pub fn field_types(&self, class: u16) -> Vec<u16> {
        self.fields(class).into_iter().map(|field| field.1).collect()
    }

    /// The nearest class upward with that field, and the field's place in an object.
    pub fn field(&self, from: u16, name: u16, of: u16) -> Option<(u16, usize)> {
        self.upward(from).into_iter().find_map(|class| {
            let own = self.own_fields(class);
            let place = own.iter().position(|&field| field == (name, of))?;
            Some((class, self.fields(class).len() - own.len() + place))
        })
    }

    /// The nearest class upward with such a method, and the method's place in its file.
    pub fn method(&self, from: u16, head: Head) -> Option<(u16, usize)> {
        self.upward(from).into_iter().find_map(|class| {
            let methods = &self.class(class).file.as_ref()?.methods;
            Some((class, methods.iter().position(|method| method.head == head)?))
        })
    }

    fn rows_fit(&self, store: &OldStore) -> bool {
        let is_loader = |loader: u16| u32::from(loader) < LOADERS;
        store.cache_rows().iter().all(|&[loader, _, class]| is_loader(loader) && self.has(class.into()))
            && store.tie_rows().iter().all(|&[one, other, _]| is_loader(one) && is_loader(other))
            && store.subtype_rows().iter().all(|&[loader, ..]| is_loader(loader))
    }

    fn objects_fit(&self, store: &OldStore) -> bool {
        (0..u32::from(store.counts[OBJECTS])).all(|object| {
            let class = store.object_class(object);
            self.has(class) && (0..self.fields(class as u16).len()).all(|field| is_value(store, store.field(object, field)))
        })
    }

    fn frames_fit(&self, store: &OldStore) -> bool {
        store.frame_places().into_iter().all(|frame| {
            let locals = (0..MOST_LOCALS).map(|local| store.value(frame.local(local)));
            let operands = store.operands(frame);
            self.has(store.frame_class(frame))
                && operands <= MOST_OPERANDS
                && locals.into_iter().all(|value| value == Some(Value::Empty) || is_value(store, value))
                && (0..operands).all(|operand| is_value(store, store.value(frame.operand(operand))))
        })
    }
}

/// Is it a value, and if it is an object's number, one that is used?
fn is_value(store: &OldStore, value: Option<Value>) -> bool {
    match value {
        Some(Value::Int(_) | Value::Null) => true,
        Some(Value::Object(object)) => object < store.counts[OBJECTS].into(),
        Some(Value::Empty) | None => false,
    }
}
