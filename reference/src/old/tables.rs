//! The eight tables of the old layout: lengths, limits, rows and values.

/// The length of each table, in the order of `OldStore`.
pub const LENGTHS: [usize; 8] = [8, 192, 16_384, 768, 768, 768, 8_448, 3_328];
/// The limit of each count.
pub const LIMITS: [u16; 8] = [64, 16_384, 256, 256, 256, 256, 32, 32];

pub const CLASSES: usize = 0;
pub const KEPT: usize = 1;
pub const CACHE: usize = 2;
pub const TIES: usize = 3;
pub const SUBTYPES: usize = 4;
pub const OBJECTS: usize = 5;
/// The quote's frames; the report's are the next count.
pub const FRAMES: usize = 6;

pub const LOADERS: u32 = 16;
pub const TASKS: u32 = 2;
pub const INT: u16 = 1;
pub const OBJECT: u16 = 2;

/// Fields of an object, operands and locals of a frame.
pub const MOST_FIELDS: usize = 16;
pub const MOST_OPERANDS: u32 = 16;
pub const MOST_LOCALS: u8 = 8;

const OBJECT_ROW: usize = 33;
const FRAME_ROW: usize = 52;
/// The cells of a frame's row.
const METHOD: usize = 1;
const POINT: usize = 2;
const OPERANDS: usize = 3;
const LOCALS: usize = 4;
const FIRST_OPERAND: usize = 20;

#[derive(Clone, Debug, PartialEq, Eq)]
pub struct OldStore {
    pub counts: Vec<u16>,
    pub classes: Vec<u16>,
    pub kept: Vec<u8>,
    pub cache: Vec<u16>,
    pub ties: Vec<u16>,
    pub subtypes: Vec<u16>,
    pub objects: Vec<u32>,
    pub frames: Vec<u32>,
}

/// A value and its two cells.
#[derive(Clone, Copy, Debug, PartialEq, Eq)]
pub enum Value {
    Empty,
    Int(u32),
    Null,
    Object(u32),
}

impl Value {
    pub fn of_cells(cells: &[u32]) -> Option<Value> {
        match *cells {
            [0, 0] => Some(Value::Empty),
            [1, bits] => Some(Value::Int(bits)),
            [2, 0] => Some(Value::Null),
            [3, number] => Some(Value::Object(number)),
            _ => None,
        }
    }

    pub fn cells(self) -> [u32; 2] {
        match self {
            Value::Empty => [0, 0],
            Value::Int(bits) => [1, bits],
            Value::Null => [2, 0],
            Value::Object(number) => [3, number],
        }
    }

    pub fn is_int(self) -> bool {
        matches!(self, Value::Int(_))
    }

    pub fn is_reference(self) -> bool {
        matches!(self, Value::Null | Value::Object(_))
    }

    /// Is it of the kind that this type asks for?
    pub fn is_of(self, of: u16) -> bool {
        if of == INT { self.is_int() } else { self.is_reference() }
    }
}

/// A frame's row.
#[derive(Clone, Copy, Debug, PartialEq, Eq)]
pub struct Place {
    base: usize,
}

impl Place {
    /// The frame of a task at this depth, the first at 0.
    pub fn of(task: usize, depth: usize) -> Place {
        Place { base: (32 * task + depth) * FRAME_ROW }
    }

    pub fn local(self, number: u8) -> usize {
        self.base + LOCALS + 2 * usize::from(number)
    }

    pub fn operand(self, number: u32) -> usize {
        self.base + FIRST_OPERAND + 2 * number as usize
    }
}

impl OldStore {
    pub fn zeros() -> OldStore {
        OldStore {
            counts: vec![0; LENGTHS[0]],
            classes: vec![0; LENGTHS[1]],
            kept: vec![0; LENGTHS[2]],
            cache: vec![0; LENGTHS[3]],
            ties: vec![0; LENGTHS[4]],
            subtypes: vec![0; LENGTHS[5]],
            objects: vec![0; LENGTHS[6]],
            frames: vec![0; LENGTHS[7]],
        }
    }

    pub fn lengths(&self) -> [usize; 8] {
        let [classes, cache, ties, subtypes] = [&self.classes, &self.cache, &self.ties, &self.subtypes].map(Vec::len);
        [self.counts.len(), classes, self.kept.len(), cache, ties, subtypes, self.objects.len(), self.frames.len()]
    }

    /// Overwrites a cell of the table at this place, of whose number the low bits; says whether there is such a cell.
    pub fn set(&mut self, table: usize, cell: usize, value: u32) -> bool {
        let is_there = self.lengths().get(table).is_some_and(|&length| cell < length);
        match table {
            _ if !is_there => {}
            0 => self.counts[cell] = value as u16,
            1 => self.classes[cell] = value as u16,
            2 => self.kept[cell] = value as u8,
            3 => self.cache[cell] = value as u16,
            4 => self.ties[cell] = value as u16,
            5 => self.subtypes[cell] = value as u16,
            6 => self.objects[cell] = value,
            _ => self.frames[cell] = value,
        }
        is_there
    }

    pub fn count(&self, which: usize) -> usize {
        self.counts[which].into()
    }

    /// Is there room for so many more?
    pub fn has_room(&self, which: usize, more: usize) -> bool {
        self.count(which) + more <= usize::from(LIMITS[which])
    }

    fn rows(table: &[u16], used: usize) -> Vec<[u16; 3]> {
        table.chunks_exact(3).take(used).map(|row| [row[0], row[1], row[2]]).collect()
    }

    /// Loader, start and size of each class's file.
    pub fn class_rows(&self) -> Vec<[u16; 3]> {
        OldStore::rows(&self.classes, self.count(CLASSES))
    }

    pub fn cache_rows(&self) -> Vec<[u16; 3]> {
        OldStore::rows(&self.cache, self.count(CACHE))
    }

    pub fn tie_rows(&self) -> Vec<[u16; 3]> {
        OldStore::rows(&self.ties, self.count(TIES))
    }

    pub fn subtype_rows(&self) -> Vec<[u16; 3]> {
        OldStore::rows(&self.subtypes, self.count(SUBTYPES))
    }

    /// The class that is cached; of two rows for one request the lower is read.
    pub fn cached(&self, loader: u16, name: u16) -> Option<u16> {
        let used = self.cache.chunks_exact(3).take(self.count(CACHE));
        used.into_iter().find(|row| row[..2] == [loader, name]).map(|row| row[2])
    }

    pub fn add_row(&mut self, which: usize, row: [u16; 3]) {
        let at = 3 * self.count(which);
        let table = match which {
            CLASSES => &mut self.classes,
            CACHE => &mut self.cache,
            TIES => &mut self.ties,
            _ => &mut self.subtypes,
        };
        table[at..at + 3].copy_from_slice(&row);
        self.counts[which] += 1;
    }

    pub fn frame_count(&self, task: usize) -> usize {
        self.count(FRAMES + task)
    }

    /// The task whose turn it is.
    pub fn turn(&self) -> Option<usize> {
        (0..2).find(|&task| self.frame_count(task) > 0)
    }

    /// All frames of both tasks.
    pub fn frame_places(&self) -> Vec<Place> {
        (0..2).flat_map(|task| (0..self.frame_count(task)).map(move |depth| Place::of(task, depth))).collect()
    }

    pub fn frame_class(&self, frame: Place) -> u32 {
        self.frames[frame.base]
    }

    pub fn method(&self, frame: Place) -> u32 {
        self.frames[frame.base + METHOD]
    }

    pub fn point(&self, frame: Place) -> u32 {
        self.frames[frame.base + POINT]
    }

    pub fn set_point(&mut self, frame: Place, point: u32) {
        self.frames[frame.base + POINT] = point;
    }

    pub fn operands(&self, frame: Place) -> u32 {
        self.frames[frame.base + OPERANDS]
    }

    pub fn set_operands(&mut self, frame: Place, operands: u32) {
        self.frames[frame.base + OPERANDS] = operands;
    }

    /// The value in two cells of the frames' table.
    pub fn value(&self, at: usize) -> Option<Value> {
        Value::of_cells(&self.frames[at..at + 2])
    }

    pub fn set_value(&mut self, at: usize, value: Value) {
        self.frames[at..at + 2].copy_from_slice(&value.cells());
    }

    pub fn object_class(&self, object: u32) -> u32 {
        self.objects[object as usize * OBJECT_ROW]
    }

    pub fn field(&self, object: u32, field: usize) -> Option<Value> {
        let at = object as usize * OBJECT_ROW + 1 + 2 * field;
        Value::of_cells(&self.objects[at..at + 2])
    }

    pub fn set_field(&mut self, object: u32, field: usize, value: Value) {
        let at = object as usize * OBJECT_ROW + 1 + 2 * field;
        self.objects[at..at + 2].copy_from_slice(&value.cells());
    }

    /// A new object of a class whose fields have these types; there is room for it.
    pub fn add_object(&mut self, class: u16, types: &[u16]) -> Value {
        let object = u32::from(self.counts[OBJECTS]);
        self.objects[object as usize * OBJECT_ROW] = class.into();
        for (field, &of) in types.iter().enumerate() {
            self.set_field(object, field, if of == INT { Value::Int(0) } else { Value::Null });
        }
        self.counts[OBJECTS] += 1;
        Value::Object(object)
    }

    /// A new top frame at point 0; there is room for it. Local 0 holds this and local 1 the argument; the rest begin empty.
    pub fn add_frame(&mut self, task: usize, class: u16, method: usize, this: Value, argument: Value) {
        let frame = Place::of(task, self.frame_count(task));
        self.frames[frame.base] = class.into();
        self.frames[frame.base + METHOD] = method as u32;
        self.set_point(frame, 0);
        self.set_operands(frame, 0);
        (0..MOST_LOCALS).for_each(|local| self.set_value(frame.local(local), Value::Empty));
        self.set_value(frame.local(0), this);
        self.set_value(frame.local(1), argument);
        self.counts[FRAMES + task] += 1;
    }
}
