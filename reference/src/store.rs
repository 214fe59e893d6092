//! The store: eight lent tables, their lengths, limits, rows and values.

use crate::file::File;
use crate::groups::{join, Groups};

/// The cells of `counts`.
pub mod count {
    pub const CLASSES: usize = 0;
    pub const KEPT: usize = 1;
    pub const CACHE: usize = 2;
    pub const TIES: usize = 3;
    pub const SUBTYPES: usize = 4;
    pub const OBJECTS: usize = 5;
    /// Frames of the quote; those of the report are the next cell.
    pub const FRAMES: usize = 6;
    /// The owner of object row 0; those of the other rows follow.
    pub const OWNERS: usize = 8;
    /// The number of tie row 0; those of the other tie rows follow.
    pub const TIE_NUMBERS: usize = 264;
    /// The number of subtype row 0; those of the other subtype rows follow.
    pub const SUBTYPE_NUMBERS: usize = 520;
    /// How many loads can be taken back.
    pub const LOADS: usize = 776;
    /// The level of the oldest of these loads; those of the later ones follow.
    pub const LEVELS: usize = 777;
    /// The group of tie row 0; those of the other tie rows follow.
    pub const GROUPS: usize = 937;
}

/// The limit of each count.
pub const LIMITS: [u16; 8] = [64, 16_384, 256, 256, 256, 256, 32, 32];
/// The length of each table, in the order of `Store`.
pub const LENGTHS: [usize; 8] = [1_193, 192, 16_384, 768, 768, 768, 8_448, 3_328];
/// The tables' names, and the largest number that a cell holds.
pub const TABLES: [(&str, u32); 8] = [
    ("counts", 0xFFFF), ("classes", 0xFFFF), ("kept", 0xFF), ("cache", 0xFFFF), ("ties", 0xFFFF), ("subtypes", 0xFFFF),
    ("objects", u32::MAX), ("frames", u32::MAX),
];

/// The most constraints, ties and subtype constraints together. A chain has no more rows, so a list of so many numbers holds any.
pub const MOST_ROWS: usize = (LIMITS[count::TIES] + LIMITS[count::SUBTYPES]) as usize;
/// The most objects in use.
pub const MOST_OBJECTS: usize = LIMITS[count::OBJECTS] as usize;
/// The most objects in use that the report may have made (paper 8).
pub const SHARE: usize = 192;
/// The most loads that can be taken back (paper 10).
pub const MOST_LOADS: usize = 32;
/// What is told of a load that can be taken back: the counts of classes, kept bytes, cache entries, ties and subtype constraints before it.
pub type Level = [u16; LEVEL_ROW];
/// The owner of a free object row. An object's is 1 more than the task that made it.
pub const FREE: u16 = 0;

pub const LOADERS: u16 = 16;
pub const TASKS: u16 = 2;
/// The tasks by number.
pub const QUOTE: usize = 0;
pub const REPORT: usize = 1;
pub const FIELDS: usize = 16;
pub const LOCALS: usize = 8;
pub const OPERANDS: usize = 16;
pub const INT: u16 = 1;
pub const OBJECT: u16 = 2;

/// Cells of a row.
pub const ROW: usize = 3;
pub const OBJECT_ROW: usize = 33;
pub const FRAME_ROW: usize = 52;
pub const LEVEL_ROW: usize = 5;

/// Cells within a frame's row.
pub mod cell {
    pub const CLASS: usize = 0;
    pub const METHOD: usize = 1;
    pub const POINT: usize = 2;
    pub const OPERANDS: usize = 3;
    pub const LOCAL_0: usize = 4;
    pub const OPERAND_0: usize = 20;
}

#[derive(Clone, Debug, PartialEq, Eq)]
pub struct Store {
    pub counts: Vec<u16>,
    pub classes: Vec<u16>,
    pub kept: Vec<u8>,
    pub cache: Vec<u16>,
    pub ties: Vec<u16>,
    pub subtypes: Vec<u16>,
    pub objects: Vec<u32>,
    pub frames: Vec<u32>,
}

/// A value that stands in a field, operand or local.
#[derive(Clone, Copy, Debug, PartialEq, Eq)]
pub enum Value {
    Empty,
    Int(u32),
    Null,
    Object(u32),
}

impl Value {
    /// The listed pair's value; nothing for a pair that isn't listed.
    pub fn read(cells: &[u32], at: usize) -> Option<Value> {
        match (cells[at], cells[at + 1]) {
            (0, 0) => Some(Value::Empty),
            (1, bits) => Some(Value::Int(bits)),
            (2, 0) => Some(Value::Null),
            (3, object) => Some(Value::Object(object)),
            _ => None,
        }
    }

    pub fn write(self, cells: &mut [u32], at: usize) {
        let (kind, bits) = match self {
            Value::Empty => (0, 0),
            Value::Int(bits) => (1, bits),
            Value::Null => (2, 0),
            Value::Object(object) => (3, object),
        };
        cells[at] = kind;
        cells[at + 1] = bits;
    }

    /// What a field of this type begins as.
    pub fn first(of: u16) -> Value {
        if of == INT {
            Value::Int(0)
        } else {
            Value::Null
        }
    }

    /// An int where the type is int, a reference where it is a class name.
    pub fn is_kind_of(self, wanted: u16) -> bool {
        match self {
            Value::Empty => false,
            Value::Int(_) => wanted == INT,
            Value::Null | Value::Object(_) => wanted != INT,
        }
    }
}

/// The owner of the objects that a task makes.
pub fn owner_of(task: usize) -> u16 {
    1 + task as u16
}

/// The used rows of a table with three cells a row.
pub fn rows(table: &[u16], used: usize) -> impl Iterator<Item = [u16; 3]> + '_ {
    table.chunks_exact(ROW).take(used).map(|row| [row[0], row[1], row[2]])
}

/// Where the row of this frame begins.
pub fn frame_base(task: usize, depth: usize) -> usize {
    (task * usize::from(LIMITS[count::FRAMES]) + depth) * FRAME_ROW
}

impl Store {
    /// What a program begins with: every row free.
    pub fn zeros() -> Store {
        Store {
            counts: vec![0; LENGTHS[0]],
            classes: vec![0; LENGTHS[1]],
            kept: vec![0; LENGTHS[2]],
            cache: vec![0; LENGTHS[3]],
            ties: vec![0; LENGTHS[4]],
            subtypes: vec![0; LENGTHS[5]],
            objects: vec![0; LENGTHS[6]],
            frames: vec![0; LENGTHS[7]],
        }
    }

    pub fn lengths(&self) -> [usize; 8] {
        [
            self.counts.len(),
            self.classes.len(),
            self.kept.len(),
            self.cache.len(),
            self.ties.len(),
            self.subtypes.len(),
            self.objects.len(),
            self.frames.len(),
        ]
    }

    /// A cell of the table at this place in `TABLES`.
    pub fn get(&self, table: usize, cell: usize) -> u32 {
        match table {
            0 => self.counts[cell].into(),
            1 => self.classes[cell].into(),
            2 => self.kept[cell].into(),
            3 => self.cache[cell].into(),
            4 => self.ties[cell].into(),
            5 => self.subtypes[cell].into(),
            6 => self.objects[cell],
            _ => self.frames[cell],
        }
    }

    /// Overwrites a cell; of a number that is too large, the low bits are written.
    pub fn set(&mut self, table: usize, cell: usize, value: u32) {
        match table {
            0 => self.counts[cell] = value as u16,
            1 => self.classes[cell] = value as u16,
            2 => self.kept[cell] = value as u8,
            3 => self.cache[cell] = value as u16,
            4 => self.ties[cell] = value as u16,
            5 => self.subtypes[cell] = value as u16,
            6 => self.objects[cell] = value,
            _ => self.frames[cell] = value,
        }
    }

    pub fn count(&self, which: usize) -> usize {
        usize::from(self.counts[which])
    }

    /// Is the count at its limit? Whether there is room for an object is said by `unused_object`.
    pub fn is_full(&self, which: usize) -> bool {
        self.counts[which] >= LIMITS[which]
    }

    /// The owners of the object rows that have been used.
    pub fn owners(&self) -> &[u16] {
        &self.counts[count::OWNERS..][..self.count(count::OBJECTS)]
    }

    pub fn owners_mut(&mut self) -> &mut [u16] {
        let used = self.count(count::OBJECTS);
        &mut self.counts[count::OWNERS..][..used]
    }

    /// The numbers of the objects that exist.
    pub fn objects_in_use(&self) -> impl Iterator<Item = u32> + '_ {
        self.owners().iter().zip(0..).filter(|(&owner, _)| owner != FREE).map(|(_, object)| object)
    }

    /// The lowest unused number; nothing if all are in use.
    pub fn unused_object(&self) -> Option<u32> {
        // By parts, each of which is looked at in a few instructions.
        const PART: usize = 32;
        let owners = self.owners();
        let full = owners.chunks(PART).take_while(|part| !part.contains(&FREE)).count();
        let (used, rest) = owners.split_at((full * PART).min(owners.len()));
        let object = used.len() + rest.iter().take_while(|&&owner| owner != FREE).count();
        (object < MOST_OBJECTS).then_some(object as u32)
    }

    /// How many objects exist that the task made, whoever holds them.
    pub fn made_by(&self, task: usize) -> usize {
        self.owners().iter().filter(|&&owner| owner == owner_of(task)).count()
    }

    /// Has the task a share of the objects, and is it used up? The quote has none.
    pub fn is_share_used(&self, task: usize) -> bool {
        task == REPORT && self.made_by(task) >= SHARE
    }

    /// Says that a row is an object that the task made.
    pub fn own_object(&mut self, object: u32, task: usize) {
        self.counts[count::OWNERS + object as usize] = owner_of(task);
        let used = &mut self.counts[count::OBJECTS];
        *used = (*used).max(object as u16 + 1);
    }

    pub fn cache_rows(&self) -> impl Iterator<Item = [u16; 3]> + '_ {
        rows(&self.cache, self.count(count::CACHE))
    }

    pub fn tie_rows(&self) -> impl Iterator<Item = [u16; 3]> + '_ {
        rows(&self.ties, self.count(count::TIES))
    }

    pub fn subtype_rows(&self) -> impl Iterator<Item = [u16; 3]> + '_ {
        rows(&self.subtypes, self.count(count::SUBTYPES))
    }

    /// How many constraints there are: both kinds are numbered together, from 0, as they are posted.
    pub fn constraint_count(&self) -> usize {
        self.count(count::TIES) + self.count(count::SUBTYPES)
    }

    /// The numbers of the used tie rows.
    pub fn tie_numbers(&self) -> &[u16] {
        &self.counts[count::TIE_NUMBERS..][..self.count(count::TIES)]
    }

    /// The numbers of the used subtype rows.
    pub fn subtype_numbers(&self) -> &[u16] {
        &self.counts[count::SUBTYPE_NUMBERS..][..self.count(count::SUBTYPES)]
    }

    /// The groups beside the used tie rows.
    pub fn groups(&self) -> &[u16] {
        &self.counts[count::GROUPS..][..self.count(count::TIES)]
    }

    /// The group of a request, which stands beside any tie that names it; nothing if none does.
    pub fn group_of(&self, loader: u16, name: u16) -> Option<u16> {
        let names = |row: [u16; 3]| row[..2].contains(&loader) && row[2] == name;
        self.tie_rows().position(names).map(|row| self.groups()[row])
    }

    /// Makes the groups anew from the ties that are there. Cells past them stay.
    pub fn regroup(&mut self) {
        let made = Groups::made(self);
        self.counts[count::GROUPS..].iter_mut().zip(made.cells()).for_each(|(cell, &group)| *cell = group);
    }

    /// The counts that a load raises, as they are now.
    pub fn level(&self) -> Level {
        std::array::from_fn(|which| self.counts[which])
    }

    /// The levels of the loads that can be taken back, the oldest first.
    pub fn levels(&self) -> Vec<Level> {
        let rows = self.counts[count::LEVELS..count::GROUPS].chunks_exact(LEVEL_ROW).take(self.count(count::LOADS));
        rows.map(|row| std::array::from_fn(|which| row[which])).collect()
    }

    /// Writes the levels of the loads that can be taken back, the oldest first: 32 at most.
    pub fn set_levels(&mut self, levels: &[Level]) {
        let rows = self.counts[count::LEVELS..count::GROUPS].chunks_exact_mut(LEVEL_ROW);
        rows.zip(levels).for_each(|(row, level)| row.copy_from_slice(level));
        self.counts[count::LOADS] = levels.len() as u16;
    }

    /// A load that changed the store, which had this level before it, can be taken back; of 33 such loads the oldest no longer can.
    pub fn remember(&mut self, level: Level) {
        let mut levels = self.levels();
        levels.push(level);
        let lost = levels.len().saturating_sub(MOST_LOADS);
        self.set_levels(&levels[lost..]);
    }

    /// No load before now can be taken back.
    pub fn close(&mut self) {
        self.counts[count::LOADS] = 0;
    }

    /// Lowers the counts to a level: the rows past them are there no more. Objects and frames stay, and so do the groups.
    pub fn lower(&mut self, level: Level) {
        self.counts[..LEVEL_ROW].copy_from_slice(&level);
    }

    /// Lowers the counts to a level, and makes the groups of the ties that are left anew: a tie that goes may have joined older groups.
    pub fn cut(&mut self, level: Level) {
        self.lower(level);
        self.regroup();
    }

    /// The class that the cache holds for a request; of two rows the lower.
    pub fn cached(&self, loader: u16, name: u16) -> Option<u16> {
        self.cache_rows().find(|row| row[0] == loader && row[1] == name).map(|row| row[2])
    }

    pub fn loader_of(&self, class: u16) -> u16 {
        self.classes[usize::from(class) * ROW]
    }

    /// The bytes of a class's file, if they lie within the kept bytes.
    pub fn file_bytes(&self, class: u16) -> Option<&[u8]> {
        let row = usize::from(class) * ROW;
        let start = usize::from(self.classes[row + 1]);
        let end = start + usize::from(self.classes[row + 2]);
        self.kept[..self.count(count::KEPT)].get(start..end)
    }

    /// The file of a class of a store that isn't broken; Object has none.
    pub fn file(&self, class: u16) -> Option<File<'_>> {
        if class == 0 {
            return None;
        }
        self.file_bytes(class).map(File::trusted)
    }

    pub fn name_of(&self, class: u16) -> u16 {
        self.file(class).map_or(OBJECT, |file| file.name())
    }

    pub fn frame_count(&self, task: usize) -> usize {
        self.count(count::FRAMES + task)
    }

    /// The task whose turn it is: the quote if it has a frame, else the report.
    pub fn turn(&self) -> Option<usize> {
        (0..usize::from(TASKS)).find(|&task| self.frame_count(task) > 0)
    }

    pub fn object_class(&self, object: u32) -> u16 {
        self.objects[object as usize * OBJECT_ROW] as u16
    }

    /// The first cell of a field's value.
    pub fn field_cell(object: u32, field: usize) -> usize {
        object as usize * OBJECT_ROW + 1 + 2 * field
    }

    /// Appends a class and its file; the caller has seen that there is room.
    pub fn add_class(&mut self, loader: u16, file: &[u8]) -> u16 {
        let class = self.counts[count::CLASSES];
        let start = self.count(count::KEPT);
        self.kept[start..start + file.len()].copy_from_slice(file);
        let at = usize::from(class) * ROW;
        self.classes[at..at + ROW].copy_from_slice(&[loader, start as u16, file.len() as u16]);
        self.counts[count::CLASSES] += 1;
        self.counts[count::KEPT] += file.len() as u16;
        class
    }

    pub fn add_cached(&mut self, row: [u16; 3]) {
        add_row(&mut self.cache, &mut self.counts[count::CACHE], row);
    }

    /// Appends a tie, with the next number. The groups that its two requests have become one, which is its own too.
    pub fn add_tie(&mut self, row: [u16; 3]) {
        let (place, number) = (self.count(count::TIES), self.constraint_count() as u16);
        let groups = [row[0], row[1]].map(|loader| self.group_of(loader, row[2]));
        let group = join(&mut self.counts[count::GROUPS..][..place], groups, number);
        self.counts[count::TIE_NUMBERS + place] = number;
        self.counts[count::GROUPS + place] = group;
        add_row(&mut self.ties, &mut self.counts[count::TIES], row);
    }

    /// Appends a subtype constraint, with the next number.
    pub fn add_subtype(&mut self, row: [u16; 3]) {
        let at = count::SUBTYPE_NUMBERS + self.count(count::SUBTYPES);
        self.counts[at] = self.constraint_count() as u16;
        add_row(&mut self.subtypes, &mut self.counts[count::SUBTYPES], row);
    }

    /// Appends a frame at point 0 with no operands; the caller has seen that there is room. The arguments are local 1 and so on.
    pub fn enter(&mut self, task: usize, class: u16, method: usize, this: Value, arguments: &[Value]) {
        let base = frame_base(task, self.frame_count(task));
        let frame = &mut self.frames[base..base + FRAME_ROW];
        frame[cell::CLASS] = u32::from(class);
        frame[cell::METHOD] = method as u32;
        frame[cell::POINT] = 0;
        frame[cell::OPERANDS] = 0;
        this.write(frame, cell::LOCAL_0);
        frame[cell::LOCAL_0 + 2..cell::OPERAND_0].fill(0);
        arguments.iter().zip(1..).for_each(|(argument, local)| argument.write(frame, cell::LOCAL_0 + 2 * local));
        self.counts[count::FRAMES + task] += 1;
    }
}

fn add_row(table: &mut [u16], used: &mut u16, row: [u16; 3]) {
    let at = usize::from(*used) * ROW;
    table[at..at + ROW].copy_from_slice(&row);
    *used += 1;
}
