//! The old machine, that of the first document, as the second implementation has it: a lesson's `old { .. }` makes calls of it, and `change over`
//! carries its store to today's tables. And old stores in files.

use std::fs;

use reference::changeover::carried;
use reference::gen::Call;
use reference::host::{expected, Told};
use reference::old::tables::LENGTHS;
use reference::old::{self, OldStore};
use reference::store::TABLES;
use reference::Store;

use crate::lesson::What;
use crate::machine;
use crate::names::Names;
use crate::rows;
use crate::words;

/// An old store that calls are made on.
#[derive(Clone)]
pub struct Old(OldStore);

/// What came of a call.
pub struct Made {
    /// Damage is answered by nothing.
    pub told: Option<Told>,
    pub answer: String,
}

impl Old {
    pub fn booted() -> Old {
        let mut store = OldStore::zeros();
        old::make(&Call::Boot, &mut store);
        Old(store)
    }

    /// What a lesson does with it; or why that can't be.
    pub fn make(&mut self, what: &What, names: &Names) -> Result<Made, String> {
        let call = match *what {
            What::Call(ref call) => call.clone(),
            What::RecordOf { loader, name, of } => {
                let class = u16::try_from(of).ok().and_then(|of| self.0.cached(of, name));
                let class = class.ok_or_else(|| format!("{} has no {} yet", names.loader(of), names.class(name)))?;
                Call::Record { loader, name: name.into(), class: class.into() }
            }
            What::Damage { table, cell, value } => {
                let length = LENGTHS[table];
                let is_there = self.0.set(table, cell, value);
                is_there.then_some(()).ok_or_else(|| format!("an old store has {length} cells of {}", TABLES[table].0))?;
                return Ok(Made { told: None, answer: "damaged".into() });
            }
            What::Old(_) | What::ChangeOver | What::Offer(_) | What::How { .. } => return Err(NO_CALL.into()),
        };
        let turn = u32::from(self.0.counts[6] == 0);
        let ran = if old::broken(&self.0) { None } else { rows::next_instruction(&carried(&self.0), names) };
        let told = expected(old::make(&call, &mut self.0).ok_or(NO_CALL)?, turn);
        Ok(Made { answer: words::answer(&call, &told, names, ran.as_deref()), told: Some(told) })
    }

    /// Today's tables, filled by the machine; nothing if this build has none.
    pub fn change_over(&self, store: &mut Store) -> Option<Made> {
        let told = machine::change_over(&self.0, store)?;
        let answer = if told.number == 0 { "changed over".into() } else { words::refused(told.number.into(), [0; 2], &Names::default()) };
        Some(Made { told: Some(told), answer })
    }
}

/// Said of a call that the first document doesn't have.
pub const NO_CALL: &str = "the old machine has no such call";

/// The bytes of an old store in one piece.
const OLD_BYTES: usize = 68_496;

/// Reads cells of so many bytes, the low byte first.
struct Cells<'a>(&'a [u8]);

impl Cells<'_> {
    fn take<const N: usize, T>(&mut self, count: usize, of: fn([u8; N]) -> T) -> Vec<T> {
        let (taken, left) = self.0.split_at(count * N);
        self.0 = left;
        taken.chunks_exact(N).map(|bytes| of(std::array::from_fn(|at| bytes[at]))).collect()
    }
}

/// The old store that these bytes are, table by table as docs/STORE.md has them.
pub fn read(bytes: &[u8]) -> Option<OldStore> {
    if bytes.len() != OLD_BYTES {
        return None;
    }
    let mut cells = Cells(bytes);
    Some(OldStore {
        counts: cells.take(LENGTHS[0], u16::from_le_bytes),
        classes: cells.take(LENGTHS[1], u16::from_le_bytes),
        kept: cells.take(LENGTHS[2], u8::from_le_bytes),
        cache: cells.take(LENGTHS[3], u16::from_le_bytes),
        ties: cells.take(LENGTHS[4], u16::from_le_bytes),
        subtypes: cells.take(LENGTHS[5], u16::from_le_bytes),
        objects: cells.take(LENGTHS[6], u32::from_le_bytes),
        frames: cells.take(LENGTHS[7], u32::from_le_bytes),
    })
}

/// Today's tables in one piece: two bytes that say nothing stand before the objects.
fn bytes(store: &Store) -> Vec<u8> {
    let words = |cells: &[u16]| cells.iter().flat_map(|cell| cell.to_le_bytes()).collect::<Vec<u8>>();
    let longs = |cells: &[u32]| cells.iter().flat_map(|cell| cell.to_le_bytes()).collect::<Vec<u8>>();
    let rows = [words(&store.cache), words(&store.ties), words(&store.subtypes)].concat();
    [words(&store.counts), words(&store.classes), store.kept.clone(), rows, vec![0; 2], longs(&store.objects), longs(&store.frames)].concat()
}

/// `change-over OLD [NEW]`: what today's tables hold then, row by row, and the tables in NEW. Else a status and what is said.
pub fn run(old: &str, new: Option<&str>) -> Result<String, (u8, String)> {
    let read_bytes = fs::read(old).map_err(|error| (2, format!("box: {old}: {error}")))?;
    let length = read_bytes.len();
    let store = read(&read_bytes).ok_or_else(|| (1, format!("{old} has {length} bytes, and an old store {OLD_BYTES}: docs/STORE.md, 'The old layout'")))?;
    if new == Some(old) {
        return Err((2, format!("box: {old} stays as it is: the new tables need another name")));
    }
    let mut filled = Store::zeros();
    let told = machine::change_over(&store, &mut filled).ok_or((2, "this build has no machine; use ./box".to_string()))?;
    if told.number != 0 {
        return Err((1, format!("{old} isn't changed over: {}, by the first document's rules", words::refused(told.number.into(), [0; 2], &Names::default()))));
    }
    let mut said: String = rows::listed(&filled, &Names::default()).iter().map(|row| format!("{row}\n")).collect();
    said.push_str(&format!("{old} is changed over\n"));
    if let Some(new) = new {
        let bytes = bytes(&filled);
        fs::write(new, &bytes).map_err(|error| (2, format!("box: {new}: {error}")))?;
        said.push_str(&format!("written: {new}, {} bytes\n", bytes.len()));
    }
    Ok(said)
}
