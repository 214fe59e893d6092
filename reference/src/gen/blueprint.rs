//! A blueprint says what the classes of one list are like, so that files of several loaders fit each other
//! mostly, and differ where it is of interest.

use super::build::Draft;
use super::rng::Rng;
use super::walk;
use crate::file::LISTED;
use crate::signature::{Signature, MOST_ARGUMENTS};
use crate::store::{INT, OBJECT};

/// The name of the blueprint's first class.
pub const FIRST: u16 = 10;
/// The method (MAIN, int, int) that a task can start in.
pub const MAIN: u16 = 20;
const FIELD: u16 = 30;

#[derive(Clone, Debug)]
pub struct Sketch {
    pub name: u16,
    pub superclass: u16,
    pub fields: Vec<(u16, u16)>,
    pub methods: Vec<Signature>,
}

#[derive(Clone, Debug)]
pub struct Blueprint {
    pub sketches: Vec<Sketch>,
    /// Are its files of any version, and not of version 1 alone?
    pub any_version: bool,
    /// Do its classes hide fields?
    pub hides: bool,
}

impl Blueprint {
    pub fn new(rng: &mut Rng) -> Blueprint {
        Blueprint::of(rng, true, true)
    }

    /// For files of version 1.
    pub fn early(rng: &mut Rng, hides: bool) -> Blueprint {
        Blueprint::of(rng, false, hides)
    }

    fn of(rng: &mut Rng, any_version: bool, hides: bool) -> Blueprint {
        let count = rng.within(3, 7);
        let names: Vec<u16> = (0..count as u16).map(|i| FIRST + i).collect();
        let mut blueprint = Blueprint { sketches: Vec::new(), any_version, hides };
        for &name in &names {
            let sketch = blueprint.sketch(rng, name, &names);
            blueprint.sketches.push(sketch);
        }
        blueprint
    }

    fn sketch(&self, rng: &mut Rng, name: u16, names: &[u16]) -> Sketch {
        let superclass = match self.sketches.len() {
            0 => OBJECT,
            _ if rng.percent(25) => OBJECT,
            lower => self.sketches[rng.below(lower)].name,
        };
        let first = FIELD + 4 * (name - FIRST);
        let fields = self.fields(rng, superclass, first, names);
        let mut methods = vec![Signature::of_ints(MAIN)];
        let inherited: Vec<_> = self.upward(superclass).iter().flat_map(|up| up.methods.clone()).collect();
        for _ in 0..rng.within(0, 4) {
            let method = match inherited.len() {
                1.. if rng.percent(60) => rng.pick(&inherited),
                _ => Signature::new(MAIN + rng.below(3) as u16, &random_list(rng, names), random_type(rng, names)),
            };
            if !methods.contains(&method) {
                methods.push(method);
            }
        }
        Sketch { name, superclass, fields, methods }
    }

    /// Up to three fields, some of which hide one upward, of the same type or another.
    fn fields(&self, rng: &mut Rng, superclass: u16, first: u16, names: &[u16]) -> Vec<(u16, u16)> {
        let above: Vec<_> = self.upward(superclass).iter().flat_map(|up| up.fields.clone()).collect();
        let mut fields: Vec<(u16, u16)> = Vec::new();
        for i in 0..rng.within(0, 3) as u16 {
            let other = random_type(rng, names);
            let field = match above.len() {
                1.. if self.hides && rng.percent(35) => rng.pick(&above),
                _ => (first + i, other),
            };
            if fields.iter().all(|there| there.0 != field.0) {
                fields.push(if rng.percent(30) { (field.0, other) } else { field });
            }
        }
        fields
    }

    pub fn find(&self, name: u16) -> Option<&Sketch> {
        self.sketches.iter().find(|sketch| sketch.name == name)
    }

    pub fn names(&self) -> Vec<u16> {
        self.sketches.iter().map(|sketch| sketch.name).collect()
    }

    /// The class and those upward, Object left out.
    pub fn upward(&self, name: u16) -> Vec<&Sketch> {
        std::iter::successors(self.find(name), |sketch| self.find(sketch.superclass)).collect()
    }

    /// The names of the class and of those below it.
    pub fn downward(&self, name: u16) -> Vec<u16> {
        let is_below = |&lower: &u16| self.upward(lower).iter().any(|sketch| sketch.name == name);
        self.names().into_iter().filter(is_below).collect()
    }

    /// A class of this name as some loader might have it.
    pub fn draft(&self, rng: &mut Rng, name: u16) -> Draft {
        let Some(sketch) = self.find(name) else {
            return Draft::new(name).under(self.sketches[0].name);
        };
        let mut sketch = sketch.clone();
        self.vary(rng, &mut sketch);
        let mut draft = Draft::new(name).under(sketch.superclass);
        let version = if self.any_version { rng.pick(&[1, 1, 1, 2, 2, 2, LISTED, LISTED, LISTED, LISTED]) } else { 1 };
        draft.version = version;
        draft.fields = sketch.fields;
        for method in sketch.methods.into_iter().filter(|method| method.is_of(version)) {
            let arguments = method.arguments.types();
            let code = walk::method(rng, self, version, name, arguments, method.result);
            draft = draft.method_of(method.name, arguments, method.result, &code);
        }
        draft
    }

    /// Now and then another superclass, a field or method less, or a field more that hides one.
    fn vary(&self, rng: &mut Rng, sketch: &mut Sketch) {
        if rng.percent(12) {
            sketch.superclass = OBJECT;
        }
        if rng.percent(3) {
            sketch.superclass = rng.pick(&self.names());
        }
        if rng.percent(12) {
            sketch.fields.pop();
        }
        if rng.percent(12) && sketch.methods.len() > 1 {
            let at = rng.below(sketch.methods.len());
            sketch.methods.remove(at);
        }
        let hidden = self.find(sketch.superclass).and_then(|up| up.fields.first().copied());
        if let Some((name, of)) = hidden.filter(|_| self.hides && rng.percent(6)) {
            sketch.fields.push((name, rng.pick(&[of, INT])));
        }
    }
}

/// One argument, or none, or up to four.
fn random_list(rng: &mut Rng, names: &[u16]) -> Vec<u16> {
    let count = if rng.percent(35) { 1 } else { rng.below(MOST_ARGUMENTS + 1) };
    (0..count).map(|_| random_type(rng, names)).collect()
}

fn random_type(rng: &mut Rng, names: &[u16]) -> u16 {
    match rng.below(10) {
        0..=2 => INT,
        3 => OBJECT,
        _ => rng.pick(names),
    }
}
