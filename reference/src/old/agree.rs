//! Ties, subtype constraints, and whether an old store agrees, by document 01's words.

use std::collections::{HashMap, HashSet};

use super::tables::INT;
use super::world::World;

/// A loader and a name.
type Request = (u16, u16);

/// The rows of cache, ties and subtype constraints, as a call would leave them.
pub struct Bound {
    pub entries: Vec<[u16; 3]>,
    pub ties: Vec<[u16; 3]>,
    pub subtypes: Vec<[u16; 3]>,
}

/// The tie on a type between two loaders; equal loaders or int post none.
pub fn tie(one: u16, other: u16, of: u16) -> Option<[u16; 3]> {
    (one != other && of != INT).then_some([one, other, of])
}

/// Is it there? The order of loaders doesn't count.
pub fn has_tie(ties: &[[u16; 3]], [one, other, name]: [u16; 3]) -> bool {
    ties.contains(&[one, other, name]) || ties.contains(&[other, one, name])
}

/// The requests that each leads to by one constraint.
type Steps = HashMap<Request, Vec<Request>>;

impl Bound {
    fn tied(&self) -> Steps {
        let mut steps = Steps::new();
        for &[one, other, name] in &self.ties {
            steps.entry((one, name)).or_default().push((other, name));
            steps.entry((other, name)).or_default().push((one, name));
        }
        steps
    }

    fn leading(&self) -> Steps {
        let mut steps = self.tied();
        for &[loader, low, high] in &self.subtypes {
            steps.entry((loader, low)).or_default().push((loader, high));
        }
        steps
    }

    /// The class that each loaded request means; of two rows the lower is read.
    fn loaded(&self) -> HashMap<Request, u16> {
        let mut loaded = HashMap::new();
        for &[loader, name, class] in &self.entries {
            loaded.entry((loader, name)).or_insert(class);
        }
        loaded
    }

    /// Tied loaded requests mean one class, and whenever loaded a leads to loaded b, a's class is b's or below.
    pub fn agrees(&self, world: &World) -> bool {
        let (tied, leading, loaded) = (self.tied(), self.leading(), self.loaded());
        loaded.iter().all(|(&from, &class)| {
            let classes = |steps| reached(steps, from).into_iter().filter_map(|to| loaded.get(&to));
            classes(&tied).all(|&other| other == class) && classes(&leading).all(|&other| world.is_below(class, other))
        })
    }
}

/// The requests that a chain of any length leads to.
fn reached(steps: &Steps, from: Request) -> HashSet<Request> {
    let (mut seen, mut left) = (HashSet::from([from]), vec![from]);
    while let Some(request) = left.pop() {
        for &next in steps.get(&request).into_iter().flatten() {
            if seen.insert(next) {
                left.push(next);
            }
        }
    }
    seen
}
