//! Two orders of the same calls: at which of them the answers part.

use reference::host::Told;

/// The calls of an order, each with its answer.
#[derive(Clone, Default)]
pub struct Tried {
    called: String,
    calls: Vec<Answered>,
}

#[derive(Clone)]
struct Answered {
    said: String,
    answer: String,
    /// What of the answer doesn't depend on how classes and objects happen to be numbered.
    essence: [u32; 4],
}

/// Refusals with what they want, and what a step or run came to. A class's number says nothing: it follows from the order alone.
fn essence(told: &Told) -> [u32; 4] {
    let [kind, number, one, two, three, _] = told.cells;
    match kind {
        1 => [0; 4],
        _ => [number.max(told.number.into()), one, two, three],
    }
}

impl Tried {
    pub fn new(called: &str) -> Tried {
        Tried { called: called.into(), calls: Vec::new() }
    }

    pub fn called(&self) -> &str {
        &self.called
    }

    pub fn add(&mut self, said: &str, told: &Told, answer: &str) {
        self.calls.push(Answered { said: said.into(), answer: answer.into(), essence: essence(told) });
    }

    /// For each call of this order the place of the same call in the other, the first of those of the same words that isn't taken.
    fn pairs(&self, other: &Tried) -> Vec<(usize, usize)> {
        let mut taken = vec![false; other.calls.len()];
        let mut pairs = Vec::new();
        for (at, call) in self.calls.iter().enumerate() {
            if let Some(there) = (0..taken.len()).find(|&there| !taken[there] && other.calls[there].said == call.said) {
                taken[there] = true;
                pairs.push((at, there));
            }
        }
        pairs
    }

    /// The calls that are answered otherwise in the other order: their places in both.
    pub fn parted(&self, other: &Tried) -> Vec<(usize, usize)> {
        let differs = |&(at, there): &(usize, usize)| self.calls[at].essence != other.calls[there].essence;
        self.pairs(other).into_iter().filter(differs).collect()
    }

    /// That one call is answered otherwise, in words.
    pub fn parting_at(&self, other: &Tried, at: usize, there: usize) -> String {
        let (one, two) = (&self.calls[at], &other.calls[there]);
        let (a, b) = (&self.called, &other.called);
        format!("orders {a} and {b} part at {}: {} in {a}, {} in {b}", one.said, one.answer, two.answer)
    }

    /// The same of all, in words.
    pub fn parting(&self, other: &Tried) -> Vec<String> {
        let lines: Vec<String> = self.parted(other).into_iter().map(|(at, there)| self.parting_at(other, at, there)).collect();
        match lines.is_empty() {
            true => vec![format!("orders {} and {} have the same answers", self.called, other.called)],
            false => lines,
        }
    }
}

#[cfg(test)]
mod tests {
    use super::*;

    #[test]
    fn orders_part_at_refusals_and_not_at_numbers() {
        let told = |cells: [u32; 6]| Told { number: cells[1] as u8, cells };
        let (mut one, mut other) = (Tried::new("A"), Tried::new("B"));
        one.add("x", &told([1, 0, 3, 0, 0, 0]), "defined: class 3");
        one.add("y", &told([0; 6]), "recorded");
        other.add("y", &told([4, 9, 0, 0, 0, 0]), "refused: 9, clash");
        other.add("x", &told([1, 0, 4, 0, 0, 0]), "defined: class 4");
        assert_eq!(one.parted(&other), [(1, 0)]);
        assert_eq!(one.parting(&other), ["orders A and B part at y: recorded in A, refused: 9, clash in B"]);
    }
}
