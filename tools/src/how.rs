//! How could this load? What a lesson offers and asks for, and the answer in words: the order that the machine finds, load by load, or why there is
//! none. The loads are made one by one on a copy of the store, by the machine too, and must lead to the second store that the search left.

use reference::answer::word;
use reference::file::Sketch;
use reference::gen::Call;
use reference::host::Told;
use reference::how::{how, orders, Found, Question, MOST_OFFERS};
use reference::store::{count, Store, LENGTHS};

use crate::machine;
use crate::names::Names;
use crate::words::{self, counted};

/// The loads that a lesson offers, each with its words, until it is asked and offers anew.
#[derive(Clone, Default)]
pub struct Offers {
    loads: Vec<(Call, String)>,
    is_asked: bool,
}

/// What came of a question.
pub struct Asked {
    pub found: Found,
    /// The answer in words.
    pub answer: String,
    second: Store,
    question: Question,
    loads: Vec<(Call, String)>,
}

impl Offers {
    /// Offers a load, behind those since the last question: the words that answer it.
    pub fn add(&mut self, load: Call, said: &str) -> String {
        if std::mem::take(&mut self.is_asked) {
            self.loads.clear();
        }
        self.loads.push((load, said.into()));
        format!("offer {}", self.loads.len() - 1)
    }

    /// Asks the machine for an order by which the request would be cached.
    pub fn ask(&mut self, own: &Store, loader: u32, name: u16) -> Option<Asked> {
        self.is_asked = true;
        let mut question = Question { loader, name, ..Question::default() };
        self.loads.iter().for_each(|(load, _)| add(&mut question, load));
        let mut second = Store::zeros();
        let found = machine::how(own, &mut second, &question)?;
        let answer = in_words(&found, self.loads.len());
        Some(Asked { found, answer, second, question, loads: self.loads.clone() })
    }
}

/// One more row of the offers. A record's name may be too large, which is then refused.
fn add(question: &mut Question, load: &Call) {
    match *load {
        Call::Define { loader, ref file } => {
            question.cells.extend([1, loader, question.pool.len() as u32, file.len() as u32]);
            question.pool.extend(file);
        }
        Call::Record { loader, name, class } => question.cells.extend([2, loader, name, class]),
        _ => {}
    }
}

/// The answer beside a question.
fn in_words(found: &Found, offers: usize) -> String {
    let numbers = |order: &[u8]| order.iter().map(u8::to_string).collect::<Vec<_>>().join(", ");
    match found {
        Found::Order(order) if order.is_empty() => "cached already: no load is needed".into(),
        Found::Order(order) if order.len() == 1 => format!("found: offer {}", order[0]),
        Found::Order(order) => format!("found: offers {}", numbers(order)),
        Found::Nothing if offers == 0 => "none: there are no offers".into(),
        Found::Nothing => format!("none of the {} orders", grouped(orders(offers))),
        Found::Denied(number) => words::refused((*number).into(), [0, 0], &Names::default()),
    }
}

/// A number with a comma before its thousands: 109,601.
fn grouped(number: usize) -> String {
    match number {
        1_000.. => format!("{},{:03}", number / 1_000, number % 1_000),
        _ => number.to_string(),
    }
}

impl Asked {
    /// As the answer of a call, for what is compared between orders.
    pub fn told(&self) -> Told {
        match &self.found {
            Found::Order(order) => Told { number: 0, cells: [6, 0, order.len() as u32, 0, 0, 0] },
            Found::Nothing => Told { number: 0, cells: [7, 0, 0, 0, 0, 0] },
            Found::Denied(number) => Told { number: *number, cells: [4, (*number).into(), 0, 0, 0, 0] },
        }
    }

    /// The order load by load, or what each offer is answered at once; words for the reader if the machine is at odds with itself or with the second
    /// implementation.
    pub fn lines(&self, own: &Store, names: &Names) -> Result<Vec<String>, String> {
        let mut second = Store::zeros();
        if how(own, &mut second, &self.question) != self.found {
            return Err("the second implementation finds another order".into());
        }
        match &self.found {
            Found::Order(order) => self.made(order, own, names),
            Found::Nothing => self.refused(own, names),
            Found::Denied(word::OFFERS) => Ok(vec![format!("{}, and at most {MOST_OFFERS} can be offered", counted(self.loads.len(), "offer"))]),
            Found::Denied(_) => Ok(Vec::new()),
        }
    }

    /// The loads of an order, each with its answer, and the class that is wanted.
    fn made(&self, order: &[u8], own: &Store, names: &Names) -> Result<Vec<String>, String> {
        let (mut store, mut lines) = (own.clone(), Vec::new());
        for (place, &number) in order.iter().enumerate() {
            let (load, said) = self.loads.get(usize::from(number)).ok_or("the machine finds an offer that there isn't")?;
            let told = machine::make(load, &mut store, &mut []).ok_or("there is no machine")?;
            let when = match place {
                0 if order.len() == 1 => "by",
                0 => "first",
                _ => "then",
            };
            lines.push(format!("{when} offer {number}, {said}: {}", words::answer(load, &told, names, None)));
        }
        if store != self.second {
            return Err("the loads found lead to another store than the search's second".into());
        }
        let class = store.cached(self.question.loader as u16, self.question.name).ok_or("the loads found don't give the request")?;
        let is = if order.is_empty() { "is" } else { "would be" };
        lines.push(format!("{} {is} class {class}", names.request(self.question.loader, self.question.name.into())));
        Ok(lines)
    }

    /// What each offer is answered on the store as it is, and whether any is for the request.
    fn refused(&self, own: &Store, names: &Names) -> Result<Vec<String>, String> {
        let mut lines = Vec::new();
        for (number, (load, said)) in self.loads.iter().enumerate() {
            let told = machine::make(load, &mut own.clone(), &mut []).ok_or("there is no machine")?;
            lines.push(format!("at once offer {number}, {said}: {}", words::answer(load, &told, names, None)));
        }
        let wanted = (self.question.loader, u32::from(self.question.name));
        if !self.loads.iter().any(|(load, _)| request(load) == Some(wanted)) {
            lines.push(format!("no offer is for {}", names.request(wanted.0, wanted.1)));
        }
        match self.second == *own || own.lengths() != LENGTHS {
            true => Ok(lines),
            false => Err("nothing is found, and the search's second store isn't the box's".into()),
        }
    }
}

/// The request that a load is for.
fn request(load: &Call) -> Option<(u32, u32)> {
    match *load {
        Call::Define { loader, ref file } => Some((loader, Sketch::read(file).name?.into())),
        Call::Record { loader, name, .. } => Some((loader, name)),
        _ => None,
    }
}

/// The number that the next class of a store gets, for the words of a problem.
pub fn next_class(store: &Store) -> u16 {
    store.counts[count::CLASSES]
}
