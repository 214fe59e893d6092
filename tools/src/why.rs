//! Why a call clashed: a chain of constraints that breaks agreement, in words, row by row. Of a load it is the chain that the machine lists
//! for its try; of a step, which no call tries, the second implementation finds it, and the proved step is asked whether it clashes by
//! these rows alone.

use reference::agree::{entries, numbered, Added, Constraint};
use reference::answer::word;
use reference::breaks::{breaks, walked, ways, Request};
use reference::broken::unbroken;
use reference::gen::Call;
use reference::reason::chain;
use reference::store::{count, MOST_ROWS};
use reference::Store;

use crate::machine;
use crate::names::Names;
use crate::tried::tried;
use crate::words::counted;

/// A chain that breaks agreement, from its lower end to its upper.
pub struct Why {
    pub rows: Vec<(u16, Constraint)>,
    /// The requests along it, one more than the rows, each with its class if it is loaded.
    pub requests: Vec<(Request, Option<u16>)>,
    /// The request that a load would add.
    newcomer: Option<Request>,
    /// How many constraints are stored; the others are the call's own.
    stored: usize,
    /// The loader that defined each class.
    definers: Vec<u16>,
}

/// The chain by which a call clashes on this store; words for the reader if the rows that were found don't break agreement.
pub fn why(call: &Call, store: &Store) -> Option<Result<Why, String>> {
    match call {
        Call::Step | Call::Run { .. } => stepped(store),
        _ => loaded(call, store),
    }
}

/// The chain that the machine lists for the try of a load.
fn loaded(load: &Call, store: &Store) -> Option<Result<Why, String>> {
    let mut list = [0; MOST_ROWS];
    let told = machine::make(&load.tried(MOST_ROWS)?, &mut store.clone(), &mut list)?;
    let (rows, plan) = (&list[..(told.cells[5] as usize).min(MOST_ROWS)], load.plan(store)?);
    if !load.is_the_reason(store, rows) {
        return Some(Err(format!("the machine lists the rows {rows:?}, which the second implementation doesn't take for the reason")));
    }
    Why::new(store, &plan.added(), rows).map(Ok)
}

/// A chain by which the next step clashes. The step would post ties; the rows must break agreement by the definition, and by the proved
/// machine: on a copy of the store that has no other constraints, its step must clash too.
fn stepped(store: &Store) -> Option<Result<Why, String>> {
    let ties = tried(&Call::Step, store).ties;
    let added = Added { ties: &ties, ..Added::default() };
    let (classes, no) = (unbroken(store)?, |said: &str| Some(Err(format!("the step clashes, and {said}"))));
    let Some(rows) = chain(store, &added, &classes) else {
        return no("the second implementation finds no chain");
    };
    if !breaks(store, &added, &classes, &rows) {
        return no("the chain that the second implementation finds is no reason for it");
    }
    let told = machine::make(&Call::Step, &mut with_rows_alone(store, &rows), &mut [])?;
    if told.number != word::CLASH {
        return no(&format!("with the rows {rows:?} alone the machine's doesn't"));
    }
    Why::new(store, &added, &rows).map(Ok)
}

/// The store with these of its constraints alone, numbered anew in their order.
fn with_rows_alone(store: &Store, rows: &[u16]) -> Store {
    let mut left = store.clone();
    (left.counts[count::TIES], left.counts[count::SUBTYPES]) = (0, 0);
    for (row, constraint) in (0..).zip(numbered(store, &Added::default())) {
        match constraint {
            _ if !rows.contains(&row) => {}
            Constraint::Tie(cells) => left.add_tie(cells),
            Constraint::Subtype(cells) => left.add_subtype(cells),
        }
    }
    left
}

impl Why {
    /// These rows of the store and of what a call would add, with the requests that they lead along.
    fn new(store: &Store, added: &Added, rows: &[u16]) -> Option<Why> {
        let constraints = numbered(store, added);
        let rows: Vec<(u16, Constraint)> = rows.iter().map(|&row| (row, constraints[usize::from(row)])).collect();
        let chain: Vec<Constraint> = rows.iter().map(|row| row.1).collect();
        let requests = ways(chain[0]).into_iter().find_map(|(start, _)| walked(start, &chain))?;
        let class = |request: Request| entries(store, added).find(|row| (row[0], row[1]) == request).map(|row| row[2]);
        Some(Why {
            rows,
            requests: requests.into_iter().map(|request| (request, class(request))).collect(),
            newcomer: added.entry.map(|entry| (entry[0], entry[1])),
            stored: store.constraint_count(),
            definers: (0..store.counts[count::CLASSES]).map(|class| store.loader_of(class)).collect(),
        })
    }

    /// The loader that defined a class, or would have.
    pub fn definer(&self, class: u16) -> u16 {
        let newcomer = self.newcomer.map_or(0, |request| request.0);
        self.definers.get(usize::from(class)).copied().unwrap_or(newcomer)
    }

    /// The chain in words, a line for its ends, one for each row and one for where that comes from, and one for what it demands.
    pub fn lines(&self, names: &Names, origin: impl Fn(u16, Constraint) -> Option<String>) -> Vec<String> {
        let (first, last) = (self.requests[0], self.requests[self.requests.len() - 1]);
        let count = counted(self.rows.len(), "row");
        let verb = if self.rows.len() == 1 { "leads" } else { "lead" };
        let mut lines = vec![format!("why: {count} {verb} from {} to {}", self.place(first, names), self.place(last, names))];
        for (&(row, constraint), &to) in self.rows.iter().zip(&self.requests[1..]) {
            let own = match (usize::from(row) < self.stored, self.newcomer) {
                (true, _) => "",
                (false, Some(_)) => ", the load's own",
                (false, None) => ", that the step would post",
            };
            lines.push(format!("  row {row}{own}: {}; on to {}", said(constraint, names), self.place(to, names)));
            lines.extend(origin(row, constraint).map(|origin| format!("    {origin}")));
        }
        lines.push(self.demand());
        lines
    }

    /// A request as people read it, with its class.
    fn place(&self, ((loader, name), class): (Request, Option<u16>), names: &Names) -> String {
        let class = class.map_or("not loaded".into(), |class| format!("class {class}"));
        let new = if Some((loader, name)) == self.newcomer { ", as it would be" } else { "" };
        format!("{} ({class}{new})", names.request(loader, name.into()))
    }

    /// What the chain demands of the classes at its ends, which they aren't.
    fn demand(&self) -> String {
        let class = |at: usize| self.requests[at].1.unwrap_or(0);
        let (first, last) = (class(0), class(self.requests.len() - 1));
        let is_tied = self.rows.iter().all(|row| matches!(row.1, Constraint::Tie(_)));
        match is_tied {
            true => format!("  ties alone: both must be one class, and class {first} isn't class {last}"),
            false => format!("  so the first must be the last or below it, and class {first} isn't class {last} or below"),
        }
    }

    /// Is this the request that the load would add?
    pub fn is_newcomer(&self, request: Request) -> bool {
        Some(request) == self.newcomer
    }

    /// Would the call itself post this row?
    pub fn is_own(&self, row: u16) -> bool {
        usize::from(row) >= self.stored
    }
}

fn said(constraint: Constraint, names: &Names) -> String {
    match constraint {
        Constraint::Tie([one, other, name]) => format!("a tie, {} is one class under {}", names.class(name), names.loaders(one, other)),
        Constraint::Subtype([loader, low, high]) => {
            format!("a subtype constraint, {} is below {} under {}", names.class(low), names.class(high), names.loader(loader))
        }
    }
}
