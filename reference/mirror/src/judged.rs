//! Agreement, judged wrongly.

use reference::broken::unbroken;
use reference::Store;

/// How a store is judged.
#[derive(Clone, Copy, PartialEq)]
pub enum Judge {
    /// By single constraints that touch the new entry.
    OneConstraint,
    /// By chains in which no two ties follow each other.
    OneTie,
    /// By chains, with classes of one name taken for one.
    Names,
}

/// A loader and a class name.
type Request = (u16, u16);

/// The requests that one tie, and that one subtype constraint, lead to.
fn steps(store: &Store, (loader, name): Request) -> (Vec<Request>, Vec<Request>) {
    let ties = store.tie_rows().filter(|row| row[2] == name && row[..2].contains(&loader));
    let subtypes = store.subtype_rows().filter(|row| (row[0], row[1]) == (loader, name));
    (ties.map(|row| (row[0] ^ row[1] ^ loader, name)).collect(), subtypes.map(|row| (loader, row[2])).collect())
}

/// The requests that a request leads to, and whether it is by ties alone.
fn led_to(store: &Store, from: Request, judge: Judge) -> Vec<(Request, bool)> {
    // a request, whether ties alone led there, and whether the last step was a tie
    let mut seen = vec![(from, true, false)];
    let mut at = 0;
    while at < seen.len() {
        let (request, by_ties, by_tie) = seen[at];
        at += 1;
        if judge == Judge::OneConstraint && at > 1 {
            continue;
        }
        let (ties, subtypes) = steps(store, request);
        let ties = if judge == Judge::OneTie && by_tie { Vec::new() } else { ties };
        let next = ties.into_iter().map(|to| (to, by_ties, true)).chain(subtypes.into_iter().map(|to| (to, false, false)));
        next.for_each(|to| if !seen.contains(&to) { seen.push(to) });
    }
    seen.into_iter().map(|(request, by_ties, _)| (request, by_ties)).collect()
}

/// Does the store with the new entry agree, as it is judged?
pub fn agrees(store: &Store, entry: Request, judge: Judge) -> bool {
    let classes = unbroken(store).expect("a store");
    let name = |class: u16| store.name_of(class);
    let same = |a: u16, b: u16| if judge == Judge::Names { name(a) == name(b) } else { a == b };
    let below = |a: u16, b: u16| classes.upward(a).any(|up| same(up, b));
    store.cache_rows().all(|[loader, name, _]| {
        let class = store.cached(loader, name).expect("a row of it");
        led_to(store, (loader, name), judge).into_iter().all(|(to, by_ties)| {
            let touches = judge != Judge::OneConstraint || entry == to || entry == (loader, name);
            let fits = |other: u16| if by_ties { same(class, other) } else { below(class, other) };
            !touches || store.cached(to.0, to.1).is_none_or(fits)
        })
    })
}
