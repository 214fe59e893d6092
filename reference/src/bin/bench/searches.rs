//! Searches for an order of eight offered loads: how long they take.

use std::time::{Duration, Instant};

use reference::gen::dear::dear;
use reference::host_how::{self, CELLS};
use reference::how::how;
use reference::Store;

use super::{figure, own_time};

/// The least time of some searches, each on the second store that the one before left: one at least, and more until a second is over.
fn least(search: impl Fn(&mut Store)) -> f64 {
    let (mut second, mut least, clock) = (Store::zeros(), f64::MAX, Instant::now());
    while least == f64::MAX || clock.elapsed() < Duration::from_secs(1) {
        let before = own_time();
        search(&mut second);
        least = least.min(own_time() - before);
    }
    least
}

/// The table. The second implementation goes through every order, so its time is no measure for the other's; where that is too long it is left out.
pub fn print() {
    println!("\n| how, eight offers | verified | second, through every order |\n|---|---|---|");
    for asked in dear() {
        let verified = least(|second| {
            let mut answer = [0; CELLS];
            host_how::how(&asked.own, second, &asked.question, &mut answer);
            std::hint::black_box(answer);
        });
        let all = asked.is_short.then(|| least(|second| drop(std::hint::black_box(how(&asked.own, second, &asked.question)))));
        println!("| {} | {} | {} |", asked.name, figure(verified), all.map_or(String::new(), figure));
    }
}
