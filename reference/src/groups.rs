//! The groups of ties (paper 11), made tie by tie: "a group number for every request that a tie names: the lowest row, as Paper 3 numbers them,
//! among its group's ties".

use crate::agree::key;
use crate::store::{count, Store, LIMITS};

/// A tie of this number joins the groups of its two requests, those that have one: the lowest of the three numbers is left in all the cells, and is given.
pub fn join(cells: &mut [u16], of_ends: [Option<u16>; 2], number: u16) -> u16 {
    let lowest = of_ends.into_iter().flatten().fold(number, u16::min);
    for old in of_ends.into_iter().flatten().filter(|&group| group != lowest) {
        cells.iter_mut().filter(|cell| **cell == old).for_each(|cell| *cell = lowest);
    }
    lowest
}

/// Twice as many places as 256 ties name requests.
const PLACES: usize = 1_024;
/// The row that stands at a place without a request.
const NO_ROW: u16 = u16::MAX;

/// The first tie that names each request, at a place that goes by the request, or at one of the next.
struct Named {
    requests: [u32; PLACES],
    rows: [u16; PLACES],
}

impl Named {
    fn new() -> Named {
        Named { requests: [0; PLACES], rows: [NO_ROW; PLACES] }
    }

    /// Where a request stands, or where it would.
    fn place(&self, request: u32) -> usize {
        let mut place = (request.wrapping_mul(0x9E37_79B1) >> 22) as usize;
        while self.rows[place] != NO_ROW && self.requests[place] != request {
            place = (place + 1) % PLACES;
        }
        place
    }

    /// The first tie that names a request.
    fn row(&self, request: u32) -> Option<usize> {
        let row = self.rows[self.place(request)];
        (row != NO_ROW).then_some(row.into())
    }

    /// Says that a tie names both its requests.
    fn name(&mut self, [one, other, name]: [u16; 3], row: usize) {
        for request in [key(one, name), key(other, name)] {
            let place = self.place(request);
            if self.rows[place] == NO_ROW {
                (self.requests[place], self.rows[place]) = (request, row as u16);
            }
        }
    }
}

/// The groups of ties, 256 at most, and the requests that they name.
pub struct Groups {
    named: Option<Box<Named>>,
    cells: Vec<u16>,
}

impl Groups {
    fn none() -> Groups {
        Groups { named: None, cells: Vec::new() }
    }

    /// The groups of a store's ties, made from its ties and their numbers alone.
    pub fn made(store: &Store) -> Groups {
        let mut groups = Groups::none();
        if store.counts[count::TIES] <= LIMITS[count::TIES] {
            store.tie_rows().zip(store.tie_numbers()).for_each(|(row, &number)| groups.add(row, number));
        }
        groups
    }

    /// The groups as they stand beside a store's ties, and then those with more ties, which get the numbers from the first on.
    pub fn read(store: &Store, more: &[[u16; 3]], first: u16) -> Groups {
        let mut groups = Groups::none();
        store.tie_rows().zip(store.groups()).for_each(|(row, &group)| groups.put(row, group));
        more.iter().zip(first..).for_each(|(&row, number)| groups.add(row, number));
        groups
    }

    /// A tie whose group is known.
    fn put(&mut self, row: [u16; 3], group: u16) {
        self.named.get_or_insert_with(|| Box::new(Named::new())).name(row, self.cells.len());
        self.cells.push(group);
    }

    /// The next tie, by its number.
    fn add(&mut self, row: [u16; 3], number: u16) {
        let of_ends = [row[0], row[1]].map(|loader| self.of(key(loader, row[2])));
        let group = join(&mut self.cells, of_ends, number);
        self.put(row, group);
    }

    /// The group beside each tie.
    pub fn cells(&self) -> &[u16] {
        &self.cells
    }

    /// The group of a request; nothing if no tie names it.
    pub fn of(&self, request: u32) -> Option<u16> {
        self.named.as_ref()?.row(request).map(|row| self.cells[row])
    }
}
