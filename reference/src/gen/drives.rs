//! Input for drivelist: lists of calls in cells, at times with a row that has no call or tables that boot refuses.

use super::build::{Code, Draft};
use super::cases::{self, MAIN};
use super::chains::chains;
use super::graphs::graphs;
use super::joins::joins;
use super::list::list;
use super::listed;
use super::rng::Rng;
use super::shares::shared;
use super::taken::taking;
use super::{Call, Trial};
use crate::answer::{denied, word};
use crate::drive::{ANSWERS, HEAD, INPUT, LIST, ROW};
use crate::store::{INT, LENGTHS};

/// Rows, and the bytes of the files that stand behind them.
struct Encoded {
    rows: Vec<[u32; ROW]>,
    files: Vec<u8>,
    /// Where the files begin in the input.
    first: usize,
}

impl Encoded {
    fn new(calls: &[Call], more: usize) -> Encoded {
        let first = 4 * (HEAD + ROW * (calls.len() + more));
        let mut encoded = Encoded { rows: Vec::new(), files: Vec::new(), first };
        calls.iter().for_each(|call| encoded.add(call));
        encoded
    }

    /// Where this file begins and how many bytes it has.
    fn file(&mut self, file: &[u8]) -> [u32; 2] {
        let start = self.first + self.files.len();
        self.files.extend(file);
        [start as u32, file.len() as u32]
    }

    fn add(&mut self, call: &Call) {
        let n = call.cells() as u32;
        let row = match *call {
            Call::Boot => [0; ROW],
            Call::Define { loader, ref file } => {
                let [start, size] = self.file(file);
                [1, loader, start, size, 0, 0]
            }
            Call::Record { loader, name, class } => [2, loader, name, class, 0, 0],
            Call::Start { task, loader, name, method, int } => [3, task, loader, name.into(), method.into(), int],
            Call::Step => [4, 0, 0, 0, 0, 0],
            Call::Run { n } => [5, n, 0, 0, 0, 0],
            Call::Drop { task } => [6, task, 0, 0, 0, 0],
            Call::Sweep => [7, 0, 0, 0, 0, 0],
            Call::TryDefine { loader, ref file, .. } => {
                let [start, size] = self.file(file);
                [8, loader, start, size, n, 0]
            }
            Call::TryRecord { loader, name, class, .. } => [9, loader, name, class, n, 0],
            Call::TakeBack => [10, 0, 0, 0, 0, 0],
        };
        self.rows.push(row);
    }

    fn input(&self, counts: u32, cells: usize, answers: u32) -> Vec<u8> {
        let head = [counts, cells as u32, answers];
        let cells = head.iter().chain(self.rows.iter().flatten());
        let mut input: Vec<u8> = cells.flat_map(|cell| cell.to_be_bytes()).collect();
        assert_eq!(input.len(), self.first, "the rows that were announced");
        input.extend(&self.files);
        input
    }
}

/// Lengths of the lists that tries are lent.
const LISTS: [u32; 8] = [0, 1, 511, 512, 512, 513, 600, u32::MAX];

/// The calls, with tries before some of their loads, and more of them before one that clashes.
fn trying(trial: &Trial, rng: &mut Rng) -> Vec<Call> {
    let mut all = Vec::new();
    for (call, &reply) in trial.calls.iter().zip(&trial.replies) {
        let tries = if reply == denied(word::CLASH) { 4 } else { rng.pick(&[0, 0, 1, 1, 2]) };
        for _ in 0..tries {
            all.extend(call.tried(rng.pick(&LISTS) as usize));
        }
        all.push(call.clone());
    }
    all
}

/// A row that has no call: no kind, a file past the input's end, a name or a method that isn't 16 bits.
fn no_call(rng: &mut Rng) -> [u32; ROW] {
    match rng.below(5) {
        0 => [11 + rng.below(3) as u32, 1, 2, 0, 512, 0],
        1 => [u32::MAX, 0, 0, 0, 0, 0],
        2 => [rng.pick(&[1, 8]), 1, rng.pick(&[0, 12, u32::MAX]), rng.pick(&[65_537, u32::MAX]), rng.pick(&LISTS), 0],
        3 => [3, 0, 1, 0x1_000A, 20, 7],
        _ => [3, 0, 1, 10, 0x1_0014, 7],
    }
}

/// A list of calls of every kind, a product, a quotient by 0, a hidden field, and a load that is accepted and one that clashes tried among them; from further boots, a
/// load that is taken back, methods with 0 to 4 arguments, an inline count of 5, an override and a call that tie each argument; then a row that has no call, then one that is not reached.
pub fn fixed() -> Vec<u8> {
    let mut trial = cases::across(&cases::caller(), true, false);
    trial.run(3);
    trial.record(2, 12, 3);
    trial.step();
    trial.step();
    trial.start(1, 1, 11, 21, -1);
    trial.start(1, 2, 10, 22, -1);
    trial.drop_task(0);
    trial.sweep();
    trial.drop_task(2);
    trial.start(0, 2, 10, 22, 5);
    trial.run(100);
    trial.sweep();
    trial.run(0);
    trial.define(1, &Draft::mapped(14).main(MAIN, &Code::new().int(-7).iload(1).idiv().iload(1).imul().ireturn()));
    trial.start(0, 1, 14, MAIN, 2);
    trial.run(100);
    trial.start(0, 1, 14, MAIN, 0);
    trial.run(100);
    trial.step();
    trial.drop_task(0);
    let apart = Code::new().aload(0).int(3).putfield(11, 31, INT).aload(0).int(8).putfield(16, 31, INT);
    let apart = apart.aload(0).getfield(11, 31, INT).aload(0).getfield(16, 31, INT).isub().ireturn();
    trial.define(1, &Draft::new(16).under(11).field(31, INT).main(MAIN, &apart));
    trial.start(0, 1, 16, MAIN, 0);
    trial.run(100);
    trial.define(1, &Draft::new(12));
    let clash = Draft::new(13).main(MAIN, &Code::new().object(12).getfield(10, 30, INT).ireturn()).file();
    let loads = [Call::Record { loader: 3, name: 12, class: 3 }, Call::Define { loader: 2, file: clash }];
    let mut calls = trial.calls;
    for load in loads {
        calls.extend([512, 511, u32::MAX, 0].into_iter().filter_map(|cells| load.tried(cells as usize)));
        calls.push(load);
    }
    calls.extend([Call::Boot, Call::Record { loader: 1, name: 2, class: 0 }, Call::Step, Call::TakeBack, Call::TakeBack]);
    let mut numbers = listed::numbers();
    let code = Code::listed().aload(0).call(18, 21, &[INT; 5], INT).ireturn();
    numbers.define(1, &Draft::listed(18).main(MAIN, &code));
    let types = [12, 13, 14, 15];
    for trial in [numbers, listed::overriding(None), listed::calling(&types, 16, None)] {
        calls.extend(trial.calls);
    }
    let mut encoded = Encoded::new(&calls, 2);
    encoded.rows.push([11, 0, 0, 0, 0, 0]);
    encoded.rows.push([0; ROW]);
    encoded.input(LENGTHS[0] as u32, ROW * encoded.rows.len(), ANSWERS as u32)
}

/// The input of a seed. One in eight has counts of a wrong length, every third or so a row that has no call, some a short table of answers.
pub fn drive(seed: u64) -> Vec<u8> {
    let mut rng = Rng::new(seed ^ 0x64_72_69_76);
    let length = rng.within(5, 90);
    let trial = match rng.weighted(&[4, 2, 14, 2, 3, 2]) {
        0 => list(seed, length),
        1 => graphs(seed, length),
        2 => chains(seed, length / 2),
        3 => shared(seed, length / 2),
        4 => joins(seed, length / 3),
        _ => taking(seed, length / 3),
    };
    let mut calls = trying(&trial, &mut rng);
    let room = |calls: &[Call]| Encoded::new(calls, 1).files.len() + 4 * (HEAD + LIST) <= INPUT;
    while calls.len() >= LIST / ROW || !room(&calls) {
        calls.pop();
    }
    let odd = rng.percent(35);
    let mut encoded = Encoded::new(&calls, usize::from(odd));
    if odd {
        let at = rng.below(calls.len() + 1);
        encoded.rows.insert(at, no_call(&mut rng));
    }
    let whole = LENGTHS[0] as u32;
    let counts = if rng.percent(12) { rng.below(LENGTHS[0]) as u32 } else { rng.pick(&[whole, whole, whole + 1, u32::MAX]) };
    let answers = if rng.percent(30) { rng.below(ANSWERS) as u32 } else { rng.pick(&[ANSWERS as u32, u32::MAX]) };
    let cells = ROW * encoded.rows.len();
    let less = if rng.percent(10) { rng.below(cells) } else { 0 };
    encoded.input(counts, cells - less, answers)
}
