//! How often each word was given to each call, how often each opcode ran, what sweeps and accesses to fields met, and what chains were reasons.

use std::fmt;

use crate::agree::{entries, numbered, Constraint};
use crate::answer::{word, Answer, Reply};
use crate::breaks::{walked, ways, Pairs, Request};
use crate::code::op;
use crate::gen::reach::{reached, Without, LEFT_OUT};
use crate::gen::{Call, CALLS};
use crate::hidden::Hiding;
use crate::grouping::Grouping;
use crate::passing::Passing;
use crate::reason::chain;
use crate::sharing::Sharing;
use crate::step::{instruction_of, take_step};
use crate::store::{cell, frame_base, Store, FREE};
use crate::walks::reasons;

/// The words that a call is given on lists from a boot; 0 is accepted.
pub const FROM_A_BOOT: [(&str, &[usize]); 11] = [
    ("boot", &[0]),
    ("define", &[0, 2, 3, 4, 5, 6, 9, 10, 15]),
    ("record", &[0, 3, 4, 9, 10, 13]),
    ("start", &[0, 3, 5, 7, 10, 12, 18]),
    ("step", &[0, 5, 7, 9, 10, 11, 17, 18]),
    ("run", &[0, 3]),
    ("drop", &[0, 3]),
    ("sweep", &[0]),
    ("try define", &[0, 2, 3, 4, 5, 6, 9, 10, 15, 16]),
    ("try record", &[0, 3, 4, 9, 10, 13, 16]),
    ("take back", &[0, 19]),
];

/// The words that only damage brings.
pub const ONLY_DAMAGE: [(&str, &[usize]); 11] = [
    ("boot", &[1]),
    ("define", &[1]),
    ("record", &[1]),
    ("start", &[1]),
    ("step", &[1, 14]),
    ("run", &[1]),
    ("drop", &[1]),
    ("sweep", &[1]),
    ("try define", &[1]),
    ("try record", &[1]),
    ("take back", &[1]),
];

/// How runs end on lists from a boot; damage brings word 14 too.
pub const ENDS_FROM_A_BOOT: [usize; 10] = [5, 7, 9, 10, 11, 17, 18, IDLE, RAN, FINISHED];

#[derive(Clone)]
pub struct Tally {
    /// By call and refusal number; 0 is accepted.
    pub words: [[u64; WORDS]; CALLS.len()],
    /// The last answers of runs by refusal number, and then idle, ran, finished.
    pub run_ends: [u64; WORDS + 3],
    /// The same of steps.
    pub steps: [u64; WORDS + 3],
    pub opcodes: [u64; 256],
    /// Runs of a thousand steps and more.
    pub long_runs: u64,
    /// Sweeps that would have freed more with each of `LEFT_OUT`.
    pub held: [u64; LEFT_OUT.len()],
    /// Objects that sweeps freed, and those that later got a freed number.
    pub freed: u64,
    pub reused: u64,
    /// Clashes of tries whose chain is each of `REASONS`.
    pub reasons: [u64; REASONS.len()],
    /// What hidden fields were met.
    pub hiding: Hiding,
    /// What calls met.
    pub passing: Passing,
    /// What starts and news met of the report's share.
    pub sharing: Sharing,
    /// What calls did to the groups of ties.
    pub grouping: Grouping,
}

/// What a chain that breaks agreement may have, and the test for it.
pub type Reason = (&'static str, fn(&Found) -> bool);

/// A chain that was found for a clash.
pub struct Found {
    rows: Vec<u16>,
    stored: usize,
    has_ties: bool,
    has_subtypes: bool,
    has_newcomer: bool,
    is_loaded_throughout: bool,
    /// Is the first end's class below the last's?
    is_below: bool,
    /// Is the newcomer one of its ends?
    ends_with_newcomer: bool,
    /// How the newcomer breaks agreement, by this chain or another.
    newcomer: Pairs,
    /// The other chains that are as long or longer by one row; none if there are too many ways to walk. Those with ties alone come in both readings.
    others: Vec<Other>,
}

/// Another chain for a clash.
struct Other {
    rows: Vec<u16>,
    has_subtypes: bool,
    ends_with_newcomer: bool,
}

impl Found {
    /// The other chains of its length.
    fn rivals(&self) -> impl Iterator<Item = &Other> {
        self.others.iter().filter(|other| other.rows.len() == self.rows.len())
    }

    fn longer(&self) -> impl Iterator<Item = &Other> {
        self.others.iter().filter(|other| other.rows.len() > self.rows.len())
    }

    /// Is the list this chain's, from its other end?
    fn is_turned(&self, rows: &[u16]) -> bool {
        rows.iter().eq(self.rows.iter().rev())
    }
}

/// The rows by number, the newest first.
fn downward(rows: &[u16]) -> Vec<u16> {
    let mut rows = rows.to_vec();
    rows.sort_unstable_by(|row, other| other.cmp(row));
    rows
}

pub const REASONS: [Reason; 22] = [
    ("stored rows alone", |found| found.rows.iter().all(|&row| usize::from(row) < found.stored)),
    ("own rows alone", |found| found.rows.iter().all(|&row| usize::from(row) >= found.stored)),
    ("own and stored rows", |found| {
        [true, false].iter().all(|&own| found.rows.iter().any(|&row| (usize::from(row) >= found.stored) == own))
    }),
    ("ties alone", |found| !found.has_subtypes),
    ("subtype constraints alone", |found| !found.has_ties),
    ("both kinds", |found| found.has_ties && found.has_subtypes),
    ("no newcomer", |found| !found.has_newcomer),
    ("an unloaded middle", |found| !found.is_loaded_throughout),
    ("a newcomer tied to another class", |found| found.newcomer.tied),
    ("a newcomer that leads out of its superclasses", |found| found.newcomer.out),
    ("a newcomer led to by what isn't below it", |found| found.newcomer.into),
    ("pairs without the newcomer alone", |found| !found.newcomer.is_any()),
    ("a longer one beside it", |found| found.longer().next().is_some()),
    ("another of its length", |found| found.rivals().any(|other| !found.is_turned(&other.rows))),
    ("its other reading", |found| found.rivals().any(|other| found.is_turned(&other.rows))),
    ("ties from a class below the other", |found| !found.has_subtypes && found.is_below && found.rows.len() > 1),
    ("a mixed one and ties of one length", |found| found.rivals().any(|other| other.has_subtypes != found.has_subtypes)),
    ("a newer last difference elsewhere", |found| found.rivals().any(|other| other.rows.iter().rev().gt(found.rows.iter().rev()))),
    ("a newer row elsewhere, not at the difference", |found| found.rivals().any(|other| other.rows.iter().max() > found.rows.iter().max())),
    ("a newer set of rows elsewhere", |found| found.rivals().any(|other| downward(&other.rows) > downward(&found.rows))),
    ("a newer row in a longer one", |found| found.longer().any(|other| other.rows[..found.rows.len()] > found.rows[..])),
    ("the newcomer only in longer ones", |found| {
        !found.ends_with_newcomer && found.rivals().all(|other| !other.ends_with_newcomer) && found.longer().any(|other| other.ends_with_newcomer)
    }),
];

impl Found {
    /// The chain that this implementation finds for a load that clashes.
    fn of(store: &Store, call: &Call) -> Option<Found> {
        let plan = call.plan(store)?;
        let added = plan.added();
        let rows = chain(store, &added, &plan.classes)?;
        let constraints = numbered(store, &added);
        let is_tie = |constraint: &Constraint| matches!(constraint, Constraint::Tie(_));
        let newcomer = (plan.entry[0], plan.entry[1]);
        let along = |rows: &[u16]| {
            let chain: Vec<Constraint> = rows.iter().map(|&row| constraints[usize::from(row)]).collect();
            let requests = ways(chain[0]).into_iter().find_map(|(start, _)| walked(start, &chain)).expect("a chain");
            (chain, requests)
        };
        let ends_with_newcomer = |requests: &[Request]| [requests.first(), requests.last()].contains(&Some(&newcomer));
        let (walked_rows, requests) = along(&rows);
        let class = |at: Request| entries(store, &added).find(|row| (row[0], row[1]) == at).map_or(0, |row| row[2]);
        let others = reasons(store, &added, &plan.classes, rows.len() + 1).unwrap_or_default().into_iter().filter(|other| *other != rows);
        let others = others.map(|rows| {
            let (chain, requests) = along(&rows);
            Other { has_subtypes: !chain.iter().all(is_tie), ends_with_newcomer: ends_with_newcomer(&requests), rows }
        });
        let others = others.collect();
        Some(Found {
            rows,
            stored: store.constraint_count(),
            has_ties: walked_rows.iter().any(is_tie),
            has_subtypes: !walked_rows.iter().all(is_tie),
            has_newcomer: requests.contains(&newcomer),
            is_loaded_throughout: requests.iter().all(|&at| at == newcomer || store.cached(at.0, at.1).is_some()),
            is_below: plan.classes.below(class(requests[0]), class(requests[requests.len() - 1])),
            ends_with_newcomer: ends_with_newcomer(&requests),
            newcomer: Pairs::of(store, &added, &plan.classes),
            others,
        })
    }
}

impl Default for Tally {
    fn default() -> Tally {
        Tally {
            words: [[0; WORDS]; CALLS.len()],
            run_ends: [0; WORDS + 3],
            steps: [0; WORDS + 3],
            opcodes: [0; 256],
            long_runs: 0,
            held: [0; LEFT_OUT.len()],
            freed: 0,
            reused: 0,
            reasons: [0; REASONS.len()],
            hiding: Hiding::default(),
            passing: Passing::default(),
            sharing: Sharing::default(),
            grouping: Grouping::default(),
        }
    }
}

/// The words, with 0 for accepted.
const WORDS: usize = 1 + word::NAMES.len();
pub const IDLE: usize = WORDS;
pub const RAN: usize = WORDS + 1;
pub const FINISHED: usize = WORDS + 2;

fn ending(answer: Answer) -> usize {
    match answer {
        Answer::Idle => IDLE,
        Answer::Ran(_) => RAN,
        Answer::Finished(..) => FINISHED,
        Answer::Refused(refusal) => usize::from(refusal.number()),
    }
}

/// The opcode of the task at its turn.
fn opcode(store: &Store) -> Option<u8> {
    let task = store.turn()?;
    instruction_of(store, task)?;
    let base = frame_base(task, store.frame_count(task) - 1);
    let file = store.file(store.frames[base + cell::CLASS] as u16)?;
    let method = file.method(store.frames[base + cell::METHOD] as usize)?;
    method.code.get(store.frames[base + cell::POINT] as usize).copied()
}

impl Tally {
    /// Counts a call on the store as it was before and is after it.
    pub fn count(&mut self, before: &Store, call: &Call, reply: Reply, after: &Store) {
        let number = reply.refusal().map_or(0, |refusal| usize::from(refusal.number()));
        self.words[call.kind()][number] += 1;
        self.hiding.count_define(before, call, reply);
        self.sharing.count(call, reply, after);
        self.grouping.count(before, call, reply, after);
        match reply {
            Reply::Stepped(answer) => {
                self.steps[ending(answer)] += 1;
                self.count_opcodes(before, u16::from(ran(answer)));
                self.count_reused(before, after);
            }
            Reply::RanFor(steps, answer) => {
                self.run_ends[ending(answer)] += 1;
                self.long_runs += u64::from(steps >= 1_000);
                let finished = u16::from(matches!(answer, Answer::Finished(..)));
                self.count_opcodes(before, steps.saturating_add(finished).min(200));
                self.count_reused(before, after);
            }
            Reply::Swept(freed) => {
                self.freed += u64::from(freed);
                let all = reached(before, Without::Nothing);
                for (held, (_, without)) in self.held.iter_mut().zip(LEFT_OUT) {
                    *held += u64::from(reached(before, without) != all);
                }
            }
            Reply::Clashed(_) => {
                let found = Found::of(before, call).expect("a clash yields a chain");
                self.reasons.iter_mut().zip(REASONS).for_each(|(chains, (_, is))| *chains += u64::from(is(&found)));
            }
            Reply::Accepted if matches!(call, Call::Start { .. }) => self.count_reused(before, after),
            _ => {}
        }
    }

    /// Counts the objects that were made in free rows below the object count.
    fn count_reused(&mut self, before: &Store, after: &Store) {
        if crate::broken(before) {
            return;
        }
        let owners = before.owners().iter().zip(after.owners());
        self.reused += owners.filter(|(&then, &now)| then == FREE && now != FREE).count() as u64;
    }

    /// Runs a copy of the store again for the opcodes and accesses of its first steps.
    fn count_opcodes(&mut self, before: &Store, steps: u16) {
        let Some(classes) = crate::broken::unbroken(before) else {
            return;
        };
        let mut store = before.clone();
        for _ in 0..steps {
            if let Some(opcode) = opcode(&store) {
                self.opcodes[usize::from(opcode)] += 1;
            }
            self.hiding.count_access(&store, &classes);
            self.passing.count(&store, &classes);
            take_step(&mut store, &classes);
        }
        self.passing.count(&store, &classes);
    }

    pub fn add(&mut self, other: &Tally) {
        for call in 0..CALLS.len() {
            (0..WORDS).for_each(|number| self.words[call][number] += other.words[call][number]);
        }
        (0..WORDS + 3).for_each(|end| self.run_ends[end] += other.run_ends[end]);
        (0..WORDS + 3).for_each(|end| self.steps[end] += other.steps[end]);
        (0..256).for_each(|opcode| self.opcodes[opcode] += other.opcodes[opcode]);
        self.long_runs += other.long_runs;
        (0..LEFT_OUT.len()).for_each(|what| self.held[what] += other.held[what]);
        self.freed += other.freed;
        self.reused += other.reused;
        (0..REASONS.len()).for_each(|what| self.reasons[what] += other.reasons[what]);
        self.hiding.add(&other.hiding);
        self.passing.add(&other.passing);
        self.sharing.add(&other.sharing);
        self.grouping.add(&other.grouping);
    }

    /// The words given to a call, by number; 0 is accepted.
    pub fn given(&self, call: &str) -> Vec<usize> {
        let kind = CALLS.iter().position(|&name| name == call).expect("a call");
        (0..WORDS).filter(|&number| self.words[kind][number] > 0).collect()
    }

    /// The ends of runs that occurred.
    pub fn ended(&self) -> Vec<usize> {
        (0..WORDS + 3).filter(|&end| self.run_ends[end] > 0).collect()
    }

    /// What held no object by itself at any sweep, and whether nothing was freed or made in a freed row.
    pub fn unswept(&self) -> Vec<&'static str> {
        let idle = LEFT_OUT.iter().zip(self.held).filter(|(_, held)| *held == 0).map(|((what, _), _)| *what);
        let never = [("freed", self.freed), ("reused", self.reused)].into_iter().filter(|(_, objects)| *objects == 0);
        idle.chain(never.map(|(what, _)| what)).collect()
    }

    /// What no chain of a clash was.
    pub fn unreasoned(&self) -> Vec<&'static str> {
        REASONS.iter().zip(self.reasons).filter(|(_, chains)| *chains == 0).map(|((what, _), _)| *what).collect()
    }

    /// The opcodes that never ran.
    pub fn idle_opcodes(&self) -> Vec<&'static str> {
        let never = op::ALL.iter().zip(op::NAMES).filter(|(&opcode, _)| self.opcodes[usize::from(opcode)] == 0);
        never.map(|(_, name)| name).collect()
    }
}

fn ran(answer: Answer) -> bool {
    matches!(answer, Answer::Ran(_) | Answer::Finished(..))
}

impl fmt::Display for Tally {
    fn fmt(&self, f: &mut fmt::Formatter) -> fmt::Result {
        write!(f, "{:<15}", "")?;
        CALLS.iter().try_for_each(|name| write!(f, "{name:>11}"))?;
        writeln!(f, "{:>11}", "run's end")?;
        for number in 0..WORDS {
            let name = if number == 0 { "accepted" } else { word::NAMES[number - 1] };
            write!(f, "{number:>2} {name:<12}")?;
            self.words.iter().try_for_each(|call| write!(f, "{:>11}", call[number]))?;
            writeln!(f, "{:>11}", if number == 0 { 0 } else { self.run_ends[number] })?;
        }
        for (at, name) in [(IDLE, "idle"), (RAN, "ran"), (FINISHED, "finished")] {
            writeln!(f, "   {name:<12}{:>55}{:>66}", self.steps[at], self.run_ends[at])?;
        }
        for (opcode, name) in op::ALL.iter().zip(op::NAMES) {
            writeln!(f, "   {opcode:02X} {name:<14}{:>9}", self.opcodes[usize::from(*opcode)])?;
        }
        for ((what, _), held) in LEFT_OUT.iter().zip(self.held) {
            writeln!(f, "   sweeps that need {what:<23}{held:>6}")?;
        }
        for ((what, _), chains) in REASONS.iter().zip(self.reasons) {
            writeln!(f, "   chains with {what:<46}{chains:>8}")?;
        }
        write!(f, "{}{}{}{}", self.hiding, self.passing, self.sharing, self.grouping)?;
        writeln!(f, "   objects freed{:>33}\n   objects in freed rows{:>25}", self.freed, self.reused)?;
        writeln!(f, "   runs of 1,000 steps and more{:>18}", self.long_runs)
    }
}
