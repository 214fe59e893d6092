//! Paper 11 seen from outside: what calls did to the groups of ties.

use std::fmt;

use crate::answer::{word, Refusal, Reply};
use crate::gen::Call;
use crate::store::{count, Store};

/// The groups before and after a call that has posted or taken back ties, of those that were there and still are.
struct Change<'a> {
    call: &'a Call,
    reply: Reply,
    before: &'a [u16],
    after: &'a [u16],
    /// Were ties posted?
    more: bool,
    /// Is the number of a new tie's group not the place of the row that has it?
    elsewhere: bool,
}

/// How many different groups there are.
fn different(groups: &[u16]) -> usize {
    let mut all = groups.to_vec();
    all.sort_unstable();
    all.dedup();
    all.len()
}

impl Change<'_> {
    /// How many of the older groups fewer there are.
    fn joined(&self) -> usize {
        different(self.before).saturating_sub(different(self.after))
    }

    fn is_load(&self) -> bool {
        self.call.tried(0).is_some()
    }

    fn is_step(&self) -> bool {
        matches!(self.reply, Reply::Stepped(_) | Reply::RanFor(..))
    }
}

/// What a call may do to the groups, and the test for it.
type Meeting = (&'static str, fn(&Change) -> bool);

const MEETINGS: [Meeting; 8] = [
    ("loads that post a tie and join no groups", |change| change.is_load() && change.more && change.joined() == 0),
    ("loads that join two groups", |change| change.is_load() && change.joined() == 1),
    ("loads that join three groups or more", |change| change.is_load() && change.joined() >= 2),
    ("steps that post a tie and join no groups", |change| change.is_step() && change.more && change.joined() == 0),
    ("steps that join groups", |change| change.is_step() && change.joined() > 0),
    ("takings back that part a group", |change| *change.call == Call::TakeBack && different(change.after) > different(change.before)),
    ("takings back of a tie that part none", |change| {
        *change.call == Call::TakeBack && different(change.after) == different(change.before)
    }),
    ("new ties whose group's number isn't a row's place", |change| change.more && change.elsewhere),
];

/// How often calls did each of these.
#[derive(Clone, Default)]
pub struct Grouping {
    calls: [u64; MEETINGS.len()],
}

impl Grouping {
    /// Counts a call on a store that isn't broken.
    pub fn count(&mut self, before: &Store, call: &Call, reply: Reply, after: &Store) {
        // Of the others no call has done anything to the groups.
        if *call == Call::Boot || reply.refusal() == Some(Refusal::Word(word::BROKEN)) || before.groups().len() == after.groups().len() {
            return;
        }
        let ties = after.groups().len().min(before.groups().len());
        let is_elsewhere = |row: usize| after.tie_numbers().iter().position(|&number| number == after.groups()[row]) != Some(after.groups()[row].into());
        let change = Change {
            call,
            reply,
            before: &before.groups()[..ties],
            after: &after.groups()[..ties],
            more: after.count(count::TIES) > before.count(count::TIES),
            elsewhere: (ties..after.groups().len()).any(is_elsewhere),
        };
        self.calls.iter_mut().zip(MEETINGS).for_each(|(times, (_, meets))| *times += u64::from(meets(&change)));
    }

    pub fn add(&mut self, other: &Grouping) {
        self.calls.iter_mut().zip(other.calls).for_each(|(times, more)| *times += more);
    }

    /// What no call did.
    pub fn unmet(&self) -> Vec<&'static str> {
        MEETINGS.iter().zip(self.calls).filter(|(_, times)| *times == 0).map(|((what, _), _)| *what).collect()
    }
}

impl fmt::Display for Grouping {
    fn fmt(&self, f: &mut fmt::Formatter) -> fmt::Result {
        MEETINGS.iter().zip(self.calls).try_for_each(|((what, _), times)| writeln!(f, "   {what:<60}{times:>8}"))
    }
}
