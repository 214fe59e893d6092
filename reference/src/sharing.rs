//! Paper 8 seen from outside: what calls met of the report's share of the objects, and the room that is kept for quotes.

use std::fmt;

use crate::answer::{word, Answer, Refusal, Reply};
use crate::code::Instruction;
use crate::gen::Call;
use crate::step::instruction_of;
use crate::store::{Store, MOST_OBJECTS, QUOTE, REPORT, SHARE};

/// The task that a call's last instruction or start is of, and whether it asks for an object.
struct Asked {
    task: usize,
    refusal: Option<u8>,
    /// Did steps of a run go before it?
    ran: bool,
}

impl Asked {
    /// Of a start, or of a new that a step or a run ends with. A refused one left the store as it was before it.
    fn of(call: &Call, reply: Reply, after: &Store) -> Option<Asked> {
        let number = |refusal: Refusal| Some(refusal.number());
        match (call, reply) {
            (&Call::Start { task, .. }, _) if task <= REPORT as u32 => {
                Some(Asked { task: task as usize, refusal: reply.refusal().and_then(number), ran: false })
            }
            (_, Reply::Stepped(Answer::Refused(refusal))) => Asked::at_turn(after, refusal, false),
            (_, Reply::RanFor(ran, Answer::Refused(refusal))) => Asked::at_turn(after, refusal, ran > 0),
            _ => None,
        }
    }

    fn at_turn(store: &Store, refusal: Refusal, ran: bool) -> Option<Asked> {
        let task = store.turn()?;
        let is_new = matches!(instruction_of(store, task), Some((Instruction::New(_), _)));
        is_new.then_some(Asked { task, refusal: Some(refusal.number()), ran })
    }
}

/// Paper 8: "from a boot, a quote is told 'full' for objects only while 64 or more unfreed ones count as the quote's"; and it is never told 18.
pub fn keeps_room(call: &Call, reply: Reply, after: &Store) -> bool {
    Asked::of(call, reply, after).is_none_or(|asked| match (asked.task, asked.refusal) {
        (QUOTE, Some(word::FULL)) => after.made_by(QUOTE) >= MOST_OBJECTS - SHARE,
        (QUOTE, Some(word::SHARE_USED)) => false,
        _ => true,
    })
}

/// What a call may meet, and the test for it on the store that it leaves.
type Meeting = (&'static str, fn(&Asked, &Store) -> bool);

fn is_refused(asked: &Asked, task: usize, word: u8) -> bool {
    asked.task == task && asked.refusal == Some(word)
}

const MEETINGS: [Meeting; 7] = [
    ("a report's share used, and room", |asked, store| is_refused(asked, REPORT, word::SHARE_USED) && store.unused_object().is_some()),
    ("a report's share used, and no room", |asked, store| is_refused(asked, REPORT, word::SHARE_USED) && store.unused_object().is_none()),
    ("a report's share used in a run", |asked, _| is_refused(asked, REPORT, word::SHARE_USED) && asked.ran),
    ("a report told full with some of its share", |asked, store| {
        is_refused(asked, REPORT, word::FULL) && store.unused_object().is_none() && store.made_by(REPORT) > 0
    }),
    ("a quote told full beside a share used", |asked, store| is_refused(asked, QUOTE, word::FULL) && store.made_by(REPORT) == SHARE),
    ("a quote beside a share used", |asked, store| asked.task == QUOTE && asked.refusal.is_none() && store.made_by(REPORT) == SHARE),
    ("a report's share used beside free rows", |asked, store| {
        is_refused(asked, REPORT, word::SHARE_USED) && store.owners().contains(&crate::store::FREE)
    }),
];

/// How often calls met each of these.
#[derive(Clone, Default)]
pub struct Sharing {
    calls: [u64; MEETINGS.len()],
}

impl Sharing {
    /// Counts a call by what it left, if that isn't broken.
    pub fn count(&mut self, call: &Call, reply: Reply, after: &Store) {
        if reply.refusal() == Some(Refusal::Word(word::BROKEN)) {
            return;
        }
        if let Some(asked) = Asked::of(call, reply, after) {
            self.calls.iter_mut().zip(MEETINGS).for_each(|(times, (_, meets))| *times += u64::from(meets(&asked, after)));
        }
    }

    pub fn add(&mut self, other: &Sharing) {
        self.calls.iter_mut().zip(other.calls).for_each(|(times, more)| *times += more);
    }

    /// What no call met.
    pub fn unmet(&self) -> Vec<&'static str> {
        MEETINGS.iter().zip(self.calls).filter(|(_, times)| *times == 0).map(|((what, _), _)| *what).collect()
    }
}

impl fmt::Display for Sharing {
    fn fmt(&self, f: &mut fmt::Formatter) -> fmt::Result {
        MEETINGS.iter().zip(self.calls).try_for_each(|((what, _), times)| writeln!(f, "   starts and news with {what:<42}{times:>8}"))
    }
}
