//! What a call answers, and the words of refusal.

/// The refusal numbers of document 01, and those that the papers of document 02 add.
pub mod word {
    pub const BROKEN: u8 = 1;
    pub const FILE: u8 = 2;
    pub const UNKNOWN: u8 = 3;
    pub const TAKEN: u8 = 4;
    pub const WANTED: u8 = 5;
    pub const UNVERIFIED: u8 = 6;
    pub const ABSENT: u8 = 7;
    /// Reserved since paper 6: no call answers it.
    pub const HIDDEN: u8 = 8;
    pub const CLASH: u8 = 9;
    pub const FULL: u8 = 10;
    pub const NULL: u8 = 11;
    pub const BUSY: u8 = 12;
    pub const MISNAMED: u8 = 13;
    pub const STUCK: u8 = 14;
    pub const UNMAPPED: u8 = 15;
    pub const SHORT_LIST: u8 = 16;
    pub const ZERO_DIVISOR: u8 = 17;
    pub const SHARE_USED: u8 = 18;
    pub const TOO_LATE: u8 = 19;
    pub const OFFERS: u8 = 20;

    /// The words in the order of their numbers, from 1.
    pub const NAMES: [&str; 20] = [
        "broken", "file", "unknown", "taken", "wanted", "unverified", "absent", "hidden", "clash", "full",
        "null", "busy", "misnamed", "stuck", "unmapped", "short list", "zero divisor", "share used", "too late",
        "offers",
    ];
}

/// Why a call is refused.
#[derive(Clone, Copy, Debug, PartialEq, Eq)]
pub enum Refusal {
    /// Number 5: the request (loader, name) is needed and isn't cached.
    Wanted(u8, u16),
    /// Any other number.
    Word(u8),
}

impl Refusal {
    pub fn number(self) -> u8 {
        match self {
            Refusal::Wanted(..) => word::WANTED,
            Refusal::Word(number) => number,
        }
    }
}

/// The answer of a step.
#[derive(Clone, Copy, Debug, PartialEq, Eq)]
pub enum Answer {
    Idle,
    /// One instruction of this task ran.
    Ran(u8),
    /// This task's first frame returned this int.
    Finished(u8, u32),
    Refused(Refusal),
}

/// The answer of any call.
#[derive(Clone, Copy, Debug, PartialEq, Eq)]
pub enum Reply {
    Accepted,
    /// The number of the defined class.
    Defined(u8),
    Stepped(Answer),
    /// The count of steps that ran, and the last answer.
    RanFor(u16, Answer),
    /// The number of objects that were freed.
    Swept(u16),
    Denied(Refusal),
    /// A tried load is denied with 9, and a chain of so many rows says why.
    Clashed(u16),
}

impl Reply {
    /// The refusal of the call itself. A run is accepted even when its last step was refused.
    pub fn refusal(self) -> Option<Refusal> {
        match self {
            Reply::Denied(refusal) | Reply::Stepped(Answer::Refused(refusal)) => Some(refusal),
            Reply::Clashed(_) => Some(Refusal::Word(word::CLASH)),
            _ => None,
        }
    }

    /// What the load itself gets where its try gets this.
    pub fn of_load(self) -> Reply {
        match self {
            Reply::Clashed(_) => denied(word::CLASH),
            reply => reply,
        }
    }
}

/// The answer that a plain word makes.
pub fn denied(number: u8) -> Reply {
    Reply::Denied(Refusal::Word(number))
}
