//! The changeover (paper 12): an old store's rows in today's tables.

use crate::answer::{denied, word, Answer, Refusal, Reply};
use crate::broken::lengths_fit;
use crate::gen::Call;
use crate::old::{self, OldStore};
use crate::store::{count, owner_of, Store, LENGTHS, QUOTE};

/// "The changeover reads the old tables and fills new ones". What those held is never looked at.
pub fn change_over(old: &OldStore, new: &mut Store) -> Reply {
    if !lengths_fit(new) || old::broken(old) {
        return denied(word::BROKEN);
    }
    *new = carried(old);
    Reply::Accepted
}

/// The new tables. Seven are the old ones, cell for cell. Behind the eight counts: "Carried objects count as the quote's", "Carried ties are numbered
/// first, then carried subtype constraints, each in old order", "no load can be taken back yet", and the groups of the ties.
pub fn carried(old: &OldStore) -> Store {
    let mut counts = vec![0; LENGTHS[0]];
    counts[..count::OWNERS].copy_from_slice(&old.counts);
    counts[count::OWNERS..count::TIE_NUMBERS].fill(owner_of(QUOTE));
    let ties = old.counts[count::TIES];
    for (first, section) in [(0, count::TIE_NUMBERS), (ties, count::SUBTYPE_NUMBERS)] {
        counts[section..section + 256].iter_mut().zip(first..).for_each(|(cell, number)| *cell = number);
    }
    let mut new = Store {
        counts,
        classes: old.classes.clone(),
        kept: old.kept.clone(),
        cache: old.cache.clone(),
        ties: old.ties.clone(),
        subtypes: old.subtypes.clone(),
        objects: old.objects.clone(),
        frames: old.frames.clone(),
    };
    new.regroup();
    new
}

/// Today's tables as the old layout has them, whatever they hold: the eight counts, and the other seven.
pub fn old_tables(store: &Store) -> OldStore {
    OldStore {
        counts: store.counts[..count::OWNERS.min(store.counts.len())].to_vec(),
        classes: store.classes.clone(),
        kept: store.kept.clone(),
        cache: store.cache.clone(),
        ties: store.ties.clone(),
        subtypes: store.subtypes.clone(),
        objects: store.objects.clone(),
        frames: store.frames.clone(),
    }
}

/// What came later and may be involved in a call: "hidden fields, a report's share, the later files or the later calls".
#[derive(Clone, Copy, Debug, PartialEq, Eq)]
pub enum Later {
    Field,
    Share,
    File,
    Call,
}

pub const LATER: [Later; 4] = [Later::Field, Later::Share, Later::File, Later::Call];

/// What is involved in a call. `was` is the old machine's answer, which a later call has none of, and `is` today's.
pub fn involved(call: &Call, was: Option<Reply>, is: Reply) -> Option<Later> {
    let last = match is {
        Reply::RanFor(_, Answer::Refused(refusal)) => Some(refusal),
        _ => is.refusal(),
    };
    match (call, was) {
        (_, None) => Some(Later::Call),
        (Call::Define { file, .. }, _) if matches!(file.first(), Some(2 | 3)) => Some(Later::File),
        (_, Some(was)) if was == denied(word::HIDDEN) => Some(Later::Field),
        _ => (last == Some(Refusal::Word(word::SHARE_USED))).then_some(Later::Share),
    }
}

/// How far the two machines were compared.
pub struct Compared {
    pub calls: usize,
    /// What ended it; nothing if the calls did.
    pub by: Option<Later>,
}

/// "From there any list of calls gets the answers that the old store would have given, before the first call in which" something later is involved. The
/// old machine takes the calls on the old store, and `today` on the new one, which is the old one carried. Up to there the answers must be
/// the same, and the tables but for the cells behind the eight counts.
pub fn side_by_side(old: &mut OldStore, new: &mut Store, calls: &[Call], label: &str, mut today: impl FnMut(&Call, &mut Store) -> Reply) -> Compared {
    for (at, call) in calls.iter().enumerate() {
        let was = old::make(call, old);
        let is = today(call, new);
        let by = involved(call, was, is);
        if by.is_some() {
            return Compared { calls: at, by };
        }
        assert!(was == Some(is), "{label}, call {at}: {call:?} answers {is:?} after the changeover, and the old machine {was:?}");
        let same = old_tables(new) == *old;
        assert!(same, "{label}, call {at}: {call:?} leaves other rows after the changeover than the old machine");
    }
    Compared { calls: calls.len(), by: None }
}
