//! Hidden fields: beside Java, and what lists about them end with.

use reference::answer::{word, Refusal, Reply};
use reference::gen::hidden::{held, hidden, in_one_file, seventeen, ties, two_insurers};
use reference::gen::{javas, Trial};
use reference::step;

/// java/Hidden.out is what java/Hidden.java printed.
#[test]
fn hidden_fields_are_javas() {
    assert_eq!(javas::printed(|store| Reply::Stepped(step(store))), include_str!("../java/Hidden.out"));
}

/// The words that calls of a list were refused with.
fn refused(trial: &Trial) -> Vec<u8> {
    trial.replies.iter().filter_map(|reply| if let Reply::Denied(Refusal::Word(word)) = reply { Some(*word) } else { None }).collect()
}

#[test]
fn lists_end_so() {
    // 9 in the shared field and 5 in the insurer's own; then, with a field of another type, 9 in the shared field alone
    assert_eq!(two_insurers().ends(), [Ok(9 - 5), Ok(9 - 9), Ok(8)]);
    assert_eq!(ties().ends(), [Ok(3), Err(word::CLASH)]);
    assert_eq!(refused(&in_one_file()), [word::FILE; 4]);
    assert_eq!(refused(&seventeen()), [word::FULL; 2]);
    assert_eq!(seventeen().ends(), [Ok(0)]);
    let freed: Vec<_> = held().replies.into_iter().filter(|reply| matches!(reply, Reply::Swept(_))).collect();
    assert_eq!(freed, [0, 1, 1, 1].map(Reply::Swept));
}

/// Of every line of three classes each access is found, but for the one that is there to be absent, and no call answers 8.
#[test]
fn every_line_is_run() {
    for trial in hidden().iter().take(27) {
        let ends = trial.ends();
        assert!(ends[..3] == [Ok(7); 3] && (ends[3..].is_empty() || ends[3] == Err(word::ABSENT)), "{ends:?}");
        assert_eq!(refused(trial), []);
    }
}
