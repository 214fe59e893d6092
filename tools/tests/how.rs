//! How requests could load, on the course's lessons and by the proved machine: each question has its order, load by load, or why there is none.

mod common;

use writer::lesson::Lesson;
use writer::play::{Outcome, Play, Show};
use writer::source::Source;

/// What is printed, and what came of it.
fn played(source: &Source, show: Show) -> (String, Outcome) {
    let lesson = Lesson::read(source).unwrap_or_else(|problems| panic!("{}", source.show_all(&problems)));
    let mut out = Vec::new();
    let outcome = Play::run(source, &lesson, show, &mut out).expect("a machine");
    (String::from_utf8(out).expect("words"), outcome)
}

fn asked(text: &str) -> (String, Outcome) {
    played(&Source { file: "a".into(), text: text.into() }, Show { how: true, ..Show::default() })
}

/// What is wrong about a text.
fn problems(text: &str) -> String {
    let source = Source { file: "a".into(), text: text.into() };
    let problems = Lesson::read(&source).err().expect("problems");
    source.show_all(&problems)
}

const NAMES: &str = "insurer Red\nname A 10\nname B 11\nname C 12\nclass A extends B { }\nclass B extends C { }\nclass C extends Object { }\nready Red\n";

/// The lesson on it: the order load by load, the request, the offers where there is none.
#[test]
fn the_order_is_said_load_by_load() {
    let path = common::examples("lesson").into_iter().find(|path| path.ends_with("how-could-this-load.lesson")).expect("the lesson");
    let source = common::source(&path);
    let (said, outcome) = played(&source, Show { how: true, ..Show::default() });
    assert_eq!((outcome.failed, outcome.questions), (0, 10), "{said}");
    for line in [
        "how Red Plan                                found: offers 3, 1, 0\n        first offer 3, Red records Tariff as 1: recorded\n        \
         then offer 1, Red defines RedTariff: defined: class 2\n        then offer 0, Red defines Plan: defined: class 3\n        \
         Red's Plan would be class 3\n",
        "how Broker Tariff                           cached already: no load is needed\n        Broker's Tariff is class 1\n",
        "how Red Discount                            none of the 65 orders\n        at once offer 0, Red defines Plan: refused: 5, wanted: Red's RedTariff\n",
        "at once offer 2, Red defines Discount: refused: 5, wanted: Red's Object\n",
        "found: offers 1, 0, 2\n",
        "how Red Tariff                              found: offer 2\n",
        "refused: 3, unknown\n",
    ] {
        assert!(said.contains(line), "{line}\n{said}");
    }
    let (plain, _) = played(&source, Show::default());
    assert!(plain.contains("found: offers 3, 1, 0\n") && !plain.contains("first offer"), "{plain}");
}

/// The store stays; offers behind a question begin anew, and questions that follow each other share theirs.
#[test]
fn an_offer_is_not_made() {
    let text = format!(
        "{NAMES}offer Red defines A\noffer Red defines B\noffer loader 1 defines C\nhow Red A expect found 2 1 0\nhow Red B expect found 2 1\n\
         offer Red defines B\nhow Red A expect none\nhow Red B expect none\nRed defines A expect wanted Red B\n"
    );
    let (said, outcome) = asked(&text);
    assert_eq!((outcome.failed, outcome.met, outcome.questions), (0, 5, 4), "{said}");
    assert!(said.contains("none of the 2 orders\n        at once offer 0, Red defines B: refused: 5, wanted: Red's C\n        no offer is for Red's A\n"), "{said}");
}

/// Refusals, and expectations that aren't met.
#[test]
fn other_answers_fail() {
    let nine = format!("{NAMES}repeat 9 {{ offer Red defines C }}\nhow Red C expect offers\nhow Red int expect unknown\n");
    let (said, outcome) = asked(&nine);
    assert_eq!(outcome.failed, 0, "{said}");
    assert!(said.contains("refused: 20, offers\n        9 offers, and at most 8 can be offered\n"), "{said}");
    for (wish, is_met) in [
        ("found", true), ("found 0", true), ("accepted", true), ("found 1", false), ("found 0 1", false), ("cached", false), ("none", false),
        ("offers", false), ("unknown", false), ("class 1", false), ("found 0 after 1", false),
    ] {
        let (said, outcome) = asked(&format!("{NAMES}offer Red defines C\nhow Red C expect {wish}\n"));
        assert_eq!(outcome.failed == 0, is_met, "{wish}: {said}");
    }
    let (said, outcome) = asked(&format!("{NAMES}step expect none\nRed defines C expect found\nhow Red A expect none\n"));
    assert_eq!(outcome.failed, 2, "{said}");
    assert!(said.contains("none: there are no offers\n"), "{said}");
}

/// A record of a class that is there by another's name for it; of one that isn't, the number it would get is told.
#[test]
fn a_record_of_anothers_class_is_offered_by_its_number() {
    let (said, outcome) = asked(&format!("{NAMES}insurer Blue\nRed defines C\noffer Blue records C of Red\nhow Blue C expect found 0\n"));
    assert_eq!(outcome.failed, 0, "{said}");
    let (said, outcome) = asked(&format!("{NAMES}insurer Blue\noffer Blue records C of Red\n"));
    assert_eq!(outcome.failed, 1, "{said}");
    assert!(said.contains("Red has no C yet; an offer names a class by its number, as 1"), "{said}");
}

/// In two orders the same question may have two answers, and what an order offers is its own.
#[test]
fn orders_part_at_a_question() {
    let text = format!("{NAMES}offer Red defines B\norder one {{ Red defines C\n how Red B }}\norder two {{ how Red B\n Red defines C }}\nhow Red B expect none\n");
    let (said, outcome) = asked(&text);
    assert_eq!(outcome.failed, 0, "{said}");
    assert!(said.contains("orders one and two part at how Red B: found: offer 0 in one, none of the 2 orders in two"), "{said}");
}

#[test]
fn what_cant_be_read_is_said() {
    for (line, says) in [
        ("offer step\n", "expected 'loader'"),
        ("offer Red\n", "expected 'defines' or 'records'"),
        ("how Red\n", "expected a class's name"),
        ("offer Red defines A expect class 1\n", "an offer isn't made, and has no answer"),
        ("how Red A expect found 8\n", "an offer's number"),
    ] {
        let said = problems(&format!("{NAMES}{line}"));
        assert!(said.contains(says), "{line}: {said}");
    }
}
