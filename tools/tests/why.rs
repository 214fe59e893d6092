//! Why loads and steps clash, on the course's lessons and by the proved machine: each call that clashes has its chain.

mod common;

use writer::lesson::Lesson;
use writer::play::{Outcome, Play, Show};
use writer::source::Source;

/// What is printed, and what came of it.
fn played(source: &Source) -> (String, Outcome) {
    let lesson = Lesson::read(source).unwrap_or_else(|problems| panic!("{}", source.show_all(&problems)));
    let mut out = Vec::new();
    let outcome = Play::run(source, &lesson, Show { store: false, draw: true, why: true, how: false }, &mut out).expect("a machine");
    (String::from_utf8(out).expect("words"), outcome)
}

/// Every lesson passes, and each load, step and run in it that clashes has its chain and its picture.
#[test]
fn every_clash_is_explained() {
    let mut reasons = 0;
    for path in common::examples("lesson") {
        let source = common::source(&path);
        let (said, outcome) = played(&source);
        assert_eq!(outcome.failed, 0, "{}: {said}", source.file);
        let clashes = said.lines().filter(|line| line.ends_with("refused: 9, clash")).count();
        assert_eq!(said.matches("        why: ").count(), clashes, "{}", source.file);
        assert_eq!((outcome.reasons, outcome.strip.count()), (clashes, clashes), "{}", source.file);
        reasons += clashes;
    }
    assert!(reasons > 8, "{reasons} clashes");
}

/// The lesson on it: each row with its names and loaders, an unloaded middle, the load's own row; the picture has the rows' numbers.
#[test]
fn the_chain_is_said_row_by_row() {
    let path = common::examples("lesson").into_iter().find(|path| path.ends_with("why-a-load-clashed.lesson")).expect("the lesson");
    let (said, outcome) = played(&common::source(&path));
    for line in [
        "row 0: a tie, Discount is one class under loaders 2 and 1; on to",
        "row 1: a tie, Discount is one class under loaders 3 and 2; on to",
        "Discount of loader 2 (not loaded)",
        "row 2: a subtype constraint, Bonus is below Discount under loader 2; on to Discount of loader 2",
        "row 3, the load's own: a subtype constraint, Discount is below Bonus under loader 2; on to Bonus of loader 2 (class 6)",
        "so the first must be the last or below it, and class 4 isn't class 6 or below",
    ] {
        assert!(said.contains(line), "{line}\n{said}");
    }
    let svg = outcome.strip.svg();
    for text in ["tie, row 0", "tie, row 1", "below, row 2", "below, row 3", "class 5 of loader 3? refused", "Purple rows"] {
        assert!(svg.contains(text), "{text}");
    }
    assert!(!svg.contains("Orange"));
}

/// A step that clashes: the row of the store, the tie that the step would post, and the same for a run that ends so.
#[test]
fn a_step_is_explained() {
    let path = common::examples("lesson").into_iter().find(|path| path.ends_with("why-a-step-clashed.lesson")).expect("the lesson");
    let (said, outcome) = played(&common::source(&path));
    assert_eq!(outcome.reasons, 2, "{said}");
    for line in [
        "why: 2 rows lead from Discount of loader 3 (class 4) to Discount of loader 1 (class 2)",
        "row 1, that the step would post: a tie, Discount is one class under loaders 2 and 3; on to Discount of loader 2 (not loaded)",
        "row 0: a tie, Discount is one class under loaders 2 and 1; on to Discount of loader 1 (class 2)",
        "ties alone: both must be one class, and class 4 isn't class 2",
    ] {
        assert_eq!(said.matches(line).count(), 2, "{line}\n{said}");
    }
    assert!(outcome.strip.svg().contains("tie, row 1, its own"));
}

/// In insurers' words, with where each row comes from: a step within a run, an override; and what would be accepted.
#[test]
fn a_row_says_where_it_comes_from() {
    let text = "insurer Broker\ninsurer Red\nname Discount Tariff Policy best rate\n\
        class Tariff extends Object { field best Discount }\n\
        class Policy extends Object { method rate(int) int { new Tariff  getfield Tariff.best Discount  pop  iload 1  ireturn } }\n\
        class Discount extends Object { }\n\
        ready Broker Red\nBroker defines Tariff\nRed records Tariff of Broker\nRed defines Policy\n\
        quote starts Red Policy.rate 7\nrun 100\nBroker defines Discount\nRed defines Discount expect clash\n\
        Red records Discount of Broker\n";
    let (said, outcome) = played(&Source { file: "a".into(), text: text.into() });
    assert_eq!(outcome.failed, 0, "{said}");
    for line in [
        "from Broker's Discount (class 3) to Red's Discount (class 4, as it would be)",
        "row 0: a tie, Discount is one class under Broker and Red; on to Red's Discount (class 4, as it would be)",
        "posted by call 7, the quote's step 2: getfield Tariff.best Discount (quote)",
        "tried here, and would be accepted: Red records Discount of Broker\n",
    ] {
        assert!(said.contains(line), "{line}\n{said}");
    }
    let path = common::examples("lesson").into_iter().find(|path| path.ends_with("two-orders.lesson")).expect("the lesson");
    let (said, outcome) = played(&common::source(&path));
    assert_eq!(outcome.reasons, 2, "{said}");
    assert_eq!(said.matches("RedTariff.apply overrides Tariff.apply").count(), 2, "{said}");
    assert_eq!(said.matches("posted by call 5: RedTariff.apply").count(), 1, "{said}");
}
