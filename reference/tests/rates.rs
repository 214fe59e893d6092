//! Products and quotients: beside Java, and what a quotient by 0 leaves.

use reference::answer::{word, Answer, Refusal, Reply};
use reference::code::op;
use reference::gen::rates::{before, figures, give, in_version_1, products, quotients, result, within, zero_divisor};
use reference::{misplaced, step};

const ZERO_DIVISOR: Answer = Answer::Refused(Refusal::Word(word::ZERO_DIVISOR));

/// java/Rates.out is what java/Rates.java printed. The pairs are those it went through.
#[test]
fn products_and_quotients_are_javas() {
    let (mut of_imul, mut of_idiv) = (before(op::IMUL), before(op::IDIV));
    assert_eq!(misplaced(&of_imul) + misplaced(&of_idiv), 0);
    let printed = figures(|opcode, lower, upper| {
        let store = if opcode == op::IMUL { &mut of_imul } else { &mut of_idiv };
        give(store, lower, upper);
        match step(store) {
            Answer::Ran(0) => result(store),
            answer => {
                assert_eq!(answer, ZERO_DIVISOR, "{opcode:02X} of {lower} and {upper}");
                None
            }
        }
    });
    assert_eq!(printed, include_str!("../java/Rates.out"));
}

#[test]
fn lists_end_so() {
    let squares: Vec<_> = products().ends().into_iter().step_by(5).collect();
    let wrapped = [0, 1, 1, 49, 49, 2_147_395_600, -2_147_479_015, -2_147_479_015, -131_071, 0, 0, 1];
    assert_eq!(squares, wrapped.map(Ok));
    let by_int = |int: usize| quotients().ends()[8 * int..][..8].to_vec();
    assert_eq!(by_int(0), [Ok(0), Ok(0), Ok(0), Ok(0), Err(17), Err(17), Err(17), Err(17)]);
    assert_eq!(by_int(7), [Ok(-3), Ok(3), Ok(-7), Ok(7), Err(17), Ok(-1), Ok(1), Ok(0)]);
    assert_eq!(by_int(8), [Ok(-1_073_741_824), Ok(1_073_741_824), Ok(i32::MIN), Ok(i32::MIN), Err(17), Ok(0), Ok(0), Ok(0)]);
    assert_eq!(within().ends(), [Ok(150), Err(17), Err(17)]);
    assert!(in_version_1().replies[4..].iter().all(|reply| reply.refusal() == Some(Refusal::Word(word::UNVERIFIED))));
}

#[test]
fn a_zero_divisor_is_refused_again_and_again() {
    let replies = zero_divisor().replies;
    let stays = [Reply::Stepped(ZERO_DIVISOR), Reply::Swept(0), Reply::RanFor(0, ZERO_DIVISOR)];
    assert_eq!(replies[7..], [
        Reply::RanFor(3, Answer::Ran(0)), stays[0], stays[1], stays[2], stays[0], stays[1], stays[2], Reply::Accepted,
        Reply::Stepped(Answer::Ran(1)), Reply::Accepted, Reply::RanFor(7, Answer::Finished(0, -3i32 as u32)),
        Reply::RanFor(6, Answer::Finished(1, 3)),
    ]);
}
