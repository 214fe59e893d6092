//! The program boxscript of the verified machine beside ours, on random scripts. TARIFF_BOXSCRIPT names the
//! program; without it, ours alone is run.

mod program;

use program::play;
use reference::gen::scripts::script;
use reference::script::boxscript;

fn ours(input: &[u8]) -> Vec<u8> {
    let mut out = Vec::new();
    boxscript(input, &mut out).expect("a vector takes all");
    out
}

#[test]
fn the_program_prints_what_the_library_prints() {
    for seed in 0..20 {
        let input = script(seed);
        assert_eq!(play(env!("CARGO_BIN_EXE_boxscript_ref"), &input), ours(&input), "script {seed}");
    }
}

#[test]
#[ignore = "needs the verified program, which TARIFF_BOXSCRIPT names"]
fn the_verified_program_prints_the_same() {
    let program = std::env::var("TARIFF_BOXSCRIPT").expect("TARIFF_BOXSCRIPT names the verified program");
    for seed in 0..300 {
        let input = script(seed);
        assert_eq!(play(&program, &input), ours(&input), "script {seed}:\n{}", String::from_utf8_lossy(&input));
    }
}

#[test]
fn scripts_are_read_to_their_end_or_to_an_odd_line() {
    let (mut whole, mut ended) = (0, 0);
    for seed in 0..300 {
        let input = script(seed);
        let lines = input.split(|&byte| byte == b'\n').filter(|line| !line.is_empty()).count();
        let answers = ours(&input).iter().filter(|&&byte| byte == b'\n').count();
        assert!(answers <= lines);
        whole += usize::from(answers == lines);
        ended += usize::from(answers < lines);
    }
    println!("{whole} scripts read whole, {ended} ended by a line");
    assert!(whole > 100 && ended > 30);
}
