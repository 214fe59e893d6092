//! boxscript: the example of document 01 and the lines that can't be read.

use reference::gen::build::{Code, Draft};
use reference::gen::cases::{f, MAIN};
use reference::script::boxscript;
use reference::store::INT;

fn play(input: &[u8]) -> String {
    let mut out = Vec::new();
    boxscript(input, &mut out).expect("a vector takes all");
    String::from_utf8(out).expect("letters and digits")
}

fn hex(bytes: &[u8]) -> String {
    bytes.iter().map(|byte| format!("{byte:02X}")).collect()
}

#[test]
fn the_example() {
    let script = format!("R 1 2 0\nD 1 {}\nS 0 1 10 20 7\nN\nN\nN\n", hex(&f().file()));
    let answers = "R 0 0 0 0\nD 0 1 0 0\nS 0 0 0 0\nN 0 1 0 0\nN 0 2 0 7\nN 0 0 0 0\n";
    assert_eq!(play(script.as_bytes()), answers);
    // A last line without its end, other case, leading zeros.
    let script = format!("R 01 0002 00\nD 1 {}\nS 0 1 10 20 7\nN\nN\nN", hex(&f().file()).to_lowercase());
    assert_eq!(play(script.as_bytes()), answers);
}

#[test]
fn nothing_to_read() {
    assert_eq!(play(b""), "");
    assert_eq!(play(b"\n"), "");
    assert_eq!(play(b"N\n\nN\n"), "N 0 0 0 0\n");
}

#[test]
fn lines_that_end_it() {
    let lines = [
        "", " ", "n", "N ", " N", "N 0", "NN", "N\r", "X", "X ", "X 0 0", "X +0", "X -0", "X 65536", "X 0x0", "B", "W", "R 1 2",
        "R 1 2 0 ", "R 1  2 0", "R 1 65536 0", "R 65536 2 0", "R 1 2 65536", "R -1 2 0", "D 1", "D 1 ", "D 1 0", "D 1 0G",
        "D 1 01 00", "D 65536 00", "S 0 0 2 20", "S 0 0 2 20 2147483648", "S 0 0 2 20 -2147483649", "S 0 0 2 20 +1",
        "S 0 0 2 20 -", "S 0 0 2 20 --1", "S 0 0 2 20 1 ", "S 0 0 65536 20 1", "S 0 0 2 65536 1", "S 0 65536 2 20 1",
        "S 65536 0 2 20 1", "X\t0", "R 4294967298 2 0",
    ];
    for line in lines {
        assert_eq!(play(format!("N\n{line}\nN\n").as_bytes()), "N 0 0 0 0\n", "{line:?}");
    }
    assert_eq!(play(b"N\nX \xFF\nN\n"), "N 0 0 0 0\n");
}

#[test]
fn lines_that_are_refused() {
    let expected = [
        ("X 65535", "X 3 0 0 0"),
        ("R 16 2 0", "R 3 0 0 0"),
        ("R 1 1 0", "R 3 0 0 0"),
        ("R 1 2 65535", "R 3 0 0 0"),
        ("R 1 3 0", "R 13 0 0 0"),
        ("D 65535 01", "D 3 0 0 0"),
        ("D 0 01", "D 2 0 0 0"),
        ("S 2 0 2 20 0", "S 3 0 0 0"),
        ("S 0 0 2 0 0", "S 3 0 0 0"),
        ("S 0 7 9 20 -2147483648", "S 5 7 9 0"),
        ("S 0 0 2 20 2147483647", "S 7 0 0 0"),
        ("D 1 01000600AA00020000", "D 5 1 2 0"),
        ("X 1", "X 0 0 0 0"),
        ("X 000000000000000000000000001", "X 0 0 0 0"),
    ];
    for (line, answer) in expected {
        assert_eq!(play(line.as_bytes()), format!("{answer}\n"), "{line:?}");
    }
    let long = format!("D 1 {}", "01".repeat(5_000));
    assert_eq!(play(long.as_bytes()), "D 2 0 0 0\n");
}

#[test]
fn a_step_wants() {
    let code = Code::new().object(11).pop().end(INT);
    let file = hex(&Draft::new(10).main(MAIN, &code).file());
    let script = format!("R 3 2 0\nD 3 {file}\nS 1 3 10 20 0\nN\nS 0 3 10 20 0\nN\nX 0\nN\nX 1\nN\n");
    let answers = "R 0 0 0 0\nD 0 1 0 0\nS 0 0 0 0\nN 5 3 11 1\nS 0 0 0 0\nN 5 3 11 0\nX 0 0 0 0\nN 5 3 11 1\n\
                   X 0 0 0 0\nN 0 0 0 0\n";
    assert_eq!(play(script.as_bytes()), answers);
}

#[test]
fn ints_print_with_a_minus() {
    let script = format!("R 1 2 0\nD 1 {}\nS 1 1 10 20 -2147483648\nN\nN\n", hex(&f().file()));
    assert!(play(script.as_bytes()).ends_with("N 0 2 1 -2147483648\n"));
}
