//! Programs run on an input.

use std::io::Write;
use std::process::{Command, Stdio};

/// Gives a program the input and reads what it prints.
pub fn play(program: &str, input: &[u8]) -> Vec<u8> {
    let mut child = Command::new(program)
        .stdin(Stdio::piped())
        .stdout(Stdio::piped())
        .spawn()
        .expect("the program starts");
    let mut stdin = child.stdin.take().expect("a pipe");
    let bytes = input.to_vec();
    // A program that ends early closes the pipe: what it printed counts.
    let writer = std::thread::spawn(move || drop(stdin.write_all(&bytes)));
    let out = child.wait_with_output().expect("the program ends");
    writer.join().expect("the writer ends");
    out.stdout
}
