//! What the program drivelist prints for its standard input. With the word `fixed`: the input that stands in crates/drivelist/stdin.

use std::io::{self, Read, Write};

use reference::drive::drivelist;
use reference::gen::drives::fixed;

fn main() -> io::Result<()> {
    if std::env::args().nth(1).as_deref() == Some("fixed") {
        return io::stdout().write_all(&fixed());
    }
    let mut input = Vec::new();
    io::stdin().read_to_end(&mut input)?;
    io::stdout().write_all(drivelist(&input).as_bytes())
}
