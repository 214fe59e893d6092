//! boxscript over the second implementation: calls on standard input, answers on standard output.

use std::io::{self, BufWriter, Read, Write};

fn main() -> io::Result<()> {
    let mut input = Vec::new();
    io::stdin().lock().read_to_end(&mut input)?;
    let mut out = BufWriter::new(io::stdout().lock());
    reference::script::boxscript(&input, &mut out)?;
    out.flush()
}
