//! `quotes`: reads case lines from standard input and prints each filed
//! register line, or R and the refusal.

use std::io::{self, BufWriter};

const OUTPUT_BUFFER: usize = 1 << 16;

fn main() -> io::Result<()> {
    let output = BufWriter::with_capacity(OUTPUT_BUFFER, io::stdout().lock());
    reference::quotes::run(io::stdin().lock(), output)
}
