//! The program `cellrun` in optimised Rust: a listing on standard input, its output on standard output.

use measure::listing::{run, MOST_TEXT};
use std::io::{self, Read, Write};

fn main() -> io::Result<()> {
    // One byte more than a listing may have shows that a text is too long. Room for one byte beyond that lets the end of
    // the input be found without a larger buffer.
    let mut text = Vec::with_capacity(MOST_TEXT + 2);
    io::stdin().lock().take(MOST_TEXT as u64 + 1).read_to_end(&mut text)?;
    let mut out = io::stdout().lock();
    out.write_all(&run(&text))?;
    out.flush()
}
