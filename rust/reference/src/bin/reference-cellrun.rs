//! The program `cellrun`: a listing on standard input, its output on standard
//! output.

use reference::listing::MOST_TEXT;
use std::io::{self, Read, Write};

fn main() -> io::Result<()> {
    // One byte more than a listing may have tells a text that is too long from
    // one that just fits; what follows it cannot matter.
    let mut text = Vec::new();
    io::stdin().lock().take(MOST_TEXT as u64 + 1).read_to_end(&mut text)?;
    let mut out = io::stdout().lock();
    out.write_all(&reference::run_listing(&text))?;
    out.flush()
}
