//! `tune` from standard input to standard output.

use std::io::{self, Read, Write};

/// Reads at most one byte past the limit, enough to know that an input is longer.
fn main() -> io::Result<()> {
    let mut input = Vec::new();
    let limit = rival::tune::LIMIT as u64 + 1;
    io::stdin().lock().take(limit).read_to_end(&mut input)?;
    let mut out = io::stdout().lock();
    out.write_all(&rival::tune::transcript(&input))?;
    out.flush()
}
