//! `replay` from standard input to standard output.

use std::io::{self, Read, Write};

/// Reads at most one byte past the limit, enough to know that a script is longer.
fn main() -> io::Result<()> {
    let mut script = Vec::new();
    let limit = rival::replay::LIMIT as u64 + 1;
    io::stdin().lock().take(limit).read_to_end(&mut script)?;
    let mut out = io::stdout().lock();
    out.write_all(&rival::replay::transcript(&script))?;
    out.flush()
}
