//! A script of calls, and its transcript.

mod answer;
mod script;
mod series;

use crate::search::Search;
use crate::text::{put_word, Lines, Malformed};

/// Bytes that a script has at most.
pub const LIMIT: usize = 262_144;

/// The transcript of a script.
pub fn transcript(script: &[u8]) -> Vec<u8> {
    let mut out = Vec::new();
    let end = if script.len() > LIMIT {
        Err(Malformed(0))
    } else {
        answer_lines(script, &mut out)
    };
    if let Err(Malformed(line)) = end {
        out.push(b'x');
        put_word(&mut out, line);
        out.push(b'\n');
    }
    out
}

/// Answers every line.
fn answer_lines(text: &[u8], out: &mut Vec<u8>) -> Result<(), Malformed> {
    let mut replay = Replay::default();
    let mut lines = Lines::new(text);
    while let Some(line) = lines.next_line()? {
        replay.answer(line, out).ok_or(lines.malformed())?;
    }
    Ok(())
}

/// A script answered one line at a time, each line handed the search that the line before left.
pub struct Replay {
    search: Search,
}

impl Default for Replay {
    fn default() -> Replay {
        Replay {
            search: Search::closed(),
        }
    }
}

impl Replay {
    /// Prints the answer to a line without its newline; none if the line is malformed.
    pub fn answer(&mut self, line: &[u8], out: &mut Vec<u8>) -> Option<()> {
        let call = script::read(line)?;
        answer::put(out, &mut self.search, &call);
        out.push(b'\n');
        Some(())
    }

    /// The search that the last line left.
    pub fn search(&self) -> &Search {
        &self.search
    }
}
