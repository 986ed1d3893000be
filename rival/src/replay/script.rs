//! Reading one line of a script.

use super::series;
use crate::parts::Part;
use crate::text::word;
use crate::types::{Axis, Coefficients, Method, Rule, MAX_AXES};

/// The words of an opening.
const OPENING_WORDS: usize = 49;

/// A call of the script.
pub(super) enum Call {
    /// Opens a search.
    Open(Box<Opening>),
    /// Ask.
    Ask,
    /// Tell, with its reading number and cost.
    Tell(u64, u64),
    /// Best.
    Best,
    /// Shows the state.
    Show,
    /// Writes a part, with its value.
    Write(Part, u64),
    /// Runs a series, with its method, its axis count and its readings.
    Series(Method, u64, u64),
}

/// The arguments of an opening.
pub(super) struct Opening {
    pub(super) method: Method,
    pub(super) n: u64,
    pub(super) rule: Option<Rule>,
    pub(super) coefficients: Coefficients,
    pub(super) budget: u64,
    pub(super) axes: [Axis; MAX_AXES],
}

/// Reads a line without its newline; none if it is malformed.
pub(super) fn read(line: &[u8]) -> Option<Call> {
    let (letter, rest) = line.split_first()?;
    let mut words = [0; OPENING_WORDS];
    let count = read_words(rest, &mut words)?;
    match (letter, count) {
        (b'o', OPENING_WORDS) => read_opening(&words).map(|given| Call::Open(Box::new(given))),
        (b'a', 0) => Some(Call::Ask),
        (b't', 2) => Some(Call::Tell(words[0], words[1])),
        (b'b', 0) => Some(Call::Best),
        (b's', 0) => Some(Call::Show),
        (b'p', 3) => read_written([words[0], words[1], words[2]]),
        (b'r', 3) if words[2] <= series::LONGEST => {
            Method::numbered(words[0]).map(|method| Call::Series(method, words[1], words[2]))
        }
        _ => None,
    }
}

/// Reads words with one space before each, and answers how many there are.
fn read_words(text: &[u8], words: &mut [u64; OPENING_WORDS]) -> Option<usize> {
    let count = text.len() / 17;
    if !text.len().is_multiple_of(17) || count > OPENING_WORDS {
        return None;
    }
    for (number, given) in words.iter_mut().zip(text.chunks_exact(17)) {
        *number = word(given.strip_prefix(b" ")?)?;
    }
    Some(count)
}

/// Reads a line that writes a part.
fn read_written([part, which, value]: [u64; 3]) -> Option<Call> {
    Part::written(part, which, value).map(|part| Call::Write(part, value))
}

/// Reads an opening from its words; none if its method is above 1, its rule above 3, or a ring, though past n, above 1.
fn read_opening(words: &[u64; OPENING_WORDS]) -> Option<Opening> {
    let float = |i: usize| f64::from_bits(words[i]);
    let mut axes = [Axis::default(); MAX_AXES];
    for (axis, record) in axes.iter_mut().zip(words[9..].chunks_exact(5)) {
        *axis = read_axis(record)?;
    }
    Some(Opening {
        method: Method::numbered(words[0])?,
        n: words[1],
        rule: read_rule(words[2], words[3])?,
        coefficients: Coefficients {
            alpha: float(4),
            chi: float(5),
            beta: float(6),
            sigma: float(7),
        },
        budget: words[8],
        axes,
    })
}

/// Reads lo, hi, start, step, ring; none if the ring is above 1.
fn read_axis(record: &[u64]) -> Option<Axis> {
    Some(Axis {
        lo: f64::from_bits(record[0]),
        hi: f64::from_bits(record[1]),
        start: f64::from_bits(record[2]),
        step: f64::from_bits(record[3]),
        ring: read_ring(record[4])?,
    })
}

/// Reads whether an axis is a ring: 1 where it is one, else 0.
fn read_ring(ring: u64) -> Option<bool> {
    match ring {
        0 => Some(false),
        1 => Some(true),
        _ => None,
    }
}

/// Reads a rule, which may be unnamed; none if it is above 3.
fn read_rule(rule: u64, e: u64) -> Option<Option<Rule>> {
    match rule {
        0 => Some(None),
        _ => Rule::numbered(rule, e).map(Some),
    }
}
