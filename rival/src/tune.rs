//! The program `tune`: an opening and costs in, readings and the ending out.

use crate::search::{Cause, Phase, Search};
use crate::text::{decimal, fields, put_point, word, Lines, Malformed};
use crate::types::{Axis, Coefficients, Method, Refusal, Rule, MAX_AXES};

/// Bytes that are read at most.
pub const LIMIT: usize = 65_536;

/// Why the program stops before an ending.
enum Stop {
    /// A malformed line, by its number.
    Bad(u64),
    /// A refusal, by its number.
    Refused(u64),
}

impl From<Malformed> for Stop {
    fn from(malformed: Malformed) -> Stop {
        Stop::Bad(malformed.0)
    }
}

impl From<Refusal> for Stop {
    fn from(refusal: Refusal) -> Stop {
        Stop::Refused(refusal.number)
    }
}

/// What the program prints for an input.
pub fn transcript(input: &[u8]) -> Vec<u8> {
    let mut out = Vec::new();
    let stop = if input.len() > LIMIT {
        Err(Stop::Bad(0))
    } else {
        run(&mut Lines::new(input), &mut out)
    };
    match stop {
        Ok(()) => {}
        Err(Stop::Bad(line)) => put_last(&mut out, "bad", line),
        Err(Stop::Refused(number)) => put_last(&mut out, "refused", number),
    }
    out
}

/// Opens, takes the costs and prints the end.
fn run(lines: &mut Lines, out: &mut Vec<u8>) -> Result<(), Stop> {
    let search = match read_opening(lines)? {
        None => None,
        Some(mut search) => {
            take_costs(&mut search, lines, out)?;
            Some(search)
        }
    };
    put_end(out, search.as_ref());
    Ok(())
}

/// Reads the first line and the axis lines and opens; none if the input stops early.
fn read_opening(lines: &mut Lines) -> Result<Option<Search>, Stop> {
    let Some(first) = lines.next_line()? else {
        return Ok(None);
    };
    let [n, budget, e] = fields(first, decimal).ok_or(lines.malformed())?;
    let Some(axes) = read_axes(lines, n)? else {
        return Ok(None);
    };
    let rule = Some(Rule::Spread(e));
    let search = Search::open(
        Method::NelderMead,
        n,
        &axes,
        rule,
        Coefficients::USUAL,
        budget,
    )?;
    Ok(Some(search))
}

/// Reads n axis lines, or no axis line if n is not 1 to 8.
fn read_axes(lines: &mut Lines, n: u64) -> Result<Option<[Axis; MAX_AXES]>, Stop> {
    let mut axes = [Axis::default(); MAX_AXES];
    let count = if n <= MAX_AXES as u64 { n as usize } else { 0 };
    for axis in &mut axes[..count] {
        let Some(line) = lines.next_line()? else {
            return Ok(None);
        };
        *axis = read_axis(line).ok_or(lines.malformed())?;
    }
    Ok(Some(axes))
}

/// Reads lo, hi, start, step. "The program's axes are not rings."
fn read_axis(line: &[u8]) -> Option<Axis> {
    let [lo, hi, start, step] = fields(line, word)?.map(f64::from_bits);
    Some(Axis {
        lo,
        hi,
        start,
        step,
        ring: false,
    })
}

/// Tells a cost per line until the search ends or the input stops.
fn take_costs(search: &mut Search, lines: &mut Lines, out: &mut Vec<u8>) -> Result<(), Stop> {
    while !search.has_ended() {
        let Some(line) = lines.next_line()? else {
            break;
        };
        let cost = decimal(line).ok_or(lines.malformed())?;
        let trial = search.ask()?;
        search.tell(trial.number, cost)?;
        put_text(out, &trial.number.to_string());
        put_reading(out, &trial.point[..search.n], cost);
        out.push(b'\n');
    }
    Ok(())
}

/// Prints `end`, the cause, and the best point, its cost and its reading's number if a reading was accepted.
fn put_end(out: &mut Vec<u8>, search: Option<&Search>) {
    put_text(out, "end ");
    put_text(out, cause(search));
    if let Some(search) = search {
        if let Ok(best) = search.best() {
            put_reading(out, &best.point[..search.n], best.cost);
            put_text(out, &format!(" {}", best.number));
        }
    }
    out.push(b'\n');
}

/// The cause of the ending, `waiting` where there is none.
fn cause(search: Option<&Search>) -> &'static str {
    match search.map(|search| search.phase) {
        Some(Phase::Ended(Cause::Settled)) => "settled",
        Some(Phase::Ended(Cause::Budget)) => "budget",
        _ => "waiting",
    }
}

/// Prints n coordinates and a cost, a space before each.
fn put_reading(out: &mut Vec<u8>, coordinates: &[f64], cost: u64) {
    put_point(out, coordinates);
    put_text(out, " ");
    put_text(out, &cost.to_string());
}

/// Prints a last line of a word and a number.
fn put_last(out: &mut Vec<u8>, name: &str, number: u64) {
    put_text(out, name);
    put_text(out, " ");
    put_text(out, &number.to_string());
    out.push(b'\n');
}

/// Prints a text.
fn put_text(out: &mut Vec<u8>, text: &str) {
    out.extend_from_slice(text.as_bytes());
}
