//! Lines that bring a multidirectional search to a cause of refusal 12 that is no number at an edge: companions past their limits, read ones
//! that are asked, and another rule.

use crate::habits::MULTIDIRECTIONAL;
use crate::openings::SIZE;
use crate::state::{State, Written};

/// A cause, and whether it is passed by one or met at its edge.
type Edge = (&'static str, bool);

/// The causes of a line written into a sound state.
pub fn met(state: &State, line: Written) -> Vec<Edge> {
    let [part, which, value] = line;
    let own = state.method() == MULTIDIRECTIONAL;
    let edge = match part {
        4 if which == 11 => read(state, value),
        11 => read_by_number(state, which, value),
        8 if own => Some(("another rule", which != SIZE)),
        9 if own => low(state, which, f64::from_bits(value)),
        10 if own => high(state, which, f64::from_bits(value)),
        15 if value == MULTIDIRECTIONAL => Some(("another rule", state.rule()[0] != SIZE)),
        _ => None,
    };
    edge.into_iter().collect()
}

/// A companion that is to be asked, read or not.
fn read(state: &State, i: u64) -> Option<Edge> {
    let companion = (1..=state.n()).contains(&i);
    companion.then(|| ("companion that is read", state.standing_number(i + 1) != 0))
}

/// A number at the place of the companion that is asked.
fn read_by_number(state: &State, place: u64, number: u64) -> Option<Edge> {
    let asked = state.phase() == 11 && place == state.detail() + 1;
    asked.then_some(("companion that is read, by its number", number != 0))
}

/// The companions' coordinates on an axis up to n, where companions are looked at.
fn coordinates(state: &State, axis: u64) -> Option<Vec<f64>> {
    let at = |place| f64::from_bits(state.standing_point(place)[axis as usize - 1]);
    let looked_at = state.phase() != 9 && axis <= state.n();
    looked_at.then(|| (2..=state.n() + 1).map(at).collect())
}

fn low(state: &State, axis: u64, lo: f64) -> Option<Edge> {
    let held = coordinates(state, axis)?;
    let least = held.into_iter().fold(f64::INFINITY, f64::min);
    match lo {
        _ if lo.is_nan() => Some(("companion, a limit no number", true)),
        _ if lo == least => Some(("companion below lo", false)),
        _ if lo == least.next_up() => Some(("companion below lo", true)),
        _ => None,
    }
}

fn high(state: &State, axis: u64, hi: f64) -> Option<Edge> {
    let held = coordinates(state, axis)?;
    let most = held.into_iter().fold(f64::NEG_INFINITY, f64::max);
    let (cause, edge) = match state.ring(axis) {
        1 => ("companion at hi of a ring", most.next_up()),
        _ => ("companion above hi", most),
    };
    match hi {
        _ if hi.is_nan() => Some(("companion, a limit no number", true)),
        _ if hi == edge => Some((cause, false)),
        _ if hi == edge.next_down() => Some((cause, true)),
        _ => None,
    }
}
