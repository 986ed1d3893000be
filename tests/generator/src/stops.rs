//! A trial's stops, counted at accepted asks: apart by what made the search, then by phase, by n and by how many axes are at their stops.

use crate::state::State;
use rival::Search;

/// What made a search: calls alone, or also lines that write parts, limits among them or not.
pub const ORIGINS: [&str; 3] = [
    "calls alone",
    "other parts written",
    "limits or rings written",
];

/// The parts that are limits, and that of rings.
const LIMITS: [&[u8]; 3] = [
    b"0000000000000009",
    b"000000000000000a",
    b"000000000000000e",
];

/// By how many axes are at their stops.
pub type Row = [u64; 9];

#[derive(Clone, Default)]
pub struct Stops {
    /// By origin, phase and n, from 1.
    rows: [[[Row; 8]; 12]; 3],
}

impl Stops {
    pub fn row(&self, origin: usize, phase: usize, n: usize) -> &Row {
        &self.rows[origin][phase][n - 1]
    }

    /// What all origins have together.
    pub fn whole_row(&self, phase: usize, n: usize) -> Row {
        let rows = (0..ORIGINS.len()).map(|origin| self.row(origin, phase, n));
        std::array::from_fn(|stops| rows.clone().map(|row| row[stops]).sum())
    }

    pub fn join(&mut self, other: &Stops) {
        let rows = self.rows.as_flattened_mut().as_flattened_mut();
        let more = other.rows.as_flattened().as_flattened();
        let counts = rows.as_flattened_mut().iter_mut();
        counts
            .zip(more.as_flattened())
            .for_each(|(count, more)| *count += more);
    }

    /// Counts an accepted ask of a search; past the table it has no place, and the run then lacks it.
    fn add(&mut self, origin: usize, search: &Search, stops: u64) {
        let state = State::of(search);
        let row = self.rows[origin]
            .get_mut(state.phase() as usize)
            .and_then(|rows| rows.get_mut((state.n() as usize).wrapping_sub(1)));
        let count = row.and_then(|row| row.get_mut(stops as usize));
        count.into_iter().for_each(|count| *count += 1);
    }
}

/// What made the search that a script has come to.
#[derive(Default)]
pub struct Origin(usize);

impl Origin {
    /// Takes a line of a script; an opening starts anew. A limit is part 9 or 10, a ring 14.
    pub fn see(&mut self, line: &[u8]) {
        let part = line.get(2..18).unwrap_or_default();
        match line.first() {
            Some(b'o') => self.0 = 0,
            Some(b'p') if LIMITS.contains(&part) => self.0 = 2,
            Some(b'p') => self.0 = self.0.max(1),
            _ => {}
        }
    }

    /// Counts an ask that was accepted, with the search that it was handed.
    pub fn count(&self, search: &Search, stops: u64, into: &mut Stops) {
        into.add(self.0, search, stops);
    }
}
