//! The search: what its opening gave and what the readings made of it.

use crate::simplex::{Simplex, MAX_VERTICES};
use crate::types::{Axis, Brought, Coefficients, Method, Point, Rule, Vertex, MAX_AXES, ORIGIN};

/// The side of a contraction.
#[derive(Clone, Copy, Debug, PartialEq, Eq)]
pub(crate) enum Side {
    /// Between c and r.
    Outside,
    /// Between c and w.
    Inside,
}

/// The cause of an ending.
#[derive(Clone, Copy, Debug, PartialEq, Eq)]
pub(crate) enum Cause {
    /// A whole probe round found nothing lower.
    Settled,
    /// The accepted readings reached the budget.
    Budget,
}

/// What the search is doing.
#[derive(Clone, Copy, Debug, PartialEq, Eq)]
pub(crate) enum Phase {
    /// Asking the vertices of a build.
    Building,
    /// Asking r.
    Reflecting,
    /// Asking e.
    Expanding,
    /// Asking the outside or the inside point.
    Contracting(Side),
    /// Asking the shrunk vertices.
    Shrinking,
    /// Asking the probes of a round, of which so many are told.
    Probing(usize),
    /// Asking no more.
    Ended(Cause),
    /// Asking the first base.
    Base,
    /// Asking the reflection of a companion, by its number from 1.
    Reflection(usize),
    /// Asking an unread companion, by its number from 1.
    Companion(usize),
}

/// Counts of the finished pieces, of probe readings, and of the readings still open.
#[derive(Clone, Copy, Debug, Default, PartialEq, Eq)]
pub(crate) struct Counts {
    /// Finished builds.
    pub(crate) builds: u64,
    /// Reflected points taken by the second row.
    pub(crate) reflections: u64,
    /// First rows finished, either point taken.
    pub(crate) expansions: u64,
    /// Contractions taken.
    pub(crate) contractions: u64,
    /// Finished shrinks.
    pub(crate) shrinks: u64,
    /// Probe readings.
    pub(crate) probes: u64,
    /// Readings told in the unfinished iteration or build, without the very first reading.
    pub(crate) open: u64,
    /// Finished iterations of the multidirectional search.
    pub(crate) iterations: u64,
    /// Readings in iterations of the multidirectional search, as they are told.
    pub(crate) iteration_readings: u64,
}

impl Counts {
    /// The counts in the order of document 01, and those of the multidirectional search.
    pub(crate) fn in_order(&self) -> [u64; 9] {
        [
            self.builds,
            self.reflections,
            self.expansions,
            self.contractions,
            self.shrinks,
            self.probes,
            self.open,
            self.iterations,
            self.iteration_readings,
        ]
    }

    /// The counts in the same order, to be written.
    pub(crate) fn in_order_mut(&mut self) -> [&mut u64; 9] {
        [
            &mut self.builds,
            &mut self.reflections,
            &mut self.expansions,
            &mut self.contractions,
            &mut self.shrinks,
            &mut self.probes,
            &mut self.open,
            &mut self.iterations,
            &mut self.iteration_readings,
        ]
    }
}

/// A search, changed in place by each accepted tell.
#[derive(Clone, Debug)]
pub struct Search {
    /// The method.
    pub(crate) method: Method,
    /// The axis count.
    pub(crate) n: usize,
    /// The axis records; those past n are all zero.
    pub(crate) axes: [Axis; MAX_AXES],
    /// The stopping rule.
    pub(crate) rule: Rule,
    /// The coefficients.
    pub(crate) coefficients: Coefficients,
    /// The number of accepted readings at which the search ends.
    pub(crate) budget: u64,
    /// The phase.
    pub(crate) phase: Phase,
    /// Accepted readings.
    pub(crate) readings: u64,
    /// The counts.
    pub(crate) counts: Counts,
    /// The earliest reading of least cost.
    pub(crate) best: Vertex,
    /// The simplex of the last finished build or iteration; or the base, and the companions in their order behind it.
    pub(crate) standing: Simplex,
    /// The stops of the companions that are unread, each at its companion's index.
    pub(crate) stops: [u64; MAX_VERTICES],
    /// The vertices that an unfinished build or shrink has so far; r alone while e or a contraction is asked; or the reflections
    /// that a multidirectional iteration was told.
    pub(crate) gathered: Simplex,
    /// How many a build or a shrink has; 0 in every other phase until the search ends.
    pub(crate) vertices: usize,
    /// The point that the build is around.
    pub(crate) center: Point,
    /// c of the unfinished iteration.
    pub(crate) centroid: Point,
    /// The squared differences of the vertices replaced so far by the iteration.
    pub(crate) moved: f64,
    /// The point that the rules ask next, with its stops.
    pub(crate) trial: Brought,
}

impl Search {
    /// The closed search of a refused opening: ended with cause budget, all zero, its rule spread 0.
    pub fn closed() -> Search {
        Search {
            method: Method::NelderMead,
            n: 0,
            axes: [Axis::default(); MAX_AXES],
            rule: Rule::Spread(0),
            coefficients: Coefficients {
                alpha: 0.0,
                chi: 0.0,
                beta: 0.0,
                sigma: 0.0,
            },
            budget: 0,
            phase: Phase::Ended(Cause::Budget),
            readings: 0,
            counts: Counts::default(),
            best: Vertex::ZERO,
            standing: Simplex::EMPTY,
            stops: [0; MAX_VERTICES],
            gathered: Simplex::EMPTY,
            vertices: 0,
            center: ORIGIN,
            centroid: ORIGIN,
            moved: 0.0,
            trial: Brought::ORIGIN,
        }
    }
}
