//! A series of searches with a generated cost.

use crate::search::Search;
use crate::types::{Axis, Coefficients, Method, Refusal, Rule, MAX_AXES};

/// Readings that a series has at most.
pub(super) const LONGEST: u64 = 16_777_216;

/// The axis of every search.
const AXIS: Axis = Axis {
    lo: -8.0,
    hi: 8.0,
    start: 0.0,
    step: 1.0,
    ring: false,
};

/// The rule of every multidirectional search; the others name none.
const SIZE: Rule = Rule::Size(0.0009765625);

/// The budget of every search.
const BUDGET: u64 = 1_000_000;

/// What a series has told so far.
#[derive(Default)]
pub(super) struct Series {
    pub(super) searches: u64,
    pub(super) sum: u64,
    told: u64,
}

/// Runs searches on n axes until so many readings are told.
pub(super) fn run(method: Method, n: u64, readings: u64) -> Result<Series, Refusal> {
    open(method, n)?;
    let mut series = Series::default();
    let mut generated = 1;
    while series.told < readings {
        let (around, after) = next_bowl(n as usize, generated);
        series.run_one(open(method, n)?, &around[..n as usize], readings);
        generated = after;
    }
    Ok(series)
}

/// The opening of every search.
fn open(method: Method, n: u64) -> Result<Search, Refusal> {
    let rule = match method {
        Method::NelderMead => None,
        Method::Multidirectional => Some(SIZE),
    };
    let axes = [AXIS; MAX_AXES];
    Search::open(method, n, &axes, rule, Coefficients::USUAL, BUDGET)
}

impl Series {
    /// One search: asks and tells until it ends or so many readings are told in all.
    fn run_one(&mut self, mut search: Search, around: &[f64], readings: u64) {
        self.searches += 1;
        while self.told < readings {
            let Ok(trial) = search.ask() else { break };
            let cost = cost(&trial.point, around);
            if search.tell(trial.number, cost).is_err() {
                break;
            }
            self.told += 1;
            self.sum += cost;
        }
    }
}

/// The point around which the next search's bowl stands, and the generator's number after it.
fn next_bowl(n: usize, mut generated: u64) -> ([f64; MAX_AXES], u64) {
    let mut around = [0.0; MAX_AXES];
    for coordinate in around.iter_mut().take(n) {
        generated ^= generated << 13;
        generated ^= generated >> 7;
        generated ^= generated << 17;
        *coordinate = 8.0 * f64::from_bits(0x3ff0_0000_0000_0000 + (generated >> 12)) - 12.0;
    }
    (around, generated)
}

/// The cost of a trial: the bits of 1 and its squared distance, without the last forty.
fn cost(point: &[f64; MAX_AXES], around: &[f64]) -> u64 {
    let mut sum: f64 = 1.0;
    for (x, t) in point.iter().zip(around) {
        let d = x - t;
        sum += d * d;
    }
    sum.to_bits() >> 40
}
