//! Searches that calls alone make and that run into a corner: on some of their axes the first moves end on a limit, so that trials with any
//! count of stops are asked. Where the sum of n such coordinates rounds past the limit, contractions are at their stops too.

use crate::axes;
use crate::costs::{Costs, DARK};
use crate::habits::NELDER_MEAD;
use crate::openings::{Opening, MOST_BUDGET, SPREAD};
use crate::random::Random;
use crate::state::State;
use rival::Axis;

/// An opening, and costs that lead it into its corner and on from there.
pub fn search(random: &mut Random) -> (Opening, Costs) {
    let opening = opening(random);
    let most = 10 * opening.n + random.between(20, 60);
    let planned = steered(random, &opening, most);
    let costs = Costs::of(random, &opening, planned);
    (opening, costs)
}

fn opening(random: &mut Random) -> Opening {
    let n = random.between(1, 8);
    let beta = random.pick(&[1e-300, f64::from_bits(1), 1e-17, 1e-17, 0.25, 0.5]);
    let sigma = random.pick(&[0.5, 0.5, 0.9, 1e-17]);
    let axes = match random.below(3) {
        0 => some_close(random, n),
        _ => all_close(random, n),
    };
    Opening {
        method: NELDER_MEAD,
        n,
        rule: SPREAD,
        threshold: random.pick(&[1, 1, 4]),
        coefficients: [random.pick(&[4.0, 4.0, 2.0, 1.0]), 8.0, beta, sigma],
        budget: random.pick(&[MOST_BUDGET, 1000, 100 + n]),
        axes,
    }
}

/// So many axes up to n, any number, by their place.
fn chosen(random: &mut Random, n: u64) -> [bool; 8] {
    let mut chosen = [false; 8];
    let count = random.between(0, n) as usize;
    chosen[..count].fill(true);
    random.shuffle(&mut chosen[..n as usize]);
    chosen
}

/// Some axes end about where the first step does, the others far away.
fn some_close(random: &mut Random, n: u64) -> [Axis; 8] {
    chosen(random, n).map(|close| {
        let steps = match close {
            true => random.pick(&[1.0, 1.01, 1.3]),
            false => 1000.0,
        };
        drawn(random, steps, |_| true)
    })
}

/// All axes end so near that the first moves come to their ends, and so far that the vertices of the build are not there. Some of the
/// ends are floats of which the sum of n, divided by n, lies past them.
fn all_close(random: &mut Random, n: u64) -> [Axis; 8] {
    let steps = n as f64 * random.within(1.5, 3.0) + 1.0;
    chosen(random, n).map(|past| drawn(random, steps, |axis| past == ends_past(axis, n)))
}

/// An axis that ends so many steps on, and of which something holds.
fn drawn(random: &mut Random, steps: f64, holds: impl Fn(&Axis) -> bool) -> Axis {
    (0..100)
        .map(|_| ending(random, steps))
        .find(|axis| axes::fits(axis) && holds(axis))
        .unwrap_or(axes::ROUND)
}

/// An axis that ends so many steps on from its start: with hi, or with lo where the first step goes back.
fn ending(random: &mut Random, steps: f64) -> Axis {
    let (start, step) = (random.within(-10.0, 10.0), random.within(0.1, 4.0));
    let (lo, hi) = match random.one_in(2) {
        true => {
            let hi = start + step * steps;
            (start.min(hi - 2.0 * step) - step * random.unit(), hi)
        }
        false => {
            let lo = start - step * steps;
            (lo, (start + step * 0.9).max(lo + step * 2.0))
        }
    };
    Axis {
        lo,
        hi,
        start,
        step,
        ring: false,
    }
}

/// Where an axis ends.
fn end(axis: &Axis) -> f64 {
    if axis.start + axis.step > axis.hi {
        axis.lo
    } else {
        axis.hi
    }
}

/// Whether the mean of n numbers at an axis's end lies past it.
fn ends_past(axis: &Axis, n: u64) -> bool {
    let mean = mean(end(axis), n);
    mean < axis.lo || mean > axis.hi
}

/// The sum of n equal numbers, each addition rounded, divided by n.
fn mean(v: f64, n: u64) -> f64 {
    (1..n).fold(v, |sum, _| sum + v) / n as f64
}

/// Costs for so many readings: ones that lead into the corner till places 1 to n are one point, then some that go each way of the table.
fn steered(random: &mut Random, opening: &Opening, most: u64) -> Vec<u64> {
    let mut told = Vec::new();
    let Ok(mut search) = opening.open() else {
        return told;
    };
    let falls = random.one_in(6);
    let mut away = true;
    while let Some(trial) = search.ask().ok().filter(|trial| trial.number <= most) {
        let state = State::of(&search);
        away = away && !(state.phase() == 1 && in_corner(&state));
        let cost = match away {
            true if falls => lower(random, &state),
            true => distance(opening, &trial.point),
            false => any_way(random, &state),
        };
        told.push(cost.min(DARK));
        let _ = search.tell(trial.number, cost.min(DARK));
    }
    told
}

/// How far a point is from where all axes end, each by its share of the range.
fn distance(opening: &Opening, point: &[f64; 8]) -> u64 {
    let axes = opening.axes[..opening.n as usize].iter();
    let share = |(axis, x): (&Axis, &f64)| (x - end(axis)).abs() / (axis.hi - axis.lo);
    let sum: f64 = axes.zip(point).map(share).sum();
    1000 + (sum * 1e6) as u64
}

/// Whether places 1 to n are one point.
fn in_corner(state: &State) -> bool {
    (2..=state.n()).all(|place| state.standing_point(place) == state.standing_point(1))
}

/// A cost lower than all before.
fn lower(random: &mut Random, state: &State) -> u64 {
    match state.readings() {
        0 => 1_000_000,
        _ => state.best().saturating_sub(random.between(10, 50)),
    }
}

/// The cost of the trial that is asked, to go some way of the table.
fn any_way(random: &mut Random, state: &State) -> u64 {
    let n = state.n();
    let lower = lower(random, state);
    let (last, worst) = (state.standing(n), state.standing(n + 1));
    let held = state.gathered(1);
    match state.phase() {
        1 => random.pick(&[lower, state.standing(1), last, last, worst, worst]),
        2 => random.pick(&[lower, held]),
        3 => random.pick(&[lower, held, held, held + 1]),
        4 => random.pick(&[lower, worst.saturating_sub(1), worst]),
        5 => random.pick(&[lower, worst, worst + 40]),
        6 => random.pick(&[lower, DARK]),
        _ => lower,
    }
}
