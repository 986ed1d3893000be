//! What a phase asks on an axis before it is brought into the axis, worked out from the parts of a search. It knows rings alone, and is no
//! part of the rival: where the two differ, the run fails.

use crate::state::State;

/// The factor of a probe.
const PROBE: f64 = 0.0009765625;

/// What v becomes on a ring.
pub struct Round {
    pub outcome: f64,
    /// Whether it was turned up, for lo ≤ v false, or down, for v < hi false.
    pub up: bool,
    pub down: bool,
    /// Whether the outcome of the turn was not on the ring.
    pub to_lo: bool,
}

/// Brings v round.
pub fn round(lo: f64, hi: f64, v: f64) -> Round {
    let up = !(lo..).contains(&v);
    let down = !up && !(..hi).contains(&v);
    let width = hi - lo;
    let turned = match (up, down) {
        (true, _) => v + width,
        (_, true) => v - width,
        _ => v,
    };
    let stays = (lo..hi).contains(&turned);
    Round {
        outcome: if stays { turned } else { lo },
        up,
        down,
        to_lo: !stays,
    }
}

/// A coordinate of a point, by its axis from 1.
fn at(point: &[u64], axis: u64) -> f64 {
    f64::from_bits(point[axis as usize - 1])
}

/// The mean of places 1 to n.
fn mean(state: &State, axis: u64) -> f64 {
    let place = |place| at(state.standing_point(place), axis);
    let sum = (2..=state.n()).fold(place(1), |sum, i| sum + place(i));
    sum / state.n() as f64
}

/// r on a ring axis, before it is brought round.
pub fn reflected(state: &State, axis: u64) -> f64 {
    let c = mean(state, axis);
    let w = at(state.standing_point(state.n() + 1), axis);
    c + state.coefficients()[0] * (c - w)
}

/// What the phase asks on a ring axis, from 1, before it is brought round.
pub fn target(state: &State, axis: u64) -> f64 {
    let [_, chi, beta, sigma] = state.coefficients();
    let c = mean(state, axis);
    let [lo, hi] = state.limits(axis).map(f64::from_bits);
    let r = || round(lo, hi, reflected(state, axis)).outcome;
    let place = |place| at(state.standing_point(place), axis);
    match state.phase() {
        0 => built(state, axis),
        1 => reflected(state, axis),
        2 => c + chi * (r() - c),
        3 => c + beta * (r() - c),
        4 => c + beta * (place(state.n() + 1) - c),
        5 => place(1) + sigma * (place(state.detail() + 1) - place(1)),
        9 => at(state.center(), axis),
        10 => place(1) + (place(1) - place(state.detail() + 1)),
        11 => place(state.detail() + 1),
        _ => probed(state, axis),
    }
}

/// A build takes start + step on the axis of its trial.
fn built(state: &State, axis: u64) -> f64 {
    let center = at(state.center(), axis);
    match state.detail() == axis {
        true => center + state.step(axis),
        false => center,
    }
}

fn probed(state: &State, axis: u64) -> f64 {
    let b = at(state.best_point(), axis);
    let d = state.step(axis) * PROBE;
    match state.detail() {
        told if told / 2 + 1 != axis => b,
        told if told % 2 == 0 => b + d,
        _ => b - d,
    }
}
