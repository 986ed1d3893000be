//! Axes that are rings: records whose starts, steps and widths lead over the seam, or round at it.

use crate::axes;
use crate::openings::Opening;
use crate::random::Random;
use rival::Axis;

type Maker = fn(&mut Random) -> Axis;

const MAKERS: [Maker; 13] = [
    any, any, at_lo, at_lo, below_hi, below_hi, halved, to_hi, to_hi, lost_turn, few_places, zeros,
    lost,
];

/// Turns one axis of an opening, some or all into rings, most of them with a record of another kind; of those past n any.
pub fn put(random: &mut Random, opening: &mut Opening) {
    let n = opening.n.min(8);
    // The mean of 1, 2 or 4 equal numbers is that number.
    if ![1, 2, 4].contains(&n) && random.one_in(4) {
        return all_beside_their_mean(random, opening);
    }
    let odds = random.pick(&[1, 1, 2, 2, 8]);
    let one = random.below(n.max(1));
    for (axis, record) in (0..).zip(&mut opening.axes) {
        if axis >= n {
            past(random, record);
        } else if axis == one || random.one_in(odds) {
            *record = ring(random, *record);
        }
    }
    if random.one_in(3) {
        far_moves(random, opening);
    }
}

/// Moves that go more than a turn away.
fn far_moves(random: &mut Random, opening: &mut Opening) {
    let alpha = random.pick(&[4.0, 4.0, 2.5, 1.0]);
    let chi = random.pick(&[8.0, 8.0, 4.5]);
    opening.coefficients[0] = alpha;
    opening.coefficients[1] = chi;
}

/// The record as a ring, where it can be one, or a record of one of the kinds.
fn ring(random: &mut Random, record: Axis) -> Axis {
    let ring = Axis {
        ring: true,
        ..record
    };
    if random.one_in(4) && axes::fits(&ring) {
        return ring;
    }
    let kind = random.pick(&MAKERS);
    drawn(random, kind)
}

/// A ring of a kind.
fn drawn(random: &mut Random, kind: Maker) -> Axis {
    let ring = |random: &mut Random| Axis {
        ring: true,
        ..kind(random)
    };
    (0..30)
        .map(|_| ring(random))
        .find(axes::fits)
        .unwrap_or(Axis {
            ring: true,
            ..axes::ROUND
        })
}

/// A record that is a ring of some kind.
pub fn record(random: &mut Random) -> Axis {
    let kind = random.pick(&MAKERS);
    drawn(random, kind)
}

/// A record past n, which is not read: at times a ring that starts at hi.
fn past(random: &mut Random, record: &mut Axis) {
    record.ring = random.one_in(2);
    if random.one_in(4) {
        record.start = record.hi;
    }
}

fn any(random: &mut Random) -> Axis {
    axes::any(random)
}

/// The start at lo, so that a probe goes below it.
fn at_lo(random: &mut Random) -> Axis {
    let axis = axes::any(random);
    Axis {
        start: axis.lo,
        ..axis
    }
}

/// The start so near to hi that the step goes over the seam, and at times a probe.
fn below_hi(random: &mut Random) -> Axis {
    let axis = axes::any(random);
    let start = match random.below(3) {
        0 => (0..random.between(1, 3)).fold(axis.hi, |v, _| v.next_down()),
        1 => axis.hi - axis.step * random.unit(),
        _ => axis.hi - axis.step * random.power(-14, -10),
    };
    Axis {
        start: start.clamp(axis.lo, axis.hi.next_down()),
        ..axis
    }
}

/// The largest step there is, half of the range, from anywhere.
fn halved(random: &mut Random) -> Axis {
    let axis = random.pick(&[any, uneven, few_places])(random);
    let step = (axis.hi - axis.lo) / 2.0;
    let anywhere = random.within(axis.lo, axis.hi).max(axis.lo);
    let last = axis.hi.next_down();
    let start = random.pick(&[axis.lo, last, anywhere.min(last), axis.lo + step]);
    Axis {
        start,
        step,
        ..axis
    }
}

/// Limits whose difference is rounded, in tenths or anywhere.
fn uneven(random: &mut Random) -> Axis {
    let (lo, width) = match random.below(3) {
        0 => (random.within(-20.0, 20.0), random.within(0.01, 30.0)),
        _ => {
            let tenths = random.between(1, 80) as f64 / 10.0;
            (random.between(0, 60) as f64 / 10.0 - 3.0, tenths)
        }
    };
    let hi = lo + width;
    Axis {
        lo,
        hi,
        start: lo,
        step: width * random.pick(&[0.5, 0.25, 0.3, 0.01]),
        ring: true,
    }
}

/// The first step ends on hi or on a float beside it, and a turn of a rounded width brings it to lo or beside it.
fn to_hi(random: &mut Random) -> Axis {
    let axis = uneven(random);
    let most = (axis.hi - axis.lo) / 2.0;
    let step = most * random.pick(&[1.0, 0.5, 0.3, 0.7, 0.01]);
    let start = axis.hi - step;
    Axis {
        start: random.beside(start),
        step,
        ..axis
    }
}

/// A width rounded up so far that a turn from hi ends below lo; the start where the step or a probe ends on hi, or just below it.
fn lost_turn(random: &mut Random) -> Axis {
    let draws: Vec<Axis> = (0..100).map(|_| uneven(random)).collect();
    let lost = draws.iter().find(|axis| turns_to_lo(axis, true));
    let axis = *lost.unwrap_or(&draws[0]);
    let far = axis.step * random.pick(&[1.0, 0.0009765625, 0.0009765625]);
    let start = random.pick(&[axis.hi - far, axis.hi - far, axis.hi.next_down()]);
    Axis {
        start: start.min(axis.hi.next_down()),
        ..axis
    }
}

/// Limits a few floats apart, the start at any of them.
fn few_places(random: &mut Random) -> Axis {
    let lo: f64 = random.pick(&[0.1, 0.3, 1.0, -1.0, 0.99, -0.5, -1000.0, 1048575.0, 1.5]);
    let places = random.between(1, 9);
    let up = |v: f64, places| (0..places).fold(v, |v: f64, _| v.next_up());
    let hi = up(lo, places);
    Axis {
        lo,
        hi,
        start: up(lo, random.below(places)),
        step: (hi - lo) * random.pick(&[0.5, 0.5, 0.25, 0.3]),
        ring: true,
    }
}

/// A zero of either sign as a limit, the start beside it or on it.
fn zeros(random: &mut Random) -> Axis {
    let zero: f64 = random.pick(&[0.0, -0.0, -0.0]);
    let step = random.power(-3, 2);
    let (lo, hi) = random.pick(&[(zero, 8.0), (zero, 8.0), (-8.0, zero)]);
    let low = random.pick(&[lo, -lo, step, 8f64.next_down()]);
    let high = random.pick(&[-f64::from_bits(1), -step / 2.0, -8.0, -step]);
    Axis {
        lo,
        hi,
        start: if hi == 8.0 { low } else { high },
        step,
        ring: true,
    }
}

/// From lo at 0 steps that are lost beside hi, whole or in their probes.
fn lost(random: &mut Random) -> Axis {
    let hi = random.pick(&[10.0, 1.0, 0.7, 1000.0]);
    let unit = hi - f64::next_down(hi);
    Axis {
        lo: 0.0,
        hi,
        start: 0.0,
        step: unit * random.pick(&[1e-3, 0.5, 1.0, 3.0, 300.0, 1024.0, 5000.0]),
        ring: true,
    }
}

/// All axes start just below hi, or at lo, where the mean of n equal numbers may round over the seam; contractions that stay there.
fn all_beside_their_mean(random: &mut Random, opening: &mut Opening) {
    let n = opening.n.min(8);
    for (axis, record) in (0..).zip(&mut opening.axes) {
        match axis < n {
            true => *record = beside_its_mean(random, n),
            false => past(random, record),
        }
    }
    let beta = random.pick(&[1e-300, f64::from_bits(1), 1e-17, 1e-17, 0.5]);
    opening.coefficients[2] = beta;
}

/// A ring that starts at an end which the mean of n such numbers passes, if one is found; in most cases one whose turn from there
/// is rounded past the other end.
fn beside_its_mean(random: &mut Random, n: u64) -> Axis {
    let up = random.one_in(2);
    let lost = !random.one_in(3);
    let passes = |axis: &Axis| {
        let mean = (1..n).fold(axis.start, |sum, _| sum + axis.start) / n as f64;
        mean < axis.lo || axis.hi <= mean
    };
    let draws: Vec<Axis> = (0..300)
        .map(|_| at_an_end(random, up))
        .filter(axes::fits)
        .collect();
    let wanted = |axis: &&Axis| passes(axis) && turns_to_lo(axis, up) == lost;
    let found = draws.iter().find(wanted).or(draws.first());
    found.copied().unwrap_or(Axis {
        ring: true,
        ..axes::ROUND
    })
}

/// Whether a turn from hi, or from the float below lo, is rounded past the other end.
fn turns_to_lo(axis: &Axis, from_hi: bool) -> bool {
    let width = axis.hi - axis.lo;
    match from_hi {
        true => axis.hi - width < axis.lo,
        false => axis.lo.next_down() + width >= axis.hi,
    }
}

/// A ring that starts at its last float, or at lo.
fn at_an_end(random: &mut Random, up: bool) -> Axis {
    let axis = match random.one_in(2) {
        true => few_places(random),
        false => uneven(random),
    };
    Axis {
        start: if up { axis.hi.next_down() } else { axis.lo },
        ..axis
    }
}
