//! Openings whose ring axis starts at hi, refused as 13, and those beside them: 13 before 4 and after 3, by axis, and past n or on an axis
//! that is no ring, where they are not refused.

use crate::axes;
use crate::openings::{self, Opening};
use crate::random::Random;
use crate::refusals;
use crate::rings;
use crate::script::Script;
use rival::Axis;

/// An opening at an edge of the table of refusals; in a script with rings most often at that of 13.
pub fn edged(script: &Script, random: &mut Random) -> Opening {
    let method = script.habit.next_method(random);
    if !script.habit.rings {
        return refusals::edged(random, method);
    }
    if random.one_in(3) {
        let mut opening = refusals::edged(random, method);
        rings::put(random, &mut opening);
        return opening;
    }
    let tells = random.between(10, 60);
    let mut opening = openings::fitting(random, tells, method);
    rings::put(random, &mut opening);
    for _ in 0..random.pick(&[1, 1, 1, 2]) {
        at_hi(random, &mut opening);
    }
    if random.one_in(5) {
        refusals::damage_axis(random, &mut opening);
    }
    opening
}

/// An axis, in most cases one up to n, starts at hi, and in most cases is a ring.
fn at_hi(random: &mut Random, opening: &mut Opening) {
    let n = opening.n.clamp(1, 8);
    let any = random.below(8);
    let axis = random.below(n);
    let axis = random.pick(&[axis, axis, axis, axis, n - 1, any]);
    let mut record = match random.below(5) {
        0 => zero(random),
        1 => axes::any(random),
        _ => rings::record(random),
    };
    if record.hi != 0.0 {
        record.start = record.hi;
    }
    record.ring = !random.one_in(6);
    other_fault(random, &mut record);
    opening.axes[axis as usize] = record;
}

/// hi a zero, and the start a zero of either sign.
fn zero(random: &mut Random) -> Axis {
    Axis {
        lo: -8.0,
        hi: random.pick(&[0.0, -0.0]),
        start: random.pick(&[0.0, -0.0]),
        step: 1.0,
        ring: true,
    }
}

/// In half of the cases what 4, 3 or 2 would refuse too; or a start that is only beside hi.
fn other_fault(random: &mut Random, axis: &mut Axis) {
    let long = random.pick(&[axis.hi - axis.lo, ((axis.hi - axis.lo) / 2.0).next_up()]);
    match random.below(16) {
        0 | 1 => axis.step = long,
        2 => axis.step = (axis.start.next_up() - axis.start) * 0.25,
        3 => axis.lo = axis.hi,
        4 => axis.lo = axis.hi.next_up(),
        5 => axis.step = random.pick(&[0.0, -0.0, -1.0]),
        6 => axis.lo = f64::NAN,
        7 => axis.start = random.pick(&[axis.hi.next_down(), axis.hi.next_up()]),
        _ => {}
    }
}
