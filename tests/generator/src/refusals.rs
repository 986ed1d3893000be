//! Openings at the edges of rows 1 to 7 of document 01's table of refusals: a fitting opening with one to three of its numbers moved to an edge,
//! some just inside and most just outside.

use crate::axes::{self, RANGE};
use crate::habits::MULTIDIRECTIONAL;
use crate::openings::{self, Opening, MOST_BUDGET, MOST_SPREAD, MOVED, SIZE, SPREAD};
use crate::random::Random;
use rival::Axis;

type Damage = fn(&mut Random, &mut Opening);

const DAMAGES: [Damage; 18] = [
    count,
    beyond,
    beyond,
    limits,
    start,
    step,
    step_small,
    step_large,
    coefficient,
    coefficient,
    coefficient,
    coefficient,
    threshold,
    threshold,
    threshold,
    budget,
    budget,
    inside,
];

/// Not numbers, with several payloads, quiet and signalling, of both signs.
const NANS: [u64; 6] = [
    0x7ff8_0000_0000_0000,
    0xfff8_0000_0000_0000,
    0x7ff0_0000_0000_0001,
    0xffff_ffff_ffff_ffff,
    0x7fff_ffff_ffff_ffff,
    0x7ff8_0000_dead_beef,
];

pub fn edged(random: &mut Random, method: u64) -> Opening {
    let tells = random.between(10, 60);
    let mut opening = openings::fitting(random, tells, method);
    let other = method == MULTIDIRECTIONAL && random.one_in(3);
    if other {
        other_rule(random, &mut opening);
    }
    for _ in 0..random.pick(&[u64::from(!other), 1, 1, 2, 2, 3]) {
        random.pick(&DAMAGES)(random, &mut opening);
    }
    opening
}

/// A rule that is not size, or none, with an E that it may have.
fn other_rule(random: &mut Random, opening: &mut Opening) {
    opening.rule = random.pick(&[0, SPREAD, MOVED]);
    opening.threshold = openings::threshold(random, opening.rule);
}

/// Damage to the axes alone, for openings that have no other numbers.
pub fn damage_axis(random: &mut Random, opening: &mut Opening) {
    random.pick(&[
        beyond as Damage,
        limits,
        start,
        step,
        step_small,
        step_large,
    ])(random, opening);
}

fn not_a_number(random: &mut Random) -> f64 {
    f64::from_bits(random.pick(&NANS))
}

/// The record of an axis of the search, often the last; now and then one past n.
fn axis<'a>(random: &mut Random, opening: &'a mut Opening) -> &'a mut Axis {
    let used = opening.n.clamp(1, 8);
    let any = random.below(used);
    let anywhere = random.below(8);
    let at = match random.below(12) {
        0 => anywhere,
        1..=4 => used - 1,
        _ => any,
    };
    &mut opening.axes[at as usize]
}

fn count(random: &mut Random, opening: &mut Opening) {
    opening.n = random.pick(&[
        0,
        9,
        9,
        10,
        16,
        72,
        u64::MAX,
        1 << 32,
        (1 << 32) + 1,
        1 << 63,
        256 + 2,
    ]);
}

/// A number of a record outside the range of numbers, or none.
fn beyond(random: &mut Random, opening: &mut Opening) {
    let nan = not_a_number(random);
    let over = RANGE.next_up();
    let v = random.pick(&[
        over,
        -over,
        over,
        -over,
        1e300,
        -1e300,
        f64::INFINITY,
        f64::NEG_INFINITY,
        nan,
        nan,
        nan,
    ]);
    let which = random.below(4);
    let axis = axis(random, opening);
    match which {
        0 => axis.lo = v,
        1 => axis.hi = v,
        2 => axis.start = v,
        _ => axis.step = v,
    }
}

fn limits(random: &mut Random, opening: &mut Opening) {
    let way = random.below(4);
    let axis = axis(random, opening);
    match way {
        0 => axis.hi = axis.lo,
        1 => axis.lo = axis.hi,
        2 => std::mem::swap(&mut axis.lo, &mut axis.hi),
        _ => {
            *axis = Axis {
                lo: -0.0,
                hi: 0.0,
                start: 0.0,
                step: 1.0,
                ring: axis.ring,
            }
        }
    }
}

fn start(random: &mut Random, opening: &mut Opening) {
    let way = random.below(4);
    let axis = axis(random, opening);
    axis.start = match way {
        0 => axis.lo.next_down(),
        1 => axis.hi.next_up(),
        2 => axis.lo,
        _ => axis.hi,
    };
}

fn step(random: &mut Random, opening: &mut Opening) {
    let v = random.pick(&[0.0, -0.0, -1.0, -f64::from_bits(1), -RANGE]);
    axis(random, opening).step = v;
}

/// A step about as large as the distance from the start to the next float, where rounding decides whether it moves.
fn step_small(random: &mut Random, opening: &mut Opening) {
    let ulps = random.pick(&[0.5, 0.5, 0.25, 1.0, 0.75, 0.0001]);
    let axis = axis(random, opening);
    axis.step = (axis.start.next_up() - axis.start) * ulps;
}

fn step_large(random: &mut Random, opening: &mut Opening) {
    let way = random.below(4);
    let axis = axis(random, opening);
    let half = (axis.hi - axis.lo) / 2.0;
    axis.step = match way {
        0 => half,
        1 => axis.hi - axis.lo,
        _ => half.next_up(),
    };
}

fn coefficient(random: &mut Random, opening: &mut Opening) {
    let which = random.pick(&[0, 1, 1, 2, 3]);
    if which == 1 && random.one_in(2) {
        opening.coefficients[0] = random.pick(&[0.5, 1.0, 2.0]);
    }
    let alpha = opening.coefficients[0];
    let nan = not_a_number(random);
    let low = random.pick(&[0.0, -0.0, -1.0, nan, f64::NEG_INFINITY]);
    let v = match which {
        0 => random.pick(&[low, 4.0f64.next_up(), f64::INFINITY, 5.0, 4.0]),
        1 => random.pick(&[
            low,
            1.0,
            alpha,
            alpha.next_down(),
            8.0f64.next_up(),
            f64::INFINITY,
            8.0,
        ]),
        _ => random.pick(&[
            low,
            1.0,
            1.0f64.next_up(),
            2.0,
            1.0f64.next_down(),
            f64::from_bits(1),
        ]),
    };
    opening.coefficients[which] = v;
}

fn threshold(random: &mut Random, opening: &mut Opening) {
    opening.rule = random.pick(&[0, SPREAD, SPREAD, MOVED, SIZE]);
    let nan = not_a_number(random);
    let floats = [
        0.0,
        -0.0,
        -1.0,
        -f64::from_bits(1),
        nan,
        RANGE,
        RANGE.next_up(),
        f64::INFINITY,
        f64::from_bits(1),
    ];
    opening.threshold = match opening.rule {
        SPREAD => random.pick(&[
            0,
            0,
            MOST_SPREAD,
            MOST_SPREAD + 1,
            MOST_SPREAD + 5,
            u64::MAX,
            1,
        ]),
        _ => random.pick(&floats).to_bits(),
    };
}

fn budget(random: &mut Random, opening: &mut Opening) {
    let n = opening.n.min(8);
    let over = MOST_BUDGET + 1;
    opening.budget = random.pick(&[
        0,
        n,
        n,
        n + 1,
        MOST_BUDGET,
        over,
        over,
        u64::MAX,
        1 << 32,
        (1 << 32) + 50,
    ]);
}

/// An edge that is not refused: a record at the ends of the range, or one of the kinds that `axes` makes.
fn inside(random: &mut Random, opening: &mut Opening) {
    let other = axes::any(random);
    let farthest = Axis {
        lo: -RANGE,
        hi: RANGE,
        start: RANGE,
        step: RANGE,
        ring: false,
    };
    *axis(random, opening) = random.pick(&[other, farthest]);
}
