//! Axis records that an opening takes: round ones and many that lie at an edge of the rules.

use crate::random::Random;
use rival::Axis;

pub const RANGE: f64 = 1_048_576.0;
pub const ROUND: Axis = Axis {
    lo: -8.0,
    hi: 8.0,
    start: 0.0,
    step: 1.0,
    ring: false,
};
const TINIEST: f64 = f64::from_bits(1);

type Maker = fn(&mut Random) -> Axis;

const MAKERS: [Maker; 14] = [
    round, wide, narrow, narrow, on_limit, zeros, zeros, subnormal, half, middle, far, reaching,
    scaled, tight,
];

/// Whether neither a check of rows 2 to 4 of the table of refusals nor 13 refuses the record.
pub fn fits(axis: &Axis) -> bool {
    let Axis {
        lo,
        hi,
        start,
        step,
        ring,
    } = *axis;
    let at_seam = ring && start == hi;
    let ranged = [lo, hi, start, step]
        .iter()
        .all(|v| -RANGE <= *v && *v <= RANGE);
    let ordered = lo < hi && lo <= start && start <= hi && step > 0.0;
    ranged && ordered && !at_seam && start + step != start && step <= (hi - lo) / 2.0
}

/// Eight records, of which those up to n fit. The search's own habit: all round, all of one kind, or each of any kind.
pub fn records(random: &mut Random, n: u64) -> [Axis; 8] {
    let habit = random.below(10);
    let kind = random.pick(&MAKERS);
    let mut axes = [ROUND; 8];
    for (i, axis) in axes.iter_mut().enumerate() {
        *axis = match habit {
            _ if i as u64 >= n => past(random),
            0 | 1 => ROUND,
            2..=6 => fitting(random, kind),
            _ => any(random),
        };
    }
    axes
}

pub fn any(random: &mut Random) -> Axis {
    let kind = random.pick(&MAKERS);
    fitting(random, kind)
}

fn fitting(random: &mut Random, kind: Maker) -> Axis {
    (0..30).map(|_| kind(random)).find(fits).unwrap_or(ROUND)
}

/// A record past n, which is not read: anything.
fn past(random: &mut Random) -> Axis {
    match random.below(5) {
        0 => Axis::default(),
        1 => ROUND,
        2 => Axis {
            lo: f64::NAN,
            hi: f64::INFINITY,
            start: -RANGE * 2.0,
            step: -1.0,
            ring: false,
        },
        _ => Axis {
            lo: bits(random),
            hi: bits(random),
            start: bits(random),
            step: bits(random),
            ring: false,
        },
    }
}

fn bits(random: &mut Random) -> f64 {
    f64::from_bits(random.next())
}

fn round(random: &mut Random) -> Axis {
    let hi = random.power(0, 6);
    let start = if random.one_in(2) { 0.0 } else { hi * 0.25 };
    Axis {
        lo: -hi,
        hi,
        start,
        step: hi * random.power(-5, -1),
        ring: false,
    }
}

fn wide(random: &mut Random) -> Axis {
    let one = random.within(-1000.0, 1000.0);
    let other = random.within(-1000.0, 1000.0);
    let (lo, hi) = (one.min(other), one.max(other));
    let start = random.within(lo, hi);
    Axis {
        lo,
        hi,
        start,
        step: (hi - lo) * random.within(0.001, 0.5),
        ring: false,
    }
}

/// The float so many places above v.
fn above(v: f64, places: u64) -> f64 {
    (0..places).fold(v, |v, _| v.next_up())
}

/// Limits a few floats apart.
fn narrow(random: &mut Random) -> Axis {
    let lo = random.pick(&[
        0.1, 0.1, 0.3, 1.0, 1000.0, 0.99, -0.1, -1.0, -1000.0, 1048575.0, 0.5, -2.0,
    ]);
    let lo = above(lo, random.below(4));
    let places = random.between(3, 40);
    let hi = above(lo, places);
    let any = random.below(places + 1);
    let from = random.pick(&[0, places, places / 2, any]);
    let ulps = random.pick(&[1.0, 1.0, 2.0, 3.0, 0.75, 1.5, 0.5, places as f64 / 2.0]);
    Axis {
        lo,
        hi,
        start: above(lo, from),
        step: (lo.next_up() - lo) * ulps,
        ring: false,
    }
}

/// The start on a limit.
fn on_limit(random: &mut Random) -> Axis {
    let axis = if random.one_in(2) {
        wide(random)
    } else {
        round(random)
    };
    let start = if random.one_in(3) { axis.lo } else { axis.hi };
    Axis { start, ..axis }
}

/// Zeros of either sign as limit or start.
fn zeros(random: &mut Random) -> Axis {
    let zero = random.pick(&[0.0, -0.0, -0.0]);
    let other = random.pick(&[0.0, -0.0]);
    let step = random.power(-3, 2);
    match random.below(4) {
        0 => Axis {
            lo: zero,
            hi: 8.0,
            start: other,
            step,
            ring: false,
        },
        1 => Axis {
            lo: -8.0,
            hi: zero,
            start: other,
            step,
            ring: false,
        },
        2 => Axis {
            lo: -8.0,
            hi: zero,
            start: -step,
            step,
            ring: false,
        },
        _ => Axis {
            lo: -8.0,
            hi: 8.0,
            start: zero,
            step,
            ring: false,
        },
    }
}

fn subnormal(random: &mut Random) -> Axis {
    let unit = random.pick(&[TINIEST, TINIEST, 1e-310, 1e-300, f64::MIN_POSITIVE]);
    let lo = -unit * random.below(40) as f64;
    let hi = unit * random.between(3, 40) as f64;
    let start = random.pick(&[0.0, -0.0, lo, hi, unit]);
    Axis {
        lo,
        hi,
        start,
        step: random.pick(&[unit, unit * 2.0, TINIEST, (hi - lo) / 2.0]),
        ring: false,
    }
}

/// The largest step there is: half of the range.
fn half(random: &mut Random) -> Axis {
    let axis = wide(random);
    Axis {
        step: (axis.hi - axis.lo) / 2.0,
        ..axis
    }
}

/// Half of the range from its middle, if it can be such that the step rounds past both limits.
fn middle(random: &mut Random) -> Axis {
    let draws: Vec<Axis> = (0..20).map(|_| halved(random)).collect();
    let past = |axis: &&Axis| {
        let Axis {
            lo,
            hi,
            start,
            step,
            ..
        } = **axis;
        start + step > hi && start - step < lo && fits(axis)
    };
    *draws.iter().find(past).unwrap_or(&draws[0])
}

fn halved(random: &mut Random) -> Axis {
    let lo = random.within(-2.0, 0.0);
    let hi = random.within(0.0, 2.0);
    Axis {
        lo,
        hi,
        start: (lo + hi) / 2.0,
        step: (hi - lo) / 2.0,
        ring: false,
    }
}

/// Limits at the ends of the range of numbers.
fn far(random: &mut Random) -> Axis {
    let lo = random.pick(&[-RANGE, -RANGE, RANGE - 64.0, 0.0]);
    let hi = random.pick(&[RANGE, RANGE, -RANGE + 64.0]);
    let anywhere = random.within(lo, hi);
    let any = random.within(0.0, (hi - lo) / 2.0);
    let start = random.pick(&[lo, hi, 0.0, 1.0, anywhere]);
    Axis {
        lo,
        hi,
        start,
        step: random.pick(&[RANGE, 1.0, 1024.0, 0.001, any]),
        ring: false,
    }
}

/// The first step ends on hi, or on a float beside it.
fn reaching(random: &mut Random) -> Axis {
    let anywhere = random.within(-9.0, 9.0);
    let any = random.within(0.1, 4.0);
    let start = random.pick(&[0.0, 1.0, 0.1, -3.0, anywhere]);
    let step = random.pick(&[1.0, 0.25, 0.3, any]);
    let hi = random.beside(start + step);
    Axis {
        lo: hi - 2.0 * step - random.below(20) as f64,
        hi,
        start,
        step,
        ring: false,
    }
}

/// Any scale from 2^-60 to 2^19.
fn scaled(random: &mut Random) -> Axis {
    let scale = random.power(-60, 19);
    let lo = -scale * random.unit();
    let hi = scale * random.unit();
    let start = random.within(lo, hi);
    Axis {
        lo,
        hi,
        start,
        step: (hi - lo) * random.power(-12, -2),
        ring: false,
    }
}

/// Room for the first step and little more, so that most moves are clamped.
fn tight(random: &mut Random) -> Axis {
    let start = random.pick(&[0.0, 0.1, 5.0, -100.0]);
    let step = random.pick(&[1.0, 0.1, 0.5]);
    let room = random.within(1.0, 1.5);
    Axis {
        lo: start - step * room,
        hi: start + step * random.within(1.0, 1.5),
        start,
        step,
        ring: false,
    }
}
