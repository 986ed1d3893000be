//! Made-up searches on rings: axes made rings and none in every phase, and limits written about what is asked, so that it stays, turns up or
//! down, or becomes lo.

use crate::costs::{Costs, DARK};
use crate::limits;
use crate::mild;
use crate::random::Random;
use crate::script::Script;
use crate::state::{State, Written};
use crate::targets;

const LO: u64 = 9;
const HI: u64 = 10;
const RING: u64 = 14;

/// Rings and limits written in some phase, an ask after them, tells and further rings; half of the time all are put back.
pub fn episode(script: &mut Script, random: &mut Random, costs: &mut Costs) {
    if !script.goes_on() {
        return;
    }
    let before = script.state();
    if random.one_in(2) {
        mild::enter(script, random);
        if !script.goes_on() {
            script.write(before.undoing([4, 0, 0]));
        }
    }
    if random.one_in(4) {
        around_no_number(script, random);
    }
    limits::go_on_within(script, random, costs, bound);
    if random.one_in(2) {
        put_back(script, &before);
    }
}

/// Rings written on any axes.
pub fn any(script: &mut Script, random: &mut Random) {
    for axis in 1..=8 {
        if random.one_in(2) {
            script.write([RING, axis, u64::from(!random.one_in(5))]);
        }
    }
}

/// Puts back all limits and rings.
fn put_back(script: &mut Script, before: &State) {
    let all = (1..=8).flat_map(|axis| [[LO, axis, 0], [HI, axis, 0], [RING, axis, 0]]);
    all.for_each(|line| script.write(before.undoing(line)));
}

/// A lower probe whose coordinate on one axis is no number or endless, and so a restart around it; then the limits as they were.
fn around_no_number(script: &mut Script, random: &mut Random) {
    let before = script.state();
    let axis = random.between(1, before.n());
    let lo = random.pick(&[f64::NAN, f64::NAN, f64::INFINITY, f64::NEG_INFINITY]);
    script.write([4, 6, random.below(2 * before.n())]);
    script.write([7, 0, DARK]);
    script.write([LO, axis, lo.to_bits()]);
    if lo == f64::NEG_INFINITY {
        script.write([HI, axis, lo.next_up().to_bits()]);
    }
    script.write([RING, axis, random.below(2)]);
    if !script.goes_on() {
        return put_back(script, &before);
    }
    script.tell(script.next_number(), random.below(9));
    put_back(script, &before);
    script.write([RING, axis, 1]);
    script.ask();
    let n = before.n();
    for detail in [axis, random.between(1, n)] {
        if script.goes_on() {
            script.write([4, 0, detail]);
            script.write([6, 1, 0]);
            script.ask();
        }
    }
    if random.one_in(2) && script.goes_on() {
        script.write([4, 6, random.pick(&[2 * axis - 2, 2 * axis - 1])]);
        script.ask();
    }
}

/// Rings and limits of all axes up to n and of some past n, or of a few axes.
pub fn bound(script: &mut Script, random: &mut Random) {
    let n = script.state().n();
    let few = random.one_in(3);
    let mut order: Vec<u64> = (1..=n).collect();
    random.shuffle(&mut order);
    for axis in order.into_iter().chain(n + 1..=8) {
        if (few || axis > n) && !random.one_in(3) {
            continue;
        }
        let v = match axis <= n {
            true => targets::target(&script.state(), axis),
            false => 0.0,
        };
        let mut lines = lines(random, axis, v);
        random.shuffle(&mut lines);
        lines.into_iter().for_each(|line| script.write(line));
    }
}

/// The lines that make an axis a ring about v, or leave it one, or at times none.
fn lines(random: &mut Random, axis: u64, v: f64) -> Vec<Written> {
    let ring = [RING, axis, u64::from(!random.one_in(7))];
    if random.one_in(8) {
        return vec![ring];
    }
    let (lo, hi) = match random.below(12) {
        0 | 1 => kept(random, v),
        2..=4 => below(random, v),
        5..=7 => above(random, v),
        8 => at_hi(random, v),
        _ => odd(random, v),
    };
    vec![[LO, axis, lo.to_bits()], [HI, axis, hi.to_bits()], ring]
}

/// A distance: some of it small beside v.
fn distance(random: &mut Random, v: f64) -> f64 {
    let ulp = (v.abs().next_up() - v.abs()).max(f64::from_bits(1));
    let places = random.between(1, 5) as f64;
    let any = random.within(0.01, 20.0);
    random.pick(&[ulp * places, ulp, 1.0, 0.3, any, any, 1e-30, 1e30])
}

/// Limits between which v stays, on lo itself or beside hi in some cases.
fn kept(random: &mut Random, v: f64) -> (f64, f64) {
    let zero = if v == 0.0 { -v } else { v };
    let low = v - distance(random, v);
    let high = v + distance(random, v);
    let lo = random.pick(&[v, zero, v.next_down(), low, f64::NEG_INFINITY]);
    let hi = random.pick(&[v.next_up(), high, high, f64::INFINITY]);
    (lo, hi)
}

/// lo above v, and hi about a turn above it or farther.
fn below(random: &mut Random, v: f64) -> (f64, f64) {
    let far = distance(random, v);
    let lo = random.pick(&[v + far, v + far, v.next_up()]);
    let more = distance(random, v);
    let hi = random.pick(&[lo + far, lo + far * 2.0, lo + more, lo + far / 2.0, v + 1e3]);
    (lo, random.beside(hi))
}

/// hi at or below v, and lo about a turn below it or farther.
fn above(random: &mut Random, v: f64) -> (f64, f64) {
    let far = distance(random, v);
    let hi = random.pick(&[v, v - far, v - far, v.next_down()]);
    let more = distance(random, v);
    let lo = random.pick(&[hi - far, hi - far * 2.0, hi - more, hi - far / 2.0, v - 1e3]);
    (random.beside(lo), hi)
}

/// hi at v itself, or at a zero of the other sign.
fn at_hi(random: &mut Random, v: f64) -> (f64, f64) {
    let zero = if v == 0.0 { -v } else { v };
    let lo = v - distance(random, v);
    (
        random.pick(&[lo, lo, lo, v.next_down(), v, f64::NEG_INFINITY]),
        random.pick(&[v, zero]),
    )
}

/// Limits that no opening takes: crossed or equal, endless or no numbers, zeros of both signs.
fn odd(random: &mut Random, v: f64) -> (f64, f64) {
    let (up, down) = (v + distance(random, v), v - distance(random, v));
    let far = f64::INFINITY;
    let nan = f64::NAN;
    random.pick(&[
        (up, down),
        (up, v),
        (v, down),
        (v, v),
        (nan, v),
        (nan, up),
        (v, nan),
        (up, nan),
        (nan, nan),
        (-far, down),
        (-far, up),
        (-far, far),
        (up, far),
        (down, far),
        (far, -far),
        (-0.0, up.abs()),
        (-up.abs(), -0.0),
        (-0.0, 0.0),
        (0.0, -0.0),
    ])
}
