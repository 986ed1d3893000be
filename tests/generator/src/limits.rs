//! Made-up searches whose limits are written: about the coordinates that are asked, so that any number of axes are at their stops.

use crate::costs::Costs;
use crate::mild;
use crate::parts;
use crate::random::Random;
use crate::script::Script;
use rival::Search;

const LO: u64 = 9;
const HI: u64 = 10;

/// Not numbers. Replay shows each of them alike.
const NANS: [u64; 4] = [
    0x7ff8_0000_0000_0000,
    0x7ff8_0000_0000_0000,
    0xfff8_0000_0000_0000,
    0x7ff0_0000_0000_0001,
];

/// Limits written in some phase, an ask after them, and then tells and further limits; half of the time all limits are put back.
pub fn episode(script: &mut Script, random: &mut Random, costs: &mut Costs) {
    let state = script.state();
    if random.one_in(2) && script.goes_on() {
        mild::enter(script, random);
        if !script.goes_on() {
            script.write(state.undoing([4, 0, 0]));
        }
    }
    let before = script.state();
    go_on_within(script, random, costs, bound);
    if random.one_in(2) {
        let both = (1..=8).flat_map(|axis| [[LO, axis, 0], [HI, axis, 0]]);
        both.for_each(|line| script.write(before.undoing(line)));
    }
}

/// Limits written by `bound`, an ask and tells after them; and that again a few times.
pub fn go_on_within(
    script: &mut Script,
    random: &mut Random,
    costs: &mut Costs,
    bound: fn(&mut Script, &mut Random),
) {
    for _ in 0..random.between(1, 5) {
        if !script.goes_on() {
            break;
        }
        bound(script, random);
        script.ask();
        for _ in 0..random.pick(&[0, 0, 1, 2, 5]) {
            parts::measure(script, random, costs);
            script.ask();
        }
        if random.one_in(8) {
            script.show();
        }
    }
}

/// Limits of all axes up to n and of some past n, or of a few axes.
pub fn bound(script: &mut Script, random: &mut Random) {
    let n = script.state().n();
    let asked = unclamped(script.search());
    let at_stops = random.between(0, n);
    let mut order: Vec<u64> = (1..=n).collect();
    random.shuffle(&mut order);
    let few = random.one_in(4);
    for (i, axis) in (0..).zip(order.into_iter().chain(n + 1..=8)) {
        if (few || axis > n) && !random.one_in(3) {
            continue;
        }
        let v = asked[axis as usize - 1];
        let (lo, hi) = match i < at_stops {
            true => outside(random, v),
            false if axis <= n => around(random, v),
            false => random.pick(&[outside, around])(random, v),
        };
        for line in random.pick(&[
            [[LO, axis, lo], [HI, axis, hi]],
            [[HI, axis, hi], [LO, axis, lo]],
        ]) {
            script.write(line);
        }
    }
}

/// What the phase asks for before it is clamped, r unclamped too.
fn unclamped(search: &Search) -> [f64; 8] {
    let mut search = search.clone();
    for axis in 1..=8 {
        search.write_part(LO, axis, f64::NEG_INFINITY.to_bits());
        search.write_part(HI, axis, f64::INFINITY.to_bits());
    }
    search.ask().map_or([0.0; 8], |trial| trial.point)
}

/// Limits that keep v, at it or beside it in most cases; a zero may stand on a zero of the other sign.
fn around(random: &mut Random, v: f64) -> (u64, u64) {
    let zero = if v == 0.0 { -v } else { v };
    let lo = random.pick(&[v, v, zero, v.next_down(), f64::NEG_INFINITY, v - 1.0]);
    let hi = random.pick(&[v, v, zero, v.next_up(), f64::INFINITY, v + 1.0]);
    (lo.to_bits(), hi.to_bits())
}

/// Limits of which one takes v's place: lo above it or a NaN, or hi below it or a NaN. They may be out of order.
fn outside(random: &mut Random, v: f64) -> (u64, u64) {
    let nan = f64::from_bits(random.pick(&NANS));
    let above = random.pick(&[v.next_up(), v.next_up(), v + 1.0, f64::INFINITY]);
    let below = random.pick(&[v.next_down(), v.next_down(), v - 1.0, f64::NEG_INFINITY]);
    let any = random.pick(&[v, above, above, below, nan, -0.0]);
    let (lo, hi) = match random.below(8) {
        0..=2 => (above, any),
        3 => (nan, any),
        4 => (v, nan),
        5 => (v, below),
        _ => (below, random.pick(&[below, v.next_down()])),
    };
    (lo.to_bits(), hi.to_bits())
}
