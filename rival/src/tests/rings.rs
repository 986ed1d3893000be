//! One number brought round a ring: "a value with lo ≤ v false becomes v + (hi − lo), any other with v < hi false becomes v − (hi − lo),
//! and if the outcome is still not lo ≤ v < hi it becomes lo." Expected numbers are worked from that sentence alone.

use super::*;

const NAN: f64 = f64::NAN;
const FAR: f64 = f64::INFINITY;

/// The bits of v brought round, which is never a stop.
#[track_caller]
fn round(lo: f64, hi: f64, v: f64) -> u64 {
    let ring = Axis {
        lo,
        hi,
        ring: true,
        ..USUAL_AXIS
    };
    let (x, stop) = ring.bring(v);
    assert_eq!(stop, 0);
    x.to_bits()
}

/// Asserts what values become on a ring, bit for bit.
#[track_caller]
fn assert_round(lo: f64, hi: f64, cases: &[(f64, f64)]) {
    for &(v, wanted) in cases {
        assert_eq!(round(lo, hi, v), wanted.to_bits(), "{v} on {lo}..{hi}");
    }
}

/// The float so many places above 1.
fn over_1(places: u64) -> f64 {
    f64::from_bits(1f64.to_bits() + places)
}

#[test]
fn a_value_on_the_ring_stays() {
    let last = 10f64.next_down();
    let kept = [0.0, -0.0, f64::from_bits(1), 1.25, last];
    assert_round(0.0, 10.0, &kept.map(|v| (v, v)));
    assert_round(-0.0, 10.0, &[(0.0, 0.0), (-0.0, -0.0)]);
    assert_round(-8.0, 8.0, &[(-8.0, -8.0), (7.5, 7.5)]);
}

#[test]
fn below_lo_and_at_hi_and_above() {
    assert_round(0.0, 10.0, &[(-1.0, 9.0), (-9.5, 0.5), (-10.0, 0.0)]);
    assert_round(0.0, 10.0, &[(10.0, 0.0), (12.5, 2.5), (19.0, 9.0)]);
    assert_round(-8.0, 8.0, &[(8.0, -8.0), (8.5, -7.5), (-8.5, 7.5)]);
    // 10 − (10 − (−0)) is +0, and stays: lo ≤ 0 holds.
    assert_round(-0.0, 10.0, &[(10.0, 0.0)]);
    assert_round(-8.0, -0.0, &[(-0.0, -8.0), (0.0, -8.0)]);
    // 1.4 + 3 is rounded up to 4.4, and 1.4 − 4.4 is a place below −3.
    assert_eq!((1.4f64 - 4.4).to_bits(), 0xc008_0000_0000_0001);
    assert_round(-3.0, 1.4, &[(1.4, -3.0)]);
}

#[test]
fn more_than_one_turn_becomes_lo() {
    assert_round(0.0, 10.0, &[(20.0, 0.0), (25.0, 0.0), (-10.5, 0.0)]);
    assert_round(2.0, 10.0, &[(18.0, 2.0), (25.0, 2.0), (-6.5, 2.0)]);
    assert_round(-8.0, 8.0, &[(24.0, -8.0), (1e300, -8.0), (-1e300, -8.0)]);
    assert_round(-0.0, 10.0, &[(-25.0, -0.0), (25.0, -0.0)]);
    // Just within one turn: a place below 32 is two below 16.
    let last = 16f64.next_down().next_down();
    assert_round(0.0, 16.0, &[(32f64.next_down(), last)]);
}

#[test]
fn a_turn_that_rounds_to_hi_becomes_lo() {
    // v + 10 rounds to 10 for these; 1.5e-15 is more than half of the last place below 10.
    let tiny = [-1e-30, -f64::from_bits(1), -1e-16, -8e-16];
    assert_round(0.0, 10.0, &tiny.map(|v| (v, 0.0)));
    assert_round(0.0, 10.0, &[(-1.5e-15, 10f64.next_down())]);
    let below = 2f64.next_down();
    assert_round(2.0, 10.0, &[(below, 2.0)]);
    // Half of a place below 10 goes to the even one, which is 10.
    let half = (10.0 - 10f64.next_down()) / 2.0;
    assert_round(0.0, 10.0, &[(-half, 0.0)]);
}

#[test]
fn the_width_is_rounded_once_and_added_once() {
    // 0.3 − 0.1 is 0.19999999999999998; (0.05 + 0.3) − 0.1 would be 0.24999999999999997.
    assert_eq!(round(0.1, 0.3, 0.05), 0x3fd0_0000_0000_0000);
    // 0.1 − (−0.7) is 0.7999999999999999; (0.3 − 0.1) + (−0.7) would be −0.5.
    assert_eq!(round(-0.7, 0.1, 0.3), 0xbfdf_ffff_ffff_ffff);
    assert_eq!(round(-0.3, 0.1, -0.35), 0x3fa9_9999_9999_99a0);
    assert_eq!(round(-0.1, 0.2, 0.25), 0xbfa9_9999_9999_99a0);
}

#[test]
fn limits_a_few_places_apart() {
    let cases = [(3, 0), (4, 1), (5, 2), (6, 0), (7, 0)];
    let cases = cases.map(|(v, wanted)| (over_1(v), over_1(wanted)));
    assert_round(1.0, over_1(3), &cases);
    // A half place below 1, and three places more: two and a half, and the even one is two.
    assert_round(1.0, over_1(3), &[(1f64.next_down(), over_1(2))]);
    assert_round(1.0, over_1(1), &[(1f64.next_down(), 1.0), (over_1(1), 1.0)]);
    let [one, two, three] = [1, 2, 3].map(f64::from_bits);
    assert_round(0.0, two, &[(two, 0.0), (three, one), (-one, one)]);
    assert_round(0.0, two, &[(-three, 0.0), (two + two, 0.0)]);
}

#[test]
fn values_that_are_no_numbers_or_endless() {
    for v in [NAN, -NAN, FAR, -FAR] {
        assert_round(0.0, 10.0, &[(v, 0.0)]);
        assert_round(-0.0, 10.0, &[(v, -0.0)]);
        assert_round(-8.0, 8.0, &[(v, -8.0)]);
    }
}

/// Limits that no opening takes: no outcome is lo ≤ v < hi there.
#[test]
fn limits_crossed_equal_or_no_numbers() {
    for v in [-3.0, 0.5, 1.0, 1.5, 2.0, 2.5, NAN, FAR, -FAR] {
        assert_round(2.0, 1.0, &[(v, 2.0)]);
        assert_round(1.0, 1.0, &[(v, 1.0)]);
        assert_round(0.0, -0.0, &[(v, 0.0)]);
        assert_round(-0.0, 0.0, &[(v, -0.0)]);
        assert_round(1.0, NAN, &[(v, 1.0)]);
        assert_round(NAN, 1.0, &[(v, NAN)]);
        assert_round(NAN, NAN, &[(v, NAN)]);
        assert_round(FAR, -FAR, &[(v, FAR)]);
    }
}

/// An endless width: v + ∞ and v − ∞ are endless, or no numbers.
#[test]
fn endless_limits() {
    assert_round(0.0, FAR, &[(5.0, 5.0), (-1.0, 0.0), (FAR, 0.0), (NAN, 0.0)]);
    let low = [(0.5, 0.5), (-FAR, -FAR), (1.0, -FAR), (FAR, -FAR)];
    assert_round(-FAR, 1.0, &low);
    assert_round(-FAR, 1.0, &[(NAN, -FAR)]);
    let all = [(7.0, 7.0), (-FAR, -FAR), (FAR, -FAR), (NAN, -FAR)];
    assert_round(-FAR, FAR, &all);
    // The width is too large for a float.
    let most = f64::MAX;
    assert_round(-most, most, &[(most, -most), (-FAR, -most), (1.0, 1.0)]);
}

/// The law of the request: "A ring trial satisfies lo ≤ v < hi wherever lo < hi."
#[test]
fn any_value_ends_on_the_ring() {
    let mut seed = 3;
    let limits = [
        -FAR,
        -8.0,
        -0.1,
        -0.0,
        0.3,
        1.0,
        over_1(1),
        over_1(3),
        7e5,
        FAR,
    ];
    let mut tried = 0;
    for _ in 0..20_000 {
        let pick = |seed: &mut u64| limits[next(seed) as usize % limits.len()];
        let (lo, hi) = (pick(&mut seed), pick(&mut seed));
        let any = next(&mut seed).wrapping_mul(next(&mut seed)) << 3 ^ next(&mut seed);
        let near = [pick(&mut seed) * 3.0, f64::from_bits(any), hi - lo, lo];
        for v in near {
            let x = f64::from_bits(round(lo, hi, v));
            let on_ring = lo <= x && x < hi;
            assert!(if lo < hi {
                on_ring
            } else {
                x.to_bits() == lo.to_bits()
            });
            tried += u64::from(lo < hi);
        }
    }
    assert!(tried > 20_000);
}
