//! Trial points: clamps, build steps, the order of the sum, and coefficients that are not the usual ones.

use super::*;
use crate::search::Phase;

/// The axis of the examples with another start and step.
fn axis(start: f64, step: f64) -> Axis {
    Axis {
        start,
        step,
        ..USUAL_AXIS
    }
}

/// A search of one axis with coefficients 2, 3, 1/4, 3/4, after costs.
fn unusual(costs: &[u64]) -> Search {
    let given = Coefficients {
        alpha: 2.0,
        chi: 3.0,
        beta: 0.25,
        sigma: 0.75,
    };
    let opened = Search::open(NelderMead, 1, &axes(USUAL_AXIS), None, given, 100);
    after(opened.expect("opening"), costs)
}

/// The bits of clamp v, and whether it is a stop.
fn clamped(record: Axis, v: f64) -> (u64, u64) {
    let (x, stop) = record.bring(v);
    (x.to_bits(), stop)
}

#[test]
fn clamp_keeps_the_value_within_its_limits() {
    let record = Axis {
        lo: 0.0,
        hi: 8.0,
        ..USUAL_AXIS
    };
    let under = f64::from_bits(8.0f64.to_bits() - 1);
    for kept in [0.0, -0.0, f64::from_bits(1), under, 8.0] {
        assert_eq!(clamped(record, kept), (kept.to_bits(), 0));
    }
    let past = f64::from_bits(8.0f64.to_bits() + 1);
    for (v, limit) in [(-f64::from_bits(1), 0.0f64), (f64::NAN, 0.0), (past, 8.0)] {
        assert_eq!(clamped(record, v), (limit.to_bits(), 1));
    }
}

#[test]
fn clamp_between_limits_that_no_opening_takes() {
    let given = |lo, hi, v| {
        let limits = Axis {
            lo,
            hi,
            ..USUAL_AXIS
        };
        clamped(limits, v)
    };
    let (one, two, nan) = (1f64.to_bits(), 2f64.to_bits(), f64::NAN.to_bits());
    // Below lo gives lo, also where lo is above hi; only then is hi looked at.
    assert_eq!(given(2.0, 1.0, 0.5), (two, 1));
    assert_eq!(given(2.0, 1.0, 1.5), (two, 1));
    assert_eq!(given(2.0, 1.0, 2.0), (one, 1));
    for v in [1.0, f64::INFINITY, f64::NEG_INFINITY, f64::NAN] {
        assert_eq!(given(f64::NAN, 2.0, v), (nan, 1));
    }
    assert_eq!(given(1.0, f64::NAN, 0.5), (one, 1));
    assert_eq!(given(1.0, f64::NAN, 1.0), (nan, 1));
    assert_eq!(given(2.0, 2.0, 2.0), (two, 0));
    assert_eq!(given(-0.0, 0.0, -0.0), ((-0.0f64).to_bits(), 0));
    let farthest = f64::INFINITY;
    assert_eq!(
        given(-farthest, farthest, farthest),
        (farthest.to_bits(), 0)
    );
}

#[test]
fn build_steps_up_to_hi_itself() {
    let search = after(open(1, axis(7.0, 1.0), Rule::Spread(4), 9), &[1]);
    assert_trial(&search, 2, &[8.0]);
}

#[test]
fn build_steps_down_past_hi() {
    let search = after(open(1, axis(7.5, 1.0), Rule::Spread(4), 9), &[1]);
    assert_trial(&search, 2, &[6.5]);
}

#[test]
fn build_down_step_is_clamped() {
    // start + step passes hi, and start − step rounds to one unit in the last place below lo.
    let record = Axis {
        lo: f64::from_bits(0xbff4000000000003),
        hi: 0.75,
        start: f64::from_bits(0xbfd0000000000006),
        step: f64::from_bits(0x3ff0000000000002),
        ring: false,
    };
    assert_eq!((record.start - record.step).to_bits(), 0xbff4000000000004);
    let search = after(open(1, record, Rule::Spread(4), 9), &[1]);
    assert_trial(&search, 2, &[record.lo]);
}

#[test]
fn contraction_goes_from_the_clamped_reflected_point() {
    // Places 7.75 and 7; c + (c − w) is 8.5, so r is 8 and the outside point 7.75 + 0.125.
    let mut search = after(open(1, axis(7.0, 0.75), Rule::Spread(4), 9), &[20, 10]);
    assert_trial(&search, 3, &[8.0]);
    tell_all(&mut search, &[15]);
    assert_trial(&search, 4, &[7.875]);
}

#[test]
fn low_points_are_clamped_to_lo() {
    // Places −7.5 and −7; r would be −8, e −8.5.
    let mut search = after(open(1, axis(-7.5, 0.5), Rule::Spread(4), 9), &[10, 20]);
    assert_trial(&search, 3, &[-8.0]);
    tell_all(&mut search, &[5]);
    assert_trial(&search, 4, &[-8.0]);
}

#[test]
fn centroid_sums_in_place_order() {
    // (0.4 + 0.1) + 0.1 on axes 1 and 2, but (0.1 + 0.1) + 0.4 on axis 3, which rounds otherwise.
    let opened = open(3, axis(0.1, 0.3), Rule::Spread(4), 9);
    let search = after(opened, &[40, 10, 20, 30]);
    let first = f64::from_bits(0x3fd3333333333332);
    let third = f64::from_bits(0x3fd3333333333334);
    assert_trial(&search, 5, &[first, first, third]);
}

#[test]
fn unusual_coefficients_expand() {
    let mut search = unusual(&[20, 10]);
    assert_trial(&search, 3, &[3.0]);
    tell_all(&mut search, &[5]);
    assert_trial(&search, 4, &[7.0]);
    tell_all(&mut search, &[4]);
    assert_place(&search, 1, &[7.0], 4);
    assert_place(&search, 2, &[1.0], 10);
}

#[test]
fn unusual_coefficients_contract_and_shrink() {
    assert_trial(&unusual(&[20, 10, 15]), 4, &[1.5]);
    assert_trial(&unusual(&[20, 10, 20]), 4, &[0.75]);
    assert_trial(&unusual(&[20, 10, 20, 20]), 5, &[0.25]);
}

#[test]
fn one_axis_never_meets_the_second_row() {
    // fr = f1 = fn asks the outside point.
    let search = after(open(1, USUAL_AXIS, Rule::Spread(4), 9), &[20, 10, 10]);
    assert_trial(&search, 4, &[1.5]);
    assert_counts(&search, [1, 0, 0, 0, 0, 0, 1]);
}

#[test]
fn expansion_lower_than_reflected_is_taken() {
    let search = after(example(), &[30, 20, 10, 5, 4]);
    assert_place(&search, 1, &[1.5, 1.5], 4);
    assert_place(&search, 2, &[0.0, 1.0], 10);
    assert_counts(&search, [1, 0, 1, 0, 0, 0, 0]);
}

#[test]
fn expansion_between_reflected_and_f1_takes_reflected() {
    let search = after(example(), &[30, 20, 10, 5, 7]);
    assert_place(&search, 1, &[1.0, 1.0], 5);
    assert_best(&search, &[1.0, 1.0], 5);
}

#[test]
fn shrunk_vertices_enter_after_the_kept_equal() {
    let search = after(example(), &[30, 20, 10, 20, 21, 10, 10]);
    assert_place(&search, 1, &[0.0, 1.0], 10);
    assert_place(&search, 2, &[0.5, 0.5], 10);
    assert_place(&search, 3, &[0.0, 0.5], 10);
    assert_counts(&search, [1, 0, 0, 0, 1, 0, 0]);
    assert_eq!(search.phase, Phase::Probing(0));
}

#[test]
fn lower_shrunk_vertices_go_before_the_kept() {
    let search = after(example(), &[30, 20, 10, 20, 21, 5, 5]);
    assert_place(&search, 1, &[0.5, 0.5], 5);
    assert_place(&search, 2, &[0.0, 0.5], 5);
    assert_place(&search, 3, &[0.0, 1.0], 10);
    assert_best(&search, &[0.5, 0.5], 5);
}

#[test]
fn eight_axes_build_and_reflect() {
    let opened = open(8, USUAL_AXIS, Rule::Spread(4), 100);
    let search = after(opened, &[90, 80, 70, 60, 50, 40, 30, 20, 10]);
    assert_place(&search, 1, &[0.0, 0.0, 0.0, 0.0, 0.0, 0.0, 0.0, 1.0], 10);
    assert_place(&search, 8, &[1.0], 80);
    assert_place(&search, 9, &[], 90);
    assert_trial(&search, 10, &[0.25; 8]);
}
