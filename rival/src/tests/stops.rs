//! A trial's stops: how many of its axes the clamp changed.

use super::*;
use crate::search::{Phase, Side};
use crate::types::Refusal;

/// The probe distance of a step of 1.
const D: f64 = 0.0009765625;

/// One axis from −8 to 8, after costs.
fn one(start: f64, step: f64, costs: &[u64]) -> Search {
    let axis = Axis {
        start,
        step,
        ..USUAL_AXIS
    };
    after(open(1, axis, Rule::Spread(1), 100), costs)
}

/// The example with these upper limits, after P1 and further costs.
fn limited(hi: [f64; 2], costs: &[u64]) -> Search {
    let mut given = axes(USUAL_AXIS);
    (given[0].hi, given[1].hi) = (hi[0], hi[1]);
    let opened = Search::open(NelderMead, 2, &given, None, Coefficients::USUAL, 100);
    after(after(opened.expect("opening"), &[30, 20, 10]), costs)
}

/// The example after costs, with limits written: part 9 is lo and 10 is hi.
fn written(costs: &[u64], limits: &[(u64, u64, f64)]) -> Search {
    let mut search = after(example(), costs);
    for &(part, axis, limit) in limits {
        write(&mut search, (part, axis, limit.to_bits()));
    }
    search
}

#[test]
fn no_axis_one_and_both() {
    assert_stops(&limited([8.0, 8.0], &[]), 0, &[1.0, 1.0]);
    assert_stops(&limited([8.0, 8.0], &[5]), 0, &[1.5, 1.5]);
    assert_stops(&limited([1.25, 8.0], &[5]), 1, &[1.25, 1.5]);
    assert_stops(&limited([8.0, 1.25], &[5]), 1, &[1.5, 1.25]);
    assert_stops(&limited([1.25, 1.25], &[5]), 2, &[1.25, 1.25]);
}

#[test]
fn every_one_of_eight_axes() {
    // c is 1/8 on each axis and r 1/4; e would be 9/8.
    let axis = Axis {
        hi: 1.0,
        ..USUAL_AXIS
    };
    let given = Coefficients {
        chi: 8.0,
        ..Coefficients::USUAL
    };
    let opened = Search::open(NelderMead, 8, &axes(axis), None, given, 100).expect("opening");
    let mut search = after(opened, &[90, 80, 70, 60, 50, 40, 30, 20, 10]);
    assert_stops(&search, 0, &[0.25; 8]);
    tell_all(&mut search, &[5]);
    assert_stops(&search, 8, &[1.0; 8]);
}

#[test]
fn a_coordinate_on_its_limit_is_no_stop() {
    assert_stops(&one(8.0, 1.0, &[]), 0, &[8.0]);
    assert_stops(&one(-8.0, 1.0, &[]), 0, &[-8.0]);
    assert_stops(&one(7.0, 1.0, &[1]), 0, &[8.0]);
    // c is 1/2 on axis 2 and w 0: r is 1 there, hi itself; e would be 3/2.
    assert_stops(&limited([8.0, 1.0], &[]), 0, &[1.0, 1.0]);
    assert_stops(&limited([8.0, 1.0], &[5]), 1, &[1.5, 1.0]);
}

#[test]
fn a_clamped_r_before_an_e_that_is_not() {
    // Places 8 and 7: c is hi, so that e is c itself.
    let mut search = one(7.0, 1.0, &[20, 10]);
    assert_stops(&search, 1, &[8.0]);
    tell_all(&mut search, &[5]);
    assert_eq!(search.phase, Phase::Expanding);
    assert_stops(&search, 0, &[8.0]);
}

#[test]
fn a_clamped_e_after_an_r_that_is_not() {
    // Places −7.5 and −7: r is −8, lo itself; e would be −8.5.
    let mut search = one(-7.5, 0.5, &[10, 20]);
    assert_stops(&search, 0, &[-8.0]);
    tell_all(&mut search, &[5]);
    assert_eq!(search.phase, Phase::Expanding);
    assert_stops(&search, 1, &[-8.0]);
}

#[test]
fn r_and_e_clamped() {
    // Places 7.75 and 7: r would be 8.5, and e, from r at 8, 8.25.
    let mut search = one(7.0, 0.75, &[20, 10]);
    assert_stops(&search, 1, &[8.0]);
    tell_all(&mut search, &[5]);
    assert_stops(&search, 1, &[8.0]);
}

#[test]
fn contractions_after_a_clamped_r() {
    let mut search = one(7.0, 0.75, &[20, 10]);
    assert_stops(&search, 1, &[8.0]);
    tell_all(&mut search, &[15]);
    assert_eq!(search.phase, Phase::Contracting(Side::Outside));
    assert_stops(&search, 0, &[7.875]);
    let search = one(7.0, 0.75, &[20, 10, 20]);
    assert_eq!(search.phase, Phase::Contracting(Side::Inside));
    assert_stops(&search, 0, &[7.375]);
}

#[test]
fn the_step_back_of_a_build_is_no_stop() {
    assert_stops(&one(7.5, 1.0, &[1]), 0, &[6.5]);
    // That of a restart neither: from the probe 7 + d a step up passes 8.
    let search = one(7.0, 1.0, &[4, 4, 3]);
    assert_eq!(search.phase, Phase::Building);
    assert_stops(&search, 0, &[6.0 + D]);
}

#[test]
fn a_step_back_that_is_clamped_is_one() {
    let record = narrow_axis();
    assert!(record.start + record.step > record.hi && record.start - record.step < record.lo);
    let mut given = axes(USUAL_AXIS);
    given[1] = record;
    let opened = Search::open(NelderMead, 3, &given, None, Coefficients::USUAL, 100);
    let mut search = opened.expect("opening");
    assert_stops(&search, 0, &[0.0, record.start]);
    tell_all(&mut search, &[1]);
    assert_stops(&search, 0, &[1.0, record.start]);
    tell_all(&mut search, &[1]);
    assert_stops(&search, 1, &[0.0, record.lo]);
    tell_all(&mut search, &[1]);
    assert_stops(&search, 0, &[0.0, record.start, 1.0]);
}

#[test]
fn a_probe_clamped_onto_b() {
    let mut search = one(8.0, 1.0, &[5, 5]);
    assert_eq!(search.phase, Phase::Probing(0));
    assert_stops(&search, 1, &[8.0]);
    tell_all(&mut search, &[5]);
    assert_stops(&search, 0, &[8.0 - D]);
    let mut search = one(-8.0, 1.0, &[5, 5, 5]);
    assert_stops(&search, 1, &[-8.0]);
    tell_all(&mut search, &[5]);
    assert_eq!(search.ask(), Err(Refusal::numbered(8)));
}

#[test]
fn a_shrink_between_limits() {
    // Places (8,8), (8,7), (7,8): the inside point and its shrink stay between them.
    let mut given = axes(USUAL_AXIS);
    (given[0].start, given[1].start) = (7.0, 7.0);
    let opened = Search::open(NelderMead, 2, &given, None, Coefficients::USUAL, 100);
    let mut search = after(opened.expect("opening"), &[30, 20, 10]);
    assert_stops(&search, 0, &[8.0, 8.0]);
    tell_all(&mut search, &[10]);
    assert_stops(&search, 1, &[7.0, 8.0]);
    tell_all(&mut search, &[30, 30]);
    assert_eq!(search.phase, Phase::Shrinking);
    assert_stops(&search, 0, &[7.5, 8.0]);
    tell_all(&mut search, &[31]);
    assert_stops(&search, 0, &[7.5, 7.5]);
}

#[test]
fn a_contraction_where_the_sum_rounds_past_hi() {
    // On axis 3 places 1 to 3 are hi: their sum is rounded up, and a third of it is the float above hi. β is too small to lead back.
    let hi = f64::from_bits(0x3ff8_0000_0000_0002);
    assert_eq!((hi + hi + hi) / 3.0, hi.next_up());
    let axis = Axis {
        lo: 0.0,
        hi,
        start: hi,
        step: 0.5,
        ring: false,
    };
    let given = Coefficients {
        beta: 1e-300,
        ..Coefficients::USUAL
    };
    let opened = Search::open(NelderMead, 3, &axes(axis), None, given, 100).expect("opening");
    let search = after(opened, &[10, 20, 30, 40]);
    let c = (hi + (hi - 0.5) + hi) / 3.0;
    let r = c + (c - hi);
    assert_stops(&search, 1, &[r, r, hi]);
    for (told, side) in [(35, Side::Outside), (40, Side::Inside)] {
        let search = after(search.clone(), &[told]);
        assert_eq!(search.phase, Phase::Contracting(side));
        assert_stops(&search, 1, &[c, c, hi]);
    }
}

#[test]
fn made_up_limits() {
    // The start, (0,0), asked between other limits.
    let (one, two) = (1.0, 2.0);
    assert_stops(&written(&[], &[(9, 1, one)]), 1, &[1.0, 0.0]);
    assert_stops(&written(&[], &[(10, 2, -one)]), 1, &[0.0, -1.0]);
    assert_stops(&written(&[], &[(9, 1, one), (9, 2, two)]), 2, &[1.0, 2.0]);
    // lo above hi: lo where v is below it, else hi.
    let crossed = [(9, 1, two), (10, 1, one), (9, 2, -one), (10, 2, -two)];
    assert_stops(&written(&[], &crossed), 2, &[2.0, -2.0]);
    // A NaN: lo in place of any v; hi where v is not below lo.
    let nan = f64::NAN;
    assert_stops(&written(&[], &[(9, 1, nan)]), 1, &[nan, 0.0]);
    assert_stops(&written(&[], &[(10, 1, nan)]), 1, &[nan, 0.0]);
    let both = [(9, 1, one), (10, 1, nan), (9, 2, nan), (10, 2, nan)];
    assert_stops(&written(&[], &both), 2, &[1.0, nan]);
    // A NaN that is asked, between limits that hold it too.
    let search = after(written(&[], &[(9, 2, nan)]), &[4]);
    assert_stops(&search, 1, &[1.0, nan]);
    // Limits at the coordinate itself, of either sign of zero, keep it.
    let zeros = [(9, 1, 0.0), (10, 1, -0.0), (9, 2, -0.0), (10, 2, 0.0)];
    assert_stops(&written(&[], &zeros), 0, &[0.0, 0.0]);
    let all = [(9, 1, -f64::INFINITY), (10, 1, f64::INFINITY)];
    assert_stops(&written(&[], &all), 0, &[0.0, 0.0]);
}

#[test]
fn axes_left_alone_are_counted() {
    // The last step of the build goes along axis 2.
    let search = written(&[30, 20], &[(9, 1, 2.0)]);
    assert_stops(&search, 1, &[2.0, 1.0]);
    let mut search = written(&[7, 7, 7], &[(10, 2, -2.0)]);
    assert_stops(&search, 1, &[D, -2.0]);
    write(&mut search, (9, 1, 1f64.to_bits()));
    assert_stops(&search, 2, &[1.0, -2.0]);
}

#[test]
fn every_phase_of_a_made_up_search() {
    let limits = [(9, 1, 3.0), (10, 1, 3.0), (9, 2, 4.0), (10, 2, 4.0)];
    let phases: [&[u64]; 7] = [
        &[30, 20],
        &[30, 20, 10],
        &[30, 20, 10, 5],
        &[30, 20, 10, 20],
        &[30, 20, 10, 30],
        &[30, 20, 10, 30, 30],
        &[7, 7, 7],
    ];
    for costs in phases {
        assert_eq!(written(costs, &[]).trial.stops, 0);
        let of_one = written(costs, &limits[..2]).trial;
        assert_eq!((of_one.stops, of_one.point[0]), (1, 3.0));
        assert_stops(&written(costs, &limits), 2, &[3.0, 4.0]);
    }
}

#[test]
fn axes_past_n_never_count() {
    let limits: Vec<_> = (3..=8).map(|axis| (9, axis, 1.0)).collect();
    for costs in [&[][..], &[30, 20, 10], &[7, 7, 7, 7]] {
        let trial = after(example(), costs).ask();
        assert_eq!(written(costs, &limits).ask(), trial);
    }
    let mut search = written(&[], &limits);
    write(&mut search, (0, 0, 4));
    assert_stops(&search, 2, &[0.0, 0.0, 1.0, 1.0]);
    write(&mut search, (0, 0, 1));
    assert_stops(&search, 0, &[]);
}

#[test]
fn r_is_found_again_between_written_limits() {
    // r is (1,1), and 3/4 on axis 1 from here on; e starts from there and is within.
    let mut search = written(&[30, 20, 10, 5], &[(10, 1, 0.75)]);
    assert_stops(&search, 1, &[0.75, 1.5]);
    write(&mut search, (4, 3, 0));
    write(&mut search, (6, 1, 20));
    assert_stops(&search, 0, &[0.625, 0.75]);
    tell_all(&mut search, &[19]);
    assert_place(&search, 2, &[0.625, 0.75], 19);
}
