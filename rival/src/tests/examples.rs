//! P1 to P12.

use super::*;
use crate::search::{Phase, Side};
use crate::simplex::Simplex;

/// The costs of P1.
const P1: [u64; 3] = [30, 20, 10];

/// The example after P1 and further costs.
fn after_p1(costs: &[u64]) -> Search {
    after(after(example(), &P1), costs)
}

#[test]
fn p1_first_build() {
    let mut search = example();
    assert_trial(&search, 1, &[0.0, 0.0]);
    tell_all(&mut search, &[30]);
    assert_trial(&search, 2, &[1.0, 0.0]);
    tell_all(&mut search, &[20]);
    assert_trial(&search, 3, &[0.0, 1.0]);
    assert_eq!(search.standing, Simplex::EMPTY);
    tell_all(&mut search, &[10]);
    assert_place(&search, 1, &[0.0, 1.0], 10);
    assert_place(&search, 2, &[1.0, 0.0], 20);
    assert_place(&search, 3, &[0.0, 0.0], 30);
    assert_counts(&search, [1, 0, 0, 0, 0, 0, 0]);
}

#[test]
fn p2_reflected_point() {
    let search = after_p1(&[]);
    assert_eq!(search.phase, Phase::Reflecting);
    assert_trial(&search, 4, &[1.0, 1.0]);
}

#[test]
fn p3_expansion() {
    let search = after_p1(&[5]);
    assert_eq!(search.phase, Phase::Expanding);
    assert_trial(&search, 5, &[1.5, 1.5]);
    assert_counts(&search, [1, 0, 0, 0, 0, 0, 1]);
}

#[test]
fn p4_equal_expansion_takes_reflected() {
    let search = after_p1(&[5, 5]);
    assert_place(&search, 1, &[1.0, 1.0], 5);
    assert_place(&search, 2, &[0.0, 1.0], 10);
    assert_place(&search, 3, &[1.0, 0.0], 20);
    assert_counts(&search, [1, 0, 1, 0, 0, 0, 0]);
    assert_best(&search, &[1.0, 1.0], 5);
}

#[test]
fn p5_newcomer_after_its_equals() {
    let search = after_p1(&[10]);
    assert_place(&search, 1, &[0.0, 1.0], 10);
    assert_place(&search, 2, &[1.0, 1.0], 10);
    assert_place(&search, 3, &[1.0, 0.0], 20);
    assert_counts(&search, [1, 1, 0, 0, 0, 0, 0]);
}

#[test]
fn p6_outside_point() {
    let search = after_p1(&[20]);
    assert_eq!(search.phase, Phase::Contracting(Side::Outside));
    assert_trial(&search, 5, &[0.75, 0.75]);
}

#[test]
fn p7_outside_taken_on_equal() {
    let search = after_p1(&[20, 20]);
    assert_place(&search, 2, &[1.0, 0.0], 20);
    assert_place(&search, 3, &[0.75, 0.75], 20);
    assert_counts(&search, [1, 0, 0, 1, 0, 0, 0]);
}

#[test]
fn p8_outside_shrinks() {
    let mut search = after_p1(&[20, 21]);
    assert_eq!(search.phase, Phase::Shrinking);
    assert_trial(&search, 6, &[0.5, 0.5]);
    tell_all(&mut search, &[40]);
    assert_trial(&search, 7, &[0.0, 0.5]);
    assert_place(&search, 2, &[1.0, 0.0], 20);
    assert_counts(&search, [1, 0, 0, 0, 0, 0, 3]);
}

#[test]
fn p9_inside_taken() {
    let mut search = after_p1(&[30]);
    assert_eq!(search.phase, Phase::Contracting(Side::Inside));
    assert_trial(&search, 5, &[0.25, 0.25]);
    tell_all(&mut search, &[29]);
    assert_place(&search, 3, &[0.25, 0.25], 29);
    assert_counts(&search, [1, 0, 0, 1, 0, 0, 0]);
}

#[test]
fn p10_inside_shrinks_on_equal() {
    let search = after_p1(&[30, 30]);
    assert_eq!(search.phase, Phase::Shrinking);
    assert_trial(&search, 6, &[0.5, 0.5]);
    assert_counts(&search, [1, 0, 0, 0, 0, 0, 2]);
}

#[test]
fn p11_spread_is_strict() {
    let not_met = after(open(2, USUAL_AXIS, Rule::Spread(100), 100), &P1);
    assert_eq!(not_met.phase, Phase::Reflecting);
    let met = after(open(2, USUAL_AXIS, Rule::Spread(101), 100), &P1);
    assert_eq!(met.phase, Phase::Probing(0));
}

#[test]
fn p12_expansion_is_clamped() {
    let axis = Axis {
        hi: 1.25,
        ..USUAL_AXIS
    };
    let search = after(open(2, axis, Rule::Spread(4), 100), &[30, 20, 10, 5]);
    assert_trial(&search, 5, &[1.25, 1.25]);
}
