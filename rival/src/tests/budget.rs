//! Endings by the budget, and what they leave open.

use super::*;
use crate::search::{Cause, Phase};

/// A search of two axes after costs that use up its budget.
fn spent(costs: &[u64]) -> Search {
    let budget = costs.len() as u64;
    let search = after(open(2, USUAL_AXIS, Rule::Spread(4), budget), costs);
    assert_eq!(search.phase, Phase::Ended(Cause::Budget));
    assert_eq!(search.readings, budget);
    search
}

#[test]
fn ends_with_the_build() {
    let search = spent(&[30, 20, 10]);
    assert_counts(&search, [1, 0, 0, 0, 0, 0, 0]);
    assert_place(&search, 3, &[0.0, 0.0], 30);
    assert_best(&search, &[0.0, 1.0], 10);
}

#[test]
fn ends_inside_an_expansion() {
    let search = spent(&[30, 20, 10, 5]);
    assert_counts(&search, [1, 0, 0, 0, 0, 0, 1]);
    assert_best(&search, &[1.0, 1.0], 5);
    assert_place(&search, 1, &[0.0, 1.0], 10);
}

#[test]
fn ends_with_a_taken_point() {
    let search = spent(&[30, 20, 10, 5, 4]);
    assert_counts(&search, [1, 0, 1, 0, 0, 0, 0]);
    assert_place(&search, 1, &[1.5, 1.5], 4);
}

#[test]
fn ends_at_the_start_of_a_shrink() {
    assert_counts(&spent(&[30, 20, 10, 30, 30]), [1, 0, 0, 0, 0, 0, 2]);
}

#[test]
fn ends_inside_a_shrink() {
    let search = spent(&[30, 20, 10, 30, 30, 1]);
    assert_counts(&search, [1, 0, 0, 0, 0, 0, 3]);
    assert_place(&search, 1, &[0.0, 1.0], 10);
    assert_best(&search, &[0.5, 0.5], 1);
}

#[test]
fn ends_with_a_shrink() {
    let search = spent(&[30, 20, 10, 30, 30, 1, 50]);
    assert_counts(&search, [1, 0, 0, 0, 1, 0, 0]);
    assert_place(&search, 1, &[0.5, 0.5], 1);
    assert_place(&search, 3, &[0.0, 0.5], 50);
}

#[test]
fn ends_where_a_round_would_start() {
    assert_counts(&spent(&[7, 7, 7]), [1, 0, 0, 0, 0, 0, 0]);
}

#[test]
fn ends_inside_a_round() {
    assert_counts(&spent(&[7, 7, 7, 7, 7]), [1, 0, 0, 0, 0, 2, 0]);
}

#[test]
fn ends_with_a_lower_probe() {
    let search = spent(&[7, 7, 7, 6]);
    assert_counts(&search, [1, 0, 0, 0, 0, 1, 0]);
    assert_best(&search, &[0.0009765625, 0.0], 6);
    assert_place(&search, 1, &[0.0, 0.0], 7);
}

#[test]
fn ends_inside_a_restart_build() {
    let search = spent(&[7, 7, 7, 6, 9]);
    assert_counts(&search, [1, 0, 0, 0, 0, 1, 1]);
    assert_place(&search, 1, &[0.0, 0.0], 7);
}

#[test]
fn a_reading_that_settles_ends_settled() {
    let search = after(open(1, USUAL_AXIS, Rule::Spread(4), 4), &[7; 4]);
    assert_eq!(search.phase, Phase::Ended(Cause::Settled));
}

#[test]
fn first_build_leaves_the_first_reading_out_of_open() {
    let mut search = example();
    assert_counts(&search, [0; 7]);
    tell_all(&mut search, &[30]);
    assert_counts(&search, [0; 7]);
    tell_all(&mut search, &[20]);
    assert_counts(&search, [0, 0, 0, 0, 0, 0, 1]);
    assert_eq!((search.phase, search.vertices), (Phase::Building, 2));
}

#[test]
fn best_is_the_earliest_of_equals() {
    let mut search = example();
    tell_all(&mut search, &[30]);
    assert_best(&search, &[0.0, 0.0], 30);
    tell_all(&mut search, &[10]);
    assert_best(&search, &[1.0, 0.0], 10);
    tell_all(&mut search, &[10]);
    assert_best(&search, &[1.0, 0.0], 10);
}
