//! The three stopping rules at their edges.

use super::*;
use crate::search::Phase;

/// The next float above a positive one.
fn above(x: f64) -> f64 {
    f64::from_bits(x.to_bits() + 1)
}

/// The next float below a positive one.
fn below(x: f64) -> f64 {
    f64::from_bits(x.to_bits() - 1)
}

/// The phase after costs, with n axes like those of the examples.
fn phase(n: u64, rule: Rule, costs: &[u64]) -> Phase {
    after(open(n, USUAL_AXIS, rule, 100), costs).phase
}

#[test]
fn unnamed_rule_is_spread_4() {
    // With one axis and costs 0 and f: f² < 4·1·2.
    let opened = Search::open(
        NelderMead,
        1,
        &axes(USUAL_AXIS),
        None,
        Coefficients::USUAL,
        100,
    );
    let opened = opened.expect("opening");
    assert_eq!(after(opened.clone(), &[0, 2]).phase, Phase::Probing(0));
    assert_eq!(after(opened, &[0, 3]).phase, Phase::Reflecting);
}

#[test]
fn spread_is_exact_for_large_numbers() {
    // f² < 4,294,967,295·2 = 8,589,934,590, between 92,681² and 92,682².
    let rule = Rule::Spread(4_294_967_295);
    assert_eq!(phase(1, rule, &[0, 92_681]), Phase::Probing(0));
    assert_eq!(phase(1, rule, &[0, 92_682]), Phase::Reflecting);
    assert_eq!(phase(1, rule, &[0, 16_777_215]), Phase::Reflecting);
}

#[test]
fn spread_is_tested_after_an_iteration() {
    // Costs 10, 10, 20 after P5: 3·600 − 1600 = 200 against 6·E.
    let costs = [30, 20, 10, 10];
    assert_eq!(phase(2, Rule::Spread(33), &costs), Phase::Reflecting);
    assert_eq!(phase(2, Rule::Spread(34), &costs), Phase::Probing(0));
}

#[test]
fn moved_is_never_met_at_a_build() {
    let rule = Rule::Moved(1_048_576.0);
    assert_eq!(phase(2, rule, &[7, 7, 7]), Phase::Reflecting);
}

#[test]
fn moved_counts_the_taken_point() {
    // (0,0) is replaced by (1,1): 2 < E·2.
    let costs = [30, 20, 10, 10];
    assert_eq!(phase(2, Rule::Moved(1.0), &costs), Phase::Reflecting);
    assert_eq!(phase(2, Rule::Moved(above(1.0)), &costs), Phase::Probing(0));
}

#[test]
fn moved_counts_all_shrunk_vertices() {
    // (1,0) to (0.5,0.5) and (0,0) to (0,0.5): 0.75 < E·2, whatever their new places.
    let costs = [30, 20, 10, 20, 21, 9, 8];
    assert_eq!(phase(2, Rule::Moved(0.375), &costs), Phase::Reflecting);
    assert_eq!(
        phase(2, Rule::Moved(above(0.375)), &costs),
        Phase::Probing(0)
    );
}

#[test]
fn moved_starts_again_for_a_second_shrink() {
    // The second shrink halves again: 0.0625 + 0.0625 + 0.0625 = 0.1875 < E·2.
    let costs = [30, 20, 10, 30, 30, 20, 30, 30, 30, 20, 30];
    assert_eq!(phase(2, Rule::Moved(0.09375), &costs), Phase::Reflecting);
    assert_eq!(
        phase(2, Rule::Moved(above(0.09375)), &costs),
        Phase::Probing(0)
    );
}

#[test]
fn size_is_met_on_equality() {
    // x1 is 0, so D is 1; the other vertex is 1 away.
    assert_eq!(phase(1, Rule::Size(1.0), &[10, 20]), Phase::Probing(0));
    let rule = Rule::Size(below(1.0));
    assert_eq!(phase(1, rule, &[10, 20]), Phase::Reflecting);
}

#[test]
fn size_grows_with_the_best_point() {
    // x1 is 4, so D is 16 and 1 ≤ (E·E)·16 from E = 1/4.
    let axis = Axis {
        start: 4.0,
        ..USUAL_AXIS
    };
    let met = open(1, axis, Rule::Size(0.25), 100);
    assert_eq!(after(met, &[10, 20]).phase, Phase::Probing(0));
    let not_met = open(1, axis, Rule::Size(below(0.25)), 100);
    assert_eq!(after(not_met, &[10, 20]).phase, Phase::Reflecting);
}

#[test]
fn size_looks_at_every_vertex() {
    // x1 = (0,1) has q = 1, so D is 1; (1,0) is √2 away, (0,0) is 1 away.
    let costs = [30, 20, 10];
    assert_eq!(phase(2, Rule::Size(1.25), &costs), Phase::Reflecting);
    assert_eq!(phase(2, Rule::Size(1.5), &costs), Phase::Probing(0));
}
