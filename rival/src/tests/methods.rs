//! Refusal 14 and its place, and what an opening of each method begins with.

use super::*;
use crate::search::Phase;
use crate::types::Refusal;

/// The number of the refusal of a multidirectional opening, 0 if it is accepted.
fn refusal(rule: Option<Rule>, alpha: f64, budget: u64) -> u64 {
    let given = Coefficients {
        alpha,
        ..Coefficients::USUAL
    };
    let opened = Search::open(Multidirectional, 2, &axes(USUAL_AXIS), rule, given, budget);
    opened.err().map_or(0, |refused| {
        assert_eq!(refused, Refusal::numbered(refused.number));
        refused.number
    })
}

#[test]
fn number_14_another_rule_or_none() {
    for rule in [None, Some(Rule::Spread(4)), Some(Rule::Moved(0.5))] {
        assert_eq!(refusal(rule, 1.0, 100), 14);
    }
    assert_eq!(refusal(Some(Rule::Size(0.5)), 1.0, 100), 0);
    for rule in [None, Some(Rule::Spread(4)), Some(Rule::Moved(0.5))] {
        let usual = Coefficients::USUAL;
        assert!(Search::open(NelderMead, 2, &axes(USUAL_AXIS), rule, usual, 100).is_ok());
    }
}

#[test]
fn number_14_stands_between_6_and_7() {
    assert_eq!(refusal(Some(Rule::Spread(0)), 0.0, 0), 5);
    assert_eq!(refusal(Some(Rule::Spread(0)), 1.0, 0), 6);
    assert_eq!(refusal(Some(Rule::Moved(-1.0)), 1.0, 0), 6);
    assert_eq!(refusal(Some(Rule::Size(0.0)), 1.0, 0), 6);
    assert_eq!(refusal(Some(Rule::Spread(1)), 1.0, 0), 14);
    assert_eq!(refusal(None, 1.0, 2), 14);
    assert_eq!(refusal(Some(Rule::Size(1.0)), 1.0, 2), 7);
    assert_eq!(refusal(Some(Rule::Size(1.0)), 1.0, 1_000_001), 7);
    assert_eq!(refusal(Some(Rule::Size(1.0)), 1.0, 3), 0);
}

/// "Naming another rule, or none, with this method": the axes' refusals, 13 among them, come before it.
#[test]
fn axes_are_refused_before_14() {
    let mut given = axes(USUAL_AXIS);
    given[1].start = 8.0;
    given[1].ring = true;
    let usual = Coefficients::USUAL;
    let refused = Search::open(Multidirectional, 2, &given, None, usual, 0);
    assert_eq!(
        refused.err(),
        Some(Refusal {
            number: 13,
            axis: 2
        })
    );
}

#[test]
fn what_an_opening_begins_with() {
    let usual = Coefficients::USUAL;
    let opened = |method| {
        let rule = Some(Rule::Size(0.5));
        Search::open(method, 2, &axes(USUAL_AXIS), rule, usual, 100).expect("opening")
    };
    let phases = [NelderMead, Multidirectional].map(|method| opened(method).phase);
    assert_eq!(phases, [Phase::Building, Phase::Base]);
    let [one, other] = [opened(NelderMead).words(), opened(Multidirectional).words()];
    let differ: Vec<usize> = (0..one.len()).filter(|&i| one[i] != other[i]).collect();
    // The method, and the phase.
    assert_eq!(differ, [0, 49]);
    assert_eq!(Search::closed().method, NelderMead);
}
