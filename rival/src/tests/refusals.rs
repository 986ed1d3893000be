//! Every row of document 01's refusal table but 12: edges, order and axis.

use super::*;
use crate::search::{Cause, Phase};
use crate::types::Refusal;

const NAN: f64 = f64::NAN;
const EDGE: f64 = 1_048_576.0;

/// The arguments of an opening.
#[derive(Clone)]
struct Given {
    n: u64,
    axes: [Axis; 8],
    rule: Option<Rule>,
    coefficients: Coefficients,
    budget: u64,
}

/// The arguments of the examples.
fn given() -> Given {
    Given {
        n: 2,
        axes: axes(USUAL_AXIS),
        rule: None,
        coefficients: Coefficients::USUAL,
        budget: 100,
    }
}

/// The refusal's number and axis of an opening changed from the examples, (0, 0) if accepted.
fn refusal(change: impl Fn(&mut Given)) -> (u64, u64) {
    let mut g = given();
    change(&mut g);
    match Search::open(NelderMead, g.n, &g.axes, g.rule, g.coefficients, g.budget) {
        Ok(_) => (0, 0),
        Err(refusal) => (refusal.number, refusal.axis),
    }
}

/// The refusal of an opening whose second axis record is this.
fn second(lo: f64, hi: f64, start: f64, step: f64) -> (u64, u64) {
    refusal(|g| {
        g.axes[1] = Axis {
            lo,
            hi,
            start,
            step,
            ring: false,
        }
    })
}

/// The refusal of an opening with coefficients.
fn coefficients(alpha: f64, chi: f64, beta: f64, sigma: f64) -> u64 {
    let coefficients = Coefficients {
        alpha,
        chi,
        beta,
        sigma,
    };
    refusal(|g| g.coefficients = coefficients).0
}

#[test]
fn number_1_axis_count() {
    for n in 1..=8 {
        assert_eq!(refusal(|g| g.n = n), (0, 0));
    }
    for n in [0, 9, u64::MAX] {
        assert_eq!(refusal(|g| g.n = n), (1, 0));
    }
}

#[test]
fn number_2_axis_numbers() {
    assert_eq!(second(-EDGE, EDGE, EDGE, 1.0), (0, 0));
    assert_eq!(second(-EDGE, EDGE, -EDGE, EDGE), (0, 0));
    let past = f64::from_bits(EDGE.to_bits() + 1);
    for bad in [past, -past, NAN, f64::INFINITY, f64::NEG_INFINITY] {
        assert_eq!(second(bad, 8.0, 0.0, 1.0), (2, 2));
        assert_eq!(second(-8.0, bad, 0.0, 1.0), (2, 2));
        assert_eq!(second(-8.0, 8.0, bad, 1.0), (2, 2));
        assert_eq!(second(-8.0, 8.0, 0.0, bad), (2, 2));
    }
}

#[test]
fn number_3_axis_order() {
    assert_eq!(second(8.0, -8.0, 0.0, 1.0), (3, 2));
    assert_eq!(second(0.0, 0.0, 0.0, 1.0), (3, 2));
    assert_eq!(second(-8.0, 8.0, -8.5, 1.0), (3, 2));
    assert_eq!(second(-8.0, 8.0, 8.5, 1.0), (3, 2));
    assert_eq!(second(-8.0, 8.0, 0.0, 0.0), (3, 2));
    assert_eq!(second(-8.0, 8.0, 0.0, -0.0), (3, 2));
    assert_eq!(second(-8.0, 8.0, 0.0, -1.0), (3, 2));
    assert_eq!(second(-8.0, 8.0, -8.0, 1.0), (0, 0));
    assert_eq!(second(-8.0, 8.0, 8.0, 1.0), (0, 0));
}

#[test]
fn number_4_axis_step() {
    // 2^-53 is lost beside 1, twice it is not; 8 is half of 16.
    let unit = f64::EPSILON;
    assert_eq!(second(-8.0, 8.0, 1.0, unit / 2.0), (4, 2));
    assert_eq!(second(-8.0, 8.0, 1.0, unit), (0, 0));
    assert_eq!(second(-8.0, 8.0, 0.0, 8.0), (0, 0));
    let past = f64::from_bits(8.0f64.to_bits() + 1);
    assert_eq!(second(-8.0, 8.0, 0.0, past), (4, 2));
    assert_eq!(second(-8.0, 8.0, 0.0, f64::from_bits(1)), (0, 0));
}

#[test]
fn numbers_2_to_4_go_axis_by_axis() {
    let bad = |g: &mut Given| {
        g.n = 3;
        g.axes[1].step = 9.0;
        g.axes[2].lo = NAN;
        g.coefficients.alpha = 0.0;
    };
    assert_eq!(refusal(bad), (4, 2));
    let worse = |g: &mut Given| {
        bad(g);
        g.axes[0].hi = -9.0;
    };
    assert_eq!(refusal(worse), (3, 1));
    assert_eq!(second(NAN, 8.0, 9.0, -1.0), (2, 2));
    assert_eq!(second(-8.0, 8.0, 9.0, 9.0), (3, 2));
}

#[test]
fn records_past_n_are_not_read() {
    let search = {
        let mut g = given();
        g.axes[2].lo = NAN;
        g.axes[7].step = -1.0;
        Search::open(NelderMead, g.n, &g.axes, g.rule, g.coefficients, g.budget).expect("opening")
    };
    assert_trial(&search, 1, &[0.0, 0.0]);
    assert_eq!(
        refusal(|g| {
            g.n = 3;
            g.axes[2].lo = NAN;
        }),
        (2, 3)
    );
}

#[test]
fn number_5_coefficients() {
    assert_eq!(coefficients(4.0, 8.0, 0.5, 0.5), 0);
    assert_eq!(
        coefficients(1.0, f64::from_bits(0x3ff0000000000001), 0.5, 0.5),
        0
    );
    assert_eq!(
        coefficients(f64::from_bits(1), 2.0, f64::from_bits(1), 0.999),
        0
    );
    for alpha in [0.0, -1.0, NAN, 2.0, 4.5] {
        assert_eq!(coefficients(alpha, 2.0, 0.5, 0.5), 5);
    }
    assert_eq!(
        coefficients(f64::from_bits(4.0f64.to_bits() + 1), 8.0, 0.5, 0.5),
        5
    );
    for chi in [1.0, 0.5, NAN, f64::from_bits(8.0f64.to_bits() + 1)] {
        assert_eq!(coefficients(0.25, chi, 0.5, 0.5), 5);
    }
    for bad in [0.0, 1.0, -0.5, NAN] {
        assert_eq!(coefficients(1.0, 2.0, bad, 0.5), 5);
        assert_eq!(coefficients(1.0, 2.0, 0.5, bad), 5);
    }
}

#[test]
fn number_6_rule() {
    for e in [1, 4_294_967_295] {
        assert_eq!(refusal(|g| g.rule = Some(Rule::Spread(e))), (0, 0));
    }
    for e in [0, 4_294_967_296, u64::MAX] {
        assert_eq!(refusal(|g| g.rule = Some(Rule::Spread(e))), (6, 0));
    }
    for e in [f64::from_bits(1), EDGE] {
        assert_eq!(refusal(|g| g.rule = Some(Rule::Moved(e))), (0, 0));
        assert_eq!(refusal(|g| g.rule = Some(Rule::Size(e))), (0, 0));
    }
    for e in [0.0, -0.0, -1.0, NAN, f64::from_bits(EDGE.to_bits() + 1)] {
        assert_eq!(refusal(|g| g.rule = Some(Rule::Moved(e))), (6, 0));
        assert_eq!(refusal(|g| g.rule = Some(Rule::Size(e))), (6, 0));
    }
}

#[test]
fn number_7_budget() {
    for budget in [3, 1_000_000] {
        assert_eq!(refusal(|g| g.budget = budget), (0, 0));
    }
    for budget in [0, 2, 1_000_001, u64::MAX] {
        assert_eq!(refusal(|g| g.budget = budget), (7, 0));
    }
}

#[test]
fn openings_are_checked_in_table_order() {
    let mut g = given();
    g.budget = 0;
    g.rule = Some(Rule::Spread(0));
    g.coefficients.sigma = 1.0;
    g.axes[0].step = 0.0;
    g.n = 0;
    let number = |g: &Given| refusal(|other| *other = g.clone());
    assert_eq!(number(&g), (1, 0));
    g.n = 2;
    assert_eq!(number(&g), (3, 1));
    g.axes[0].step = 1.0;
    assert_eq!(number(&g), (5, 0));
    g.coefficients.sigma = 0.5;
    assert_eq!(number(&g), (6, 0));
    g.rule = Some(Rule::Spread(1));
    assert_eq!(number(&g), (7, 0));
}

#[test]
fn the_closed_search_is_ended_and_all_zero() {
    let mut closed = Search::closed();
    assert_eq!(closed.phase, Phase::Ended(Cause::Budget));
    assert_eq!((closed.n, closed.budget, closed.readings), (0, 0, 0));
    assert_eq!(closed.rule, Rule::Spread(0));
    assert_counts(&closed, [0; 7]);
    assert!(closed.has_ended());
    assert_eq!(closed.ask(), Err(Refusal::numbered(8)));
    assert_eq!(closed.tell(1, 0), Err(Refusal::numbered(8)));
    assert_eq!(closed.best(), Err(Refusal::numbered(11)));
}

#[test]
fn number_8_ended_comes_first() {
    let mut search = after(open(1, USUAL_AXIS, Rule::Spread(4), 2), &[9, 8]);
    assert_eq!(search.ask(), Err(Refusal::numbered(8)));
    assert_eq!(search.tell(3, 0), Err(Refusal::numbered(8)));
    assert_eq!(search.tell(7, u64::MAX), Err(Refusal::numbered(8)));
    assert_best(&search, &[1.0], 8);
}

#[test]
fn number_10_comes_before_9() {
    let mut search = example();
    for number in [0, 2, u64::MAX] {
        assert_eq!(search.tell(number, u64::MAX), Err(Refusal::numbered(10)));
        assert_eq!(search.tell(number, 5), Err(Refusal::numbered(10)));
    }
    assert_eq!(search.tell(1, 16_777_216), Err(Refusal::numbered(9)));
    assert_eq!(search.tell(1, u64::MAX), Err(Refusal::numbered(9)));
    assert_eq!(search.tell(1, 16_777_215), Ok(()));
    assert_eq!(search.tell(1, 5), Err(Refusal::numbered(10)));
    assert_eq!(search.tell(2, 0), Ok(()));
}

#[test]
fn number_11_no_reading_yet() {
    let mut search = example();
    assert_eq!(search.best(), Err(Refusal::numbered(11)));
    tell_all(&mut search, &[0]);
    assert_best(&search, &[0.0, 0.0], 0);
}

#[test]
fn refused_calls_and_queries_change_nothing() {
    let mut search = after(example(), &[30, 20, 10, 5]);
    let before = format!("{search:?}");
    assert!(search.tell(4, 1).is_err());
    assert!(search.tell(5, 16_777_216).is_err());
    assert!(search.ask().is_ok());
    assert!(search.best().is_ok());
    assert_eq!(format!("{search:?}"), before);
}
