//! Refusal 12 in the multidirectional search: each cause just past its edge, and at it.

use super::*;
use crate::types::Refusal;

/// Two axes after the base, the first a ring where wished; companions at (1, 0) and (0, 1).
fn reflecting(ring: bool) -> Search {
    let mut given = axes(USUAL_AXIS);
    given[0].ring = ring;
    after(multidirectional(2, &given, 0.01, 100), &[9])
}

/// The same while companion 1 is asked.
fn asked() -> Search {
    after(reflecting(false), &[9, 9])
}

/// Whether calls are refused with 12 after parts are written; all three are, or none.
fn refused(mut search: Search, parts: &[(u64, u64, u64)]) -> bool {
    parts.iter().for_each(|&part| write(&mut search, part));
    let twelve = Refusal::numbered(12);
    let number = search.readings.wrapping_add(1);
    let calls = [
        search.ask().err() == Some(twelve),
        search.best().err() == Some(twelve),
        search.tell(number, 5) == Err(twelve),
    ];
    assert!(calls == [true; 3] || calls == [false; 3]);
    calls[0]
}

#[test]
fn another_rule() {
    let e = 0.5f64.to_bits();
    for search in [around(2, &[]), reflecting(false), asked()] {
        assert!(refused(search.clone(), &[(8, 1, 4)]));
        assert!(refused(search.clone(), &[(8, 2, e)]));
        assert!(!refused(search.clone(), &[(8, 3, e)]));
        assert!(!refused(search.clone(), &[(8, 3, u64::MAX)]));
        // Nelder-Mead has any.
        assert!(!refused(
            search.clone(),
            &[(15, 0, 0), (5, 1, 0), (8, 2, e)]
        ));
    }
    // An ended search is not looked at.
    let mut ended = reflecting(false);
    write(&mut ended, (4, 8, 0));
    write(&mut ended, (8, 1, 4));
    assert_eq!(ended.ask(), Err(Refusal::numbered(8)));
}

#[test]
fn companions_past_a_limit() {
    let limit = |part, axis, limit: f64| (part, axis, limit.to_bits());
    // Companion 1 has 1 on axis 1 and companion 2 has 0 there; the base, at 0, is not looked at.
    for search in [reflecting(false), asked()] {
        assert!(!refused(search.clone(), &[limit(10, 1, 1.0)]));
        assert!(refused(search.clone(), &[limit(10, 1, 1f64.next_down())]));
        assert!(!refused(search.clone(), &[limit(9, 1, 0.0)]));
        assert!(!refused(search.clone(), &[limit(9, 1, -0.0)]));
        assert!(refused(search.clone(), &[limit(9, 1, f64::from_bits(1))]));
        assert!(refused(search.clone(), &[limit(9, 2, f64::from_bits(1))]));
        assert!(refused(search.clone(), &[limit(9, 2, f64::NAN)]));
        assert!(refused(search.clone(), &[limit(10, 2, f64::NAN)]));
        // Past n nothing is looked at.
        assert!(!refused(search.clone(), &[limit(10, 3, -1.0)]));
    }
    assert!(!refused(around(2, &[]), &[limit(10, 1, -1.0)]));
}

#[test]
fn companions_past_a_ring() {
    let hi = |hi: f64| (10, 1, hi.to_bits());
    assert!(!refused(reflecting(true), &[hi(1f64.next_up())]));
    assert!(refused(reflecting(true), &[hi(1.0)]));
    assert!(refused(
        reflecting(true),
        &[(9, 1, f64::from_bits(1).to_bits())]
    ));
    assert!(refused(reflecting(false), &[hi(1.0), (14, 1, 1)]));
    assert!(!refused(reflecting(true), &[hi(1.0), (14, 1, 0)]));
}

/// The base alone may be outside: it is not made again.
#[test]
fn the_base_is_not_looked_at() {
    let mut search = around(1, &[9]);
    write(&mut search, (9, 1, 1f64.to_bits()));
    assert_trial(&search, 2, &[1.0]);
    write(&mut search, (9, 1, 1f64.next_up().to_bits()));
    assert_eq!(search.ask(), Err(Refusal::numbered(12)));
    // Places past n + 1 are not looked at either: their zeros are below lo.
    let mut given = axes(USUAL_AXIS);
    (given[0].lo, given[0].start) = (0.5, 2.0);
    let search = after(multidirectional(1, &given, 0.01, 100), &[9]);
    assert_trial(&search, 2, &[1.0]);
}

#[test]
fn numbers_of_reflections_and_companions() {
    for search in [reflecting(false), asked()] {
        for i in [0, 3, u64::MAX, 1 << 32] {
            assert!(refused(search.clone(), &[(4, 10, i)]));
            assert!(refused(search.clone(), &[(4, 11, i)]));
        }
        for i in [1, 2] {
            assert!(!refused(search.clone(), &[(4, 10, i)]));
            assert!(!refused(search.clone(), &[(4, 11, i)]));
            assert!(refused(search.clone(), &[(4, 11, i), (11, i + 1, 4)]));
            assert!(!refused(search.clone(), &[(4, 10, i), (11, i + 1, 4)]));
        }
    }
    // The base has no detail, and companions need not stand.
    assert!(!refused(reflecting(false), &[(4, 9, 7)]));
    assert!(!refused(around(2, &[]), &[(4, 9, 7)]));
}

#[test]
fn counts_and_costs() {
    for which in 1..=9 {
        assert!(refused(reflecting(false), &[(3, which, 101)]));
        assert!(!refused(reflecting(false), &[(3, which, 100)]));
    }
    for place in 1..=9 {
        for part in [5, 6] {
            assert!(refused(reflecting(false), &[(part, place, 16_777_216)]));
            assert!(!refused(reflecting(false), &[(part, place, 16_777_215)]));
        }
    }
    assert!(refused(reflecting(false), &[(7, 0, 16_777_216)]));
}

/// No order is held in this method, whatever the phase; in Nelder-Mead it is.
#[test]
fn no_order() {
    let unordered = [(5, 1, 9), (5, 2, 4), (11, 1, 7), (6, 1, 8), (6, 2, 3)];
    for phase in [(4, 10, 1), (4, 11, 1), (4, 1, 0), (4, 0, 2), (4, 6, 0)] {
        let parts: Vec<_> = unordered.into_iter().chain([phase]).collect();
        let nelder_mead: Vec<_> = parts.iter().copied().chain([(15, 0, 0)]).collect();
        let mut search = reflecting(false);
        parts.iter().for_each(|&part| write(&mut search, part));
        assert!(search.ask().is_ok());
        assert!(refused(reflecting(false), &nelder_mead));
    }
}
