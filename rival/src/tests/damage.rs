//! Refusal 12: each part just past its edge, where every later call is refused, and at its edge, where the call is accepted.

use super::*;
use crate::types::Refusal;

/// A part's two words and its value.
type Written = (u64, u64, u64);

/// The example while it builds, two vertices gathered.
fn building() -> Search {
    after(example(), &[30, 20])
}

/// The example while it reflects.
fn reflecting() -> Search {
    after(example(), &[30, 20, 10])
}

/// The example while it shrinks, two vertices gathered.
fn shrinking() -> Search {
    after(example(), &[30, 20, 10, 30, 30, 9])
}

/// The example while it probes.
fn probing() -> Search {
    after(example(), &[7, 7, 7])
}

/// Asserts that every later call is refused with 12 when a part is written, changes nothing, and is accepted when it is written back.
#[track_caller]
fn assert_refused(mut search: Search, part: Written, back: Written) {
    let (whole, trial) = (search.words(), search.ask());
    assert!(trial.is_ok());
    write(&mut search, part);
    let before = search.words();
    let refused = Refusal::numbered(12);
    assert_eq!(search.ask(), Err(refused));
    assert_eq!(search.best(), Err(refused));
    let number = search.readings.wrapping_add(1);
    assert_eq!(search.tell(number, 1), Err(refused));
    assert_eq!(search.tell(0, u64::MAX), Err(refused));
    assert_eq!(search.words(), before);
    write(&mut search, back);
    assert_eq!((search.words(), search.ask()), (whole, trial));
}

/// Asserts that no call is refused when a part is written.
#[track_caller]
fn assert_accepted(mut search: Search, part: Written) {
    write(&mut search, part);
    assert!(search.ask().is_ok());
    assert!(search.best().is_ok());
    assert_eq!(search.tell(search.readings + 1, 1), Ok(()));
}

#[test]
fn axis_counts() {
    for n in [0, 9, 1 << 32, u64::MAX] {
        assert_refused(reflecting(), (0, 0, n), (0, 0, 2));
        assert_refused(building(), (0, 0, n), (0, 0, 2));
    }
    assert_accepted(reflecting(), (0, 0, 1));
    assert_accepted(building(), (0, 0, 8));
    // Place 4 of the standing simplex is zeros.
    assert_refused(reflecting(), (0, 0, 3), (0, 0, 2));
}

#[test]
fn budgets_and_readings() {
    for budget in [0, 3, 1_000_001, u64::MAX] {
        assert_refused(reflecting(), (1, 0, budget), (1, 0, 100));
    }
    assert_accepted(reflecting(), (1, 0, 4));
    assert_accepted(reflecting(), (1, 0, 1_000_000));
    for readings in [100, 101, u64::MAX] {
        assert_refused(reflecting(), (2, 0, readings), (2, 0, 3));
    }
    assert_accepted(reflecting(), (2, 0, 99));
}

#[test]
fn counts_above_the_budget() {
    for which in 1..=9 {
        let back = u64::from(which == 1);
        assert_refused(reflecting(), (3, which, 101), (3, which, back));
        assert_refused(reflecting(), (3, which, u64::MAX), (3, which, back));
        assert_accepted(reflecting(), (3, which, 100));
    }
}

#[test]
fn thresholds() {
    assert_refused(reflecting(), (8, 1, 4_294_967_296), (8, 1, 4));
    assert_refused(reflecting(), (8, 1, u64::MAX), (8, 1, 4));
    assert_accepted(reflecting(), (8, 1, 4_294_967_295));
    assert_accepted(reflecting(), (8, 1, 0));
    for e in [0, f64::NAN.to_bits(), u64::MAX, (-1.0f64).to_bits()] {
        assert_accepted(reflecting(), (8, 2, e));
        assert_accepted(reflecting(), (8, 3, e));
    }
}

#[test]
fn vertices_of_a_build() {
    assert_refused(building(), (4, 0, 3), (4, 0, 2));
    assert_refused(building(), (4, 0, u64::MAX), (4, 0, 2));
    assert_refused(building(), (4, 0, 0), (4, 0, 2));
    assert_accepted(building(), (4, 0, 1));
    assert_refused(reflecting(), (4, 0, 0), (4, 1, 0));
    assert_refused(reflecting(), (4, 0, 3), (4, 1, 0));
    assert_accepted(reflecting(), (4, 0, 1));
    assert_accepted(reflecting(), (4, 0, 2));
}

/// A build without a vertex is sound only where no reading is told, however many builds are finished.
#[test]
fn a_build_without_a_vertex() {
    for builds in [0, 5] {
        let mut search = example();
        write(&mut search, (3, 1, builds));
        for readings in [1, 2, 99] {
            assert_refused(search.clone(), (2, 0, readings), (2, 0, 0));
        }
        tell_all(&mut search, &[30]);
        assert_counts(&search, [builds, 0, 0, 0, 0, 0, 0]);
        assert_refused(search.clone(), (4, 0, 0), (4, 0, 1));
        write(&mut search, (2, 0, 0));
        write(&mut search, (4, 0, 0));
        tell_all(&mut search, &[20]);
        assert_counts(&search, [builds, 0, 0, 0, 0, 0, 0]);
        tell_all(&mut search, &[25]);
        assert_counts(&search, [builds, 0, 0, 0, 0, 0, 1]);
    }
}

#[test]
fn vertices_of_a_shrink_and_probes() {
    for detail in [0, 3, 9, 10, u64::MAX] {
        assert_refused(shrinking(), (4, 5, detail), (4, 5, 2));
    }
    assert_accepted(shrinking(), (4, 5, 1));
    assert_refused(probing(), (4, 6, 4), (4, 6, 0));
    assert_refused(probing(), (4, 6, u64::MAX), (4, 6, 0));
    assert_accepted(probing(), (4, 6, 3));
}

#[test]
fn standing_vertices_out_of_cost_order() {
    // Costs 10, 20, 30, of three vertices.
    assert_refused(reflecting(), (5, 1, 21), (5, 1, 10));
    assert_refused(reflecting(), (5, 2, 9), (5, 2, 20));
    assert_refused(reflecting(), (5, 3, 19), (5, 3, 30));
    assert_accepted(reflecting(), (5, 1, 20));
    assert_accepted(reflecting(), (5, 2, 10));
    assert_accepted(reflecting(), (5, 3, 20));
    assert_accepted(reflecting(), (5, 4, 1));
    assert_accepted(building(), (5, 1, 1));
}

/// Whether a simplex stands is read off the number at place 1, not off the count of builds.
#[test]
fn standing_vertices_without_a_number() {
    for builds in [0, 1, 5] {
        let mut search = probing();
        write(&mut search, (3, 1, builds));
        write(&mut search, (11, 1, 0));
        // Costs 7, 6, 7: out of order, and not looked at.
        assert_accepted(search.clone(), (5, 2, 6));
        write(&mut search, (5, 2, 6));
        for number in [1, 4, 1 << 32, u64::MAX] {
            assert_refused(search.clone(), (11, 1, number), (11, 1, 0));
        }
        // The numbers of the other places say nothing.
        assert_accepted(search.clone(), (11, 2, 0));
        assert_accepted(search.clone(), (11, 3, u64::MAX));
        write(&mut search, (5, 2, 7));
        assert_accepted(search, (11, 1, 1));
    }
}

/// No number is tested.
#[test]
fn numbers_are_not_tested() {
    for search in [building(), reflecting(), shrinking(), probing()] {
        for number in [0, 1, search.readings, search.readings + 1, 100, u64::MAX] {
            for place in 1..=9 {
                assert_accepted(search.clone(), (11, place, number));
                assert_accepted(search.clone(), (12, place, number));
            }
            assert_accepted(search.clone(), (13, 0, number));
        }
    }
}

#[test]
fn gathered_vertices_out_of_cost_order() {
    // Costs 9, 10, of two vertices.
    assert_refused(shrinking(), (6, 1, 11), (6, 1, 9));
    assert_refused(shrinking(), (6, 2, 8), (6, 2, 10));
    assert_accepted(shrinking(), (6, 1, 10));
    assert_accepted(shrinking(), (6, 2, 9));
    assert_accepted(shrinking(), (6, 3, 1));
    assert_refused(building(), (6, 1, 31), (6, 1, 20));
    assert_accepted(reflecting(), (6, 1, 7));
}

#[test]
fn held_costs_too_high() {
    let high = 16_777_216;
    for search in [building(), reflecting(), shrinking(), probing()] {
        for place in 1..=9 {
            let at = place as usize - 1;
            let back = search.standing.costs[at];
            assert_refused(search.clone(), (5, place, high), (5, place, back));
            let back = search.gathered.costs[at];
            assert_refused(search.clone(), (6, place, high), (6, place, back));
        }
        let best = search.best.cost;
        assert_refused(search.clone(), (7, 0, high), (7, 0, best));
        assert_accepted(search, (7, 0, high - 1));
    }
    assert_accepted(reflecting(), (5, 3, high - 1));
    assert_accepted(reflecting(), (5, 9, high - 1));
    assert_accepted(reflecting(), (6, 1, high - 1));
}

#[test]
fn costs_of_r() {
    for (phase, told) in [(2, 5), (3, 20), (4, 30)] {
        let search = after(reflecting(), &[told]);
        for fr in [16_777_216, u64::MAX] {
            assert_refused(search.clone(), (6, 1, fr), (6, 1, told));
        }
        assert_accepted(search.clone(), (6, 1, 16_777_215));
        // No value is read with these phases.
        assert_accepted(search.clone(), (4, phase, u64::MAX));
        assert_eq!(search.words()[49..51], [phase, 0]);
    }
    assert_accepted(reflecting(), (4, 1, u64::MAX));
}

#[test]
fn an_ended_search_is_not_tested() {
    let mut search = reflecting();
    for cause in [7, 8] {
        write(&mut search, (4, cause, 5));
        write(&mut search, (0, 0, u64::MAX));
        write(&mut search, (5, 1, u64::MAX));
        assert_eq!(search.ask(), Err(Refusal::numbered(8)));
        assert_eq!(search.tell(4, 1), Err(Refusal::numbered(8)));
        assert_best(&search, &[0.0, 1.0], 10);
    }
}
