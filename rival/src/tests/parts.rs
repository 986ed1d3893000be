//! Made-up searches: parts written by hand, and what the calls make of them.

use super::*;
use crate::search::{Cause, Phase, Side};
use crate::simplex::Simplex;
use crate::types::{Refusal, Vertex};

/// The example after P1 and further costs.
fn after_p1(costs: &[u64]) -> Search {
    after(after(example(), &[30, 20, 10]), costs)
}

/// Three axes whose third does not hold 0.
fn three_axes() -> Search {
    let mut given = axes(USUAL_AXIS);
    given[2] = Axis {
        lo: 2.0,
        hi: 10.0,
        start: 5.0,
        step: 1.0,
        ring: false,
    };
    let rule = Some(Rule::Spread(1));
    Search::open(NelderMead, 3, &given, rule, Coefficients::USUAL, 100).expect("opening")
}

#[test]
fn words_that_name_no_part() {
    let mut search = after_p1(&[]);
    let before = format!("{search:?}");
    for (part, most) in [(0, 0), (1, 0), (2, 0), (4, 11), (7, 0), (13, 0), (15, 0)] {
        assert!(!search.write_part(part, most + 1, 0));
        assert!(!search.write_part(part, u64::MAX, 0));
    }
    let counted = [
        (3, 9),
        (5, 9),
        (6, 9),
        (8, 3),
        (9, 8),
        (10, 8),
        (11, 9),
        (12, 9),
        (14, 8),
        (16, 9),
    ];
    for (part, most) in counted.into_iter().chain([(17, 0), (u64::MAX, 0)]) {
        assert!(!search.write_part(part, 0, 0));
        assert!(!search.write_part(part, most + 1, 0));
        assert!(!search.write_part(part, (1 << 32) + 1, 0));
    }
    assert_eq!(format!("{search:?}"), before);
}

#[test]
fn every_part_is_shown() {
    let mut search = Search::closed();
    let mut expected = vec![0; 268];
    expected[2] = 1;
    expected[49] = 8;
    assert_eq!(search.words(), expected);
    let parts = [(0, 0, 1), (1, 0, 8), (2, 0, 51), (7, 0, 69), (13, 0, 70)];
    let counts = (1..=9).map(|which| (3, which, 51 + which));
    let standing = (1..=9).flat_map(|p| [(5, p, 77 + 10 * p), (11, p, 78 + 10 * p)]);
    let gathered = (1..=9).flat_map(|p| [(6, p, 167 + 10 * p), (12, p, 168 + 10 * p)]);
    let low = (1..=8).map(|axis| (9, axis, 4 + 5 * axis));
    let high = (1..=8).map(|axis| (10, axis, 5 + 5 * axis));
    let stops = (1..=9).map(|p| (16, p, 258 + p));
    let all = parts.into_iter().chain(counts).chain(standing);
    let all = all.chain(gathered).chain(stops);
    for (part, which, at) in all.chain(low).chain(high) {
        let value = 1_000_000_007 * (at + 1);
        write(&mut search, (part, which, value));
        expected[at as usize] = value;
        assert_eq!(search.words(), expected, "part {part}, which {which}");
    }
}

#[test]
fn rings_are_shown() {
    let mut search = after_p1(&[]);
    let before = search.words();
    for axis in 1..=8 {
        let at = 8 + 5 * axis as usize;
        for value in [2, 256, (1 << 32) + 1, u64::MAX] {
            assert!(!search.write_part(14, axis, value));
            assert_eq!(search.words(), before);
        }
        write(&mut search, (14, axis, 1));
        let mut expected = before.clone();
        expected[at] = 1;
        assert_eq!(search.words(), expected);
        write(&mut search, (14, axis, 0));
        assert_eq!(search.words(), before);
    }
}

#[test]
fn phases_and_rules_are_shown() {
    let mut search = after_p1(&[]);
    for phase in 0..=11 {
        write(&mut search, (4, phase, u64::MAX));
        let detail = [0, u64::MAX][usize::from([0, 5, 6, 10, 11].contains(&phase))];
        assert_eq!(search.words()[49..51], [phase, detail]);
    }
    for rule in 1..=3 {
        // as a float this is negative and is no NaN
        write(&mut search, (8, rule, 0xbff0_0000_0000_0001));
        assert_eq!(search.words()[2..4], [rule, 0xbff0_0000_0000_0001]);
    }
}

#[test]
fn moves_without_a_build_read_zeros() {
    let mut search = example();
    write(&mut search, (4, 1, 0));
    assert_trial(&search, 1, &[0.0, 0.0]);
    assert_eq!(search.best(), Err(Refusal::numbered(11)));
    // Costs 0, 0, 0: a dark r goes inside, and its equal shrinks.
    tell_all(&mut search, &[5, 0]);
    assert_eq!((search.phase, search.vertices), (Phase::Shrinking, 1));
    assert_counts(&search, [0, 0, 0, 0, 0, 0, 2]);
    tell_all(&mut search, &[1, 2]);
    assert_counts(&search, [0, 0, 0, 0, 1, 0, 0]);
    assert_eq!(search.standing.costs[..4], [0, 1, 2, 0]);
}

#[test]
fn r_is_found_again_on_other_axes() {
    // Places (0,1) and (1,0): on axis 1 alone r is −1, and the outside point −1/2.
    let mut search = after_p1(&[20]);
    assert_eq!(search.phase, Phase::Contracting(Side::Outside));
    write(&mut search, (0, 0, 1));
    assert_trial(&search, 5, &[-0.5]);
    tell_all(&mut search, &[19]);
    assert_eq!(search.standing.costs, [10, 19, 0, 0, 0, 0, 0, 0, 0]);
    assert_eq!(bits(search.standing.point(0)), bits(&padded(&[0.0, 1.0])));
    assert_eq!(bits(search.standing.point(1)), bits(&padded(&[-0.5])));
    assert_eq!(bits(search.standing.point(2)), bits(&padded(&[])));
}

#[test]
fn a_shrink_keeps_coordinates_past_n() {
    let mut search = after_p1(&[30]);
    write(&mut search, (0, 0, 1));
    tell_all(&mut search, &[20]);
    assert_eq!(search.phase, Phase::Shrinking);
    assert_eq!(bits(search.gathered.point(0)), bits(&padded(&[0.0, 1.0])));
    assert_trial(&search, 6, &[0.5]);
    tell_all(&mut search, &[8]);
    assert_eq!(search.gathered, Simplex::EMPTY);
    assert_eq!(bits(search.standing.point(0)), bits(&padded(&[0.5])));
    assert_eq!(bits(search.standing.point(1)), bits(&padded(&[0.0, 1.0])));
}

#[test]
fn moved_sums_the_places_that_were_not_asked() {
    // (1,0) to (0.5,0.5) and (0,0) to (0,0.5): 0.75 < E·2, though only the last is asked.
    for (e, phase) in [(0.375, Phase::Reflecting), (0.376, Phase::Probing(0))] {
        let mut search = after_p1(&[]);
        write(&mut search, (8, 2, f64::to_bits(e)));
        write(&mut search, (4, 5, 2));
        tell_all(&mut search, &[8]);
        assert_eq!(search.phase, phase);
        assert_eq!(search.standing.costs[..4], [0, 0, 8, 0]);
    }
}

#[test]
fn trials_are_clamped_past_the_axes_of_a_restart() {
    let mut search = after(three_axes(), &[7; 4]);
    write(&mut search, (0, 0, 2));
    tell_all(&mut search, &[6]);
    let d = 0.0009765625;
    assert_eq!(bits(&search.center), bits(&padded(&[d])));
    write(&mut search, (0, 0, 3));
    assert_trial(&search, 6, &[1.0 + d, 0.0, 2.0]);
    write(&mut search, (6, 1, 0));
    write(&mut search, (4, 0, 3));
    assert_trial(&search, 6, &[d, 0.0, 2.0]);
    write(&mut search, (4, 6, 0));
    assert_trial(&search, 6, &[d + d, 0.0, 2.0]);
    write(&mut search, (0, 0, 2));
    assert_trial(&search, 6, &[d + d]);
}

#[test]
fn best_shows_n_coordinates() {
    let mut search = after(three_axes(), &[7, 8, 9, 9]);
    assert_best(&search, &[0.0, 0.0, 5.0], 7);
    write(&mut search, (0, 0, 2));
    assert_best(&search, &[], 7);
    write(&mut search, (4, 7, 0));
    for (n, shown) in [(0, 0.0), (2, 0.0), (3, 5.0), (u64::MAX, 5.0)] {
        write(&mut search, (0, 0, n));
        assert_best(&search, &[0.0, 0.0, shown], 7);
    }
}

#[test]
fn a_first_probe_that_is_not_lower() {
    let mut search = after(example(), &[7; 3]);
    write(&mut search, (2, 0, 0));
    assert_trial(&search, 1, &[0.0009765625, 0.0]);
    tell_all(&mut search, &[9]);
    // It is the best reading now, and the round goes on around it.
    assert_best(&search, &[0.0009765625], 9);
    assert_eq!(search.phase, Phase::Probing(1));
    assert_trial(&search, 2, &[0.0, 0.0]);
    assert_counts(&search, [1, 0, 0, 0, 0, 1, 0]);
}

#[test]
fn probes_leave_open_as_it_is() {
    let mut search = after(example(), &[7; 3]);
    write(&mut search, (3, 7, 9));
    write(&mut search, (7, 0, 6));
    tell_all(&mut search, &[6]);
    assert_counts(&search, [1, 0, 0, 0, 0, 1, 9]);
    tell_all(&mut search, &[5]);
    assert_eq!((search.phase, search.vertices), (Phase::Building, 1));
    assert_counts(&search, [1, 0, 0, 0, 0, 2, 9]);
}

#[test]
fn gathered_places_past_the_newcomer_are_zeros() {
    let mut search = after(example(), &[30, 20]);
    write(&mut search, (6, 9, 4));
    write(&mut search, (12, 8, 4));
    write(&mut search, (2, 0, 0));
    write(&mut search, (4, 0, 0));
    tell_all(&mut search, &[25]);
    assert_counts(&search, [0, 0, 0, 0, 0, 0, 1]);
    let mut alone = Simplex::EMPTY;
    alone.enter(
        0,
        &Vertex {
            cost: 25,
            number: 1,
            ..Vertex::ZERO
        },
    );
    assert_eq!((search.vertices, &search.gathered), (1, &alone));
}

#[test]
fn a_count_past_the_budget_stops_the_next_call() {
    let mut search = after_p1(&[]);
    write(&mut search, (3, 2, 100));
    tell_all(&mut search, &[15]);
    assert_counts(&search, [1, 101, 0, 0, 0, 0, 0]);
    assert_eq!(search.ask(), Err(Refusal::numbered(12)));
    write(&mut search, (1, 0, 101));
    assert_trial(&search, 5, &[0.0, 2.0]);
}

#[test]
fn the_last_reading_of_a_written_budget() {
    let mut search = after_p1(&[]);
    write(&mut search, (1, 0, 4));
    tell_all(&mut search, &[15]);
    assert_eq!(search.phase, Phase::Ended(Cause::Budget));
    write(&mut search, (4, 1, 0));
    assert_eq!(search.ask(), Err(Refusal::numbered(12)));
    write(&mut search, (2, 0, 3));
    assert_trial(&search, 4, &[0.0, 2.0]);
}

#[test]
fn a_closed_search_can_be_led() {
    let mut search = Search::closed();
    for part in [(4, 0, 0), (0, 0, 1), (1, 0, 3)] {
        assert!(search.ask().is_err());
        write(&mut search, part);
    }
    assert_trial(&search, 1, &[]);
    tell_all(&mut search, &[5, 4]);
    assert_eq!(search.phase, Phase::Reflecting);
    assert_counts(&search, [1, 0, 0, 0, 0, 0, 0]);
    assert_eq!(search.standing.costs[..3], [4, 5, 0]);
}
