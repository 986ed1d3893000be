//! Made-up multidirectional searches: what docs/REPLAY.md fixes of them.

use super::*;
use crate::search::{Cause, Phase, Side};
use crate::simplex::Simplex;

/// The base at (0, 0) with cost 9, companions at (1, 0) and (0, 1), and parts written.
fn written(parts: &[(u64, u64, u64)]) -> Search {
    let mut search = around(2, &[9]);
    parts.iter().for_each(|&part| write(&mut search, part));
    search
}

#[test]
fn the_phase_decides_whichever_the_method_is() {
    // In Nelder-Mead a reflection that is lower still swaps; the next phase is Nelder-Mead's, and the order is held again.
    let mut search = written(&[(15, 0, 0), (5, 1, 0), (7, 0, 0)]);
    write(&mut search, (4, 10, 2));
    assert_trial(&search, 2, &[0.0, -1.0]);
    write(&mut search, (11, 1, 0));
    write(&mut search, (5, 1, 9));
    tell_all(&mut search, &[0]);
    assert_stands(&search, 0, &[0.0, -1.0], [0, 2, 0]);
    assert_stands(&search, 1, &[], [0; 3]);
    assert_stands(&search, 2, &[0.0, 0.0], [9, 0, 0]);
    assert_eq!(search.phase, Phase::Reflecting);
    assert_iterations(&search, 1, 1, 0);
    // c is that of places 1 and 2, (0, −1/2), and w is (0, 0).
    assert_trial(&search, 3, &[0.0, -1.0]);
}

#[test]
fn a_first_base_in_nelder_mead() {
    let mut search = written(&[(15, 0, 0), (11, 1, 0), (4, 9, 0)]);
    assert_trial(&search, 2, &[0.0, 0.0]);
    tell_all(&mut search, &[0]);
    assert_eq!(search.phase, Phase::Reflecting);
    assert_stands(&search, 0, &[0.0, 0.0], [0, 2, 0]);
    assert_stands(&search, 1, &[1.0, 0.0], [0; 3]);
    assert_iterations(&search, 0, 0, 0);
}

#[test]
fn pieces_of_nelder_mead_end_in_a_reflection_of_this_method() {
    // Places (0,0), (1,0), (0,1) with costs 9, 0, 0: c is (1/2, 0), r (1, −1).
    let mut search = written(&[(4, 1, 0), (11, 2, 5), (5, 1, 1)]);
    assert_trial(&search, 2, &[1.0, -1.0]);
    tell_all(&mut search, &[0]);
    assert_eq!(search.phase, Phase::Expanding);
    write(&mut search, (4, 4, 0));
    assert_eq!(search.phase, Phase::Contracting(Side::Inside));
    let mut built = written(&[(4, 0, 2), (6, 1, 1), (6, 2, 2)]);
    tell_all(&mut built, &[3]);
    assert_eq!(built.phase, Phase::Reflection(1));
    assert_eq!(built.counts.builds, 1);
}

#[test]
fn a_lower_probe_restarts_as_the_method_does() {
    let mut search = written(&[(4, 6, 3)]);
    tell_all(&mut search, &[8]);
    let d = 0.0009765625;
    assert_stands(&search, 0, &[0.0, -d], [8, 2, 0]);
    assert_eq!(search.phase, Phase::Reflection(1));
    let mut search = written(&[(4, 6, 3), (15, 0, 0), (11, 1, 0)]);
    tell_all(&mut search, &[8]);
    assert_eq!((search.phase, search.vertices), (Phase::Building, 1));
    assert_stands(&search, 0, &[0.0, 0.0], [9, 0, 0]);
}

#[test]
fn gathered_reflections_stand_at_their_places() {
    let mut search = around(3, &[9]);
    for part in [(6, 1, 7), (12, 1, 6), (6, 3, 5), (6, 9, 4), (4, 10, 2)] {
        write(&mut search, part);
    }
    let kept = after(search.clone(), &[9]);
    assert_eq!(kept.gathered.costs, [7, 9, 0, 0, 0, 0, 0, 0, 0]);
    assert_eq!(kept.gathered.numbers[..3], [6, 2, 0]);
    let swapped = after(search, &[8]);
    assert_stands(&swapped, 1, &[], [7, 6, 0]);
    assert_eq!(swapped.gathered, Simplex::EMPTY);
}

#[test]
fn unread_is_each_whose_number_is_0() {
    // Costs do not tell it, and below the companion that is told none is looked for.
    let mut search = written(&[(5, 2, 6), (11, 3, 5), (4, 10, 2)]);
    tell_all(&mut search, &[9]);
    assert_eq!(search.phase, Phase::Companion(1));
    tell_all(&mut search, &[9]);
    assert_stands(&search, 1, &[0.5, 0.0], [0; 3]);
    let mut search = written(&[(4, 11, 2)]);
    tell_all(&mut search, &[9]);
    assert_stands(&search, 1, &[0.5, 0.0], [0; 3]);
    assert_stands(&search, 2, &[0.0, 0.5], [0; 3]);
    assert_eq!(search.phase, Phase::Reflection(1));
}

#[test]
fn stops_change_where_the_companions_do() {
    let all = (1..=9).map(|place| (16, place, 30 + place));
    let parts: Vec<_> = all.chain([(4, 11, 1)]).collect();
    let search = written(&parts);
    assert_stops(&search, 32, &[1.0, 0.0]);
    let read = after(search.clone(), &[9]);
    assert_eq!(read.stops, [31, 32, 33, 34, 35, 36, 37, 38, 39]);
    assert_stops(&read, 33, &[0.0, 1.0]);
    let swapped = after(search.clone(), &[8]);
    assert_eq!(swapped.stops, [0, 0, 33, 0, 0, 0, 0, 0, 0]);
    let halved = after(read, &[9]);
    assert_eq!(halved.stops, [0; 9]);
    let mut reflected = search;
    write(&mut reflected, (4, 10, 2));
    assert_eq!(after(reflected, &[8]).stops, [0; 9]);
}

#[test]
fn places_past_the_companions_are_zeros_where_they_change() {
    let parts = [(5, 4, 3), (11, 9, 3)];
    let untouched = after(written(&parts), &[9]);
    assert_eq!(untouched.standing.costs[3], 3);
    let mut asked = written(&parts);
    write(&mut asked, (4, 11, 1));
    let read = after(asked.clone(), &[9]);
    assert_eq!((read.standing.costs[3], read.standing.numbers[8]), (0, 0));
    let swapped = after(asked, &[8]);
    assert_eq!(swapped.standing.numbers[3..], [0; 6]);
}

/// A vertex keeps its coordinates past n; a companion that is made has zeros there.
#[test]
fn coordinates_past_n() {
    let mut search = around(3, &[9, 9, 8]);
    write(&mut search, (0, 0, 2));
    // Companion 3 is place 4 and no longer one; the base has 0 past n and companion 1 too.
    tell_all(&mut search, &[7]);
    assert_stands(&search, 3, &[], [0; 3]);
    let mut given = axes(USUAL_AXIS);
    given[2].start = 5.0;
    let mut search = after(multidirectional(3, &given, 0.01, 100), &[9]);
    write(&mut search, (0, 0, 2));
    tell_all(&mut search, &[8]);
    assert_stands(&search, 0, &[-1.0, 0.0], [8, 2, 0]);
    assert_stands(&search, 1, &[0.0, 0.0, 5.0], [9, 1, 0]);
    assert_stands(&search, 2, &[0.0, -1.0], [0; 3]);
}

#[test]
fn a_base_with_readings_told() {
    let mut search = written(&[(4, 9, 0), (3, 7, 5), (9, 1, 0.5f64.to_bits())]);
    assert_stops(&search, 1, &[0.5, 0.0]);
    tell_all(&mut search, &[10]);
    assert_stands(&search, 0, &[0.5, 0.0], [10, 2, 0]);
    assert_stands(&search, 1, &[1.5, 0.0], [0; 3]);
    assert_eq!(bits(&search.center), bits(&padded(&[0.5])));
    assert_eq!(search.counts.open, 5);
    assert_eq!(search.phase, Phase::Reflection(1));
    // The end of an iteration sets open to 0.
    tell_all(&mut search, &[10, 9]);
    assert_eq!(search.counts.open, 0);
}

#[test]
fn a_closed_search_can_be_led_from_a_base() {
    let mut search = Search::closed();
    let e = 1f64.to_bits();
    for part in [(15, 0, 1), (8, 3, e), (0, 0, 1), (1, 0, 3), (4, 9, 0)] {
        write(&mut search, part);
    }
    tell_all(&mut search, &[5, 5, 5]);
    assert_eq!(search.phase, Phase::Ended(Cause::Budget));
    assert_iterations(&search, 1, 2, 0);
}
