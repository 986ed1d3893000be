//! The number of the reading that gave each cost: in calls, held by r, and in searches that no calls made.

use super::*;
use crate::search::{Cause, Phase, Side};
use crate::simplex::Simplex;
use crate::types::{Refusal, Vertex};

/// The example after P1 and further costs.
fn after_p1(costs: &[u64]) -> Search {
    after(after(example(), &[30, 20, 10]), costs)
}

/// A vertex.
fn vertex(coordinates: &[f64], cost: u64, number: u64) -> Vertex {
    Vertex {
        point: padded(coordinates),
        cost,
        number,
    }
}

/// Asserts all places of a simplex: these vertices, then blank ones.
#[track_caller]
fn assert_vertices(simplex: &Simplex, vertices: &[Vertex]) {
    for index in 0..9 {
        let wanted = vertices.get(index).copied().unwrap_or(Vertex::ZERO);
        assert_eq!(simplex.vertex(index), wanted, "place {}", index + 1);
    }
}

/// Asserts the numbers of the standing vertices, and of the best.
#[track_caller]
fn assert_numbers(search: &Search, standing: &[u64], best: u64) {
    let vertices = standing.len();
    assert_eq!(search.standing.numbers[..vertices], *standing);
    assert_eq!(search.standing.numbers[vertices..], [0; 9][vertices..]);
    assert_eq!(search.best().expect("best").number, best);
}

#[test]
fn no_number_without_a_reading() {
    for search in [Search::closed(), example()] {
        assert_eq!(search.best.number, 0);
        assert_vertices(&search.standing, &[]);
        assert_vertices(&search.gathered, &[]);
    }
    let refused = Search::open(
        NelderMead,
        0,
        &axes(USUAL_AXIS),
        None,
        Coefficients::USUAL,
        9,
    );
    assert_eq!(refused.err(), Some(Refusal::numbered(1)));
}

#[test]
fn a_build_numbers_its_vertices() {
    let search = after(example(), &[30, 20]);
    assert_vertices(&search.standing, &[]);
    let gathered = [vertex(&[1.0, 0.0], 20, 2), vertex(&[], 30, 1)];
    assert_vertices(&search.gathered, &gathered);
    let search = after_p1(&[]);
    assert_numbers(&search, &[3, 2, 1], 3);
    assert_vertices(&search.gathered, &[]);
    // Equal vertices stand in the order told.
    let search = after(example(), &[20, 10, 10]);
    assert_numbers(&search, &[2, 3, 1], 2);
}

#[test]
fn r_is_held_while_more_is_asked() {
    for (told, phase) in [
        (9, Phase::Expanding),
        (20, Phase::Contracting(Side::Outside)),
        (30, Phase::Contracting(Side::Inside)),
    ] {
        let search = after_p1(&[told]);
        assert_eq!(search.phase, phase);
        assert_vertices(&search.gathered, &[vertex(&[1.0, 1.0], told, 4)]);
        assert_numbers(&search, &[3, 2, 1], if told == 9 { 4 } else { 3 });
    }
}

#[test]
fn r_is_taken_after_e_with_its_own_number() {
    for fe in [5, 6, 16_777_215] {
        let search = after_p1(&[5, fe]);
        assert_eq!(search.standing.vertex(0), vertex(&[1.0, 1.0], 5, 4));
        assert_numbers(&search, &[4, 3, 2], 4);
        assert_vertices(&search.gathered, &[]);
    }
}

#[test]
fn e_is_taken_with_its_number() {
    let search = after_p1(&[5, 4]);
    assert_eq!(search.standing.vertex(0), vertex(&[1.5, 1.5], 4, 5));
    assert_numbers(&search, &[5, 3, 2], 5);
}

#[test]
fn r_is_taken_by_the_second_row() {
    assert_numbers(&after_p1(&[10]), &[3, 4, 2], 3);
    assert_numbers(&after_p1(&[19]), &[3, 4, 2], 3);
}

#[test]
fn contractions_are_taken_with_their_number() {
    assert_numbers(&after_p1(&[20, 20]), &[3, 2, 5], 3);
    assert_numbers(&after_p1(&[25, 9]), &[5, 3, 2], 5);
    assert_numbers(&after_p1(&[30, 29]), &[3, 2, 5], 3);
    assert_numbers(&after_p1(&[30, 15]), &[3, 5, 2], 3);
}

#[test]
fn a_shrink_keeps_the_number_of_x1() {
    let x1 = vertex(&[0.0, 1.0], 10, 3);
    let mut search = after_p1(&[20, 21]);
    assert_vertices(&search.gathered, &[x1]);
    tell_all(&mut search, &[40]);
    assert_vertices(&search.gathered, &[x1, vertex(&[0.5, 0.5], 40, 6)]);
    assert_numbers(&search, &[3, 2, 1], 3);
    tell_all(&mut search, &[10]);
    assert_numbers(&search, &[3, 7, 6], 3);
    // Lower ones go before it.
    assert_numbers(&after_p1(&[30, 30, 5, 4]), &[7, 6, 3], 7);
}

#[test]
fn a_restart_keeps_the_number_of_its_point() {
    let d = 0.0009765625;
    let mut search = after(example(), &[7, 7, 7, 7, 3]);
    assert_vertices(&search.gathered, &[vertex(&[-d], 3, 5)]);
    assert_numbers(&search, &[1, 2, 3], 5);
    tell_all(&mut search, &[2]);
    let gathered = [vertex(&[1.0 - d], 2, 6), vertex(&[-d], 3, 5)];
    assert_vertices(&search.gathered, &gathered);
    tell_all(&mut search, &[3]);
    assert_numbers(&search, &[6, 5, 7], 6);
}

#[test]
fn best_keeps_the_number_of_the_earliest() {
    let mut search = after(example(), &[10]);
    for (cost, best) in [(11, 1), (10, 1), (10, 1), (9, 5), (9, 5), (10, 5)] {
        tell_all(&mut search, &[cost]);
        assert_eq!(search.best().expect("best").number, best);
    }
    // An equal probe, too.
    let mut search = after(example(), &[7, 7, 7]);
    for _ in 0..4 {
        tell_all(&mut search, &[7]);
        assert_eq!(search.best().expect("best").number, 1);
    }
}

#[test]
fn the_end_leaves_the_numbers() {
    let spent = |costs: &[u64]| {
        let budget = costs.len() as u64;
        let search = after(open(2, USUAL_AXIS, Rule::Spread(4), budget), costs);
        assert_eq!(search.phase, Phase::Ended(Cause::Budget));
        search
    };
    let search = spent(&[30, 20, 10, 5]);
    assert_numbers(&search, &[3, 2, 1], 4);
    assert_vertices(&search.gathered, &[vertex(&[1.0, 1.0], 5, 4)]);
    let search = spent(&[30, 20, 10, 5, 5]);
    assert_numbers(&search, &[4, 3, 2], 4);
    assert_vertices(&search.gathered, &[]);
    let search = spent(&[7, 7, 7, 7, 3]);
    assert_eq!(search.gathered.numbers[..2], [5, 0]);
}

#[test]
fn a_told_reading_is_numbered_by_readings() {
    let mut search = after_p1(&[]);
    write(&mut search, (2, 0, 41));
    tell_all(&mut search, &[5]);
    assert_eq!(search.gathered.numbers[0], 42);
    assert_numbers(&search, &[3, 2, 1], 42);
    tell_all(&mut search, &[5]);
    assert_numbers(&search, &[42, 3, 2], 42);
}

#[test]
fn written_numbers_go_with_their_vertices() {
    let mut search = after_p1(&[]);
    for (place, number) in [(1, 100), (2, u64::MAX), (3, 1 << 63), (9, 7)] {
        write(&mut search, (11, place, number));
    }
    write(&mut search, (13, 0, 1 << 40));
    assert_eq!(search.best().expect("best").number, 1 << 40);
    // (1,1) replaces w, and past the new vertices there are zeros.
    tell_all(&mut search, &[15]);
    assert_numbers(&search, &[100, 4, u64::MAX], 1 << 40);
    tell_all(&mut search, &[20, 20]);
    assert_eq!(search.phase, Phase::Shrinking);
    assert_eq!(search.gathered.numbers, [100, 0, 0, 0, 0, 0, 0, 0, 0]);
}
