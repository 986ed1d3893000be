//! Made-up searches in the midst of an iteration: r as it is held at the first gathered place, and fr read there.

use super::*;
use crate::search::{Phase, Side};
use crate::simplex::Simplex;
use crate::types::Vertex;

/// The example after P1 and the cost of r, with parts written.
fn written(fr: u64, parts: &[(u64, u64, u64)]) -> Search {
    let mut search = after(example(), &[30, 20, 10, fr]);
    for &part in parts {
        write(&mut search, part);
    }
    search
}

/// The example after P1, in another phase though no r is told.
fn entered(phase: u64) -> Search {
    let mut search = after(example(), &[30, 20, 10]);
    write(&mut search, (4, phase, 5));
    search
}

/// Asserts a vertex with its number.
#[track_caller]
fn assert_vertex(vertex: Vertex, coordinates: &[f64], cost: u64, number: u64) {
    assert_eq!(bits(&vertex.point), bits(&padded(coordinates)));
    assert_eq!((vertex.cost, vertex.number), (cost, number));
}

#[test]
fn an_expansion_reads_fr_where_r_is_held() {
    for (fe, vertex) in [(6, (&[1.5, 1.5], 6, 5)), (7, (&[1.0, 1.0], 7, 4))] {
        let mut search = written(5, &[(6, 1, 7)]);
        tell_all(&mut search, &[fe]);
        let (point, cost, number) = vertex;
        assert_vertex(search.standing.vertex(0), point, cost, number);
        assert_counts(&search, [1, 0, 1, 0, 0, 0, 0]);
    }
}

#[test]
fn a_taken_r_is_the_vertex_as_it_stands() {
    let mut search = written(5, &[(6, 1, 15), (12, 1, 77), (6, 2, 1), (12, 2, 1)]);
    tell_all(&mut search, &[15]);
    // At place 2 now, since 15 is above 10.
    assert_vertex(search.standing.vertex(1), &[1.0, 1.0], 15, 77);
    assert_eq!(search.standing.numbers[..4], [3, 77, 2, 0]);
    assert_eq!(search.gathered, Simplex::EMPTY);
    assert_eq!(search.best().expect("best").number, 4);
}

#[test]
fn a_taken_r_is_not_found_again() {
    // hi is 1/2 on axis 1 from here on: e goes from (1/2,1), and (1,1) is taken.
    let mut search = written(5, &[(10, 1, 0.5f64.to_bits())]);
    assert_trial(&search, 5, &[0.5, 1.5]);
    tell_all(&mut search, &[5]);
    assert_vertex(search.standing.vertex(0), &[1.0, 1.0], 5, 4);
    // On axis 1 alone e is −2, from r at −1; (1,1) is taken, past n too.
    let mut search = written(5, &[(0, 0, 1)]);
    assert_trial(&search, 5, &[-2.0]);
    tell_all(&mut search, &[5]);
    assert_vertex(search.standing.vertex(0), &[1.0, 1.0], 5, 4);
    assert_vertex(search.standing.vertex(1), &[0.0, 1.0], 10, 3);
    assert_vertex(search.standing.vertex(2), &[], 0, 0);
}

#[test]
fn moved_goes_by_the_r_that_is_taken() {
    // From (0,0) to (1,1): 2 < E·2, though reflecting would now ask (1/2,1).
    for (e, phase) in [
        (1.0, Phase::Reflecting),
        (1.0f64.next_up(), Phase::Probing(0)),
    ] {
        let parts = [(10, 1, 0.5f64.to_bits()), (8, 2, e.to_bits())];
        let mut search = written(5, &parts);
        tell_all(&mut search, &[5]);
        assert_eq!(search.phase, phase);
    }
}

#[test]
fn an_expansion_that_holds_no_r() {
    let mut search = entered(2);
    assert_trial(&search, 4, &[1.5, 1.5]);
    tell_all(&mut search, &[0]);
    // fr is 0: the blank vertex is taken, and goes first.
    assert_vertex(search.standing.vertex(0), &[], 0, 0);
    assert_eq!(search.standing.numbers[..4], [0, 3, 2, 0]);
    assert_counts(&search, [1, 0, 1, 0, 0, 0, 0]);
    assert_eq!(search.best().expect("best").number, 4);
}

#[test]
fn an_expansion_amid_a_build() {
    // (1,0) of the build is held where r would be; the standing places are blank.
    let mut search = after(example(), &[30, 20]);
    write(&mut search, (4, 2, 0));
    assert_trial(&search, 3, &[]);
    tell_all(&mut search, &[20]);
    assert_vertex(search.standing.vertex(0), &[], 0, 0);
    assert_vertex(search.standing.vertex(2), &[1.0, 0.0], 20, 2);
    assert_eq!(search.gathered, Simplex::EMPTY);
}

#[test]
fn an_outside_point_reads_fr_where_r_is_held() {
    for (fc, phase) in [(12, Phase::Reflecting), (13, Phase::Shrinking)] {
        let mut search = written(20, &[(6, 1, 12), (12, 1, 77)]);
        assert_trial(&search, 5, &[0.75, 0.75]);
        tell_all(&mut search, &[fc]);
        assert_eq!(search.phase, phase);
    }
    let mut search = written(20, &[(6, 1, 12)]);
    tell_all(&mut search, &[12]);
    assert_vertex(search.standing.vertex(1), &[0.75, 0.75], 12, 5);
    let mut search = written(20, &[(6, 1, 12), (12, 1, 77), (12, 9, 6)]);
    tell_all(&mut search, &[13]);
    assert_eq!(search.gathered.numbers, [3, 0, 0, 0, 0, 0, 0, 0, 0]);
    assert_eq!(search.gathered.costs, [10, 0, 0, 0, 0, 0, 0, 0, 0]);
}

#[test]
fn an_outside_point_starts_where_reflecting_would_ask() {
    // c is (1/2,1/2), r (1,1) is held, and (1/2,1) is what reflecting would ask now.
    let mut search = written(20, &[(10, 1, 0.5f64.to_bits())]);
    assert_trial(&search, 5, &[0.5, 0.75]);
    tell_all(&mut search, &[20]);
    assert_vertex(search.standing.vertex(2), &[0.5, 0.75], 20, 5);
}

#[test]
fn an_inside_point_reads_no_fr() {
    for fr in [0, 29, 31, 16_777_215] {
        for (fc, phase) in [(29, Phase::Reflecting), (30, Phase::Shrinking)] {
            let mut search = written(30, &[(6, 1, fr), (12, 1, 0)]);
            tell_all(&mut search, &[fc]);
            assert_eq!(search.phase, phase);
        }
    }
}

#[test]
fn r_is_held_alone() {
    for (fr, phase) in [
        (5, Phase::Expanding),
        (20, Phase::Contracting(Side::Outside)),
        (30, Phase::Contracting(Side::Inside)),
    ] {
        let mut search = after(example(), &[30, 20, 10]);
        for part in [(6, 1, 3), (12, 2, 4), (6, 9, 5), (12, 9, 6)] {
            write(&mut search, part);
        }
        tell_all(&mut search, &[fr]);
        assert_eq!((search.phase, search.vertices), (phase, 0));
        let mut alone = Simplex::EMPTY;
        let r = Vertex {
            point: padded(&[1.0, 1.0]),
            cost: fr,
            number: 4,
        };
        alone.enter(0, &r);
        assert_eq!(search.gathered, alone);
    }
}

#[test]
fn the_second_row_leaves_nothing_held() {
    let mut search = after(example(), &[30, 20, 10]);
    write(&mut search, (6, 9, 5));
    write(&mut search, (12, 8, 5));
    tell_all(&mut search, &[15]);
    assert_eq!(search.gathered, Simplex::EMPTY);
    assert_eq!(search.standing.numbers[..4], [3, 4, 2, 0]);
}
