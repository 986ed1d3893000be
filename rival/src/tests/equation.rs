//! Long runs on made-up costs: no refusal 12, limits kept, every reading found in a count, and every vertex found among the readings.

use super::*;
use crate::search::Phase;
use crate::simplex::Simplex;
use crate::types::{Rule, Vertex, MAX_COST};

/// A made-up cost, of a kind that the seed chose.
fn made_up(kind: u64, point: &Point, seed: &mut u64) -> u64 {
    let far = |center: f64| point.iter().map(|x| (x - center).abs()).sum::<f64>();
    match kind {
        0 => next(seed) % 6,
        1 => (far(1.5) * 100.0) as u64,
        2 if next(seed).is_multiple_of(4) => MAX_COST,
        2 => (far(-3.25) * 1000.0) as u64,
        _ => next(seed) % (MAX_COST + 1),
    }
}

/// The readings that the counts account for.
fn accounted(search: &Search) -> u64 {
    let n = search.n as u64;
    let [builds, reflections, expansions, contractions, shrinks, probes, open, ..] =
        search.counts.in_order();
    let iterations = reflections + 2 * expansions + 2 * contractions + (n + 2) * shrinks;
    1 + n * builds + iterations + probes + open
}

/// Asserts that the first so many vertices are the readings of their numbers, and that the other places are blank.
#[track_caller]
fn assert_read(simplex: &Simplex, vertices: usize, told: &[Vertex]) {
    for index in 0..9 {
        let vertex = simplex.vertex(index);
        let wanted = match index < vertices {
            true => told[vertex.number as usize - 1],
            false => Vertex::ZERO,
        };
        assert_eq!(bits(&vertex.point), bits(&wanted.point));
        assert_eq!((vertex.cost, vertex.number), (wanted.cost, wanted.number));
    }
}

/// The vertices that are gathered.
fn gathered(search: &Search) -> usize {
    match search.phase {
        Phase::Building | Phase::Shrinking => search.vertices,
        Phase::Expanding | Phase::Contracting(_) => 1,
        Phase::Ended(_) => 9 - search.gathered.numbers.iter().filter(|k| **k == 0).count(),
        _ => 0,
    }
}

/// Asserts what holds after every tell of a list.
#[track_caller]
fn assert_holds(search: &Search, told: &[Vertex]) {
    assert_eq!(accounted(search), search.readings);
    assert!(search.ask().is_ok() || search.has_ended());
    let stands = search.counts.builds > 0;
    assert_read(&search.standing, usize::from(stands) * (search.n + 1), told);
    assert_read(&search.gathered, gathered(search), told);
    let least = told.iter().min_by_key(|reading| reading.cost);
    assert_eq!(Some(&search.best().expect("best")), least);
}

/// Runs one search to its end.
fn run(n: u64, rule: Rule, kind: u64, seed: &mut u64) -> Search {
    let mut search = open(n, USUAL_AXIS, rule, 2000);
    let mut told = Vec::new();
    while !search.has_ended() {
        let trial = search.ask().expect("ask");
        let n = n as usize;
        assert!(trial.point[..n].iter().all(|x| (-8.0..=8.0).contains(x)));
        assert_eq!(bits(&trial.point[n..]), vec![0; 8 - n]);
        let cost = made_up(kind, &trial.point, seed);
        told.push(Vertex {
            point: trial.point,
            cost,
            number: trial.number,
        });
        search.tell(trial.number, cost).expect("tell");
        assert_holds(&search, &told);
    }
    search
}

#[test]
fn every_reading_is_counted() {
    let mut seed = 1;
    let mut totals = [0; 9];
    for n in 1..=8 {
        for kind in 0..4 {
            for rule in [Rule::Spread(9), Rule::Moved(1e-5), Rule::Size(1e-3)] {
                let counts = run(n, rule, kind, &mut seed).counts.in_order();
                totals = std::array::from_fn(|i| totals[i] + counts[i]);
            }
        }
    }
    assert!(totals[0] > 96, "no restart");
    assert!(totals[..6].iter().all(|&total| total > 50), "{totals:?}");
}
