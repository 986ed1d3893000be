//! Tests of the engine, with values worked by hand from documents 01 and 02.

mod any_parts;
mod bases;
mod budget;
mod companion_damage;
mod companion_parts;
mod companions;
mod damage;
mod equation;
mod examples;
mod held;
mod methods;
mod moves;
mod numbers;
mod parts;
mod probing;
mod refusals;
mod ring_refusals;
mod ring_searches;
mod rings;
mod stopping;
mod stops;

use crate::search::Search;
use crate::types::Method::{Multidirectional, NelderMead};
use crate::types::{Axis, Coefficients, Point, Rule, ORIGIN};

/// (hi − lo)/2 rounds up and the step is as long: both start + step > hi and start − step < lo (docs/DECISIONS.md, decision 2).
fn narrow_axis() -> Axis {
    Axis {
        lo: f64::from_bits(0xbfec_efed_cc22_af58),
        hi: f64::from_bits(0x3ff7_af02_08d6_af57),
        start: f64::from_bits(0x3fd2_6e16_458a_af56),
        step: f64::from_bits(0x3ff3_137c_7774_0382),
        ring: false,
    }
}

/// The axis of the examples.
const USUAL_AXIS: Axis = Axis {
    lo: -8.0,
    hi: 8.0,
    start: 0.0,
    step: 1.0,
    ring: false,
};

/// Eight equal axis records.
fn axes(axis: Axis) -> [Axis; 8] {
    [axis; 8]
}

/// Opens with the usual coefficients.
fn open(n: u64, axis: Axis, rule: Rule, budget: u64) -> Search {
    Search::open(
        NelderMead,
        n,
        &axes(axis),
        Some(rule),
        Coefficients::USUAL,
        budget,
    )
    .expect("opening")
}

/// The search of the examples with two axes.
fn example() -> Search {
    open(2, USUAL_AXIS, Rule::Spread(4), 100)
}

/// Tells costs in order, each with its reading number.
fn tell_all(search: &mut Search, costs: &[u64]) {
    for &cost in costs {
        let trial = search.ask().expect("ask");
        search.tell(trial.number, cost).expect("tell");
    }
}

/// A search after costs.
fn after(mut search: Search, costs: &[u64]) -> Search {
    tell_all(&mut search, costs);
    search
}

/// The next of a fixed run of made-up numbers.
fn next(seed: &mut u64) -> u64 {
    *seed = seed
        .wrapping_mul(6_364_136_223_846_793_005)
        .wrapping_add(1_442_695_040_888_963_407);
    *seed >> 33
}

/// Writes a part that is in the table, by its two words and its value.
#[track_caller]
fn write(search: &mut Search, (part, which, value): (u64, u64, u64)) {
    assert!(search.write_part(part, which, value));
}

/// The coordinates with zeros past them.
fn padded(coordinates: &[f64]) -> Point {
    let mut point = ORIGIN;
    point[..coordinates.len()].copy_from_slice(coordinates);
    point
}

/// The bits of coordinates.
fn bits(coordinates: &[f64]) -> Vec<u64> {
    coordinates.iter().map(|x| x.to_bits()).collect()
}

/// Asserts the trial bit for bit, zeros past n among them.
#[track_caller]
fn assert_trial(search: &Search, number: u64, coordinates: &[f64]) {
    let trial = search.ask().expect("ask");
    assert_eq!(trial.number, number);
    assert_eq!(bits(&trial.point), bits(&padded(coordinates)));
}

/// Asserts how many axes the trial has at their stops, and its coordinates.
#[track_caller]
fn assert_stops(search: &Search, stops: u64, coordinates: &[f64]) {
    let trial = search.ask().expect("ask");
    assert_eq!(bits(&trial.point), bits(&padded(coordinates)));
    assert_eq!(trial.stops, stops);
}

/// Asserts a vertex of the standing simplex, by its place from 1.
#[track_caller]
fn assert_place(search: &Search, place: usize, coordinates: &[f64], cost: u64) {
    assert!(place <= search.n + 1);
    let index = place - 1;
    assert_eq!(
        bits(search.standing.point(index)),
        bits(&padded(coordinates))
    );
    assert_eq!(search.standing.costs[index], cost);
}

/// Asserts the best reading bit for bit.
#[track_caller]
fn assert_best(search: &Search, coordinates: &[f64], cost: u64) {
    let best = search.best().expect("best");
    assert_eq!(bits(&best.point), bits(&padded(coordinates)));
    assert_eq!(best.cost, cost);
}

/// Asserts builds, reflections, expansions, contractions, shrinks, probes and open; the multidirectional counts stay 0.
#[track_caller]
fn assert_counts(search: &Search, counts: [u64; 7]) {
    let [first @ .., iterations, readings] = search.counts.in_order();
    assert_eq!(first, counts);
    assert_eq!((iterations, readings), (0, 0));
}

/// A multidirectional search with the usual coefficients and rule size.
fn multidirectional(n: u64, given: &[Axis; 8], e: f64, budget: u64) -> Search {
    let rule = Some(Rule::Size(e));
    let usual = Coefficients::USUAL;
    Search::open(Multidirectional, n, given, rule, usual, budget).expect("opening")
}

/// The multidirectional search of the examples' axes, its rule not met but by the least companions.
fn around(n: u64, costs: &[u64]) -> Search {
    let axes = axes(USUAL_AXIS);
    after(multidirectional(n, &axes, f64::from_bits(1), 100), costs)
}

/// Asserts the base's, or a companion's, point, cost, reading's number and stops, by its index.
#[track_caller]
fn assert_stands(search: &Search, index: usize, coordinates: &[f64], told: [u64; 3]) {
    let vertex = search.standing.vertex(index);
    assert_eq!(bits(&vertex.point), bits(&padded(coordinates)));
    assert_eq!([vertex.cost, vertex.number, search.stops[index]], told);
}

/// Asserts finished iterations, the readings in iterations, and probes.
#[track_caller]
fn assert_iterations(search: &Search, iterations: u64, readings: u64, probes: u64) {
    let counts = [0, 0, 0, 0, 0, probes, 0, iterations, readings];
    assert_eq!(search.counts.in_order(), counts);
}
