//! The multidirectional search: which point is read next, and what stands after it, worked by hand from document 02.

use super::*;
use crate::search::{Cause, Phase};
use crate::simplex::Simplex;

/// The probe distance of a step of 1.
const D: f64 = 0.0009765625;

#[test]
fn only_the_base_is_read_first() {
    let search = around(2, &[]);
    assert_eq!(search.phase, Phase::Base);
    assert_trial(&search, 1, &[0.0, 0.0]);
    assert_stands(&search, 0, &[], [0; 3]);
    let search = around(2, &[30]);
    assert_stands(&search, 0, &[0.0, 0.0], [30, 1, 0]);
    assert_stands(&search, 1, &[1.0, 0.0], [0; 3]);
    assert_stands(&search, 2, &[0.0, 1.0], [0; 3]);
    assert_stands(&search, 3, &[], [0; 3]);
    assert_eq!(search.phase, Phase::Reflection(1));
    assert_trial(&search, 2, &[-1.0, 0.0]);
    assert_iterations(&search, 0, 0, 0);
}

#[test]
fn the_first_reflection_is_lower() {
    let search = around(2, &[30, 20]);
    assert_stands(&search, 0, &[-1.0, 0.0], [20, 2, 0]);
    assert_stands(&search, 1, &[0.0, 0.0], [30, 1, 0]);
    assert_stands(&search, 2, &[0.0, -1.0], [0; 3]);
    assert_iterations(&search, 1, 1, 0);
    assert_trial(&search, 3, &[-2.0, 0.0]);
    assert_trial(&after(search, &[20]), 4, &[-2.0, 1.0]);
}

#[test]
fn the_middle_reflection_is_lower() {
    let search = around(3, &[9, 9, 8]);
    assert_stands(&search, 0, &[0.0, -1.0, 0.0], [8, 3, 0]);
    assert_stands(&search, 1, &[-1.0, 0.0, 0.0], [9, 2, 0]);
    assert_stands(&search, 2, &[0.0, 0.0, 0.0], [9, 1, 0]);
    assert_stands(&search, 3, &[0.0, 0.0, -1.0], [0; 3]);
    assert_iterations(&search, 1, 2, 0);
    assert_eq!(search.gathered, Simplex::EMPTY);
    // The reflections that are read stay so: after these of the next iteration only companion 3 is asked.
    assert_trial(&search, 4, &[1.0, -2.0, 0.0]);
    let search = after(search, &[8]);
    assert_trial(&search, 5, &[0.0, -2.0, 0.0]);
    let search = after(search, &[8]);
    assert_trial(&search, 6, &[0.0, -2.0, 1.0]);
    let search = after(search, &[8]);
    assert_eq!(search.phase, Phase::Companion(3));
    assert_trial(&search, 7, &[0.0, 0.0, -1.0]);
}

#[test]
fn the_last_reflection_is_lower() {
    let search = around(3, &[9, 16_777_215, 9, 8]);
    assert_stands(&search, 0, &[0.0, 0.0, -1.0], [8, 4, 0]);
    assert_stands(&search, 1, &[-1.0, 0.0, 0.0], [16_777_215, 2, 0]);
    assert_stands(&search, 2, &[0.0, -1.0, 0.0], [9, 3, 0]);
    assert_stands(&search, 3, &[0.0, 0.0, 0.0], [9, 1, 0]);
    assert_iterations(&search, 1, 3, 0);
    assert_trial(&search, 5, &[1.0, 0.0, -2.0]);
}

/// All companions are read after the last reflection was lower, so that nothing is left to ask and they are halved in the same tell.
#[test]
fn nothing_lower_and_no_companion_unread() {
    let search = around(3, &[9, 9, 9, 8, 8, 8]);
    assert_eq!(search.phase, Phase::Reflection(3));
    assert_trial(&search, 7, &[0.0, 0.0, -2.0]);
    let search = after(search, &[8]);
    assert_eq!(search.phase, Phase::Reflection(1));
    assert_stands(&search, 0, &[0.0, 0.0, -1.0], [8, 4, 0]);
    assert_stands(&search, 1, &[-0.5, 0.0, -0.5], [0; 3]);
    assert_stands(&search, 2, &[0.0, -0.5, -0.5], [0; 3]);
    assert_stands(&search, 3, &[0.0, 0.0, -0.5], [0; 3]);
    assert_iterations(&search, 2, 6, 0);
    assert_trial(&search, 8, &[0.5, 0.0, -1.5]);
}

#[test]
fn nothing_lower_and_all_companions_unread() {
    let search = around(2, &[9, 9, 9]);
    assert_trial(&search, 4, &[1.0, 0.0]);
    let search = after(search, &[9]);
    assert_stands(&search, 1, &[1.0, 0.0], [9, 4, 0]);
    assert_stands(&search, 2, &[0.0, 1.0], [0; 3]);
    assert_eq!(search.gathered.costs[..3], [9, 9, 0]);
    assert_trial(&search, 5, &[0.0, 1.0]);
    let search = after(search, &[16_777_215]);
    assert_stands(&search, 0, &[0.0, 0.0], [9, 1, 0]);
    assert_stands(&search, 1, &[0.5, 0.0], [0; 3]);
    assert_stands(&search, 2, &[0.0, 0.5], [0; 3]);
    assert_iterations(&search, 1, 4, 0);
    assert_trial(&search, 6, &[-0.5, 0.0]);
}

#[test]
fn the_first_companion_is_lower() {
    let search = around(2, &[9, 9, 12, 8]);
    assert_stands(&search, 0, &[1.0, 0.0], [8, 4, 0]);
    assert_stands(&search, 1, &[0.0, 0.0], [9, 1, 0]);
    assert_stands(&search, 2, &[0.0, 1.0], [0; 3]);
    assert_iterations(&search, 1, 3, 0);
    assert_eq!(search.gathered, Simplex::EMPTY);
    assert_trial(&search, 5, &[2.0, 0.0]);
}

#[test]
fn the_last_companion_is_lower() {
    let search = around(2, &[9, 9, 12, 10, 8]);
    assert_stands(&search, 0, &[0.0, 1.0], [8, 5, 0]);
    assert_stands(&search, 1, &[1.0, 0.0], [10, 4, 0]);
    assert_stands(&search, 2, &[0.0, 0.0], [9, 1, 0]);
    assert_iterations(&search, 1, 4, 0);
    assert_trial(&search, 6, &[-1.0, 2.0]);
    // A companion that was read before is not asked again.
    let search = after(search, &[8]);
    assert_trial(&search, 7, &[0.0, 2.0]);
    let search = after(search, &[8]);
    assert_stands(&search, 1, &[0.5, 0.5], [0; 3]);
    assert_stands(&search, 2, &[0.0, 0.5], [0; 3]);
}

#[test]
fn one_axis() {
    let search = around(1, &[5]);
    assert_trial(&search, 2, &[-1.0]);
    let lower = after(search.clone(), &[4]);
    assert_stands(&lower, 0, &[-1.0], [4, 2, 0]);
    assert_stands(&lower, 1, &[0.0], [5, 1, 0]);
    assert_trial(&lower, 3, &[-2.0]);
    assert_trial(&after(lower, &[4]), 4, &[-1.5]);
    let search = after(search, &[5]);
    assert_trial(&search, 3, &[1.0]);
    assert_trial(&after(search, &[5]), 4, &[-0.5]);
}

/// From 0.2 a step of 2.9 goes to 3.1. Halfway back is 1.6500000000000001, where ½·(xi − x0) added to x0 would round to 1.65.
#[test]
fn a_halving_is_rounded_from_the_companion() {
    let axis = Axis {
        start: 0.2,
        step: 2.9,
        ..USUAL_AXIS
    };
    let given = Coefficients {
        sigma: 0.25,
        ..Coefficients::USUAL
    };
    let rule = Some(Rule::Size(f64::from_bits(1)));
    let opened = Search::open(Multidirectional, 1, &axes(axis), rule, given, 100);
    let search = after(opened.expect("opening"), &[5, 5, 5]);
    assert_stands(&search, 1, &[1.6500000000000001], [0; 3]);
    assert_ne!(1.6500000000000001f64, 1.65);
}

/// From 0.3 a step of 1.4: 0.3 + (0.3 − 1.7) is −1.0999999999999999, and 2·0.3 − 1.7 would be −1.1.
#[test]
fn a_reflection_is_a_difference_and_a_sum() {
    let axis = Axis {
        start: 0.3,
        step: 1.4,
        ..USUAL_AXIS
    };
    let search = after(multidirectional(1, &axes(axis), 1.0, 100), &[5]);
    assert_trial(&search, 2, &[-1.0999999999999999]);
    assert_ne!(-1.0999999999999999f64, -1.1);
}

/// (x1 − x0)² is 1 after a swap, q is 0, 1 or 4, and the limit E²·D.
#[test]
fn size_is_tested_after_a_swap() {
    let phase = |e: f64, costs: &[u64]| {
        let search = multidirectional(1, &axes(USUAL_AXIS), e, 100);
        after(search, costs).phase
    };
    let below = 1.0f64.next_down();
    assert_eq!(phase(1.0, &[5]), Phase::Reflection(1));
    assert_eq!(phase(1.0, &[5, 4]), Phase::Probing(0));
    assert_eq!(phase(below, &[5, 4]), Phase::Reflection(1));
    assert_eq!(phase(0.5, &[5, 4, 3]), Phase::Probing(0));
    assert_eq!(phase(0.5f64.next_down(), &[5, 4, 3]), Phase::Reflection(1));
    assert_eq!(phase(1.0, &[5, 5, 4]), Phase::Probing(0));
    assert_eq!(phase(below, &[5, 5, 4]), Phase::Reflection(1));
    assert_eq!(phase(1.0, &[5, 5]), Phase::Companion(1));
}

#[test]
fn size_is_tested_after_a_halving() {
    for (e, met) in [(0.5, true), (0.5f64.next_down(), false)] {
        let search = multidirectional(2, &axes(USUAL_AXIS), e, 100);
        let search = after(search, &[5; 5]);
        let phases = [Phase::Reflection(1), Phase::Probing(0)];
        assert_eq!(search.phase, phases[usize::from(met)]);
    }
}

#[test]
fn a_whole_round_of_probes_settles() {
    let search = multidirectional(1, &axes(USUAL_AXIS), 1.0, 100);
    let search = after(search, &[5, 5, 5]);
    assert_eq!(search.phase, Phase::Probing(0));
    assert_trial(&search, 4, &[D]);
    let search = after(search, &[5]);
    assert_trial(&search, 5, &[-D]);
    let search = after(search, &[5]);
    assert_eq!(search.phase, Phase::Ended(Cause::Settled));
    assert_iterations(&search, 1, 2, 2);
}

#[test]
fn a_lower_probe_builds_unread_companions_around_it() {
    let search = multidirectional(2, &axes(USUAL_AXIS), 1.0, 100);
    let search = after(search, &[5, 5, 5, 5, 5, 5, 5, 5, 4]);
    assert_eq!(search.phase, Phase::Reflection(1));
    assert_stands(&search, 0, &[0.0, -D], [4, 9, 0]);
    assert_stands(&search, 1, &[1.0, -D], [0; 3]);
    assert_stands(&search, 2, &[0.0, 1.0 - D], [0; 3]);
    assert_eq!(bits(&search.center), bits(&padded(&[0.0, -D])));
    assert_iterations(&search, 1, 4, 4);
    assert_trial(&search, 10, &[-1.0, -D]);
    // Size 1 is not tested before the next iteration ends.
    let search = after(search, &[4, 4, 4]);
    assert_eq!(search.phase, Phase::Companion(2));
    let search = after(search, &[4]);
    assert_eq!(search.phase, Phase::Probing(0));
    assert_trial(&search, 14, &[D, -D]);
}

#[test]
fn the_budget_ends_every_phase() {
    let ended = |costs: &[u64], budget: u64| {
        let search = multidirectional(1, &axes(USUAL_AXIS), 1.0, budget);
        after(search, costs)
    };
    for costs in [&[5, 5][..], &[5, 4], &[5, 5, 5], &[5, 5, 4]] {
        let search = ended(costs, costs.len() as u64);
        assert_eq!(search.phase, Phase::Ended(Cause::Budget));
        assert_eq!(search.counts.iteration_readings, costs.len() as u64 - 1);
    }
    let probed = ended(&[5, 5, 5, 4], 4);
    assert_eq!(probed.phase, Phase::Ended(Cause::Budget));
    assert_stands(&probed, 1, &[1.0 + D], [0; 3]);
    let settled = ended(&[5, 5, 5, 5, 5], 5);
    assert_eq!(settled.phase, Phase::Ended(Cause::Settled));
    // One reading is a budget only where it is written.
    let mut base = ended(&[], 100);
    write(&mut base, (1, 0, 1));
    tell_all(&mut base, &[5]);
    assert_eq!(base.phase, Phase::Ended(Cause::Budget));
    assert_stands(&base, 1, &[1.0], [0; 3]);
}

/// What was told and where, for the claims.
struct Record {
    search: Search,
    told: Vec<(Point, u64)>,
}

impl Record {
    fn tell(&mut self, cost: u64) {
        let trial = self.search.ask().expect("ask");
        self.told.push((trial.point, cost));
        self.search.tell(trial.number, cost).expect("tell");
    }

    /// Best is the earliest least reading, every vertex with a number is that reading, and the readings are bounded.
    fn hold(&self) {
        let least = self.told.iter().map(|told| told.1).min().expect("a cost");
        let first = self.told.iter().position(|told| told.1 == least);
        let best = self.search.best().expect("best");
        assert_eq!(best.number, first.expect("a reading") as u64 + 1);
        for index in 0..=self.search.n {
            let vertex = self.search.standing.vertex(index);
            let told = match vertex.number {
                0 => (vertex.point, 0),
                number => self.told[number as usize - 1],
            };
            assert_eq!((bits(&vertex.point), vertex.cost), (bits(&told.0), told.1));
        }
        let counts = &self.search.counts;
        let bound = 2 * self.search.n as u64 * (counts.iterations + 1);
        assert!(counts.iteration_readings <= bound);
        let accounted = 1 + counts.iteration_readings + counts.probes;
        assert_eq!(self.search.readings, accounted);
    }

    /// The base is the earliest least reading where an iteration has just ended.
    fn hold_base(&self) {
        let base = self.search.standing.vertex(0);
        assert_eq!(base, self.search.best().expect("best"));
    }
}

#[test]
fn the_claims_hold_for_lists_of_tells() {
    let mut seed = 3;
    let (mut restarts, mut settled) = (0, 0);
    for round in 0..400 {
        let axis = Axis {
            hi: [8.0, 1.25][round % 2],
            ring: round % 3 == 0,
            ..USUAL_AXIS
        };
        let n = 1 + next(&mut seed) % 8;
        let e = [0.01, 0.3, 1.0][round % 3];
        let search = multidirectional(n, &axes(axis), e, 300);
        let told = Vec::new();
        let mut record = Record { search, told };
        let most = [3, 40][round / 2 % 2];
        while !record.search.has_ended() {
            let before = record.search.counts;
            record.tell(next(&mut seed) % most);
            record.hold();
            if record.search.counts.iterations > before.iterations {
                record.hold_base();
            }
            let restarted = record.search.readings < record.search.budget
                && record.search.counts.probes > before.probes
                && record.search.phase == Phase::Reflection(1);
            restarts += u64::from(restarted);
        }
        settled += u64::from(record.search.phase == Phase::Ended(Cause::Settled));
    }
    assert!(restarts > 20 && settled > 20, "{restarts} {settled}");
}
