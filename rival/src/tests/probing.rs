//! Probe rounds, restarts and the settled ending.

use super::*;
use crate::search::{Cause, Phase};

/// The probe distance of a step of 1.
const D: f64 = 0.0009765625;

#[test]
fn a_round_without_lower_reading_settles() {
    let mut search = after(open(2, USUAL_AXIS, Rule::Spread(1), 100), &[7, 7, 7]);
    for (told, probe) in [[D, 0.0], [-D, 0.0], [0.0, D], [0.0, -D]]
        .iter()
        .enumerate()
    {
        assert_eq!(search.phase, Phase::Probing(told));
        assert_trial(&search, 4 + told as u64, probe);
        tell_all(&mut search, &[7 + told as u64]);
    }
    assert_eq!(search.phase, Phase::Ended(Cause::Settled));
    assert!(search.has_ended());
    assert_eq!(search.readings, 7);
    assert_counts(&search, [1, 0, 0, 0, 0, 4, 0]);
    assert_best(&search, &[0.0, 0.0], 7);
}

#[test]
fn a_lower_probe_restarts_then_settles() {
    let mut search = after(open(1, USUAL_AXIS, Rule::Spread(1), 100), &[4, 4]);
    assert_trial(&search, 3, &[D]);
    tell_all(&mut search, &[4]);
    assert_trial(&search, 4, &[-D]);
    tell_all(&mut search, &[3]);
    assert_eq!((search.phase, search.vertices), (Phase::Building, 1));
    assert_counts(&search, [1, 0, 0, 0, 0, 2, 0]);
    assert_trial(&search, 5, &[0.9990234375]);
    tell_all(&mut search, &[3]);
    assert_place(&search, 1, &[-D], 3);
    assert_place(&search, 2, &[0.9990234375], 3);
    assert_trial(&search, 6, &[0.0]);
    tell_all(&mut search, &[3]);
    assert_trial(&search, 7, &[-0.001953125]);
    tell_all(&mut search, &[3]);
    assert_eq!(search.phase, Phase::Ended(Cause::Settled));
    assert_counts(&search, [2, 0, 0, 0, 0, 4, 0]);
    assert_best(&search, &[-D], 3);
}

#[test]
fn a_restart_builds_around_its_own_point() {
    let mut search = after(open(2, USUAL_AXIS, Rule::Spread(1), 100), &[7, 7, 7, 7, 3]);
    assert_trial(&search, 6, &[1.0 - D, 0.0]);
    tell_all(&mut search, &[2]);
    assert_eq!((search.phase, search.vertices), (Phase::Building, 2));
    assert_counts(&search, [1, 0, 0, 0, 0, 2, 1]);
    assert_trial(&search, 7, &[-D, 1.0]);
    assert_place(&search, 1, &[0.0, 0.0], 7);
    tell_all(&mut search, &[3]);
    assert_place(&search, 1, &[1.0 - D, 0.0], 2);
    assert_place(&search, 2, &[-D, 0.0], 3);
    assert_place(&search, 3, &[-D, 1.0], 3);
    // 3·22 − 64 = 2 < 6: the next round starts at the best, (1 − d, 0).
    assert_eq!(search.phase, Phase::Probing(0));
    assert_trial(&search, 8, &[1.0, 0.0]);
}

#[test]
fn a_restart_steps_down_past_hi() {
    let axis = Axis {
        start: 7.0,
        ..USUAL_AXIS
    };
    // Probe 7 + d is lower; from there a step up passes 8.
    let search = after(open(1, axis, Rule::Spread(1), 100), &[4, 4, 3]);
    assert_trial(&search, 4, &[6.0009765625]);
}

#[test]
fn probes_are_clamped_and_use_each_step() {
    let mut given = axes(USUAL_AXIS);
    given[0].start = 8.0;
    given[1].step = 2.0;
    let opened = Search::open(
        NelderMead,
        2,
        &given,
        Some(Rule::Spread(1)),
        Coefficients::USUAL,
        100,
    );
    let mut search = after(opened.expect("opening"), &[5, 5, 5]);
    for (number, probe) in [
        (4, [8.0, 0.0]),
        (5, [8.0 - D, 0.0]),
        (6, [8.0, 2.0 * D]),
        (7, [8.0, -2.0 * D]),
    ] {
        assert_trial(&search, number, &probe);
        tell_all(&mut search, &[5]);
    }
    assert_eq!(search.phase, Phase::Ended(Cause::Settled));
}

#[test]
fn moved_reflects_after_a_restart_build() {
    // An inside contraction of one axis moves 0.25 < 1; the second probe is lower.
    let costs = [10, 20, 20, 15];
    let mut search = after(open(1, USUAL_AXIS, Rule::Moved(1.0), 100), &costs);
    assert_eq!(search.phase, Phase::Probing(0));
    tell_all(&mut search, &[10, 9]);
    assert_trial(&search, 7, &[0.9990234375]);
    tell_all(&mut search, &[9]);
    assert_eq!(search.phase, Phase::Reflecting);
    assert_counts(&search, [2, 0, 0, 1, 0, 2, 0]);
}

#[test]
fn dark_frames_everywhere_settle() {
    let search = after(open(1, USUAL_AXIS, Rule::Spread(4), 100), &[16_777_215; 4]);
    assert_eq!(search.phase, Phase::Ended(Cause::Settled));
    assert_best(&search, &[0.0], 16_777_215);
}
