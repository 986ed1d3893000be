//! Searches on rings, with values worked by hand: wherever document 01 clamps, a ring is brought round.

use super::*;
use crate::search::{Phase, Side};

/// The probe distance of a step of 1.
const D: f64 = 0.0009765625;

/// A ring from −8 to 8.
fn ring(start: f64, step: f64) -> Axis {
    Axis {
        start,
        step,
        ring: true,
        ..USUAL_AXIS
    }
}

/// One ring after costs, with spread 1.
fn one(start: f64, step: f64, costs: &[u64]) -> Search {
    after(open(1, ring(start, step), Rule::Spread(1), 100), costs)
}

/// One ring with these coefficients after costs.
fn with(record: Axis, alpha: f64, chi: f64, costs: &[u64]) -> Search {
    let given = Coefficients {
        alpha,
        chi,
        ..Coefficients::USUAL
    };
    let opened = Search::open(
        NelderMead,
        1,
        &axes(record),
        Some(Rule::Spread(1)),
        given,
        100,
    );
    after(opened.expect("opening"), costs)
}

/// The example after costs, with rings, or no rings, and limits written: part 9 is lo, 10 hi, 14 the ring.
fn written(costs: &[u64], parts: &[(u64, u64, u64)]) -> Search {
    let mut search = after(example(), costs);
    for &part in parts {
        write(&mut search, part);
    }
    search
}

#[test]
fn a_build_steps_over_the_seam() {
    assert_stops(&one(7.5, 1.0, &[1]), 0, &[-7.5]);
    // hi is lo.
    assert_stops(&one(7.0, 1.0, &[1]), 0, &[-8.0]);
    assert_stops(&one(-8.0, 8.0, &[1]), 0, &[0.0]);
    assert_stops(&one(8f64.next_down(), 8.0, &[1]), 0, &[0.0]);
    // From the last float below 8: 16 less the last place, one turn less.
    let last = 8f64.next_down();
    assert_stops(&one(last, 1.0, &[1]), 0, &[-7.0]);
    let shorter = last + 0.75 - 16.0;
    assert_stops(&one(last, 0.75, &[1]), 0, &[shorter]);
}

#[test]
fn each_axis_of_a_build_by_its_own_ring() {
    let mut given = axes(ring(7.5, 1.0));
    given[1].ring = false;
    let opened = Search::open(NelderMead, 3, &given, None, Coefficients::USUAL, 100);
    let mut search = opened.expect("opening");
    let trials = [
        [7.5, 7.5, 7.5],
        [-7.5, 7.5, 7.5],
        [7.5, 6.5, 7.5],
        [7.5, 7.5, -7.5],
    ];
    for (number, trial) in (1..).zip(trials) {
        assert_trial(&search, number, &trial);
        assert_stops(&search, 0, &trial);
        tell_all(&mut search, &[10 * number]);
    }
}

#[test]
fn a_step_that_rounds_at_the_seam() {
    let record = |lo, hi, start, step| Axis {
        lo,
        hi,
        start,
        step,
        ring: true,
    };
    // 0.8 less 0.6; (0.8 − 0.7) + 0.1 would be a place more.
    let third = record(0.1, 0.7, 0.5, 0.3);
    let search = after(open(1, third, Rule::Spread(1), 9), &[1]);
    assert_trial(&search, 2, &[f64::from_bits(0x3fc9_9999_9999_999c)]);
    // hi itself, less a width that was rounded up, is below lo, and so lo.
    let search = after(
        open(1, record(-3.0, 1.4, 0.0, 1.4), Rule::Spread(1), 9),
        &[1],
    );
    assert_trial(&search, 2, &[-3.0]);
}

#[test]
fn a_restart_steps_over_the_seam() {
    let search = one(7.0, 1.0, &[4, 4, 3]);
    assert_eq!((search.phase, search.vertices), (Phase::Building, 1));
    // Around the probe 7 + d: 8 + d, and a turn less.
    assert_stops(&search, 0, &[-8.0 + D]);
    // From −8 + d on there is no seam.
    assert_stops(&one(-8.0, 1.0, &[4, 4, 3]), 0, &[-7.0 + D]);
    // Around a probe that went over it.
    assert_stops(&one(-8.0, 1.0, &[4, 4, 4, 3]), 0, &[-7.0 - D]);
}

#[test]
fn probes_go_over_the_seam() {
    let mut search = one(-8.0, 1.0, &[5, 5]);
    assert_eq!(search.phase, Phase::Probing(0));
    assert_stops(&search, 0, &[-8.0 + D]);
    tell_all(&mut search, &[5]);
    assert_stops(&search, 0, &[8.0 - D]);
    // d/2 below hi: b + d is d/2 above it.
    let start = 8.0 - D / 2.0;
    let mut search = one(start, 1.0, &[5, 5]);
    assert_stops(&search, 0, &[-8.0 + D / 2.0]);
    tell_all(&mut search, &[5]);
    assert_stops(&search, 0, &[8.0 - 1.5 * D]);
    // −0.0009765625·2^-60 turned by 16 is 16, which is hi and so lo.
    let tiny = Axis {
        lo: 0.0,
        hi: 16.0,
        start: 0.0,
        step: 2f64.powi(-60),
        ring: true,
    };
    let search = after(open(1, tiny, Rule::Spread(1), 9), &[5, 5, 5]);
    assert_stops(&search, 0, &[0.0]);
}

#[test]
fn moves_go_round() {
    // Places 7.75 and 7: r is 8.5, a turn less.
    assert_stops(&one(7.0, 0.75, &[20, 10]), 0, &[-7.5]);
    // Places −7.5 and −7: r is −8, on the ring.
    let mut search = one(-7.5, 0.5, &[10, 20]);
    assert_stops(&search, 0, &[-8.0]);
    tell_all(&mut search, &[5]);
    // e is −8.5, a turn more.
    assert_stops(&search, 0, &[7.5]);
    // Places 7 and −8: α 4 gives 7 + 4·15, more than a turn away.
    let far = with(ring(7.0, 1.0), 4.0, 8.0, &[10, 20]);
    assert_stops(&far, 0, &[-8.0]);
    let down = with(ring(7.0, 1.0), 4.0, 8.0, &[20, 10]);
    assert_stops(&down, 0, &[-8.0]);
}

/// "Expanding from an unclamped r" is a mistake, and so it is from one that was not brought round.
#[test]
fn e_and_the_outside_point_start_from_r_brought_round() {
    // c is 7.75 and r −7.5: e is 7.75 + 2.5·(−15.25) = −30.375, more than a turn below. From 8.5 it would be 9.625.
    let mut search = with(ring(7.0, 0.75), 1.0, 2.5, &[20, 10]);
    assert_stops(&search, 0, &[-7.5]);
    tell_all(&mut search, &[5]);
    assert_eq!(search.phase, Phase::Expanding);
    assert_stops(&search, 0, &[-8.0]);
    // 7.75 + 1.25·(−15.25) = −11.3125, a turn more. From 8.5 it would be 8.6875.
    let search = with(ring(7.0, 0.75), 1.0, 1.25, &[20, 10, 5]);
    assert_stops(&search, 0, &[4.6875]);
    // The outside point is 7.75 + (−15.25)/2. From 8.5 it would be 8.125.
    let search = one(7.0, 0.75, &[20, 10, 15]);
    assert_eq!(search.phase, Phase::Contracting(Side::Outside));
    assert_stops(&search, 0, &[0.125]);
    // The inside point does not know r: 7.75 + (−0.75)/2.
    let search = one(7.0, 0.75, &[20, 10, 20]);
    assert_eq!(search.phase, Phase::Contracting(Side::Inside));
    assert_stops(&search, 0, &[7.375]);
}

/// "c, differences, moved and size are plain numbers": −7.5 and 7.5 are 15 apart.
#[test]
fn nothing_else_knows_of_rings() {
    // (x2 − x1)² is 225, and D = 7.5²: the limit is 2²·56.25.
    for (e, phase) in [
        (2.0, Phase::Probing(0)),
        (2f64.next_down(), Phase::Reflecting),
    ] {
        let search = after(open(1, ring(7.5, 1.0), Rule::Size(e), 100), &[10, 20]);
        assert_eq!(search.phase, phase);
    }
    // w = −7.5, c = 7.5: r is 22.5, a turn less. The inside point is 7.5 − 15/2.
    for (e, phase) in [
        (56.25, Phase::Reflecting),
        (56.25f64.next_up(), Phase::Probing(0)),
    ] {
        let mut search = after(open(1, ring(7.5, 1.0), Rule::Moved(e), 100), &[10, 20]);
        assert_trial(&search, 3, &[6.5]);
        tell_all(&mut search, &[20]);
        assert_trial(&search, 4, &[0.0]);
        tell_all(&mut search, &[15]);
        assert_eq!(search.phase, phase);
    }
    // Two axes: places (7.5, 0), (−7.5, 0), (7.5, 1) have c = (0, 0).
    let mut given = axes(USUAL_AXIS);
    given[0] = ring(7.5, 1.0);
    let opened = Search::open(NelderMead, 2, &given, None, Coefficients::USUAL, 100);
    let search = after(opened.expect("opening"), &[10, 20, 30]);
    assert_trial(&search, 4, &[-7.5, -1.0]);
    // The shrink is 7.5 + (−7.5 − 7.5)/2.
    let search = after(search, &[30, 30]);
    assert_eq!(search.phase, Phase::Shrinking);
    assert_trial(&search, 6, &[0.0, 0.0]);
}

/// P12 with a ring on axis 1: "being brought round never counts as standing at a stop."
#[test]
fn a_ring_is_no_stop_where_another_axis_is() {
    let mut given = axes(USUAL_AXIS);
    (given[0].hi, given[1].hi) = (1.25, 1.25);
    given[0].ring = true;
    let opened = Search::open(NelderMead, 2, &given, None, Coefficients::USUAL, 100);
    let mut search = after(opened.expect("opening"), &[30, 20, 10]);
    assert_stops(&search, 0, &[1.0, 1.0]);
    tell_all(&mut search, &[5]);
    // (1.5, 1.5): a turn of 9.25 less, and the clamp.
    assert_stops(&search, 1, &[-7.75, 1.25]);
}

#[test]
fn a_written_ring_in_every_phase() {
    // Axis 1 has limits 3 and 3.5, axis 2 stands at 4.
    let limits = [(9, 1, 3.0), (10, 1, 3.5), (9, 2, 4.0), (10, 2, 4.0)];
    let mut parts = limits.map(|(part, axis, v): (u64, u64, f64)| (part, axis, v.to_bits()));
    let phases: [&[u64]; 7] = [
        &[30, 20],
        &[30, 20, 10],
        &[30, 20, 10, 5],
        &[30, 20, 10, 20],
        &[30, 20, 10, 30],
        &[30, 20, 10, 30, 30],
        &[7, 7, 7],
    ];
    for costs in phases {
        let mut search = written(costs, &parts);
        // e is 1/2 + 2·(3 − 1/2) on axis 1, so clamped to hi; every other point is below 3.
        let clamped = [3.0, 3.5][usize::from(search.phase == Phase::Expanding)];
        assert_stops(&search, 2, &[clamped, 4.0]);
        write(&mut search, (14, 1, 1));
        assert_stops(&search, 1, &[3.0, 4.0]);
        write(&mut search, (14, 2, 1));
        assert_stops(&search, 0, &[3.0, 4.0]);
        write(&mut search, (14, 1, 0));
        write(&mut search, (14, 2, 0));
        assert_stops(&search, 2, &[clamped, 4.0]);
    }
    // A width of 2 instead: (0, 0) is a turn below 1 and 3 each.
    parts = [(9, 1, 1.0), (10, 1, 3.0), (9, 2, 1.5), (10, 2, 3.5)]
        .map(|(part, axis, v): (u64, u64, f64)| (part, axis, v.to_bits()));
    let mut search = written(&[], &parts);
    assert_stops(&search, 2, &[1.0, 1.5]);
    write(&mut search, (14, 1, 1));
    write(&mut search, (14, 2, 1));
    assert_stops(&search, 0, &[2.0, 2.0]);
}

#[test]
fn made_up_limits_of_a_ring() {
    let nan = f64::NAN;
    let far = f64::INFINITY;
    // The start, (0, 0), on a ring with these limits on axis 1.
    for (lo, hi, asked) in [
        (-1.0, 1.0, 0.0),
        (0.0, 1.0, 0.0),
        (-1.0, 0.0, -1.0),
        (-1.0, -0.0, -1.0),
        (-0.0, 1.0, 0.0),
        (2.0, 1.0, 2.0),
        (-1.0, -2.0, -1.0),
        (0.0, 0.0, 0.0),
        (-0.0, 0.0, -0.0),
        (nan, 1.0, nan),
        (1.0, nan, 1.0),
        (-1.0, nan, -1.0),
        (nan, nan, nan),
        (far, -far, far),
        (-far, far, 0.0),
        (-far, -1.0, -far),
        (1.0, far, 1.0),
        (0.5, 2.5, 2.0),
        (-2.5, -0.5, -2.0),
        (f64::from_bits(1), 1.0, f64::from_bits(1)),
    ] {
        let parts = [(9, 1, lo.to_bits()), (10, 1, hi.to_bits()), (14, 1, 1)];
        let mut search = written(&[], &parts);
        assert_stops(&search, 0, &[asked]);
        // What a reading keeps is what was asked.
        tell_all(&mut search, &[4]);
        assert_eq!(bits(&search.best.point), bits(&padded(&[asked])));
    }
}

#[test]
fn an_axis_made_a_ring_and_none_while_r_is_held() {
    // r is (1, 1); on axis 1 hi is 3/4: r would be clamped there, or a turn less.
    let hi = (10, 1, 0.75f64.to_bits());
    assert_stops(&written(&[30, 20, 10, 5], &[hi]), 1, &[0.75, 1.5]);
    // 1 − 8.75 = −7.75; e is 1/2 + 2·(−8.25) = −16, a turn more.
    assert_stops(
        &written(&[30, 20, 10, 5], &[hi, (14, 1, 1)]),
        0,
        &[-7.25, 1.5],
    );
    // The outside point is 1/2 + (−8.25)/2.
    let mut search = written(&[30, 20, 10, 20], &[hi, (14, 1, 1)]);
    assert_stops(&search, 0, &[-3.625, 0.75]);
    write(&mut search, (14, 1, 0));
    assert_stops(&search, 0, &[0.625, 0.75]);
}

#[test]
fn rings_past_n_wait_for_n() {
    let mut parts = vec![(9, 3, 1f64.to_bits()), (10, 3, 4f64.to_bits())];
    parts.extend((3..=8).map(|axis| (14, axis, 1)));
    for costs in [&[][..], &[30, 20, 10], &[7, 7, 7, 7]] {
        let trial = after(example(), costs).ask();
        assert_eq!(written(costs, &parts).ask(), trial);
    }
    let mut search = written(&[], &parts);
    write(&mut search, (0, 0, 4));
    // Axis 3 turns 0 by 3; axis 4 has zeros for limits, and gives lo.
    assert_stops(&search, 0, &[0.0, 0.0, 3.0, 0.0]);
    write(&mut search, (14, 3, 0));
    assert_stops(&search, 1, &[0.0, 0.0, 1.0, 0.0]);
}

/// Long runs on rings: every trial lies on its ring, and no ring is a stop.
#[test]
fn every_trial_lies_on_its_ring() {
    let mut seed = 9;
    for n in 1..=8 {
        let given = axes(ring(7.5, 3.0));
        let wild = Coefficients {
            alpha: 4.0,
            chi: 8.0,
            beta: 0.5,
            sigma: 0.9,
        };
        let opened = Search::open(NelderMead, n, &given, Some(Rule::Spread(1)), wild, 2000);
        let mut search = opened.expect("opening");
        while let Ok(trial) = search.ask() {
            assert_eq!(trial.stops, 0);
            let on_ring = |x: &f64| -8.0 <= *x && *x < 8.0;
            assert!(trial.point[..n as usize].iter().all(on_ring));
            let cost = next(&mut seed) % 50;
            search.tell(trial.number, cost).expect("tell");
        }
    }
}
