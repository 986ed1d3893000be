//! Companions are clamped, or brought round, when they are made, and their trials carry that count.

use super::*;
use crate::search::Phase;

/// Two axes with these lower and upper limits.
fn limited(limits: [[f64; 2]; 2], costs: &[u64]) -> Search {
    let mut given = axes(USUAL_AXIS);
    for (axis, [lo, hi]) in given.iter_mut().zip(limits) {
        (axis.lo, axis.hi) = (lo, hi);
    }
    let search = multidirectional(2, &given, f64::from_bits(1), 100);
    after(search, costs)
}

/// Reflection 2 would be (0, −1), below the limit.
#[test]
fn a_reflected_companion_keeps_its_count() {
    let search = limited([[-8.0, 8.0], [-0.5, 8.0]], &[9]);
    assert_stops(&search, 0, &[-1.0, 0.0]);
    let clamped = after(search.clone(), &[9]);
    assert_stops(&clamped, 1, &[0.0, -0.5]);
    let search = after(search, &[8]);
    assert_stands(&search, 2, &[0.0, -0.5], [0, 0, 1]);
    // Reflections 1 and 2 are told; its own trial is the clamped point, a coordinate on its limit, and carries the count.
    let search = after(search, &[8, 8]);
    assert_eq!(search.phase, Phase::Companion(2));
    assert_stops(&search, 1, &[0.0, -0.5]);
    // Read without being lower, it ends the iteration: halved, it has no stop.
    let halved = after(search.clone(), &[8]);
    assert_stands(&halved, 2, &[-0.5, -0.25], [0; 3]);
    // Lower, it swaps: what stands at its place is read.
    let swapped = after(search, &[7]);
    assert_stands(&swapped, 0, &[0.0, -0.5], [7, 5, 0]);
    assert_stands(&swapped, 2, &[-1.0, 0.0], [8, 2, 0]);
}

/// Companion 2, unread with its stop, keeps it while companion 1 swaps.
#[test]
fn an_unread_companion_keeps_its_count_when_another_swaps() {
    let mut search = limited([[-8.0, 8.0], [-0.5, 8.0]], &[9, 8]);
    write(&mut search, (11, 2, 0));
    tell_all(&mut search, &[8, 8]);
    assert_eq!(search.phase, Phase::Companion(1));
    let swapped = after(search.clone(), &[7]);
    assert_stands(&swapped, 1, &[-1.0, 0.0], [8, 2, 0]);
    assert_stands(&swapped, 2, &[0.0, -0.5], [0, 0, 1]);
    let read = after(search, &[8]);
    assert_stands(&read, 1, &[0.0, 0.0], [8, 5, 0]);
    assert_stops(&read, 1, &[0.0, -0.5]);
}

/// x0 is (−1, 0) and x2 (0, −0.5): reflection 2 is (−2, 0.5) before it is clamped, and a limit is written so that both axes are.
#[test]
fn both_axes_of_a_reflection() {
    let mut search = limited([[-1.5, 8.0], [-0.5, 2.0]], &[9, 8]);
    assert_stands(&search, 2, &[0.0, -0.5], [0, 0, 1]);
    assert_stops(&search, 1, &[-1.5, 0.0]);
    tell_all(&mut search, &[8]);
    assert_stops(&search, 1, &[-1.5, 0.5]);
    write(&mut search, (10, 2, 0.25f64.to_bits()));
    assert_stops(&search, 2, &[-1.5, 0.25]);
    let swapped = after(search, &[7]);
    assert_stands(&swapped, 0, &[-1.5, 0.25], [7, 4, 0]);
    assert_stands(&swapped, 2, &[-1.0, 0.0], [8, 2, 0]);
}

/// A ring from −8 to 8: companions go over the seam, and are no stops.
#[test]
fn companions_on_a_ring() {
    let ring = Axis {
        start: 7.5,
        ring: true,
        ..USUAL_AXIS
    };
    let search = after(
        multidirectional(1, &axes(ring), f64::from_bits(1), 100),
        &[9],
    );
    assert_stands(&search, 1, &[-7.5], [0; 3]);
    // 7.5 + (7.5 + 7.5) is 22.5, one turn less.
    assert_stops(&search, 0, &[6.5]);
    let search = after(search, &[9]);
    assert_stops(&search, 0, &[-7.5]);
    // Halfway the plain way: −7.5 + ½·15.
    let search = after(search, &[9]);
    assert_stands(&search, 1, &[0.0], [0; 3]);
}

/// The build's step back from hi is no stop, and on a ring there is none.
#[test]
fn companions_step_back_from_hi() {
    for (ring, x) in [(false, 6.75), (true, -7.25)] {
        let axis = Axis {
            start: 7.75,
            ring,
            ..USUAL_AXIS
        };
        let search = after(multidirectional(1, &axes(axis), 0.5, 100), &[9]);
        assert_stands(&search, 1, &[x], [0; 3]);
    }
}

/// The step back that is clamped counts in the companion's own trial.
#[test]
fn a_built_companion_with_a_stop() {
    let record = narrow_axis();
    let search = after(multidirectional(1, &axes(record), 0.001, 100), &[9]);
    assert_stands(&search, 1, &[record.lo], [0, 0, 1]);
    let search = after(search, &[9]);
    assert_eq!(search.phase, Phase::Companion(1));
    assert_stops(&search, 1, &[record.lo]);
}
