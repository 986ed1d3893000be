//! Refusal 13: "an opening whose ring axis starts at hi is refused as 13 with its axis, tried just after 3 on the same axis."

use super::*;
use crate::types::Refusal;

/// A ring with this start.
fn ring(start: f64) -> Axis {
    Axis {
        start,
        ring: true,
        ..USUAL_AXIS
    }
}

/// The refusal's number and axis of an opening on these axes, (0, 0) if accepted.
fn refusal(n: u64, given: &[Axis; 8], coefficients: Coefficients) -> (u64, u64) {
    match Search::open(NelderMead, n, given, None, coefficients, 100) {
        Ok(_) => (0, 0),
        Err(Refusal { number, axis }) => (number, axis),
    }
}

/// The refusal of an opening with these axes, the others as usual.
fn changed(n: u64, changed: &[(usize, Axis)]) -> (u64, u64) {
    let mut given = axes(USUAL_AXIS);
    for &(axis, record) in changed {
        given[axis - 1] = record;
    }
    refusal(n, &given, Coefficients::USUAL)
}

#[test]
fn every_axis_that_starts_at_the_seam() {
    for axis in 1..=8 {
        assert_eq!(changed(8, &[(axis, ring(8.0))]), (13, axis as u64));
        assert_eq!(changed(8, &[(axis, ring(8f64.next_down()))]), (0, 0));
        assert_eq!(changed(8, &[(axis, ring(-8.0))]), (0, 0));
        let no_ring = Axis {
            start: 8.0,
            ..USUAL_AXIS
        };
        assert_eq!(changed(8, &[(axis, no_ring)]), (0, 0));
    }
    assert_eq!(changed(3, &[(3, ring(8.0)), (2, ring(8.0))]), (13, 2));
}

#[test]
fn zeros_of_either_sign_are_the_same_start() {
    for (hi, start) in [(0.0, -0.0), (-0.0, 0.0), (0.0, 0.0), (-0.0, -0.0)] {
        let record = Axis { hi, ..ring(start) };
        assert_eq!(changed(2, &[(2, record)]), (13, 2));
        let no_ring = Axis {
            ring: false,
            ..record
        };
        assert_eq!(changed(2, &[(2, no_ring)]), (0, 0));
    }
}

#[test]
fn after_3_and_before_4() {
    // 4: the step is too long, or lost beside the start.
    for step in [9.0, 1e-30] {
        let bad_step = |start| Axis {
            step,
            ..ring(start)
        };
        assert_eq!(changed(2, &[(2, bad_step(8.0))]), (13, 2));
        assert_eq!(changed(2, &[(2, bad_step(1.0))]), (4, 2));
    }
    // 3: limits that are equal or crossed, or a step that is not above 0.
    let equal = Axis {
        lo: 8.0,
        ..ring(8.0)
    };
    let crossed = Axis {
        lo: 9.0,
        ..ring(8.0)
    };
    let still = Axis {
        step: 0.0,
        ..ring(8.0)
    };
    for record in [equal, crossed, still] {
        assert_eq!(changed(2, &[(2, record)]), (3, 2));
    }
    // 2: a number outside the range, or none.
    let nan = Axis {
        lo: f64::NAN,
        ..ring(8.0)
    };
    let far = Axis {
        hi: 1e9,
        ..ring(1e9)
    };
    for record in [nan, far] {
        assert_eq!(changed(2, &[(2, record)]), (2, 2));
    }
}

#[test]
fn axis_by_axis_and_before_5() {
    let long = Axis {
        step: 9.0,
        ..USUAL_AXIS
    };
    let crossed = Axis {
        lo: 9.0,
        ..USUAL_AXIS
    };
    assert_eq!(changed(3, &[(1, ring(8.0)), (2, crossed)]), (13, 1));
    assert_eq!(changed(3, &[(2, ring(8.0)), (3, long)]), (13, 2));
    assert_eq!(changed(3, &[(1, long), (2, ring(8.0))]), (4, 1));
    let flat = Coefficients {
        alpha: 0.0,
        ..Coefficients::USUAL
    };
    let mut given = axes(USUAL_AXIS);
    given[1] = ring(8.0);
    assert_eq!(refusal(2, &given, flat), (13, 2));
    assert_eq!(refusal(1, &given, flat), (5, 0));
    assert_eq!(refusal(0, &given, flat), (1, 0));
}

#[test]
fn a_ring_past_n_is_not_read() {
    let mut given = axes(ring(0.0));
    given[2] = ring(8.0);
    let search =
        Search::open(NelderMead, 2, &given, None, Coefficients::USUAL, 100).expect("opening");
    assert_eq!(refusal(3, &given, Coefficients::USUAL), (13, 3));
    let rings = search.axes.map(|axis| axis.ring);
    assert_eq!(rings[..2], [true; 2]);
    assert_eq!(rings[2..], [false; 6]);
    let shown: Vec<u64> = (1..=8).map(|axis| search.words()[8 + 5 * axis]).collect();
    assert_eq!(shown, [1, 1, 0, 0, 0, 0, 0, 0]);
}
