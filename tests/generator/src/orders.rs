//! Lines that bring standing or gathered places out of cost order by one, or to its edge.

use crate::costs::DARK;
use crate::habits::NELDER_MEAD;
use crate::state::{State, Written};

/// Whether a number written at place 1 has standing places read of which one is past the next by one and none by more, or whether they are
/// in order and some equal; none of other places.
fn numbered(state: &State, [_, place, number]: Written) -> Option<bool> {
    match state.standing_fall() {
        _ if place != 1 || number == 0 => None,
        1 => Some(true),
        0 => Some(false),
        _ => None,
    }
}

/// Whether a cost of a place that has to be in order is one past its neighbours', or none if it is equal to neither and not past by one; none in
/// the multidirectional search, which holds no order.
pub fn past(state: &State, line: Written) -> Option<bool> {
    let [part, place, value] = line;
    if state.method() != NELDER_MEAD {
        return None;
    }
    if part == 11 {
        return numbered(state, line);
    }
    let held = |place| match part {
        5 => state.standing(place),
        _ => state.gathered(place),
    };
    let vertices = match part {
        5 => state.standing_vertices(),
        6 => state.gathered_vertices(),
        _ => 0,
    };
    if place > vertices || value > DARK {
        return None;
    }
    let below = (place > 1).then(|| held(place - 1));
    let above = (place < vertices).then(|| held(place + 1));
    if below.is_some_and(|cost| value + 1 == cost) || above.is_some_and(|cost| value == cost + 1) {
        return Some(true);
    }
    (below == Some(value) || above == Some(value)).then_some(false)
}
