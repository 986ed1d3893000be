//! Lines that write one part of a search, after which most searches go on.

use crate::costs::DARK;
use crate::numbers;
use crate::random::Random;
use crate::script::Script;
use crate::state::{State, Written};
use crate::writes::{about, limit, threshold, Draw};

const MILD: [Draw; 16] = [
    other_axes,
    other_axes,
    phase,
    phase,
    phase,
    mild_count,
    mild_readings,
    last_budget,
    mild_cost,
    threshold,
    limit,
    held_cost,
    held_cost,
    numbers::standing,
    numbers::gathered,
    numbers::best,
];

/// A line after which most searches go on.
pub fn line(random: &mut Random, state: &State) -> Written {
    random.pick(&MILD)(random, state)
}

fn other_axes(random: &mut Random, _: &State) -> Written {
    [0, 0, random.between(1, 8)]
}

/// Any phase written; where r is held in it, most often with a cost for r, and at times with a number.
pub fn enter(script: &mut Script, random: &mut Random) {
    let state = script.state();
    script.write(phase(random, &state));
    if script.state().holds_r() && !random.one_in(4) {
        script.write(held_cost(random, &state));
        if random.one_in(2) {
            script.write(numbers::held(random, &state));
        }
    }
}

/// Any phase, with a detail that it may have, or with one that is not read.
pub fn phase(random: &mut Random, state: &State) -> Written {
    let n = state.n().clamp(1, 8);
    let least = u64::from(state.readings() > 0);
    let any = random.next();
    let unread = random.pick(&[0, 1, DARK + 1, any]);
    match random.below(8) {
        0 | 1 => [4, 0, random.between(least, n)],
        2 => [4, 1, 0],
        3 => [4, 6, random.below(2 * n)],
        4 => [4, 5, random.between(1, n)],
        phase => [4, phase - 3, unread],
    }
}

pub fn phase_of_probe(random: &mut Random, state: &State) -> Written {
    [4, 6, random.below(2 * state.n().clamp(1, 8))]
}

/// A cost at the first gathered place, about one that stands.
fn held_cost(random: &mut Random, state: &State) -> Written {
    let held = state.standing(random.between(1, state.n().clamp(1, 8) + 1));
    [6, 1, about(random, held).min(DARK)]
}

fn mild_count(random: &mut Random, state: &State) -> Written {
    let which = random.between(1, 9);
    let value = random.pick(&[0, 0, 1, state.budget().wrapping_sub(1), state.budget()]);
    [3, which, value]
}

pub fn mild_readings(random: &mut Random, state: &State) -> Written {
    let any = random.below(state.budget().max(1));
    [2, 0, random.pick(&[0, 0, 0, any])]
}

/// A budget that is about to be spent.
pub fn last_budget(random: &mut Random, state: &State) -> Written {
    [1, 0, state.readings().wrapping_add(random.between(1, 6))]
}

/// A cost changed to one that keeps the order, or the best's to any.
fn mild_cost(random: &mut Random, state: &State) -> Written {
    let place = random.between(1, 9);
    let any = random.between(0, DARK);
    match random.below(5) {
        0 | 1 => [7, 0, random.pick(&[0, DARK, any, state.standing(1)])],
        2 => [5, 1, random.below(state.standing(1).saturating_add(1))],
        3 => [6, place, any],
        _ => [5, place, state.standing(place.min(8) + 1)],
    }
}
