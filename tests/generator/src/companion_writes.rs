//! Lines that write one part of a multidirectional search: at the edge of each cause of refusal 12 and past it, and such after which most
//! searches go on.

use crate::costs::DARK;
use crate::mild;
use crate::numbers;
use crate::openings::{self, MOVED, SIZE, SPREAD};
use crate::random::Random;
use crate::state::{State, Written};
use crate::writes::{self, about, Draw, HUGE};

const EDGES: [Draw; 16] = [
    reflection,
    reflection,
    companion,
    companion,
    number_of_asked,
    number_of_asked,
    low,
    low,
    high,
    high,
    no_number,
    count,
    count,
    rule,
    method,
    stops,
];

const MILD: [Draw; 18] = [
    mild::phase_of_probe,
    mild_phase,
    mild_phase,
    mild_phase,
    mild_count,
    mild::mild_readings,
    mild::last_budget,
    mild::last_budget,
    cost_of_base,
    cost_of_base,
    told,
    told,
    numbers::gathered,
    numbers::best,
    stops,
    stops,
    unread,
    unread,
];

/// A line at an edge of what only this search has.
pub fn at_an_edge(random: &mut Random, state: &State) -> Written {
    random.pick(&EDGES)(random, state)
}

/// A line after which most searches go on.
pub fn mild_line(random: &mut Random, state: &State) -> Written {
    random.pick(&MILD)(random, state)
}

/// A number of a reflection or a companion at an edge.
fn number(random: &mut Random, state: &State) -> u64 {
    let n = state.n();
    let huge = random.pick(&HUGE);
    let beyond = n.wrapping_add(1);
    random.pick(&[0, 0, 0, 1, n, n, beyond, beyond, beyond, huge])
}

fn reflection(random: &mut Random, state: &State) -> Written {
    [4, 10, number(random, state)]
}

/// Any companion, one that is unread, one that is read.
fn companion(random: &mut Random, state: &State) -> Written {
    let any = number(random, state);
    let some = random.between(1, state.n().clamp(1, 8));
    [4, 11, random.pick(&[any, any, some])]
}

/// The number at the place of the companion that is asked, or of another.
fn number_of_asked(random: &mut Random, state: &State) -> Written {
    let some = random.between(1, state.n().clamp(1, 8));
    let asked = match state.phase() {
        11 => state.detail().clamp(1, 8),
        _ => some,
    };
    let last = state.readings();
    let huge = random.pick(&HUGE);
    [11, asked + 1, random.pick(&[0, 0, 1, last, last, huge])]
}

/// The companions' coordinates on an axis.
fn coordinates(state: &State, axis: u64) -> impl Iterator<Item = f64> + '_ {
    let at = axis as usize - 1;
    (2..=state.n().min(8) + 1).map(move |place| f64::from_bits(state.standing_point(place)[at]))
}

/// An axis, most often a ring where there is one, and the least and the greatest coordinate that companions have on it.
fn reach(random: &mut Random, state: &State) -> (u64, f64, f64) {
    let n = state.n().clamp(1, 8);
    let rings: Vec<u64> = (1..=n).filter(|axis| state.ring(*axis) == 1).collect();
    let axis = match rings.is_empty() || random.one_in(3) {
        true => random.between(1, n),
        false => random.pick(&rings),
    };
    let least = coordinates(state, axis).fold(f64::INFINITY, f64::min);
    let most = coordinates(state, axis).fold(f64::NEG_INFINITY, f64::max);
    (axis, least, most)
}

/// lo at the least coordinate of the companions, or one past it.
fn low(random: &mut Random, state: &State) -> Written {
    let (axis, least, most) = reach(random, state);
    let v = random.pick(&[least, least, least.next_up(), least.next_up(), most]);
    [9, axis, v.to_bits()]
}

/// hi at the greatest, or one past it: on a ring it must be above.
fn high(random: &mut Random, state: &State) -> Written {
    let (axis, _, most) = reach(random, state);
    let edge = match state.ring(axis) {
        1 => most.next_up(),
        _ => most,
    };
    let v = random.pick(&[edge, edge, edge.next_down(), edge.next_down()]);
    [10, axis, v.to_bits()]
}

fn no_number(random: &mut Random, state: &State) -> Written {
    let nan = random.pick(&[f64::NAN, -f64::NAN]);
    let axis = random.between(1, state.n().clamp(1, 8));
    [random.pick(&[9, 10]), axis, nan.to_bits()]
}

fn count(random: &mut Random, state: &State) -> Written {
    let budget = state.budget();
    let beyond = budget.wrapping_add(1);
    let huge = random.pick(&HUGE);
    let value = random.pick(&[budget, budget, beyond, beyond, 0, 1, huge]);
    [3, random.pick(&[8, 9]), value]
}

/// Another rule with an E that it may have, or the same one.
fn rule(random: &mut Random, _: &State) -> Written {
    let rule = random.pick(&[SPREAD, MOVED, SIZE]);
    [8, rule, openings::threshold(random, rule)]
}

fn method(random: &mut Random, _: &State) -> Written {
    [15, 0, random.below(2)]
}

/// The stops at a place: none, few, as many as there are axes, or huge.
fn stops(random: &mut Random, state: &State) -> Written {
    let place = writes::place(random, state.n().saturating_add(1));
    let any = random.between(0, 8);
    let huge = random.pick(&HUGE);
    [16, place, random.pick(&[any, any, any, any, any, huge])]
}

/// Any phase of this search, with a detail that it may have; of a base any.
fn mild_phase(random: &mut Random, state: &State) -> Written {
    let n = state.n().clamp(1, 8);
    let any = random.next();
    let i = random.between(1, n);
    let unread = (1..=n).filter(|i| state.standing_number(i + 1) == 0);
    let unread: Vec<u64> = unread.collect();
    match random.below(5) {
        0 => [4, 9, random.pick(&[0, 1, any])],
        1 | 2 if !unread.is_empty() => [4, 11, random.pick(&unread)],
        _ => [4, 10, random.pick(&[i, i, n])],
    }
}

/// The line that asks an unread companion, or where there is none the last reflection.
pub fn asking(random: &mut Random, state: &State) -> Written {
    let n = state.n();
    let unread = (1..=n).filter(|i| state.standing_number(i + 1) == 0);
    match unread.collect::<Vec<u64>>() {
        none if none.is_empty() => [4, 10, n],
        unread => [4, 11, random.pick(&unread)],
    }
}

fn mild_count(random: &mut Random, state: &State) -> Written {
    let which = random.pick(&[1, 6, 7, 8, 8, 9, 9]);
    let value = random.pick(&[0, 0, 1, state.budget().wrapping_sub(1), state.budget()]);
    [3, which, value]
}

/// The base's cost: about the best's, or any.
fn cost_of_base(random: &mut Random, state: &State) -> Written {
    let any = random.between(0, DARK);
    let beside = about(random, state.best()).min(DARK);
    [5, 1, random.pick(&[beside, beside, any, 0, DARK])]
}

/// The cost of a companion or of a reflection that was told, whether it was or not.
fn told(random: &mut Random, state: &State) -> Written {
    let place = writes::place(random, state.n().saturating_add(1));
    let any = random.between(0, DARK);
    let beside = about(random, state.standing(1)).min(DARK);
    let part = random.pick(&[5, 6, 6]);
    [part, place.max(part % 2 + 1), random.pick(&[any, beside])]
}

/// A companion's number: none, or some.
fn unread(random: &mut Random, state: &State) -> Written {
    let place = random.between(2, state.n().clamp(1, 8) + 1);
    let past = random.between(1, 9);
    let last = state.readings();
    [
        11,
        random.pick(&[place, place, place, past]),
        random.pick(&[0, 0, 1, last]),
    ]
}
