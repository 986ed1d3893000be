//! Numbers of readings written at any place, and two kinds of made-up searches that go by a number: one whose standing places are looked at
//! only where place 1 has a number, and one that builds without a vertex.

use crate::costs::DARK;
use crate::courses;
use crate::random::Random;
use crate::script::Script;
use crate::state::{State, Written};
use crate::writes::{about, place, HUGE};

/// None, the first reading's, the last's, the next's or one beside it, any or a huge one.
fn number(random: &mut Random, state: &State) -> u64 {
    let readings = state.readings();
    let next = readings.wrapping_add(1);
    let any = random.next();
    let huge = random.pick(&HUGE);
    let beside = about(random, next);
    random.pick(&[
        0, 0, 1, 1, readings, readings, next, next, beside, any, huge,
    ])
}

pub fn standing(random: &mut Random, state: &State) -> Written {
    let at = place(random, state.n().saturating_add(1));
    [11, at, number(random, state)]
}

/// The number that says whether a simplex stands.
pub fn first_standing(random: &mut Random, state: &State) -> Written {
    [11, 1, number(random, state)]
}

pub fn gathered(random: &mut Random, state: &State) -> Written {
    let at = place(random, state.gathered_vertices());
    [12, at, number(random, state)]
}

/// The number of r, as it is held.
pub fn held(random: &mut Random, state: &State) -> Written {
    [12, 1, number(random, state)]
}

pub fn best(random: &mut Random, state: &State) -> Written {
    [13, 0, number(random, state)]
}

/// A cost at the edge of the order of standing places or one past it, while place 1 has a number or none; calls after each line.
pub fn order(script: &mut Script, random: &mut Random) {
    if !script.goes_on() {
        return;
    }
    let before = script.state();
    between_iterations(script, random);
    if random.one_in(2) {
        script.write([3, 1, random.pick(&[0, 0, 1, before.budget()])]);
    }
    script.write([11, 1, 0]);
    let at = random.between(1, before.n());
    let cost = before.standing(at + 1) + random.below(2);
    script.write([5, at, cost.min(DARK)]);
    calls(script, random);
    let last = script.state().readings();
    let number = random.pick(&[last, 1, 1 << 32, before.standing_number(1)]);
    script.write([11, 1, number]);
    calls(script, random);
    if random.one_in(2) {
        script.write(before.undoing([5, at, 0]));
    }
    let first = before.undoing([11, 1, 0]);
    script.write(random.pick(&[first, [11, 1, 0], [11, 1, 1]]));
    calls(script, random);
    if !script.goes_on() {
        script.write([5, at, script.state().standing(at + 1)]);
        script.write([11, 1, 0]);
    }
}

/// Goes to a build or a probe round in most cases, where nothing is asked of places that are not read.
fn between_iterations(script: &mut Script, random: &mut Random) {
    let state = script.state();
    let n = state.n();
    if [0, 6].contains(&state.phase()) || random.one_in(4) {
        return;
    }
    let vertices = random.between(1, n);
    let probes = random.below(2 * n);
    script.write(random.pick(&[[4, 0, vertices], [4, 6, probes]]));
    if !script.goes_on() {
        script.write(state.undoing([4, 0, 0]));
    }
}

/// An ask, a best and at times tells, one of them refused.
fn calls(script: &mut Script, random: &mut Random) {
    script.ask();
    script.best();
    if random.one_in(3) {
        courses::refused(script, random);
    }
    if random.one_in(2) {
        script.tell(script.next_number(), random.below(40));
        script.show();
    }
}

/// A build without a vertex, where no reading is told and where some are, after builds and after none.
pub fn first_vertex(script: &mut Script, random: &mut Random) {
    if !script.goes_on() {
        return;
    }
    let before = script.state();
    let most = before.budget();
    script.write([3, 1, random.pick(&[0, 0, 1, before.builds(), most])]);
    script.write([3, 7, random.pick(&[0, 0, 5.min(most), before.count(7)])]);
    script.write([2, 0, 0]);
    script.write([4, 0, 0]);
    for readings in random.pick(&[[1, 0], [0, 1], [most - 1, 0], [0, 0]]) {
        script.write([2, 0, readings]);
        calls(script, random);
    }
    script.write([2, 0, 0]);
    script.tell(script.next_number(), random.below(40));
    script.show();
    for vertices in random.pick(&[[0, 1], [1, 0], [1, 1]]) {
        let detail = script.state().undoing([4, 0, 0]);
        script.write([4, 0, vertices]);
        calls(script, random);
        script.write(detail);
    }
}
