//! Made-up searches in the midst of an iteration: the vertex at the first gathered place, where r is held, changed while e or a contraction
//! is asked, and costs told about the one that is held there.

use crate::costs::DARK;
use crate::numbers;
use crate::random::Random;
use crate::script::Script;
use crate::state::{State, Written};

/// Lines written while r is held, an ask and a tell after them, and what came of it; once or more.
pub fn episode(script: &mut Script, random: &mut Random) {
    for _ in 0..random.between(1, 4) {
        if !script.goes_on() || !reached(script, random) {
            return;
        }
        let before = script.state();
        for _ in 0..random.pick(&[1, 1, 2, 3]) {
            let line = line(random, &script.state());
            script.write(line);
        }
        script.ask();
        tell(script, random);
        script.show();
        if random.one_in(2) {
            let limits = (1..=8).flat_map(|axis| [[9, axis, 0], [10, axis, 0]]);
            limits.for_each(|line| script.write(before.undoing(line)));
        }
    }
}

/// Goes where r is held: by the cost of r, or by a phase that is written. Says whether a tell can be made there.
fn reached(script: &mut Script, random: &mut Random) -> bool {
    if !script.state().holds_r() && random.one_in(3) {
        script.write([4, 1, random.below(3)]);
    }
    let state = script.state();
    if state.phase() == 1 && !random.one_in(4) {
        tell_r(script, random, &state);
    } else if !state.holds_r() || random.one_in(4) {
        script.write([4, random.between(2, 4), random.below(3)]);
    }
    script.goes_on() && script.state().holds_r()
}

/// Tells r, at times where gathered places are not blank, and shows how it is held.
fn tell_r(script: &mut Script, random: &mut Random, state: &State) {
    if random.one_in(3) {
        let (one, other) = (random.between(1, 9), random.between(1, 9));
        script.write([6, one, random.below(DARK)]);
        script.write([12, other, random.below(100)]);
    }
    script.tell(script.next_number(), cost_of_r(random, state));
    if random.one_in(2) {
        script.show();
    }
}

/// A cost of r of the first row, the third or the fourth.
fn cost_of_r(random: &mut Random, state: &State) -> u64 {
    let n = state.n();
    let (first, last, worst) = (state.standing(1), state.standing(n), state.standing(n + 1));
    random.pick(&[first.saturating_sub(1), last, worst])
}

/// A line that changes r as it is held, what is asked after it, or a gathered place that is not read.
fn line(random: &mut Random, state: &State) -> Written {
    let n = state.n();
    let other = random.between(2, n + 1);
    let any = random.between(0, DARK);
    match random.below(8) {
        0..=2 => [6, 1, cost(random, state)],
        3 | 4 => numbers::held(random, state),
        5 | 6 => limit(random, state),
        _ => random.pick(&[[6, other, any], [12, other, any], [5, n + 1, DARK]]),
    }
}

/// A cost of r about its own, about a standing one, or any.
fn cost(random: &mut Random, state: &State) -> u64 {
    let place = random.between(1, state.n() + 1);
    let any = random.between(0, DARK);
    let own = state.gathered(1);
    let held = random.pick(&[own, own, state.standing(place), any]);
    random
        .pick(&[held, held + 1, held.saturating_sub(1)])
        .min(DARK)
}

/// A limit about a coordinate of r as it is held, which reflecting would no longer ask then.
fn limit(random: &mut Random, state: &State) -> Written {
    let axis = random.between(1, state.n());
    let r = f64::from_bits(state.gathered_point(1)[axis as usize - 1]);
    let (low, high) = (
        random.pick(&[r.next_up(), r + 1.0, r]),
        random.pick(&[r.next_down(), r - 1.0, r]),
    );
    random.pick(&[[9, axis, low.to_bits()], [10, axis, high.to_bits()]])
}

/// Tells a cost equal to that of r, one beside it, or one about the worst vertex's.
fn tell(script: &mut Script, random: &mut Random) {
    let state = script.state();
    let fr = state.gathered(1);
    let worst = state.standing(state.n().min(8) + 1);
    let (lower, higher) = (fr.saturating_sub(1), fr.saturating_add(1));
    let cost = random.pick(&[
        lower,
        lower,
        fr,
        fr,
        higher,
        higher,
        worst,
        worst.saturating_sub(1),
        state.best(),
    ]);
    script.tell(script.next_number(), cost.min(DARK));
}
