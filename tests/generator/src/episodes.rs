//! Two kinds of made-up searches that chance alone seldom meets: points outside the limits, and thresholds at the edge.

use crate::costs::DARK;
use crate::habits::MULTIDIRECTIONAL;
use crate::openings::{MOST_SPREAD, MOVED, SIZE, SPREAD};
use crate::random::Random;
use crate::script::Script;
use crate::state::{State, Written};
use rival::Search;

/// A restart on fewer axes, whose point is 0 on the others, and builds and probes around it on all axes again.
pub fn outside_the_limits(script: &mut Script, random: &mut Random) {
    let n = script.state().n();
    if n < 2 || !script.goes_on() {
        return;
    }
    let fewer = random.between(1, n - 1);
    script.write([0, 0, fewer]);
    script.write([4, 6, random.below(2 * fewer)]);
    script.write([7, 0, DARK]);
    script.tell(script.next_number(), random.below(9));
    script.write([0, 0, n]);
    script.write([6, 1, 0]);
    for _ in 0..random.between(2, 6) {
        let vertices = random.between(fewer, n);
        let probes = random.between(2 * fewer, 2 * n - 1);
        script.write(random.pick(&[[4, 0, vertices], [4, 6, probes]]));
        script.ask();
        if random.one_in(3) {
            script.tell(script.next_number(), 9 + random.below(9));
            script.ask();
        }
    }
}

/// A threshold that the end of the piece under way meets just so, or just does not, as costs are told; half of the time in a shrink of
/// which any number of vertices is written.
pub fn at_a_threshold(script: &mut Script, random: &mut Random) {
    if !script.goes_on() {
        return;
    }
    let n = script.state().n();
    let own = script.state().method() == MULTIDIRECTIONAL;
    if own {
        halving(script, random);
    } else if random.one_in(2) {
        script.write([4, 5, random.between(1, n)]);
    }
    let most = random.pick(&[5, 100, DARK]);
    let costs: Vec<u64> = (0..n + 3).map(|_| random.between(0, most)).collect();
    let rule = match own {
        true => SIZE,
        false => random.pick(&[SPREAD, MOVED, MOVED, SIZE]),
    };
    if let Some(line) = threshold(random, script.search(), rule, &costs) {
        script.write(line);
    }
    for cost in costs {
        script.tell(script.next_number(), cost);
        script.ask();
    }
}

/// In half of the searches the last companion is asked that is unread, so that it swaps or all are halved.
fn halving(script: &mut Script, random: &mut Random) {
    let state = script.state();
    let unread = (1..=state.n()).rfind(|i| state.standing_number(i + 1) == 0);
    if let Some(i) = unread.filter(|_| random.one_in(2)) {
        script.write([4, 11, i]);
        script.write([5, 1, random.pick(&[0, 3, DARK])]);
    }
}

/// The least threshold that is met, or the one below it; none if none is met.
fn threshold(random: &mut Random, search: &Search, rule: u64, costs: &[u64]) -> Option<Written> {
    let mut least = match rule {
        SPREAD => MOST_SPREAD,
        _ => f64::MAX.to_bits(),
    };
    if !meets(search, [8, rule, least], costs) {
        return None;
    }
    let mut unmet = 0;
    while unmet < least {
        let middle = unmet + (least - unmet) / 2;
        match meets(search, [8, rule, middle], costs) {
            true => least = middle,
            false => unmet = middle + 1,
        }
    }
    let below = least.saturating_sub(1);
    Some([8, rule, random.pick(&[least, below])])
}

/// Whether the rule is met at the end of the piece under way.
fn meets(search: &Search, [part, which, value]: Written, costs: &[u64]) -> bool {
    let mut search = search.clone();
    search.write_part(part, which, value);
    let before = finished(&State::of(&search));
    for cost in costs {
        let Ok(trial) = search.ask() else {
            return false;
        };
        let _ = search.tell(trial.number, *cost);
        let state = State::of(&search);
        if finished(&state) != before {
            return state.phase() == 6;
        }
    }
    false
}

/// The builds and iterations that are finished.
fn finished(state: &State) -> u64 {
    let counts = [1, 2, 3, 4, 5, 8].map(|which| state.count(which));
    counts.into_iter().fold(0, u64::wrapping_add)
}
