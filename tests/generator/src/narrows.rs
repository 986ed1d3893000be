//! Multidirectional searches that calls alone make between limits so near that companions are clamped, and that ask such companions.

use crate::axes;
use crate::costs::{Costs, DARK};
use crate::habits::MULTIDIRECTIONAL;
use crate::openings::{Opening, MOST_BUDGET, SIZE, USUAL};
use crate::random::Random;
use crate::state::State;
use rival::Axis;

/// An opening, and costs that lead it to clamped companions and on from there.
pub fn search(random: &mut Random) -> (Opening, Costs) {
    let n = random.between(1, 8);
    let opening = Opening {
        method: MULTIDIRECTIONAL,
        n,
        rule: SIZE,
        threshold: random.power(-6, -1).to_bits(),
        coefficients: USUAL,
        budget: random.pick(&[MOST_BUDGET, 1000, 100 + n]),
        axes: std::array::from_fn(|_| narrow(random)),
    };
    let most = 12 * n + random.between(10, 60);
    let planned = steered(random, &opening, most);
    let costs = Costs::of(random, &opening, planned);
    (opening, costs)
}

/// An axis that ends less than three steps on, each way.
fn narrow(random: &mut Random) -> Axis {
    let drawn = |random: &mut Random| {
        let (start, step) = (random.within(-10.0, 10.0), random.within(0.1, 4.0));
        let (down, up) = (random.within(0.0, 2.5), random.within(0.0, 2.5));
        Axis {
            lo: start - step * down,
            hi: start + step * up,
            start,
            step,
            ring: false,
        }
    };
    let found = (0..100).map(|_| drawn(random)).find(axes::fits);
    found.unwrap_or(axes::ROUND)
}

/// Costs for so many readings: lower ones while no companion is clamped on as many axes as it is to be, then none till it is asked.
fn steered(random: &mut Random, opening: &Opening, most: u64) -> Vec<u64> {
    let mut told = Vec::new();
    let Ok(mut search) = opening.open() else {
        return told;
    };
    let wanted = random.pick(&[1, 2, 2]);
    let odds = random.pick(&[2, 3, 5]);
    while let Some(trial) = search.ask().ok().filter(|trial| trial.number <= most) {
        let state = State::of(&search);
        let clamped = (2..=opening.n + 1).any(|place| state.stops(place) >= wanted);
        let base = match state.readings() {
            0 => 1_000_000,
            _ => state.best(),
        };
        let asked = state.phase() == 11 && trial.stops >= wanted;
        let lower = match clamped {
            true => asked && random.one_in(2),
            false => random.one_in(odds),
        };
        let cost = base - u64::from(lower) * random.between(1, 50);
        told.push((cost + u64::from(!lower) * random.below(3)).min(DARK));
        let _ = search.tell(trial.number, told[told.len() - 1]);
    }
    told
}
