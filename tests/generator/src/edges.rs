//! Thresholds and budgets at the edge: costs planned for the first build and iteration, and the rule's E set where its inequality is an
//! equality there, or next to it; costs planned for a whole search, and the budget set at the reading that settles it, or next to it.

use crate::axes::RANGE;
use crate::costs::Costs;
use crate::habits::MULTIDIRECTIONAL;
use crate::openings::{Opening, MOST_BUDGET, MOST_SPREAD, MOVED, SIZE, SPREAD};
use crate::random::Random;
use crate::state::State;

type Point = [f64; 8];

/// Sets the threshold of the opening's rule, and answers the costs that meet it.
pub fn plan(random: &mut Random, opening: &mut Opening) -> Vec<u64> {
    match opening.rule {
        _ if opening.method == MULTIDIRECTIONAL => companions(random, opening),
        SPREAD => spread(random, opening),
        MOVED => moved(random, opening),
        SIZE => size(random, opening),
        _ => unnamed(random, opening),
    }
}

/// Leads the search with no budget in its way. If it settles within so many tells, sets the budget there or one beside it, and answers
/// all its costs; else leaves the opening and answers none.
pub fn plan_budget(
    random: &mut Random,
    opening: &mut Opening,
    costs: &mut Costs,
    tells: u64,
) -> Vec<u64> {
    let mut told = Vec::new();
    let Ok(mut search) = (Opening {
        budget: MOST_BUDGET,
        ..*opening
    })
    .open() else {
        return told;
    };
    while let Some(trial) = search.ask().ok().filter(|trial| trial.number <= tells) {
        told.push(costs.next(random, &trial.point));
        costs.tell(told[told.len() - 1]);
        let _ = search.tell(trial.number, told[told.len() - 1]);
    }
    if !search.has_ended() {
        return Vec::new();
    }
    let settled = told.len() as u64;
    opening.budget = random.pick(&[settled, settled, settled - 1, settled + 1]);
    told
}

fn planned_spread(costs: &[u64]) -> u128 {
    let m = costs.len() as u128;
    let sum: u128 = costs.iter().map(|c| u128::from(*c)).sum();
    let squares: u128 = costs.iter().map(|c| u128::from(*c) * u128::from(*c)).sum();
    m * squares - sum * sum
}

fn spread(random: &mut Random, opening: &mut Opening) -> Vec<u64> {
    let n = opening.n;
    let whole = n * (n + 1);
    let (unit, most) = random.pick(&[
        (whole, 3),
        (whole, 40),
        (whole, 900),
        (1, 7),
        (1, 900),
        (1, 200_000),
    ]);
    let base = random.pick(&[0, 10, 16_000_000]);
    let costs: Vec<u64> = (0..=n).map(|_| base + unit * random.below(most)).collect();
    let edge = planned_spread(&costs) / u128::from(n * (n + 1)) + u128::from(random.below(2));
    opening.threshold = edge.clamp(1, u128::from(MOST_SPREAD)) as u64;
    costs
}

/// No rule named is spread 4: costs of that spread, less or more.
fn unnamed(random: &mut Random, opening: &Opening) -> Vec<u64> {
    let wanted = 4 * u128::from(opening.n * (opening.n + 1));
    let most = random.between(3, 7);
    let draws = (0..40).map(|_| {
        (0..=opening.n)
            .map(|_| 90 + random.below(most))
            .collect::<Vec<u64>>()
    });
    let mut draws: Vec<Vec<u64>> = draws.collect();
    draws.sort_by_key(|costs| planned_spread(costs).abs_diff(wanted));
    draws.swap_remove(0)
}

/// The trials that an opening asks as these costs are told.
fn trials(opening: &Opening, costs: &[u64]) -> Vec<Point> {
    let mut points = Vec::new();
    let Ok(mut search) = opening.open() else {
        return points;
    };
    for (number, cost) in (1..).zip(costs) {
        points.extend(search.ask().map(|trial| trial.point));
        let _ = search.tell(number, *cost);
    }
    points
}

/// Distinct costs of a first build: 100, 200 and so on, in any order.
fn built(random: &mut Random, n: u64) -> Vec<u64> {
    let mut costs: Vec<u64> = (1..=n + 1).map(|place| place * 100).collect();
    random.shuffle(&mut costs);
    costs
}

/// The least threshold that meets the rule, sought about v, or the one below it, which does not; if moved and size take it.
fn about(random: &mut Random, v: f64, meets: impl Fn(f64) -> bool) -> u64 {
    let below = (0..8).fold(v, |v, _| v.next_down());
    let candidates = (0..16).scan(below, |v, _| {
        *v = v.next_up();
        Some(*v)
    });
    let least = candidates.into_iter().find(|e| meets(*e)).unwrap_or(v);
    let edge = random.pick(&[
        least,
        least,
        least.next_down(),
        least.next_down(),
        least.next_up(),
    ]);
    let fits = 0.0 < edge && edge <= RANGE;
    if fits { edge } else { 0.001 }.to_bits()
}

/// The costs that follow a build of 100, 200 and so on: a reflection, both expansions, both contractions or a shrink; with them the
/// trial that is taken, from the first after the build, or none for a shrink.
fn iteration(random: &mut Random, n: u64) -> (Vec<u64>, Option<usize>) {
    let worst = (n + 1) * 100;
    match random.below(10) {
        0 if n > 1 => (vec![150], Some(0)),
        1 => (vec![50, 40], Some(1)),
        2 => (vec![50, 50], Some(0)),
        3 => (vec![worst - 1, worst - 1], Some(1)),
        4 => (vec![worst, worst - 1], Some(1)),
        _ => (
            [worst, worst]
                .into_iter()
                .chain((0..n).map(|_| random.between(90, worst)))
                .collect(),
            None,
        ),
    }
}

fn moved(random: &mut Random, opening: &mut Opening) -> Vec<u64> {
    let mut costs = built(random, opening.n);
    let (after, taken) = iteration(random, opening.n);
    let vertices = costs.len();
    costs.extend(after);
    let points = trials_unmet(opening, &costs);
    if points.len() == costs.len() {
        let (old, new) = replaced(&costs[..vertices], &points, taken);
        let sum = old
            .iter()
            .zip(new)
            .fold(0.0, |sum, (old, new)| distance(sum, old, new));
        let n = opening.n as f64;
        opening.threshold = about(random, sum / n, |e| sum < e * n);
    }
    costs
}

/// The trials of these costs where the rule is not met and the budget not spent.
fn trials_unmet(opening: &mut Opening, costs: &[u64]) -> Vec<Point> {
    opening.threshold = f64::from_bits(1).to_bits();
    let unspent = Opening {
        budget: MOST_BUDGET,
        ..*opening
    };
    trials(&unspent, costs)
}

/// The vertices that the iteration replaces, in place order, and the points that replace them.
fn replaced<'a>(
    costs: &[u64],
    points: &'a [Point],
    taken: Option<usize>,
) -> (Vec<&'a Point>, Vec<&'a Point>) {
    let vertices = costs.len();
    let mut order: Vec<usize> = (0..vertices).collect();
    order.sort_by_key(|i| costs[*i]);
    let worst = order[vertices - 1];
    match taken {
        Some(trial) => (vec![&points[worst]], vec![&points[vertices + trial]]),
        None => (
            order[1..].iter().map(|i| &points[*i]).collect(),
            points[vertices + 2..].iter().collect(),
        ),
    }
}

/// The running sum with the squared axis differences of two points added.
fn distance(sum: f64, one: &Point, other: &Point) -> f64 {
    one.iter()
        .zip(other)
        .fold(sum, |sum, (a, b)| sum + (a - b) * (a - b))
}

fn size(random: &mut Random, opening: &mut Opening) -> Vec<u64> {
    let costs = built(random, opening.n);
    let points = trials_unmet(opening, &costs);
    if let Some(first) = costs
        .iter()
        .position(|cost| *cost == 100)
        .filter(|i| *i < points.len())
    {
        let least = &points[first];
        let scale = distance(0.0, least, &[0.0; 8]).max(1.0);
        let farthest = points
            .iter()
            .map(|point| distance(0.0, point, least))
            .fold(0.0, f64::max);
        opening.threshold = about(random, (farthest / scale).sqrt(), |e| {
            farthest <= (e * e) * scale
        });
    }
    costs
}

/// Costs that end one to three multidirectional iterations, each by a swap or a halving, and the size that the companions have then.
fn companions(random: &mut Random, opening: &mut Opening) -> Vec<u64> {
    let mut costs = Vec::new();
    let unmet = Opening {
        threshold: f64::from_bits(1).to_bits(),
        budget: MOST_BUDGET,
        ..*opening
    };
    let Ok(mut search) = unmet.open() else {
        return costs;
    };
    let iterations = random.between(1, 3);
    let odds = random.pick(&[2, 2 * opening.n + 1, 1000, 1000]);
    let mut base = 100;
    let mut state = State::of(&search);
    while state.count(8) < iterations && search.ask().is_ok() {
        let lower = !costs.is_empty() && random.one_in(odds);
        base -= u64::from(lower);
        costs.push(base + u64::from(!lower) * random.below(2));
        let _ = search.tell(costs.len() as u64, costs[costs.len() - 1]);
        base = State::of(&search).best();
        state = State::of(&search);
    }
    opening.threshold = size_of(random, &state);
    costs
}

/// The least size that the base and its companions meet, or one beside it.
fn size_of(random: &mut Random, state: &State) -> u64 {
    let point = |place| -> Point {
        let bits = state.standing_point(place);
        std::array::from_fn(|axis| f64::from_bits(bits[axis]))
    };
    let base = point(1);
    let scale = distance(0.0, &base, &[0.0; 8]).max(1.0);
    let far = (2..=state.n() + 1).map(|place| distance(0.0, &point(place), &base));
    let farthest = far.fold(0.0, f64::max);
    about(random, (farthest / scale).sqrt(), |e| {
        farthest <= (e * e) * scale
    })
}
