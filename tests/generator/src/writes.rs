//! Lines that write one part of a search: at the edge of each cause of refusal 12, one past it and far from it.

use crate::costs::DARK;
use crate::numbers;
use crate::openings::{self, MOST_BUDGET, MOST_SPREAD, MOVED, SIZE, SPREAD};
use crate::random::Random;
use crate::state::{State, Written};

pub type Draw = fn(&mut Random, &State) -> Written;

/// Huge numbers, some of which are small in their low 32 bits.
pub const HUGE: [u64; 4] = [u64::MAX, 1 << 63, 1 << 32, (1 << 32) + 1];

const EDGES: [Draw; 31] = [
    axes,
    axes,
    budget,
    budget,
    readings,
    count,
    count,
    count,
    spread,
    threshold,
    built,
    built,
    shrunk,
    probed,
    cost_of_r,
    other_phase,
    standing_cost,
    standing_cost,
    gathered_cost,
    gathered_cost,
    best,
    standing_order,
    standing_order,
    gathered_order,
    gathered_order,
    past_order,
    limit,
    numbers::standing,
    numbers::gathered,
    numbers::best,
    numbers::first_standing,
];

/// A line at an edge or past it.
pub fn at_an_edge(random: &mut Random, state: &State) -> Written {
    random.pick(&EDGES)(random, state)
}

/// A number, one below or one above.
pub fn about(random: &mut Random, v: u64) -> u64 {
    random.pick(&[v.wrapping_sub(1), v, v.wrapping_add(1)])
}

fn axes(random: &mut Random, state: &State) -> Written {
    let n = state.n();
    let any = random.between(1, 8);
    let huge = random.pick(&HUGE);
    let beside = about(random, n);
    [
        0,
        0,
        random.pick(&[0, 0, 1, 8, 8, 9, 9, beside, any, huge, (1 << 32) + any]),
    ]
}

fn budget(random: &mut Random, state: &State) -> Written {
    let told = state.readings();
    let most = (1..=9).map(|which| state.count(which)).max().unwrap_or(0);
    let counted = about(random, most);
    let huge = random.pick(&HUGE);
    let next = told.wrapping_add(1);
    let over = MOST_BUDGET + 1;
    let values = [
        told,
        told,
        next,
        next,
        MOST_BUDGET,
        MOST_BUDGET,
        over,
        over,
        0,
        counted,
        huge,
    ];
    [1, 0, random.pick(&values)]
}

fn readings(random: &mut Random, state: &State) -> Written {
    let budget = state.budget();
    let last = budget.wrapping_sub(1);
    let beyond = budget.wrapping_add(1);
    let huge = random.pick(&HUGE);
    [
        2,
        0,
        random.pick(&[last, last, budget, budget, 0, 0, beyond, huge]),
    ]
}

fn count(random: &mut Random, state: &State) -> Written {
    let budget = state.budget();
    let beyond = budget.wrapping_add(1);
    let huge = random.pick(&HUGE);
    let value = random.pick(&[budget, budget, beyond, beyond, 0, 1, huge]);
    [3, random.between(1, 9), value]
}

fn spread(random: &mut Random, _: &State) -> Written {
    let huge = random.pick(&HUGE);
    let over = MOST_SPREAD + 1;
    [
        8,
        SPREAD,
        random.pick(&[MOST_SPREAD, MOST_SPREAD, over, over, 0, 1, huge]),
    ]
}

/// Any threshold, of which those of moved and size are no cause.
pub fn threshold(random: &mut Random, _: &State) -> Written {
    let rule = random.pick(&[SPREAD, MOVED, SIZE]);
    let any = random.next();
    let odd = [
        f64::NAN.to_bits(),
        u64::MAX,
        f64::INFINITY.to_bits(),
        (-0.0f64).to_bits(),
        (-1.0f64).to_bits(),
        f64::MAX.to_bits(),
        0,
        any,
    ];
    let value = match random.below(3) {
        0 if rule != SPREAD => random.pick(&odd),
        _ => openings::threshold(random, rule),
    };
    [8, rule, value]
}

/// A limit that is no cause either: any axis's, also past n, at the other limit or beside it, or odd.
pub fn limit(random: &mut Random, state: &State) -> Written {
    let axis = random.between(1, 8);
    let [lo, hi] = state.limits(axis).map(f64::from_bits);
    let any = f64::from_bits(random.next());
    let value = random.pick(&[
        lo,
        hi,
        lo.next_up(),
        hi.next_down(),
        -lo,
        -0.0,
        f64::NAN,
        f64::INFINITY,
        f64::NEG_INFINITY,
        any,
    ]);
    [random.pick(&[9, 10]), axis, value.to_bits()]
}

/// A number of vertices or probes at an edge.
fn number(random: &mut Random, state: &State) -> u64 {
    let n = state.n();
    let whole = n.wrapping_mul(2);
    let huge = random.pick(&HUGE);
    let beyond = n.wrapping_add(1);
    let values = [
        0,
        0,
        1,
        n,
        n,
        beyond,
        beyond,
        whole.wrapping_sub(1),
        whole,
        huge,
    ];
    random.pick(&values)
}

fn built(random: &mut Random, state: &State) -> Written {
    [4, 0, number(random, state)]
}

fn shrunk(random: &mut Random, state: &State) -> Written {
    [4, 5, number(random, state)]
}

fn probed(random: &mut Random, state: &State) -> Written {
    let whole = state.n().wrapping_mul(2);
    let any = number(random, state);
    let last = whole.wrapping_sub(1);
    [4, 6, random.pick(&[last, last, whole, whole, any])]
}

/// A cost at the greatest one, above it, or about one that is held.
fn high(random: &mut Random) -> u64 {
    let huge = random.pick(&HUGE);
    random.pick(&[DARK, DARK, DARK, DARK + 1, DARK + 1, DARK + 1, huge, 0])
}

/// A cost at the first gathered place, where r would be held.
fn cost_of_r(random: &mut Random, state: &State) -> Written {
    let held = state.standing(random.between(1, 9));
    let beside = about(random, held);
    let high = high(random);
    [6, 1, random.pick(&[high, high, held, beside])]
}

/// A phase that has no detail, though a detail is written.
fn other_phase(random: &mut Random, _: &State) -> Written {
    let any = random.next();
    let detail = random.pick(&[0, 5, DARK + 1, any]);
    [4, random.pick(&[1, 1, 2, 3, 4, 7, 8]), detail]
}

/// Any place, the last of so many, or one past them.
pub fn place(random: &mut Random, vertices: u64) -> u64 {
    let any = random.between(1, 9);
    random.pick(&[any, any, vertices.clamp(1, 9), vertices.min(8) + 1, 9])
}

fn standing_cost(random: &mut Random, state: &State) -> Written {
    let vertices = state.n().saturating_add(1);
    [5, place(random, vertices), high(random)]
}

fn gathered_cost(random: &mut Random, state: &State) -> Written {
    [6, place(random, state.gathered_vertices()), high(random)]
}

fn best(random: &mut Random, state: &State) -> Written {
    let beside = about(random, state.best());
    let high = high(random);
    [7, 0, random.pick(&[high, high, high, beside])]
}

/// A place of so many, and a place beside it.
fn neighbours(random: &mut Random, vertices: u64) -> (u64, u64) {
    let first = random.between(1, vertices.clamp(2, 9) - 1);
    random.pick(&[(first, first + 1), (first + 1, first)])
}

/// A standing cost about that of a place beside it.
fn standing_order(random: &mut Random, state: &State) -> Written {
    let (place, beside) = neighbours(random, state.n().saturating_add(1));
    [5, place, about(random, state.standing(beside))]
}

fn gathered_order(random: &mut Random, state: &State) -> Written {
    let (place, beside) = neighbours(random, state.gathered_vertices());
    [6, place, about(random, state.gathered(beside))]
}

/// A cost out of order past the vertices, which is no cause.
fn past_order(random: &mut Random, state: &State) -> Written {
    let (part, vertices) = random.pick(&[
        (5, state.n().saturating_add(1)),
        (6, state.gathered_vertices()),
    ]);
    let place = vertices.min(8) + 1;
    let last = match part {
        5 => state.standing(place.max(2) - 1),
        _ => state.gathered(place.max(2) - 1),
    };
    [part, place, random.pick(&[last.wrapping_sub(1), 0, last])]
}
