//! Any parts written in any order, with any calls between: no call panics, a refused one changes nothing, and a search goes on alike
//! whether what it carries was worked out by calls or anew.

use super::*;
use crate::types::Refusal;

/// A made-up number, most often at an edge.
fn number(search: &Search, seed: &mut u64) -> u64 {
    let n = search.n as u64;
    let any = next(seed).wrapping_mul(next(seed)).wrapping_mul(next(seed));
    let beside = next(seed) % 3;
    match next(seed) % 12 {
        0 => any,
        1 => u64::MAX - beside,
        2 => n.wrapping_add(beside).wrapping_sub(1),
        3 => n.wrapping_mul(2).wrapping_sub(beside),
        4 => search.budget.wrapping_add(beside).wrapping_sub(1),
        5 => search.readings.wrapping_add(beside),
        6 => 16_777_214 + beside,
        7 => 999_999 + beside,
        8 => 4_294_967_294 + beside,
        _ => next(seed) % 20,
    }
}

/// A made-up limit, most often about a coordinate.
fn limit(search: &Search, seed: &mut u64) -> u64 {
    let asked = search.trial.point[next(seed) as usize % 8];
    let limits = [
        asked,
        asked.next_up(),
        asked.next_down(),
        -asked,
        f64::NAN,
        -f64::NAN,
        f64::INFINITY,
        f64::NEG_INFINITY,
        -0.0,
        8.0,
    ];
    limits[next(seed) as usize % limits.len()].to_bits()
}

/// Writes some part, put back in most cases where calls are then refused with 12.
fn write_any(search: &mut Search, seed: &mut u64) {
    let before = search.clone();
    let part = next(seed) % 17;
    let most = [0, 0, 0, 9, 11, 9, 9, 0, 3, 8, 8, 9, 9, 0, 8, 0, 9][part as usize];
    let from_1 = ![0, 1, 2, 4, 7, 13, 15].contains(&part);
    let which = u64::from(from_1).max(next(seed) % (most + 1));
    let value = match part {
        9 | 10 => limit(search, seed),
        14 | 15 => next(seed) % 2,
        _ => number(search, seed),
    };
    write(search, (part, which, value));
    if search.ask() == Err(Refusal::numbered(12)) && !next(seed).is_multiple_of(8) {
        *search = before;
    }
}

/// What a search asks, by its bits: a made-up limit may be a NaN.
fn asked(search: &Search) -> Result<(u64, Vec<u64>, u64), Refusal> {
    let trial = search.ask()?;
    Ok((trial.number, bits(&trial.point), trial.stops))
}

/// Tells any cost, also to a copy whose carried numbers are worked out anew.
fn tell_any(search: &mut Search, seed: &mut u64) {
    let before = search.words();
    let mut anew = search.clone();
    write(&mut anew, (1, 0, search.budget));
    assert_eq!(anew.words(), before);
    assert_eq!(asked(&anew), asked(search));
    let best = |search: &Search| {
        search
            .best()
            .map(|best| (bits(&best.point), best.cost, best.number))
    };
    assert_eq!(best(&anew), best(search));
    let reading = search.readings.wrapping_add(1);
    let cost = next(seed) % 24;
    let told = search.tell(reading, cost);
    assert_eq!(anew.tell(reading, cost), told);
    assert_eq!(anew.words(), search.words());
    assert_eq!(asked(&anew), asked(search));
    assert_eq!(told.is_err(), before == search.words());
}

/// The axis of the examples, or a ring with its limits.
fn any_ring(seed: &mut u64) -> Axis {
    Axis {
        ring: next(seed).is_multiple_of(2),
        ..USUAL_AXIS
    }
}

/// Leads one search, opened or closed, through tells and written parts; answers how many tells were accepted.
fn lead(mut search: Search, seed: &mut u64) -> u64 {
    let mut accepted = 0;
    for _ in 0..40 {
        if next(seed).is_multiple_of(4) {
            write_any(&mut search, seed);
        }
        let readings = search.readings;
        tell_any(&mut search, seed);
        accepted += u64::from(search.readings != readings);
    }
    accepted
}

#[test]
fn searches_go_on_from_their_parts() {
    let mut seed = 5;
    let mut accepted = 0;
    for round in 0..2000 {
        let rules = [Rule::Spread(9), Rule::Moved(0.01), Rule::Size(0.1)];
        let rule = rules[round % 3];
        let n = 1 + next(&mut seed) % 8;
        let search = match round % 10 {
            0 => Search::closed(),
            1..=4 => multidirectional(n, &axes(any_ring(&mut seed)), 0.1, 300),
            _ => open(n, any_ring(&mut seed), rule, 300),
        };
        accepted += lead(search, &mut seed);
    }
    assert!(accepted > 10_000, "{accepted}");
}
