//! Made-up searches of the multidirectional kind: its parts at their edges, companions read and unread in any order, limits about them, its
//! phases under Nelder-Mead and those of Nelder-Mead under it.

use crate::companion_writes as writes;
use crate::costs::{Costs, DARK};
use crate::episodes;
use crate::habits::{MULTIDIRECTIONAL, NELDER_MEAD};
use crate::limits;
use crate::openings::SIZE;
use crate::parts;
use crate::random::Random;
use crate::ring_writes;
use crate::script::Script;
use crate::state::State;

const LO: u64 = 9;
const HI: u64 = 10;

/// One episode of a search of this method.
pub fn episode(script: &mut Script, random: &mut Random, costs: &mut Costs) {
    match random.below(20) {
        0..=7 => at_edges(script, random, costs),
        8..=10 => going_on(script, random, costs),
        11 | 12 => within(script, random, costs),
        13 => episodes::at_a_threshold(script, random),
        14 | 15 => under_nelder_mead(script, random, costs),
        16 => with_nelder_mead(script, random, costs),
        17 => scattered(script, random, costs),
        18 if random.one_in(2) => spent_on_a_base(script, random),
        18 => base_anywhere(script, random, costs),
        _ => halved_outside(script, random),
    }
}

/// One or two lines at an edge, one after the other.
fn at_edges(script: &mut Script, random: &mut Random, costs: &mut Costs) {
    for _ in 0..random.between(1, 2) {
        at_an_edge(script, random, costs);
    }
}

/// A line at an edge, at times where the base has no number: it is no companion, read or unread.
fn at_an_edge(script: &mut Script, random: &mut Random, costs: &mut Costs) {
    let before = script.state();
    let unread = random.one_in(4);
    if unread {
        script.write([11, 1, 0]);
    }
    let line = match unread && random.one_in(3) {
        true => [4, 11, 0],
        false => writes::at_an_edge(random, &script.state()),
    };
    parts::written(script, random, costs, line);
    if unread && random.one_in(2) {
        script.write(before.undoing([11, 1, 0]));
    }
}

/// One to four lines that leave a search whose calls are accepted, and tells with the state after some.
fn going_on(script: &mut Script, random: &mut Random, costs: &mut Costs) {
    for _ in 0..random.pick(&[1, 1, 2, 3, 4]) {
        let state = script.state();
        let line = writes::mild_line(random, &state);
        script.write(line);
        if !script.goes_on() && !script.has_ended() {
            script.ask();
            script.write(state.undoing(line));
        }
    }
    tells(script, random, costs, 16);
}

/// Tells, asks before them and the state after some.
fn tells(script: &mut Script, random: &mut Random, costs: &mut Costs, most: u64) {
    for _ in 0..random.between(1, most) {
        script.ask();
        if !script.goes_on() {
            break;
        }
        tell(script, random, costs);
        if random.one_in(6) {
            script.show();
        }
    }
    script.show();
}

/// Tells a cost about the base's, or the next one of the search.
fn tell(script: &mut Script, random: &mut Random, costs: &mut Costs) {
    let base = script.state().standing(1);
    if random.one_in(2) {
        return parts::measure(script, random, costs);
    }
    let lower = base.saturating_sub(1);
    let cost = random.pick(&[base, base, lower, base.saturating_add(1), base.max(7)]);
    script.tell(script.next_number(), cost.min(DARK));
}

/// Limits that hold the companions, at them or beside them, so that reflections are clamped; all put back in half of the cases.
fn within(script: &mut Script, random: &mut Random, costs: &mut Costs) {
    if !script.goes_on() {
        return;
    }
    let before = script.state();
    hold(script, random);
    script.ask();
    tells(script, random, costs, 12);
    if random.one_in(2) {
        put_back(script, &before);
    }
}

/// Writes limits of some axes about the companions' coordinates there.
fn hold(script: &mut Script, random: &mut Random) {
    let state = script.state();
    let n = state.n();
    let all = random.one_in(2);
    for axis in 1..=n {
        if !all && random.one_in(2) {
            continue;
        }
        let at = |place| f64::from_bits(state.standing_point(place)[axis as usize - 1]);
        let least = (2..=n + 1).map(at).fold(f64::INFINITY, f64::min);
        let most = (2..=n + 1).map(at).fold(f64::NEG_INFINITY, f64::max);
        let lo = random.pick(&[least, least, least.next_down(), least - 0.1]);
        let hi = random.pick(&[most, most, most.next_up(), most + 0.1]);
        let above = if state.ring(axis) == 1 {
            hi.next_up()
        } else {
            hi
        };
        script.write([LO, axis, lo.to_bits()]);
        script.write([HI, axis, above.to_bits()]);
    }
}

/// Puts back all limits and rings.
fn put_back(script: &mut Script, before: &State) {
    let all = (1..=8).flat_map(|axis| [[LO, axis, 0], [HI, axis, 0], [14, axis, 0]]);
    all.for_each(|line| script.write(before.undoing(line)));
}

/// A phase of this search while the method is Nelder-Mead, whose limits may lie anywhere about what is asked; then its own method again.
pub fn under_nelder_mead(script: &mut Script, random: &mut Random, costs: &mut Costs) {
    if !script.goes_on() {
        return;
    }
    let before = script.state();
    script.write([15, 0, NELDER_MEAD]);
    for _ in 0..random.between(1, 4) {
        enter(script, random);
        let bound = match script.habit.rings && random.one_in(2) {
            true => ring_writes::bound,
            false => limits::bound,
        };
        limits::go_on_within(script, random, costs, bound);
        script.show();
    }
    if random.one_in(3) {
        tells(script, random, costs, 9);
    }
    put_back(script, &before);
    script.write(before.undoing([15, 0, 0]));
    if before.method() == MULTIDIRECTIONAL {
        script.write(before.undoing([8, 0, 0]));
        script.write([4, 10, random.between(1, before.n())]);
        script.ask();
    } else {
        ordered(script, random);
        script.write([4, 1, 0]);
    }
}

/// Goes to the base, a reflection or an unread companion; the order of the standing places is not looked at where place 1 has no number.
fn enter(script: &mut Script, random: &mut Random) {
    let n = script.state().n();
    let i = random.between(1, n);
    if !random.one_in(4) || script.state().standing_fall() > 0 {
        script.write([11, 1, 0]);
    }
    match random.below(3) {
        0 => script.write([4, 9, 0]),
        1 => script.write([4, 10, i]),
        _ => {
            script.write([11, i + 1, 0]);
            script.write([4, 11, i]);
        }
    }
    script.ask();
}

/// Costs of the standing places in order.
fn ordered(script: &mut Script, random: &mut Random) {
    let mut cost = random.below(20);
    for place in 1..=script.state().n() + 1 {
        script.write([5, place, cost]);
        cost += random.pick(&[0, 0, 1, 5]);
    }
}

/// A phase of Nelder-Mead in this method, over places in cost order, and tells until it ends.
fn with_nelder_mead(script: &mut Script, random: &mut Random, costs: &mut Costs) {
    if !script.goes_on() {
        return;
    }
    let before = script.state();
    ordered(script, random);
    let n = before.n();
    let vertices = random.between(1, n);
    let mut cost = random.below(20);
    for place in 1..=vertices {
        script.write([6, place, cost]);
        cost += random.pick(&[0, 0, 1, 5]);
    }
    let phase = random.pick(&[0, 0, 1, 1, 2, 3, 4, 5, 5]);
    script.write([4, phase, vertices]);
    tells(script, random, costs, n + 3);
    if script.goes_on() && random.one_in(2) {
        script.write([4, 10, random.between(1, n)]);
        tells(script, random, costs, n + 3);
    }
}

/// A base far from its companions on all axes, made by limits while the method is Nelder-Mead; then limits that hold the companions, and
/// reflections with any number of axes at their stops.
fn scattered(script: &mut Script, random: &mut Random, costs: &mut Costs) {
    if !script.goes_on() {
        return;
    }
    let before = script.state();
    let (n, j) = (before.n(), random.between(1, before.n()));
    script.write([15, 0, NELDER_MEAD]);
    script.write([11, 1, 0]);
    script.write([5, 1, DARK]);
    let shift = random.pick(&[0.25, 1.0, 3.0, -1.0, -0.5]);
    for axis in 1..=n {
        let x0 = f64::from_bits(before.standing_point(1)[axis as usize - 1]) + shift;
        script.write([14, axis, 0]);
        script.write([LO, axis, x0.to_bits()]);
        script.write([HI, axis, x0.to_bits()]);
    }
    script.write([4, 10, j]);
    script.ask();
    script.tell(script.next_number(), random.between(50, 90));
    script.write([15, 0, MULTIDIRECTIONAL]);
    script.write([8, SIZE, 1f64.to_bits()]);
    for _ in 0..random.between(1, 4) {
        script.write([4, 10, j]);
        past(script, random, j);
        script.ask();
    }
    tells(script, random, costs, 6);
    put_back(script, &before);
}

/// Limits that hold the companions and of which some are passed by reflection j.
fn past(script: &mut Script, random: &mut Random, j: u64) {
    let state = script.state();
    let n = state.n();
    let stops = random.between(0, n);
    let mut order: Vec<u64> = (1..=n).collect();
    random.shuffle(&mut order);
    for (i, axis) in (0..).zip(order) {
        let at = |place| f64::from_bits(state.standing_point(place)[axis as usize - 1]);
        let r = at(1) + (at(1) - at(j + 1));
        let least = (2..=n + 1).map(at).fold(f64::INFINITY, f64::min);
        let most = (2..=n + 1).map(at).fold(f64::NEG_INFINITY, f64::max);
        let (lo, hi) = match i < stops {
            true => (least, most),
            false => (least.min(r), most.max(r)),
        };
        script.write([LO, axis, lo.to_bits()]);
        script.write([HI, axis, hi.to_bits()]);
    }
}

/// The budget spent by the reading of a base, which calls alone cannot.
fn spent_on_a_base(script: &mut Script, random: &mut Random) {
    if !script.goes_on() {
        return;
    }
    let before = script.state();
    script.write([4, 9, random.below(3)]);
    script.write([1, 0, before.readings() + 1]);
    script.ask();
    script.tell(script.next_number(), random.below(40));
    script.show();
    if random.one_in(2) {
        script.write(before.undoing([1, 0, 0]));
        script.write([4, 10, random.between(1, before.n())]);
        script.ask();
    }
}

/// A base asked again, with limits anywhere, also past the companions that stand, which are not looked at then.
fn base_anywhere(script: &mut Script, random: &mut Random, costs: &mut Costs) {
    if !script.goes_on() {
        return;
    }
    let before = script.state();
    script.write([4, 9, 0]);
    let bound = match script.habit.rings && random.one_in(2) {
        true => ring_writes::bound,
        false => limits::bound,
    };
    bound(script, random);
    script.ask();
    script.best();
    if random.one_in(4) {
        script.write([4, 10, random.between(1, before.n())]);
        script.ask();
        script.write([4, 9, 0]);
    }
    tells(script, random, costs, 2 * before.n() + 3);
    put_back(script, &before);
}

/// Limits that hold the companions and not the base, so that halvings and reflections towards it are clamped.
fn halved_outside(script: &mut Script, random: &mut Random) {
    if !script.goes_on() {
        return;
    }
    let before = script.state();
    for _ in 0..random.between(1, 3) {
        script.write([5, 1, 0]);
        hold(script, random);
        let line = writes::asking(random, &script.state());
        script.write(line);
        for _ in 0..=before.n() {
            if script.state().phase() == 11 || script.state().phase() == 10 {
                script.ask();
                script.tell(script.next_number(), random.below(3));
            }
        }
        script.show();
        script.ask();
    }
    put_back(script, &before);
}
