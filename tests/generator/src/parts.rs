//! Scripts whose lines write parts of a search. A search is led for a while; then parts are written, calls made, and most parts put back.

use crate::companions;
use crate::costs::Costs;
use crate::courses;
use crate::episodes;
use crate::habits::{Habit, MULTIDIRECTIONAL};
use crate::held;
use crate::limits;
use crate::mild;
use crate::numbers;
use crate::openings;
use crate::random::Random;
use crate::ring_writes;
use crate::rings;
use crate::script::{Script, LIMIT};
use crate::state::Written;
use crate::writes;

/// Bytes that are left for what follows an episode.
const ROOM: usize = 16_384;

/// A script with so many episodes, more or less.
pub fn script(random: &mut Random, habit: Habit) -> Script {
    let mut script = Script::with(habit);
    if random.one_in(5) {
        closed(&mut script, random);
    }
    for _ in 0..random.between(1, 4) {
        let episodes = random.between(3, 16);
        search(&mut script, random, episodes);
    }
    script
}

/// A short script, to be damaged.
pub fn short(random: &mut Random, habit: Habit) -> Script {
    let mut script = Script::with(habit);
    let episodes = random.between(1, 4);
    search(&mut script, random, episodes);
    script
}

/// Episodes of one search, which is opened anew where it has come to its end.
fn search(script: &mut Script, random: &mut Random, episodes: u64) {
    let mut costs = open(script, random);
    for _ in 0..episodes {
        if script.text.len() + ROOM > LIMIT {
            return;
        }
        if script.has_ended() {
            after_the_end(script, random);
        }
        if !script.goes_on() {
            costs = open(script, random);
        }
        lead(script, random, &mut costs);
        episode(script, random, &mut costs);
    }
}

fn open(script: &mut Script, random: &mut Random) -> Costs {
    let tells = random.between(20, 300);
    let method = script.habit.next_method(random);
    let mut opening = openings::fitting(random, tells, method);
    if script.habit.rings {
        rings::put(random, &mut opening);
    }
    script.open(&opening);
    Costs::of(random, &opening, Vec::new())
}

/// Tells until the search is in some phase, with some vertices or probes, or for so many tells.
fn lead(script: &mut Script, random: &mut Random, costs: &mut Costs) {
    let phase = match script.state().method() {
        MULTIDIRECTIONAL => random.pick(&[10, 10, 11, 11, 6]),
        _ => random.below(7),
    };
    let detail = random.pick(&[0, 0, 1, 2, 2, 3]);
    for _ in 0..random.between(0, 30) {
        let state = script.state();
        if state.phase() == phase && state.detail() >= detail {
            return;
        }
        if random.one_in(4) {
            script.ask();
        }
        measure(script, random, costs);
    }
}

/// Tells the cost of the trial, if there is one.
pub fn measure(script: &mut Script, random: &mut Random, costs: &mut Costs) {
    if let Some(trial) = script.trial() {
        let cost = costs.next(random, &trial.point);
        costs.tell(cost);
        script.tell(script.next_number(), cost);
    }
}

fn episode(script: &mut Script, random: &mut Random, costs: &mut Costs) {
    let own = script.state().method() == MULTIDIRECTIONAL;
    if own && random.below(4) < 3 {
        return companions::episode(script, random, costs);
    }
    if !own && random.one_in(20) {
        return companions::under_nelder_mead(script, random, costs);
    }
    if script.habit.rings && !own && random.one_in(3) {
        return ring_writes::episode(script, random, costs);
    }
    match random.below(26) {
        0 | 1 => several(script, random, costs),
        2..=4 => going_on(script, random, costs),
        5 => episodes::outside_the_limits(script, random),
        6 | 7 => episodes::at_a_threshold(script, random),
        8..=11 => limits::episode(script, random, costs),
        12 | 13 => held::episode(script, random),
        14 | 15 => numbers::order(script, random),
        16 => numbers::first_vertex(script, random),
        _ => {
            let line = writes::at_an_edge(random, &script.state());
            written(script, random, costs, line);
        }
    }
}

/// One line, calls, and most often what undoes it.
pub fn written(script: &mut Script, random: &mut Random, costs: &mut Costs, line: Written) {
    let undo = script.state().undoing(line);
    script.write(line);
    calls(script, random, costs);
    if !random.one_in(6) {
        script.write(undo);
    }
}

/// Two to four lines, calls, and what undoes the lines, the last one first.
fn several(script: &mut Script, random: &mut Random, costs: &mut Costs) {
    let mut undo = Vec::new();
    for _ in 0..random.between(2, 4) {
        let line = writes::at_an_edge(random, &script.state());
        undo.push(script.state().undoing(line));
        script.write(line);
        if random.one_in(3) {
            calls(script, random, costs);
        }
    }
    calls(script, random, costs);
    undo.into_iter().rev().for_each(|line| script.write(line));
}

/// One to three lines that leave a search whose calls are accepted, and tells of that search.
fn going_on(script: &mut Script, random: &mut Random, costs: &mut Costs) {
    for _ in 0..random.pick(&[1, 1, 2, 3]) {
        let state = script.state();
        let line = mild::line(random, &state);
        script.write(line);
        if !script.goes_on() && !script.has_ended() {
            script.ask();
            script.write(state.undoing(line));
        }
    }
    for _ in 0..random.between(1, 14) {
        script.ask();
        if script.has_ended() {
            break;
        }
        measure(script, random, costs);
    }
    script.show();
    calls(script, random, costs);
}

/// The calls of an episode: ask, best and tell, some of them refused.
fn calls(script: &mut Script, random: &mut Random, costs: &mut Costs) {
    if random.one_in(20) {
        script.show();
    }
    for call in random.pick(&[[0, 1, 2], [1, 0, 2], [0, 2, 1], [3, 0, 1], [3, 1, 2]]) {
        match call {
            0 => script.ask(),
            1 => script.best(),
            2 => tell(script, random, costs),
            _ => courses::refused(script, random),
        }
    }
    if random.one_in(3) {
        script.ask();
    }
    if random.one_in(8) {
        script.show();
    }
}

/// A tell with the right number and a sound cost, also where it will be refused.
fn tell(script: &mut Script, random: &mut Random, costs: &mut Costs) {
    if script.trial().is_some() {
        measure(script, random, costs);
    } else {
        script.tell(script.next_number(), random.below(100));
    }
}

/// Parts of an ended search written: while it stays ended, and so that it goes on.
fn after_the_end(script: &mut Script, random: &mut Random) {
    any_lines(script, random);
    let told = script.state().readings().min(1000);
    if random.one_in(2) {
        let more = random.between(1, 300);
        script.write([2, 0, told]);
        script.write([1, 0, told + more]);
        mild::enter(script, random);
    }
}

/// Lines at any edge, and calls after each.
fn any_lines(script: &mut Script, random: &mut Random) {
    for _ in 0..random.between(1, 4) {
        let state = script.state();
        let line = writes::at_an_edge(random, &state);
        script.write(line);
        script.ask();
        script.best();
        courses::refused(script, random);
        if random.one_in(4) {
            script.show();
        }
        if !random.one_in(4) {
            script.write(state.undoing(line));
        }
    }
}

/// The closed search, before any opening: refused, ended, or led with no axis record but zeros.
fn closed(script: &mut Script, random: &mut Random) {
    any_lines(script, random);
    if random.one_in(2) {
        return;
    }
    let n = random.between(1, 8);
    script.write([0, 0, n]);
    script.write([1, 0, random.between(1, 40)]);
    script.write([2, 0, 0]);
    if script.habit.rings {
        ring_writes::any(script, random);
    }
    mild::enter(script, random);
    for number in 1..random.between(2, 20) {
        script.ask();
        script.best();
        script.tell(number, random.below(9));
    }
    script.show();
}
