//! The course of one search: an opening, then tells with their costs and other calls among them.

use crate::corners;
use crate::costs::{Costs, DARK};
use crate::edges;
use crate::habits::NELDER_MEAD;
use crate::narrows;
use crate::openings::{self, Opening};
use crate::random::Random;
use crate::rings;
use crate::script::{Script, LIMIT};

/// Bytes that are left for what follows the tells of a script.
const ROOM: usize = 16_384;

/// The most readings that a series may have.
pub const LONGEST_SERIES: u64 = 16_777_216;

/// Which calls stand beside the tells.
#[derive(Clone, Copy)]
pub enum Manner {
    /// Tells, and now and then an ask.
    Quiet,
    /// An ask before each tell.
    Neat,
    /// Any calls, refused ones too.
    Loose,
}

/// How many tells a search of a script gets if it does not end before.
pub fn usual_tells(random: &mut Random) -> u64 {
    match random.below(20) {
        0 => random.between(1, 12),
        1 | 2 => random.between(12, 50),
        _ => random.between(50, 200),
    }
}

/// A search opened and led for so many tells, or to its end; one in five runs into a corner, and all its trials are asked.
pub fn course(script: &mut Script, random: &mut Random, manner: Manner, tells: u64) {
    let method = script.habit.next_method(random);
    if random.one_in(5) {
        let (opening, costs) = match method {
            NELDER_MEAD => corners::search(random),
            _ => narrows::search(random),
        };
        lead(script, random, Manner::Neat, &opening, costs, tells);
    } else {
        let mut opening = openings::fitting(random, tells, method);
        if script.habit.rings {
            rings::put(random, &mut opening);
        }
        let costs = planned_costs(random, &mut opening, tells);
        lead(script, random, manner, &opening, costs, tells);
    }
}

/// The costs of a search. In some searches the rule's threshold or the budget is set to an edge that they meet.
pub fn planned_costs(random: &mut Random, opening: &mut Opening, tells: u64) -> Costs {
    match random.below(12) {
        0..=3 => {
            let planned = edges::plan(random, opening);
            Costs::of(random, opening, planned)
        }
        4 => {
            let mut costs = Costs::of(random, opening, Vec::new());
            let planned = edges::plan_budget(random, opening, &mut costs, tells);
            Costs::planned(random, opening, planned)
        }
        _ => Costs::of(random, opening, Vec::new()),
    }
}

fn lead(
    script: &mut Script,
    random: &mut Random,
    manner: Manner,
    opening: &Opening,
    mut costs: Costs,
    tells: u64,
) {
    script.open(opening);
    if random.one_in(3) {
        script.best();
    }
    while script.told < tells && !script.has_ended() && script.text.len() + ROOM < LIMIT {
        beside(script, random, manner);
        measure(script, random, &mut costs);
    }
    script.show();
    if script.has_ended() {
        calls(script, random);
    }
}

/// The calls before an accepted tell.
fn beside(script: &mut Script, random: &mut Random, manner: Manner) {
    match manner {
        Manner::Quiet if random.one_in(20) => script.ask(),
        Manner::Quiet => {}
        Manner::Neat => script.ask(),
        Manner::Loose => loose(script, random),
    }
}

fn loose(script: &mut Script, random: &mut Random) {
    match random.below(10) {
        0 => refused(script, random),
        1 => calls(script, random),
        2 => script.best(),
        3 => {}
        _ => script.ask(),
    }
}

/// Tells the cost of the trial, and shows the state after about every sixteenth tell and about an ending.
fn measure(script: &mut Script, random: &mut Random, costs: &mut Costs) {
    let Some(trial) = script.trial() else {
        return;
    };
    let mut cost = costs.next(random, &trial.point);
    let last = script.would_end(cost);
    if last && costs.lasting {
        cost = costs.lower();
    }
    if last && !random.one_in(3) {
        script.ask();
        script.show();
    }
    costs.tell(cost);
    script.tell(script.next_number(), cost);
    if random.one_in(16) {
        script.show();
    }
}

/// One to four calls of any kind, tells refused.
pub fn calls(script: &mut Script, random: &mut Random) {
    for _ in 0..random.between(1, 4) {
        match random.below(40) {
            0..=9 => script.ask(),
            10..=19 => script.best(),
            20..=29 => refused(script, random),
            30..=34 => script.show(),
            35..=38 => script.best(),
            _ => series(script, random),
        }
    }
}

/// A series, most of them short. One that is refused may be of any length.
pub fn series(script: &mut Script, random: &mut Random) {
    let method = script.habit.next_method(random);
    let n = random.between(1, 8);
    let some = random.between(1, 1000);
    let readings = random.pick(&[0, 1, n + 1, n + 2, 3 * n + 1, 100, some, some]);
    match random.below(6) {
        0 => script.series(
            method,
            random.pick(&[0, 9, 16, 256 + 1, (1 << 32) + 1, u64::MAX]),
            random.pick(&[0, 1, 50, LONGEST_SERIES]),
        ),
        _ => script.series(method, n, readings),
    }
}

/// A tell that is refused: its number is wrong, its cost is too high, or both. Of a search that has ended, also one with nothing wrong.
pub fn refused(script: &mut Script, random: &mut Random) {
    let (told, next) = (script.told, script.next_number());
    let any = random.next();
    let wrong = random.pick(&[
        0,
        told,
        told.wrapping_add(2),
        u64::MAX,
        (1u64 << 32).wrapping_add(next),
        1 << 63,
        any,
    ]);
    let high = random.pick(&[
        DARK + 1,
        DARK + 1,
        1 << 32,
        (1 << 32) + 5,
        u64::MAX,
        1 << 63,
        any | 1 << 40,
    ]);
    let cost = random.between(0, DARK);
    match random.below(3) {
        0 => script.tell(wrong, cost),
        1 => script.tell(next, high),
        _ => script.tell(wrong, high),
    }
    if script.has_ended() && random.one_in(2) {
        script.tell(next, cost);
    }
}
