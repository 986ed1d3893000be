//! Script number k of a seed. Scripts 0 and 1 are the longest that is read and one byte more; the others are of one of four kinds, and
//! in two of five some or all axes are rings.

use crate::courses::{self, Manner};
use crate::habits::Habit;
use crate::malformed;
use crate::parts;
use crate::random::Random;
use crate::script::{Script, LIMIT};
use crate::seams;

const KIND: u64 = 1;

/// The script, of the method that is asked for, or of any.
pub fn script(seed: u64, number: u64, method: Option<u64>) -> Vec<u8> {
    let mut random = Random::of(seed, KIND, number);
    let habit = Habit::of(seed, number, method);
    match number {
        0 => longest(&mut random, habit),
        1 => too_long(&mut random, habit),
        _ => match random.below(100) {
            0..=21 => malformed::script(&mut random, habit),
            22..=35 => openings(&mut random, habit),
            36..=57 => parts::script(&mut random, habit).text.into_bytes(),
            _ => searches(&mut random, habit),
        },
    }
}

/// One to four searches that follow one another, few of them long, at times with refused openings or a series between.
fn searches(random: &mut Random, habit: Habit) -> Vec<u8> {
    let mut script = Script::with(habit);
    let manner = random.pick(&[
        Manner::Quiet,
        Manner::Neat,
        Manner::Neat,
        Manner::Loose,
        Manner::Loose,
    ]);
    before(&mut script, random);
    if random.one_in(20) {
        let tells = random.between(1000, 3000);
        courses::course(&mut script, random, manner, tells);
    }
    for _ in 0..random.between(1, 4) {
        let tells = courses::usual_tells(random);
        courses::course(&mut script, random, manner, tells);
        between(&mut script, random);
    }
    script.text.into_bytes()
}

/// Calls before the first opening.
fn before(script: &mut Script, random: &mut Random) {
    if random.one_in(8) {
        courses::calls(script, random);
    }
    if random.one_in(60) {
        let method = script.habit.next_method(random);
        script.series(method, random.between(1, 8), random.between(5_000, 20_000));
    }
}

fn between(script: &mut Script, random: &mut Random) {
    if random.one_in(6) {
        let opening = seams::edged(script, random);
        script.open(&opening);
        courses::calls(script, random);
    }
    if random.one_in(8) {
        courses::series(script, random);
    }
}

/// Openings at the edges, most of them refused, with a few calls after each.
fn openings(random: &mut Random, habit: Habit) -> Vec<u8> {
    let mut script = Script::with(habit);
    for _ in 0..random.between(5, 30) {
        let opening = seams::edged(&script, random);
        script.open(&opening);
        courses::calls(&mut script, random);
        few_tells(&mut script, random);
    }
    script.text.into_bytes()
}

/// Tells of an opening that turned out to be accepted.
fn few_tells(script: &mut Script, random: &mut Random) {
    for _ in 0..random.between(1, 30) {
        if script.trial().is_none() {
            break;
        }
        let cost = random.below(30);
        script.tell(script.next_number(), cost);
    }
    script.ask();
    script.show();
}

/// A script of exactly the most bytes: long searches, then other calls to the last byte.
fn longest(random: &mut Random, habit: Habit) -> Vec<u8> {
    let mut script = Script::with(habit.without_rings());
    while script.text.len() < LIMIT - 60_000 {
        let tells = random.between(200, 1000);
        courses::course(&mut script, random, Manner::Quiet, tells);
    }
    fill(&mut script);
    script.text.into_bytes()
}

/// Refused tells, of 36 bytes each, and best queries, of 2, up to the last byte.
fn fill(script: &mut Script) {
    while script.text.len() < LIMIT {
        if script.text.len() + 36 > LIMIT {
            script.best();
        } else {
            script.tell(0, 7);
        }
    }
}

fn too_long(random: &mut Random, habit: Habit) -> Vec<u8> {
    let mut text = longest(random, habit);
    text.push(b'\n');
    text
}
