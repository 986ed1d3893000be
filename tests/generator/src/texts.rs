//! Text number k of a seed, for `tune`. Texts 0 and 1 are the longest that is read and one byte more.

use crate::axes;
use crate::costs::{Costs, DARK};
use crate::courses;
use crate::damage::damage;
use crate::habits::NELDER_MEAD;
use crate::openings::{self, Opening, MOST_BUDGET, MOST_SPREAD, SPREAD, USUAL};
use crate::random::Random;
use crate::refusals;
use crate::script::Script;

const KIND: u64 = 2;
const LIMIT: usize = 65_536;

pub fn text(seed: u64, number: u64) -> Vec<u8> {
    let mut random = Random::of(seed, KIND, number);
    match number {
        0 => longest(&mut random),
        1 => too_long(&mut random),
        _ => some_text(&mut random),
    }
}

fn some_text(random: &mut Random) -> Vec<u8> {
    match random.below(200) {
        0 => longest(random),
        1 => too_long(random),
        2..=30 => refused(random),
        31..=40 => refused_cost(random),
        41..=95 => malformed(random),
        96..=105 => stopped(random),
        _ => plain(random).into_bytes(),
    }
}

/// A round of costs: fewer than the search asks, as many, or some that follow its end.
fn plain(random: &mut Random) -> String {
    let tells = if random.one_in(30) {
        random.between(300, 2000)
    } else {
        random.between(1, 150)
    };
    let mut opening = fitting(random, tells);
    let costs = courses::planned_costs(random, &mut opening, tells);
    let mut text = head(random, &opening);
    readings(random, &mut text, &opening, costs, tells);
    text
}

fn fitting(random: &mut Random, tells: u64) -> Opening {
    let n = random.between(1, 8);
    let budget = match random.below(10) {
        0 => n + 1,
        1..=4 => random.between(n + 1, n + 1 + tells),
        5 => MOST_BUDGET,
        _ => n + 1 + 2 * tells,
    };
    let threshold = openings::spread(random);
    Opening {
        method: NELDER_MEAD,
        n,
        rule: SPREAD,
        threshold,
        coefficients: USUAL,
        budget,
        axes: axes::records(random, n),
    }
}

/// The first line and the axis lines; where n is not 1 to 8, any number of them.
fn head(random: &mut Random, opening: &Opening) -> String {
    let first = [opening.n, opening.budget, opening.threshold].map(|v| whole(random, v));
    let mut head = first.join(" ") + "\n";
    let any = random.below(9);
    let count = if (1..=8).contains(&opening.n) {
        opening.n
    } else {
        any
    };
    head.extend(opening.axes[..count as usize].iter().map(axis_line));
    head
}

fn axis_line(axis: &rival::Axis) -> String {
    let [lo, hi, start, step] = [axis.lo, axis.hi, axis.start, axis.step].map(f64::to_bits);
    format!("{lo:016x} {hi:016x} {start:016x} {step:016x}\n")
}

/// A whole number, at times with leading zeros.
fn whole(random: &mut Random, v: u64) -> String {
    let width = if random.one_in(8) {
        random.between(1, 10) as usize
    } else {
        1
    };
    format!("{v:0width$}")
}

/// Cost lines, up to so many tells; a search that ends before gets a few costs more in half of the texts.
fn readings(
    random: &mut Random,
    text: &mut String,
    opening: &Opening,
    mut costs: Costs,
    tells: u64,
) {
    let mut script = Script::new();
    script.open(opening);
    while let Some(trial) = script
        .trial()
        .filter(|_| script.told < tells && text.len() + 4096 < LIMIT)
    {
        let mut cost = costs.next(random, &trial.point);
        if costs.lasting && script.would_end(cost) {
            cost = costs.lower();
        }
        costs.tell(cost);
        script.tell(script.told + 1, cost);
        text.push_str(&(whole(random, cost) + "\n"));
    }
    if script.has_ended() && random.one_in(2) {
        text.push_str(random.pick(&[
            "5\n",
            "0\n7\n7\n",
            "16777216\n",
            "x\n",
            "\n",
            "12",
            "9999999999\n1\n",
        ]));
    }
}

/// An opening that is refused, or that lies at an edge; at times with a malformed line beside it.
fn refused(random: &mut Random) -> Vec<u8> {
    let mut opening = fitting(random, 20);
    for _ in 0..random.pick(&[1, 1, 1, 2]) {
        to_an_edge(random, &mut opening);
    }
    let costs = Costs::of(
        random,
        &Opening {
            n: opening.n.clamp(1, 8),
            ..opening
        },
        Vec::new(),
    );
    let mut text = head(random, &opening);
    readings(random, &mut text, &opening, costs, 20);
    text.push_str(random.pick(&["", "5\n", "x\n"]));
    let mut text = text.into_bytes();
    if random.one_in(4) {
        damage(random, &mut text);
    }
    text
}

fn to_an_edge(random: &mut Random, opening: &mut Opening) {
    let n = opening.n.min(8);
    match random.below(7) {
        0 => opening.n = random.pick(&[0, 9, 10, 9_999_999_999, (1 << 32) + 1, 256 + 1]),
        1 => {
            opening.threshold = random.pick(&[
                0,
                MOST_SPREAD,
                MOST_SPREAD + 1,
                9_999_999_999,
                MOST_SPREAD + 6,
            ])
        }
        2 => {
            opening.budget = random.pick(&[
                0,
                n,
                n + 1,
                MOST_BUDGET,
                MOST_BUDGET + 1,
                9_999_999_999,
                (1 << 32) + 50,
            ])
        }
        _ => refusals::damage_axis(random, opening),
    }
}

/// A cost above the highest among the others.
fn refused_cost(random: &mut Random) -> Vec<u8> {
    let text = plain(random);
    let high = random.pick(&[
        DARK + 1,
        DARK + 1,
        99_999_999,
        1 << 32,
        (1 << 32) + 5,
        9_999_999_999,
    ]);
    with_a_line(random, &text, &format!("{high}\n"))
}

/// The text with a line more somewhere after its head, among the first costs in most cases.
fn with_a_line(random: &mut Random, text: &str, more: &str) -> Vec<u8> {
    let mut lines: Vec<&str> = text.split_inclusive('\n').collect();
    let head = lines.iter().take_while(|line| line.contains(' ')).count();
    let room = (lines.len() - head) as u64 + 1;
    let most = if random.one_in(3) { room } else { room.min(12) };
    lines.insert(head + random.below(most) as usize, more);
    lines.concat().into_bytes()
}

fn malformed(random: &mut Random) -> Vec<u8> {
    let text = plain(random);
    let mut text = match random.below(10) {
        0 => with_a_line(random, &text, "00000000005\n"),
        1 => with_a_line(random, &text, "0000000005\n"),
        2 => with_a_line(random, &text, "99999999999\n"),
        _ => text.into_bytes(),
    };
    damage(random, &mut text);
    text
}

/// Only the first lines, none of them or at most the axis lines.
fn stopped(random: &mut Random) -> Vec<u8> {
    let text = plain(random);
    let head = text.lines().take_while(|line| line.contains(' ')).count() as u64;
    let kept = random.below(head + 1) as usize;
    text.split_inclusive('\n')
        .take(kept)
        .collect::<String>()
        .into_bytes()
}

/// A text of exactly the most bytes.
fn longest(random: &mut Random) -> Vec<u8> {
    let mut opening = fitting(random, 100);
    opening.threshold = 1;
    opening.budget = MOST_BUDGET;
    let mut text = head(random, &opening);
    while text.len() + 24 < LIMIT {
        let cost = random.between(0, DARK);
        text.push_str(&(whole(random, cost) + "\n"));
    }
    fill(&mut text);
    text.into_bytes()
}

/// Costs with leading zeros up to the last byte.
fn fill(text: &mut String) {
    while text.len() < LIMIT {
        let width = match LIMIT - text.len() {
            room @ 2..=11 => room - 1,
            12 => 9,
            _ => 10,
        };
        text.push_str(&format!("{:0width$}\n", 7));
    }
}

fn too_long(random: &mut Random) -> Vec<u8> {
    let mut text = longest(random);
    text.push(b'\n');
    text
}
