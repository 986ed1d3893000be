//! Openings: the words of a script's `o` line, and openings that are not refused.

use crate::axes;
use crate::habits::{MULTIDIRECTIONAL, NELDER_MEAD};
use crate::random::Random;
use rival::{Axis, Coefficients, Method, Refusal, Rule, Search};

pub const USUAL: [f64; 4] = [1.0, 2.0, 0.5, 0.5];
pub const MOST_BUDGET: u64 = 1_000_000;
pub const MOST_SPREAD: u64 = 4_294_967_295;

pub const SPREAD: u64 = 1;
pub const MOVED: u64 = 2;
pub const SIZE: u64 = 3;

/// The threshold is a whole number for spread and a float's bits for moved and size, as in the script.
#[derive(Clone, Copy)]
pub struct Opening {
    pub method: u64,
    pub n: u64,
    pub rule: u64,
    pub threshold: u64,
    pub coefficients: [f64; 4],
    pub budget: u64,
    pub axes: [Axis; 8],
}

impl Opening {
    pub fn line(&self) -> String {
        let mut line = format!(
            "o {:016x} {:016x} {:016x} {:016x}",
            self.method, self.n, self.rule, self.threshold
        );
        self.coefficients
            .iter()
            .for_each(|v| push_word(&mut line, v.to_bits()));
        push_word(&mut line, self.budget);
        self.axes.iter().for_each(|axis| push_axis(&mut line, axis));
        line.push('\n');
        line
    }

    pub fn open(&self) -> Result<Search, Refusal> {
        let [alpha, chi, beta, sigma] = self.coefficients;
        let coefficients = Coefficients {
            alpha,
            chi,
            beta,
            sigma,
        };
        let method = match self.method {
            NELDER_MEAD => Method::NelderMead,
            _ => Method::Multidirectional,
        };
        Search::open(
            method,
            self.n,
            &self.axes,
            self.named_rule(),
            coefficients,
            self.budget,
        )
    }

    fn named_rule(&self) -> Option<Rule> {
        match self.rule {
            SPREAD => Some(Rule::Spread(self.threshold)),
            MOVED => Some(Rule::Moved(f64::from_bits(self.threshold))),
            SIZE => Some(Rule::Size(f64::from_bits(self.threshold))),
            _ => None,
        }
    }
}

/// The words of an axis record: lo, hi, start, step, ring.
fn push_axis(line: &mut String, axis: &Axis) {
    for v in [axis.lo, axis.hi, axis.start, axis.step] {
        push_word(line, v.to_bits());
    }
    push_word(line, u64::from(axis.ring));
}

fn push_word(line: &mut String, word: u64) {
    line.push_str(&format!(" {word:016x}"));
}

/// An opening that is not refused, for about so many tells.
pub fn fitting(random: &mut Random, tells: u64, method: u64) -> Opening {
    let n = random.between(1, 8);
    let rule = random.below(4);
    let opening = Opening {
        method,
        n,
        rule,
        threshold: threshold(random, rule),
        coefficients: coefficients(random),
        budget: budget(random, n, tells),
        axes: axes::records(random, n),
    };
    match method {
        MULTIDIRECTIONAL => Opening {
            rule: SIZE,
            threshold: companions_size(random).to_bits(),
            ..opening
        },
        _ => opening,
    }
}

/// A size that is met after some halvings, each of which takes up to 2n tells; or any.
fn companions_size(random: &mut Random) -> f64 {
    match random.below(8) {
        0 => size(random),
        1 | 2 => random.within(0.01, 2.0),
        _ => random.power(-7, 1),
    }
}

pub fn threshold(random: &mut Random, rule: u64) -> u64 {
    let any = random.next();
    match rule {
        SPREAD => spread(random),
        MOVED => moved(random).to_bits(),
        SIZE => size(random).to_bits(),
        _ => random.pick(&[0, 4, u64::MAX, any]),
    }
}

pub fn spread(random: &mut Random) -> u64 {
    match random.below(20) {
        0 | 1 => 1,
        2 => MOST_SPREAD,
        3 => random.between(1, MOST_SPREAD),
        4 | 5 => random.pick(&[100, 10_000, 1_000_000, 100_000_000]),
        _ => random.between(1, 12),
    }
}

fn moved(random: &mut Random) -> f64 {
    float_threshold(random, 1e-300, (-24, 2), (-16, 4), 2.0)
}

fn size(random: &mut Random) -> f64 {
    float_threshold(random, 1e-170, (-14, 0), (-10, 1), 1.0)
}

/// A float threshold: at its edges, usual or tiny, a power of two or beside one, or drawn.
fn float_threshold(
    random: &mut Random,
    tiny: f64,
    powers: (i64, i64),
    beside: (i64, i64),
    most: f64,
) -> f64 {
    match random.below(20) {
        0 => axes::RANGE,
        1 | 2 => f64::from_bits(random.between(1, 3)),
        3..=5 => random.pick(&[1e-9, 1e-20, tiny, 0.1, 1e-4]),
        6..=13 => random.power(powers.0, powers.1),
        14..=18 => beside_power(random, beside.0, beside.1),
        _ => random.within(0.0, most).max(1e-9),
    }
}

fn beside_power(random: &mut Random, least: i64, most: i64) -> f64 {
    let power = random.power(least, most);
    random.beside(power)
}

fn coefficients(random: &mut Random) -> [f64; 4] {
    match random.below(10) {
        0..=5 => USUAL,
        6 | 7 => odd(random),
        _ => edged(random),
    }
}

fn odd(random: &mut Random) -> [f64; 4] {
    let alpha = random.within(0.1, 4.0);
    let chi = random
        .within(alpha.max(1.0), 8.0)
        .max(alpha.max(1.0).next_up());
    [
        alpha,
        chi,
        random.within(0.05, 0.95),
        random.within(0.05, 0.95),
    ]
}

/// Each coefficient at, or near, an end of its range.
fn edged(random: &mut Random) -> [f64; 4] {
    let alpha = random.pick(&[
        4.0,
        1.0,
        1.0,
        f64::from_bits(1),
        1e-300,
        1e-9,
        0.5,
        1.0f64.next_up(),
        4.0f64.next_down(),
    ]);
    let least = alpha.max(1.0).next_up();
    let chi = random.pick(&[least, least.next_up(), 8.0, 8.0f64.next_down(), 4.5]);
    [alpha, chi, fraction(random), fraction(random)]
}

fn fraction(random: &mut Random) -> f64 {
    random.pick(&[
        0.5,
        0.5,
        f64::from_bits(1),
        1e-300,
        1e-9,
        1.0f64.next_down(),
        0.999,
        0.25,
        0.75,
    ])
}

fn budget(random: &mut Random, n: u64, tells: u64) -> u64 {
    match random.below(20) {
        0 => n + 1,
        1 => random.between(n + 2, 3 * n + 12),
        2..=7 => (n + 1).max(random.between(tells / 2, tells + tells / 2)),
        8 => MOST_BUDGET,
        _ => random.between(tells + n + 1, 20 * tells + 100),
    }
}
