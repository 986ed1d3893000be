//! The costs that a script tells: many kinds, most of them made to meet the ties of the iteration table, the probes and the restarts.

use crate::bowls::Bowl;
use crate::openings::Opening;
use crate::random::Random;

pub const DARK: u64 = 16_777_215;

enum Model {
    /// One of a few values.
    Few(Vec<u64>),
    /// Each cost lower than the last by 1 to `most`.
    Falling {
        level: u64,
        most: u64,
    },
    Rising {
        level: u64,
        most: u64,
    },
    Constant(u64),
    /// The same cost, and one in so many times a lower one: rules are met and probes are lower.
    Sinking {
        level: u64,
        odds: u64,
    },
    Bowl(Bowl),
    /// Equal or next to a cost told before.
    Relative,
    Anything {
        most: u64,
    },
}

/// What is told in one search: first the planned costs, then those of the models, one at a time.
pub struct Costs {
    planned: Vec<u64>,
    models: Vec<Model>,
    dark_odds: u64,
    /// Whether a reading that would end the search is made lower than all before, so that a probe restarts it.
    pub lasting: bool,
    told: Vec<u64>,
    lowest: u64,
    highest: u64,
}

impl Costs {
    pub fn of(random: &mut Random, opening: &Opening, planned: Vec<u64>) -> Costs {
        let models = if random.one_in(4) { 2 } else { 1 };
        let models = (0..models).map(|_| model(random, opening)).collect();
        let dark_odds = random.pick(&[0, 0, 0, 0, 4, 20]);
        let lasting = random.below(5) < 3;
        Costs {
            planned,
            models,
            dark_odds,
            lasting,
            told: Vec::new(),
            lowest: DARK,
            highest: 0,
        }
    }

    /// Costs that are told as they were planned, to the end.
    pub fn planned(random: &mut Random, opening: &Opening, planned: Vec<u64>) -> Costs {
        Costs {
            lasting: false,
            ..Costs::of(random, opening, planned)
        }
    }

    /// The cost of the next trial, which `tell` then tells.
    pub fn next(&mut self, random: &mut Random, point: &[f64; 8]) -> u64 {
        if self.models.len() > 1 && random.one_in(25) {
            self.models.rotate_left(1);
        }
        let cost = match self.planned.get(self.told.len()) {
            Some(cost) => *cost,
            None if self.dark_odds > 0 && random.one_in(self.dark_odds) => DARK,
            None => self.by_model(random, point),
        };
        cost.min(DARK)
    }

    /// A cost lower than all that were told, or 0.
    pub fn lower(&self) -> u64 {
        self.lowest.saturating_sub(1)
    }

    /// Keeps a cost that is told.
    pub fn tell(&mut self, cost: u64) {
        self.told.push(cost);
        self.lowest = self.lowest.min(cost);
        self.highest = self.highest.max(cost);
    }

    fn by_model(&mut self, random: &mut Random, point: &[f64; 8]) -> u64 {
        let near = self.near(random);
        match &mut self.models[0] {
            Model::Few(values) => random.pick(values),
            Model::Falling { level, most } => {
                *level = level.saturating_sub(random.between(1, *most));
                *level
            }
            Model::Rising { level, most } => {
                *level += random.between(1, *most);
                *level
            }
            Model::Constant(cost) => *cost,
            Model::Sinking { level, odds } => {
                *level = level.saturating_sub(u64::from(random.one_in(*odds)));
                *level
            }
            Model::Bowl(bowl) => bowl.cost(random, point),
            Model::Relative => near,
            Model::Anything { most } => random.between(0, *most),
        }
    }

    /// A cost told lately, the lowest or the highest, or one next to it.
    fn near(&self, random: &mut Random) -> u64 {
        let Some(last) = self.told.last() else {
            return random.between(50, 5000);
        };
        let back = random.below(self.told.len().min(10) as u64) as usize;
        let held = match random.below(8) {
            0..=1 => *last,
            2 => self.lowest,
            3 => self.highest,
            _ => self.told[self.told.len() - 1 - back],
        };
        match random.below(5) {
            0 => held + 1,
            1 => held.saturating_sub(1),
            _ => held,
        }
    }
}

fn model(random: &mut Random, opening: &Opening) -> Model {
    let most = random.pick(&[1, 3, 50]);
    match random.below(20) {
        0..=2 => Model::Few(few(random)),
        3 | 4 => Model::Falling {
            level: random.pick(&[DARK, 5000, 300]),
            most,
        },
        5 => Model::Rising {
            level: random.pick(&[0, 7, DARK - 100]),
            most,
        },
        6 => Model::Constant(random.pick(&[DARK, DARK, 0, 5000])),
        7..=9 => Model::Sinking {
            level: random.pick(&[DARK, 40, 1000]),
            odds: random.pick(&[3, 8, 15, 40]),
        },
        10..=14 => Model::Bowl(Bowl::of(random, opening)),
        15..=18 => Model::Relative,
        _ => Model::Anything {
            most: random.pick(&[20, 1000, DARK]),
        },
    }
}

/// Two to four values, close together or far apart.
fn few(random: &mut Random) -> Vec<u64> {
    let most = random.pick(&[3, 10, 1000, DARK]);
    let base = random.between(0, DARK - most);
    let count = random.between(2, 4);
    (0..count).map(|_| base + random.between(0, most)).collect()
}
