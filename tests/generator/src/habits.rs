//! What the openings of one script have in common: whether some of their axes are rings, and the method. Both are drawn apart from the rest
//! of the script, so that the same draws make a script of the one method or of the other.

use crate::random::Random;

pub const NELDER_MEAD: u64 = 0;
pub const MULTIDIRECTIONAL: u64 = 1;

const RINGS: u64 = 3;
const METHODS: u64 = 4;

#[derive(Clone, Copy)]
pub struct Habit {
    pub rings: bool,
    /// The method of most openings.
    pub method: u64,
    /// Whether some openings have the other one.
    mixed: bool,
}

/// No rings, and Nelder-Mead, as `tune` has it.
pub const PLAIN: Habit = Habit {
    rings: false,
    method: NELDER_MEAD,
    mixed: false,
};

impl Habit {
    /// The habit of a script: two of five have rings. Half of the scripts have each method, but where one is asked for.
    pub fn of(seed: u64, number: u64, wanted: Option<u64>) -> Habit {
        let mut methods = Random::of(seed, METHODS, number);
        Habit {
            rings: Random::of(seed, RINGS, number).below(100) < 40,
            method: wanted.unwrap_or(methods.below(2)),
            mixed: methods.one_in(10) && wanted.is_none(),
        }
    }

    pub fn without_rings(self) -> Habit {
        Habit {
            rings: false,
            ..self
        }
    }

    /// The method of the next opening.
    pub fn next_method(&self, random: &mut Random) -> u64 {
        match self.mixed && random.one_in(3) {
            true => 1 - self.method,
            false => self.method,
        }
    }
}
