//! A script as it grows, with the search that its calls have made so far.

use crate::habits::{Habit, PLAIN};
use crate::openings::Opening;
use crate::state::{State, Written};
use rival::{Search, Trial};

/// The most bytes that are read.
pub const LIMIT: usize = 262_144;

pub struct Script {
    pub text: String,
    pub told: u64,
    /// What its openings have in common.
    pub habit: Habit,
    search: Search,
    /// Whether a part of the search was written.
    made_up: bool,
}

impl Script {
    pub fn new() -> Script {
        Script::with(PLAIN)
    }

    /// A script whose openings have a habit.
    pub fn with(habit: Habit) -> Script {
        Script {
            text: String::new(),
            told: 0,
            habit,
            search: Search::closed(),
            made_up: false,
        }
    }

    /// Opens a search, and says whether the opening is accepted.
    pub fn open(&mut self, opening: &Opening) -> bool {
        self.text.push_str(&opening.line());
        self.told = 0;
        self.made_up = false;
        let opened = opening.open();
        let accepted = opened.is_ok();
        self.search = opened.unwrap_or_else(|_| Search::closed());
        accepted
    }

    /// Puts a value into one part of the search.
    pub fn write(&mut self, [part, which, value]: Written) {
        self.text
            .push_str(&format!("p {part:016x} {which:016x} {value:016x}\n"));
        self.search.write_part(part, which, value);
        self.made_up = true;
        if part == 2 {
            self.told = value;
        }
    }

    pub fn search(&self) -> &Search {
        &self.search
    }

    pub fn state(&self) -> State {
        State::of(&self.search)
    }

    /// Whether the next call's answer is fixed. A call that has none is left out.
    fn is_fixed(&self) -> bool {
        !self.made_up || self.state().is_fixed()
    }

    pub fn ask(&mut self) {
        if self.is_fixed() {
            self.text.push_str("a\n");
        }
    }

    pub fn best(&mut self) {
        if self.is_fixed() {
            self.text.push_str("b\n");
        }
    }

    pub fn show(&mut self) {
        self.text.push_str("s\n");
    }

    /// A series of searches of its own, which leaves the search as it is.
    pub fn series(&mut self, method: u64, n: u64, readings: u64) {
        self.text
            .push_str(&format!("r {method:016x} {n:016x} {readings:016x}\n"));
    }

    pub fn tell(&mut self, number: u64, cost: u64) {
        if !self.is_fixed() {
            return;
        }
        self.text
            .push_str(&format!("t {number:016x} {cost:016x}\n"));
        if self.search.tell(number, cost).is_ok() {
            self.told += 1;
        }
    }

    /// The reading number that a tell needs, as far as there is one.
    pub fn next_number(&self) -> u64 {
        self.told.wrapping_add(1)
    }

    /// The trial to be measured next, or none if the search has ended or is refused.
    pub fn trial(&self) -> Option<Trial> {
        self.search.ask().ok()
    }

    /// Whether the next tell of a sound cost is accepted, with an answer that is fixed.
    pub fn goes_on(&self) -> bool {
        self.trial().is_some() && self.is_fixed()
    }

    pub fn has_ended(&self) -> bool {
        self.search.has_ended()
    }

    /// Whether the search would end with this cost told next.
    pub fn would_end(&self, cost: u64) -> bool {
        let mut search = self.search.clone();
        search.tell(self.next_number(), cost).is_ok() && search.has_ended()
    }
}
