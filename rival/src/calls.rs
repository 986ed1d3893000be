//! The calls on a search: ask, tell and best.

use crate::search::{Cause, Phase, Search};
use crate::types::{Refusal, Trial, Vertex, MAX_COST};

impl Search {
    /// Answers the trial and its reading number, and changes nothing.
    pub fn ask(&self) -> Result<Trial, Refusal> {
        self.refuse_damaged()?;
        self.refuse_ended()?;
        Ok(Trial {
            number: self.readings + 1,
            point: self.trial.point,
            stops: self.trial.stops,
        })
    }

    /// Takes the reading of the trial; a refused tell leaves the search as given.
    pub fn tell(&mut self, number: u64, cost: u64) -> Result<(), Refusal> {
        self.refuse_damaged()?;
        self.refuse_ended()?;
        if number != self.readings + 1 {
            return Err(Refusal::numbered(10));
        }
        if cost > MAX_COST {
            return Err(Refusal::numbered(9));
        }
        self.accept(cost);
        Ok(())
    }

    /// The earliest reading of least cost, zeros past its n coordinates.
    pub fn best(&self) -> Result<Vertex, Refusal> {
        self.refuse_damaged()?;
        if self.readings == 0 {
            return Err(Refusal::numbered(11));
        }
        let mut best = self.best;
        best.point.iter_mut().skip(self.n).for_each(|x| *x = 0.0);
        Ok(best)
    }

    /// Whether the search has ended, by either cause.
    pub fn has_ended(&self) -> bool {
        matches!(self.phase, Phase::Ended(_))
    }

    /// Refuses with 8 if the search has ended.
    fn refuse_ended(&self) -> Result<(), Refusal> {
        if self.has_ended() {
            return Err(Refusal::numbered(8));
        }
        Ok(())
    }

    /// An accepted cost becomes a reading and moves the rules on.
    fn accept(&mut self, cost: u64) {
        let number = self.readings + 1;
        let reading = Vertex {
            point: self.trial.point,
            cost,
            number,
        };
        let lower = cost < self.best.cost;
        if lower || self.readings == 0 {
            self.best = reading;
        }
        self.readings = number;
        self.advance(&reading, lower);
        self.end_at_budget();
        self.set_trial();
    }

    /// Hands a reading to its phase; a probe is told whether it is lower than the best was.
    fn advance(&mut self, reading: &Vertex, lower: bool) {
        match self.phase {
            Phase::Building => self.tell_built(reading),
            Phase::Reflecting => self.tell_reflected(reading),
            Phase::Expanding => self.tell_expanded(reading),
            Phase::Contracting(side) => self.tell_contracted(side, reading),
            Phase::Shrinking => self.tell_shrunk(reading),
            Phase::Probing(told) => self.tell_probe(told, reading, lower),
            Phase::Ended(_) => {}
            Phase::Base => self.build_around(reading),
            Phase::Reflection(i) => self.tell_reflection(i, reading),
            Phase::Companion(i) => self.tell_companion(i, reading),
        }
    }

    /// Ends the search when the readings reach the budget, unless that reading settled it.
    fn end_at_budget(&mut self) {
        if self.readings == self.budget && !self.has_ended() {
            self.phase = Phase::Ended(Cause::Budget);
        }
    }
}
