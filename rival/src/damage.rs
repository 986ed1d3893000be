//! Refusal 12: a search that has not ended and that no calls could have left. No search made by calls meets it.

use crate::opening::method_takes;
use crate::search::{Phase, Search};
use crate::types::{Method, Refusal, Rule, MAX_AXES, MAX_BUDGET, MAX_COST, MAX_SPREAD};

impl Search {
    /// Refuses a damaged search, before every other check of a later call.
    pub(crate) fn refuse_damaged(&self) -> Result<(), Refusal> {
        if self.has_ended() || self.is_whole() {
            Ok(())
        } else {
            Err(Refusal::numbered(12))
        }
    }

    /// Whether every test of refusal 12 passes. The vertices are looked at last, when n and the vertices are known to be few.
    fn is_whole(&self) -> bool {
        self.numbers_hold()
            && self.phase_number_holds()
            && self.costs_hold()
            && match self.method {
                Method::NelderMead => self.orders_hold(),
                Method::Multidirectional => self.companions_hold(),
            }
    }

    /// Whether n, readings, counts, budget and a spread E are in their ranges.
    fn numbers_hold(&self) -> bool {
        let budget = self.budget;
        (1..=MAX_AXES).contains(&self.n)
            && self.readings < budget
            && self.counts.in_order().iter().all(|&count| count <= budget)
            && budget <= MAX_BUDGET
            && !matches!(self.rule, Rule::Spread(e) if e > MAX_SPREAD)
            && method_takes(self.method, self.rule)
    }

    /// Whether the phase's vertex or probe number is one of that phase's trials. A build without a vertex has told no reading.
    fn phase_number_holds(&self) -> bool {
        let vertices = self.vertices;
        match self.phase {
            Phase::Building => vertices <= self.n && (vertices > 0 || self.readings == 0),
            Phase::Shrinking => (1..=self.n).contains(&vertices),
            Phase::Probing(told) => told < 2 * self.n,
            Phase::Reflection(i) => (1..=self.n).contains(&i),
            Phase::Companion(i) => (1..=self.n).contains(&i) && self.standing.numbers[i] == 0,
            _ => true,
        }
    }

    /// Whether no held cost is above 16,777,215.
    fn costs_hold(&self) -> bool {
        self.standing.costs_hold() && self.gathered.costs_hold() && self.best.cost <= MAX_COST
    }

    /// Whether the vertices of the standing and of the gathered simplex stand in cost order.
    fn orders_hold(&self) -> bool {
        self.standing.is_ordered(self.standing_vertices())
            && self.gathered.is_ordered(self.vertices)
    }

    /// Whether clamping, or bringing round, changes no companion, read or not. While the base is asked there is none.
    fn companions_hold(&self) -> bool {
        let holds = |point: &[f64]| {
            self.axes[..self.n]
                .iter()
                .zip(point)
                .all(|(axis, &v)| axis.holds(v))
        };
        self.phase == Phase::Base || (1..=self.n).all(|i| holds(self.standing.point(i)))
    }

    /// The vertices of the standing simplex: none where place 1 has no reading's number, as before the first build ends.
    fn standing_vertices(&self) -> usize {
        match self.standing.numbers[0] {
            0 => 0,
            _ => self.n + 1,
        }
    }
}
