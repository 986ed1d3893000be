//! The three stopping rules, tested at the end of each build and iteration.

use crate::search::{Phase, Search};
use crate::types::Rule;

impl Search {
    /// Ends a build (moved by nothing) or an iteration, nothing gathered: a probe round starts if the rule is met.
    pub(crate) fn finish(&mut self, moved: Option<f64>) {
        self.counts.open = 0;
        self.gathered.clear_from(0);
        self.vertices = 0;
        self.phase = if self.rule_is_met(moved) {
            Phase::Probing(0)
        } else {
            self.first_phase()
        };
    }

    /// Tests the rule on the standing simplex; moved is never met at a build.
    fn rule_is_met(&self, moved: Option<f64>) -> bool {
        match self.rule {
            Rule::Spread(e) => self.spread_is_met(e),
            Rule::Moved(e) => moved.is_some_and(|sum| sum < e * self.n as f64),
            Rule::Size(e) => self.size_is_met(e),
        }
    }

    /// m·(sum of squared costs) − (sum of costs)² < E·n·m, with m = n+1.
    fn spread_is_met(&self, e: u64) -> bool {
        let n = self.n as u128;
        let m = n + 1;
        let mut sum: u128 = 0;
        let mut squares: u128 = 0;
        for &cost in &self.standing.costs[..=self.n] {
            sum += u128::from(cost);
            squares += u128::from(cost) * u128::from(cost);
        }
        m * squares - sum * sum < u128::from(e) * n * m
    }

    /// For every i from 2, the sum of (xi − x1)² is ≤ (E·E)·D, where D = q if 1 < q, else 1.
    fn size_is_met(&self, e: f64) -> bool {
        let x1 = self.standing.point(0);
        let q = add_squares(self.n, x1);
        let d = if 1.0 < q { q } else { 1.0 };
        let limit = (e * e) * d;
        (1..=self.n)
            .all(|index| add_differences(0.0, self.n, self.standing.point(index), x1) <= limit)
    }
}

/// Goes on with a sum by the squared differences (a − b) in axis order.
pub(crate) fn add_differences(sum: f64, n: usize, a: &[f64], b: &[f64]) -> f64 {
    let mut sum = sum;
    for (x, y) in a[..n].iter().zip(&b[..n]) {
        let difference = x - y;
        sum += difference * difference;
    }
    sum
}

/// The sum of squared coordinates, running from 0 in axis order.
fn add_squares(n: usize, point: &[f64]) -> f64 {
    let mut sum = 0.0;
    for x in &point[..n] {
        sum += x * x;
    }
    sum
}
