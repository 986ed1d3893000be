//! The iteration: the table of the reflected cost, and the shrink.

use crate::search::{Phase, Search, Side};
use crate::stopping::add_differences;
use crate::types::Vertex;

impl Search {
    /// Takes the reading of r, by the rows of the table.
    pub(crate) fn tell_reflected(&mut self, r: &Vertex) {
        let costs = &self.standing.costs;
        let (f1, fn_, fw) = (costs[0], costs[self.n - 1], costs[self.n]);
        self.counts.open += 1;
        if r.cost < f1 {
            self.hold_reflected(r, Phase::Expanding);
        } else if r.cost < fn_ {
            self.counts.reflections += 1;
            self.take(r);
        } else if r.cost < fw {
            self.hold_reflected(r, Phase::Contracting(Side::Outside));
        } else {
            self.hold_reflected(r, Phase::Contracting(Side::Inside));
        }
    }

    /// Holds r, alone at the first gathered place, while the next point of the iteration is asked.
    fn hold_reflected(&mut self, r: &Vertex, phase: Phase) {
        self.gathered.enter(0, r);
        self.phase = phase;
    }

    /// Takes the reading of e: takes e if fe < fr, else r as it is held.
    pub(crate) fn tell_expanded(&mut self, e: &Vertex) {
        let r = self.gathered.vertex(0);
        self.counts.expansions += 1;
        self.take(if e.cost < r.cost { e } else { &r });
    }

    /// Takes the reading of a contraction: outside taken if fc ≤ fr, inside if fc < fw, else shrinks.
    pub(crate) fn tell_contracted(&mut self, side: Side, c: &Vertex) {
        let taken = match side {
            Side::Outside => c.cost <= self.gathered.costs[0],
            Side::Inside => c.cost < self.standing.costs[self.n],
        };
        if taken {
            self.counts.contractions += 1;
            self.take(c);
        } else {
            self.counts.open += 1;
            self.start_shrink();
        }
    }

    /// A taken point joins places 1 to n, so replaces w, and the iteration ends.
    fn take(&mut self, taken: &Vertex) {
        let moved = add_differences(0.0, self.n, self.worst(), &taken.point);
        self.standing.enter(self.n, taken);
        self.finish(Some(moved));
    }

    /// A shrink keeps x1 with its number, also where it has coordinates past n.
    fn start_shrink(&mut self) {
        let x1 = self.standing.vertex(0);
        self.gather_first(&x1);
        self.moved = 0.0;
        self.phase = Phase::Shrinking;
    }

    /// Takes the reading of a shrunk vertex; the simplex is replaced when all n are told.
    pub(crate) fn tell_shrunk(&mut self, reading: &Vertex) {
        let old = self.standing.point(self.vertices);
        self.moved = add_differences(self.moved, self.n, old, &reading.point);
        self.counts.open += 1;
        self.gather(reading);
        if self.vertices == self.n + 1 {
            self.counts.shrinks += 1;
            self.standing.clone_from(&self.gathered);
            self.finish(Some(self.moved));
        }
    }
}
