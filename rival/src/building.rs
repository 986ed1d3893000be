//! The first build and the build of a restart.

use crate::search::{Phase, Search};
use crate::types::{Brought, Method, Vertex};

impl Search {
    /// The trial of a build that has so many vertices: its center, then that point with axis i changed.
    pub(crate) fn build_trial(&self, vertices: usize) -> Brought {
        self.brought(|i| {
            if i + 1 == vertices {
                self.stepped(i)
            } else {
                self.center[i]
            }
        })
    }

    /// u = start + step if u ≤ hi, else start − step, around the center. That change is no stop; the clamp that follows may be one.
    /// On a ring "the build always takes start + step there".
    fn stepped(&self, i: usize) -> f64 {
        let axis = &self.axes[i];
        let u = self.center[i] + axis.step;
        if axis.ring || u <= axis.hi {
            u
        } else {
            self.center[i] - axis.step
        }
    }

    /// Takes the reading of a build; the first reading of all is left out of open.
    pub(crate) fn tell_built(&mut self, reading: &Vertex) {
        if self.vertices > 0 {
            self.counts.open += 1;
        }
        self.gather(reading);
        if self.vertices == self.n + 1 {
            self.counts.builds += 1;
            self.standing.clone_from(&self.gathered);
            self.finish(None);
        }
    }

    /// Starts a restart around a reading, whose cost is already known, as the method does.
    pub(crate) fn restart(&mut self, known: &Vertex) {
        match self.method {
            Method::NelderMead => self.restart_build(known),
            Method::Multidirectional => self.build_around(known),
        }
    }

    /// Starts a build around a vertex that is known.
    fn restart_build(&mut self, known: &Vertex) {
        self.center = known.point;
        self.gather_first(known);
        self.phase = Phase::Building;
    }

    /// A vertex that is known begins a restart or a shrink.
    pub(crate) fn gather_first(&mut self, known: &Vertex) {
        self.vertices = 0;
        self.gather(known);
    }

    /// A vertex joins those that are gathered.
    pub(crate) fn gather(&mut self, vertex: &Vertex) {
        self.gathered.enter(self.vertices, vertex);
        self.vertices += 1;
    }
}
