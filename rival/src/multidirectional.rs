//! The multidirectional search: a base, its companions, and their reflections through the base.

use crate::search::{Phase, Search};
use crate::simplex::{Simplex, MAX_VERTICES};
use crate::types::{Brought, Method, Vertex};

/// What stands as a companion: a vertex and its stops.
type Companion = (Vertex, u64);

/// A companion that is made and not read yet.
fn unread(made: Brought) -> Companion {
    let vertex = Vertex {
        point: made.point,
        ..Vertex::ZERO
    };
    (vertex, made.stops)
}

/// A companion that is read: its trial is over, so that it has no stops.
fn read(vertex: Vertex) -> Companion {
    (vertex, 0)
}

impl Search {
    /// The reflection of companion i through the base: x0 + (x0 − xi).
    pub(crate) fn companion_reflected(&self, i: usize) -> Brought {
        let [x0, xi] = [0, i].map(|index| self.standing.point(index));
        self.brought(|axis| x0[axis] + (x0[axis] - xi[axis]))
    }

    /// Companion i halfway to the base: xi + ½·(x0 − xi).
    fn companion_halved(&self, i: usize) -> Brought {
        let [x0, xi] = [0, i].map(|index| self.standing.point(index));
        self.brought(|axis| xi[axis] + 0.5 * (x0[axis] - xi[axis]))
    }

    /// Companion i where it stands: "its trial carries that count" of the moment when it was made.
    pub(crate) fn companion_trial(&self, i: usize) -> Brought {
        let xi = self.standing.point(i);
        let stops = self.stops[i];
        Brought {
            stops,
            ..self.brought(|axis| xi[axis])
        }
    }

    /// A reading becomes the base, and unread companions are built around it: the first base, or the lower probe of a restart.
    pub(crate) fn build_around(&mut self, base: &Vertex) {
        self.center = base.point;
        self.vertices = 0;
        self.gathered.clear_from(0);
        self.stand(base, |search, i| unread(search.build_trial(i)));
        self.phase = self.first_phase();
    }

    /// The phase whose trial opens an iteration.
    pub(crate) fn first_phase(&self) -> Phase {
        match self.method {
            Method::NelderMead => Phase::Reflecting,
            Method::Multidirectional => Phase::Reflection(1),
        }
    }

    /// Whether a reading is lower than the base.
    fn is_lower(&self, reading: &Vertex) -> bool {
        reading.cost < self.standing.costs[0]
    }

    /// Takes the reading of reflection j: a lower one swaps with the base, and the reflections become the companions.
    pub(crate) fn tell_reflection(&mut self, j: usize, reading: &Vertex) {
        self.counts.iteration_readings += 1;
        if self.is_lower(reading) {
            self.swap_reflection(j, reading);
        } else {
            self.gathered.place(j - 1, reading);
            if j < self.n {
                self.phase = Phase::Reflection(j + 1);
            } else if let Some(i) = self.first_unread(1) {
                self.phase = Phase::Companion(i);
            } else {
                self.halve();
            }
        }
    }

    /// The reflections become the companions, those before j read and those after it not; the old base is companion j.
    fn swap_reflection(&mut self, j: usize, reading: &Vertex) {
        let base = self.standing.vertex(0);
        self.stand(reading, |search, i| {
            if i < j {
                read(search.gathered.vertex(i - 1))
            } else if i == j {
                read(base)
            } else {
                unread(search.companion_reflected(i))
            }
        });
        self.finish_iteration();
    }

    /// Takes the reading of companion j: a lower one swaps with the base.
    pub(crate) fn tell_companion(&mut self, j: usize, reading: &Vertex) {
        self.counts.iteration_readings += 1;
        if self.is_lower(reading) {
            self.swap_companion(j, reading);
        } else if let Some(i) = self.first_unread(j + 1) {
            self.standing.clear_from(self.n + 1);
            self.standing.put(j, reading);
            self.phase = Phase::Companion(i);
        } else {
            self.halve();
        }
    }

    /// Companion j becomes the base and the old base companion j; the others stay, read or unread, with their stops.
    fn swap_companion(&mut self, j: usize, reading: &Vertex) {
        let old = self.standing.vertex(0);
        self.stand(reading, |search, i| {
            if i == j {
                read(old)
            } else {
                (search.standing.vertex(i), search.stops[i])
            }
        });
        self.finish_iteration();
    }

    /// The first unread companion from companion i on.
    fn first_unread(&self, i: usize) -> Option<usize> {
        (i..=self.n).find(|&i| self.standing.numbers[i] == 0)
    }

    /// Nothing was lower: the companions go halfway to the base, all of them unread then.
    fn halve(&mut self) {
        let base = self.standing.vertex(0);
        self.stand(&base, |search, i| unread(search.companion_halved(i)));
        self.finish_iteration();
    }

    /// The base and its companions take their places, made from what stood before; zeros follow.
    fn stand(&mut self, base: &Vertex, companion: impl Fn(&Search, usize) -> Companion) {
        let mut standing = Simplex::EMPTY;
        let mut stops = [0; MAX_VERTICES];
        standing.place(0, base);
        for (i, count) in stops.iter_mut().enumerate().take(self.n + 1).skip(1) {
            let (vertex, made) = companion(self, i);
            standing.place(i, &vertex);
            *count = made;
        }
        self.standing = standing;
        self.stops = stops;
    }

    /// An iteration ends, in which no vertex was replaced as the rule moved counts it.
    fn finish_iteration(&mut self) {
        self.counts.iterations += 1;
        self.finish(Some(0.0));
    }
}
