//! The points that the rules ask, every one brought into the axes: clamped, or brought round on a ring.

use crate::search::{Phase, Search, Side};
use crate::types::{Brought, Point, MAX_AXES, ORIGIN};

impl Search {
    /// Works out the point that the rules ask next.
    pub(crate) fn set_trial(&mut self) {
        if self.phase == Phase::Reflecting {
            self.centroid = self.centroid_of_standing();
        }
        self.trial = self.next_trial();
    }

    /// The point that the phase asks; an ended search asks none.
    fn next_trial(&self) -> Brought {
        let k = &self.coefficients;
        match self.phase {
            Phase::Building => self.build_trial(self.vertices),
            Phase::Reflecting => self.reflection(),
            Phase::Expanding => self.off_centroid(k.chi, &self.reflection().point),
            Phase::Contracting(Side::Outside) => {
                self.off_centroid(k.beta, &self.reflection().point)
            }
            Phase::Contracting(Side::Inside) => self.off_centroid(k.beta, self.worst()),
            Phase::Shrinking => self.shrunk_trial(self.vertices),
            Phase::Probing(told) => self.probe_trial(told),
            Phase::Ended(_) => Brought::ORIGIN,
            Phase::Base => self.build_trial(0),
            Phase::Reflection(i) => self.companion_reflected(i),
            Phase::Companion(i) => self.companion_trial(i),
        }
    }

    /// w, the point at place n+1.
    pub(crate) fn worst(&self) -> &[f64] {
        self.standing.point(self.n)
    }

    /// A point's coordinates brought into their axes, and its stops counted; zeros past its n coordinates.
    pub(crate) fn brought(&self, coordinate: impl Fn(usize) -> f64) -> Brought {
        let mut brought = Brought::ORIGIN;
        for (i, axis) in self.axes[..self.n].iter().enumerate() {
            let (x, stop) = axis.bring(coordinate(i));
            brought.point[i] = x;
            brought.stops += stop;
        }
        brought
    }

    /// r = c + α·(c − w), from the centroid that is carried.
    pub(crate) fn reflection(&self) -> Brought {
        let c = &self.centroid;
        self.along(c, self.coefficients.alpha, c, self.worst())
    }

    /// c + factor·(tip − c), brought into the axes.
    fn off_centroid(&self, factor: f64, tip: &[f64]) -> Brought {
        self.along(&self.centroid, factor, tip, &self.centroid)
    }

    /// base + factor·(tip − tail), brought into the axes.
    fn along(&self, base: &[f64], factor: f64, tip: &[f64], tail: &[f64]) -> Brought {
        let [base, tip, tail] = [base, tip, tail].map(|point| &point[..MAX_AXES]);
        self.brought(|i| base[i] + factor * (tip[i] - tail[i]))
    }

    /// x1 + σ·(xi − x1), brought into the axes, for the vertex at an index.
    pub(crate) fn shrunk_trial(&self, index: usize) -> Brought {
        let x1 = self.standing.point(0);
        self.along(x1, self.coefficients.sigma, self.standing.point(index), x1)
    }

    /// c: the sum of places 1 to n in place order, starting with place 1, divided by n.
    pub(crate) fn centroid_of_standing(&self) -> Point {
        let mut c = ORIGIN;
        c.copy_from_slice(self.standing.point(0));
        for index in 1..self.n {
            self.add(&mut c, self.standing.point(index));
        }
        self.divide(&mut c);
        c
    }

    /// Adds a point to a sum, axis by axis.
    fn add(&self, sum: &mut Point, point: &[f64]) {
        for i in 0..self.n {
            sum[i] += point[i];
        }
    }

    /// Divides a sum by n, axis by axis.
    fn divide(&self, sum: &mut Point) {
        for coordinate in &mut sum[..self.n] {
            *coordinate /= self.n as f64;
        }
    }
}
