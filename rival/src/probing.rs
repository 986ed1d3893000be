//! The probe round and its two ends: restart and settled.

use crate::search::{Cause, Phase, Search};
use crate::types::{Brought, Vertex};

/// The part of a step that a probe goes.
const PROBE_FACTOR: f64 = 0.0009765625;

impl Search {
    /// The probe after so many are told: for each axis b + d, then b − d, brought into the axis.
    pub(crate) fn probe_trial(&self, told: usize) -> Brought {
        self.brought(|i| {
            let b = self.best.point[i];
            let d = self.axes[i].step * PROBE_FACTOR;
            match told {
                _ if i != told / 2 => b,
                _ if told.is_multiple_of(2) => b + d,
                _ => b - d,
            }
        })
    }

    /// Takes a probe reading: lower than b's restarts around it; the last of 2n settles the search.
    pub(crate) fn tell_probe(&mut self, told: usize, reading: &Vertex, lower: bool) {
        self.counts.probes += 1;
        if lower {
            self.restart(reading);
        } else if told + 1 == 2 * self.n {
            self.phase = Phase::Ended(Cause::Settled);
        } else {
            self.phase = Phase::Probing(told + 1);
        }
    }
}
