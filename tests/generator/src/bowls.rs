//! Costs that follow from the trial: a quantized bowl with or without noise, a coupled valley, and costs in which an axis counts only
//! where the axes before it are equal.

use crate::openings::Opening;
use crate::random::Random;
use rival::Axis;

enum Shape {
    Round,
    Coupled,
    Lexicographic,
}

pub struct Bowl {
    shape: Shape,
    axes: Vec<Axis>,
    /// The lowest place on each axis, by its share of the range.
    lowest: Vec<f64>,
    scale: f64,
    quantum: u64,
    base: u64,
    noise: u64,
}

impl Bowl {
    pub fn of(random: &mut Random, opening: &Opening) -> Bowl {
        let axes = opening.axes[..opening.n as usize].to_vec();
        let quantum = random.pick(&[1, 1, 1, 10, 1000]);
        let (least, most) = random.pick(&[(0.0, 1.0), (0.0, 1.0), (-0.3, 1.3)]);
        Bowl {
            shape: random.pick(&[
                || Shape::Round,
                || Shape::Round,
                || Shape::Coupled,
                || Shape::Lexicographic,
            ])(),
            lowest: axes.iter().map(|_| random.within(least, most)).collect(),
            axes,
            scale: random.pick(&[20.0, 1000.0, 1e5, 1e7]),
            quantum,
            base: random.pick(&[0, 0, 100]),
            noise: random.pick(&[0, 0, quantum, 4]),
        }
    }

    pub fn cost(&self, random: &mut Random, point: &[f64; 8]) -> u64 {
        let shares = self.shares(point);
        let height = match self.shape {
            Shape::Round => self.scale * squares(&shares),
            Shape::Coupled => {
                self.scale * (squares(&shares) + 10.0 * squares(&differences(&shares)))
            }
            Shape::Lexicographic => levels(&shares) as f64,
        };
        let height = height as u64 / self.quantum * self.quantum;
        height.saturating_add(self.base + random.below(self.noise + 1))
    }

    /// How far the point is from the lowest place on each axis, by its share of the range.
    fn shares(&self, point: &[f64; 8]) -> Vec<f64> {
        let far = |(axis, (lowest, x)): (&Axis, (&f64, &f64))| {
            (x - axis.lo) / (axis.hi - axis.lo) - lowest
        };
        self.axes
            .iter()
            .zip(self.lowest.iter().zip(point))
            .map(far)
            .collect()
    }
}

fn squares(shares: &[f64]) -> f64 {
    shares.iter().map(|v| v * v).sum()
}

fn differences(shares: &[f64]) -> Vec<f64> {
    shares.windows(2).map(|pair| pair[0] - pair[1]).collect()
}

/// Four levels on each axis, the first axis counting most.
fn levels(shares: &[f64]) -> u64 {
    shares
        .iter()
        .fold(0, |sum, v| sum * 4 + ((v.abs() * 8.0) as u64).min(3))
}
