//! The parts of a search: all of them as words, and one of them written as no call would.

use crate::search::{Cause, Phase, Search, Side};
use crate::simplex::{Simplex, MAX_VERTICES};
use crate::stopping::add_differences;
use crate::types::{shown_bits, Method, Rule, Vertex};

// An axis count, and a number of vertices, of probes, or of a companion, may be any number of 64 bits.
const _: () = assert!(usize::BITS == 64);

/// The words of a state line.
const WORDS: usize = 268;

/// A part that can be written. Counts, places and axes go by their index.
#[derive(Clone, Copy)]
pub(crate) enum Part {
    /// The axis count.
    Axes,
    /// The budget.
    Budget,
    /// Accepted readings.
    Readings,
    /// One of the nine counts.
    Count(usize),
    /// The phase of a number, with its detail.
    Phase(u64),
    /// A cost of the standing simplex.
    Standing(usize),
    /// A cost of the gathered simplex.
    Gathered(usize),
    /// The best reading's cost.
    Best,
    /// The rule of a number, with its E.
    Rule(u64),
    /// The lower limit of an axis.
    Low(usize),
    /// The upper limit of an axis.
    High(usize),
    /// A reading's number of the standing simplex.
    StandingNumber(usize),
    /// A reading's number of the gathered simplex.
    GatheredNumber(usize),
    /// The best reading's number.
    BestNumber,
    /// Whether an axis is a ring.
    Ring(usize),
    /// The method.
    Method,
    /// The stops at a place.
    Stops(usize),
}

impl Part {
    /// The part of two words, none if they are not in the table.
    pub(crate) fn numbered(part: u64, which: u64) -> Option<Part> {
        let index = which.wrapping_sub(1) as usize;
        match (part, which) {
            (0, 0) => Some(Part::Axes),
            (1, 0) => Some(Part::Budget),
            (2, 0) => Some(Part::Readings),
            (3, 1..=9) => Some(Part::Count(index)),
            (4, 0..=11) => Some(Part::Phase(which)),
            (5, 1..=9) => Some(Part::Standing(index)),
            (6, 1..=9) => Some(Part::Gathered(index)),
            (7, 0) => Some(Part::Best),
            (8, 1..=3) => Some(Part::Rule(which)),
            (9, 1..=8) => Some(Part::Low(index)),
            (10, 1..=8) => Some(Part::High(index)),
            (11, 1..=9) => Some(Part::StandingNumber(index)),
            (12, 1..=9) => Some(Part::GatheredNumber(index)),
            (13, 0) => Some(Part::BestNumber),
            (14, 1..=8) => Some(Part::Ring(index)),
            (15, 0) => Some(Part::Method),
            (16, 1..=9) => Some(Part::Stops(index)),
            _ => None,
        }
    }

    /// The part that a line writes: none if it is not in the table, or if it is a ring or the method and the value is above 1.
    pub(crate) fn written(part: u64, which: u64, value: u64) -> Option<Part> {
        let any = |part: &Part| !matches!(part, Part::Ring(_) | Part::Method);
        Part::numbered(part, which).filter(|part| any(part) || value <= 1)
    }
}

impl Search {
    /// Writes a part by the two words that name it, and says whether there is one that can have the value.
    pub fn write_part(&mut self, part: u64, which: u64, value: u64) -> bool {
        let named = Part::written(part, which, value);
        if let Some(part) = named {
            self.write(part, value);
        }
        named.is_some()
    }

    /// Writes a part, and works out again what is carried beside the parts.
    pub(crate) fn write(&mut self, part: Part, value: u64) {
        match part {
            Part::Axes => self.n = value as usize,
            Part::Budget => self.budget = value,
            Part::Readings => self.readings = value,
            Part::Count(index) => *self.counts.in_order_mut()[index] = value,
            Part::Phase(number) => self.write_phase(number, value),
            Part::Standing(index) => self.standing.put_cost(index, value),
            Part::Gathered(index) => self.gathered.put_cost(index, value),
            Part::Best => self.best.cost = value,
            Part::Rule(number) => self.write_rule(number, value),
            Part::Low(index) => self.axes[index].lo = f64::from_bits(value),
            Part::High(index) => self.axes[index].hi = f64::from_bits(value),
            Part::StandingNumber(index) => self.standing.put_number(index, value),
            Part::GatheredNumber(index) => self.gathered.put_number(index, value),
            Part::BestNumber => self.best.number = value,
            Part::Ring(index) => self.axes[index].ring = value == 1,
            Part::Method => self.write_method(value),
            Part::Stops(index) => self.stops[index] = value,
        }
        self.restore();
    }

    /// Writes the phase of a number, with its detail if it has one.
    fn write_phase(&mut self, number: u64, detail: u64) {
        self.vertices = match number {
            0 | 5 => detail as usize,
            _ => 0,
        };
        self.phase = match number {
            0 => Phase::Building,
            1 => Phase::Reflecting,
            2 => Phase::Expanding,
            3 => Phase::Contracting(Side::Outside),
            4 => Phase::Contracting(Side::Inside),
            5 => Phase::Shrinking,
            6 => Phase::Probing(detail as usize),
            7 => Phase::Ended(Cause::Settled),
            8 => Phase::Ended(Cause::Budget),
            9 => Phase::Base,
            10 => Phase::Reflection(detail as usize),
            _ => Phase::Companion(detail as usize),
        };
    }

    /// Writes the method of a number.
    fn write_method(&mut self, number: u64) {
        if let Some(method) = Method::numbered(number) {
            self.method = method;
        }
    }

    /// Writes the rule of a number.
    fn write_rule(&mut self, number: u64, e: u64) {
        if let Some(rule) = Rule::numbered(number, e) {
            self.rule = rule;
        }
    }

    /// Works out again what is carried beside the parts, if a call may be accepted.
    fn restore(&mut self) {
        if self.has_ended() || self.refuse_damaged().is_err() {
            return;
        }
        self.centroid = self.centroid_of_standing();
        self.moved = self.moved_before(self.vertices);
        self.set_trial();
    }

    /// What a shrink has moved when so many vertices are gathered.
    fn moved_before(&self, vertices: usize) -> f64 {
        (1..vertices).fold(0.0, |sum, index| {
            let old = self.standing.point(index);
            add_differences(sum, self.n, old, &self.shrunk_trial(index).point)
        })
    }

    /// All parts, as the words of a state line.
    pub fn words(&self) -> Vec<u64> {
        let mut words = Vec::with_capacity(WORDS);
        self.extend_opening(&mut words);
        words.extend(self.phase_words());
        words.push(self.readings);
        words.extend(self.counts.in_order());
        extend_vertex(&mut words, &self.best);
        extend_point(&mut words, &self.center);
        extend_simplex(&mut words, &self.standing);
        extend_simplex(&mut words, &self.gathered);
        words.extend(self.stops);
        words
    }

    /// Adds what the opening gave, in the order of its line.
    fn extend_opening(&self, words: &mut Vec<u64>) {
        let k = &self.coefficients;
        words.extend([self.method.number(), self.n as u64]);
        words.extend(self.rule.words());
        extend_point(words, &[k.alpha, k.chi, k.beta, k.sigma]);
        words.push(self.budget);
        for axis in &self.axes {
            extend_point(words, &[axis.lo, axis.hi, axis.start, axis.step]);
            words.push(u64::from(axis.ring));
        }
    }

    /// The phase's number and its detail.
    fn phase_words(&self) -> [u64; 2] {
        let vertices = self.vertices as u64;
        match self.phase {
            Phase::Building => [0, vertices],
            Phase::Reflecting => [1, 0],
            Phase::Expanding => [2, 0],
            Phase::Contracting(Side::Outside) => [3, 0],
            Phase::Contracting(Side::Inside) => [4, 0],
            Phase::Shrinking => [5, vertices],
            Phase::Probing(told) => [6, told as u64],
            Phase::Ended(Cause::Settled) => [7, 0],
            Phase::Ended(Cause::Budget) => [8, 0],
            Phase::Base => [9, 0],
            Phase::Reflection(i) => [10, i as u64],
            Phase::Companion(i) => [11, i as u64],
        }
    }
}

/// Adds the words of coordinates.
fn extend_point(words: &mut Vec<u64>, coordinates: &[f64]) {
    words.extend(coordinates.iter().map(|&x| shown_bits(x)));
}

/// Adds the words of a vertex: its point, cost and number.
fn extend_vertex(words: &mut Vec<u64>, vertex: &Vertex) {
    extend_point(words, &vertex.point);
    words.extend([vertex.cost, vertex.number]);
}

/// Adds the words of places 1 to 9.
fn extend_simplex(words: &mut Vec<u64>, simplex: &Simplex) {
    (0..MAX_VERTICES).for_each(|index| extend_vertex(words, &simplex.vertex(index)));
}
