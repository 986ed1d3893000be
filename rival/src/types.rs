//! The records that calls are handed and the answers that they give.

/// Axes that a search has at most, and coordinates in every point.
pub(crate) const MAX_AXES: usize = 8;

/// The greatest cost, told for a dark frame.
pub(crate) const MAX_COST: u64 = 16_777_215;

/// The greatest budget.
pub(crate) const MAX_BUDGET: u64 = 1_000_000;

/// The greatest E of a spread.
pub(crate) const MAX_SPREAD: u64 = 4_294_967_295;

/// A point; its coordinates past the n that it was asked with are 0.
pub(crate) type Point = [f64; MAX_AXES];

/// The point whose coordinates are all 0.
pub(crate) const ORIGIN: Point = [0.0; MAX_AXES];

/// An axis record.
#[derive(Clone, Copy, Debug, Default, PartialEq)]
pub struct Axis {
    /// The lower limit.
    pub lo: f64,
    /// The upper limit, a permitted position; on a ring the same position as lo.
    pub hi: f64,
    /// The start point's coordinate.
    pub start: f64,
    /// The step of a build.
    pub step: f64,
    /// "An axis record says whether it is a ring."
    pub ring: bool,
}

impl Axis {
    /// Whether v is a position of the axis, which bringing it there leaves as it is; a NaN is none.
    pub(crate) fn holds(&self, v: f64) -> bool {
        self.lo <= v && if self.ring { v < self.hi } else { v <= self.hi }
    }

    /// Bring v into the axis: clamped, or brought round on a ring. With it 1 where that is a stop, else 0.
    pub(crate) fn bring(&self, v: f64) -> (f64, u64) {
        if self.ring {
            // "Being brought round never counts as standing at a stop."
            (self.brought_round(v), 0)
        } else {
            self.clamp(v)
        }
    }

    /// "If the outcome is still not lo ≤ v < hi it becomes lo."
    fn brought_round(&self, v: f64) -> f64 {
        let outcome = self.turned(v);
        if self.lo <= outcome && outcome < self.hi {
            outcome
        } else {
            self.lo
        }
    }

    /// "A value with lo ≤ v false becomes v + (hi − lo), any other with v < hi false becomes v − (hi − lo)." One turn at most.
    fn turned(&self, v: f64) -> f64 {
        let turn = self.hi - self.lo;
        match (self.lo <= v, v < self.hi) {
            (false, _) => v + turn,
            (true, false) => v - turn,
            (true, true) => v,
        }
    }

    /// Clamp v; with it 1 where that is a stop, since lo or hi is answered in place of v, else 0.
    fn clamp(&self, v: f64) -> (f64, u64) {
        if self.lo <= v {
            if v <= self.hi {
                (v, 0)
            } else {
                (self.hi, 1)
            }
        } else {
            (self.lo, 1)
        }
    }
}

/// The coefficients of the moves.
#[derive(Clone, Copy, Debug, PartialEq)]
pub struct Coefficients {
    /// Of the reflected point.
    pub alpha: f64,
    /// Of the expansion.
    pub chi: f64,
    /// Of a contraction.
    pub beta: f64,
    /// Of a shrink.
    pub sigma: f64,
}

impl Coefficients {
    /// The usual ones: 1, 2, 1/2, 1/2.
    pub const USUAL: Coefficients = Coefficients {
        alpha: 1.0,
        chi: 2.0,
        beta: 0.5,
        sigma: 0.5,
    };
}

/// The method of a search.
#[derive(Clone, Copy, Debug, PartialEq, Eq)]
pub enum Method {
    /// Nelder-Mead.
    NelderMead,
    /// "The sequential method of source document 002, section 2.3."
    Multidirectional,
}

impl Method {
    /// The method of a number, as a script gives it; none of a number above 1.
    pub(crate) fn numbered(number: u64) -> Option<Method> {
        match number {
            0 => Some(Method::NelderMead),
            1 => Some(Method::Multidirectional),
            _ => None,
        }
    }

    /// The method's number, as a script gives it.
    pub(crate) fn number(self) -> u64 {
        match self {
            Method::NelderMead => 0,
            Method::Multidirectional => 1,
        }
    }
}

/// A stopping rule with its E.
#[derive(Clone, Copy, Debug, PartialEq)]
pub enum Rule {
    /// How far the costs are spread.
    Spread(u64),
    /// How far the replaced vertices moved.
    Moved(f64),
    /// How large the simplex is.
    Size(f64),
}

impl Rule {
    /// The rule of a number from 1 to 3, its E as a script gives it; none of any other number.
    pub(crate) fn numbered(number: u64, e: u64) -> Option<Rule> {
        match number {
            1 => Some(Rule::Spread(e)),
            2 => Some(Rule::Moved(f64::from_bits(e))),
            3 => Some(Rule::Size(f64::from_bits(e))),
            _ => None,
        }
    }

    /// The rule's number and its E, as a script gives them.
    pub(crate) fn words(&self) -> [u64; 2] {
        match self {
            Rule::Spread(e) => [1, *e],
            Rule::Moved(e) => [2, shown_bits(*e)],
            Rule::Size(e) => [3, shown_bits(*e)],
        }
    }
}

/// The bits by which a float is shown: every NaN by the same.
pub(crate) fn shown_bits(x: f64) -> u64 {
    if x.is_nan() {
        0x7ff8_0000_0000_0000
    } else {
        x.to_bits()
    }
}

/// A refused call's number, with the axis, from 1, for numbers 2 to 4 and 13, else 0.
#[derive(Clone, Copy, Debug, PartialEq, Eq)]
pub struct Refusal {
    /// The number in the table of refused calls.
    pub number: u64,
    /// The axis that comes with numbers 2 to 4 and 13.
    pub axis: u64,
}

impl Refusal {
    /// A refusal that comes without an axis.
    pub(crate) const fn numbered(number: u64) -> Refusal {
        Refusal { number, axis: 0 }
    }
}

/// A point, its cost and the number of the reading that gave it: a reading, or a vertex of the simplex.
#[derive(Clone, Copy, Debug, PartialEq)]
pub struct Vertex {
    /// The point.
    pub point: [f64; 8],
    /// The cost told for it.
    pub cost: u64,
    /// The number, from 1, of the reading that gave the cost; 0 where no reading did.
    pub number: u64,
}

impl Vertex {
    /// All zero, where no reading stands.
    pub(crate) const ZERO: Vertex = Vertex {
        point: ORIGIN,
        cost: 0,
        number: 0,
    };
}

/// A point brought into the axes, one by one, with its stops.
#[derive(Clone, Copy, Debug, PartialEq)]
pub(crate) struct Brought {
    /// The point.
    pub(crate) point: Point,
    /// How many of its axes the clamp changed; a ring is none of them.
    pub(crate) stops: u64,
}

impl Brought {
    /// The point whose coordinates are all 0, no stop among them.
    pub(crate) const ORIGIN: Brought = Brought {
        point: ORIGIN,
        stops: 0,
    };
}

/// The point asked next, with its reading number and its stops.
#[derive(Clone, Copy, Debug, PartialEq)]
pub struct Trial {
    /// The reading number, accepted readings + 1.
    pub number: u64,
    /// The point.
    pub point: [f64; 8],
    /// How many of its axes the clamp changed; a ring is none of them.
    pub stops: u64,
}
