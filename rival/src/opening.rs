//! Opening a search, and the refusals 1 to 7, 13 and 14.

use crate::search::{Phase, Search};
use crate::types::{Axis, Coefficients, Method, Refusal, Rule, MAX_AXES, MAX_BUDGET, MAX_SPREAD};

/// The greatest size of an axis number, and the greatest E of moved and size.
const MAX_NUMBER: f64 = 1_048_576.0;

/// The rule of an opening that names none.
const UNNAMED: Rule = Rule::Spread(4);

impl Search {
    /// Opens a search, or refuses by the first check that fails: in table order, 13 just after 3 and 14 after 6.
    pub fn open(
        method: Method,
        n: u64,
        axes: &[Axis; 8],
        rule: Option<Rule>,
        coefficients: Coefficients,
        budget: u64,
    ) -> Result<Search, Refusal> {
        let rule = rule.unwrap_or(UNNAMED);
        let count = axis_count(n).ok_or(Refusal::numbered(1))?;
        check_axes(&axes[..count])?;
        check(coefficients_hold(&coefficients), 5)?;
        check(rule_holds(rule), 6)?;
        check(method_takes(method, rule), 14)?;
        check((n + 1..=MAX_BUDGET).contains(&budget), 7)?;
        let mut search = Search {
            method,
            n: count,
            rule,
            coefficients,
            budget,
            phase: first_asked(method),
            ..Search::closed()
        };
        search.place_start(&axes[..count]);
        Ok(search)
    }

    /// Copies the n records that are read; the start point is the first trial.
    fn place_start(&mut self, read: &[Axis]) {
        for (i, axis) in read.iter().enumerate() {
            self.axes[i] = *axis;
            self.center[i] = axis.start;
        }
        self.set_trial();
    }
}

/// The phase of a search without a reading.
fn first_asked(method: Method) -> Phase {
    match method {
        Method::NelderMead => Phase::Building,
        Method::Multidirectional => Phase::Base,
    }
}

/// n, if it is 1 to 8.
fn axis_count(n: u64) -> Option<usize> {
    let count = usize::try_from(n).ok()?;
    (1..=MAX_AXES).contains(&count).then_some(count)
}

/// Refuses with a number unless the condition holds.
fn check(holds: bool, number: u64) -> Result<(), Refusal> {
    if holds {
        Ok(())
    } else {
        Err(Refusal::numbered(number))
    }
}

/// Tries 2, 3, 13, 4 on each axis, lowest first.
fn check_axes(axes: &[Axis]) -> Result<(), Refusal> {
    for (axis, number) in (1..).zip(axes.iter().map(axis_refusal)) {
        if number != 0 {
            return Err(Refusal { number, axis });
        }
    }
    Ok(())
}

/// The refusal of one axis record, or 0.
fn axis_refusal(axis: &Axis) -> u64 {
    if !numbers_in_range(axis) {
        2
    } else if !record_in_order(axis) {
        3
    } else if starts_at_seam(axis) {
        13
    } else if axis.start + axis.step == axis.start || axis.step > (axis.hi - axis.lo) / 2.0 {
        4
    } else {
        0
    }
}

/// Whether all four numbers pass −1,048,576 ≤ v ≤ 1,048,576; NaN fails.
fn numbers_in_range(axis: &Axis) -> bool {
    [axis.lo, axis.hi, axis.start, axis.step]
        .iter()
        .all(|v| (-MAX_NUMBER..=MAX_NUMBER).contains(v))
}

/// Whether lo < hi, lo ≤ start ≤ hi and step > 0.
fn record_in_order(axis: &Axis) -> bool {
    axis.lo < axis.hi && axis.lo <= axis.start && axis.start <= axis.hi && axis.step > 0.0
}

/// "An opening whose ring axis starts at hi is refused as 13 with its axis, tried just after 3 on the same axis."
fn starts_at_seam(axis: &Axis) -> bool {
    axis.ring && axis.start == axis.hi
}

/// Whether every coefficient is in its range; NaN fails.
fn coefficients_hold(given: &Coefficients) -> bool {
    let alpha = given.alpha > 0.0 && given.alpha <= 4.0;
    let chi = given.chi > 1.0 && given.chi > given.alpha && given.chi <= 8.0;
    let beta = 0.0 < given.beta && given.beta < 1.0;
    let sigma = 0.0 < given.sigma && given.sigma < 1.0;
    alpha && chi && beta && sigma
}

/// Whether the rule's E is in its range; NaN fails.
fn rule_holds(rule: Rule) -> bool {
    match rule {
        Rule::Spread(e) => (1..=MAX_SPREAD).contains(&e),
        Rule::Moved(e) | Rule::Size(e) => 0.0 < e && e <= MAX_NUMBER,
    }
}

/// "Its stopping rule is size only": not another, nor the one that stands for none named.
pub(crate) fn method_takes(method: Method, rule: Rule) -> bool {
    method == Method::NelderMead || matches!(rule, Rule::Size(_))
}
