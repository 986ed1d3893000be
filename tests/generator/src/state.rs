//! A search's parts, as the words of its state line, and where docs/REPLAY.md says what the calls answer.

use crate::habits::NELDER_MEAD;
use rival::replay::Replay;
use rival::Search;

/// The part, which of it, and the value of a line that writes one.
pub type Written = [u64; 3];

/// Where a place 0 of the standing simplex would begin, and one of the gathered simplex.
const STANDING: usize = 69;
const GATHERED: usize = 159;

/// Where the stops at a place 0 would stand.
const STOPS: usize = 258;

pub struct State(Vec<u64>);

impl State {
    pub fn of(search: &Search) -> State {
        State(search.words())
    }

    /// The method: 0 for Nelder-Mead, 1 for the multidirectional search.
    pub fn method(&self) -> u64 {
        self.0[0]
    }

    pub fn n(&self) -> u64 {
        self.0[1]
    }

    /// The stopping rule, 1 to 3, and its E.
    pub fn rule(&self) -> [u64; 2] {
        [self.0[2], self.0[3]]
    }

    pub fn budget(&self) -> u64 {
        self.0[8]
    }

    pub fn phase(&self) -> u64 {
        self.0[49]
    }

    pub fn detail(&self) -> u64 {
        self.0[50]
    }

    pub fn readings(&self) -> u64 {
        self.0[51]
    }

    /// One of the nine counts, from 1.
    pub fn count(&self, which: u64) -> u64 {
        self.0[51 + which as usize]
    }

    pub fn builds(&self) -> u64 {
        self.count(1)
    }

    /// The bits of lo and hi of an axis, from 1.
    pub fn limits(&self, axis: u64) -> [u64; 2] {
        let lo = 4 + 5 * axis as usize;
        [self.0[lo], self.0[lo + 1]]
    }

    /// The step of an axis, from 1.
    pub fn step(&self, axis: u64) -> f64 {
        f64::from_bits(self.0[7 + 5 * axis as usize])
    }

    /// Whether an axis, from 1, is a ring: 1 or 0.
    pub fn ring(&self, axis: u64) -> u64 {
        self.0[8 + 5 * axis as usize]
    }

    /// α, χ, β and σ.
    pub fn coefficients(&self) -> [f64; 4] {
        std::array::from_fn(|i| f64::from_bits(self.0[4 + i]))
    }

    /// The coordinates' bits of the best reading.
    pub fn best_point(&self) -> &[u64] {
        &self.0[61..69]
    }

    /// The coordinates' bits of the point that a build goes around.
    pub fn center(&self) -> &[u64] {
        &self.0[71..79]
    }

    pub fn best(&self) -> u64 {
        self.0[69]
    }

    pub fn best_number(&self) -> u64 {
        self.0[70]
    }

    /// The cost at a place of the standing simplex, from 1.
    pub fn standing(&self, place: u64) -> u64 {
        self.vertex(STANDING, place)[8]
    }

    /// The number of the reading that gave it.
    pub fn standing_number(&self, place: u64) -> u64 {
        self.vertex(STANDING, place)[9]
    }

    /// The coordinates' bits there.
    pub fn standing_point(&self, place: u64) -> &[u64] {
        &self.vertex(STANDING, place)[..8]
    }

    pub fn gathered(&self, place: u64) -> u64 {
        self.vertex(GATHERED, place)[8]
    }

    pub fn gathered_number(&self, place: u64) -> u64 {
        self.vertex(GATHERED, place)[9]
    }

    pub fn gathered_point(&self, place: u64) -> &[u64] {
        &self.vertex(GATHERED, place)[..8]
    }

    /// The stops at a place, from 1.
    pub fn stops(&self, place: u64) -> u64 {
        self.0[STOPS + place as usize]
    }

    /// The words of a place, from 1: eight coordinates' bits, the cost and the number.
    fn vertex(&self, run: usize, place: u64) -> &[u64] {
        let start = run + 10 * place as usize;
        &self.0[start..start + 10]
    }

    /// Whether e or a contraction is asked, and so r held at the first gathered place.
    pub fn holds_r(&self) -> bool {
        (2..=4).contains(&self.phase())
    }

    /// How many standing vertices have to be in cost order.
    pub fn standing_vertices(&self) -> u64 {
        match self.standing_number(1) {
            0 => 0,
            _ => self.n().saturating_add(1).min(9),
        }
    }

    /// How many gathered vertices have to be in cost order.
    pub fn gathered_vertices(&self) -> u64 {
        match self.phase() {
            0 | 5 => self.detail().min(9),
            _ => 0,
        }
    }

    /// The line that puts back what another one writes over.
    pub fn undoing(&self, line: Written) -> Written {
        let [part, which, _] = line;
        match part {
            0 => [0, 0, self.n()],
            1 => [1, 0, self.budget()],
            2 => [2, 0, self.readings()],
            3 => [3, which, self.count(which)],
            4 => [4, self.phase(), self.detail()],
            5 => [5, which, self.standing(which)],
            6 => [6, which, self.gathered(which)],
            7 => [7, 0, self.best()],
            9 => [9, which, self.limits(which)[0]],
            10 => [10, which, self.limits(which)[1]],
            11 => [11, which, self.standing_number(which)],
            12 => [12, which, self.gathered_number(which)],
            13 => [13, 0, self.best_number()],
            14 => [14, which, self.ring(which)],
            15 => [15, 0, self.method()],
            16 => [16, which, self.stops(which)],
            _ => [8, self.0[2], self.0[3]],
        }
    }

    /// The most by which the cost at one of places 1 to n is above that of the next.
    pub fn standing_fall(&self) -> i128 {
        fall(self.n().min(8), |place| self.standing(place))
    }

    /// The same of the gathered places that a build or a shrink has.
    fn gathered_fall(&self) -> i128 {
        let vertices = self.gathered_vertices();
        fall(vertices.saturating_sub(1), |place| self.gathered(place))
    }

    /// Whether the calls' answers are fixed: nothing is to be inserted among places out of cost order. In Nelder-Mead 12 refuses these but
    /// where an iteration is under way and place 1 has no number; in the multidirectional search 12 refuses none.
    pub fn is_fixed(&self) -> bool {
        let inserts = (1..=5).contains(&self.phase());
        if self.method() == NELDER_MEAD {
            return !inserts || self.standing_number(1) != 0 || self.standing_fall() <= 0;
        }
        let gathers = [0, 5].contains(&self.phase());
        !(inserts && self.standing_fall() > 0 || gathers && self.gathered_fall() > 0)
    }
}

/// The most by which the cost at one of so many places is above that of the next.
fn fall(places: u64, cost: impl Fn(u64) -> u64) -> i128 {
    let fall = |place| i128::from(cost(place)) - i128::from(cost(place + 1));
    (1..=places.min(8)).map(fall).max().unwrap_or(0)
}

pub fn writes_parts(script: &[u8]) -> bool {
    script.windows(3).any(|bytes| bytes == b"\np ") || script.starts_with(b"p ")
}

/// The script up to the first call whose answer nothing fixes, for a script that was changed after it was made.
pub fn fixed_part(mut script: Vec<u8>) -> Vec<u8> {
    if writes_parts(&script) {
        script.truncate(fixed_length(&script));
    }
    script
}

fn fixed_length(script: &[u8]) -> usize {
    let mut replay = Replay::default();
    let mut length = 0;
    for line in script.split_inclusive(|b| *b == b'\n') {
        let call = matches!(line.first(), Some(b'a' | b't' | b'b'));
        if call && !State::of(replay.search()).is_fixed() {
            return length;
        }
        let whole = line.strip_suffix(b"\n");
        let answered = whole.and_then(|line| replay.answer(line, &mut Vec::new()));
        if answered.is_none() {
            return script.len();
        }
        length += line.len();
    }
    length
}
