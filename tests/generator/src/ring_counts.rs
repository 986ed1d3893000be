//! Rings, counted in the scripts: what becomes of each coordinate that is asked on one, steps over the seam, and refusal 13; also openings
//! about refusal 14, and lines that are malformed for a ring or a method.

use crate::causes;
use crate::courses::LONGEST_SERIES;
use crate::habits::MULTIDIRECTIONAL;
use crate::openings::{MOST_BUDGET, MOVED, SIZE, SPREAD};
use crate::state::State;
use crate::targets;
use rival::Search;

/// What makes a search.
pub const MAKERS: [&str; 2] = ["calls alone", "parts written"];

/// What becomes of a coordinate: one of the first five, and of the others those that hold.
pub const BRANCHES: [&str; 8] = [
    "inside",
    "turned up",
    "turned down",
    "up, to lo",
    "down, to lo",
    "at hi",
    "NaN",
    "r brought round",
];

/// Builds whose step went over the seam.
pub const SEAMS: [&str; 2] = ["first build", "restart"];

/// Openings about refusal 13.
pub const OPENINGS: [&str; 8] = [
    "13 over 4",
    "3 over 13",
    "2 over 13",
    "13 by a zero of the other sign",
    "13 before a fault of a later axis",
    "a fault of an earlier axis before 13",
    "start at hi past n, accepted",
    "start at hi, no ring, accepted",
];

/// Openings about refusal 14.
pub const METHODS: [&str; 7] = [
    "14, no rule named",
    "14, spread",
    "14, moved",
    "14 over 7",
    "6 over 14",
    "5 over 14",
    "an axis over 14",
];

/// Malformed lines for a ring above 1, and for a method above 1.
pub const MALFORMED: [&str; 5] = [
    "o, a ring above 1",
    "p, a ring above 1",
    "o, a method above 1",
    "p, a method above 1",
    "r, a method above 1",
];

#[derive(Clone, Default)]
pub struct Rings {
    /// Coordinates of accepted asks on ring axes, by maker, phase and branch.
    pub branches: [[[u64; 8]; 12]; 2],
    /// Accepted asks of a build's step over the seam, by maker and build.
    pub seams: [[u64; 2]; 2],
    /// Accepted asks with a ring among their axes while another axis is at its stop, by maker.
    pub beside_stops: [u64; 2],
    /// Openings refused as 13, by axis.
    pub refused: [u64; 9],
    pub openings: [u64; 8],
    pub methods: [u64; 7],
    pub malformed: [u64; 5],
    /// Lines that write a ring: 0 and 1, and 1 past n.
    pub written: [u64; 3],
    /// Coordinates that are not what this program makes of the search's parts.
    pub other: u64,
    /// Accepted openings with a ring, and all.
    pub ringed: [u64; 2],
}

impl Rings {
    pub fn join(&mut self, other: &Rings) {
        let branches = self.branches.as_flattened_mut().as_flattened_mut();
        add(branches, other.branches.as_flattened().as_flattened());
        add(self.seams.as_flattened_mut(), other.seams.as_flattened());
        add(&mut self.beside_stops, &other.beside_stops);
        add(&mut self.refused, &other.refused);
        add(&mut self.openings, &other.openings);
        add(&mut self.methods, &other.methods);
        add(&mut self.malformed, &other.malformed);
        add(&mut self.written, &other.written);
        add(&mut self.ringed, &other.ringed);
        self.other += other.other;
    }
}

fn add(counts: &mut [u64], more: &[u64]) {
    let both = counts.iter_mut().zip(more);
    both.for_each(|(count, more)| *count += more);
}

/// Follows a script.
#[derive(Default)]
pub struct Follower {
    /// Whether a part of the search was written.
    made_up: bool,
}

impl Follower {
    /// Takes a line of the script, its answer's words and the search that the line was handed.
    pub fn see(&mut self, line: &[u8], answer: &[u64], search: &Search, rings: &mut Rings) {
        match (line.first(), answer.first()) {
            (Some(b'o'), Some(verdict)) => self.open(line, *verdict, answer, rings),
            (Some(b'p'), _) => self.write(line, search, rings),
            (Some(b'a'), Some(0)) => self.ask(answer, &State::of(search), rings),
            _ => {}
        }
    }

    fn open(&mut self, line: &[u8], verdict: u64, answer: &[u64], rings: &mut Rings) {
        self.made_up = false;
        let opening = Given::read(line);
        let axis = answer.get(1).copied().unwrap_or(0);
        if verdict == 13 {
            rings.refused[axis.min(8) as usize] += 1;
        }
        if verdict == 0 {
            rings.ringed[0] += u64::from((1..=opening.n()).any(|axis| opening.is_ring(axis)));
            rings.ringed[1] += 1;
        }
        let met = opening.met(verdict, axis);
        let counts = rings.openings.iter_mut().zip(met);
        counts.for_each(|(count, met)| *count += u64::from(met));
        let met = opening.met_by_method(verdict, axis);
        let counts = rings.methods.iter_mut().zip(met);
        counts.for_each(|(count, met)| *count += u64::from(met));
    }

    fn write(&mut self, line: &[u8], search: &Search, rings: &mut Rings) {
        self.made_up = true;
        let [part, axis, value] = causes::words(line);
        if part == 14 {
            rings.written[value.min(1) as usize] += 1;
            rings.written[2] += u64::from(value == 1 && axis > State::of(search).n());
        }
    }

    /// Counts the coordinates of an accepted ask.
    fn ask(&self, answer: &[u64], state: &State, rings: &mut Rings) {
        let maker = usize::from(self.made_up);
        let phase = state.phase() as usize;
        let ringed = (1..=state.n()).filter(|axis| state.ring(*axis) == 1);
        let mut any = false;
        for axis in ringed {
            any = true;
            let met = met(state, axis);
            let counts = rings.branches[maker][phase].iter_mut().zip(met);
            counts.for_each(|(count, met)| *count += u64::from(met));
            rings.other += u64::from(outcome(state, axis) != answer[1 + axis as usize]);
            if phase == 0 && state.detail() == axis && met[2] | met[4] {
                rings.seams[maker][usize::from(state.builds() > 0)] += 1;
            }
        }
        rings.beside_stops[maker] += u64::from(any && answer[10] > 0);
    }
}

/// What a ring axis is asked, as it is shown.
fn outcome(state: &State, axis: u64) -> u64 {
    let [lo, hi] = state.limits(axis).map(f64::from_bits);
    let x = targets::round(lo, hi, targets::target(state, axis)).outcome;
    match x.is_nan() {
        true => 0x7ff8_0000_0000_0000,
        false => x.to_bits(),
    }
}

/// Which branches hold of the coordinate that is asked on a ring axis.
fn met(state: &State, axis: u64) -> [bool; 8] {
    let [lo, hi] = state.limits(axis).map(f64::from_bits);
    let v = targets::target(state, axis);
    let round = targets::round(lo, hi, v);
    let by_r = (2..=3).contains(&state.phase());
    let r = targets::round(lo, hi, targets::reflected(state, axis));
    [
        !round.up && !round.down,
        round.up && !round.to_lo,
        round.down && !round.to_lo,
        round.up && round.to_lo,
        round.down && round.to_lo,
        v == hi,
        v.is_nan(),
        by_r && (r.up || r.down),
    ]
}

/// A line that could be an opening or a series but for a ring or a method above 1, or one that writes such a ring or method.
pub fn malformed(line: &[u8], rings: &mut Rings) {
    let sound = line.len() > 1 && (line.len() - 1).is_multiple_of(17);
    let words = (line.len().saturating_sub(1)) / 17;
    match line.first() {
        Some(b'o') if sound && words == 49 => {
            let opening = Given::read(line);
            let above = (1..=8).any(|axis| opening.ring(axis) > 1);
            let [method, _, rule] = [opening.0[0], opening.0[1], opening.0[2]];
            rings.malformed[0] += u64::from(above && method <= 1 && rule <= 3);
            rings.malformed[2] += u64::from(!above && method > 1 && rule <= 3);
        }
        Some(b'p') if sound && words == 3 => {
            let [part, axis, value] = causes::words(line);
            let above = part == 14 && (1..=8).contains(&axis) && value > 1;
            rings.malformed[1] += u64::from(above);
            rings.malformed[3] += u64::from([part, axis] == [15, 0] && value > 1);
        }
        Some(b'r') if sound && words == 3 => {
            let [method, _, readings] = causes::words(line);
            rings.malformed[4] += u64::from(method > 1 && readings <= LONGEST_SERIES);
        }
        _ => {}
    }
}

/// The words of an opening's line.
struct Given(Vec<u64>);

impl Given {
    fn read(line: &[u8]) -> Given {
        let text = String::from_utf8_lossy(line);
        let words = text.split(' ').skip(1);
        let mut words: Vec<u64> = words
            .map(|word| u64::from_str_radix(word, 16).unwrap_or(u64::MAX))
            .collect();
        words.resize(49, 0);
        Given(words)
    }

    fn n(&self) -> u64 {
        self.0[1].min(8)
    }

    fn ring(&self, axis: u64) -> u64 {
        self.0[8 + 5 * axis as usize]
    }

    fn is_ring(&self, axis: u64) -> bool {
        self.ring(axis) == 1
    }

    /// lo, hi, start and step.
    fn numbers(&self, axis: u64) -> [f64; 4] {
        std::array::from_fn(|i| f64::from_bits(self.0[4 + 5 * axis as usize + i]))
    }

    fn starts_at_hi(&self, axis: u64) -> bool {
        let [_, hi, start, _] = self.numbers(axis);
        start == hi
    }

    /// Whether 4 would refuse the axis.
    fn bad_step(&self, axis: u64) -> bool {
        let [lo, hi, start, step] = self.numbers(axis);
        start + step == start || step > (hi - lo) / 2.0
    }

    /// Whether the axis is a ring that starts at hi.
    fn at_seam(&self, axis: u64) -> bool {
        self.is_ring(axis) && self.starts_at_hi(axis)
    }

    /// Which of `METHODS` hold.
    fn met_by_method(&self, verdict: u64, axis: u64) -> [bool; 7] {
        let [method, rule, budget] = [self.0[0], self.0[2], self.0[8]];
        let other = method == MULTIDIRECTIONAL && rule != SIZE;
        let refused = |number| other && verdict == number;
        let spent = !(self.n() + 1..=MOST_BUDGET).contains(&budget);
        [
            refused(14) && rule == 0,
            refused(14) && rule == SPREAD,
            refused(14) && rule == MOVED,
            refused(14) && spent,
            refused(6),
            refused(5),
            other && axis > 0,
        ]
    }

    /// Which of `OPENINGS` hold.
    fn met(&self, verdict: u64, axis: u64) -> [bool; 8] {
        let n = self.n();
        let refused = |number| verdict == number && (1..=n).contains(&axis);
        let seam = (1..=8).contains(&axis) && self.at_seam(axis);
        let signs = |axis| self.0[5 + 5 * axis as usize] != self.0[6 + 5 * axis as usize];
        let faulty = |axis| self.at_seam(axis) || self.bad_step(axis);
        [
            refused(13) && self.bad_step(axis),
            refused(3) && seam,
            refused(2) && seam,
            refused(13) && signs(axis),
            refused(13) && (axis + 1..=n).any(faulty),
            verdict != 13 && axis > 0 && (axis + 1..=n).any(|axis| self.at_seam(axis)),
            verdict == 0 && (n + 1..=8).any(|axis| self.at_seam(axis)),
            verdict == 0 && (1..=n).any(|axis| !self.is_ring(axis) && self.starts_at_hi(axis)),
        ]
    }
}
