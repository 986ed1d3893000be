//! The causes of refusal 12, counted: how often one past its edge a call was refused, and how often at its edge a call was accepted. A
//! cause counts where one line that writes a part is all that stands between a sound search and the call.

use crate::companion_edges as companions;
use crate::costs::DARK;
use crate::openings::{MOST_BUDGET, MOST_SPREAD, SPREAD};
use crate::orders;
use crate::state::{State, Written};
use rival::Search;

pub const CAUSES: [&str; 39] = [
    "n below",
    "n above",
    "readings not below the budget",
    "builds above the budget",
    "reflections above the budget",
    "expansions above the budget",
    "contractions above the budget",
    "shrinks above the budget",
    "probes above the budget",
    "open above the budget",
    "multidirectional iterations above the budget",
    "readings in those above the budget",
    "budget above 1,000,000",
    "spread E",
    "build number above n",
    "build number 0 after a reading, no build",
    "build number 0 after a reading, builds",
    "shrink number 0",
    "shrink number above n",
    "probe number",
    "standing order",
    "standing order, by its number",
    "gathered order",
    "cost of standing place",
    "cost past the standing ones",
    "cost of gathered place",
    "cost past the gathered ones",
    "best's cost",
    "reflection number 0",
    "reflection number above n",
    "companion number 0",
    "companion number above n",
    "companion that is read",
    "companion that is read, by its number",
    "companion below lo",
    "companion above hi",
    "companion at hi of a ring",
    "companion, a limit no number",
    "another rule",
];

/// Causes that have no edge: what is written there is the cause, or it is none.
const WITHOUT_EDGE: [&str; 1] = ["companion, a limit no number"];

pub fn has_edge(cause: &str) -> bool {
    !WITHOUT_EDGE.contains(&cause)
}

/// A cause of two parts.
const LATE: &str = CAUSES[2];

/// Calls at ask, tell and best.
pub const CALLS: [&str; 3] = ["ask", "tell", "best"];

#[derive(Clone)]
pub struct Causes {
    /// Refused with 12 one past the edge, by cause and call.
    pub refused: [[u64; 3]; CAUSES.len()],
    /// Accepted at the edge.
    pub accepted: [[u64; 3]; CAUSES.len()],
    /// Accepted tells of searches of which a part was written before, by phase.
    pub made_up: [u64; 12],
}

impl Default for Causes {
    fn default() -> Causes {
        Causes {
            refused: [[0; 3]; CAUSES.len()],
            accepted: [[0; 3]; CAUSES.len()],
            made_up: [0; 12],
        }
    }
}

impl Causes {
    pub fn join(&mut self, other: &Causes) {
        join(&mut self.refused, &other.refused);
        join(&mut self.accepted, &other.accepted);
        let phases = self.made_up.iter_mut().zip(other.made_up);
        phases.for_each(|(count, more)| *count += more);
    }

    fn add(&mut self, met: &Met, call: usize, verdict: u64) {
        match (met.past, verdict) {
            (true, 12) => self.refused[met.cause][call] += 1,
            (false, 0) => self.accepted[met.cause][call] += 1,
            _ => {}
        }
    }
}

fn join(counts: &mut [[u64; 3]], more: &[[u64; 3]]) {
    let all = counts.iter_mut().flatten().zip(more.iter().flatten());
    all.for_each(|(count, more)| *count += more);
}

/// A cause at its edge, or one past it.
struct Met {
    cause: usize,
    past: bool,
}

/// Follows a script that writes parts.
#[derive(Default)]
pub struct Watch {
    met: Vec<Met>,
    /// Whether a part of the search was written.
    made_up: bool,
}

impl Watch {
    /// Takes a line of the script, the verdict of its answer and the search that the line was handed.
    pub fn see(&mut self, line: &[u8], verdict: u64, search: &Search, causes: &mut Causes) {
        let call = b"atb"
            .iter()
            .position(|letter| line.first() == Some(letter));
        if let Some(call) = call {
            self.met
                .iter()
                .for_each(|met| causes.add(met, call, verdict));
        }
        match line.first() {
            Some(b'p') => self.write(line, search),
            Some(b'o') => self.open(),
            Some(b't') if verdict == 0 => self.tell(search, causes),
            _ => {}
        }
    }

    fn open(&mut self) {
        self.made_up = false;
        self.met.clear();
    }

    fn tell(&mut self, search: &Search, causes: &mut Causes) {
        if self.made_up {
            let phase = State::of(search).phase();
            let count = causes.made_up.get_mut(phase as usize);
            count.into_iter().for_each(|count| *count += 1);
        }
        self.met.clear();
    }

    fn write(&mut self, line: &[u8], search: &Search) {
        let state = State::of(search);
        let sound = search.ask().is_ok() && state.is_fixed();
        self.made_up = true;
        self.met.clear();
        if sound {
            self.met = met(&state, words(line));
        }
    }
}

/// The part, which of it and the value of a line; of a tell, its number and cost.
pub fn words(line: &[u8]) -> Written {
    let text = String::from_utf8_lossy(line);
    let mut words = text.split(' ').skip(1);
    std::array::from_fn(|_| {
        let word = words.next().unwrap_or_default();
        u64::from_str_radix(word, 16).unwrap_or(u64::MAX)
    })
}

/// The last value that is accepted.
enum Edge {
    Least(u64),
    Most(u64),
}

impl Edge {
    /// Whether a value is one past the edge, or at it; none if it is elsewhere.
    fn past(&self, value: u64) -> Option<bool> {
        let (edge, beyond) = match self {
            Edge::Least(edge) => (*edge, edge.checked_sub(1)),
            Edge::Most(edge) => (*edge, edge.checked_add(1)),
        };
        match value {
            _ if value == edge => Some(false),
            _ if Some(value) == beyond => Some(true),
            _ => None,
        }
    }
}

/// The causes whose edge a line written into a sound state meets, or passes by one.
fn met(state: &State, line: Written) -> Vec<Met> {
    let at_edges = edges(state, line)
        .into_iter()
        .filter_map(|(name, edge)| edge.past(line[2]).map(|past| (name, past)));
    let in_order = orders::past(state, line).map(|past| match line[0] {
        5 => ("standing order", past),
        11 => ("standing order, by its number", past),
        _ => ("gathered order", past),
    });
    let companions = companions::met(state, line);
    let met = |(name, past)| {
        let cause = CAUSES.iter().position(|cause| *cause == name);
        cause.map(|cause| Met { cause, past })
    };
    at_edges
        .chain(in_order)
        .chain(companions)
        .filter_map(met)
        .collect()
}

/// The causes of a part, each with its edge.
fn edges(state: &State, [part, which, _]: Written) -> Vec<(&'static str, Edge)> {
    match part {
        0 => vec![("n below", Edge::Least(1)), ("n above", Edge::Most(8))],
        1 => vec![
            (LATE, Edge::Least(state.readings() + 1)),
            ("budget above 1,000,000", Edge::Most(MOST_BUDGET)),
        ],
        2 => readings_edges(state),
        3 => vec![(CAUSES[2 + which as usize], Edge::Most(state.budget()))],
        4 => phase_edges(state, which),
        5 | 6 => vec![(held_cost(state, part, which), Edge::Most(DARK))],
        7 => vec![("best's cost", Edge::Most(DARK))],
        8 if which == SPREAD => vec![("spread E", Edge::Most(MOST_SPREAD))],
        _ => vec![],
    }
}

/// The causes of readings: the first vertex of a build may be told only where they are 0.
fn readings_edges(state: &State) -> Vec<(&'static str, Edge)> {
    let mut edges = vec![(LATE, Edge::Most(state.budget() - 1))];
    if [state.phase(), state.detail()] == [0, 0] {
        edges.push((without_vertex(state), Edge::Most(0)));
    }
    edges
}

/// The cause of a build without a vertex, whatever the count of builds is.
fn without_vertex(state: &State) -> &'static str {
    match state.builds() {
        0 => "build number 0 after a reading, no build",
        _ => "build number 0 after a reading, builds",
    }
}

/// The causes of a phase's detail.
fn phase_edges(state: &State, phase: u64) -> Vec<(&'static str, Edge)> {
    let n = state.n();
    let mut edges = match phase {
        0 => vec![("build number above n", Edge::Most(n))],
        5 => vec![
            ("shrink number 0", Edge::Least(1)),
            ("shrink number above n", Edge::Most(n)),
        ],
        6 => vec![("probe number", Edge::Most(2 * n - 1))],
        10 => vec![
            ("reflection number 0", Edge::Least(1)),
            ("reflection number above n", Edge::Most(n)),
        ],
        11 => vec![
            ("companion number 0", Edge::Least(1)),
            ("companion number above n", Edge::Most(n)),
        ],
        _ => vec![],
    };
    if phase == 0 && state.readings() > 0 {
        edges.push((without_vertex(state), Edge::Least(1)));
    }
    edges
}

/// The cause of a cost at a place of either simplex.
fn held_cost(state: &State, part: u64, place: u64) -> &'static str {
    match part {
        5 if place <= state.standing_vertices() => "cost of standing place",
        5 => "cost past the standing ones",
        _ if place <= state.gathered_vertices() => "cost of gathered place",
        _ if place == 1 && state.holds_r() => "cost of gathered place",
        _ => "cost past the gathered ones",
    }
}
