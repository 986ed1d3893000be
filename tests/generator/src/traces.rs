//! Numbers of readings, counted in the scripts: those that lines write, r where it is held, and what the calls make of them.

use crate::causes::words;
use crate::habits::NELDER_MEAD;
use crate::state::{State, Written};
use rival::Search;

/// The parts that hold a number, 11 to 13.
pub const PARTS: [&str; 3] = ["standing", "gathered", "best"];

/// What is written there. A number may be more than one of them.
pub const VALUES: [&str; 5] = ["0", "1", "readings", "readings + 1", "2^32 or more"];

/// How a cost that is told stands to that of r.
pub const MARGINS: [&str; 4] = ["one below", "equal", "one above", "farther"];

/// What was written where r is held: nothing there, its cost, its number but not its cost.
pub const WRITTEN: [&str; 3] = ["as it came", "its cost written", "its number written"];

/// What made the search.
pub const MAKERS: [&str; 2] = ["calls alone", "parts written"];

/// Whether builds are finished.
pub const BUILDS: [&str; 2] = ["no build", "builds"];

#[derive(Clone, Default)]
pub struct Traces {
    /// Lines that write a number, by part and value.
    pub written: [[u64; 5]; 3],
    /// Accepted tells while r is held, by phase, by what was written there and by margin.
    pub held: [[[u64; 4]; 3]; 3],
    /// Those of e that take r, by maker.
    pub taken: [u64; 2],
    /// Accepted tells of a cost equal to the best's, by maker and phase.
    pub equal: [[u64; 12]; 2],
    /// Calls over standing places out of order that are accepted since place 1 has no number, by builds and call.
    pub unread: [[u64; 3]; 2],
    /// Calls refused for that order alone, since it has one.
    pub read: [[u64; 3]; 2],
    /// Accepted tells of a build without a vertex in made-up searches, by builds.
    pub first: [u64; 2],
    /// State lines of made-up searches, by phase.
    pub shown: [u64; 12],
}

impl Traces {
    pub fn join(&mut self, other: &Traces) {
        add(
            self.written.as_flattened_mut(),
            other.written.as_flattened(),
        );
        let held = self.held.as_flattened_mut().as_flattened_mut();
        add(held, other.held.as_flattened().as_flattened());
        add(&mut self.taken, &other.taken);
        add(self.equal.as_flattened_mut(), other.equal.as_flattened());
        add(self.unread.as_flattened_mut(), other.unread.as_flattened());
        add(self.read.as_flattened_mut(), other.read.as_flattened());
        add(&mut self.first, &other.first);
        add(&mut self.shown, &other.shown);
    }
}

fn add(counts: &mut [u64], more: &[u64]) {
    counts
        .iter_mut()
        .zip(more)
        .for_each(|(count, more)| *count += more);
}

/// Follows a script.
#[derive(Default)]
pub struct Tracer {
    /// Whether a part of the search was written.
    made_up: bool,
    /// What was written where r is held since it was told or the phase was written, as an index of `WRITTEN`.
    at_r: usize,
}

impl Tracer {
    /// Takes a line of the script, the verdict of its answer and the search that the line was handed.
    pub fn see(&mut self, line: &[u8], verdict: u64, search: &Search, traces: &mut Traces) {
        match line.first() {
            Some(b'o') => *self = Tracer::default(),
            Some(b'p') => self.write(words(line), &State::of(search), traces),
            Some(b's') if self.made_up => traces.shown[State::of(search).phase() as usize] += 1,
            Some(b'a') => self.call(0, verdict, search, traces),
            Some(b'b') => self.call(2, verdict, search, traces),
            Some(b't') => {
                self.call(1, verdict, search, traces);
                if verdict == 0 {
                    self.tell(words(line)[1], &State::of(search), traces);
                }
            }
            _ => {}
        }
    }

    fn write(&mut self, [part, which, value]: Written, state: &State, traces: &mut Traces) {
        self.made_up = true;
        self.at_r = match (part, which) {
            (4, _) => 0,
            (6, 1) if state.holds_r() => 1,
            (12, 1) if state.holds_r() && self.at_r == 0 => 2,
            _ => self.at_r,
        };
        if let Some(row) = part
            .checked_sub(11)
            .and_then(|row| traces.written.get_mut(row as usize))
        {
            let readings = state.readings();
            let next = readings.wrapping_add(1);
            let met = [
                value == 0,
                value == 1,
                value == readings,
                value == next,
                value >= 1 << 32,
            ];
            row.iter_mut()
                .zip(met)
                .for_each(|(count, met)| *count += u64::from(met));
        }
    }

    /// Counts a call over standing places out of order, if only that order can refuse it.
    fn call(&self, call: usize, verdict: u64, search: &Search, traces: &mut Traces) {
        if !self.made_up || search.has_ended() {
            return;
        }
        let state = State::of(search);
        let builds = usize::from(state.builds() > 0);
        let held = state.method() == NELDER_MEAD && (1..=8).contains(&state.n());
        if !held || state.standing_fall() <= 0 {
            return;
        }
        match (state.standing_number(1), verdict) {
            (0, 0) => traces.unread[builds][call] += 1,
            (1.., 12) if is_sound_unread(search) => traces.read[builds][call] += 1,
            _ => {}
        }
    }

    /// Counts an accepted tell.
    fn tell(&mut self, cost: u64, state: &State, traces: &mut Traces) {
        let maker = usize::from(self.made_up);
        let phase = state.phase() as usize;
        if state.readings() > 0 && cost == state.best() {
            traces.equal[maker][phase] += 1;
        }
        if self.made_up && [phase, state.detail() as usize] == [0, 0] {
            traces.first[usize::from(state.builds() > 0)] += 1;
        }
        if state.holds_r() {
            let fr = state.gathered(1);
            traces.held[phase - 2][self.at_r][margin(cost, fr)] += 1;
            traces.taken[maker] += u64::from(phase == 2 && cost >= fr);
        }
        self.at_r = 0;
    }
}

/// Whether calls are accepted where place 1 has no number.
fn is_sound_unread(search: &Search) -> bool {
    let mut search = search.clone();
    search.write_part(11, 1, 0);
    search.ask().is_ok()
}

/// How a cost stands to that of r, as an index of `MARGINS`.
fn margin(cost: u64, fr: u64) -> usize {
    match cost {
        _ if cost + 1 == fr => 0,
        _ if cost == fr => 1,
        _ if cost == fr + 1 => 2,
        _ => 3,
    }
}
