//! What a run covered, counted in the scripts and their transcripts.

use crate::causes::{Causes, Watch};
use crate::ends::{self, Ends};
use crate::iterations::{Counter, Iterations};
use crate::ring_counts::{self, Follower, Rings};
use crate::stops::{Origin, Stops};
use crate::traces::{Tracer, Traces};
use rival::replay::Replay;

/// Calls of one kind.
#[derive(Clone, Default)]
pub struct Calls {
    pub accepted: u64,
    /// By the refusal's number.
    pub refused: [u64; 15],
}

impl Calls {
    fn add(&mut self, verdict: u64) {
        match verdict {
            0 => self.accepted += 1,
            _ => add_at(&mut self.refused, verdict),
        }
    }

    fn join(&mut self, other: &Calls) {
        self.accepted += other.accepted;
        add_all(&mut self.refused, &other.refused);
    }
}

/// The last state that a search showed.
#[derive(Clone, Copy, Default)]
struct Shown {
    phase: u64,
    /// Builds, reflections, expansions, contractions, shrinks, probes.
    counts: [u64; 6],
}

#[derive(Clone, Default)]
pub struct Coverage {
    pub scripts: u64,
    /// Scripts whose transcript ends with an `x` line.
    pub malformed: u64,
    pub openings: Calls,
    /// Openings refused with an axis, 1 to 8.
    pub refused_axes: [u64; 9],
    pub asks: Calls,
    pub tells: Calls,
    pub bests: Calls,
    pub series: Calls,
    /// Searches that series opened.
    pub series_searches: u64,
    /// Lines that write a part.
    pub written: u64,
    /// Scripts whose malformed line is of that kind.
    pub malformed_parts: u64,
    pub causes: Causes,
    pub stops: Stops,
    pub traces: Traces,
    pub rings: Rings,
    pub iterations: Iterations,
    /// `s` lines of opened searches by phase, while no part is written.
    pub phases: [u64; 12],
    /// Searches that were last shown ended, settled and by the budget.
    pub endings: [u64; 2],
    /// Finished pieces, and probe readings, of all searches as they were last shown.
    pub pieces: [u64; 6],
    /// Builds beyond each search's first.
    pub restarts: u64,
    pub texts: u64,
    pub text_readings: u64,
    /// Texts that end settled, by the budget or waiting.
    pub text_ends: [u64; 3],
    /// Texts whose last line names a reading, by which.
    pub text_named: Ends,
    /// Texts that end with a refusal, by number.
    pub text_refusals: [u64; 13],
    /// Texts that end with `bad 0`, and with another `bad`.
    pub text_bad: [u64; 2],
}

pub const ENDS: [&str; 3] = ["settled", "budget", "waiting"];

impl Coverage {
    pub fn add_script(&mut self, script: &[u8], transcript: &[u8]) {
        self.scripts += 1;
        let mut shown = None;
        for line in transcript.split(|b| *b == b'\n') {
            self.add_line(line, &mut shown);
        }
        self.end_search(&mut shown);
        self.follow(script, transcript);
    }

    /// Reads a script and its transcript in step, one line of each, as far as no line is malformed. The rival's own search goes along.
    fn follow(&mut self, script: &[u8], transcript: &[u8]) {
        let mut replay = Replay::default();
        let mut watch = Watch::default();
        let mut origin = Origin::default();
        let mut tracer = Tracer::default();
        let mut follower = Follower::default();
        let mut counter = Counter::default();
        let answers = transcript.split(|b| *b == b'\n');
        for (line, answer) in script.split(|b| *b == b'\n').zip(answers) {
            if line.is_empty() || line.first() != answer.first() {
                self.malformed_parts += u64::from(line.first() == Some(&b'p'));
                ring_counts::malformed(line, &mut self.rings);
                return;
            }
            let verdict = word(answer, 0);
            watch.see(line, verdict, replay.search(), &mut self.causes);
            tracer.see(line, verdict, replay.search(), &mut self.traces);
            counter.see(line, verdict, replay.search(), &mut self.iterations);
            let words: [u64; 11] = std::array::from_fn(|at| word(answer, at));
            follower.see(line, &words, replay.search(), &mut self.rings);
            origin.see(line);
            if line == b"a" && verdict == 0 {
                origin.count(replay.search(), word(answer, 10), &mut self.stops);
            }
            if changes(line, verdict) {
                replay.answer(line, &mut Vec::new());
            }
        }
    }

    fn add_line(&mut self, line: &[u8], shown: &mut Option<Shown>) {
        let verdict = word(line, 0);
        match line.first() {
            Some(b'o') => self.add_opening(line, shown),
            Some(b'a') => self.asks.add(verdict),
            Some(b't') => self.tells.add(verdict),
            Some(b'b') => self.bests.add(verdict),
            Some(b's') => self.add_state(line, shown),
            Some(b'r') => self.add_series(line),
            Some(b'p') => self.add_written(shown),
            Some(b'x') => self.malformed += 1,
            _ => {}
        }
    }

    fn add_opening(&mut self, line: &[u8], shown: &mut Option<Shown>) {
        self.end_search(shown);
        let (verdict, axis) = (word(line, 0), word(line, 1));
        self.openings.add(verdict);
        if axis > 0 {
            add_at(&mut self.refused_axes, axis);
        }
        *shown = (verdict == 0).then(Shown::default);
    }

    fn add_series(&mut self, line: &[u8]) {
        self.series.add(word(line, 0));
        self.series_searches = self.series_searches.saturating_add(word(line, 1));
    }

    /// A search of which a part is written no longer counts as one that calls made.
    fn add_written(&mut self, shown: &mut Option<Shown>) {
        self.written += 1;
        *shown = None;
    }

    /// Counts the phase and keeps the state, if a search is open; the closed search is left out.
    fn add_state(&mut self, line: &[u8], shown: &mut Option<Shown>) {
        if let Some(shown) = shown {
            shown.phase = word(line, 49);
            shown.counts = std::array::from_fn(|i| word(line, 52 + i));
            add_at(&mut self.phases, shown.phase);
        }
    }

    fn end_search(&mut self, shown: &mut Option<Shown>) {
        let Some(last) = shown.take() else {
            return;
        };
        if (7..=8).contains(&last.phase) {
            add_at(&mut self.endings, last.phase - 7);
        }
        let restarts = last.counts[0].saturating_sub(1);
        self.restarts = self.restarts.saturating_add(restarts);
        add_all(&mut self.pieces, &last.counts);
    }

    pub fn add_text(&mut self, transcript: &[u8]) {
        self.texts += 1;
        let transcript = String::from_utf8_lossy(transcript);
        ends::count(&transcript, &mut self.text_named);
        let is_reading = |line: &&str| line.starts_with(|c: char| c.is_ascii_digit());
        self.text_readings += transcript.lines().filter(is_reading).count() as u64;
        let last: Vec<&str> = transcript.lines().last().unwrap_or("").split(' ').collect();
        match last[..] {
            ["end", cause, ..] => self.add_text_end(cause),
            ["refused", number] => add_at(&mut self.text_refusals, number.parse().unwrap_or(0)),
            ["bad", "0"] => self.text_bad[0] += 1,
            ["bad", _] => self.text_bad[1] += 1,
            _ => {}
        }
    }

    fn add_text_end(&mut self, cause: &str) {
        if let Some(which) = ENDS.iter().position(|end| *end == cause) {
            self.text_ends[which] += 1;
        }
    }

    /// Adds what another part of the run covered.
    pub fn join(&mut self, other: &Coverage) {
        self.scripts += other.scripts;
        self.malformed += other.malformed;
        self.openings.join(&other.openings);
        add_all(&mut self.refused_axes, &other.refused_axes);
        self.asks.join(&other.asks);
        self.tells.join(&other.tells);
        self.bests.join(&other.bests);
        self.series.join(&other.series);
        self.series_searches = self.series_searches.saturating_add(other.series_searches);
        self.written += other.written;
        self.malformed_parts += other.malformed_parts;
        self.causes.join(&other.causes);
        self.stops.join(&other.stops);
        self.traces.join(&other.traces);
        self.rings.join(&other.rings);
        self.iterations.join(&other.iterations);
        add_all(&mut self.phases, &other.phases);
        add_all(&mut self.endings, &other.endings);
        add_all(&mut self.pieces, &other.pieces);
        self.restarts = self.restarts.saturating_add(other.restarts);
        self.join_texts(other);
    }

    fn join_texts(&mut self, other: &Coverage) {
        self.texts += other.texts;
        self.text_readings += other.text_readings;
        add_all(&mut self.text_ends, &other.text_ends);
        add_all(&mut self.text_named, &other.text_named);
        add_all(&mut self.text_refusals, &other.text_refusals);
        add_all(&mut self.text_bad, &other.text_bad);
    }
}

/// Whether a line may leave another search than it was handed: an opening, a part written or an accepted tell.
fn changes(line: &[u8], verdict: u64) -> bool {
    match line.first() {
        Some(b'o' | b'p') => true,
        Some(b't') => verdict == 0,
        _ => false,
    }
}

/// Word number `at` of a line of a transcript, from 0 after the letter; all ones if there is none.
fn word(line: &[u8], at: usize) -> u64 {
    let start = 2 + 17 * at;
    let digits = line.get(start..start + 16).unwrap_or_default();
    let digits = std::str::from_utf8(digits).unwrap_or_default();
    u64::from_str_radix(digits, 16).unwrap_or(u64::MAX)
}

fn add_at(counts: &mut [u64], at: u64) {
    let place = usize::try_from(at).ok();
    if let Some(count) = place.and_then(|at| counts.get_mut(at)) {
        *count += 1;
    }
}

fn add_all(counts: &mut [u64], more: &[u64]) {
    for (count, more) in counts.iter_mut().zip(more) {
        *count = count.saturating_add(*more);
    }
}
