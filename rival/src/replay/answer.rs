//! Making one call of a script and printing its answer.

use super::script::{Call, Opening};
use super::series::{self, Series};
use crate::parts::Part;
use crate::search::Search;
use crate::text::{put_point, put_word};
use crate::types::{Method, Refusal, Trial, Vertex, ORIGIN};

/// Makes a call and prints its line without the newline.
pub(super) fn put(out: &mut Vec<u8>, search: &mut Search, call: &Call) {
    match call {
        Call::Open(opening) => put_open(out, search, opening),
        Call::Ask => put_ask(out, search),
        Call::Tell(number, cost) => put_tell(out, search, *number, *cost),
        Call::Best => put_best(out, search),
        Call::Show => put_state(out, search),
        Call::Write(part, value) => put_written(out, search, *part, *value),
        Call::Series(method, n, readings) => put_series(out, *method, *n, *readings),
    }
}

/// Opens in place of the last search; a refused opening leaves the closed one.
fn put_open(out: &mut Vec<u8>, search: &mut Search, given: &Opening) {
    let opened = Search::open(
        given.method,
        given.n,
        &given.axes,
        given.rule,
        given.coefficients,
        given.budget,
    );
    let (after, verdict) = match opened {
        Ok(opened) => (opened, Refusal::numbered(0)),
        Err(refusal) => (Search::closed(), refusal),
    };
    *search = after;
    out.push(b'o');
    put_word(out, verdict.number);
    put_word(out, verdict.axis);
}

/// Asks; a refused ask gives zeros.
fn put_ask(out: &mut Vec<u8>, search: &Search) {
    let none = Trial {
        number: 0,
        point: ORIGIN,
        stops: 0,
    };
    let (verdict, trial) = verdict(search.ask(), none);
    out.push(b'a');
    put_word(out, verdict);
    put_word(out, trial.number);
    put_point(out, &trial.point);
    put_word(out, trial.stops);
}

/// Tells.
fn put_tell(out: &mut Vec<u8>, search: &mut Search, number: u64, cost: u64) {
    let (verdict, ()) = verdict(search.tell(number, cost), ());
    out.push(b't');
    put_word(out, verdict);
}

/// Asks the best reading; a refused best gives zeros.
fn put_best(out: &mut Vec<u8>, search: &Search) {
    let (verdict, best) = verdict(search.best(), Vertex::ZERO);
    out.push(b'b');
    put_word(out, verdict);
    put_point(out, &best.point);
    put_word(out, best.cost);
    put_word(out, best.number);
}

/// Writes a part; there is no verdict.
fn put_written(out: &mut Vec<u8>, search: &mut Search, part: Part, value: u64) {
    search.write(part, value);
    out.push(b'p');
}

/// Runs a series; a refused one gives zeros.
fn put_series(out: &mut Vec<u8>, method: Method, n: u64, readings: u64) {
    let (verdict, series) = verdict(series::run(method, n, readings), Series::default());
    out.push(b'r');
    put_word(out, verdict);
    put_word(out, series.searches);
    put_word(out, series.sum);
}

/// The verdict, 0 if accepted, and the answer, which a refused call leaves as given here.
fn verdict<T>(answer: Result<T, Refusal>, refused: T) -> (u64, T) {
    match answer {
        Ok(given) => (0, given),
        Err(refusal) => (refusal.number, refused),
    }
}

/// Shows the state.
fn put_state(out: &mut Vec<u8>, search: &Search) {
    out.push(b's');
    for word in search.words() {
        put_word(out, word);
    }
}
