//! The summary of what a run covered, and what the gate's run has to cover.

use crate::causes::{self, Causes, CALLS, CAUSES};
use crate::coverage::{Coverage, ENDS};
use crate::iteration_summary;
use crate::ring_summary;
use crate::stops::{Stops, ORIGINS};
use crate::trace_summary;

const LEAST_TELLS: u64 = 200_000;
const LEAST_TEXTS: u64 = 2_000;

pub const PHASES: [&str; 12] = [
    "building",
    "reflecting",
    "expanding",
    "outside",
    "inside",
    "shrinking",
    "probing",
    "settled",
    "budget",
    "base",
    "reflection",
    "companion",
];
const PIECES: [&str; 6] = [
    "builds",
    "reflections",
    "expansions",
    "contractions",
    "shrinks",
    "probes",
];
const ENDINGS: [&str; 2] = ["settled", "budget"];
const BAD: [&str; 2] = ["too long", "malformed"];

pub fn print(c: &Coverage) {
    let calls = [
        ("openings", &c.openings),
        ("asks", &c.asks),
        ("tells", &c.tells),
        ("bests", &c.bests),
        ("series", &c.series),
    ];
    println!("scripts {}, of them malformed {}", c.scripts, c.malformed);
    for (name, calls) in calls {
        let refused = numbered(&calls.refused);
        println!("{name} accepted {}; refused by {refused}", calls.accepted);
    }
    println!("openings refused at axis {}", numbered(&c.refused_axes));
    println!("searches opened by series {}", c.series_searches);
    println!("endings {}", named(&ENDINGS, &c.endings));
    println!("restarts {}", c.restarts);
    println!("finished {}", named(&PIECES, &c.pieces));
    println!("states shown {}", named(&PHASES, &c.phases));
    print_causes(c);
    trace_summary::print(&c.traces, &c.text_named);
    print_stops(&c.stops);
    ring_summary::print(&c.rings);
    iteration_summary::print(&c.iterations);
    print_texts(c);
}

/// The phases in which a trial is asked, by their numbers.
pub const ASKED: [usize; 10] = [0, 1, 2, 3, 4, 5, 6, 9, 10, 11];

/// One line for each phase and n: accepted asks with 0 to n axes at their stops, apart by what made the search.
fn print_stops(stops: &Stops) {
    let origins = ORIGINS.join("; ");
    println!("asks accepted with 0 to n axes at their stops, by phase and n: {origins}");
    for phase in ASKED {
        let name = PHASES[phase];
        for n in 1..=8 {
            let row = |origin| aligned(&stops.row(origin, phase, n)[..=n]);
            println!("  {name:10} {n} {}", [0, 1, 2].map(row).join("; "));
        }
    }
}

/// One line for each cause of refusal 12.
fn print_causes(c: &Coverage) {
    let calls = CALLS.join(", ");
    println!(
        "parts written {}, malformed such lines {}",
        c.written, c.malformed_parts
    );
    let made_up = named(&PHASES, &c.causes.made_up);
    println!("tells accepted after a part was written {made_up}");
    println!("refusal 12 one past its edge at {calls}; accepted at its edge at {calls}");
    let counts = c.causes.refused.iter().zip(&c.causes.accepted);
    for (cause, (refused, accepted)) in CAUSES.iter().zip(counts) {
        println!("  {cause:46} {}; {}", aligned(refused), aligned(accepted));
    }
}

pub fn aligned(counts: &[u64]) -> String {
    counts.iter().map(|count| format!("{count:6}")).collect()
}

fn print_texts(c: &Coverage) {
    let ends = named(&ENDS, &c.text_ends);
    let refused = numbered(&c.text_refusals);
    let bad = named(&BAD, &c.text_bad);
    println!("texts {} with readings {}", c.texts, c.text_readings);
    println!("texts that end {ends}; refused by {refused}; {bad}");
}

/// The counts that are not 0, each with its number.
fn numbered(counts: &[u64]) -> String {
    if counts.iter().all(|count| *count == 0) {
        return "none".into();
    }
    let counted = counts.iter().enumerate().filter(|(_, count)| **count > 0);
    let parts: Vec<String> = counted.map(|(i, count)| format!("{i}: {count}")).collect();
    parts.join(", ")
}

pub fn named(names: &[&str], counts: &[u64]) -> String {
    let both = names.iter().zip(counts);
    let parts: Vec<String> = both
        .map(|(name, count)| format!("{name} {count}"))
        .collect();
    parts.join(", ")
}

/// A thing to cover, how often it was, and how often it has to be.
pub type Need = (String, u64, u64);

/// What the gate's run has to cover and this one did not.
pub fn missing(c: &Coverage) -> Vec<String> {
    let needs = [
        refusals_needed(c),
        causes_needed(&c.causes),
        stops_needed(&c.stops),
        trace_summary::needed(&c.traces, &c.text_named),
        ring_summary::needed(&c.rings),
        iteration_summary::needed(&c.iterations),
        searches_needed(c),
        texts_needed(c),
    ]
    .concat();
    let short = needs.iter().filter(|(_, count, least)| count < least);
    short
        .map(|(what, count, least)| format!("{what}: {count}, wanted {least}"))
        .collect()
}

/// Each of the counts once at least, by a number.
fn each_number(what: &str, numbers: &[usize], counts: &[u64]) -> Vec<Need> {
    let need = |i: &usize| (format!("{what} {i}"), counts[*i], 1);
    numbers.iter().map(need).collect()
}

/// Each of the counts once at least, by a name.
pub fn each_name(what: &str, names: &[&str], counts: &[u64]) -> Vec<Need> {
    let need = |(name, count): (&&str, &u64)| (format!("{what} {name}"), *count, 1);
    names.iter().zip(counts).map(need).collect()
}

/// Each phase that asks once at least.
pub fn each_asked(what: &str, counts: &[u64; 12]) -> Vec<Need> {
    let need = |phase: usize| (format!("{what} {}", PHASES[phase]), counts[phase], 1);
    ASKED.into_iter().map(need).collect()
}

/// Every cause of refusal 12, one past its edge at each call, and its edge at ask and tell.
fn causes_needed(causes: &Causes) -> Vec<Need> {
    let mut needs = Vec::new();
    let counts = causes.refused.iter().zip(&causes.accepted);
    for (cause, (refused, accepted)) in CAUSES.iter().zip(counts) {
        needs.extend(each_name(&format!("{cause}, refused at"), &CALLS, refused));
        let edge = format!("{cause}, accepted at its edge at");
        if causes::has_edge(cause) {
            needs.extend(each_name(&edge, &CALLS[..2], accepted));
        }
    }
    needs
}

/// Every count of stops from 0 to n, for each n in each phase; and where calls alone can make them, of searches that they made.
fn stops_needed(stops: &Stops) -> Vec<Need> {
    let mut needs = Vec::new();
    for phase in ASKED {
        let name = PHASES[phase];
        for n in 1..=8 {
            let what = format!("{name} on {n} axes with stops");
            let all: Vec<usize> = (0..=n).collect();
            needs.extend(each_number(&what, &all, &stops.whole_row(phase, n)));
            let called = &all[..=most_by_calls(phase, n)];
            let what = format!("{what}, {}", ORIGINS[0]);
            needs.extend(each_number(&what, called, stops.row(0, phase, n)));
        }
    }
    needs
}

/// The most stops that a trial has in a phase of a search that calls made. A build and a probe move one axis, and all others are within
/// their limits. A shrunk vertex lies between two vertices, also as it is rounded. A contraction lies between c and a vertex or r, and c is
/// past a limit only where a sum of n coordinates rounds so, which sums of 1, 2 and 4 do not. Two of a base and its companions differ on two
/// axes at most: those along which the build made them.
fn most_by_calls(phase: usize, n: usize) -> usize {
    match PHASES[phase] {
        "building" | "probing" => 1,
        "shrinking" | "base" => 0,
        "reflection" | "companion" => n.min(2),
        "outside" | "inside" if [1, 2, 4].contains(&n) => 0,
        _ => n,
    }
}

/// Every refusal from 1 to 11 that a script can meet.
fn refusals_needed(c: &Coverage) -> Vec<Need> {
    let openings = [1, 2, 3, 4, 5, 6, 7, 13, 14];
    let axes = [1, 2, 3, 4, 5, 6, 7, 8];
    [
        each_number("openings refused by", &openings, &c.openings.refused),
        each_number("openings refused at axis", &axes, &c.refused_axes),
        each_number("asks refused by", &[8], &c.asks.refused),
        each_number("tells refused by", &[8, 9, 10], &c.tells.refused),
        each_number("bests refused by", &[11], &c.bests.refused),
        each_number("series refused by", &[1], &c.series.refused),
    ]
    .concat()
}

fn searches_needed(c: &Coverage) -> Vec<Need> {
    let others = [
        c.restarts,
        c.series_searches,
        c.malformed,
        c.malformed_parts,
    ];
    let met = [
        "restarts",
        "series",
        "malformed scripts",
        "malformed lines that write a part",
    ];
    [
        vec![("accepted tells".into(), c.tells.accepted, LEAST_TELLS)],
        each_name("searches ended", &ENDINGS, &c.endings),
        each_name("states shown", &PHASES, &c.phases),
        each_name("finished", &PIECES, &c.pieces),
        each_name("met", &met, &others),
        each_asked("made-up searches told", &c.causes.made_up),
    ]
    .concat()
}

fn texts_needed(c: &Coverage) -> Vec<Need> {
    let refusals = [1, 2, 3, 4, 6, 7, 9];
    [
        vec![("texts".into(), c.texts, LEAST_TEXTS)],
        each_name("texts that end", &ENDS, &c.text_ends),
        each_number("texts refused by", &refusals, &c.text_refusals),
        each_name("texts", &BAD, &c.text_bad),
    ]
    .concat()
}
