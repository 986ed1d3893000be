//! The summary of the numbers of readings, and what the gate's run has to cover of them.

use crate::causes::CALLS;
use crate::ends::{Ends, NAMED};
use crate::summary::{aligned, each_asked, each_name, named, Need, PHASES};
use crate::traces::{Traces, BUILDS, MAKERS, MARGINS, PARTS, VALUES, WRITTEN};

/// State lines that each phase of a made-up search has to have.
const LEAST_SHOWN: u64 = 200;

pub fn print(traces: &Traces, ends: &Ends) {
    println!(
        "states shown after a part was written {}",
        named(&PHASES, &traces.shown)
    );
    println!("numbers written: {}", VALUES.join(", "));
    for (name, counts) in PARTS.iter().zip(&traces.written) {
        println!("  {name:40} {}", aligned(counts));
    }
    print_held(traces);
    println!(
        "r taken as it is held, after e {}",
        named(&MAKERS, &traces.taken)
    );
    for (maker, counts) in MAKERS.iter().zip(&traces.equal) {
        println!("equal to the best, {maker} {}", named(&PHASES, counts));
    }
    let calls = CALLS.join(", ");
    println!(
        "standing places out of order: not read, accepted at {calls}; read, refused at {calls}"
    );
    for (name, (unread, read)) in BUILDS.iter().zip(traces.unread.iter().zip(&traces.read)) {
        println!("  {name:40} {}; {}", aligned(unread), aligned(read));
    }
    println!(
        "first vertex told of a made-up build {}",
        named(&BUILDS, &traces.first)
    );
    println!("texts that end and name {}", named(&NAMED, ends));
}

/// One line for each phase that holds r and for what was written there.
fn print_held(traces: &Traces) {
    println!(
        "tells accepted while r is held, to its cost: {}",
        MARGINS.join(", ")
    );
    for (phase, rows) in PHASES[2..5].iter().zip(&traces.held) {
        for (written, counts) in WRITTEN.iter().zip(rows) {
            let name = format!("{phase}, {written}");
            println!("  {name:40} {}", aligned(counts));
        }
    }
}

/// Each of these once at least; states of each phase of a made-up search more often.
pub fn needed(traces: &Traces, ends: &Ends) -> Vec<Need> {
    let mut needs = Vec::new();
    for (part, counts) in PARTS.iter().zip(&traces.written) {
        needs.extend(each_name(
            &format!("{part} number written"),
            &VALUES,
            counts,
        ));
    }
    needs.extend(held_needed(traces));
    needs.extend(each_name("r taken after e,", &MAKERS, &traces.taken));
    for (maker, counts) in MAKERS.iter().zip(&traces.equal) {
        let what = format!("equal to the best, {maker},");
        // By calls alone nothing is told before the base.
        let told = each_asked(&what, counts);
        let by_calls = |need: &Need| *maker == MAKERS[1] || !need.0.ends_with("base");
        needs.extend(told.into_iter().filter(by_calls));
    }
    for (builds, (unread, read)) in BUILDS.iter().zip(traces.unread.iter().zip(&traces.read)) {
        needs.extend(each_name(
            &format!("order not read, {builds}, at"),
            &CALLS,
            unread,
        ));
        needs.extend(each_name(
            &format!("order read, {builds}, at"),
            &CALLS,
            read,
        ));
    }
    needs.extend(each_name("first vertex told,", &BUILDS, &traces.first));
    needs.extend(each_name("texts that name", &NAMED, ends));
    let shown = PHASES.iter().zip(traces.shown);
    needs.extend(
        shown.map(|(phase, count)| (format!("made-up states shown {phase}"), count, LEAST_SHOWN)),
    );
    needs
}

fn held_needed(traces: &Traces) -> Vec<Need> {
    let mut needs = Vec::new();
    for (phase, rows) in PHASES[2..5].iter().zip(&traces.held) {
        for (written, counts) in WRITTEN.iter().zip(rows) {
            needs.extend(each_name(
                &format!("{phase}, {written}, told"),
                &MARGINS,
                counts,
            ));
        }
    }
    needs
}
