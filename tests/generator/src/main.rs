//! Compares `replay` and `tune` with the rival on scripts and texts made from a seed. See ../../compare for the command line.

mod axes;
mod bowls;
mod causes;
mod companion_edges;
mod companion_writes;
mod companions;
mod corners;
mod costs;
mod courses;
mod coverage;
mod damage;
mod edges;
mod ends;
mod episodes;
mod habits;
mod held;
mod iteration_summary;
mod iterations;
mod limits;
mod malformed;
mod mild;
mod narrows;
mod numbers;
mod openings;
mod orders;
mod parts;
mod program;
mod random;
mod refusals;
mod ring_counts;
mod ring_summary;
mod ring_writes;
mod rings;
mod runner;
mod script;
mod scripts;
mod seams;
mod state;
mod stops;
mod summary;
mod targets;
mod texts;
mod trace_summary;
mod traces;
mod writes;

use runner::{Outcome, Run};
use std::env;
use std::ffi::OsString;
use std::io::Write;
use std::process::ExitCode;

const GATE_SEED: u64 = 1998;
const GATE_SCRIPTS: u64 = 12_000;
const GATE_TEXTS: u64 = 4000;

/// The numbers of the command line.
#[derive(Default)]
struct Wishes {
    seed: Option<u64>,
    method: Option<u64>,
    scripts: Option<u64>,
    script: Option<u64>,
    text: Option<u64>,
}

impl Wishes {
    fn read(words: impl Iterator<Item = String>) -> Option<Wishes> {
        let words: Vec<String> = words.collect();
        let mut wishes = Wishes::default();
        for pair in words.chunks(2) {
            let number = Some(pair.get(1)?.parse().ok()?);
            match pair[0].as_str() {
                "--seed" => wishes.seed = number,
                "--method" => wishes.method = number.filter(|method| *method <= 1),
                "--scripts" => wishes.scripts = number,
                "--script" => wishes.script = number,
                "--text" => wishes.text = number,
                _ => return None,
            }
        }
        Some(wishes)
    }
}

fn main() -> ExitCode {
    let Some(wishes) = Wishes::read(env::args().skip(1)) else {
        println!(
            "usage: compare [--seed S] [--method 0|1] [--scripts N | --script K | --text K]\n0 passed, 1 failed"
        );
        return ExitCode::FAILURE;
    };
    let seed = wishes.seed.unwrap_or(GATE_SEED);
    match (wishes.script, wishes.text) {
        (Some(number), _) => print(&scripts::script(seed, number, wishes.method)),
        (_, Some(number)) => print(&texts::text(seed, number)),
        _ => compare(seed, &wishes),
    }
}

fn print(bytes: &[u8]) -> ExitCode {
    match std::io::stdout().write_all(bytes) {
        Ok(()) => ExitCode::SUCCESS,
        Err(_) => ExitCode::FAILURE,
    }
}

fn named(variable: &str, usual: &str) -> OsString {
    env::var_os(variable).unwrap_or_else(|| usual.into())
}

/// Runs so many scripts and texts, or as many as the gate. The gate's own run also has to cover enough.
fn compare(seed: u64, wishes: &Wishes) -> ExitCode {
    let count = wishes.scripts;
    let run = Run {
        seed,
        method: wishes.method,
        scripts: count.unwrap_or(GATE_SCRIPTS),
        texts: count.unwrap_or(GATE_TEXTS),
        replay: named("REPLAY", "crates/replay/out/replay"),
        tune: named("TUNE", "crates/tune/out/tune"),
    };
    let mut outcome = run.outcome();
    println!("seed {seed}");
    summary::print(&outcome.coverage);
    if count.is_none() && wishes.seed.is_none() && wishes.method.is_none() {
        hold_coverage(&mut outcome);
    }
    println!("{} passed, {} failed", outcome.passed, outcome.failed);
    ExitCode::from(u8::from(outcome.failed > 0 || outcome.passed == 0))
}

fn hold_coverage(outcome: &mut Outcome) {
    let missing = summary::missing(&outcome.coverage);
    if !missing.is_empty() {
        println!("FAILED coverage: {}", missing.join("; "));
        outcome.failed += 1;
    }
}
