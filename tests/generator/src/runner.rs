//! Runs the cases on two threads: each is made, answered by the rival and by the program, and compared byte for byte.

use crate::coverage::Coverage;
use crate::program::{self, Fault};
use crate::{scripts, texts};
use std::ffi::{OsStr, OsString};
use std::fs;
use std::panic;
use std::sync::atomic::{AtomicU64, Ordering};
use std::thread;

const WORKERS: usize = 2;
const SAVED: &str = "target/compare";
/// So many differences are shown and saved; further ones are counted.
const MOST_SHOWN: u64 = 40;
/// After a program had to be stopped so many times, the cases that are left count as failed and are not run.
const MOST_HUNG: u64 = 3;

pub struct Run {
    pub seed: u64,
    /// The method of the scripts, or none for both.
    pub method: Option<u64>,
    pub scripts: u64,
    pub texts: u64,
    pub replay: OsString,
    pub tune: OsString,
}

#[derive(Clone, Default)]
pub struct Outcome {
    pub passed: u64,
    pub failed: u64,
    pub coverage: Coverage,
}

#[derive(Clone, Copy)]
enum Kind {
    Script,
    Text,
}

#[derive(Clone, Copy)]
struct Case {
    kind: Kind,
    seed: u64,
    method: Option<u64>,
    number: u64,
}

impl Case {
    fn kind_name(&self) -> &'static str {
        match self.kind {
            Kind::Script => "script",
            Kind::Text => "text",
        }
    }

    fn input(&self) -> Vec<u8> {
        match self.kind {
            Kind::Script => scripts::script(self.seed, self.number, self.method),
            Kind::Text => texts::text(self.seed, self.number),
        }
    }

    fn rival(&self, input: &[u8]) -> Vec<u8> {
        match self.kind {
            Kind::Script => rival::replay::transcript(input),
            Kind::Text => rival::tune::transcript(input),
        }
    }

    fn cover(&self, coverage: &mut Coverage, input: &[u8], transcript: &[u8]) {
        match self.kind {
            Kind::Script => coverage.add_script(input, transcript),
            Kind::Text => coverage.add_text(transcript),
        }
    }
}

impl Run {
    fn case(&self, index: u64) -> Option<Case> {
        let of = |kind, number| {
            Some(Case {
                kind,
                seed: self.seed,
                method: self.method,
                number,
            })
        };
        match index {
            _ if index < self.scripts => of(Kind::Script, index),
            _ if index - self.scripts < self.texts => of(Kind::Text, index - self.scripts),
            _ => None,
        }
    }

    fn program(&self, case: &Case) -> &OsStr {
        match case.kind {
            Kind::Script => &self.replay,
            Kind::Text => &self.tune,
        }
    }

    pub fn outcome(&self) -> Outcome {
        let tally = Tally::default();
        let mut parts = vec![Outcome::default(); WORKERS];
        thread::scope(|scope| {
            for part in &mut parts {
                scope.spawn(|| self.work(&tally, part));
            }
        });
        parts.iter().fold(Outcome::default(), joined)
    }

    fn work(&self, tally: &Tally, part: &mut Outcome) {
        while let Some(case) = self.case(tally.taken.fetch_add(1, Ordering::Relaxed)) {
            match self.judge(&case, tally, &mut part.coverage) {
                Ok(()) => part.passed += 1,
                Err(difference) => {
                    part.failed += 1;
                    report(
                        &case,
                        &difference,
                        tally.shown.fetch_add(1, Ordering::Relaxed),
                    );
                }
            }
        }
    }

    fn judge(&self, case: &Case, tally: &Tally, coverage: &mut Coverage) -> Result<(), Difference> {
        if tally.hung.load(Ordering::Relaxed) >= MOST_HUNG {
            return Err(Difference::said(
                "not run, since programs had to be stopped before".into(),
            ));
        }
        let answered = panic::catch_unwind(|| {
            let input = case.input();
            let wanted = case.rival(&input);
            (input, wanted)
        });
        let Ok((input, wanted)) = answered else {
            return Err(Difference::said("the rival stopped with a panic".into()));
        };
        case.cover(coverage, &input, &wanted);
        self.hold(case, tally, input, wanted)
    }

    /// Holds what the program prints against what is wanted.
    fn hold(
        &self,
        case: &Case,
        tally: &Tally,
        input: Vec<u8>,
        wanted: Vec<u8>,
    ) -> Result<(), Difference> {
        let most = wanted.len() as u64 + 1_000_000;
        match program::output(self.program(case), &input, most) {
            Ok(found) if found == wanted => Ok(()),
            Ok(found) => Err(Difference {
                said: first_difference(&wanted, &found),
                input,
                wanted,
                found,
            }),
            Err(Fault::Failed(said)) => Err(Difference {
                said,
                input,
                wanted,
                found: Vec::new(),
            }),
            Err(Fault::Hung(said)) => {
                tally.hung.fetch_add(1, Ordering::Relaxed);
                Err(Difference {
                    said,
                    input,
                    wanted,
                    found: Vec::new(),
                })
            }
        }
    }
}

/// What the threads count together.
#[derive(Default)]
struct Tally {
    /// Cases that a thread has taken.
    taken: AtomicU64,
    /// Differences shown.
    shown: AtomicU64,
    /// Programs that had to be stopped.
    hung: AtomicU64,
}

fn joined(mut all: Outcome, part: &Outcome) -> Outcome {
    all.passed += part.passed;
    all.failed += part.failed;
    all.coverage.join(&part.coverage);
    all
}

struct Difference {
    said: String,
    input: Vec<u8>,
    wanted: Vec<u8>,
    found: Vec<u8>,
}

impl Difference {
    fn said(said: String) -> Difference {
        Difference {
            said,
            input: Vec::new(),
            wanted: Vec::new(),
            found: Vec::new(),
        }
    }
}

fn first_difference(wanted: &[u8], found: &[u8]) -> String {
    let wanted: Vec<&[u8]> = wanted.split_inclusive(|b| *b == b'\n').collect();
    let found: Vec<&[u8]> = found.split_inclusive(|b| *b == b'\n').collect();
    let same = wanted
        .iter()
        .zip(&found)
        .take_while(|(one, other)| one == other)
        .count();
    let (of_rival, of_program) = (line(wanted.get(same)), line(found.get(same)));
    format!(
        "line {}\n  rival:   {of_rival}\n  program: {of_program}",
        same + 1
    )
}

/// A line as it is shown, cut where it is long.
fn line(line: Option<&&[u8]>) -> String {
    match line {
        Some(bytes) => bytes.escape_ascii().to_string().chars().take(200).collect(),
        None => "(no such line)".into(),
    }
}

fn report(case: &Case, difference: &Difference, shown: u64) {
    let Case { seed, number, .. } = case;
    let name = format!("{}-{seed}-{number}", case.kind_name());
    match shown {
        0..MOST_SHOWN => {
            let saved = match save(&name, difference) {
                Ok(()) => format!("saved as {SAVED}/{name}.*"),
                Err(error) => format!("not saved: {error}"),
            };
            println!(
                "DIFFERENT {}, seed {seed}, number {number}: {}\n  {saved}",
                case.kind_name(),
                difference.said
            );
        }
        MOST_SHOWN => println!("further differences are counted, not shown"),
        _ => {}
    }
}

fn save(name: &str, difference: &Difference) -> std::io::Result<()> {
    fs::create_dir_all(SAVED)?;
    fs::write(format!("{SAVED}/{name}.in"), &difference.input)?;
    fs::write(format!("{SAVED}/{name}.rival"), &difference.wanted)?;
    fs::write(format!("{SAVED}/{name}.program"), &difference.found)
}
