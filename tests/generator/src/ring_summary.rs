//! The summary of rings, and what the gate's run has to cover of them.

use crate::ring_counts::{Rings, BRANCHES, MAKERS, MALFORMED, METHODS, OPENINGS, SEAMS};
use crate::summary::{aligned, each_name, named, Need, ASKED, PHASES};

const YES: bool = true;
const NO: bool = false;

/// Whether calls alone can come to a branch, by phase. A build's step goes up from a point on the ring; a shrunk vertex lies between two
/// such; a contraction lies between c and such a point, and c is past an end only where a sum is rounded. The
/// start is on the ring, and an unread companion was brought round when it was made.
const BY_CALLS: [[bool; 8]; 10] = [
    [YES, NO, YES, NO, YES, YES, NO, NO],
    [YES, YES, YES, YES, YES, YES, NO, NO],
    [YES, YES, YES, YES, YES, YES, NO, YES],
    [YES, YES, YES, YES, YES, YES, NO, YES],
    [YES, YES, YES, YES, YES, YES, NO, NO],
    [YES, NO, NO, NO, NO, NO, NO, NO],
    [YES, YES, YES, YES, YES, YES, NO, NO],
    [YES, NO, NO, NO, NO, NO, NO, NO],
    [YES, YES, YES, YES, YES, YES, NO, NO],
    [YES, NO, NO, NO, NO, NO, NO, NO],
];

/// What all searches together have.
fn all(rings: &Rings, phase: usize) -> [u64; 8] {
    std::array::from_fn(|i| rings.branches[0][phase][i] + rings.branches[1][phase][i])
}

pub fn print(rings: &Rings) {
    let [ringed, opened] = rings.ringed;
    println!("openings accepted with a ring {ringed} of {opened}");
    println!(
        "coordinates asked on rings: {}; {}, then in all",
        BRANCHES.join(", "),
        MAKERS[0]
    );
    for phase in ASKED {
        let name = PHASES[phase];
        let alone = aligned(&rings.branches[0][phase]);
        println!("  {name:10} {alone}; {}", aligned(&all(rings, phase)));
    }
    for (maker, counts) in MAKERS.iter().zip(&rings.seams) {
        println!("steps over the seam, {maker}: {}", named(&SEAMS, counts));
    }
    let beside = named(&MAKERS, &rings.beside_stops);
    println!("asks on a ring with another axis at its stop: {beside}");
    println!("refused by 13 at axis {}", aligned(&rings.refused[1..]));
    println!("openings with {}", named(&OPENINGS, &rings.openings));
    let malformed = named(&MALFORMED, &rings.malformed);
    println!("malformed lines: {malformed}");
    println!("openings with {}", named(&METHODS, &rings.methods));
    let [off, on, past] = rings.written;
    println!("rings written 0 {off}, 1 {on}, of these past n {past}");
    println!("coordinates worked out otherwise {}", rings.other);
}

/// Each of these once at least.
pub fn needed(rings: &Rings) -> Vec<Need> {
    let mut needs = branches_needed(rings);
    for (maker, counts) in MAKERS.iter().zip(&rings.seams) {
        let what = format!("steps over the seam, {maker},");
        needs.extend(each_name(&what, &SEAMS, counts));
    }
    needs.extend(each_name(
        "rings beside stops,",
        &MAKERS,
        &rings.beside_stops,
    ));
    let axes = ["1", "2", "3", "4", "5", "6", "7", "8"];
    needs.extend(each_name("refused by 13 at", &axes, &rings.refused[1..]));
    needs.extend(each_name("openings with", &OPENINGS, &rings.openings));
    needs.extend(each_name("malformed lines,", &MALFORMED, &rings.malformed));
    needs.extend(each_name("openings with", &METHODS, &rings.methods));
    let values = ["0", "1", "1 past n"];
    needs.extend(each_name("rings written", &values, &rings.written));
    let same = u64::from(rings.other == 0);
    needs.push(("coordinates on rings worked out alike".into(), same, 1));
    needs
}

/// Every branch of every phase, and of searches that calls alone made where these can come to it.
fn branches_needed(rings: &Rings) -> Vec<Need> {
    let mut needs = Vec::new();
    for (phase, by_calls) in ASKED.into_iter().zip(BY_CALLS) {
        let name = PHASES[phase];
        let whole = all(rings, phase);
        for (i, branch) in BRANCHES.iter().enumerate() {
            let alone = rings.branches[0][phase][i];
            let can = i < 7 || [2, 3].contains(&phase);
            if can {
                needs.push((format!("ring {branch}, {name}"), whole[i], 1));
            }
            if by_calls[i] {
                let what = format!("ring {branch}, {name}, {}", MAKERS[0]);
                needs.push((what, alone, 1));
            } else if alone > 0 {
                needs.push((format!("ring {branch}, {name}, by calls"), 0, 1));
            }
        }
    }
    needs
}
