//! The summary of the multidirectional search, and what the gate's run has to cover of it.

use crate::iterations::{Iterations, CELLS, CROSSED, MADE_UP, MAKERS};
use crate::summary::{aligned, each_name, named, Need};

/// One line for each decision, with the counts for n from 1 to 8.
pub fn print(iterations: &Iterations) {
    let makers = MAKERS.join("; ");
    println!("decisions of the multidirectional search, n from 1 to 8: {makers}");
    for (cell, (name, _)) in CELLS.iter().enumerate() {
        let row = |maker: usize| {
            let counts: Vec<u64> = iterations.cells[maker]
                .iter()
                .map(|cells| cells[cell])
                .collect();
            aligned(&counts)
        };
        println!("  {name:44} {}; {}", row(0), row(1));
    }
    let crossed = named(&CROSSED, &iterations.crossed);
    println!("tells accepted in a phase of the other method {crossed}");
}

/// Each decision once at least for each n that can have it, by calls alone where they can, and in made-up searches.
pub fn needed(iterations: &Iterations) -> Vec<Need> {
    let mut needs = Vec::new();
    for (maker, rows) in MAKERS.iter().zip(&iterations.cells) {
        for (n, counts) in (1..).zip(rows) {
            let can = |cell: usize| CELLS[cell].1 <= n && (cell < MADE_UP || *maker == MAKERS[1]);
            let cells = (0..CELLS.len()).filter(|cell| can(*cell));
            let need = |cell: usize| {
                let what = format!("{} on {n} axes, {maker}", CELLS[cell].0);
                (what, counts[cell], 1)
            };
            needs.extend(cells.map(need));
        }
    }
    let what = "told in a phase of the other method,";
    needs.extend(each_name(what, &CROSSED, &iterations.crossed));
    needs
}
