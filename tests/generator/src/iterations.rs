//! The decisions of the multidirectional search, counted at accepted tells: apart by what made the search and by n.

use crate::causes::words;
use crate::habits::MULTIDIRECTIONAL;
use crate::openings::SIZE;
use crate::state::State;
use rival::Search;

/// What made the search.
pub const MAKERS: [&str; 2] = ["calls alone", "parts written"];

/// What a tell decides, and how; with the least n that can have it.
pub const CELLS: [(&str, usize); 46] = [
    ("base told", 1),
    ("reflection lower, first", 1),
    ("reflection lower, middle", 3),
    ("reflection lower, last", 1),
    ("reflection not lower, next", 2),
    ("last reflection not lower, companion 1", 1),
    ("last reflection not lower, later companion", 2),
    ("last reflection not lower, halved", 1),
    ("companion lower, first asked", 1),
    ("companion lower, between", 3),
    ("companion lower, last unread", 1),
    ("companion not lower, next", 2),
    ("companion not lower, halved", 1),
    ("reflection equal, next", 2),
    ("reflection equal, companion", 1),
    ("reflection equal, halved", 1),
    ("reflection one below", 1),
    ("reflection one above", 1),
    ("companion equal, next", 2),
    ("companion equal, halved", 1),
    ("companion one below", 1),
    ("companion one above", 1),
    ("probe lower", 1),
    ("probe equal", 1),
    ("probe not lower, next", 1),
    ("round settled", 1),
    ("size met, reflection", 1),
    ("size met, companion", 1),
    ("size met, halved", 1),
    ("size not met, reflection", 1),
    ("size not met, companion", 1),
    ("size not met, halved", 1),
    ("size just met, swapped", 1),
    ("size just met, halved", 1),
    ("size just not met, swapped", 1),
    ("size just not met, halved", 1),
    ("budget at a reflection", 1),
    ("budget at a companion", 1),
    ("budget at a probe", 1),
    ("restart on the last but one", 1),
    ("built with a stop", 1),
    ("reflected with a stop", 2),
    ("stop kept by a swap", 3),
    ("budget at a base", 1),
    ("halved with a stop", 1),
    ("read one between unread", 3),
];

/// The cells from here on come of written parts alone.
pub const MADE_UP: usize = 43;

/// Accepted tells in a phase of the one method while the search has the other.
pub const CROSSED: [&str; 10] = [
    "building",
    "reflecting",
    "expanding",
    "outside",
    "inside",
    "shrinking",
    "probing",
    "base",
    "reflection",
    "companion",
];

#[derive(Clone)]
pub struct Iterations {
    /// By maker, n and cell.
    pub cells: [[[u64; CELLS.len()]; 8]; 2],
    pub crossed: [u64; CROSSED.len()],
}

impl Default for Iterations {
    fn default() -> Iterations {
        Iterations {
            cells: [[[0; CELLS.len()]; 8]; 2],
            crossed: [0; CROSSED.len()],
        }
    }
}

impl Iterations {
    pub fn join(&mut self, other: &Iterations) {
        let cells = self.cells.as_flattened_mut().as_flattened_mut();
        add(cells, other.cells.as_flattened().as_flattened());
        add(&mut self.crossed, &other.crossed);
    }
}

fn add(counts: &mut [u64], more: &[u64]) {
    let both = counts.iter_mut().zip(more);
    both.for_each(|(count, more)| *count += more);
}

/// Follows a script.
#[derive(Default)]
pub struct Counter {
    made_up: bool,
    /// Companions told in the iteration under way.
    asked: u64,
}

impl Counter {
    /// Takes a line of the script, the verdict of its answer and the search that the line was handed.
    pub fn see(&mut self, line: &[u8], verdict: u64, search: &Search, into: &mut Iterations) {
        match line.first() {
            Some(b'o') => *self = Counter::default(),
            Some(b'p') => self.made_up = true,
            Some(b't') if verdict == 0 => self.tell(words(line)[1], search, into),
            _ => {}
        }
    }

    fn tell(&mut self, cost: u64, search: &Search, into: &mut Iterations) {
        let before = State::of(search);
        let phase = before.phase();
        let own = before.method() == MULTIDIRECTIONAL;
        let at = match phase {
            0..=6 if own => Some(phase as usize),
            9.. if !own => Some(phase as usize - 2),
            _ => None,
        };
        // A probe is asked in either method.
        at.filter(|at| *at != 6 || self.made_up)
            .into_iter()
            .for_each(|at| into.crossed[at] += 1);
        if own {
            let step = Step::of(search, cost, self.asked);
            let maker = usize::from(self.made_up);
            let cells = &mut into.cells[maker][before.n() as usize - 1];
            step.count(cells);
        }
        self.asked = match phase {
            11 => self.asked + 1,
            _ => 0,
        };
    }
}

/// A tell, with the search before and after it.
struct Step {
    search: Search,
    cost: u64,
    before: State,
    after: State,
    /// Companions told before in this iteration.
    asked: u64,
}

fn told(search: &Search, cost: u64) -> State {
    let mut search = search.clone();
    let number = State::of(&search).readings() + 1;
    let _ = search.tell(number, cost);
    State::of(&search)
}

impl Step {
    fn of(search: &Search, cost: u64, asked: u64) -> Step {
        Step {
            search: search.clone(),
            cost,
            before: State::of(search),
            after: told(search, cost),
            asked,
        }
    }

    fn count(&self, cells: &mut [u64; CELLS.len()]) {
        let mut add = |name: &str| {
            let cell = CELLS.iter().position(|(cell, _)| *cell == name);
            cells[cell.expect("a cell")] += 1;
        };
        match self.before.phase() {
            9 => add("base told"),
            10 => self.reflection(&mut add),
            11 => self.companion(&mut add),
            6 => self.probe(&mut add),
            _ => return,
        }
        self.size(&mut add);
        self.ending(&mut add);
        self.stops(&mut add);
    }

    /// The first unread companion from number i on.
    fn unread(&self, i: u64) -> Option<u64> {
        (i..=self.before.n()).find(|i| self.before.standing_number(i + 1) == 0)
    }

    fn reflection(&self, add: &mut impl FnMut(&str)) {
        let (j, n, x0) = (
            self.before.detail(),
            self.before.n(),
            self.before.standing(1),
        );
        if self.cost < x0 {
            let places = [j == 1, 1 < j && j < n, j == n];
            let names = ["first", "middle", "last"];
            let met = names.iter().zip(places).filter(|(_, met)| *met);
            met.for_each(|(name, _)| add(&format!("reflection lower, {name}")));
            if self.cost + 1 == x0 {
                add("reflection one below");
            }
            return;
        }
        let (what, equal) = match self.unread(1) {
            _ if j < n => ("reflection not lower, next", "next"),
            Some(1) => ("last reflection not lower, companion 1", "companion"),
            Some(_) => ("last reflection not lower, later companion", "companion"),
            None => ("last reflection not lower, halved", "halved"),
        };
        add(what);
        if self.cost == x0 {
            add(&format!("reflection equal, {equal}"));
        }
        if self.cost == x0 + 1 {
            add("reflection one above");
        }
    }

    fn companion(&self, add: &mut impl FnMut(&str)) {
        let (i, x0) = (self.before.detail(), self.before.standing(1));
        let next = self.unread(i + 1);
        if self.cost < x0 {
            let (first, last) = (self.asked == 0, next.is_none());
            let places = [first, !first && !last, last];
            let names = ["first asked", "between", "last unread"];
            let met = names.iter().zip(places).filter(|(_, met)| *met);
            met.for_each(|(name, _)| add(&format!("companion lower, {name}")));
            if self.cost + 1 == x0 {
                add("companion one below");
            }
            return;
        }
        let what = if next.is_some() { "next" } else { "halved" };
        add(&format!("companion not lower, {what}"));
        if self.cost == x0 {
            add(&format!("companion equal, {what}"));
        }
        if self.cost == x0 + 1 {
            add("companion one above");
        }
        if next.is_some_and(|next| next > i + 1) {
            add("read one between unread");
        }
    }

    fn probe(&self, add: &mut impl FnMut(&str)) {
        let (told, n, best) = (self.before.detail(), self.before.n(), self.before.best());
        if self.cost < best {
            add("probe lower");
            if self.before.readings() + 2 == self.before.budget() {
                add("restart on the last but one");
            }
            return;
        }
        if self.cost == best {
            add("probe equal");
        }
        match told + 1 == 2 * n {
            true => add("round settled"),
            false => add("probe not lower, next"),
        }
    }

    /// Whether the tell ended an iteration; the last of a probe round ends none.
    fn ends_iteration(&self) -> bool {
        self.after.count(8) != self.before.count(8)
    }

    /// What ended it.
    fn end(&self) -> &'static str {
        let lower = self.cost < self.before.standing(1);
        match (lower, self.before.phase()) {
            (false, _) => "halved",
            (true, 10) => "reflection",
            (true, _) => "companion",
        }
    }

    /// Whether the rule is met with another E, or none where the budget ends the search.
    fn meets(&self, e: u64) -> Option<bool> {
        let mut search = self.search.clone();
        search.write_part(8, SIZE, e);
        let phase = told(&search, self.cost).phase();
        (phase != 8).then_some(phase == 6)
    }

    fn size(&self, add: &mut impl FnMut(&str)) {
        let [rule, bits] = self.before.rule();
        if !self.ends_iteration() || rule != SIZE {
            return;
        }
        let end = self.end();
        let e = f64::from_bits(bits);
        let what = if end == "halved" { end } else { "swapped" };
        match self.meets(bits) {
            Some(true) => {
                add(&format!("size met, {end}"));
                if self.meets(e.next_down().to_bits()) == Some(false) {
                    add(&format!("size just met, {what}"));
                }
            }
            Some(false) => {
                add(&format!("size not met, {end}"));
                if self.meets(e.next_up().to_bits()) == Some(true) {
                    add(&format!("size just not met, {what}"));
                }
            }
            None => {}
        }
    }

    fn ending(&self, add: &mut impl FnMut(&str)) {
        if self.after.phase() == 8 {
            add(match self.before.phase() {
                9 => "budget at a base",
                10 => "budget at a reflection",
                11 => "budget at a companion",
                _ => "budget at a probe",
            });
        }
    }

    /// Companions that the tell made with a stop, or left with one.
    fn stops(&self, add: &mut impl FnMut(&str)) {
        let n = self.before.n();
        let any = (2..=n + 1).any(|place| self.after.stops(place) > 0);
        let made = match self.before.phase() {
            9 => "built",
            6 if self.cost < self.before.best() => "built",
            10 | 11 if self.ends_iteration() => self.end(),
            _ => return,
        };
        match made {
            _ if !any => {}
            "built" => add("built with a stop"),
            "reflection" => add("reflected with a stop"),
            "companion" => add("stop kept by a swap"),
            _ => add("halved with a stop"),
        }
    }
}
