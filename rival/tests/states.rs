//! State lines, and the lines that write one part.

mod lines;

use lines::*;

/// The state line of the two-axis example with rule spread 4 after costs.
fn state(costs: &[u64]) -> String {
    last_line(&(example(costs) + "s\n"))
}

/// The script of the two-axis example after costs.
fn example(costs: &[u64]) -> String {
    let mut script = opening(2, 1, 4, 100);
    for (number, &cost) in (1..).zip(costs) {
        script += &tell(number, cost);
    }
    script
}

/// A vertex of two axes on a state line.
fn vertex(x: f64, y: f64, cost: u64, number: u64) -> String {
    floats(&[x, y]) + &zeros(6) + &word(cost) + &word(number)
}

/// Nine places on a state line.
fn simplex(vertices: &[String]) -> String {
    vertices.concat() + &zeros(10 * (9 - vertices.len()))
}

/// What a state line shows behind the opening's words.
struct Shown<'a> {
    first: [u64; 10],
    best: &'a str,
    center: [f64; 2],
    standing: &'a [String],
    gathered: &'a [String],
}

impl Shown<'_> {
    /// The state line of the two-axis example.
    fn line(&self) -> String {
        let given = opening(2, 1, 4, 100).trim_end().replacen('o', "s", 1);
        let first: String = self.first.iter().map(|&number| word(number)).collect();
        let center = floats(&self.center) + &zeros(6);
        let simplices = simplex(self.standing) + &simplex(self.gathered);
        let multidirectional = zeros(2);
        let best = multidirectional + self.best;
        format!("{given}{first}{best}{center}{simplices}{}", zeros(9))
    }
}

/// Asserts the state after costs, with the build around the start.
#[track_caller]
fn check(costs: &[u64], first: [u64; 10], best: &str, standing: &[String], gathered: &[String]) {
    let center = [0.0, 0.0];
    let shown = Shown {
        first,
        best,
        center,
        standing,
        gathered,
    };
    assert_eq!(state(costs), shown.line());
}

#[test]
fn states_of_the_first_build() {
    let thirty = vertex(0.0, 0.0, 30, 1);
    let twenty = vertex(1.0, 0.0, 20, 2);
    check(&[], [0; 10], &zeros(10), &[], &[]);
    let one = [thirty.clone()];
    check(&[30], [0, 1, 1, 0, 0, 0, 0, 0, 0, 0], &thirty, &[], &one);
    let two = [twenty.clone(), thirty];
    let first = [0, 2, 2, 0, 0, 0, 0, 0, 0, 1];
    check(&[30, 20], first, &twenty, &[], &two);
}

#[test]
fn states_of_the_example() {
    let ten = vertex(0.0, 1.0, 10, 3);
    let twenty = vertex(1.0, 0.0, 20, 2);
    let built = [ten.clone(), twenty.clone(), vertex(0.0, 0.0, 30, 1)];
    let p1 = [30, 20, 10];
    check(&p1, [1, 0, 3, 1, 0, 0, 0, 0, 0, 0], &ten, &built, &[]);
    for (phase, fr) in [(2, 5), (3, 20), (4, 31)] {
        let r = [vertex(1.0, 1.0, fr, 4)];
        let best = if fr == 5 { &r[0] } else { &ten };
        let first = [phase, 0, 4, 1, 0, 0, 0, 0, 0, 1];
        check(&[30, 20, 10, fr], first, best, &built, &r);
    }
    let five = vertex(1.0, 1.0, 5, 4);
    let taken = [five.clone(), ten.clone(), twenty];
    let p4 = [30, 20, 10, 5, 5];
    check(&p4, [1, 0, 5, 1, 0, 1, 0, 0, 0, 0], &five, &taken, &[]);
    let kept = [ten.clone()];
    let p10 = [30, 20, 10, 31, 30];
    let first = [5, 1, 5, 1, 0, 0, 0, 0, 0, 2];
    check(&p10, first, &ten, &built, &kept);
    let two = [ten.clone(), vertex(0.5, 0.5, 40, 6)];
    let shrinking = [30, 20, 10, 31, 30, 40];
    let first = [5, 2, 6, 1, 0, 0, 0, 0, 0, 3];
    check(&shrinking, first, &ten, &built, &two);
}

#[test]
fn states_of_a_probe_round() {
    let flat = [
        vertex(0.0, 0.0, 7, 1),
        vertex(1.0, 0.0, 7, 2),
        vertex(0.0, 1.0, 7, 3),
    ];
    let b = vertex(0.0, 0.0, 7, 1);
    let round = |costs: &[u64], first| check(costs, first, &b, &flat, &[]);
    round(&[7; 3], [6, 0, 3, 1, 0, 0, 0, 0, 0, 0]);
    round(&[7; 5], [6, 2, 5, 1, 0, 0, 0, 0, 2, 0]);
    round(&[7; 7], [7, 0, 7, 1, 0, 0, 0, 0, 4, 0]);
}

#[test]
fn states_of_a_restart() {
    let d = 0.0009765625;
    let lower = vertex(d, 0.0, 6, 4);
    let standing = [
        vertex(0.0, 0.0, 7, 1),
        vertex(1.0, 0.0, 7, 2),
        vertex(0.0, 1.0, 7, 3),
    ];
    let gathered = [lower.clone(), vertex(1.0 + d, 0.0, 9, 5)];
    let mut shown = Shown {
        first: [0, 1, 4, 1, 0, 0, 0, 0, 1, 0],
        best: &lower,
        center: [d, 0.0],
        standing: &standing,
        gathered: &gathered[..1],
    };
    assert_eq!(state(&[7, 7, 7, 6]), shown.line());
    shown.first = [0, 2, 5, 1, 0, 0, 0, 0, 1, 1];
    shown.gathered = &gathered;
    assert_eq!(state(&[7, 7, 7, 6, 9]), shown.line());
}

/// The word of a state line at an index, from 0 after the letter.
fn word_of(script: &str, index: usize) -> String {
    let line = last_line(&format!("{script}s\n"));
    line.split(' ').nth(index + 1).expect("a word").to_string()
}

#[test]
fn every_part_is_written() {
    let value = 0x0123_4567_89ab_cdef;
    let plain = [(0, 0, 1), (1, 0, 8), (2, 0, 51), (7, 0, 69), (13, 0, 70)];
    let counts = (1..=9).map(|which| (3, which, 51 + which as usize));
    let phases = [0, 5, 6, 10, 11].map(|phase| (4, phase, 50));
    let places = (1..=9).map(|place| (place, 10 * place as usize));
    let standing = places
        .clone()
        .flat_map(|(p, at)| [(5, p, 77 + at), (11, p, 78 + at)]);
    let gathered = places.flat_map(|(p, at)| [(6, p, 167 + at), (12, p, 168 + at)]);
    let rules = [(8, 1, 3), (8, 2, 3), (8, 3, 3)];
    let low = (1..=8).map(|axis| (9, axis, 4 + 5 * axis as usize));
    let high = (1..=8).map(|axis| (10, axis, 5 + 5 * axis as usize));
    let all = plain.into_iter().chain(counts).chain(phases);
    let stops = (1..=9).map(|place| (16, place, 258 + place as usize));
    let all = all.chain(standing).chain(gathered).chain(rules);
    let all = all.chain(stops);
    for (part, which, at) in all.chain(low).chain(high) {
        for script in [String::new(), example(&[30, 20, 10, 31, 30])] {
            let script = script + &write(part, which, value);
            assert_eq!(last_line(&script), "p");
            assert_eq!(word_of(&script, at), word(value).trim());
        }
    }
}

#[test]
fn rings_are_written() {
    for axis in 1..=8 {
        for script in [String::new(), example(&[30, 20, 10, 31, 30])] {
            let on = script + &write(14, axis, 1);
            let at = 8 + 5 * axis as usize;
            assert_eq!(last_line(&on), "p");
            assert_eq!(word_of(&on, at), word(1).trim());
            assert_eq!(word_of(&(on + &write(14, axis, 0)), at), word(0).trim());
        }
    }
}

#[test]
fn phases_without_a_detail() {
    for phase in [1, 2, 3, 4, 7, 8, 9] {
        let script = example(&[30, 20, 10, 5]) + &write(4, phase, 9);
        assert_eq!(word_of(&script, 49), word(phase).trim());
        assert_eq!(word_of(&script, 50), word(0).trim());
    }
}

#[test]
fn calls_go_on_from_what_is_written() {
    let script = example(&[30, 20, 10]) + &write(4, 2, 5);
    let expansion = word(0) + &word(4) + &floats(&[1.5, 1.5]) + &zeros(7);
    assert_eq!(
        last_line(&(script.clone() + "a\n")),
        format!("a{expansion}")
    );
    let script = script + &write(2, 0, 100);
    assert_eq!(
        last_line(&(script.clone() + "a\n")),
        format!("a{}{}", word(12), zeros(10))
    );
    let script = script + &write(1, 0, 101) + &tell(101, 4);
    assert_eq!(last_line(&script), format!("t{}", word(0)));
    assert_eq!(word_of(&script, 49), word(8).trim());
}

/// "A NaN is shown as 7ff8000000000000, whichever it is."
#[test]
fn a_nan_has_one_word() {
    for (rule, nan) in [(2, 0x7ff0_0000_0000_0001), (3, u64::MAX)] {
        let line = last_line(&(example(&[]) + &write(8, rule, nan) + "s\n"));
        let shown = word(rule) + &word(0x7ff8_0000_0000_0000);
        assert_eq!(line.get(35..69), Some(shown.as_str()));
    }
    let shown = word(0x7ff8_0000_0000_0000);
    for (part, at) in [(9, 9), (10, 10)] {
        let script = example(&[]) + &write(part, 1, u64::MAX);
        assert_eq!(word_of(&script, at), shown.trim());
    }
    // lo is the trial's coordinate then, the vertex's and the best's.
    let script = example(&[]) + &write(9, 1, 0xfff0_0000_0000_0001);
    let asked = word(0) + &word(1) + &shown + &zeros(7) + &word(1);
    assert_eq!(last_line(&(script.clone() + "a\n")), format!("a{asked}"));
    let script = script + &tell(1, 7);
    let best = word(0) + &shown + &zeros(7) + &word(7) + &word(1);
    assert_eq!(last_line(&(script.clone() + "b\n")), format!("b{best}"));
    for at in [61, 169] {
        assert_eq!(word_of(&script, at), shown.trim());
    }
}

/// The state line of a multidirectional search of two axes, lo of the second −1/2, after costs.
fn companions(costs: &[u64]) -> (String, String) {
    let given = opening_of(1, 2, 3, 0.01f64.to_bits(), 100);
    let second = floats(&[-8.0, 8.0, 0.0, 1.0]);
    let at = given.rfind(&second).expect("a second axis");
    let given = given[..at].to_string() + &floats(&[-0.5]) + &given[at + 17..];
    let tells = (1..).zip(costs).map(|(number, &cost)| tell(number, cost));
    let line = last_line(&(given.clone() + &tells.collect::<String>() + "s\n"));
    (given.trim_end().replacen('o', "s", 1), line)
}

/// Phase, detail, readings, iterations and readings in those; best; standing and gathered; the third place's stops.
fn companions_shown(
    given: &str,
    numbers: [u64; 5],
    best: &str,
    simplices: [&[String]; 2],
    stops: u64,
) -> String {
    let [phase, detail, readings, iterations, read] = numbers.map(word);
    let counts = zeros(7) + &iterations + &read;
    let places = simplices.map(simplex).concat();
    let first = phase + &detail + &readings + &counts;
    let stops = zeros(2) + &word(stops) + &zeros(6);
    format!("{given}{first}{best}{}{places}{stops}", zeros(8))
}

#[test]
fn states_of_companions() {
    let (given, line) = companions(&[]);
    let none: [&[String]; 2] = [&[], &[]];
    let shown = companions_shown(&given, [9, 0, 0, 0, 0], &zeros(10), none, 0);
    assert_eq!(line, shown);
    let nine = vertex(0.0, 0.0, 9, 1);
    let unread = |x, y| vertex(x, y, 0, 0);
    let built = [nine.clone(), unread(1.0, 0.0), unread(0.0, 1.0)];
    let shown = companions_shown(&given, [10, 1, 1, 0, 0], &nine, [&built, &[]], 0);
    assert_eq!(companions(&[9]).1, shown);
    let told = [vertex(-1.0, 0.0, 9, 2), vertex(0.0, -0.5, 11, 3)];
    let shown = companions_shown(&given, [10, 2, 2, 0, 1], &nine, [&built, &told[..1]], 0);
    assert_eq!(companions(&[9, 9]).1, shown);
    let shown = companions_shown(&given, [11, 1, 3, 0, 2], &nine, [&built, &told], 0);
    assert_eq!(companions(&[9, 9, 11]).1, shown);
    let read = [nine.clone(), vertex(1.0, 0.0, 12, 4), unread(0.0, 1.0)];
    let shown = companions_shown(&given, [11, 2, 4, 0, 3], &nine, [&read, &told], 0);
    assert_eq!(companions(&[9, 9, 11, 12]).1, shown);
    let eight = vertex(-1.0, 0.0, 8, 2);
    let swapped = [eight.clone(), nine, unread(0.0, -0.5)];
    let shown = companions_shown(&given, [10, 1, 2, 1, 1], &eight, [&swapped, &[]], 1);
    assert_eq!(companions(&[9, 8]).1, shown);
}
