//! Lines of scripts and of transcripts.
#![allow(dead_code)]

/// The word of a whole number, a space before it.
pub fn word(number: u64) -> String {
    format!(" {number:016x}")
}

/// The words of floats.
pub fn floats(numbers: &[f64]) -> String {
    numbers.iter().map(|x| word(x.to_bits())).collect()
}

/// A run of zero words.
pub fn zeros(count: usize) -> String {
    word(0).repeat(count)
}

/// A Nelder-Mead opening with the axis of the examples on the first n records, zeros past them.
pub fn opening(n: u64, rule: u64, e: u64, budget: u64) -> String {
    opening_of(0, n, rule, e, budget)
}

/// An opening of a method.
pub fn opening_of(method: u64, n: u64, rule: u64, e: u64, budget: u64) -> String {
    let axis = floats(&[-8.0, 8.0, 0.0, 1.0]) + &word(0);
    let axes = axis.repeat(n as usize) + &zeros(40 - 5 * n as usize);
    let coefficients = floats(&[1.0, 2.0, 0.5, 0.5]);
    let first = word(method) + &word(n) + &word(rule) + &word(e);
    format!("o{first}{coefficients}{}{axes}\n", word(budget))
}

/// A tell.
pub fn tell(number: u64, cost: u64) -> String {
    format!("t{}{}\n", word(number), word(cost))
}

/// A line that writes a part.
pub fn write(part: u64, which: u64, value: u64) -> String {
    format!("p{}{}{}\n", word(part), word(which), word(value))
}

/// The transcript of a script.
pub fn transcript(script: &str) -> String {
    String::from_utf8(rival::replay::transcript(script.as_bytes())).expect("ASCII")
}

/// The last line of the transcript of a script.
pub fn last_line(script: &str) -> String {
    let text = transcript(script);
    text.lines().last().expect("a line").to_string()
}
