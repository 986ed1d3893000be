//! The numbers on the last lines of texts, counted by what tells them from another reading's.

/// Which reading the last line names. The last two may be met together with the others.
pub const NAMED: [&str; 5] = [
    "the first reading",
    "the last of several",
    "one between",
    "one of two digits or more",
    "the earlier of two equals",
];

/// How often each was named.
pub type Ends = [u64; NAMED.len()];

/// Takes a text's transcript.
pub fn count(transcript: &str, ends: &mut Ends) {
    let lines: Vec<Vec<&str>> = transcript
        .lines()
        .map(|line| line.split(' ').collect())
        .collect();
    let Some((last, readings)) = lines.split_last() else {
        return;
    };
    let [end, .., cost, number] = last[..] else {
        return;
    };
    if end != "end" || readings.is_empty() {
        return;
    }
    let is_last = readings.last().and_then(|reading| reading.first()) == Some(&number);
    let equals = readings
        .iter()
        .filter(|reading| reading.last() == Some(&cost))
        .count();
    let met = [
        number == "1",
        is_last && number != "1",
        !is_last && number != "1",
        number.len() > 1,
        equals > 1,
    ];
    ends.iter_mut()
        .zip(met)
        .for_each(|(count, met)| *count += u64::from(met));
}
