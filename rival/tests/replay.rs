//! Scripts of calls and their transcripts.

mod lines;

use lines::*;

#[test]
fn example_of_the_format() {
    let script = format!("{}a\n{}{}b\n", opening(1, 1, 1, 4), tell(1, 4), tell(1, 4));
    let expected = "\
o 0000000000000000 0000000000000000
a 0000000000000000 0000000000000001 0000000000000000 0000000000000000 0000000000000000 0000000000000000 0000000000000000 0000000000000000 0000000000000000 0000000000000000 0000000000000000
t 0000000000000000
t 000000000000000a
b 0000000000000000 0000000000000000 0000000000000000 0000000000000000 0000000000000000 0000000000000000 0000000000000000 0000000000000000 0000000000000000 0000000000000004 0000000000000001
";
    assert_eq!(transcript(&script), expected);
}

/// "verdict; eight coordinates, the cost and the number of the best reading"
#[test]
fn best_ends_with_its_number() {
    let costs = [9, 5, 5, 6];
    let script = (1..).zip(costs).map(|(k, cost)| tell(k, cost) + "b\n");
    let script = opening(1, 1, 1, 9) + &script.collect::<String>();
    let best = |x, cost, number| word(0) + &floats(&[x]) + &zeros(7) + &word(cost) + &word(number);
    let shown = [best(0.0, 9, 1), best(1.0, 5, 2)];
    let lines = transcript(&script);
    let lines: Vec<&str> = lines.lines().filter_map(|l| l.strip_prefix('b')).collect();
    assert_eq!(lines, [0, 1, 1, 1].map(|i| shown[i].as_str()));
    let unread = opening(1, 1, 1, 9) + &write(13, 0, 4) + "b\n";
    assert_eq!(last_line(&unread), format!("b{}{}", word(11), zeros(10)));
    let script = script + &write(13, 0, u64::MAX) + "b\n";
    assert_eq!(last_line(&script), format!("b{}", best(1.0, 5, u64::MAX)));
}

#[test]
fn calls_before_an_opening_meet_the_closed_search() {
    let expected = format!(
        "a{}{}\nt{}\nb{}{}\ns{}{}\n",
        word(8),
        zeros(10),
        word(8),
        word(11),
        zeros(10),
        zeros(2) + &word(1) + &zeros(46) + &word(8),
        zeros(218)
    );
    assert_eq!(transcript(&format!("a\n{}b\ns\n", tell(1, 1))), expected);
}

#[test]
fn a_refused_opening_closes_the_search() {
    let good = opening(1, 0, u64::MAX, 4);
    let bad_axis = good.replacen(&floats(&[8.0]), &floats(&[f64::NAN]), 1);
    let script = format!("{good}a\n{bad_axis}a\n{}", opening(0, 0, 0, 4));
    let expected = format!(
        "o{}\na{}{}{}\no{}{}\na{}{}\no{}{}\n",
        zeros(2),
        word(0),
        word(1),
        zeros(9),
        word(2),
        word(1),
        word(8),
        zeros(10),
        word(1),
        word(0)
    );
    assert_eq!(transcript(&script), expected);
}

#[test]
fn every_rule_is_read() {
    // With one axis and costs 10, 10, only spread is met at the build; size 1 is met there too.
    let phase = |rule: u64, e: u64| {
        let script = opening(1, rule, e, 9) + &tell(1, 10) + &tell(2, 10) + "s\n";
        let words = last_line(&script);
        words.split(' ').nth(50).expect("a word").to_string()
    };
    assert_eq!(phase(0, 0), "0000000000000006");
    assert_eq!(phase(1, 1), "0000000000000006");
    assert_eq!(phase(2, 1e6f64.to_bits()), "0000000000000001");
    assert_eq!(phase(3, 1f64.to_bits()), "0000000000000006");
    assert_eq!(phase(3, 0.5f64.to_bits()), "0000000000000001");
}

/// Asserts that a line after an ask, and most often before one, ends the transcript.
#[track_caller]
fn assert_malformed(line: &str) {
    let closed_ask = format!("a{}{}\n", word(8), zeros(10));
    let expected = format!("{closed_ask}x{}\n", word(2));
    let script = format!("a\n{line}a\n");
    let cut = format!("a\n{line}");
    let script = if line.ends_with('\n') { script } else { cut };
    assert_eq!(transcript(&script), expected, "{line:?}");
}

#[test]
fn malformed_lines_end_the_transcript() {
    let long = opening(1, 1, 1, 4);
    for line in [
        "\n".to_string(),
        " \n".to_string(),
        "q\n".to_string(),
        "A\n".to_string(),
        "a \n".to_string(),
        "a\r\n".to_string(),
        "a".to_string(),
        "\0\n".to_string(),
        format!("a{}\n", word(1)),
        format!("t{}\n", word(1)),
        format!("p{}{}\n", word(0), word(0)),
        write(0, 0, 1).replace('\n', " 0000000000000000\n"),
        format!("r{}{}\n", word(0), word(1)),
        format!("r{}{}{}{}\n", word(0), word(1), word(1), word(1)),
        format!("r{}{}{}\n", word(0), word(1), word(16_777_217)),
        format!("r{}{}{}\n", word(2), word(1), word(1)),
        format!("r{}{}{}\n", word(u64::MAX), word(1), word(1)),
        format!("p{}{}{}\n", word(15), word(0), word(2)),
        format!("p{}{}{}\n", word(15), word(0), word(u64::MAX)),
        with_method(&long, 2),
        with_method(&long, u64::MAX),
        format!("t{}{}{}\n", word(1), word(1), word(1)),
        "t 0000000000000001 000000000000000A\n".to_string(),
        "t 0000000000000001  00000000000000a\n".to_string(),
        "t 0000000000000001 00000000000000001\n".to_string(),
        "t 0000000000000001 000000000000001\n".to_string(),
        tell(1, 1).trim_end().to_string(),
        opening(1, 4, 1, 4),
        opening(1, u64::MAX, 1, 4),
        long.replace('\n', " 0000000000000000\n"),
        format!("{}\n", &long[..long.len() - 18]),
    ] {
        assert_malformed(&line);
    }
}

#[test]
fn parts_that_are_not_in_the_table_are_malformed() {
    for (part, which) in [
        (9, 0),
        (9, 9),
        (10, 0),
        (10, 9),
        (10, (1 << 32) + 1),
        (11, 0),
        (11, 10),
        (12, 0),
        (12, 10),
        (12, (1 << 32) + 1),
        (13, 1),
        (14, 0),
        (14, 9),
        (14, (1 << 32) + 1),
        (15, 1),
        (16, 0),
        (16, 10),
        (17, 0),
        (u64::MAX, 0),
        (0, 1),
        (3, 0),
        (3, 10),
        (4, 12),
        (6, 10),
        (8, 0),
        (8, (1 << 32) + 1),
    ] {
        assert_malformed(&write(part, which, 1));
    }
}

/// The method is the first word of an opening.
fn with_method(line: &str, method: u64) -> String {
    let mut line = line.to_string();
    line.replace_range(1..18, &word(method));
    line
}

/// A ring is the fifth word of an axis record.
fn with_ring(line: &str, axis: usize, ring: u64) -> String {
    let at = 1 + 17 * (9 + 5 * axis - 1);
    let mut line = line.to_string();
    line.replace_range(at..at + 17, &word(ring));
    line
}

/// "a ring above 1 on an `o` line or written by a `p` line"
#[test]
fn rings_above_1_are_malformed() {
    for ring in [2, 3, 256, 1 << 32, (1 << 32) + 1, 1 << 63, u64::MAX] {
        for axis in 1..=8 {
            assert_malformed(&with_ring(&opening(1, 1, 1, 4), axis, ring));
            assert_malformed(&with_ring(&opening(8, 1, 1, 9), axis, ring));
            assert_malformed(&write(14, axis as u64, ring));
        }
    }
    // Also where the opening would be refused.
    assert_malformed(&with_ring(&opening(0, 1, 1, 4), 1, 2));
}

#[test]
fn rings_of_an_opening() {
    let none = zeros(2);
    let start_at_hi = floats(&[8.0, 8.0, 1.0]);
    let at_hi = opening(3, 1, 1, 9).replace(&floats(&[8.0, 0.0, 1.0]), &start_at_hi);
    assert_eq!(last_line(&at_hi), format!("o{none}"));
    for axis in 1..=3 {
        let refused = format!("o{}{}", word(13), word(axis as u64));
        assert_eq!(last_line(&with_ring(&at_hi, axis, 1)), refused);
        let asked = with_ring(&at_hi, axis, 1) + "a\n";
        assert_eq!(last_line(&asked), format!("a{}{}", word(8), zeros(10)));
    }
    for axis in 4..=8 {
        let given = with_ring(&at_hi, axis, 1);
        assert_eq!(last_line(&given), format!("o{none}"));
        assert_eq!(
            last_line(&(given + "s\n")),
            last_line(&(at_hi.clone() + "s\n"))
        );
    }
    let ring = with_ring(&opening(2, 1, 4, 100), 2, 1);
    assert_eq!(
        last_line(&(ring.clone() + "s\n")).get(..834),
        Some(ring.trim().replacen('o', "s", 1).as_str())
    );
}

/// From hi/2 a step of 6 goes over the seam of a ring, and down elsewhere.
#[test]
fn asks_on_a_ring() {
    let asked = |x: f64| format!("a{}{}{}{}", word(0), word(2), floats(&[x]), zeros(8));
    let told = tell(1, 5) + "a\n";
    let shorter = opening(1, 1, 4, 100).replace(&floats(&[0.0, 1.0]), &floats(&[4.0, 6.0]));
    assert_eq!(last_line(&(shorter.clone() + &told)), asked(-2.0));
    assert_eq!(last_line(&(with_ring(&shorter, 1, 1) + &told)), asked(-6.0));
    let turned = shorter + &tell(1, 5) + &write(14, 1, 1) + "a\n";
    assert_eq!(last_line(&turned), asked(-6.0));
}

#[test]
fn empty_and_longest_scripts() {
    assert_eq!(transcript(""), "");
    let mut script = vec![b'q'; 262_144];
    assert_eq!(rival::replay::transcript(&script), b"x 0000000000000001\n");
    script.push(b'\n');
    assert_eq!(rival::replay::transcript(&script), b"x 0000000000000000\n");
}

#[test]
fn a_series_opens_and_tells() {
    // The first bowl stands just above -4, so that the start's squared distance and 1 are just below 17.
    let first = 0x4030ff;
    let answer =
        |n: u64, readings: u64| transcript(&format!("r{}{}{}\n", word(0), word(n), word(readings)));
    let expected =
        |verdict, searches, sum| format!("r{}{}{}\n", word(verdict), word(searches), word(sum));
    assert_eq!(answer(1, 0), expected(0, 0, 0));
    assert_eq!(answer(1, 1), expected(0, 1, first));
    assert_eq!(answer(0, 1), expected(1, 0, 0));
    assert_eq!(answer(9, 1), expected(1, 0, 0));
}

#[test]
fn a_series_of_the_multidirectional_search() {
    // The first bowl stands just above -4: the start costs what it does above, and the reflection at -1 less.
    let answer =
        |n: u64, readings: u64| transcript(&format!("r{}{}{}\n", word(1), word(n), word(readings)));
    let expected =
        |verdict, searches, sum| format!("r{}{}{}\n", word(verdict), word(searches), word(sum));
    assert_eq!(answer(1, 0), expected(0, 0, 0));
    assert_eq!(answer(1, 1), expected(0, 1, 0x4030ff));
    // At -1 the squared distance and 1 are just below 10, whose bits begin with 4024.
    assert_eq!(answer(1, 2), expected(0, 1, 0x4030ff + 0x4023ff));
    assert_eq!(answer(0, 1), expected(1, 0, 0));
    assert_eq!(answer(9, 0), expected(1, 0, 0));
}

#[test]
fn openings_of_the_multidirectional_search() {
    let e = 0.5f64.to_bits();
    let refused = |number| format!("o{}{}", word(number), word(0));
    assert_eq!(last_line(&opening_of(1, 2, 3, e, 3)), refused(0));
    for rule in [0, 1, 2] {
        assert_eq!(last_line(&opening_of(1, 2, rule, e >> 32, 2)), refused(14));
    }
    assert_eq!(last_line(&opening_of(1, 2, 3, e, 2)), refused(7));
    assert_eq!(last_line(&opening_of(1, 2, 3, 0, 2)), refused(6));
    // A refused one leaves the closed search, whose method is Nelder-Mead.
    let closed = last_line(&(opening_of(1, 2, 0, e, 3) + "s\n"));
    assert_eq!(closed, last_line("s\n"));
}
