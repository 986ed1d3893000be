//! `tune`: the example of document 01, endings, refusals and malformed texts.

/// The example's opening.
const OPENING: &str =
    "1 4 1\nc020000000000000 4020000000000000 0000000000000000 3ff0000000000000\n";

/// What is printed for an input.
fn printed(input: &str) -> String {
    String::from_utf8(rival::tune::transcript(input.as_bytes())).expect("ASCII")
}

/// What is printed for the example's opening and costs.
fn after_opening(costs: &str) -> String {
    after_opening_of(4, costs)
}

/// The same with another budget.
fn after_opening_of(budget: u64, costs: &str) -> String {
    let axis = &OPENING["1 4 1\n".len()..];
    printed(&format!("1 {budget} 1\n{axis}{costs}"))
}

#[test]
fn example_of_document_01() {
    let expected = "\
1 0000000000000000 4
2 3ff0000000000000 6
3 bff0000000000000 4
4 bfe0000000000000 4
end budget 0000000000000000 4 1
";
    assert_eq!(after_opening("4\n6\n4\n4\n"), expected);
}

#[test]
fn stopping_early_waits() {
    assert_eq!(printed(""), "end waiting\n");
    assert_eq!(printed("1 4 1\n"), "end waiting\n");
    assert_eq!(
        printed("2 4 1\nc020000000000000 4020000000000000 0000000000000000 3ff0000000000000\n"),
        "end waiting\n"
    );
    assert_eq!(after_opening(""), "end waiting\n");
    assert_eq!(
        after_opening("4\n"),
        "1 0000000000000000 4\nend waiting 0000000000000000 4 1\n"
    );
}

/// The last line of what is printed for the example's opening, with more budget, and costs.
fn end(costs: &str) -> String {
    let text = after_opening_of(100, costs);
    text.lines().last().expect("a line").to_string()
}

#[test]
fn the_end_names_the_reading_of_the_best() {
    assert_eq!(end("9\n"), "end waiting 0000000000000000 9 1");
    assert_eq!(end("90\n40\n"), "end waiting 3ff0000000000000 40 2");
    // An equal reading, and a higher one, leave it.
    assert_eq!(end("90\n40\n40\n"), "end waiting 3ff0000000000000 40 2");
    assert_eq!(end("90\n40\n70\n"), "end waiting 3ff0000000000000 40 2");
    assert_eq!(end("90\n40\n7\n9\n"), "end waiting 4000000000000000 7 3");
}

#[test]
fn the_number_has_as_many_digits_as_it_needs() {
    let costs: String = (0..12).map(|k| format!("{}\n", 5000 - 400 * k)).collect();
    let text = after_opening_of(12, &costs);
    let [.., reading, end] = text.lines().collect::<Vec<_>>()[..] else {
        panic!("{text}");
    };
    let best = reading.strip_prefix("12 ").expect("the last reading");
    assert_eq!(end, format!("end budget {best} 12"));
}

#[test]
fn waiting_does_not_open() {
    // A budget of 0 is refused only once the axis lines are read.
    assert_eq!(printed("1 0 1\n"), "end waiting\n");
    let axis = &OPENING["1 4 1\n".len()..];
    assert_eq!(printed(&format!("1 0 1\n{axis}")), "refused 7\n");
}

#[test]
fn two_axes_settle_and_leave_the_rest_unread() {
    let axis = &OPENING["1 4 1\n".len()..];
    let input = format!("2 0000000100 1\n{axis}{axis}7\n7\n07\n7\n7\n7\n7\nunread");
    let expected = "\
1 0000000000000000 0000000000000000 7
2 3ff0000000000000 0000000000000000 7
3 0000000000000000 3ff0000000000000 7
4 3f50000000000000 0000000000000000 7
5 bf50000000000000 0000000000000000 7
6 0000000000000000 3f50000000000000 7
7 0000000000000000 bf50000000000000 7
end settled 0000000000000000 0000000000000000 7 1
";
    assert_eq!(printed(&input), expected);
}

#[test]
fn refusals_of_the_opening() {
    assert_eq!(printed("0 4 1\n"), "refused 1\n");
    assert_eq!(printed("9 4 1\nnot an axis line\n"), "refused 1\n");
    assert_eq!(printed("9999999999 4 1\n"), "refused 1\n");
    let nan = "7ff8000000000000";
    let input = format!("1 4 1\n{nan} {nan} {nan} {nan}\n4\n");
    assert_eq!(printed(&input), "refused 2\n");
    let axis = &OPENING["1 4 1\n".len()..];
    assert_eq!(printed(&format!("1 4 0\n{axis}")), "refused 6\n");
    assert_eq!(printed(&format!("1 4 4294967296\n{axis}")), "refused 6\n");
    assert_eq!(printed(&format!("1 1 1\n{axis}")), "refused 7\n");
    let reversed = "4020000000000000 c020000000000000 0000000000000000 3ff0000000000000\n";
    assert_eq!(printed(&format!("2 4 1\n{axis}{reversed}")), "refused 3\n");
}

#[test]
fn a_refused_cost_ends_after_the_readings() {
    assert_eq!(
        after_opening("16777215\n16777216\n4\n"),
        "1 0000000000000000 16777215\nrefused 9\n"
    );
    assert_eq!(after_opening("9999999999\n"), "refused 9\n");
}

#[test]
fn malformed_first_lines() {
    for line in [
        "\n",
        " \n",
        "1 4\n",
        "1 4 1 1\n",
        "1  4 1\n",
        " 1 4 1\n",
        "1 4 1 \n",
        "1 4 1\r\n",
        "1\t4 1\n",
        "+1 4 1\n",
        "-1 4 1\n",
        "1 4 a\n",
        "1 4 00000000001\n",
        "1 4 1",
        "x",
        "1 4 1\0\n",
        "9 4\n",
    ] {
        assert_eq!(printed(line), "bad 1\n", "{line:?}");
    }
}

#[test]
fn malformed_axis_lines() {
    for line in [
        "\n",
        "c020000000000000 4020000000000000 0000000000000000\n",
        "c020000000000000 4020000000000000 0000000000000000 3ff0000000000000 0000000000000000\n",
        "C020000000000000 4020000000000000 0000000000000000 3ff0000000000000\n",
        "c02000000000000 4020000000000000 0000000000000000 3ff0000000000000\n",
        "c0200000000000000 4020000000000000 0000000000000000 3ff0000000000000\n",
        "c020000000000000  4020000000000000 0000000000000000 3ff0000000000000\n",
        "c020000000000000 4020000000000000 0000000000000000 3ff0000000000000 \n",
        "g020000000000000 4020000000000000 0000000000000000 3ff0000000000000\n",
        "c020000000000000 4020000000000000 0000000000000000 3ff0000000000000",
    ] {
        assert_eq!(printed(&format!("1 4 1\n{line}")), "bad 2\n", "{line:?}");
    }
}

#[test]
fn malformed_axis_line_comes_before_a_refusal() {
    // The first axis record would be refused, but the second line is read first.
    let bad = "0000000000000000 0000000000000000 0000000000000000 0000000000000000\n";
    assert_eq!(printed(&format!("2 4 1\n{bad}\n")), "bad 3\n");
}

#[test]
fn malformed_costs() {
    for line in [
        "\n",
        " 4\n",
        "4 \n",
        "4 4\n",
        "00000000004\n",
        "-4\n",
        "4.0\n",
        "4",
    ] {
        let expected = "1 0000000000000000 4\nbad 4\n";
        assert_eq!(after_opening(&format!("4\n{line}")), expected, "{line:?}");
    }
}

#[test]
fn bytes_outside_ascii_are_malformed() {
    assert_eq!(rival::tune::transcript(&[0xff, b'\n']), b"bad 1\n");
    assert_eq!(rival::tune::transcript(&[0, 0xc3]), b"bad 1\n");
}

#[test]
fn input_of_at_most_65536_bytes() {
    let mut input = format!("{OPENING}4\n6\n4\n4\n").into_bytes();
    input.resize(65_536, b'4');
    let text = rival::tune::transcript(&input);
    assert!(text.ends_with(b"end budget 0000000000000000 4 1\n"));
    input.push(b'\n');
    assert_eq!(rival::tune::transcript(&input), b"bad 0\n");
}
