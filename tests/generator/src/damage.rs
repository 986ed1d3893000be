//! Damage to a text of lines and words, which makes most texts malformed. It serves scripts and the texts of `tune` alike.

// Every kind of damage has the same form, also where it leaves the length as it is.
#![allow(clippy::ptr_arg)]

use crate::random::Random;

type OnText = fn(&mut Random, &mut Vec<u8>);
type OnLine = fn(&mut Random, &mut Vec<u8>);

const ON_TEXT: [OnText; 8] = [
    replace, replace, insert, remove, cut, cut_line, unfinished, line_more,
];
const ON_LINE: [OnLine; 20] = [
    double_space,
    tab,
    carriage_return,
    leading_space,
    trailing_space,
    sign,
    uppercase,
    uppercase,
    digit_more,
    digit_less,
    word_more,
    word_more,
    word_more,
    word_less,
    word_less,
    other_letter,
    other_letter,
    emptied,
    no_hex_digit,
    prefix,
];

pub fn damage(random: &mut Random, text: &mut Vec<u8>) {
    if random.one_in(3) {
        random.pick(&ON_TEXT)(random, text);
    } else {
        let how = random.pick(&ON_LINE);
        on_line(random, text, how);
    }
}

/// Damages one line, in half of the cases among the first ten.
fn on_line(random: &mut Random, text: &mut Vec<u8>, how: OnLine) {
    let mut lines: Vec<Vec<u8>> = text
        .split_inclusive(|b| *b == b'\n')
        .map(<[u8]>::to_vec)
        .collect();
    if lines.is_empty() {
        return;
    }
    let most = if random.one_in(2) {
        lines.len().min(10)
    } else {
        lines.len()
    };
    let line = &mut lines[random.below(most as u64) as usize];
    let ends = line.last() == Some(&b'\n');
    line.truncate(line.len() - usize::from(ends));
    how(random, line);
    line.extend(ends.then_some(b'\n'));
    *text = lines.concat();
}

fn some_byte(random: &mut Random) -> u8 {
    let any = random.below(256) as u8;
    random.pick(&[
        b' ', b'\n', b'0', b'f', b'g', b'F', b'/', b':', b'`', b'@', b'\r', b'\t', b'-', 0, 0xff,
        0x80, any, any,
    ])
}

/// A place from 0 to the length.
fn place(random: &mut Random, text: &[u8]) -> usize {
    random.below(text.len() as u64 + 1) as usize
}

fn replace(random: &mut Random, text: &mut Vec<u8>) {
    let at = place(random, text);
    let byte = some_byte(random);
    text.iter_mut().skip(at).take(1).for_each(|b| *b = byte);
}

fn insert(random: &mut Random, text: &mut Vec<u8>) {
    let at = place(random, text);
    text.insert(at, some_byte(random));
}

fn remove(random: &mut Random, text: &mut Vec<u8>) {
    let at = place(random, text);
    if at < text.len() {
        text.remove(at);
    }
}

/// The text stops anywhere.
fn cut(random: &mut Random, text: &mut Vec<u8>) {
    let at = place(random, text);
    text.truncate(at);
}

/// The text stops after a whole line.
fn cut_line(random: &mut Random, text: &mut Vec<u8>) {
    cut(random, text);
    let end = text
        .iter()
        .rposition(|b| *b == b'\n')
        .map_or(0, |at| at + 1);
    text.truncate(end);
}

fn unfinished(_: &mut Random, text: &mut Vec<u8>) {
    if text.last() == Some(&b'\n') {
        text.pop();
    }
}

/// An empty line somewhere, or one of any bytes.
fn line_more(random: &mut Random, text: &mut Vec<u8>) {
    let start = place(random, text);
    let at = text[start..]
        .iter()
        .position(|b| *b == b'\n')
        .map_or(text.len(), |found| start + found + 1);
    let line = match random.below(4) {
        0 => vec![some_byte(random), b'\n'],
        1 => b" \n".to_vec(),
        _ => b"\n".to_vec(),
    };
    text.splice(at..at, line);
}

/// The places of the line at which `is` holds, one of them picked; none if there are none.
fn find(random: &mut Random, line: &[u8], is: fn(&u8) -> bool) -> Option<usize> {
    let places: Vec<usize> = (0..line.len()).filter(|at| is(&line[*at])).collect();
    if places.is_empty() {
        return None;
    }
    Some(random.pick(&places))
}

fn is_space(b: &u8) -> bool {
    *b == b' '
}

fn put(line: &mut Vec<u8>, at: Option<usize>, with: &[u8], instead_of: usize) {
    if let Some(at) = at {
        line.splice(at..at + instead_of, with.iter().copied());
    }
}

fn double_space(random: &mut Random, line: &mut Vec<u8>) {
    let at = find(random, line, is_space);
    put(line, at, b" ", 0);
}

fn tab(random: &mut Random, line: &mut Vec<u8>) {
    let at = find(random, line, is_space);
    put(line, at, b"\t", 1);
}

fn carriage_return(_: &mut Random, line: &mut Vec<u8>) {
    line.push(b'\r');
}

fn leading_space(_: &mut Random, line: &mut Vec<u8>) {
    line.insert(0, b' ');
}

fn trailing_space(_: &mut Random, line: &mut Vec<u8>) {
    line.push(b' ');
}

/// The first place of a word of the line.
fn word(random: &mut Random, line: &[u8]) -> usize {
    if random.one_in(3) {
        return 0;
    }
    find(random, line, is_space).map_or(0, |at| at + 1)
}

fn sign(random: &mut Random, line: &mut Vec<u8>) {
    let at = word(random, line);
    let sign = random.pick(b"-+");
    line.insert(at, sign);
}

fn prefix(random: &mut Random, line: &mut Vec<u8>) {
    let at = word(random, line);
    put(line, Some(at), b"0x", 0);
}

fn uppercase(random: &mut Random, line: &mut Vec<u8>) {
    if let Some(at) = find(random, line, u8::is_ascii_lowercase) {
        line[at].make_ascii_uppercase();
    }
}

fn digit_more(random: &mut Random, line: &mut Vec<u8>) {
    let at = word(random, line);
    line.insert(at, b'0');
}

fn digit_less(random: &mut Random, line: &mut Vec<u8>) {
    let at = find(random, line, u8::is_ascii_hexdigit);
    put(line, at, b"", 1);
}

fn word_more(random: &mut Random, line: &mut Vec<u8>) {
    let more = random.pick(&[
        &b" 0000000000000000"[..],
        b" 0000000000000001",
        b" 3ff0000000000000",
        b" 1",
    ]);
    line.extend(more);
}

fn word_less(_: &mut Random, line: &mut Vec<u8>) {
    let end = line.iter().rposition(is_space).unwrap_or(0);
    line.truncate(end);
}

fn other_letter(random: &mut Random, line: &mut Vec<u8>) {
    let letter = random.pick(b"oatbsprxxxOATBSPRc0z ");
    line.iter_mut().take(1).for_each(|b| *b = letter);
}

fn emptied(_: &mut Random, line: &mut Vec<u8>) {
    line.clear();
}

fn no_hex_digit(random: &mut Random, line: &mut Vec<u8>) {
    if let Some(at) = find(random, line, u8::is_ascii_hexdigit) {
        line[at] = random.pick(b"gGzAF/:`@._");
    }
}
