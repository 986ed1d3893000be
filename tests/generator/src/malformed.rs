//! Scripts with a line that has another form, most of them.

use crate::courses::{self, Manner, LONGEST_SERIES};
use crate::damage::damage;
use crate::habits::Habit;
use crate::random::Random;
use crate::script::Script;
use crate::{parts, state};

pub fn script(random: &mut Random, habit: Habit) -> Vec<u8> {
    let mut script = plain(random, habit);
    if random.one_in(12) {
        too_long_series(&mut script, random);
        return script.text.into_bytes();
    }
    let mut text = script.text.into_bytes();
    match random.below(16) {
        0 => text.clear(),
        1 => text = b"\n".to_vec(),
        2 | 3 => other_rule(random, &mut text),
        4 | 5 => other_method(random, &mut text),
        6..=8 => odd_line(random, &mut text),
        9 | 10 => other_part(random, &mut text),
        11 | 12 => other_ring(random, &mut text),
        _ => damage(random, &mut text),
    }
    if random.one_in(6) {
        damage(random, &mut text);
    }
    state::fixed_part(text)
}

/// A short script that is not damaged yet; one in three writes parts.
fn plain(random: &mut Random, habit: Habit) -> Script {
    if random.one_in(3) {
        return parts::short(random, habit);
    }
    let mut script = Script::with(habit);
    let tells = random.between(1, 15);
    courses::course(&mut script, random, Manner::Loose, tells);
    script
}

/// A series of more readings than any may have, which is no line of a script.
fn too_long_series(script: &mut Script, random: &mut Random) {
    let over = LONGEST_SERIES + 1;
    let readings = random.pick(&[over, over, 1 << 32, (1 << 32) + 5, u64::MAX]);
    let method = script.habit.method;
    script.series(method, random.between(0, 9), readings);
    script.ask();
}

/// A method above 1 in the opening, or in a line more that writes one or runs a series.
fn other_method(random: &mut Random, text: &mut Vec<u8>) {
    let method: u64 = random.pick(&[2, 2, 3, 256, 257, 1 << 32, (1 << 32) + 1, u64::MAX]);
    let word = format!("{method:016x}");
    let line = match random.below(3) {
        0 => return text[2..18].copy_from_slice(word.as_bytes()),
        1 => format!("p {:016x} {:016x} {word}\n", 15, 0),
        _ => format!("r {word} {:016x} {:016x}\n", random.between(0, 9), 5),
    };
    insert_line(random, text, line.into_bytes());
}

/// A rule above 3 in the opening.
fn other_rule(random: &mut Random, text: &mut [u8]) {
    let rule: u64 = random.pick(&[4, 4, 5, 9, 16, 257, (1 << 32) + 1, 1 << 63, u64::MAX]);
    let word = format!("{rule:016x}");
    text[36..52].copy_from_slice(word.as_bytes());
}

/// A ring above 1 in the opening, or in a line more that writes one.
fn other_ring(random: &mut Random, text: &mut Vec<u8>) {
    let ring: u64 = random.pick(&[
        2,
        2,
        2,
        3,
        256,
        257,
        1 << 32,
        (1 << 32) + 1,
        1 << 63,
        u64::MAX,
    ]);
    let axis = random.between(1, 8);
    if random.one_in(2) {
        let at = 2 + 17 * (8 + 5 * axis as usize);
        text[at..at + 16].copy_from_slice(format!("{ring:016x}").as_bytes());
    } else {
        let line = format!("p {:016x} {axis:016x} {ring:016x}\n", 14);
        insert_line(random, text, line.into_bytes());
    }
}

/// A line more, of some letter and none to four words.
fn odd_line(random: &mut Random, text: &mut Vec<u8>) {
    let any = b'a' + random.below(26) as u8;
    let letter = random.pick(&[
        any,
        any.to_ascii_uppercase(),
        b'a',
        b'b',
        b's',
        b't',
        b'r',
        b'p',
        b'x',
    ]);
    let words = random.pick(&[0, 0, 1, 1, 2, 3, 4]);
    let mut line = vec![letter];
    line.extend(format!(" {:016x}", random.below(3)).repeat(words).bytes());
    line.push(b'\n');
    insert_line(random, text, line);
}

/// A line that writes a part, or which of it, that is not in the table, or has a word too few or too many.
fn other_part(random: &mut Random, text: &mut Vec<u8>) {
    let edges = [
        (0, 0),
        (1, 0),
        (2, 0),
        (3, 9),
        (4, 11),
        (5, 9),
        (6, 9),
        (7, 0),
        (8, 3),
        (9, 8),
        (10, 8),
        (11, 9),
        (12, 9),
        (13, 0),
        (14, 8),
        (14, 8),
        (15, 0),
        (16, 9),
        (17, 0),
    ];
    let (part, most): (u64, u64) = random.pick(&edges);
    let huge = random.pick(&[u64::MAX, 1 << 32, (1 << 32) + most, 1 << 63]);
    let which = random.pick(&[most + 1, most + 1, 0, most, huge]);
    let part = random.pick(&[part, part, part, (1 << 32) + part]);
    let line = format!("p {part:016x} {which:016x} {:016x}", random.below(9));
    let line = match random.below(6) {
        0 => line[..35].to_string(),
        1 => line + " 0000000000000000",
        _ => line,
    };
    insert_line(random, text, (line + "\n").into_bytes());
}

/// A line more, anywhere.
fn insert_line(random: &mut Random, text: &mut Vec<u8>, line: Vec<u8>) {
    let starts = (1..text.len()).filter(|at| text[at - 1] == b'\n');
    let starts: Vec<usize> = starts.chain([0, text.len()]).collect();
    let at = random.pick(&starts);
    text.splice(at..at, line);
}
