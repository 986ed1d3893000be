//! Lines, fields and numbers of the texts that the programs read and print.

use crate::types::shown_bits;

/// The number, from 1, of a malformed line.
#[derive(Clone, Copy, Debug, PartialEq, Eq)]
pub(crate) struct Malformed(pub(crate) u64);

/// The lines of a text, each ended by a newline.
pub(crate) struct Lines<'a> {
    rest: &'a [u8],
    number: u64,
}

impl<'a> Lines<'a> {
    /// All lines of a text.
    pub(crate) fn new(text: &'a [u8]) -> Lines<'a> {
        Lines {
            rest: text,
            number: 0,
        }
    }

    /// The next line without its newline, or none at the end; a last line that lacks its newline is malformed.
    pub(crate) fn next_line(&mut self) -> Result<Option<&'a [u8]>, Malformed> {
        if self.rest.is_empty() {
            return Ok(None);
        }
        self.number += 1;
        let length = self.rest.iter().position(|&byte| byte == b'\n');
        let length = length.ok_or(self.malformed())?;
        let line = &self.rest[..length];
        self.rest = &self.rest[length + 1..];
        Ok(Some(line))
    }

    /// The line given last, as a malformed one.
    pub(crate) fn malformed(&self) -> Malformed {
        Malformed(self.number)
    }
}

/// Reads exactly `COUNT` fields with one space between them.
pub(crate) fn fields<const COUNT: usize>(
    line: &[u8],
    read: fn(&[u8]) -> Option<u64>,
) -> Option<[u64; COUNT]> {
    let mut numbers = [0; COUNT];
    let mut given = line.split(|&byte| byte == b' ');
    for number in &mut numbers {
        *number = read(given.next()?)?;
    }
    given.next().is_none().then_some(numbers)
}

/// A whole number of 1 to 10 decimal digits.
pub(crate) fn decimal(field: &[u8]) -> Option<u64> {
    if !(1..=10).contains(&field.len()) {
        return None;
    }
    let mut number = 0;
    for &byte in field {
        let digit = byte.is_ascii_digit().then(|| byte - b'0')?;
        number = number * 10 + u64::from(digit);
    }
    Some(number)
}

/// A word of 16 lowercase hexadecimal digits.
pub(crate) fn word(field: &[u8]) -> Option<u64> {
    if field.len() != 16 {
        return None;
    }
    let mut number = 0;
    for &byte in field {
        number = number << 4 | u64::from(hexadecimal_digit(byte)?);
    }
    Some(number)
}

/// The value of one lowercase hexadecimal digit.
fn hexadecimal_digit(byte: u8) -> Option<u8> {
    match byte {
        b'0'..=b'9' => Some(byte - b'0'),
        b'a'..=b'f' => Some(byte - b'a' + 10),
        _ => None,
    }
}

/// Prints a space and a word.
pub(crate) fn put_word(out: &mut Vec<u8>, number: u64) {
    let mut text = [b' '; 17];
    for (i, byte) in text[1..].iter_mut().enumerate() {
        let digit = number >> (60 - 4 * i) & 15;
        *byte = b"0123456789abcdef"[digit as usize];
    }
    out.extend_from_slice(&text);
}

/// Prints a space and the words of coordinates.
pub(crate) fn put_point(out: &mut Vec<u8>, coordinates: &[f64]) {
    for &coordinate in coordinates {
        put_word(out, shown_bits(coordinate));
    }
}
