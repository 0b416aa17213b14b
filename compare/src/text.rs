//! Reading and writing the text of books and requests: 40 hexadecimal digits and one LF a line, or 32 in a short text.

use crate::record::{LENGTH, MOST_ENTRIES, MOST_RECORDS, SHORT};
use crate::refusal::{refuse, too_short, Part, Refusal};

/// The letters of a line that gives so many bytes.
pub fn line_length(width: usize) -> usize {
    2 * width + 1
}

/// The bytes that each line of a text gives, as its first line fixes them.
pub fn width(text: &[u8]) -> usize {
    if text.get(2 * SHORT) == Some(&b'\n') {
        SHORT
    } else {
        LENGTH
    }
}

/// The number of lines a book or a request may have.
pub fn most_lines(part: Part) -> usize {
    if part == Part::Book {
        MOST_RECORDS
    } else {
        MOST_ENTRIES
    }
}

/// Reads a text into `out`: the number of bytes filled, or the refusal, which leaves `out` alone.
pub fn read(part: Part, text: &[u8], out: &mut [u8]) -> Result<usize, Refusal> {
    let width = width(text);
    let mut filled = Vec::new();
    for (index, line) in text.split_inclusive(|&byte| byte == b'\n').enumerate() {
        if index == most_lines(part) {
            return Err(refuse(2, part));
        }
        match read_line(line, width) {
            Some(record) => filled.extend(record),
            None => return Err(Refusal { number: 1, part, line: index + 1 }),
        }
    }
    if part == Part::Book && filled.is_empty() {
        return Err(refuse(3, part));
    }
    fill(out, &filled)
}

/// Writes records or entries as text into `out`: the number of bytes filled, or the refusal.
pub fn write(part: Part, bytes: &[u8], out: &mut [u8]) -> Result<usize, Refusal> {
    if part == Part::Book && bytes.is_empty() {
        return Err(refuse(3, part));
    }
    if bytes.len() % LENGTH != 0 {
        return Err(refuse(4, part));
    }
    if bytes.len() / LENGTH > most_lines(part) {
        return Err(refuse(2, part));
    }
    fill(out, &text_of(bytes, LENGTH))
}

/// The letters that writing these records takes.
pub fn written_length(records: &[u8]) -> usize {
    records.len() / LENGTH * line_length(LENGTH)
}

/// The text of whole lines of so many bytes each, in capitals.
pub fn text_of(bytes: &[u8], width: usize) -> Vec<u8> {
    let mut text = Vec::with_capacity(bytes.len() / width * line_length(width));
    for line in bytes.chunks(width) {
        for byte in line {
            text.push(capital(byte / 16));
            text.push(capital(byte % 16));
        }
        text.push(b'\n');
    }
    text
}

/// A record or an entry from two digits for each of its first bytes, and LF; what a short line leaves out is zero.
pub fn read_line(line: &[u8], width: usize) -> Option<[u8; LENGTH]> {
    if line.len() != line_length(width) || line.last() != Some(&b'\n') {
        return None;
    }
    let mut record = [0; LENGTH];
    for (place, byte) in record[..width].iter_mut().enumerate() {
        *byte = 16 * digit(line[2 * place])? + digit(line[2 * place + 1])?;
    }
    Some(record)
}

fn digit(letter: u8) -> Option<u8> {
    match letter {
        b'0'..=b'9' => Some(letter - b'0'),
        b'A'..=b'F' => Some(letter - b'A' + 10),
        b'a'..=b'f' => Some(letter - b'a' + 10),
        _ => None,
    }
}

fn capital(digit: u8) -> u8 {
    if digit < 10 {
        b'0' + digit
    } else {
        b'A' + digit - 10
    }
}

/// Puts all of `filled` first in `out`, if there is room.
fn fill(out: &mut [u8], filled: &[u8]) -> Result<usize, Refusal> {
    if out.len() < filled.len() {
        return Err(too_short());
    }
    out[..filled.len()].copy_from_slice(filled);
    Ok(filled.len())
}
