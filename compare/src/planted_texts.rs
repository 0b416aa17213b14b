//! Texts read and written with the errors that tempt, for the stand-ins of the tests.

use crate::record::{ISSUER_AT, LENGTH, SHORT};
use crate::refusal::Part;
use crate::text::{line_length, most_lines, read_line, text_of, width};

/// The text with its short lines lengthened, whatever line 1 is.
pub fn each_by_itself(text: &[u8]) -> Vec<u8> {
    let mut lengthened = Vec::new();
    for line in text.split_inclusive(|&byte| byte == b'\n') {
        match read_line(line, SHORT) {
            Some(record) => lengthened.extend(text_of(&record, LENGTH)),
            None => lengthened.extend(line),
        }
    }
    lengthened
}

/// Whether a text has too many lines, but no more bytes than 40 digits a line would have.
pub fn within_the_bytes(part: Part, text: &[u8]) -> bool {
    let most = most_lines(part);
    width(text) == SHORT && text.len() > most * line_length(SHORT) && text.len() <= most * line_length(LENGTH)
}

/// Whether an output has room for the bytes of short lines as they stand in the text, but not for records.
pub fn room_for_short_lines(text: &[u8], out: &[u8]) -> bool {
    let lines = text.len() / line_length(SHORT);
    width(text) == SHORT && (lines * SHORT..lines * LENGTH).contains(&out.len())
}

/// Puts back what the bytes from the issuer on held before a short text was read.
pub fn keep_the_rest(text: &[u8], before: &[u8], out: &mut [u8], filled: usize) {
    if width(text) != SHORT {
        return;
    }
    for at in (0..filled).step_by(LENGTH) {
        let rest = at + ISSUER_AT.start..at + LENGTH;
        out[rest.clone()].copy_from_slice(&before[rest]);
    }
}

/// Cuts a written text to 32 digits a line where no line has an issuer: the letters that are left.
pub fn cut_short(out: &mut [u8], written: usize) -> usize {
    let lines = out[..written].chunks(line_length(LENGTH));
    if !lines.clone().all(|line| line.ends_with(b"00000000\n")) {
        return written;
    }
    let short: Vec<u8> = lines.flat_map(|line| [&line[..2 * SHORT], b"\n"].concat()).collect();
    out[..short.len()].copy_from_slice(&short);
    short.len()
}
