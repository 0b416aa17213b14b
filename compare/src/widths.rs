//! Texts of 32 and of 40 digits a line (document 02, 5): lines that are unlike line 1, lines past the limit, and the
//! counts of how such texts are read.

use crate::random::Random;
use crate::record::{LENGTH, SHORT};
use crate::refusal::{Part, Refusal};
use crate::tally::{numbers, pairs, triples, words, Tally, Wanted};
use crate::text::{line_length, most_lines, read_line, text_of, width};

pub const WIDTHS: [usize; 2] = [SHORT, LENGTH];
pub const NAMES: [&str; 2] = ["32 digits", "40 digits"];
const PARTS: [&str; 2] = ["book", "request"];

const ACCEPTED: &str = "text accepted";
const AGAIN: &str = "text written again";
const TOGETHER: &str = "book and request";
const UNLIKE: &str = "line unlike line 1";
const UNLIKE_AT: &str = "line unlike line 1, of the first eight";
const LINE_1: &str = "letters of a line 1 that 1 refuses";
const ENDED: &str = "line 1 of 40 digits that ends after 32";
const PAST: &str = "line past the limit";
const NO_ROOM: &str = "text that the output has no room for";

const AFTER: [&str; 2] = ["short after long", "long after short"];
const PLACES: [&str; 3] = ["at line 2", "in the middle", "at the last line"];
const FIRST: [&str; 7] = ["line 2", "line 3", "line 4", "line 5", "line 6", "line 7", "line 8"];
const PAST_WITH: [&str; 3] = ["one byte", "a line", "a line of the other width"];

/// Everything that a run of reading must meet of widths.
pub fn wanted_widths() -> Wanted {
    vec![
        (ACCEPTED, pairs(&PARTS, &NAMES)),
        (AGAIN, pairs(&PARTS, &NAMES)),
        (TOGETHER, pairs(&NAMES, &NAMES)),
        (UNLIKE, triples(&PARTS, &AFTER, &PLACES)),
        (UNLIKE_AT, triples(&PARTS, &AFTER, &FIRST)),
        (LINE_1, numbers([0, 31, 32, 33, 39, 40, 41])),
        (ENDED, words(&PARTS)),
        (PAST, triples(&PARTS, &NAMES, &PAST_WITH)),
        (NO_ROOM, pairs(&PARTS, &NAMES)),
    ]
}

fn part_name(part: Part) -> &'static str {
    PARTS[usize::from(part != Part::Book)]
}

pub fn width_name(width: usize) -> &'static str {
    NAMES[usize::from(width != SHORT)]
}

fn other(width: usize) -> usize {
    SHORT + LENGTH - width
}

/// Counts how a text was read.
pub fn count(part: Part, text: &[u8], read: Result<usize, Refusal>, tally: &mut Tally) {
    let (of, width) = (part_name(part), width(text));
    match read.map_err(|refusal| (refusal.number, refusal.line)) {
        Ok(0) => {}
        Ok(_) => tally.met(ACCEPTED, (of, width_name(width))),
        Err((1, line)) => count_unlike(of, text, line, tally),
        Err((2, _)) => {
            let past = &text[most_lines(part) * line_length(width)..];
            if let Some(with) = past_with(past, width) {
                tally.met(PAST, (of, width_name(width), with));
            }
        }
        Err((7, _)) => tally.met(NO_ROOM, (of, width_name(width))),
        Err(_) => {}
    }
}

/// Counts the refused line where it is line 1, would be right in a text of the other width, or is what line 1 leaves.
fn count_unlike(of: &'static str, text: &[u8], line: usize, tally: &mut Tally) {
    let lines: Vec<&[u8]> = text.split_inclusive(|&byte| byte == b'\n').collect();
    let (refused, width) = (lines[line - 1], width(text));
    let letters = refused.strip_suffix(b"\n").unwrap_or(refused).len();
    if line == 1 && letters <= line_length(LENGTH) {
        tally.met(LINE_1, letters as u64);
    }
    if line > 1 && read_line(refused, other(width)).is_some() {
        let after = AFTER[usize::from(width == SHORT)];
        let place = if line == lines.len() { 2 } else { usize::from(line > 2) };
        tally.met(UNLIKE, (of, after, PLACES[place]));
        if let Some(&at) = FIRST.get(line - 2) {
            tally.met(UNLIKE_AT, (of, after, at));
        }
    }
    if line == 2 && lines[0].len() + refused.len() == line_length(LENGTH) {
        tally.met(ENDED, of);
    }
}

/// What stands past the limit of a text of this width.
fn past_with(past: &[u8], width: usize) -> Option<&'static str> {
    match past {
        [_] => Some(PAST_WITH[0]),
        _ if read_line(past, width).is_some() => Some(PAST_WITH[1]),
        _ if read_line(past, other(width)).is_some() => Some(PAST_WITH[2]),
        _ => None,
    }
}

pub fn count_again(part: Part, text: &[u8], tally: &mut Tally) {
    tally.met(AGAIN, (part_name(part), width_name(width(text))));
}

pub fn count_together(of_book: usize, of_request: usize, tally: &mut Tally) {
    tally.met(TOGETHER, (width_name(of_book), width_name(of_request)));
}

/// Gives a line of a text the other width: eight digits more, or its last eight less.
pub fn turn(random: &mut Random, text: &mut Vec<u8>, width: usize, line: usize) {
    let end = line_length(width) * (line + 1) - 1;
    let digits = 2 * (LENGTH - SHORT);
    if width == SHORT {
        let more: Vec<u8> = (0..digits).map(|_| random.pick(b"0123456789ABCDEFabcdef")).collect();
        text.splice(end..end, more);
    } else {
        text.drain(end - digits..end);
    }
}

/// As many lines as there may be, and something past them.
pub fn past_limit(random: &mut Random, part: Part, width: usize) -> Vec<u8> {
    let past = random.pick(&[width, other(width)]);
    let lines = random.bytes(most_lines(part) * width);
    let mut text = text_of(&lines, width);
    if random.chance(40) {
        text.push(random.pick(b"\n0A \0"));
    } else {
        text.extend(text_of(&random.bytes(past), past));
    }
    text
}
