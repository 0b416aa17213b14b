//! The texts of half-copied books (document 02, 6): lines of a wrong length, lines past the limit, and the counts of
//! how such texts are read.

use crate::compare_text::damage_text;
use crate::copied::Copied;
use crate::random::Random;
use crate::record::{MOST_RECORDS, SHORT};
use crate::refusal::Refusal;
use crate::salvage::{survey, Mended};
use crate::salvaging::ANSWERS;
use crate::tally::{numbers, pairs, triples, words, Tally, Wanted};
use crate::text::{line_length, read_line, width};
use crate::widths::{width_name, NAMES, WIDTHS};

const LENGTH_SPOILT: &str = "wrong length that 1 refuses";
const BEFORE_13: &str = "1 in a text that 13 would refuse";
const LINE_1_ENDED: &str = "LF inside line 1 that 1 refuses";
const LIMIT: &str = "text at the limit";
const PIECE: &str = "piece as long as a line";
const LETTERS: &str = "letters of a text that is mended";

const INSIDE: &str = "LF inside a line";
/// How a line gets a wrong length; the last three are of the last line alone.
const LENGTHS: [&str; 11] = [
    INSIDE,
    "LF replaced",
    "CR LF",
    "LF missing",
    "LF doubled",
    "digit missing",
    "digit doubled",
    "a line of the other width",
    "last LF missing",
    "last LF doubled",
    "a byte after the end",
];
const BESIDE: [&str; 3] = ["no wrong digit", "after a wrong digit", "before a wrong digit"];
const LINES: [&str; 2] = ["at an earlier line", "at a later line"];
const ENDED: [&str; 2] = ["after 32 letters", "elsewhere"];
const LIMITS: [&str; 6] = [
    "1,000 lines, nothing replaced",
    "1,000 lines, some replaced",
    "1,001 lines",
    "1,001 lines, with a spoilt child",
    "1,001 lines, that 13 would refuse",
    "1,001 lines, that 1 refuses",
];
const PIECES: [&str; 6] = [
    "good",
    "with a wrong digit",
    "with an LF inside",
    "without an LF",
    "cut off, of digits",
    "cut off, of others too",
];
const CASES: [&str; 3] = ["capitals", "small letters", "both"];

/// Everything that a run must meet in texts.
pub fn wanted_texts() -> Wanted {
    let mut wanted = vec![
        (LENGTH_SPOILT, triples(&NAMES, &LENGTHS, &BESIDE[..2])),
        (LENGTH_SPOILT, triples(&NAMES, &LENGTHS[..8], &BESIDE[2..])),
        (BEFORE_13, pairs(&NAMES, &LINES)),
        (LINE_1_ENDED, pairs(&NAMES[1..], &ENDED)),
        (LINE_1_ENDED, pairs(&NAMES[..1], &ENDED[1..])),
        (LIMIT, pairs(&NAMES, &LIMITS)),
        (PIECE, pairs(&NAMES, &PIECES)),
        (LETTERS, pairs(&NAMES, &CASES)),
    ];
    for width in WIDTHS {
        wanted.push((answer_group(width), words(&ANSWERS)));
        wanted.push((answer_group(width), numbers([1, 2, 3, 13])));
    }
    wanted
}

fn answer_group(width: usize) -> &'static str {
    if width == SHORT {
        "salvaged text of 32 digits"
    } else {
        "salvaged text of 40 digits"
    }
}

/// Gives a line of a text a wrong length: how, where there is a line.
pub fn spoil_length(random: &mut Random, text: &mut Vec<u8>, width: usize) -> Option<&'static str> {
    let lines = text.len() / line_length(width);
    if lines == 0 {
        return None;
    }
    let how = random.pick(&LENGTHS);
    if how == INSIDE {
        let any = random.below(lines);
        let line = random.pick(&[0, 0, any, lines - 1]);
        let digit = random.below(2 * width);
        let digit = random.pick(&[digit, 2 * SHORT - 1, 2 * SHORT, 2 * SHORT]).min(2 * width - 1);
        text[line_length(width) * line + digit] = b'\n';
    } else {
        damage_text(random, text, width, how, &mut Tally::default());
    }
    Some(how)
}

/// A half-copied book with its text.
pub struct Stick<'a> {
    pub copied: &'a Copied,
    pub text: &'a [u8],
    /// The width of the lines before a length was spoilt, and how one was.
    pub width: usize,
    pub spoilt: Option<&'static str>,
}

impl Stick<'_> {
    /// Counts how the text is salvaged.
    pub fn count(&self, salvaged: &Result<Mended, Refusal>, tally: &mut Tally) {
        count_pieces(self.text, tally);
        match salvaged {
            Ok(mended) => {
                tally.met(answer_group(self.width), ANSWERS[mended.replaced.len().min(2)]);
                count_letters(self.text, self.width, tally);
            }
            Err(refusal) => tally.met(answer_group(self.width), refusal.number),
        }
        if let (Some(how), Err(Refusal { number: 1, line, .. })) = (self.spoilt, salvaged) {
            self.count_length(how, line - 1, tally);
        }
        if let Some(limit) = self.limit(salvaged) {
            tally.met(LIMIT, (width_name(self.width), LIMITS[limit]));
        }
    }

    /// Counts a wrong length at this line.
    fn count_length(&self, how: &'static str, line: usize, tally: &mut Tally) {
        let wrong = &self.copied.wrong;
        let beside = match wrong.iter().any(|wrong| wrong.line < line) {
            true => 1,
            false if wrong.iter().any(|wrong| wrong.line > line) => 2,
            false => 0,
        };
        let name = width_name(self.width);
        tally.met(LENGTH_SPOILT, (name, how, BESIDE[beside]));
        match survey(&self.copied.seen()).refused().first() {
            Some(&at) if at != line => tally.met(BEFORE_13, (name, LINES[usize::from(at > line)])),
            _ => {}
        }
        let is_ended = width(self.text) != self.width;
        match how {
            INSIDE if is_ended => tally.met(LINE_1_ENDED, (name, ENDED[0])),
            INSIDE if line == 0 => tally.met(LINE_1_ENDED, (name, ENDED[1])),
            _ => {}
        }
    }

    /// How a text of 1,000 lines or more is salvaged.
    fn limit(&self, salvaged: &Result<Mended, Refusal>) -> Option<usize> {
        let lines = self.copied.records.len();
        match salvaged.as_ref().map_err(|refusal| refusal.number) {
            Ok(mended) if lines == MOST_RECORDS => Some(usize::from(!mended.replaced.is_empty())),
            Err(1) if lines > MOST_RECORDS => Some(5),
            Err(2) => match survey(&self.copied.seen()) {
                survey if !survey.refused().is_empty() => Some(4),
                survey if !survey.spoilt().is_empty() => Some(3),
                _ => Some(2),
            },
            _ => None,
        }
    }
}

/// Counts each sort of piece that a text has once.
fn count_pieces(text: &[u8], tally: &mut Tally) {
    let width = width(text);
    let mut sorts: Vec<&str> = text.chunks(line_length(width)).map(|piece| sort_of_piece(piece, width)).collect();
    sorts.sort_unstable();
    sorts.dedup();
    sorts.into_iter().for_each(|sort| tally.met(PIECE, (width_name(width), sort)));
}

fn sort_of_piece(piece: &[u8], width: usize) -> &'static str {
    let first_end = piece.iter().position(|&letter| letter == b'\n');
    match first_end {
        _ if read_line(piece, width).is_some() => PIECES[0],
        _ if piece.len() < line_length(width) && piece.iter().all(u8::is_ascii_hexdigit) => PIECES[4],
        _ if piece.len() < line_length(width) => PIECES[5],
        Some(end) if end + 1 == piece.len() => PIECES[1],
        Some(_) => PIECES[2],
        None => PIECES[3],
    }
}

/// Counts in which letters the good lines of a text stand.
fn count_letters(text: &[u8], width: usize, tally: &mut Tally) {
    let lines = text.chunks(line_length(width)).filter(|line| read_line(line, width).is_some());
    let letters: Vec<u8> = lines.flatten().copied().filter(u8::is_ascii_alphabetic).collect();
    let case = match (letters.iter().any(u8::is_ascii_uppercase), letters.iter().any(u8::is_ascii_lowercase)) {
        (true, false) => 0,
        (false, true) => 1,
        (true, true) => 2,
        (false, false) => return,
    };
    tally.met(LETTERS, (width_name(width), CASES[case]));
}
