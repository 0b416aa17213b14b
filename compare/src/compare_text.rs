//! The comparison of reading and writing.

use crate::books;
use crate::judge::{misfit_word, MISFIT, MISFITS};
use crate::lent::Lent;
use crate::random::Random;
use crate::record::{LENGTH, SHORT};
use crate::refusal::{Part, Refusal};
use crate::run::{hex, Difference};
use crate::subject::Texts;
use crate::tally::{numbers, pairs, words, Tally, Wanted};
use crate::text;
use crate::widths::{self, wanted_widths, WIDTHS};

const ROOMS: [&str; 5] = ["exact", "longer", "one short", "short", "none"];
const DAMAGES: [&str; 15] = [
    "no damage",
    "wrong digit",
    "LF replaced",
    "CR LF",
    "last LF missing",
    "last LF doubled",
    "LF missing",
    "LF doubled",
    "digit missing",
    "digit doubled",
    "cut anywhere",
    "a line of the other width",
    "the rest of the other width",
    "LF after 32 digits",
    "a byte after the end",
];
const MODULO: &str = "length of records modulo 20";

pub fn wanted() -> Wanted {
    let mut wanted = wanted_widths();
    wanted.extend([
        ("read-book", words(&["accepted"])),
        ("read-book", numbers([1, 2, 3, 7])),
        ("read-request", words(&["accepted"])),
        ("read-request", numbers([1, 2, 7])),
        ("write-book", words(&["accepted"])),
        ("write-book", numbers([2, 3, 4, 7])),
        ("write-request", words(&["accepted"])),
        ("write-request", numbers([2, 4, 7])),
        ("damage of a text", words(&DAMAGES)),
        (MODULO, numbers(0..LENGTH as u64)),
        (MISFIT, pairs(&["write-book", "write-request"], &MISFITS)),
        ("room", words(&ROOMS)),
    ]);
    for width in WIDTHS {
        wanted.push((lines_group(Part::Book, width), numbers([0, 1, 2, 998, 999, 1000, 1001, 1002])));
        wanted.push((lines_group(Part::Request, width), numbers([0, 1, 2, 62, 63, 64, 65, 66])));
        wanted.push((wrong_digit_group(width), numbers(0..2 * width as u64)));
    }
    wanted
}

fn lines_group(part: Part, width: usize) -> &'static str {
    match (part, width) {
        (Part::Book, SHORT) => "lines of a book's text of 32 digits",
        (Part::Book, _) => "lines of a book's text of 40 digits",
        (_, SHORT) => "lines of a request's text of 32 digits",
        _ => "lines of a request's text of 40 digits",
    }
}

fn wrong_digit_group(width: usize) -> &'static str {
    if width == SHORT {
        "wrong digit of 32 at"
    } else {
        "wrong digit of 40 at"
    }
}

/// Reads or writes one generated text or list of records, or reads the texts of a book and of a request.
pub fn case(library: &dyn Texts, random: &mut Random, tally: &mut Tally) -> Result<(), Difference> {
    let part = random.pick(&[Part::Book, Part::Request]);
    match random.below(20) {
        0..=7 => write(library, random, part, tally),
        8 => read_both(library, random, tally),
        _ => read(library, random, part, tally),
    }
}

fn write(library: &dyn Texts, random: &mut Random, part: Part, tally: &mut Tally) -> Result<(), Difference> {
    let lines = lines(random, part);
    let whole = some_lines(random, lines, LENGTH);
    let input = damaged_length(random, whole);
    tally.met(MODULO, (input.len() % LENGTH) as u64);
    let out = room_to_write(random, &input, tally);
    Call { writing: true, part, input, out }.check(library, tally)
}

fn read(library: &dyn Texts, random: &mut Random, part: Part, tally: &mut Tally) -> Result<(), Difference> {
    let width = random.pick(&WIDTHS);
    let (input, lines) = if random.chance(4) {
        (widths::past_limit(random, part, width), text::most_lines(part) + 1)
    } else {
        let lines = lines(random, part);
        if [0, 1, 2, 62, 63, 64, 65, 66].contains(&lines) || lines >= 998 {
            tally.met(lines_group(part, width), lines as u64);
        }
        let whole = some_lines(random, lines, width);
        (damaged_text(random, &whole, width, tally), lines)
    };
    let out = room(random, lines * LENGTH, tally);
    let call = Call { writing: false, part, input, out };
    call.check(library, tally)?;
    write_again(library, random, part, &call.input, tally)
}

/// Writes what a text was read as, where it was accepted.
fn write_again(
    library: &dyn Texts,
    random: &mut Random,
    part: Part,
    text: &[u8],
    tally: &mut Tally,
) -> Result<(), Difference> {
    let mut input = vec![0; LENGTH * text::most_lines(part)];
    let filled = text::read(part, text, &mut input).unwrap_or(0);
    input.truncate(filled);
    if filled == 0 {
        return Ok(());
    }
    let out = room_to_write(random, &input, tally);
    if out.len() >= text::written_length(&input) {
        widths::count_again(part, text, tally);
    }
    Call { writing: true, part, input, out }.check(library, tally)
}

/// Reads a book and a request, each of its own width.
fn read_both(library: &dyn Texts, random: &mut Random, tally: &mut Tally) -> Result<(), Difference> {
    let [of_book, of_request] = [(), ()].map(|_| random.pick(&WIDTHS));
    for (part, width) in [(Part::Book, of_book), (Part::Request, of_request)] {
        let lines = random.between(1, 12);
        let input = text::text_of(&random.bytes(lines * width), width);
        let out = random.bytes(lines * LENGTH);
        Call { writing: false, part, input, out }.check(library, tally)?;
    }
    widths::count_together(of_book, of_request, tally);
    Ok(())
}

fn lines(random: &mut Random, part: Part) -> usize {
    let small = random.below(12);
    let near_64 = random.between(62, 66);
    let near_1000 = random.between(998, 1002);
    match (random.below(100), part) {
        (0..=3, _) => near_1000,
        (4..=23, Part::Request) => near_64,
        (4..=8, _) => near_64,
        (9..=10, _) => random.between(0, 120),
        _ => small,
    }
}

/// So many lines of so many bytes each: any, or those of a sound book.
fn some_lines(random: &mut Random, lines: usize, width: usize) -> Vec<u8> {
    if random.chance(90) || lines == 0 {
        return random.bytes(lines * width);
    }
    let records = books::book_of(random, lines);
    records.iter().take(lines).flat_map(|record| &record.0[..width]).copied().collect()
}

fn room_to_write(random: &mut Random, records: &[u8], tally: &mut Tally) -> Vec<u8> {
    room(random, text::written_length(records), tally)
}

/// An output of some length with some content.
fn room(random: &mut Random, needed: usize, tally: &mut Tally) -> Vec<u8> {
    let how = random.pick(&[0, 0, 0, 1, 1, 2, 3, 4]);
    tally.met("room", ROOMS[how]);
    let length = match how {
        0 => needed,
        1 => needed + random.between(1, 40),
        2 => needed.saturating_sub(1),
        3 => random.below(needed + 1),
        _ => 0,
    };
    random.bytes(length)
}

/// The text of these lines in letters of either case, damaged more often than not.
fn damaged_text(random: &mut Random, lines: &[u8], width: usize, tally: &mut Tally) -> Vec<u8> {
    let mut text = text::text_of(lines, width);
    let lower = random.pick(&[0, 0, 50, 100]);
    for letter in &mut text {
        if random.chance(lower) {
            letter.make_ascii_lowercase();
        }
    }
    let some = random.between(1, DAMAGES.len() - 1);
    let mut how = random.pick(&[0, 0, 0, 1, some, some, some, some, some]);
    if text.is_empty() && how != 0 {
        how = DAMAGES.len() - 1;
    }
    damage_text(random, &mut text, width, DAMAGES[how], tally);
    if random.chance(8) && text.len() > text::line_length(width) {
        let again = random.between(1, DAMAGES.len() - 1);
        damage_text(random, &mut text, width, DAMAGES[again], tally);
    }
    text
}

/// Damages a text that is not empty in one of the ways.
pub fn damage_text(random: &mut Random, text: &mut Vec<u8>, width: usize, how: &'static str, tally: &mut Tally) {
    tally.met("damage of a text", how);
    let (line, digits) = (text::line_length(width), 2 * width);
    let lines = text.len() / line;
    let any = random.below(lines.max(1));
    let at = random.pick(&[0, any, lines.saturating_sub(1)]);
    let (start, end) = (line * at, line * at + digits);
    let digit = start + random.below(digits);
    match how {
        "wrong digit" => {
            tally.met(wrong_digit_group(width), (digit - start) as u64);
            text[digit] = wrong_digit(random);
        }
        "LF replaced" => text[end] = random.pick(b"\r 0F\0\t"),
        "CR LF" => text.insert(end, b'\r'),
        "last LF missing" => drop(text.pop()),
        "last LF doubled" => text.push(b'\n'),
        "LF missing" => drop(text.remove(end)),
        "LF doubled" => text.insert(random.pick(&[start, end]), b'\n'),
        "digit missing" => drop(text.remove(digit)),
        "digit doubled" => text.insert(digit, text[digit]),
        "cut anywhere" => text.truncate(random.below(text.len())),
        "a line of the other width" => widths::turn(random, text, width, at),
        "the rest of the other width" => (at..lines).rev().for_each(|line| widths::turn(random, text, width, line)),
        "LF after 32 digits" => text[2 * SHORT] = b'\n',
        "a byte after the end" => text.push(random.pick(b"\n0A \0\r\x1A")),
        _ => {}
    }
}

/// A byte that is no hexadecimal digit, often one beside the digits.
fn wrong_digit(random: &mut Random) -> u8 {
    if random.chance(60) {
        return random.pick(b"/:@G`g \0\n\rxXOl\xB0\xC1");
    }
    loop {
        let byte = random.byte();
        if !byte.is_ascii_hexdigit() {
            return byte;
        }
    }
}

fn damaged_length(random: &mut Random, mut records: Vec<u8>) -> Vec<u8> {
    let change = random.between(1, LENGTH);
    match random.below(100) {
        0..=14 => records.extend(random.bytes(change)),
        15..=29 => records.truncate(records.len().saturating_sub(change)),
        30..=39 => records.truncate(records.len() / LENGTH * SHORT),
        _ => {}
    }
    records
}

/// One call: its input, and its output as it is before.
pub struct Call {
    pub writing: bool,
    pub part: Part,
    pub input: Vec<u8>,
    pub out: Vec<u8>,
}

impl Call {
    fn name(&self) -> &'static str {
        match (self.writing, self.part) {
            (false, Part::Book) => "read-book",
            (false, _) => "read-request",
            (true, Part::Book) => "write-book",
            (true, _) => "write-request",
        }
    }

    fn count(&self, expected: Result<usize, Refusal>, tally: &mut Tally) {
        match expected {
            Ok(_) => tally.met(self.name(), "accepted"),
            Err(refusal) => tally.met(self.name(), refusal.number),
        }
        if !self.writing {
            widths::count(self.part, &self.input, expected, tally);
        } else if self.input.len() % LENGTH != 0 {
            tally.met(MISFIT, (self.name(), misfit_word(&self.input)));
        }
    }

    /// Calls both sides and compares the answers and the whole buffers.
    pub fn check(&self, library: &dyn Texts, tally: &mut Tally) -> Result<(), Difference> {
        let mut expected_out = self.out.clone();
        let model = if self.writing { text::write } else { text::read };
        let expected = model(self.part, &self.input, &mut expected_out);
        self.count(expected, tally);
        let expected = expected.map_or_else(|refusal| refusal.packed(), |filled| 256 * filled as u64);
        let lent_input = Lent::new(&self.input);
        let mut lent_out = Lent::new(&self.out);
        let got = if self.writing {
            library.write(self.part, lent_input.part(), lent_out.part_mut())
        } else {
            library.read(self.part, lent_input.part(), lent_out.part_mut())
        };
        if got == expected && lent_out.holds(&expected_out) && lent_input.holds(&self.input) {
            return Ok(());
        }
        Err(format!(
            "compare once {} {} {}\n output before {}\n expected {expected:#x} {}\n got {got:#x} {}",
            self.name(),
            hex(&self.input),
            self.out.len(),
            hex(&self.out),
            hex(&expected_out),
            hex(lent_out.part()),
        ))
    }
}

/// Document 01's `Run:` line, 1,000 lines accepted, 1,001 gives 2, at both widths.
pub fn check_paper(library: &dyn Texts) -> Result<(), Difference> {
    let mut random = Random::of_case(1, 1);
    for (lines, answer) in [(1000, 256 * 20_000), (1001, 255 + 256 * 2 + (1 << 32))] {
        for width in WIDTHS {
            let text = text::text_of(&random.bytes(lines * width), width);
            let got = library.read(Part::Book, &text, &mut vec![0; LENGTH * lines]);
            if got != answer {
                return Err(format!(" {lines} lines of {width} bytes: expected {answer:#x}, got {got:#x}"));
            }
        }
    }
    Ok(())
}
