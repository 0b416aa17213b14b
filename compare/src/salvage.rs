//! Salvaging a half-copied book, as document 02, 6 says it: which lines are bad, told line by line, and what becomes
//! of them.

use crate::judge::{field_faults, line_1_faults, Fault, Place};
use crate::record::*;
use crate::refusal::{refuse, too_short, Part, Refusal};
use crate::text::{line_length, read_line, width};

/// What a line with a wrong digit counts as: it is of no kind and covers no other.
pub const SPOILT: Record = Record([0; LENGTH]);

// The text

/// The records of a text in which digits may be wrong: on each line 2, then 1 for a wrong length; then 3.
pub fn records_of(text: &[u8]) -> Result<Vec<Record>, Refusal> {
    let width = width(text);
    let mut records = Vec::new();
    for (index, line) in text.split_inclusive(|&byte| byte == b'\n').enumerate() {
        if index == MOST_RECORDS {
            return Err(refuse(2, Part::Book));
        }
        if line.len() != line_length(width) || line.last() != Some(&b'\n') {
            return Err(Refusal { number: 1, part: Part::Book, line: index + 1 });
        }
        records.push(read_line(line, width).map_or(SPOILT, Record));
    }
    if records.is_empty() {
        return Err(refuse(3, Part::Book));
    }
    Ok(records)
}

/// Turns every letter but LF of what is no good line into the digit 0, in pieces as long as a line.
pub fn zero_wrong(text: &mut [u8]) {
    let width = width(text);
    for piece in text.chunks_mut(line_length(width)) {
        if read_line(piece, width).is_none() {
            piece.iter_mut().filter(|byte| **byte != b'\n').for_each(|byte| *byte = b'0');
        }
    }
}

// The lines

/// What is known of each line of a book, all lines counting from 0.
pub struct Survey<'a> {
    pub records: &'a [Record],
    /// The innermost earlier line that covers a line; line 1 is its own.
    pub parents: Vec<usize>,
    /// The child of line 1 that a line is or stands inside; line 1 is its own.
    pub children: Vec<usize>,
    /// The line after the last that a line covers.
    pub ends: Vec<usize>,
    pub depths: Vec<usize>,
    /// The rules that a line breaks; with 13, that line 1 is no set. Where line 1 breaks one, no other line is judged.
    pub faults: Vec<Vec<Fault>>,
}

/// The end of a record inside a child of line 1, by its own end and the child's.
pub type EndInside = fn(usize, usize) -> usize;

pub fn survey(records: &[Record]) -> Survey<'_> {
    survey_by(usize::min, records)
}

/// The same with another end of what stands inside.
pub fn survey_by(end_inside: EndInside, records: &[Record]) -> Survey<'_> {
    let count = records.len();
    let mut survey = Survey {
        records,
        parents: vec![0],
        children: vec![0],
        ends: vec![count],
        depths: vec![1],
        faults: vec![faults_of_line_1(records)],
    };
    for at in 1..count {
        survey.place(end_inside, at);
    }
    for at in 1..count {
        let faults = if survey.is_bad(0) { Vec::new() } else { survey.faults_of(at) };
        survey.faults.push(faults);
    }
    survey
}

/// Line 1 is a sound set whose span is the count.
fn faults_of_line_1(records: &[Record]) -> Vec<Fault> {
    let mut faults = by_five(&records[0]);
    faults.extend(line_1_faults(records));
    if records[0].kind() == POLICY {
        faults.push((13, ("13: line 1 is a", records[0].name().into())));
    }
    faults
}

fn by_five(record: &Record) -> Vec<Fault> {
    field_faults(record).into_iter().map(|cause| (5, cause)).collect()
}

impl Survey<'_> {
    /// Finds what a line stands below, and how far it covers others.
    fn place(&mut self, end_inside: EndInside, at: usize) {
        let parent = (0..at).rev().find(|&earlier| self.ends[earlier] > at).expect("line 1 covers every line");
        let own_end = at + self.records[at].span();
        let (child, end) = match parent {
            0 => (at, own_end),
            _ => (self.children[parent], end_inside(own_end, self.ends[self.children[parent]])),
        };
        self.parents.push(parent);
        self.children.push(child);
        self.ends.push(end);
        self.depths.push(self.depths[parent] + 1);
    }

    fn faults_of(&self, at: usize) -> Vec<Fault> {
        let (records, parents, ends) = (self.records, &self.parents, &self.ends);
        let place = Place { records, parents, ends, at, depth: self.depths[at] };
        let mut faults = by_five(&records[at]);
        faults.extend(place.faults());
        faults
    }

    pub fn is_bad(&self, at: usize) -> bool {
        !self.faults[at].is_empty()
    }

    /// Whether a line stands directly below line 1.
    pub fn is_child(&self, at: usize) -> bool {
        at > 0 && self.children[at] == at
    }

    /// A policy or set directly below a sound line 1 with a sound head line.
    pub fn is_replaceable(&self, at: usize) -> bool {
        let is_sound = !self.is_bad(0) && !self.is_bad(at);
        is_sound && self.is_child(at) && [SET, POLICY].contains(&self.records[at].kind())
    }

    /// The bad lines that no replacement takes away.
    pub fn refused(&self) -> Vec<usize> {
        let may_go = |at: usize| self.children[at] != at && self.is_replaceable(self.children[at]);
        (0..self.records.len()).filter(|&at| self.is_bad(at) && !may_go(at)).collect()
    }

    /// The first bad line inside the child at `head`.
    pub fn bad_inside(&self, head: usize) -> Option<usize> {
        (head + 1..self.ends[head]).find(|&at| self.is_bad(at))
    }

    /// The children that are to be replaced, in order.
    pub fn spoilt(&self) -> Vec<Replaced> {
        let heads = (1..self.records.len()).filter(|&at| self.is_replaceable(at));
        let spoilt = heads.filter(|&head| self.bad_inside(head).is_some());
        spoilt.map(|head| Replaced { line: head + 1, count: self.ends[head] - head }).collect()
    }

    /// The mended book; or 13 for the first bad line outside what can be replaced.
    pub fn mended(&self) -> Result<Mended, Refusal> {
        if let Some(at) = self.refused().first() {
            return Err(Refusal { number: 13, part: Part::Book, line: at + 1 });
        }
        Ok(mend(self.records, self.spoilt()))
    }
}

// The mended book

/// A replaced child: its first line in the old book, from 1, and the lines that it had.
#[derive(Clone, Copy, PartialEq, Eq, Debug)]
pub struct Replaced {
    pub line: usize,
    pub count: usize,
}

impl Replaced {
    fn bytes(&self) -> [u8; 4] {
        let (line, count) = ((self.line as u16).to_be_bytes(), (self.count as u16).to_be_bytes());
        [line[0], line[1], count[0], count[1]]
    }

    /// Where its lines stood, from 0.
    pub fn lines(&self) -> std::ops::Range<usize> {
        self.line - 1..self.line - 1 + self.count
    }
}

#[derive(Clone, PartialEq, Eq, Debug)]
pub struct Mended {
    pub records: Vec<Record>,
    pub replaced: Vec<Replaced>,
}

impl Mended {
    /// What the call answers.
    pub fn packed(&self) -> u64 {
        256 * self.records.len() as u64 + 16_777_216 * self.replaced.len() as u64
    }

    /// Puts the records and the replacements first in the outputs.
    pub fn fill(&self, mended: &mut [u8], replaced: &mut [u8]) {
        let records = book_bytes(&self.records);
        let list: Vec<u8> = self.replaced.iter().flat_map(Replaced::bytes).collect();
        mended[..records.len()].copy_from_slice(&records);
        replaced[..list.len()].copy_from_slice(&list);
    }
}

/// The first bytes of the two records that stand for a replaced child: a deny-overrides policy and its Deny rule.
const DENYING: [[u8; 4]; 2] = [[POLICY, 1, 0, 2], [RULE, 2, 0, 1]];

/// The book with these children replaced and line 1's span corrected.
pub fn mend(records: &[Record], replaced: Vec<Replaced>) -> Mended {
    let mut mended = Vec::new();
    for (at, &record) in records.iter().enumerate() {
        match replaced.iter().find(|child| child.lines().contains(&at)) {
            Some(child) if child.line == at + 1 => mended.extend(denying()),
            Some(_) => {}
            None => mended.push(record),
        }
    }
    let count = mended.len();
    mended[0].set_span(count);
    Mended { records: mended, replaced }
}

pub fn denying() -> [Record; 2] {
    DENYING.map(|first| {
        let mut record = Record([0; LENGTH]);
        record.0[..4].copy_from_slice(&first);
        record
    })
}

/// The record bytes that salvaging takes: 3, 4, then 2.
pub fn whole_records(book: &[u8]) -> Result<Vec<Record>, Refusal> {
    let number = match book.len() {
        0 => 3,
        length if length % LENGTH != 0 => 4,
        length if length > LENGTH * MOST_RECORDS => 2,
        _ => return Ok(records(book)),
    };
    Err(refuse(number, Part::Book))
}

/// The bytes that the two outputs must have at least: those of the old book, and two for each of its records.
pub fn needed(book: &[u8]) -> [usize; 2] {
    [book.len(), book.len() / LENGTH * 2]
}

/// Salvages record bytes into both outputs; a refusal leaves them alone.
pub fn call(book: &[u8], mended: &mut [u8], replaced: &mut [u8]) -> Result<Mended, Refusal> {
    let result = survey(&whole_records(book)?).mended()?;
    let [for_mended, for_replaced] = needed(book);
    if mended.len() < for_mended || replaced.len() < for_replaced {
        return Err(too_short());
    }
    result.fill(mended, replaced);
    Ok(result)
}
