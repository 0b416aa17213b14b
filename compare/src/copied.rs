//! Half-copied books (document 02, 6), and the sound ones with a root set that they are copied from.

use crate::books::{comparison_of_values, obligation, record, subtree, with};
use crate::policy::Value;
use crate::random::Random;
use crate::record::*;
use crate::salvage::SPOILT;
use crate::text::{line_length, text_of};
use crate::wished::literal;

/// A book as a memory stick gives it, or a part of one.
pub struct Copied {
    /// The lines, but for their wrong digits.
    pub records: Vec<Record>,
    pub wrong: Vec<Wrong>,
}

/// A byte that is no digit: its line and its place there, both from 0.
#[derive(Clone, Copy)]
pub struct Wrong {
    pub line: usize,
    pub digit: usize,
    pub byte: u8,
}

impl Copied {
    pub fn of(records: Vec<Record>) -> Copied {
        Copied { records, wrong: Vec::new() }
    }

    /// The text, in letters of either case.
    pub fn text(&self, random: &mut Random, width: usize) -> Vec<u8> {
        let lines: Vec<u8> = self.records.iter().flat_map(|record| &record.0[..width]).copied().collect();
        let mut text = text_of(&lines, width);
        let small = random.pick(&[0, 0, 50, 100]);
        for letter in &mut text {
            if random.chance(small) {
                letter.make_ascii_lowercase();
            }
        }
        for wrong in &self.wrong {
            text[line_length(width) * wrong.line + wrong.digit] = wrong.byte;
        }
        text
    }

    /// The records as they count: those with a wrong digit as zeros.
    pub fn seen(&self) -> Vec<Record> {
        let mut records = self.records.clone();
        self.wrong.iter().for_each(|wrong| records[wrong.line] = SPOILT);
        records
    }

    pub fn spoil_digit(&mut self, random: &mut Random, width: usize, line: usize) {
        let digit = random.below(2 * width);
        self.wrong.push(Wrong { line, digit, byte: no_digit(random) });
    }

    /// A line after the first, each kind of record as likely as another.
    pub fn line_inside(&self, random: &mut Random) -> usize {
        let mut names: Vec<&str> = self.records[1..].iter().map(Record::name).collect();
        names.sort_unstable();
        names.dedup();
        let name = random.pick(&names);
        let lines: Vec<usize> = (1..self.records.len()).filter(|&at| self.records[at].name() == name).collect();
        random.pick(&lines)
    }

    /// Gives line 1 the count as its span.
    pub fn close(&mut self) {
        let count = self.records.len();
        self.records[0].set_span(count);
    }
}

/// The bytes beside the digits, and others that a stick may give.
pub const NO_DIGITS: [u8; 12] = *b"/:@G`g \0\r\t\x80\xFF";

/// A byte that is no digit and no LF.
fn no_digit(random: &mut Random) -> u8 {
    let byte = random.byte();
    if random.chance(70) || byte.is_ascii_hexdigit() || byte == b'\n' {
        return random.pick(&NO_DIGITS);
    }
    byte
}

/// What stands below line 1, in the order in which it may stand there.
pub struct Parts {
    pub target: Vec<Copied>,
    pub children: Vec<Copied>,
    pub duties: Vec<Copied>,
}

impl Parts {
    /// These children between a target and obligations that are sound.
    pub fn of(random: &mut Random, children: Vec<Copied>) -> Parts {
        let often = random.pick(&[0, 10, 30]);
        let categories: Vec<u8> = (1..=4).filter(|_| random.chance(often)).collect();
        let target = categories.into_iter().map(|category| Copied::of(subtree(random, SECTION, category))).collect();
        let duties = (0..random.below(3)).map(|_| duty(random)).collect();
        Parts { target, children, duties }
    }

    /// The set of these parts.
    pub fn join(self, random: &mut Random) -> Copied {
        let mut whole = Copied::of(vec![record(SET, random.between(1, 4) as u8)]);
        for part in self.target.into_iter().chain(self.children).chain(self.duties) {
            let before = whole.records.len();
            whole.records.extend(part.records);
            whole.wrong.extend(part.wrong.into_iter().map(|wrong| Wrong { line: before + wrong.line, ..wrong }));
        }
        whole.close();
        whole
    }

    /// Any of these lists.
    pub fn list(&mut self, random: &mut Random) -> &mut Vec<Copied> {
        match random.below(3) {
            0 => &mut self.target,
            1 => &mut self.children,
            _ => &mut self.duties,
        }
    }
}

pub fn duty(random: &mut Random) -> Copied {
    Copied::of(vec![obligation(random.between(1, 2) as u8, random.next() as u16)])
}

/// A sound book.
pub fn sound(random: &mut Random) -> Copied {
    let children = (0..random.below(5)).map(|_| any_child(random)).collect();
    Parts::of(random, children).join(random)
}

/// A sound policy or set.
fn any_child(random: &mut Random) -> Copied {
    let kind = random.pick(&[POLICY, SET]);
    let records = match random.below(10) {
        0 => deep(random, MOST_DEPTH),
        1..=2 => {
            let sum = comparison_of_values(random);
            over_condition(kind, sum)
        }
        _ => subtree(random, kind, 0),
    };
    Copied::of(records)
}

/// A sound policy or set with a line inside.
pub fn child(random: &mut Random) -> Copied {
    loop {
        let child = any_child(random);
        if child.records.len() > 1 {
            return child;
        }
    }
}

/// A policy whose one rule has this condition, or a set over it.
pub fn over_condition(kind: u8, condition: Vec<Record>) -> Vec<Record> {
    let policy = with(POLICY, 1, &[with(RULE, 1, &[condition])]);
    if kind == POLICY {
        return policy;
    }
    with(SET, 2, &[policy])
}

/// A child of line 1 whose deepest line is at this depth.
pub fn deep(random: &mut Random, depth: usize) -> Vec<Record> {
    let (policy, rule, comparison) = ((POLICY, 1), (RULE, 2), (CONDITION, COMPARISON_OF_VALUES + 1));
    let (outermost, between, innermost) = match random.below(5) {
        0 => (vec![], (SET, 3), vec![(SET, 1)]),
        1 => (vec![], (SET, 1), vec![policy, rule, (CONDITION, AND)]),
        2 => (vec![policy, rule], (CONDITION, OR), vec![(CONDITION, AND)]),
        3 => (vec![policy, rule, comparison], (VALUE, ADD), vec![(VALUE, LITERAL)]),
        _ => (vec![(SET, 2), policy, rule, comparison], (VALUE, ADD), vec![(VALUE, LITERAL)]),
    };
    let mut chain = outermost;
    chain.resize(depth - 1 - innermost.len(), between);
    chain.extend(innermost);
    chain.into_iter().rev().fold(Vec::new(), nest)
}

/// A record over these, with an operand beside them where it takes two.
fn nest(inner: Vec<Record>, (kind, choice): (u8, u8)) -> Vec<Record> {
    let one = literal(Value::Integer(1));
    match record(kind, choice) {
        made if made.is_literal() => one,
        made if made.takes_operands() => with(kind, choice, &[inner, one]),
        _ => with(kind, choice, &[inner]),
    }
}
