//! Judging the record bytes of a book and the entries of a request, rule by rule.
//!
//! A refusal by 5 or by 9 to 12 names every rule that the refused line breaks, so that a run can count
//! the lines that break one rule alone, and those that break several.

use crate::operands::{by_parents, found_one_way, wrong_operands, FOUND, WRONG_OPERANDS};
use crate::record::*;
use crate::refusal::{refuse, Part, Refusal};
use crate::tally::{Item, Tally};
use std::cmp::Ordering;

/// A rule that a line breaks: a group and an item of the tally.
pub type Cause = (&'static str, Item);

/// A rule that a line breaks, with its number.
pub type Fault = (u64, Cause);

#[derive(Clone, Copy, PartialEq, Eq, Debug)]
pub struct Accepted {
    pub records: usize,
    pub obligations: usize,
    pub depth: usize,
    /// The depth of the deepest value, 0 where there is none.
    pub values: usize,
}

impl Accepted {
    /// What judging answers.
    pub fn packed(&self) -> u64 {
        256 * self.records as u64 + 16_777_216 * self.obligations as u64
    }
}

#[derive(Debug)]
pub struct Refused {
    pub refusal: Refusal,
    pub causes: Vec<Cause>,
    /// Of a book that 5 refuses: what would refuse it but for its fields.
    pub passed_over: Option<Refusal>,
    /// Of a book that a place rule refuses: how operands are found that are not found in the other way.
    pub found: Option<&'static str>,
}

impl Refused {
    /// A refusal that is of no line.
    pub fn without_line(refusal: Refusal) -> Refused {
        Refused { refusal, causes: Vec::new(), passed_over: None, found: None }
    }

    /// Counts the refusal, and its cause where it has only one; of place rules also two or three at once.
    pub fn count(&self, tally: &mut Tally) {
        tally.met(refusals_of(self.refusal.part), self.refusal.number);
        match self.causes[..] {
            [(group, item)] => tally.met(group, item),
            [(first, _), (second, _)] if self.refusal.number >= 9 => {
                tally.met(TWO_RULES, (rule_of(first), rule_of(second)))
            }
            [(first, _), (second, _), (third, _)] if self.refusal.number >= 9 => {
                tally.met(THREE_RULES, (rule_of(first), rule_of(second), rule_of(third)))
            }
            _ => {}
        }
        if let Some(place) = self.passed_over {
            tally.met(PASSED_OVER, (rule_word(place.number), line_word(place.line, self.refusal.line)));
        }
        if let Some(how) = self.found {
            tally.met(FOUND, how);
        }
    }
}

pub const TWO_RULES: &str = "two place rules at one line";
pub const THREE_RULES: &str = "three place rules at one line";
pub const PASSED_OVER: &str = "place rule in a book that 5 refuses";

/// The rule of a cause, for those that stand at one line with another.
fn rule_of(group: &'static str) -> &'static str {
    if WRONG_OPERANDS.contains(&group) {
        "11: wrong operands"
    } else {
        group
    }
}

fn rule_word(number: u64) -> &'static str {
    match number {
        9 => "9",
        10 => "10",
        11 => "11",
        _ => "12",
    }
}

/// Where a line stands, seen from another.
fn line_word(line: usize, from: usize) -> &'static str {
    match line.cmp(&from) {
        Ordering::Less => "at an earlier line",
        Ordering::Equal => "at the same line",
        Ordering::Greater => "at a later line",
    }
}

pub fn refusals_of(part: Part) -> &'static str {
    match part {
        Part::Book => "refusals of a book",
        Part::Request => "refusals of a request",
        Part::Output => "refusals of an output",
        Part::Programme => "refusals of a programme or state",
    }
}

/// Judges a book: 3, 4, 2, then the first line with 5, then the first with 9 to 12.
pub fn book(bytes: &[u8]) -> Result<Accepted, Refused> {
    if bytes.is_empty() {
        return Err(no_line(3, Part::Book));
    }
    whole_lines(bytes, Part::Book, MOST_RECORDS)?;
    let records = records(bytes);
    let places = judge_places(&records);
    if let Err(mut refused) = judge_fields(&records) {
        refused.passed_over = places.err().map(|place| place.refusal);
        return Err(refused);
    }
    let depths = places?;
    let obligations = records.iter().filter(|record| record.kind() == OBLIGATION).count();
    let values = records.iter().zip(&depths).filter(|(record, _)| record.kind() == VALUE).map(|(_, &depth)| depth);
    let values = values.max().unwrap_or(0);
    Ok(Accepted { records: records.len(), obligations, depth: depths.into_iter().max().unwrap_or(1), values })
}

/// Judges a request: 4, 2, then the first entry with 5. Gives the number of entries.
pub fn request(bytes: &[u8]) -> Result<usize, Refused> {
    whole_lines(bytes, Part::Request, MOST_ENTRIES)?;
    let entries = entries(bytes);
    for (index, entry) in entries.iter().enumerate() {
        line_without(entry_faults(entry), 5, Part::Request, index + 1)?;
    }
    Ok(entries.len())
}

fn no_line(number: u64, part: Part) -> Refused {
    Refused::without_line(refuse(number, part))
}

fn whole_lines(bytes: &[u8], part: Part, most: usize) -> Result<(), Refused> {
    if bytes.len() % LENGTH != 0 {
        let of = if part == Part::Book { "book" } else { "request" };
        return Err(Refused { causes: vec![(MISFIT, (of, misfit_word(bytes)).into())], ..no_line(4, part) });
    }
    if bytes.len() / LENGTH > most {
        return Err(no_line(2, part));
    }
    Ok(())
}

pub const MISFIT: &str = "length that 4 refuses";
pub const MISFITS: [&str; 2] = ["a multiple of 16", "no multiple of 16"];

/// How a length that 4 refuses stands to that of records without an issuer.
pub fn misfit_word(bytes: &[u8]) -> &'static str {
    MISFITS[usize::from(bytes.len() % SHORT != 0)]
}

fn line_without(causes: Vec<Cause>, number: u64, part: Part, line: usize) -> Result<(), Refused> {
    if causes.is_empty() {
        return Ok(());
    }
    Err(Refused { refusal: Refusal { number, part, line }, causes, passed_over: None, found: None })
}

// Field rules

/// Refuses the first line that breaks a field rule.
fn judge_fields(records: &[Record]) -> Result<(), Refused> {
    for (index, record) in records.iter().enumerate() {
        line_without(field_faults(record), 5, Part::Book, index + 1)?;
    }
    Ok(())
}

/// The field rules that a record breaks.
pub fn field_faults(record: &Record) -> Vec<Cause> {
    let name = record.name();
    let choices: &[u8] = match record.kind() {
        SET => &[1, 2, 3, 4],
        POLICY => &[1, 2, 3],
        RULE | OBLIGATION => &[1, 2],
        SECTION | CONJUNCTION => &[0],
        MATCH => &[1, 2, 3, 4, 5],
        CONDITION => &[1, 2, 3, 11, 12, 13, 14, 15, 21, 22, 23, 24, 25],
        VALUE => &[1, 2, 3, 4, 5, 6, 7, 8],
        _ => return vec![("field: kind", "unknown".into())],
    };
    let mut faults = Vec::new();
    if record.span() == 0 {
        faults.push(("field: span 0", name.into()));
    }
    if !choices.contains(&record.choice()) {
        faults.push(("field: choice", name.into()));
        return faults;
    }
    span_faults(record, &mut faults);
    if record.kind() == SECTION || is_test(record) || record.is_attribute() {
        category_fault(record.category(), name, &mut faults);
    }
    if is_test(record) {
        test_faults(record, &mut faults);
    }
    if record.is_literal() || record.is_attribute() {
        value_faults(record, &mut faults);
    }
    let unused = unused_bytes(record).into_iter().filter(|&place| record.0[place] != 0);
    faults.extend(unused.map(|place| (unused_group(name), Item::Number(place as u64))));
    issuer_faults(&record.0, name, record.asks(), &mut faults);
    faults
}

/// An issuer where none may stand, and the two bytes after it.
fn issuer_faults(line: &[u8; LENGTH], name: &'static str, may_stand: bool, faults: &mut Vec<Cause>) {
    if !may_stand {
        faults.extend(not_zero(NO_ISSUER, name, &line[ISSUER_AT]));
    }
    faults.extend(not_zero(LAST_BYTES, name, &line[LAST_AT]));
}

pub const NO_ISSUER: &str = "field: issuer where none may stand";
pub const LAST_BYTES: &str = "field: bytes 18 and 19";
pub const OF_TWO_BYTES: [&str; 3] = ["first", "second", "both"];

/// Which of two bytes are not zero.
fn not_zero(group: &'static str, name: &'static str, bytes: &[u8]) -> Option<Cause> {
    let which = match (bytes[0], bytes[1]) {
        (0, 0) => return None,
        (_, 0) => OF_TWO_BYTES[0],
        (0, _) => OF_TWO_BYTES[1],
        _ => OF_TWO_BYTES[2],
    };
    Some((group, (name, which).into()))
}

/// A span that the kind cannot have. Operators and comparisons of values have no least span but 1.
fn span_faults(record: &Record, faults: &mut Vec<Cause>) {
    let name = record.name();
    if record.is_leaf() && record.span() > 1 {
        faults.push(("field: span not 1", name.into()));
    }
    let is_not = record.kind() == CONDITION && record.choice() == NOT;
    let has_children = record.kind() == SECTION || record.kind() == CONJUNCTION || is_not;
    if has_children && record.span() == 1 {
        faults.push(("field: span below 2", if is_not { "not" } else { name }.into()));
    }
}

/// A match or a comparison: it has an attribute, a function and a literal.
pub fn is_test(record: &Record) -> bool {
    record.kind() == MATCH || record.is_comparison()
}

fn category_fault(category: u8, name: &'static str, faults: &mut Vec<Cause>) {
    if !(1..=4).contains(&category) {
        faults.push(("field: category", name.into()));
    }
}

/// Type, finite value and function of a name.
fn test_faults(record: &Record, faults: &mut Vec<Cause>) {
    let name = record.name();
    let function = if record.kind() == MATCH { record.choice() } else { record.choice() - COMPARISON };
    match record.type_byte() % MUST_BE_PRESENT {
        INTEGER => {}
        NAME if function == 1 => {}
        NAME => faults.push(("field: function of a name", name.into())),
        DOUBLE if is_finite(record.value()) => {}
        DOUBLE => faults.push(("field: value not finite", name.into())),
        _ => faults.push(("field: type", name.into())),
    }
}

/// Type and finite value of a literal, type of an attribute.
fn value_faults(record: &Record, faults: &mut Vec<Cause>) {
    let name = record.name();
    match record.type_byte() % MUST_BE_PRESENT {
        INTEGER | NAME | DOUBLE => {}
        _ => faults.push(("field: type", name.into())),
    }
    if record.is_literal() && record.type_byte() >= MUST_BE_PRESENT {
        faults.push(("field: type", "literal that must be present".into()));
    }
    if record.is_literal() && record.type_byte() % MUST_BE_PRESENT == DOUBLE && !is_finite(record.value()) {
        faults.push(("field: value not finite", name.into()));
    }
}

/// The places, before the issuer, of the bytes that a record of this kind does not use.
fn unused_bytes(record: &Record) -> Vec<usize> {
    match record.kind() {
        MATCH => Vec::new(),
        CONDITION if record.is_comparison() => Vec::new(),
        SECTION => (5..SHORT).collect(),
        OBLIGATION => (4..6).chain(VALUE_AT).collect(),
        VALUE if record.is_literal() => vec![4, 6, 7],
        VALUE if record.is_attribute() => VALUE_AT.collect(),
        _ => (4..SHORT).collect(),
    }
}

pub fn unused_group(name: &'static str) -> &'static str {
    match name {
        "set" => "field: unused byte of a set",
        "policy" => "field: unused byte of a policy",
        "rule" => "field: unused byte of a rule",
        "section" => "field: unused byte of a section",
        "conjunction" => "field: unused byte of a conjunction",
        "condition" => "field: unused byte of and, or, not",
        "comparison of values" => "field: unused byte of a comparison of values",
        "literal" => "field: unused byte of a literal",
        "attribute" => "field: unused byte of an attribute",
        "operator" => "field: unused byte of an operator",
        _ => "field: unused byte of an obligation",
    }
}

/// The field rules that an entry of a request breaks.
fn entry_faults(entry: &Entry) -> Vec<Cause> {
    let mut faults = Vec::new();
    category_fault(entry.category(), "entry", &mut faults);
    if !(1..=3).contains(&entry.value_type()) {
        faults.push(("field: type", "entry".into()));
    }
    if entry.value_type() == DOUBLE && !is_finite(entry.value()) {
        faults.push(("field: value not finite", "entry".into()));
    }
    let unused = (4..8).filter(|&place| entry.0[place] != 0);
    faults.extend(unused.map(|place| ("field: unused byte of an entry", Item::Number(place as u64))));
    issuer_faults(&entry.0, "entry", true, &mut faults);
    faults
}

// Place rules

/// Refuses a line by the lowest number of the place rules that it breaks.
fn placed_without(faults: Vec<Fault>, line: usize) -> Result<(), Refused> {
    let lowest = faults.iter().map(|&(number, _)| number).min().unwrap_or(0);
    let causes = faults.into_iter().map(|(_, cause)| cause).collect();
    line_without(causes, lowest, Part::Book, line)
}

/// Refuses the first line that breaks a place rule. Gives the depths of all lines.
fn judge_places(records: &[Record]) -> Result<Vec<usize>, Refused> {
    placed_without(line_1_faults(records), 1)?;
    let ends: Vec<usize> = (0..records.len()).map(|at| at + records[at].span()).collect();
    let parents = parents(&ends);
    let mut depth = vec![1; records.len()];
    for at in 1..records.len() {
        depth[at] = depth[parents[at]] + 1;
        let place = Place { records, parents: &parents, ends: &ends, at, depth: depth[at] };
        placed_without(place.faults(), at + 1)
            .map_err(|refused| Refused { found: place.found(refused.refusal.number), ..refused })?;
    }
    Ok(depth)
}

/// The parent of every line but the first: the innermost earlier record whose span covers it.
fn parents(ends: &[usize]) -> Vec<usize> {
    let parent = |at: usize| (0..at).rev().find(|&earlier| ends[earlier] > at).expect("line 1 covers every line");
    let after_the_first = (1..ends.len()).map(parent);
    std::iter::once(0).chain(after_the_first).collect()
}

pub fn line_1_faults(records: &[Record]) -> Vec<Fault> {
    let mut faults = Vec::new();
    let first = records[0];
    if first.kind() != SET && first.kind() != POLICY {
        faults.push((9, ("9: line 1 is a", first.name().into())));
    }
    if first.span() < records.len() {
        faults.push((9, ("9: span of line 1", "below the count".into())));
    }
    if first.span() > records.len() {
        faults.push((9, ("9: span of line 1", "above the count".into())));
    }
    faults
}

/// A line after the first, in a book of which every line's parent and the end of what it covers are known.
pub struct Place<'a> {
    pub records: &'a [Record],
    pub parents: &'a [usize],
    pub ends: &'a [usize],
    pub at: usize,
    pub depth: usize,
}

impl Place<'_> {
    fn parent(&self) -> usize {
        self.parents[self.at]
    }

    /// The child of the same parent before it.
    fn previous(&self) -> Option<Record> {
        let siblings = self.parent() + 1..self.at;
        let line = siblings.rev().find(|&earlier| self.parents[earlier] == self.parent());
        line.map(|earlier| self.records[earlier])
    }

    /// The place rules that it breaks.
    pub fn faults(&self) -> Vec<Fault> {
        let record = self.records[self.at];
        let name = record.name();
        let mut faults = Vec::new();
        if self.at + record.span() > self.ends[self.parent()] {
            faults.push((10, ("10: past the parent's end", name.into())));
        }
        faults.extend(self.not_allowed().map(|cause| (11, cause)));
        faults.extend(self.wrong_category().map(|cause| (11, cause)));
        if record.takes_operands() {
            let operands = by_parents(self.records, self.parents, self.at);
            faults.extend(wrong_operands(&record, &operands).map(|cause| (11, cause)));
        }
        if self.depth > MOST_DEPTH {
            faults.push((12, ("12: too deep", name.into())));
        }
        faults
    }

    /// Of a line that is refused by this number: how operands are found that are not found in the other way.
    fn found(&self, number: u64) -> Option<&'static str> {
        let taker = if number == 10 { self.parent() } else { self.at };
        let takes = self.records[taker].takes_operands();
        takes.then(|| found_one_way(self.records, self.parents, taker)).flatten()
    }

    /// The parent does not allow this kind, or not after what stands before it.
    fn not_allowed(&self) -> Option<Cause> {
        let record = self.records[self.at];
        let parent = self.records[self.parent()];
        let previous = self.previous();
        let (name, before) = (record.name(), previous.map_or("nothing", |earlier| earlier.name()));
        // The child's place in the order of the parent's children: it may not stand after a later one.
        let order = |child: &Record| match (parent.kind(), child.kind()) {
            (SET | POLICY | RULE, SECTION) => Some(1),
            (SET, SET | POLICY) | (POLICY, RULE) | (RULE, CONDITION) => Some(2),
            (SET | POLICY, OBLIGATION) => Some(3),
            (SECTION, CONJUNCTION) | (CONJUNCTION, MATCH) => Some(1),
            (CONDITION, CONDITION) if !parent.takes_operands() => Some(1),
            (CONDITION | VALUE, VALUE) if parent.takes_operands() => Some(1),
            _ => None,
        };
        let place = match order(&record) {
            None => return Some(("11: not under its parent", (name, parent.name()).into())),
            Some(place) => place,
        };
        let place_before = previous.and_then(|earlier| order(&earlier)).unwrap_or(0);
        if place < place_before {
            return Some(("11: after a later one", (name, before).into()));
        }
        if parent.kind() == RULE && place == 2 && place_before == 2 {
            return Some(("11: second", "condition of a rule".into()));
        }
        let of_not = parent.kind() == CONDITION && parent.choice() == NOT;
        if of_not && previous.is_some() {
            return Some(("11: second", "part of not".into()));
        }
        None
    }

    /// Sections of one target rise; a match has its section's category.
    fn wrong_category(&self) -> Option<Cause> {
        let record = self.records[self.at];
        let parent = self.records[self.parent()];
        match (record.kind(), self.previous()) {
            (SECTION, Some(earlier)) if earlier.kind() == SECTION && earlier.category() >= record.category() => {
                let how = if earlier.category() == record.category() { "same" } else { "lower" };
                Some(("11: category of a section after one", how.into()))
            }
            (MATCH, _) if parent.kind() == CONJUNCTION => {
                let section = (0..self.parent()).rev().find(|&line| self.ends[line] > self.at);
                let section = self.records[section.expect("a conjunction has a section")];
                let differs = section.category() != record.category();
                differs.then(|| ("11: category of a match", "not its section's".into()))
            }
            _ => None,
        }
    }
}
