//! Records of a book and entries of a request: twenty bytes each, and the words for their fields.

use std::ops::Range;

/// The bytes of a record or an entry.
pub const LENGTH: usize = 20;
/// The bytes that a line of a short text gives: those before the issuer.
pub const SHORT: usize = 16;
/// Where the value stands in a record or an entry, the issuer, and the two bytes that are always zero.
pub const VALUE_AT: Range<usize> = 8..SHORT;
pub const ISSUER_AT: Range<usize> = SHORT..SHORT + 2;
pub const LAST_AT: Range<usize> = SHORT + 2..LENGTH;
pub const MOST_RECORDS: usize = 1000;
pub const MOST_ENTRIES: usize = 64;
pub const MOST_DEPTH: usize = 16;

pub const SET: u8 = 1;
pub const POLICY: u8 = 2;
pub const RULE: u8 = 3;
pub const SECTION: u8 = 4;
pub const CONJUNCTION: u8 = 5;
pub const MATCH: u8 = 6;
pub const CONDITION: u8 = 7;
pub const OBLIGATION: u8 = 8;
pub const VALUE: u8 = 10;

pub const AND: u8 = 1;
pub const OR: u8 = 2;
pub const NOT: u8 = 3;
/// A comparison's choice is this and its function.
pub const COMPARISON: u8 = 10;
/// The choice of a comparison of two values is this and its function.
pub const COMPARISON_OF_VALUES: u8 = 20;

pub const LITERAL: u8 = 1;
pub const ATTRIBUTE: u8 = 2;
/// The operators of a value: 3 add, 4 subtract, 5 multiply, 6 divide, 7 remainder, 8 double add.
pub const ADD: u8 = 3;
pub const DOUBLE_ADD: u8 = 8;

pub const INTEGER: u8 = 1;
pub const NAME: u8 = 2;
pub const DOUBLE: u8 = 3;
/// Added to the type.
pub const MUST_BE_PRESENT: u8 = 128;

/// The issuer of a record that takes any.
pub const ANY: u16 = 0;
/// The issuer of an entry that has none.
pub const NOBODY: u16 = 0;

#[derive(Clone, Copy, PartialEq, Eq, Debug)]
pub struct Record(pub [u8; LENGTH]);

impl Record {
    pub fn kind(&self) -> u8 {
        self.0[0]
    }

    pub fn choice(&self) -> u8 {
        self.0[1]
    }

    pub fn span(&self) -> usize {
        usize::from(u16::from_be_bytes([self.0[2], self.0[3]]))
    }

    pub fn set_span(&mut self, span: usize) {
        self.0[2..4].copy_from_slice(&(span as u16).to_be_bytes());
    }

    pub fn category(&self) -> u8 {
        self.0[4]
    }

    /// Byte 5: the type, with must-be-present.
    pub fn type_byte(&self) -> u8 {
        self.0[5]
    }

    pub fn identifier(&self) -> u16 {
        u16::from_be_bytes([self.0[6], self.0[7]])
    }

    pub fn value(&self) -> [u8; 8] {
        self.0[VALUE_AT].try_into().unwrap()
    }

    pub fn set_value(&mut self, value: [u8; 8]) {
        self.0[VALUE_AT].copy_from_slice(&value);
    }

    pub fn issuer(&self) -> u16 {
        issuer_of(&self.0)
    }

    pub fn set_issuer(&mut self, issuer: u16) {
        self.0[ISSUER_AT].copy_from_slice(&issuer.to_be_bytes());
    }

    /// A match, a comparison or an attribute: it asks for values of the request, and may name their issuer.
    pub fn asks(&self) -> bool {
        self.kind() == MATCH || self.is_comparison() || self.is_attribute()
    }

    /// What such a record asks for, with its literal as value where it has one.
    pub fn asked(&self) -> Entry {
        let value_type = self.type_byte() % MUST_BE_PRESENT;
        Entry::new(self.category(), value_type, self.identifier(), self.value()).by(self.issuer())
    }

    /// A match, a comparison, an obligation, a literal or an attribute: it has no children.
    pub fn is_leaf(&self) -> bool {
        self.asks() || self.kind() == OBLIGATION || self.is_literal()
    }

    pub fn is_comparison(&self) -> bool {
        self.kind() == CONDITION && (COMPARISON + 1..=COMPARISON + 5).contains(&self.choice())
    }

    pub fn is_comparison_of_values(&self) -> bool {
        let choices = COMPARISON_OF_VALUES + 1..=COMPARISON_OF_VALUES + 5;
        self.kind() == CONDITION && choices.contains(&self.choice())
    }

    pub fn is_literal(&self) -> bool {
        self.kind() == VALUE && self.choice() == LITERAL
    }

    pub fn is_attribute(&self) -> bool {
        self.kind() == VALUE && self.choice() == ATTRIBUTE
    }

    pub fn is_operator(&self) -> bool {
        self.kind() == VALUE && (ADD..=DOUBLE_ADD).contains(&self.choice())
    }

    /// An operator or a comparison of two values: its children are its operands.
    pub fn takes_operands(&self) -> bool {
        self.is_operator() || self.is_comparison_of_values()
    }

    /// The type of a value; that of an operator comes from its choice alone.
    pub fn operand_type(&self) -> Option<u8> {
        match (self.kind(), self.choice()) {
            (VALUE, LITERAL | ATTRIBUTE) => Some(self.type_byte() % MUST_BE_PRESENT),
            (VALUE, DOUBLE_ADD) => Some(DOUBLE),
            (VALUE, _) => Some(INTEGER),
            _ => None,
        }
    }

    /// What the kind is called in the tables of counts.
    pub fn name(&self) -> &'static str {
        match self.kind() {
            SET => "set",
            POLICY => "policy",
            RULE => "rule",
            SECTION => "section",
            CONJUNCTION => "conjunction",
            MATCH => "match",
            CONDITION if self.is_comparison() => "comparison",
            CONDITION if self.is_comparison_of_values() => "comparison of values",
            CONDITION => "condition",
            OBLIGATION => "obligation",
            VALUE if self.is_literal() => "literal",
            VALUE if self.is_attribute() => "attribute",
            VALUE if self.is_operator() => "operator",
            VALUE => "value",
            _ => "no kind",
        }
    }
}

#[derive(Clone, Copy, PartialEq, Eq, Debug)]
pub struct Entry(pub [u8; LENGTH]);

impl Entry {
    pub fn new(category: u8, value_type: u8, identifier: u16, value: [u8; 8]) -> Entry {
        let mut bytes = [0; LENGTH];
        bytes[0] = category;
        bytes[1] = value_type;
        bytes[2..4].copy_from_slice(&identifier.to_be_bytes());
        bytes[VALUE_AT].copy_from_slice(&value);
        Entry(bytes)
    }

    /// The same, vouched for by this issuer.
    pub fn by(mut self, issuer: u16) -> Entry {
        self.0[ISSUER_AT].copy_from_slice(&issuer.to_be_bytes());
        self
    }

    /// Whether category, type and identifier are the same.
    pub fn has_key_of(&self, other: &Entry) -> bool {
        self.0[..4] == other.0[..4]
    }

    pub fn category(&self) -> u8 {
        self.0[0]
    }

    pub fn value_type(&self) -> u8 {
        self.0[1]
    }

    pub fn identifier(&self) -> u16 {
        u16::from_be_bytes([self.0[2], self.0[3]])
    }

    pub fn value(&self) -> [u8; 8] {
        self.0[VALUE_AT].try_into().unwrap()
    }

    pub fn set_value(&mut self, value: [u8; 8]) {
        self.0[VALUE_AT].copy_from_slice(&value);
    }

    pub fn issuer(&self) -> u16 {
        issuer_of(&self.0)
    }
}

fn issuer_of(line: &[u8; LENGTH]) -> u16 {
    u16::from_be_bytes(line[ISSUER_AT].try_into().unwrap())
}

/// The whole records of these bytes.
pub fn records(bytes: &[u8]) -> Vec<Record> {
    bytes.chunks_exact(LENGTH).map(|chunk| Record(chunk.try_into().unwrap())).collect()
}

/// The whole entries of these bytes.
pub fn entries(bytes: &[u8]) -> Vec<Entry> {
    bytes.chunks_exact(LENGTH).map(|chunk| Entry(chunk.try_into().unwrap())).collect()
}

pub fn book_bytes(records: &[Record]) -> Vec<u8> {
    records.iter().flat_map(|record| record.0).collect()
}

pub fn request_bytes(entries: &[Entry]) -> Vec<u8> {
    entries.iter().flat_map(|entry| entry.0).collect()
}

/// Whether eight bytes are a finite IEEE 754 binary64 number.
pub fn is_finite(value: [u8; 8]) -> bool {
    f64::from_be_bytes(value).is_finite()
}
