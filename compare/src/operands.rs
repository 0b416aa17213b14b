//! The operands of operators and of comparisons of values, as document 02, 3 judges them.

use crate::judge::Cause;
use crate::record::*;
use crate::sums::{Operator, OPERATORS};
use crate::tally::{numbers, pairs, triples, words, Item, Wanted};

/// The children of an operator or a comparison of values: the lines whose parent it is.
pub fn by_parents(records: &[Record], parents: &[usize], taker: usize) -> Vec<Record> {
    let end = (taker + records[taker].span()).min(records.len());
    (taker + 1..end).filter(|&at| parents[at] == taker).map(|at| records[at]).collect()
}

/// What would be taken for the children by one who goes from span to span; nothing where they do not end with it.
pub fn by_walking(records: &[Record], taker: usize) -> Option<Vec<Record>> {
    let end = taker + records[taker].span();
    let (mut at, mut operands) = (taker + 1, Vec::new());
    while at < end.min(records.len()) {
        operands.push(records[at]);
        at += records[at].span().max(1);
    }
    (at == end).then_some(operands)
}

/// Unless the children are two values of the type.
pub fn wrong_operands(taker: &Record, operands: &[Record]) -> Option<Cause> {
    let name = taker_name(taker);
    let (first, second) = match operands {
        [first, second] => (first, second),
        _ => return Some((NUMBER_OF_OPERANDS, (name, NUMBERS[operands.len().min(4)]).into())),
    };
    let types = match (first.operand_type(), second.operand_type()) {
        (Some(first), Some(second)) => (first, second),
        (None, _) => return Some((OPERAND_NO_VALUE, (taker.name(), first.name()).into())),
        _ => return Some((OPERAND_NO_VALUE, (taker.name(), second.name()).into())),
    };
    let words = (type_name(types.0), type_name(types.1));
    if !taker.is_operator() {
        return match types {
            (NAME, NAME) if taker.choice() != COMPARISON_OF_VALUES + 1 => {
                Some((NAMES_ORDERED, Item::Number(taker.choice().into())))
            }
            (first, second) if first != second => Some((TYPES_DIFFER, words.into())),
            _ => None,
        };
    }
    let wanted = taker.operand_type();
    match (Some(types.0) == wanted, Some(types.1) == wanted) {
        (true, true) => None,
        (false, true) => Some((TYPE_OF_OPERAND, (name, "first", words.0).into())),
        (true, false) => Some((TYPE_OF_OPERAND, (name, "second", words.1).into())),
        (false, false) => Some((TYPE_OF_OPERAND, (name, "both", words.0).into())),
    }
}

const NUMBER_OF_OPERANDS: &str = "11: number of operands";
const OPERAND_NO_VALUE: &str = "11: operand that is no value";
const NAMES_ORDERED: &str = "11: order asked of names";
pub const TYPES_DIFFER: &str = "11: values of two types";
pub const TYPE_OF_OPERAND: &str = "11: type of an operand";
pub const WRONG_OPERANDS: [&str; 5] =
    [NUMBER_OF_OPERANDS, OPERAND_NO_VALUE, NAMES_ORDERED, TYPES_DIFFER, TYPE_OF_OPERAND];
const NUMBERS: [&str; 5] = ["none", "one", "two", "three", "four or more"];

fn taker_name(taker: &Record) -> &'static str {
    if taker.is_operator() {
        Operator::of(taker.choice()).name()
    } else {
        "comparison of values"
    }
}

fn type_name(value_type: u8) -> &'static str {
    match value_type {
        INTEGER => "integer",
        NAME => "name",
        DOUBLE => "double",
        _ => "no type",
    }
}

pub const FOUND: &str = "two operands of the type are found";
pub const BY_WALKING_ALONE: &str = "by walking from span to span alone";
pub const BY_PARENTS_ALONE: &str = "by the parents of lines alone";

/// How two operands of the type are found, where it is one way alone.
pub fn found_one_way(records: &[Record], parents: &[usize], taker: usize) -> Option<&'static str> {
    let record = &records[taker];
    let by_parents = wrong_operands(record, &by_parents(records, parents, taker)).is_none();
    let by_walking = by_walking(records, taker).map_or(false, |operands| wrong_operands(record, &operands).is_none());
    match (by_parents, by_walking) {
        (false, true) => Some(BY_WALKING_ALONE),
        (true, false) => Some(BY_PARENTS_ALONE),
        _ => None,
    }
}

/// The kinds that are no values, conditions told apart.
const OTHERS: [&str; 10] = [
    "set",
    "policy",
    "rule",
    "section",
    "conjunction",
    "match",
    "condition",
    "comparison",
    "comparison of values",
    "obligation",
];

/// What an operator or a comparison of values is refused for: also for a child that it does not take.
pub fn wanted_wrong_operands() -> Wanted {
    let takers: Vec<&str> = OPERATORS.iter().map(|operator| operator.name()).chain(["comparison of values"]).collect();
    let integers = &takers[..5];
    let wrong = ["none", "one", "three", "four or more"];
    let places = ["first", "second", "both"];
    vec![
        (NUMBER_OF_OPERANDS, pairs(&takers, &wrong)),
        (OPERAND_NO_VALUE, pairs(&["operator", "comparison of values"], &OTHERS)),
        (TYPE_OF_OPERAND, triples(integers, &places, &["name", "double"])),
        (TYPE_OF_OPERAND, triples(&["double add"], &places, &["name", "integer"])),
        (TYPES_DIFFER, pairs(&["integer"], &["name", "double"])),
        (TYPES_DIFFER, pairs(&["name"], &["integer", "double"])),
        (TYPES_DIFFER, pairs(&["double"], &["integer", "name"])),
        (NAMES_ORDERED, numbers(22..=25)),
        (FOUND, words(&[BY_WALKING_ALONE, BY_PARENTS_ALONE])),
    ]
}
