//! Bag, match, comparison, logic and target of documents 01 and 02, from left to right and stopping where a
//! part settles the answer. Each thing met on the way is counted.

use crate::decide::{self, Combine};
use crate::policy::*;
use crate::record::ANY;
use crate::status::{self, Lost, Outcome, Pick, Status};
use crate::sums::{self, Apply};
use crate::tally::{pairs, triples, words, Item, Tally, Wanted};

#[derive(Clone, Copy, PartialEq, Eq, Debug)]
pub enum Truth {
    True,
    False,
    Unknown(Status),
}

/// What a stand-in with a planted error does in another way.
#[derive(Clone, Copy)]
pub struct Ways {
    /// How an operator is carried out.
    pub apply: Apply,
    pub pick: Pick,
    pub takes: Takes,
    pub combine: Combine,
}

pub const RIGHT: Ways = Ways { apply: sums::apply, pick: status::first, takes, combine: decide::combine };

/// Whether something of this name that asks for an issuer takes a value that another, or the same, vouches for.
pub type Takes = fn(&'static str, u16, u16) -> bool;

pub fn takes(_: &'static str, asked: u16, issuer: u16) -> bool {
    asked == ANY || asked == issuer
}

pub struct Evaluator<'a> {
    pub attributes: &'a [Attribute],
    pub tally: &'a mut Tally,
    pub ways: Ways,
    /// Above 0 while something is evaluated only to name a count.
    pub asides: usize,
    /// The open conditions, and the operands that are known and wait for a second one.
    pub waiting: usize,
    /// The records looked at.
    pub looked_at: u64,
    /// What is counted if it turns out to be where the answer's code comes from.
    pub shown: Vec<(&'static str, Item)>,
}

impl<'a> Evaluator<'a> {
    pub fn new(attributes: &'a [Attribute], ways: Ways, tally: &'a mut Tally) -> Evaluator<'a> {
        Evaluator { attributes, tally, ways, asides: 0, waiting: 0, looked_at: 0, shown: Vec::new() }
    }
}

impl Evaluator<'_> {
    pub fn met(&mut self, group: &'static str, item: impl Into<Item>) {
        if self.asides == 0 {
            self.tally.met(group, item);
        }
    }

    pub fn look(&mut self) {
        if self.asides == 0 {
            self.looked_at += 1;
        }
    }

    /// Evaluates something that the decision does not depend on; nothing of it is counted.
    pub fn aside<T>(&mut self, evaluate: impl FnOnce(&mut Self) -> T) -> T {
        self.asides += 1;
        let result = evaluate(self);
        self.asides -= 1;
        result
    }

    /// Evaluates something for which one thing more has to wait.
    pub fn meanwhile<T>(&mut self, evaluate: impl FnOnce(&mut Self) -> T) -> T {
        self.waiting += 1;
        let result = evaluate(self);
        self.waiting -= 1;
        result
    }

    /// The request values that something of this name asks for, in request order.
    pub fn bag(&self, name: &'static str, asked: Asked) -> Vec<Value> {
        let of_key = self.attributes.iter().filter(|attribute| attribute.key == asked.key);
        let taken = of_key.filter(|attribute| (self.ways.takes)(name, asked.issuer, attribute.issuer));
        taken.map(|attribute| attribute.value).collect()
    }

    fn matching(&mut self, test: &Test) -> Truth {
        self.look();
        let bag = self.bag("match", test.asked);
        if bag.is_empty() && test.must_be_present {
            self.met("match", "empty bag, must be present: Indeterminate");
            self.count_cause("match", "empty bag");
            return Truth::Unknown(Status::Missing);
        }
        for (index, &value) in bag.iter().enumerate() {
            self.count_compared("match", match_group(test.function), test.literal, value);
            if holds(test.function, test.literal, value) {
                self.met("match", if index == 0 { "True by the first value" } else { "True by a later value" });
                return Truth::True;
            }
        }
        self.met("match", ["empty bag: False", "one value: False", "several values: False"][bag.len().min(2)]);
        Truth::False
    }

    fn comparison(&mut self, test: &Test) -> Truth {
        let bag = self.bag("comparison", test.asked);
        let presence = if test.must_be_present { "must be present" } else { "may be absent" };
        if let [value] = bag[..] {
            self.count_compared("comparison", comparison_group(test.function), test.literal, value);
            let truth = if holds(test.function, test.literal, value) { Truth::True } else { Truth::False };
            self.met("comparison", (truth_name(truth), presence));
            return truth;
        }
        let (why, cause, status) = match bag[..] {
            [] => ("empty bag: Indeterminate", "empty bag", Status::Missing),
            _ => ("several values: Indeterminate", "several values", Status::Processing),
        };
        self.met("comparison", (why, presence));
        self.count_cause("comparison", cause);
        Truth::Unknown(status)
    }

    /// And over the parts (`settles` is False), or or (`settles` is True).
    fn logic<T>(&mut self, name: &'static str, settles: Truth, parts: &[T], each: fn(&mut Self, &T) -> Truth) -> Truth {
        let mut lost = Vec::new();
        for (place, part) in parts.iter().enumerate() {
            let truth = self.part(&mut lost, (place, None), |inner| each(inner, part));
            if truth == settles {
                let after = if lost.is_empty() { "settled" } else { "after an Indeterminate" };
                self.met(name, (truth_name(truth), after));
                return settles;
            }
        }
        let truth = if lost.is_empty() { not(settles) } else { Truth::Unknown(self.code(name, &lost)) };
        self.met(name, (truth_name(truth), if parts.is_empty() { "no parts" } else { "all parts seen" }));
        truth
    }

    pub fn condition(&mut self, condition: &Condition) -> Truth {
        self.look();
        match condition {
            Condition::And(parts) => self.meanwhile(|inner| inner.logic("and", Truth::False, parts, Self::condition)),
            Condition::Or(parts) => self.meanwhile(|inner| inner.logic("or", Truth::True, parts, Self::condition)),
            Condition::Not(part) => {
                let truth = not(self.meanwhile(|inner| inner.condition(part)));
                self.met("not", truth_name(truth));
                self.count_not();
                truth
            }
            Condition::Comparison(test) => self.comparison(test),
            Condition::Values(function, operands) => self.comparison_of_values(*function, operands),
        }
    }

    fn conjunction(&mut self, conjunction: &Conjunction) -> Truth {
        self.look();
        self.logic("conjunction", Truth::False, &conjunction.0, Self::matching)
    }

    fn section(&mut self, section: &Section) -> Truth {
        self.look();
        self.logic("section", Truth::True, &section.0, Self::conjunction)
    }

    /// True is Match, False is No-match.
    pub fn target(&mut self, target: &Target) -> Truth {
        let mut so_far = Truth::True;
        let mut lost = Vec::new();
        for (place, section) in target.0.iter().enumerate() {
            match self.part(&mut lost, (place, None), |inner| inner.section(section)) {
                Truth::True => {}
                Truth::False => so_far = Truth::False,
                Truth::Unknown(_) => {
                    self.count_unknown_target(so_far, &target.0, &mut lost);
                    return Truth::Unknown(self.code("target", &lost));
                }
            }
        }
        let sections = if target.0.is_empty() { "no sections" } else { "all sections seen" };
        self.met("target", (if so_far == Truth::True { "Match" } else { "No-match" }, sections));
        so_far
    }

    /// Counts how the values stand to each other; of two integers at the ends also which they are, by what compares them.
    pub fn count_compared(&mut self, by: &'static str, group: &'static str, first: Value, second: Value) {
        self.met(group, relation(first, second));
        if let (Some(first), Some(second)) = (end_name(first), end_name(second)) {
            self.met(AT_THE_ENDS, (by, first, second));
        }
    }

    /// Counts an Indeterminate section with a No-match before it or after it, and notes the later ones that are lost.
    fn count_unknown_target(&mut self, before: Truth, sections: &[Section], lost: &mut Vec<Lost>) {
        if self.asides > 0 {
            return;
        }
        let mut missed_later = false;
        for (place, section) in sections.iter().enumerate().skip(lost[0].place + 1) {
            let truth = self.aside(|aside| aside.section(section));
            missed_later |= truth == Truth::False;
            lost.extend(truth.status().map(|status| Lost { place, effect: None, status }));
        }
        let beside = match (before, missed_later) {
            (Truth::False, _) => "after a No-match",
            (_, true) => "before a No-match",
            _ => "no No-match",
        };
        self.met("target", ("Indeterminate", beside));
    }
}

fn not(truth: Truth) -> Truth {
    match truth {
        Truth::True => Truth::False,
        Truth::False => Truth::True,
        unknown => unknown,
    }
}

/// The function, of a literal or a first value and another.
pub fn holds(function: Function, first: Value, second: Value) -> bool {
    match function {
        Function::Equal => first == second,
        Function::Greater => greater(first, second),
        Function::GreaterOrEqual => greater(first, second) || first == second,
        Function::Less => greater(second, first),
        Function::LessOrEqual => greater(second, first) || first == second,
    }
}

fn greater(first: Value, second: Value) -> bool {
    match (first, second) {
        (Value::Integer(first), Value::Integer(second)) => first > second,
        (Value::Double(first), Value::Double(second)) => first > second,
        _ => false,
    }
}

// Names for the tables of counts

/// How a literal or a first value stands to another of its type.
fn relation(first: Value, second: Value) -> (&'static str, &'static str) {
    let order = if first == second {
        "same"
    } else if greater(first, second) {
        "first above"
    } else {
        "first below"
    };
    match (first, second) {
        (Value::Integer(_), _) => ("integer", order),
        (Value::Name(first), Value::Name(second)) => ("name", of_names(first, second)),
        (Value::Double(first), Value::Double(second)) if first == 0.0 && second == 0.0 => {
            ("double", of_zeros(first, second))
        }
        _ => ("double", order),
    }
}

const AT_THE_ENDS: &str = "integers at the ends";

/// The integers where the top bit of eight bytes turns: the largest and the least, -1 and 0.
const ENDS: [&str; 4] = ["2^63 - 1", "-2^63", "-1", "0"];

fn end_name(value: Value) -> Option<&'static str> {
    match value {
        Value::Integer(i64::MAX) => Some(ENDS[0]),
        Value::Integer(i64::MIN) => Some(ENDS[1]),
        Value::Integer(-1) => Some(ENDS[2]),
        Value::Integer(0) => Some(ENDS[3]),
        _ => None,
    }
}

/// Which zero comes first, and which second.
pub const ZEROS: [&str; 4] = ["0 and 0", "0 and -0", "-0 and 0", "-0 and -0"];

pub fn of_zeros(first: f64, second: f64) -> &'static str {
    let minus = |zero: f64| usize::from(zero.is_sign_negative());
    ZEROS[2 * minus(first) + minus(second)]
}

/// Names are told by their bytes, also where these are a zero of doubles, or no number.
pub const NAMES: [&str; 4] = ["other", "other, equal as doubles", "same, no number as doubles", "same"];

fn of_names(first: [u8; 8], second: [u8; 8]) -> &'static str {
    let as_doubles = f64::from_be_bytes(first) == f64::from_be_bytes(second);
    NAMES[2 * usize::from(first == second) + usize::from(as_doubles)]
}

pub fn truth_name(truth: Truth) -> &'static str {
    match truth {
        Truth::True => "True",
        Truth::False => "False",
        Truth::Unknown(_) => "Indeterminate",
    }
}

fn match_group(function: Function) -> &'static str {
    match function {
        Function::Equal => "match: equal",
        Function::Greater => "match: greater",
        Function::GreaterOrEqual => "match: greater or equal",
        Function::Less => "match: less",
        Function::LessOrEqual => "match: less or equal",
    }
}

fn comparison_group(function: Function) -> &'static str {
    match function {
        Function::Equal => "comparison: equal",
        Function::Greater => "comparison: greater",
        Function::GreaterOrEqual => "comparison: greater or equal",
        Function::Less => "comparison: less",
        Function::LessOrEqual => "comparison: less or equal",
    }
}

pub fn values_group(function: Function) -> &'static str {
    match function {
        Function::Equal => "values: equal",
        Function::Greater => "values: greater",
        Function::GreaterOrEqual => "values: greater or equal",
        Function::Less => "values: less",
        Function::LessOrEqual => "values: less or equal",
    }
}

/// What a run of decisions must meet of matches, comparisons, logic and targets.
pub fn wanted_truths() -> Wanted {
    let mut wanted = vec![
        ("match", words(&["empty bag, must be present: Indeterminate", "empty bag: False", "one value: False"])),
        ("match", words(&["several values: False", "True by the first value", "True by a later value"])),
        (
            "comparison",
            pairs(
                &["True", "False", "empty bag: Indeterminate", "several values: Indeterminate"],
                &["must be present", "may be absent"],
            ),
        ),
        ("and", pairs(&["False"], &["settled", "after an Indeterminate"])),
        (
            "and",
            vec![
                ("True", "no parts").into(),
                ("True", "all parts seen").into(),
                ("Indeterminate", "all parts seen").into(),
            ],
        ),
        ("or", pairs(&["True"], &["settled", "after an Indeterminate"])),
        (
            "or",
            vec![
                ("False", "no parts").into(),
                ("False", "all parts seen").into(),
                ("Indeterminate", "all parts seen").into(),
            ],
        ),
        ("not", words(&["True", "False", "Indeterminate"])),
        ("conjunction", pairs(&["False"], &["settled", "after an Indeterminate"])),
        ("conjunction", pairs(&["True", "Indeterminate"], &["all parts seen"])),
        ("section", pairs(&["True"], &["settled", "after an Indeterminate"])),
        ("section", pairs(&["False", "Indeterminate"], &["all parts seen"])),
        ("target", pairs(&["Match"], &["no sections", "all sections seen"])),
        ("target", pairs(&["No-match"], &["all sections seen"])),
        ("target", pairs(&["Indeterminate"], &["after a No-match", "before a No-match", "no No-match"])),
    ];
    for (function, group) in groups() {
        wanted.push((group, pairs(&["integer", "double"], &["same", "first above", "first below"])));
        if function == Function::Equal {
            wanted.push((group, pairs(&["name"], &NAMES)));
        }
    }
    wanted.extend(wanted_borders());
    wanted
}

/// Both zeros, as literal and as request value, in every function; and each end of integers with each.
pub fn wanted_borders() -> Wanted {
    let mut wanted: Wanted = groups().map(|(_, group)| (group, pairs(&["double"], &ZEROS))).collect();
    wanted.push((AT_THE_ENDS, triples(&["match", "comparison", "values"], &ENDS, &ENDS)));
    wanted
}

pub const FUNCTIONS: [Function; 5] =
    [Function::Equal, Function::Greater, Function::GreaterOrEqual, Function::Less, Function::LessOrEqual];

/// Every function in a match and in a comparison.
fn groups() -> impl Iterator<Item = (Function, &'static str)> {
    let both = |function| [match_group(function), comparison_group(function)].map(|group| (function, group));
    FUNCTIONS.into_iter().flat_map(both)
}
