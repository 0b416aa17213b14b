//! The counts of document 02, 4: what was Indeterminate, and what stood beside it, where the answer shows the code.

use crate::policy::*;
use crate::status::{Lost, Outcome, Status};
use crate::sums::{exact, Operator, OPERATORS};
use crate::tally::{pairs, triples, Item, Wanted};
use crate::truth::{Evaluator, Truth};

const TWO_PARTS: &str = "two Indeterminate parts";
const TWO_CHILDREN: &str = "two Indeterminate children";
const PLACES: &str = "two Indeterminate children, which";
const ONLY_ONE: &str = "only-one-applicable, met first and later";
const FROM: &str = "Indeterminate from";
const OF_ANSWER: &str = "code of the answer";

impl Evaluator<'_> {
    /// Counts the codes of the first two Indeterminate parts.
    pub fn count_two_parts(&mut self, name: &'static str, lost: &[Lost]) {
        if let [first, second, ..] = lost {
            self.show(TWO_PARTS, (name, in_order(first.status, second.status)));
        }
    }

    /// Counts a not over an and, or an or, with two Indeterminate parts.
    pub fn count_not(&mut self) {
        match self.shown.last().copied() {
            Some((TWO_PARTS, Item::Pair("and", codes))) => self.show(TWO_PARTS, ("not over and", codes)),
            Some((TWO_PARTS, Item::Pair("or", codes))) => self.show(TWO_PARTS, ("not over or", codes)),
            _ => {}
        }
    }

    /// Counts the first two Indeterminate children, of which the second may stand after the stop.
    pub fn count_two_children(&mut self, algorithm: &'static str, lost: &[Lost], children: usize) {
        for (group, item) in two_children(algorithm, lost, children) {
            self.show(group, item);
        }
    }

    /// Counts the same where they make a Deny, which has no code to follow.
    pub fn count_turned_into_deny(&mut self, algorithm: &'static str, lost: &[Lost], children: usize) {
        for (group, item) in two_children(algorithm, lost, children) {
            self.met(group, item);
        }
    }

    /// The Indeterminate ones of children that come after the stop, for the counts.
    pub fn lost_later<T>(
        &mut self,
        from: usize,
        children: &[T],
        effect: fn(&T) -> Option<Decision>,
        decide: fn(&mut Self, &T) -> Decision,
    ) -> Vec<Lost> {
        let mut lost = Vec::new();
        if self.asides == 0 && children.len() <= MOST_COUNTED {
            for (place, child) in children.iter().enumerate().skip(from) {
                let decision = self.aside(|aside| decide(aside, child));
                lost.extend(decision.status().map(|status| Lost { place, effect: effect(child), status }));
            }
        }
        lost
    }

    /// What makes an only-one set Indeterminate, and what would after it: Indeterminate targets, and a second Match.
    pub fn doubts(&mut self, policies: &[Policy]) -> Vec<Lost> {
        let mut lost = Vec::new();
        let mut words = Vec::new();
        let mut matches = 0;
        for (place, policy) in policies.iter().enumerate() {
            let target = self.aside(|aside| aside.target(&policy.target));
            matches += usize::from(target == Truth::True);
            let (word, status) = match target {
                Truth::Unknown(status) => (DOUBTS[0], status),
                Truth::True if matches == 2 => (DOUBTS[1], Status::Processing),
                _ => continue,
            };
            words.push(word);
            lost.push(Lost { place, effect: None, status });
        }
        if let (2..=MOST_COUNTED, Some(first)) = (policies.len(), words.first()) {
            let later = words.get(1).unwrap_or(&"nothing");
            self.show(ONLY_ONE, (*first, *later, OF[policies.len() - 2]));
        }
        lost
    }

    /// Counts the one child of an only-one set that applies, where it is Indeterminate.
    pub fn count_the_one(&mut self, decision: Decision, children: usize) {
        if let (2..=MOST_COUNTED, Some(status)) = (children, decision.status()) {
            self.show(ONLY_ONE, ("the one that applies", status.name(), OF[children - 2]));
        }
    }

    /// Counts what is Indeterminate by itself.
    pub fn count_cause(&mut self, of: &'static str, why: &'static str) {
        self.show(FROM, (of, why));
    }

    pub fn count_failed_sum(&mut self, operator: Operator, first: Value, second: Value) {
        let why = match (first, second) {
            (Value::Integer(first), Value::Integer(second)) if exact(operator, first, second).is_none() => "by 0",
            (Value::Integer(_), _) => "does not fit",
            _ => "not finite",
        };
        self.show(FROM, (operator.name(), why));
    }

    /// Counts the answer's code, and all from which it comes.
    pub fn count_code(&mut self, decision: Decision) {
        self.met(OF_ANSWER, (decision.name(), decision.status().map_or("none", Status::name)));
        for (group, item) in std::mem::take(&mut self.shown) {
            self.met(group, item);
        }
    }
}

/// The effect of a policy's only rule.
pub fn effect_of(policy: &Policy) -> Option<Decision> {
    match &policy.children {
        Children::Rules(rules) if rules.len() == 1 => Some(rules[0].effect),
        _ => None,
    }
}

fn two_children(algorithm: &'static str, lost: &[Lost], children: usize) -> Vec<(&'static str, Item)> {
    let mut items = Vec::new();
    if let ([first, second, ..], 2..=MOST_COUNTED) = (lost, children) {
        let places = PLACES_OF[children - 2].iter().find(|(places, _)| *places == [first.place, second.place]);
        items.extend(places.map(|(_, which)| (PLACES, (algorithm, *which).into())));
        if let (Some(one), Some(other)) = (first.effect, second.effect) {
            let codes = in_order(first.status, second.status);
            items.push((TWO_CHILDREN, (algorithm, codes, EFFECTS[2 * after_permit(one) + after_permit(other)]).into()));
        }
    }
    items
}

fn after_permit(effect: Decision) -> usize {
    usize::from(effect != Decision::Permit)
}

impl Status {
    pub fn name(self) -> &'static str {
        match self {
            Status::Missing => "1",
            Status::Processing => "2",
        }
    }
}

fn in_order(first: Status, second: Status) -> &'static str {
    CODES[2 * (first as usize - 1) + second as usize - 1]
}

/// Lists of more children are not counted.
const MOST_COUNTED: usize = 4;
const OF: [&str; 3] = ["of two", "of three", "of four"];
const CODES: [&str; 4] = ["1 then 1", "1 then 2", "2 then 1", "2 then 2"];
const EFFECTS: [&str; 4] = ["Permit then Permit", "Permit then Deny", "Deny then Permit", "Deny then Deny"];
const DOUBTS: [&str; 2] = ["Indeterminate target", "second Match"];
/// Which two of two, three and four children.
const PLACES_OF: [&[([usize; 2], &str)]; 3] = [
    &[([0, 1], "1 and 2 of 2")],
    &[([0, 1], "1 and 2 of 3"), ([0, 2], "1 and 3 of 3"), ([1, 2], "2 and 3 of 3")],
    &[
        ([0, 1], "1 and 2 of 4"),
        ([0, 2], "1 and 3 of 4"),
        ([0, 3], "1 and 4 of 4"),
        ([1, 2], "2 and 3 of 4"),
        ([1, 3], "2 and 4 of 4"),
        ([2, 3], "3 and 4 of 4"),
    ],
];

/// The algorithms under which children are evaluated, not only their targets.
const ALGORITHMS: [&str; 6] = [
    "deny-overrides over rules",
    "permit-overrides over rules",
    "first-applicable over rules",
    "deny-overrides over policies",
    "permit-overrides over policies",
    "first-applicable over policies",
];

/// What a run must meet of codes, directly and in ticks.
pub fn wanted_codes() -> Wanted {
    [wanted_parts(), wanted_children(), wanted_sources()].concat()
}

fn wanted_parts() -> Wanted {
    let operators: Vec<&str> = OPERATORS.iter().map(|operator| operator.name()).collect();
    let comparisons = ["comparison of integers", "comparison of names", "comparison of doubles"];
    vec![
        (TWO_PARTS, pairs(&["and", "or", "not over and", "not over or"], &CODES)),
        (TWO_PARTS, pairs(&operators, &CODES)),
        (TWO_PARTS, pairs(&comparisons, &CODES)),
        // A match is Indeterminate by an empty bag alone.
        (TWO_PARTS, pairs(&["conjunction", "section", "target"], &["1 then 1"])),
    ]
}

fn wanted_children() -> Wanted {
    let which: Vec<&str> = PLACES_OF.iter().flat_map(|places| places.iter().map(|(_, which)| *which)).collect();
    vec![
        (TWO_CHILDREN, triples(&ALGORITHMS, &CODES, &EFFECTS)),
        (PLACES, pairs(&ALGORITHMS, &which)),
        (ONLY_ONE, triples(&DOUBTS, &["nothing"], &OF)),
        (ONLY_ONE, triples(&[DOUBTS[0]], &[DOUBTS[0]], &OF)),
        (ONLY_ONE, triples(&[DOUBTS[0]], &[DOUBTS[1]], &OF[1..])),
        (ONLY_ONE, triples(&[DOUBTS[1]], &[DOUBTS[0]], &OF[1..])),
        (ONLY_ONE, triples(&["the one that applies"], &["1", "2"], &OF)),
    ]
}

fn wanted_sources() -> Wanted {
    vec![
        (FROM, pairs(&["match", "comparison", "attribute"], &["empty bag"])),
        (FROM, pairs(&["comparison", "attribute"], &["several values"])),
        (FROM, pairs(&["add", "subtract", "multiply", "divide"], &["does not fit"])),
        (FROM, pairs(&["divide", "remainder"], &["by 0"])),
        (FROM, pairs(&["double add"], &["not finite"])),
        (OF_ANSWER, pairs(&["Indeterminate"], &["1", "2"])),
        (OF_ANSWER, pairs(&["Permit", "Deny", "NotApplicable"], &["none"])),
    ]
}
