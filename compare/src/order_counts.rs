//! What a run on reordered books must meet (document 02, 7).

use crate::compare_order::Pair;
use crate::obligations::Answer;
use crate::policy::*;
use crate::record::*;
use crate::reordering::{children, Row};
use crate::stays::Stays;
use crate::tally::{pairs, triples, words, Item, Tally, Wanted};
use crate::truth::{Evaluator, Truth, RIGHT};
use std::collections::BTreeSet;

const STAYS: &str = "what stays";
const DECISION: &str = "decision of a reordered policy or set";
const BELOW: &str = "decision of one reordered below line 1, and of its book";
const WHERE: &str = "reordered policy or set";
const AT_ONCE: &str = "reordered at once";
const MOVED: &str = "children that change places";
const EXCHANGED: &str = "two children of which the later comes first";
const CHANGED: &str = "what reordering this alone changes";

const DECISIONS: [&str; 4] = ["Permit", "Deny", "NotApplicable", "Indeterminate"];
/// What rules decide, with the effect of those that are Indeterminate.
const OF_RULES: [&str; 5] = ["Permit", "Deny", "NotApplicable", PERMIT_LOST, DENY_LOST];
const PERMIT_LOST: &str = "Indeterminate Permit";
const DENY_LOST: &str = "Indeterminate Deny";
const TARGETS: [&str; 3] = ["Match", "No-match", "Indeterminate"];

const OVER_RULES: [&str; 2] = ["deny-overrides over rules", "permit-overrides over rules"];
const DENY_OVERRIDES: &str = "deny-overrides over policies";
const PERMIT_OVERRIDES: &str = "permit-overrides over policies";
const ONLY_ONE: &str = "only-one-applicable";
/// Those that may be Indeterminate themselves.
const UNSURE: [&str; 4] = [OVER_RULES[0], OVER_RULES[1], PERMIT_OVERRIDES, ONLY_ONE];
const FIRST_APPLICABLE: [&str; 2] = ["first-applicable over rules", "first-applicable over policies"];

const DEPTHS: [&str; 3] = ["at line 1", "at depth 2", "at depth 3 or more"];
const ROWS: [&str; 3] = ["one", "several", "one inside another"];
const KINDS: [&str; 2] = ["rules", "policies and sets"];
const CHILDREN: [&str; 4] = ["two", "three or more", "of equal length", "of unequal length"];
const BOTH_KINDS: &str = "a policy and a set";
const TWICE: &str = "a number twice";
const OTHER_DECISION: &str = "the decision";
const OTHER_CODE: &str = "the code alone";
const OTHER_NUMBERS: [&str; 2] = ["the obligations of a Permit", "the obligations of a Deny"];
const OTHER_ORDER: [&str; 2] = ["the order of a Permit's obligations", "the order of a Deny's obligations"];

pub fn wanted() -> Wanted {
    let mut wanted = vec![
        (STAYS, pairs(&[Stays::Answer, Stays::Numbers, Stays::Nothing].map(Stays::name), &DECISIONS)),
        (STAYS, pairs(&[Stays::Decision.name()], &DECISIONS[..2])),
        (STAYS, pairs(&[Stays::Numbers.name()], &[TWICE])),
        (WHERE, pairs(&["policy", "set"], &DEPTHS)),
        (AT_ONCE, words(&ROWS)),
        (MOVED, pairs(&KINDS, &CHILDREN)),
        (MOVED, words(&[BOTH_KINDS])),
        (CHANGED, pairs(&FIRST_APPLICABLE, &[OTHER_DECISION])),
        (CHANGED, pairs(&[DENY_OVERRIDES], &[OTHER_NUMBERS[1], OTHER_ORDER[0]])),
        (CHANGED, pairs(&[PERMIT_OVERRIDES], &[OTHER_NUMBERS[0], OTHER_ORDER[1]])),
        (CHANGED, pairs(&UNSURE, &[OTHER_CODE])),
    ];
    wanted.extend([
        (DECISION, pairs(&UNSURE, &DECISIONS)),
        (DECISION, pairs(&[DENY_OVERRIDES], &DECISIONS[..3])),
        (BELOW, triples(&UNSURE, &DECISIONS, &DECISIONS)),
        (BELOW, triples(&[DENY_OVERRIDES], &DECISIONS[..3], &DECISIONS)),
    ]);
    let over_rules = OVER_RULES.iter().flat_map(|algorithm| each_two(algorithm, &OF_RULES));
    let over_policies = [DENY_OVERRIDES, PERMIT_OVERRIDES].into_iter().flat_map(|name| each_two(name, &DECISIONS));
    wanted.push((EXCHANGED, over_rules.chain(over_policies).chain(each_two(ONLY_ONE, &TARGETS)).collect()));
    wanted
}

/// Every two of these words, also one twice.
fn each_two(algorithm: &'static str, words: &[&'static str]) -> Vec<Item> {
    let with = |first: usize| words[first..].iter().map(move |&second| two(algorithm, words[first], second));
    (0..words.len()).flat_map(with).collect()
}

/// Two children, whichever comes first.
fn two(algorithm: &'static str, first: &'static str, second: &'static str) -> Item {
    (algorithm, first.min(second), first.max(second)).into()
}

/// Counts what a pair is about, with the evaluator's answers of the book and of the reordered one.
pub fn count(pair: &Pair, [old, new]: &[Answer; 2], tally: &mut Tally) {
    let (records, rows) = (&pair.old, &pair.rows.0);
    let stays = pair.stays(old.decision.number());
    if says_enough(old) {
        tally.met(STAYS, (stays.name(), old.decision.name()));
    }
    if rising(old).windows(2).any(|numbers| numbers[0] == numbers[1]) {
        tally.met(STAYS, (stays.name(), TWICE));
    }
    if let ([row], Some(what)) = (&rows[..], changed(old, new)) {
        let parent = &records[row.parent];
        tally.met(CHANGED, (Algorithm::of(parent).name(parent.kind() == POLICY), what));
    }
    if stays == Stays::Nothing {
        return;
    }
    tally.met(AT_ONCE, ROWS[usize::from(rows.len() > 1)]);
    if rows.windows(2).any(|two| two[1].parent < end_of(records, two[0].parent)) {
        tally.met(AT_ONCE, ROWS[2]);
    }
    for row in rows {
        count_children(records, row, tally);
        count_decision(pair, row, old, tally);
    }
}

/// Where a record with all its lines ends.
fn end_of(records: &[Record], at: usize) -> usize {
    at + records[at].span()
}

/// Whether an answer has an obligation where it may.
fn says_enough(answer: &Answer) -> bool {
    ![Decision::Permit, Decision::Deny].contains(&answer.decision) || !answer.obligations.is_empty()
}

/// The obligations by rising numbers.
fn rising(answer: &Answer) -> Vec<u16> {
    let mut numbers = answer.obligations.clone();
    numbers.sort_unstable();
    numbers
}

/// Where the row stands, and which of its children change places.
fn count_children(records: &[Record], row: &Row, tally: &mut Tally) {
    let parent = &records[row.parent];
    let above = (0..row.parent).filter(|&at| end_of(records, at) > row.parent).count();
    tally.met(WHERE, (parent.name(), DEPTHS[above.min(2)]));
    let children = children(records, row.parent);
    let moved: Vec<&Record> = row.moved().iter().map(|&child| &records[children[child].start]).collect();
    let kind = KINDS[usize::from(parent.kind() == SET)];
    tally.met(MOVED, (kind, CHILDREN[usize::from(moved.len() > 2)]));
    let is_unequal = moved.iter().any(|child| child.span() != moved[0].span());
    tally.met(MOVED, (kind, CHILDREN[2 + usize::from(is_unequal)]));
    if moved.iter().any(|child| child.kind() != moved[0].kind()) {
        tally.met(MOVED, BOTH_KINDS);
    }
}

/// What the policy or set decides by its algorithm, over which children, and what the book by it.
fn count_decision(pair: &Pair, row: &Row, whole: &Answer, tally: &mut Tally) {
    let lines = row.parent..end_of(&pair.old, row.parent);
    let (policy, attributes) = (tree(&book_bytes(&pair.old[lines])), attributes(&pair.request));
    let mut aside = Tally::default();
    let mut evaluator = Evaluator::new(&attributes, RIGHT, &mut aside);
    if evaluator.target(&policy.target) != Truth::True {
        return;
    }
    let (name, words) = (policy.algorithm_name(), child_words(&mut evaluator, &policy));
    let exchanged: BTreeSet<Item> =
        row.exchanged().into_iter().map(|(first, second)| two(name, words[first], words[second])).collect();
    exchanged.into_iter().for_each(|item| tally.met(EXCHANGED, item));
    let own = evaluator.applicable(&policy);
    if !says_enough(&own) {
        return;
    }
    tally.met(DECISION, (name, own.decision.name()));
    let is_alike = own.decision == whole.decision;
    if row.parent > 0 && says_enough(whole) && (!is_alike || has(&whole.obligations, &own.obligations)) {
        tally.met(BELOW, (name, own.decision.name(), whole.decision.name()));
    }
}

/// What each child of a policy or set decides; of an only-one set what its target is.
fn child_words(evaluator: &mut Evaluator, policy: &Policy) -> Vec<&'static str> {
    match &policy.children {
        Children::Rules(rules) => rules.iter().map(|rule| rule_word(evaluator.rule(rule), rule.effect)).collect(),
        Children::Policies(policies) if policy.algorithm == Algorithm::OnlyOneApplicable => {
            policies.iter().map(|child| target_word(evaluator.target(&child.target))).collect()
        }
        Children::Policies(policies) => policies.iter().map(|child| evaluator.policy(child).decision.name()).collect(),
    }
}

fn rule_word(decision: Decision, effect: Decision) -> &'static str {
    match (decision, effect) {
        (Decision::Indeterminate(_), Decision::Permit) => PERMIT_LOST,
        (Decision::Indeterminate(_), _) => DENY_LOST,
        _ => decision.name(),
    }
}

fn target_word(truth: Truth) -> &'static str {
    match truth {
        Truth::True => TARGETS[0],
        Truth::False => TARGETS[1],
        Truth::Unknown(_) => TARGETS[2],
    }
}

/// Whether a list has another one, without a gap.
fn has(list: &[u16], part: &[u16]) -> bool {
    part.is_empty() || list.windows(part.len()).any(|window| window == part)
}

/// What of the answer is not as it was.
fn changed(old: &Answer, new: &Answer) -> Option<&'static str> {
    let denies = usize::from(old.decision == Decision::Deny);
    match () {
        _ if old.decision.number() != new.decision.number() => Some(OTHER_DECISION),
        _ if old.decision != new.decision => Some(OTHER_CODE),
        _ if rising(old) != rising(new) => Some(OTHER_NUMBERS[denies]),
        _ if old.obligations != new.obligations => Some(OTHER_ORDER[denies]),
        _ => None,
    }
}
