//! Combining and judging with errors that are about the order of children, for the stand-ins of the tests.

use crate::decide::{combine, Combine};
use crate::obligations::Answer;
use crate::policy::*;
use crate::record::*;
use crate::reordering::children;
use crate::truth::{Evaluator, Truth};
use Algorithm::{DenyOverrides, OnlyOneApplicable, PermitOverrides};
use Decision::{Deny, NotApplicable, Permit};

/// What a stand-in does in another way.
#[derive(Clone, Copy, PartialEq, Eq, Debug)]
pub enum Error {
    // Over rules
    FirstPermitStops,
    FirstDenyStops,
    LastRuleCounts,
    OwnByTheLastRule,
    // Over policies
    PermitHidesIndeterminate,
    LastPolicyCounts,
    FirstOfTwoApplies,
    LastOfTwoApplies,
    // In what is handed up
    AfterTheStop,
    OfTheFirst,
    OfTheLast,
    OnlyOfTheLast,
    RepeatedDropped,
    // In judging
    PolicyAfterSet,
}

pub const ERRORS: [Error; 14] = [
    Error::FirstPermitStops,
    Error::FirstDenyStops,
    Error::LastRuleCounts,
    Error::OwnByTheLastRule,
    Error::PermitHidesIndeterminate,
    Error::LastPolicyCounts,
    Error::FirstOfTwoApplies,
    Error::LastOfTwoApplies,
    Error::AfterTheStop,
    Error::OfTheFirst,
    Error::OfTheLast,
    Error::OnlyOfTheLast,
    Error::RepeatedDropped,
    Error::PolicyAfterSet,
];

impl Error {
    pub fn combine(self) -> Combine {
        match self {
            Error::FirstPermitStops => first_permit_stops,
            Error::FirstDenyStops => first_deny_stops,
            Error::LastRuleCounts => last_rule_counts,
            Error::OwnByTheLastRule => own_by_the_last_rule,
            Error::PermitHidesIndeterminate => permit_hides_indeterminate,
            Error::LastPolicyCounts => last_policy_counts,
            Error::FirstOfTwoApplies => first_of_two_applies,
            Error::LastOfTwoApplies => last_of_two_applies,
            Error::AfterTheStop => after_the_stop,
            Error::OfTheFirst => of_the_first,
            Error::OfTheLast => of_the_last,
            Error::OnlyOfTheLast => only_of_the_last,
            Error::RepeatedDropped => repeated_dropped,
            Error::PolicyAfterSet => combine,
        }
    }
}

/// Whether a set of this book has a policy after a set.
pub fn has_policy_after_set(book: &[u8]) -> bool {
    let records = records(book);
    let is_after = |pair: &[u8]| pair == [SET, POLICY];
    let kinds = |at| children(&records, at).iter().map(|child| records[child.start].kind()).collect::<Vec<u8>>();
    (0..records.len()).any(|at| kinds(at).windows(2).any(is_after))
}

/// The rules of a policy with one of these algorithms; none of any other.
fn rules_of<'a>(policy: &'a Policy, algorithms: &[Algorithm]) -> &'a [Rule] {
    match &policy.children {
        Children::Rules(rules) if algorithms.contains(&policy.algorithm) => rules,
        _ => &[],
    }
}

/// The policies and sets of a set with one of these algorithms; none of any other.
fn policies_of<'a>(policy: &'a Policy, algorithms: &[Algorithm]) -> &'a [Policy] {
    match &policy.children {
        Children::Policies(policies) if algorithms.contains(&policy.algorithm) => policies,
        _ => &[],
    }
}

fn decisions(evaluator: &mut Evaluator, rules: &[Rule]) -> Vec<Decision> {
    rules.iter().map(|rule| evaluator.rule(rule)).collect()
}

fn answers(evaluator: &mut Evaluator, policies: &[Policy]) -> Vec<Answer> {
    policies.iter().map(|policy| evaluator.policy(policy)).collect()
}

// Over rules

/// Stops at the first Permit or Deny.
fn first_stops(evaluator: &mut Evaluator, policy: &Policy, algorithm: Algorithm) -> Answer {
    let decisions = decisions(evaluator, rules_of(policy, &[algorithm]));
    match decisions.into_iter().find(|decision| [Permit, Deny].contains(decision)) {
        Some(decision) => evaluator.conclude(policy, decision, &[]),
        None => combine(evaluator, policy),
    }
}

fn first_permit_stops(evaluator: &mut Evaluator, policy: &Policy) -> Answer {
    first_stops(evaluator, policy, DenyOverrides)
}

fn first_deny_stops(evaluator: &mut Evaluator, policy: &Policy) -> Answer {
    first_stops(evaluator, policy, PermitOverrides)
}

/// Of a Permit and an Indeterminate rule the later, under deny-overrides.
fn last_rule_counts(evaluator: &mut Evaluator, policy: &Policy) -> Answer {
    let decisions = decisions(evaluator, rules_of(policy, &[DenyOverrides]));
    match decisions.iter().rev().find(|decision| **decision != NotApplicable) {
        Some(&last) if !decisions.contains(&Deny) => evaluator.conclude(policy, last, &[]),
        _ => combine(evaluator, policy),
    }
}

/// A policy hands up its own only where its last rule decides.
fn own_by_the_last_rule(evaluator: &mut Evaluator, policy: &Policy) -> Answer {
    let mut answer = combine(evaluator, policy);
    let last = rules_of(policy, &[DenyOverrides, PermitOverrides]).last();
    if last.map_or(false, |rule| evaluator.rule(rule) != answer.decision) {
        answer.obligations.clear();
    }
    answer
}

// Over policies

/// An Indeterminate child after a Permit does not stop deny-overrides.
fn permit_hides_indeterminate(evaluator: &mut Evaluator, policy: &Policy) -> Answer {
    let answers = answers(evaluator, policies_of(policy, &[DenyOverrides]));
    let first = answers.iter().map(|child| child.decision).find(|decision| *decision != NotApplicable);
    if first == Some(Permit) && answers.iter().all(|child| child.decision != Deny) {
        return evaluator.conclude(policy, Permit, &answers);
    }
    combine(evaluator, policy)
}

/// Of a Deny and an Indeterminate child the later, under permit-overrides.
fn last_policy_counts(evaluator: &mut Evaluator, policy: &Policy) -> Answer {
    let answers = answers(evaluator, policies_of(policy, &[PermitOverrides]));
    let last = answers.iter().map(|child| child.decision).rev().find(|decision| *decision != NotApplicable);
    match last {
        Some(last) if answers.iter().all(|child| child.decision != Permit) => {
            evaluator.conclude(policy, last, &answers)
        }
        _ => combine(evaluator, policy),
    }
}

/// The places of the children of an only-one set that apply.
fn applicable(evaluator: &mut Evaluator, policies: &[Policy]) -> Vec<usize> {
    let places = 0..policies.len();
    places.filter(|&place| evaluator.target(&policies[place].target) == Truth::True).collect()
}

/// An only-one set has the answer of this child, whatever else applies.
fn only(evaluator: &mut Evaluator, policy: &Policy, place: Option<&usize>) -> Answer {
    match place {
        Some(&place) => {
            let answer = evaluator.applicable(&policies_of(policy, &[OnlyOneApplicable])[place]);
            evaluator.conclude(policy, answer.decision, &[answer])
        }
        None => combine(evaluator, policy),
    }
}

fn first_of_two_applies(evaluator: &mut Evaluator, policy: &Policy) -> Answer {
    let places = applicable(evaluator, policies_of(policy, &[OnlyOneApplicable]));
    only(evaluator, policy, places.first())
}

fn last_of_two_applies(evaluator: &mut Evaluator, policy: &Policy) -> Answer {
    let places = applicable(evaluator, policies_of(policy, &[OnlyOneApplicable]));
    only(evaluator, policy, places.last())
}

// In what is handed up

/// Children after the stop hand up theirs too.
fn after_the_stop(evaluator: &mut Evaluator, policy: &Policy) -> Answer {
    let answers = answers(evaluator, policies_of(policy, &[DenyOverrides, PermitOverrides]));
    let answer = combine(evaluator, policy);
    if answers.is_empty() {
        return answer;
    }
    evaluator.conclude(policy, answer.decision, &answers)
}

/// Where a set permits under deny-overrides, or denies under permit-overrides, one of its children alone hands up its own.
fn of_one(evaluator: &mut Evaluator, policy: &Policy, one: fn(Vec<Answer>) -> Option<Answer>) -> Answer {
    let mut answers = answers(evaluator, policies_of(policy, &[DenyOverrides, PermitOverrides]));
    let answer = combine(evaluator, policy);
    answers.retain(|child| child.decision == answer.decision);
    match (policy.algorithm, answer.decision, one(answers)) {
        (DenyOverrides, Permit, Some(child)) | (PermitOverrides, Deny, Some(child)) => {
            evaluator.conclude(policy, answer.decision, &[child])
        }
        _ => answer,
    }
}

fn of_the_first(evaluator: &mut Evaluator, policy: &Policy) -> Answer {
    of_one(evaluator, policy, |answers| answers.into_iter().next())
}

fn of_the_last(evaluator: &mut Evaluator, policy: &Policy) -> Answer {
    of_one(evaluator, policy, |answers| answers.into_iter().last())
}

/// The one child of an only-one set that applies hands up its own only where it is the last.
fn only_of_the_last(evaluator: &mut Evaluator, policy: &Policy) -> Answer {
    let policies = policies_of(policy, &[OnlyOneApplicable]);
    let places = applicable(evaluator, policies);
    let answer = combine(evaluator, policy);
    match places[..] {
        [one] if one + 1 < policies.len() => evaluator.conclude(policy, answer.decision, &[]),
        _ => answer,
    }
}

/// A number that comes twice running is handed up once.
fn repeated_dropped(evaluator: &mut Evaluator, policy: &Policy) -> Answer {
    let mut answer = combine(evaluator, policy);
    answer.obligations.dedup();
    answer
}
