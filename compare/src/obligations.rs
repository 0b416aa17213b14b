//! Obligations of document 01's section "What is decided", and every way in which they are kept or lost.

use crate::policy::*;
use crate::status::{Outcome, Status};
use crate::tally::{pairs, triples, words, Item, Wanted};
use crate::truth::Evaluator;
use std::cmp::Ordering;
use Decision::{Deny, Permit};

/// A decision with the obligations that are handed up.
#[derive(Clone, PartialEq, Eq, Debug)]
pub struct Answer {
    pub decision: Decision,
    pub obligations: Vec<u16>,
    /// Over how many levels the obligations came up.
    pub levels: usize,
}

impl Outcome for Answer {
    fn status(&self) -> Option<Status> {
        self.decision.status()
    }
}

pub fn bare(decision: Decision) -> Answer {
    Answer { decision, obligations: Vec::new(), levels: 0 }
}

/// A policy or set that decided Permit or Deny, for the counts.
struct Conclusion<'a> {
    algorithm: &'static str,
    decision: Decision,
    evaluated: &'a [Answer],
    /// The children that handed up obligations with this decision, and those with the other.
    kept: Vec<&'a Answer>,
    lost: Vec<&'a Answer>,
    own: Vec<u16>,
    own_not_due: usize,
}

impl Evaluator<'_> {
    /// Those of evaluated children with the same decision, in child order, then the record's own.
    pub fn conclude(&mut self, policy: &Policy, decision: Decision, evaluated: &[Answer]) -> Answer {
        let algorithm = policy.algorithm_name();
        if decision != Permit && decision != Deny {
            self.met_if(!policy.obligations.is_empty(), "own obligations lost", (algorithm, decision.name()));
            return bare(decision);
        }
        policy.obligations.iter().for_each(|_| self.look());
        let own = policy.obligations.iter().filter(|own| own.effect == decision);
        let own: Vec<u16> = own.map(|own| own.number).collect();
        let own_not_due = policy.obligations.len() - own.len();
        let givers = evaluated.iter().filter(|child| !child.obligations.is_empty());
        let (kept, lost): (Vec<&Answer>, Vec<&Answer>) = givers.partition(|child| child.decision == decision);
        let of_children = kept.iter().flat_map(|child| &child.obligations);
        let obligations = of_children.chain(&own).copied().collect();
        let levels = kept.iter().map(|child| child.levels + 1).max().unwrap_or(0);
        if self.asides == 0 {
            self.count_conclusion(&Conclusion { algorithm, decision, evaluated, kept, lost, own, own_not_due });
        }
        Answer { decision, obligations, levels }
    }

    fn met_if(&mut self, holds: bool, group: &'static str, item: impl Into<Item>) {
        if holds {
            self.met(group, item);
        }
    }

    fn count_conclusion(&mut self, conclusion: &Conclusion) {
        self.count_own(conclusion);
        if !conclusion.kept.is_empty() {
            self.count_kept(conclusion);
        }
        if !conclusion.lost.is_empty() {
            self.count_lost(conclusion);
        }
    }

    fn count_own(&mut self, conclusion: &Conclusion) {
        let Conclusion { algorithm, decision, own, .. } = conclusion;
        let of_decision = (*algorithm, decision.name());
        let kept = "own obligations kept";
        self.met_if(!own.is_empty(), kept, of_decision);
        self.met_if(own.len() > 1, kept, ("several", decision.name()));
        self.met_if(own.contains(&0), kept, "number 0");
        let beside = conclusion.unknown_child() && !own.is_empty();
        self.met_if(beside, "own obligations kept beside an Indeterminate child", of_decision);
        let not_due = if *decision == Permit { "not due on Permit" } else { "not due on Deny" };
        self.met_if(conclusion.own_not_due > 0, "own obligations lost", (*algorithm, not_due));
    }

    fn count_kept(&mut self, conclusion: &Conclusion) {
        let Conclusion { algorithm, decision, kept, own, .. } = conclusion;
        let of_decision = (*algorithm, decision.name());
        let two_levels = kept.iter().any(|child| child.levels > 0);
        self.met("child's obligations kept", of_decision);
        self.met_if(kept.len() > 1, "child's obligations kept, of several children", of_decision);
        self.met_if(!own.is_empty(), "child's obligations kept, own after them", of_decision);
        self.met_if(two_levels, "child's obligations kept over two levels or more", of_decision);
        let beside = conclusion.unknown_child();
        self.met_if(beside, "child's obligations kept beside an Indeterminate child", of_decision);
    }

    fn count_lost(&mut self, conclusion: &Conclusion) {
        let Conclusion { kept, lost, own, .. } = conclusion;
        let way = (lost[0].decision.name(), conclusion.winner());
        self.met("child's obligations lost", way);
        self.met_if(lost.len() > 1, "child's obligations lost, of several children", way);
        self.met_if(!own.is_empty(), "child's obligations lost, own kept", way);
        self.met_if(!kept.is_empty(), "child's obligations lost, another child's kept", way);
        let levels = lost.iter().map(|child| child.levels).max().unwrap_or(0);
        let after = if levels == 1 { "after one level" } else { "after two levels or more" };
        self.met_if(levels > 0, "obligations handed up and lost", (way.0, way.1, after));
    }

    /// Counts the Deny obligations of an Indeterminate child that makes deny-overrides Deny, and what the
    /// children after the stop would have handed up.
    pub fn count_stop(&mut self, algorithm: &'static str, decision: Decision, stop: Decision, from_stop: &[Policy]) {
        if self.asides > 0 {
            return;
        }
        let turned_into_deny = stop.status().is_some() && decision == Deny;
        let has_deny = from_stop[0].obligations.iter().any(|own| own.effect == Deny);
        let item = ("Deny", "of the Indeterminate child that stops");
        self.met_if(turned_into_deny && has_deny, "child's obligations lost", item);
        for policy in &from_stop[1..] {
            let answer = self.aside(|aside| aside.policy(policy));
            let item = (algorithm, stop.name(), answer.decision.name());
            self.met_if(!answer.obligations.is_empty(), "child's obligations lost after the stop", item);
            self.met_if(answer.levels > 0, "deeper obligations lost after the stop", item);
        }
    }

    /// Counts what the matching children of an only-one set would have handed up, had not the child at
    /// `stop` made the set Indeterminate.
    pub fn count_not_chosen(&mut self, why: &'static str, policies: &[Policy], stop: usize) {
        if self.asides > 0 {
            return;
        }
        for (index, policy) in policies.iter().enumerate() {
            let answer = self.aside(|aside| aside.policy(policy));
            let place = match index.cmp(&stop) {
                Ordering::Less => "of one before it",
                Ordering::Equal => "its own",
                Ordering::Greater => "of one after it",
            };
            let item = (why, place, answer.decision.name());
            self.met_if(!answer.obligations.is_empty(), "child's obligations lost to only-one-applicable", item);
            self.met_if(answer.levels > 0, "deeper obligations lost to only-one-applicable", item);
        }
    }

    /// Counts the obligations that would have been handed up, had the target been Match; `judged_by` is
    /// the kind of the record, or only-one-applicable where the parent judges its children's targets.
    pub fn count_lost_by_target(&mut self, policy: &Policy, judged_by: &'static str, target: &'static str) {
        if self.asides > 0 {
            return;
        }
        self.met_if(!policy.obligations.is_empty(), "own obligations lost", (judged_by, target));
        if let Children::Rules(_) = policy.children {
            return;
        }
        let answer = self.aside(|aside| aside.applicable(policy));
        let item = (judged_by, target, answer.decision.name());
        self.met_if(answer.levels == 1, "children's obligations lost by a target", item);
        self.met_if(answer.levels > 1, "deeper obligations lost by a target", item);
    }

    /// Counts what the answer to the whole book has.
    pub fn count_answer(&mut self, answer: &Answer) {
        if answer.decision != Permit && answer.decision != Deny {
            return;
        }
        let from = match (answer.obligations.is_empty(), answer.levels) {
            (true, _) => "none",
            (false, 0) => "own alone",
            (false, 1) => "over one level",
            (false, 2) => "over two levels",
            (false, _) => "over three levels or more",
        };
        self.met("obligations of the answer", (answer.decision.name(), from));
        let mut numbers = answer.obligations.clone();
        numbers.sort_unstable();
        let twice = numbers.windows(2).any(|pair| pair[0] == pair[1]);
        self.met_if(twice, "obligations of the answer", "a number twice");
    }
}

impl Conclusion<'_> {
    fn unknown_child(&self) -> bool {
        self.evaluated.iter().any(|child| child.status().is_some())
    }

    /// The child that the lost ones lost to: the one that stopped.
    fn winner(&self) -> &'static str {
        match self.evaluated.last().map(|child| child.decision) {
            Some(Permit) => "to a Permit child",
            Some(Deny) => "to a Deny child",
            _ => "to an Indeterminate child",
        }
    }
}

const EFFECTS: [&str; 2] = ["Permit", "Deny"];
const OVER_RULES: [&str; 3] =
    ["deny-overrides over rules", "permit-overrides over rules", "first-applicable over rules"];
const DENY_OVERRIDES: &str = "deny-overrides over policies";
const PERMIT_OVERRIDES: &str = "permit-overrides over policies";
const FIRST_APPLICABLE: &str = "first-applicable over policies";
const ONLY_ONE: &str = "only-one-applicable";
pub const CHILD_OF_ONLY_ONE: &str = "child of only-one-applicable";
const OVER_POLICIES: [&str; 4] = [DENY_OVERRIDES, PERMIT_OVERRIDES, FIRST_APPLICABLE, ONLY_ONE];
const TARGETS: [&str; 2] = ["target No-match", "target Indeterminate"];

/// Every way in which obligations are kept or lost.
pub fn wanted_obligations() -> Wanted {
    [wanted_own(), wanted_kept(), wanted_lost(), wanted_not_evaluated()].concat()
}

fn wanted_own() -> Wanted {
    let kept = "own obligations kept";
    let lost = "own obligations lost";
    let beside = "own obligations kept beside an Indeterminate child";
    let why = ["not due on Permit", "not due on Deny", "NotApplicable"];
    vec![
        (kept, pairs(&OVER_RULES, &EFFECTS)),
        (kept, pairs(&OVER_POLICIES, &EFFECTS)),
        (kept, pairs(&["several"], &EFFECTS)),
        (kept, words(&["number 0"])),
        // Under first-applicable and only-one-applicable an Indeterminate child is the answer.
        (beside, pairs(&[DENY_OVERRIDES], &["Deny"])),
        (beside, pairs(&[PERMIT_OVERRIDES], &EFFECTS)),
        (lost, pairs(&OVER_RULES, &why)),
        (lost, pairs(&OVER_POLICIES, &why)),
        // Deny-overrides over policies is never Indeterminate.
        (lost, pairs(&OVER_RULES, &["Indeterminate"])),
        (lost, pairs(&[PERMIT_OVERRIDES, FIRST_APPLICABLE, ONLY_ONE], &["Indeterminate"])),
        (lost, pairs(&["policy", "set", CHILD_OF_ONLY_ONE], &TARGETS)),
    ]
}

fn wanted_kept() -> Wanted {
    let several = "child's obligations kept, of several children";
    let answer = "obligations of the answer";
    let from = ["none", "own alone", "over one level", "over two levels", "over three levels or more"];
    vec![
        ("child's obligations kept", pairs(&OVER_POLICIES, &EFFECTS)),
        // Every other decision is that of one child, the one that stopped or the only one.
        (several, vec![(DENY_OVERRIDES, "Permit").into(), (PERMIT_OVERRIDES, "Deny").into()]),
        ("child's obligations kept, own after them", pairs(&OVER_POLICIES, &EFFECTS)),
        ("child's obligations kept over two levels or more", pairs(&OVER_POLICIES, &EFFECTS)),
        ("child's obligations kept beside an Indeterminate child", pairs(&[PERMIT_OVERRIDES], &EFFECTS)),
        (answer, pairs(&EFFECTS, &from)),
        (answer, words(&["a number twice"])),
    ]
}

/// An evaluated child's obligations are lost to the decision that overrides and to nothing else: no set
/// turns its child's Permit or Deny into NotApplicable or Indeterminate.
fn wanted_lost() -> Wanted {
    let lost = "child's obligations lost";
    let handed_up = "obligations handed up and lost";
    let permit_to = ["to a Deny child", "to an Indeterminate child"];
    let deny_to = ["to a Permit child"];
    let after = ["after one level", "after two levels or more"];
    let mut wanted = vec![
        (lost, pairs(&["Deny"], &["of the Indeterminate child that stops"])),
        (handed_up, triples(&["Permit"], &permit_to, &after)),
        (handed_up, triples(&["Deny"], &deny_to, &after)),
        // An Indeterminate child that stops is before any Deny child.
        ("child's obligations lost, another child's kept", pairs(&["Permit"], &["to a Deny child"])),
        ("child's obligations lost, another child's kept", pairs(&["Deny"], &deny_to)),
    ];
    for group in [lost, "child's obligations lost, of several children", "child's obligations lost, own kept"] {
        wanted.push((group, pairs(&["Permit"], &permit_to)));
        wanted.push((group, pairs(&["Deny"], &deny_to)));
    }
    wanted
}

/// What children would have handed up that are not evaluated, also what they had from their own children.
fn wanted_not_evaluated() -> Wanted {
    let mut wanted = vec![
        ("children's obligations lost by a target", triples(&["set", CHILD_OF_ONLY_ONE], &TARGETS, &EFFECTS)),
        ("deeper obligations lost by a target", triples(&["set", CHILD_OF_ONLY_ONE], &TARGETS, &EFFECTS)),
    ];
    for group in ["child's obligations lost after the stop", "deeper obligations lost after the stop"] {
        wanted.push((group, triples(&[DENY_OVERRIDES], &["Deny", "Indeterminate"], &EFFECTS)));
        wanted.push((group, triples(&[PERMIT_OVERRIDES], &["Permit"], &EFFECTS)));
        wanted.push((group, triples(&[FIRST_APPLICABLE], &["Permit", "Deny", "Indeterminate"], &EFFECTS)));
    }
    for group in ["child's obligations lost to only-one-applicable", "deeper obligations lost to only-one-applicable"] {
        wanted.push((group, triples(&["second Match"], &["of one before it", "its own", "of one after it"], &EFFECTS)));
        // Those of the child whose target is Indeterminate are lost by that target.
        wanted.push((group, triples(&["target Indeterminate"], &["of one before it", "of one after it"], &EFFECTS)));
    }
    wanted
}
