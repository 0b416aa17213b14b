//! Deciding: rules, policies and sets of document 01's section "What is decided".

use crate::codes::{effect_of, wanted_codes};
use crate::expression::wanted_sums;
use crate::judge::{self, Refused};
use crate::obligations::{bare, wanted_obligations, Answer, CHILD_OF_ONLY_ONE};
use crate::policy::*;
use crate::refusal::too_short;
use crate::status::{Lost, Outcome};
use crate::tally::{pairs, Tally, Wanted};
use crate::truth::{wanted_truths, Evaluator, Truth, Ways, RIGHT};
use Decision::{Deny, Indeterminate, NotApplicable, Permit};

/// What the C host is to answer, with `out` as it is to be afterwards.
pub fn host_call(book: &[u8], request: &[u8], out: &mut [u8], tally: &mut Tally) -> u64 {
    host_call_by(RIGHT, book, request, out, tally)
}

/// The same in other ways.
pub fn host_call_by(ways: Ways, book: &[u8], request: &[u8], out: &mut [u8], tally: &mut Tally) -> u64 {
    if let Err(refused) = judge_call(book, request, out.len() / 2) {
        refused.count(tally);
        return refused.refusal.packed();
    }
    let (answer, _) = decide_by(ways, book, request, tally);
    out.fill(0);
    for (pair, number) in out.chunks_mut(2).zip(&answer.obligations) {
        pair.copy_from_slice(&number.to_be_bytes());
    }
    host_number(&answer)
}

/// What the C host answers where nothing is refused.
pub fn host_number(answer: &Answer) -> u64 {
    answer.decision.number() + 256 * answer.obligations.len() as u64 + 1_099_511_627_776 * answer.decision.code()
}

/// Judges book, request and output, in this order.
fn judge_call(book: &[u8], request: &[u8], places: usize) -> Result<(), Refused> {
    let accepted = judge::book(book)?;
    judge::request(request)?;
    if places < accepted.obligations {
        return Err(Refused::without_line(too_short()));
    }
    Ok(())
}

/// Decides an accepted book on an accepted request. Also gives the number of records looked at.
pub fn decide(book: &[u8], request: &[u8], tally: &mut Tally) -> (Answer, u64) {
    decide_by(RIGHT, book, request, tally)
}

/// The same in other ways.
pub fn decide_by(ways: Ways, book: &[u8], request: &[u8], tally: &mut Tally) -> (Answer, u64) {
    let attributes = attributes(request);
    let root = tree(book);
    let mut evaluator = Evaluator::new(&attributes, ways, tally);
    let answer = evaluator.whole(|inner| inner.policy(&root));
    evaluator.met("decision of the root", (root.name(), answer.decision.name()));
    evaluator.count_answer(&answer);
    evaluator.count_code(answer.decision);
    (answer, evaluator.looked_at)
}

/// How a policy or set whose target is Match comes to its answer.
pub type Combine = fn(&mut Evaluator, &Policy) -> Answer;

pub fn combine(evaluator: &mut Evaluator, policy: &Policy) -> Answer {
    match &policy.children {
        Children::Rules(rules) => {
            let decision = evaluator.rules(policy.algorithm, rules);
            evaluator.conclude(policy, decision, &[])
        }
        Children::Policies(policies) => {
            let (decision, evaluated) = evaluator.policies(policy.algorithm, policies);
            evaluator.conclude(policy, decision, &evaluated)
        }
    }
}

impl Evaluator<'_> {
    pub fn rule(&mut self, rule: &Rule) -> Decision {
        self.look();
        let (why, decision) = match self.whole(|inner| inner.target(&rule.target)) {
            Truth::False => ("target No-match", NotApplicable),
            Truth::Unknown(status) => ("target Indeterminate", Indeterminate(status)),
            Truth::True => match rule.condition.as_ref().map(|condition| self.condition(condition)) {
                None => ("no condition", rule.effect),
                Some(Truth::True) => ("condition True", rule.effect),
                Some(Truth::False) => ("condition False", NotApplicable),
                Some(Truth::Unknown(status)) => ("condition Indeterminate", Indeterminate(status)),
            },
        };
        self.met("rule", (rule.effect.name(), why));
        decision
    }

    pub fn policy(&mut self, policy: &Policy) -> Answer {
        self.look();
        let (decision, why) = match self.whole(|inner| inner.target(&policy.target)) {
            Truth::True => return self.applicable(policy),
            Truth::False => (NotApplicable, "target No-match"),
            Truth::Unknown(status) => (Indeterminate(status), "target Indeterminate"),
        };
        self.met("policy or set", (policy.name(), why));
        self.count_lost_by_target(policy, policy.name(), why);
        bare(decision)
    }

    /// The answer of a policy or set whose target is Match.
    pub fn applicable(&mut self, policy: &Policy) -> Answer {
        (self.ways.combine)(self, policy)
    }

    // The algorithms over rules

    fn rules(&mut self, algorithm: Algorithm, rules: &[Rule]) -> Decision {
        match algorithm {
            Algorithm::DenyOverrides => self.overriding_rules("deny-overrides over rules", Deny, Permit, rules),
            Algorithm::PermitOverrides => self.overriding_rules("permit-overrides over rules", Permit, Deny, rules),
            _ => self.first_applicable_rule(rules),
        }
    }

    /// `strong` stops; else Indeterminate if a `strong` rule was; else `weak` if any; else Indeterminate if any.
    fn overriding_rules(&mut self, group: &'static str, strong: Decision, weak: Decision, rules: &[Rule]) -> Decision {
        let (mut lost, mut weak_seen) = (Vec::new(), false);
        for (place, rule) in rules.iter().enumerate() {
            let decision = self.part(&mut lost, (place, Some(rule.effect)), |inner| inner.rule(rule));
            if decision == strong {
                let before = if has_lost(&lost, strong) { "after its Indeterminate rule" } else { "stops" };
                self.met(group, (strong.name(), before));
                return strong;
            }
            weak_seen |= decision == weak;
        }
        let (decision, how) = match (has_lost(&lost, strong), weak_seen, has_lost(&lost, weak)) {
            (true, true, _) => (self.lost(group, &lost), "overriding rule, over the other effect"),
            (true, false, _) => (self.lost(group, &lost), "overriding rule"),
            (false, true, true) => (weak, "despite its Indeterminate rule"),
            (false, true, false) => (weak, "alone"),
            (false, false, true) => (self.lost(group, &lost), "other rule"),
            (false, false, false) => (NotApplicable, if rules.is_empty() { "no rules" } else { "none applies" }),
        };
        self.met(group, (decision.name(), how));
        self.count_two_children(group, &lost, rules.len());
        decision
    }

    /// The Indeterminate of a list with these Indeterminate children.
    fn lost(&mut self, group: &'static str, lost: &[Lost]) -> Decision {
        Indeterminate(self.code(group, lost))
    }

    fn first_applicable_rule(&mut self, rules: &[Rule]) -> Decision {
        let group = "first-applicable over rules";
        let effect = |rule: &Rule| Some(rule.effect);
        let mut lost = Vec::new();
        for (place, rule) in rules.iter().enumerate() {
            let decision = self.part(&mut lost, (place, effect(rule)), |inner| inner.rule(rule));
            if decision != NotApplicable {
                self.met(group, (decision.name(), if place == 0 { "of the first" } else { "of a later one" }));
                if !lost.is_empty() {
                    lost.extend(self.lost_later(place + 1, rules, effect, Self::rule));
                    self.count_two_children(group, &lost, rules.len());
                }
                return decision;
            }
        }
        self.met(group, (NotApplicable.name(), if rules.is_empty() { "no rules" } else { "none applies" }));
        NotApplicable
    }

    // The algorithms over policies and sets

    /// The decision, and the answers of the children that were evaluated.
    fn policies(&mut self, algorithm: Algorithm, policies: &[Policy]) -> (Decision, Vec<Answer>) {
        match algorithm {
            Algorithm::DenyOverrides => self.walk(
                "deny-overrides over policies",
                policies,
                |child| match child {
                    Deny | Indeterminate(_) => Some(Deny),
                    _ => None,
                },
                Permit,
            ),
            Algorithm::PermitOverrides => self.walk(
                "permit-overrides over policies",
                policies,
                |child| match child {
                    Permit => Some(Permit),
                    _ => None,
                },
                Deny,
            ),
            Algorithm::FirstApplicable => self.walk(
                "first-applicable over policies",
                policies,
                |child| match child {
                    NotApplicable => None,
                    answer => Some(answer),
                },
                NotApplicable,
            ),
            Algorithm::OnlyOneApplicable => self.only_one(policies),
        }
    }

    /// Evaluates children until one stops the walk; if none does, the decision is `otherwise` if a child gave it, else
    /// Indeterminate if any, else NotApplicable.
    fn walk(
        &mut self,
        group: &'static str,
        policies: &[Policy],
        stops: fn(Decision) -> Option<Decision>,
        otherwise: Decision,
    ) -> (Decision, Vec<Answer>) {
        let mut evaluated: Vec<Answer> = Vec::new();
        let mut lost = Vec::new();
        for (place, policy) in policies.iter().enumerate() {
            let answer = self.part(&mut lost, (place, effect_of(policy)), |inner| inner.policy(policy));
            let given = answer.decision;
            let stop = stops(given);
            self.met(group, (if stop.is_some() { "stopped by" } else { "goes on after" }, given.name()));
            evaluated.push(answer);
            if let Some(decision) = stop {
                self.count_stop(group, decision, given, &policies[place..]);
                if given.status().is_some() {
                    self.count_lost_by_stop(group, decision, lost, policies);
                }
                self.met(group, (decision.name(), beside(decision, &evaluated)));
                return (decision, evaluated);
            }
        }
        let decision = if evaluated.iter().any(|child| child.decision == otherwise) {
            otherwise
        } else if lost.is_empty() {
            NotApplicable
        } else {
            self.count_two_children(group, &lost, policies.len());
            self.lost(group, &lost)
        };
        self.met(
            group,
            (decision.name(), if policies.is_empty() { "no children" } else { beside(decision, &evaluated) }),
        );
        (decision, evaluated)
    }

    /// Judges children's targets only; the one that applies gives its answer.
    fn only_one(&mut self, policies: &[Policy]) -> (Decision, Vec<Answer>) {
        let mut applicable: Option<&Policy> = None;
        for (index, policy) in policies.iter().enumerate() {
            self.look();
            match (self.whole(|inner| inner.target(&policy.target)), applicable) {
                (Truth::False, _) => self.count_lost_by_target(policy, CHILD_OF_ONLY_ONE, "target No-match"),
                (Truth::True, None) => applicable = Some(policy),
                (Truth::True, Some(_)) => {
                    self.met(ONLY_ONE, ("Indeterminate", "two Match"));
                    self.count_not_chosen("second Match", policies, index);
                    return (self.not_one(policies), Vec::new());
                }
                (Truth::Unknown(_), first) => {
                    let before = if first.is_some() { "a target, after a Match" } else { "a target" };
                    self.met(ONLY_ONE, ("Indeterminate", before));
                    self.count_lost_by_target(policy, CHILD_OF_ONLY_ONE, "target Indeterminate");
                    self.count_not_chosen("target Indeterminate", policies, index);
                    return (self.not_one(policies), Vec::new());
                }
            }
        }
        match applicable {
            None => {
                let none = if policies.is_empty() { "no children" } else { "no Match" };
                self.met(ONLY_ONE, ("NotApplicable", none));
                (NotApplicable, Vec::new())
            }
            Some(policy) => {
                let answer = self.applicable(policy);
                self.met(ONLY_ONE, (answer.decision.name(), "of the one that applies"));
                self.count_the_one(answer.decision, policies.len());
                (answer.decision, vec![answer])
            }
        }
    }

    /// An only-one set's own Indeterminate: the first met of an Indeterminate target and a second Match.
    fn not_one(&mut self, policies: &[Policy]) -> Decision {
        let doubts = self.doubts(policies);
        Indeterminate((self.ways.pick)(ONLY_ONE, &doubts))
    }

    /// Counts the Indeterminate child that stops a walk beside one after the stop.
    fn count_lost_by_stop(
        &mut self,
        group: &'static str,
        decision: Decision,
        mut lost: Vec<Lost>,
        policies: &[Policy],
    ) {
        let from = lost[0].place + 1; // it stops at the first
        lost.extend(self.lost_later(from, policies, effect_of, |aside, policy| aside.policy(policy).decision));
        if decision == Deny {
            self.count_turned_into_deny(group, &lost, policies.len());
        } else {
            self.count_two_children(group, &lost, policies.len());
        }
    }
}

const ONLY_ONE: &str = "only-one-applicable";

fn has_lost(lost: &[Lost], effect: Decision) -> bool {
    lost.iter().any(|rule| rule.effect == Some(effect))
}

/// What evaluated children gave beside the decision, in words for the counts.
fn beside(decision: Decision, evaluated: &[Answer]) -> &'static str {
    let gave = |name| name != decision.name() && evaluated.iter().any(|child| child.decision.name() == name);
    if gave("Permit") {
        "over Permit"
    } else if gave("Deny") {
        "over Deny"
    } else if gave("Indeterminate") {
        "over Indeterminate"
    } else {
        "alone"
    }
}

/// Everything that a run of decisions must meet.
pub fn wanted() -> Wanted {
    let decisions = ["Permit", "Deny", "NotApplicable", "Indeterminate"];
    let effects = ["Permit", "Deny"];
    let mut wanted = wanted_truths();
    wanted.extend(wanted_sums());
    wanted.extend(wanted_obligations());
    wanted.extend(wanted_codes());
    wanted.extend([
        ("decision of the root", pairs(&["policy", "set"], &decisions)),
        ("rule", pairs(&effects, &["target No-match", "target Indeterminate", "no condition"])),
        ("rule", pairs(&effects, &["condition True", "condition False", "condition Indeterminate"])),
        ("policy or set", pairs(&["policy", "set"], &["target No-match", "target Indeterminate"])),
        (
            "first-applicable over rules",
            pairs(&["Permit", "Deny", "Indeterminate"], &["of the first", "of a later one"]),
        ),
        ("first-applicable over rules", pairs(&["NotApplicable"], &["no rules", "none applies"])),
        ("deny-overrides over policies", pairs(&["Deny"], &["alone", "over Permit", "over Indeterminate"])),
        ("deny-overrides over policies", pairs(&["Permit"], &["alone"])),
        ("deny-overrides over policies", pairs(&["NotApplicable"], &["alone", "no children"])),
        ("deny-overrides over policies", pairs(&["stopped by"], &["Deny", "Indeterminate"])),
        ("permit-overrides over policies", pairs(&["Permit"], &["alone", "over Deny", "over Indeterminate"])),
        ("permit-overrides over policies", pairs(&["Deny"], &["alone", "over Indeterminate"])),
        ("permit-overrides over policies", pairs(&["Indeterminate"], &["alone"])),
        ("permit-overrides over policies", pairs(&["NotApplicable"], &["alone", "no children"])),
        ("first-applicable over policies", pairs(&["Permit", "Deny", "Indeterminate"], &["alone"])),
        ("first-applicable over policies", pairs(&["NotApplicable"], &["alone", "no children"])),
        ("first-applicable over policies", pairs(&["goes on after"], &["NotApplicable"])),
        ("only-one-applicable", pairs(&["Indeterminate"], &["two Match", "a target", "a target, after a Match"])),
        ("only-one-applicable", pairs(&["NotApplicable"], &["no children", "no Match"])),
        ("only-one-applicable", pairs(&decisions, &["of the one that applies"])),
    ]);
    wanted.extend(wanted_overriding("deny-overrides over rules", "Deny", "Permit"));
    wanted.extend(wanted_overriding("permit-overrides over rules", "Permit", "Deny"));
    wanted
}

fn wanted_overriding(group: &'static str, strong: &'static str, weak: &'static str) -> Wanted {
    vec![
        (group, pairs(&[strong], &["stops", "after its Indeterminate rule"])),
        (group, pairs(&[weak], &["alone", "despite its Indeterminate rule"])),
        (
            group,
            pairs(&["Indeterminate"], &["overriding rule", "overriding rule, over the other effect", "other rule"]),
        ),
        (group, pairs(&["NotApplicable"], &["no rules", "none applies"])),
    ]
}
