//! What a run of salvaging must meet in half-copied books (document 02, 6): the bad lines that 13 refuses.

use crate::copied::Wrong;
use crate::record::*;
use crate::salvage_counts::Seen;
use crate::tally::{numbers, pairs, words, Item, Tally, Wanted};

const DIGIT: &str = "wrong digit that 13 refuses, in";
const LINE_1: &str = "line 1 that 13 refuses for";
const BELOW: &str = "line directly below line 1 that 13 refuses";
const IN_TARGET: &str = "line in a section of line 1 that 13 refuses";
const BESIDE: &str = "line that 13 refuses";

const PLACES: [&str; 7] =
    ["line 1", "head of a policy", "head of a set", "section", "conjunction", "match", "obligation"];
const REASONS: [&str; 6] =
    ["no kind", "policy", "another kind", "field rule", "span below the count", "span above the count"];
const BESIDES: [&str; 6] = [
    "after a spoilt child",
    "before a spoilt child",
    "after and before a spoilt child",
    "before another",
    "by a place rule, before another by a field rule",
    "where a line inside an earlier child would cover it",
];

/// Everything that a run must meet in books that 13 refuses.
pub fn wanted_refused() -> Wanted {
    vec![
        (DIGIT, words(&PLACES)),
        (head_group(SHORT), numbers(0..2 * SHORT as u64)),
        (head_group(LENGTH), numbers(0..2 * LENGTH as u64)),
        (LINE_1, words(&REASONS)),
        (BELOW, pairs(&["policy", "set", "section"], &["5", "10", "11"])),
        (BELOW, pairs(&["obligation"], &["5"])),
        (BELOW, pairs(&["rule", "conjunction", "match", "condition", "comparison", "literal"], &["11"])),
        (IN_TARGET, pairs(&["conjunction"], &["5", "10"])),
        (IN_TARGET, pairs(&["match"], &["5", "11"])),
        (BESIDE, words(&BESIDES)),
    ]
}

fn head_group(width: usize) -> &'static str {
    if width == SHORT {
        "wrong digit of 32 in a head, at"
    } else {
        "wrong digit of 40 in a head, at"
    }
}

impl Seen<'_> {
    /// Counts the line that is refused.
    pub fn count_refused(&self, at: usize, tally: &mut Tally) {
        let (name, wrong) = (self.now.records[at].name(), self.wrong_at(at));
        match (at, self.rule_at(at)) {
            _ if !wrong.is_empty() => self.count_refused_digit(at, &wrong, tally),
            (0, _) => self.reason_of_line_1().into_iter().for_each(|reason| tally.met(LINE_1, reason)),
            (_, Some(rule)) => tally.met(if self.now.is_child(at) { BELOW } else { IN_TARGET }, (name, rule)),
            _ => {}
        }
        self.count_beside(at, tally);
    }

    /// Wrong digits in a line that would be sound without them.
    fn count_refused_digit(&self, at: usize, wrong: &[Wrong], tally: &mut Tally) {
        let record = self.before.records[at];
        let place = match (record.kind(), self.before.is_child(at)) {
            _ if self.before.is_bad(at) => return,
            _ if at == 0 => "line 1",
            (POLICY, true) => "head of a policy",
            (SET, true) => "head of a set",
            _ => record.name(),
        };
        tally.met(DIGIT, place);
        if let ([wrong], true) = (wrong, place.starts_with("head")) {
            tally.met(head_group(self.width), wrong.digit as u64);
        }
    }

    /// Why line 1 is refused, where it is for one reason.
    fn reason_of_line_1(&self) -> Option<&'static str> {
        let first = self.now.records[0];
        match (first.kind(), &self.now.faults[0][..]) {
            (SET, [(5, _)]) => Some("field rule"),
            (SET, [(9, (_, Item::Word("below the count")))]) => Some("span below the count"),
            (SET, [(9, (_, Item::Word("above the count")))]) => Some("span above the count"),
            (POLICY, [(13, _)]) => Some("policy"),
            (SET | POLICY, _) => None,
            _ if first.name() == "no kind" => Some("no kind"),
            _ => Some("another kind"),
        }
    }

    /// Counts what else is bad.
    fn count_beside(&self, at: usize, tally: &mut Tally) {
        let (now, spoilt) = (&self.now, self.now.spoilt());
        let after = spoilt.iter().any(|child| child.line <= at);
        let before = spoilt.iter().any(|child| child.line > at);
        let others = &now.refused()[1..];
        let has_field = |at: usize| now.faults[at].iter().any(|fault| fault.0 == 5);
        let by_place = !has_field(at) && others.iter().any(|&other| has_field(other));
        let would_cover = |earlier: usize| now.ends[earlier] <= at && earlier + now.records[earlier].span() > at;
        let covered = (1..at).any(|earlier| !now.is_child(earlier) && would_cover(earlier));
        let met = [after, before, after && before, !others.is_empty(), by_place, covered];
        BESIDES.iter().zip(met).filter(|(_, is_met)| *is_met).for_each(|(&word, _)| tally.met(BESIDE, word));
    }
}
