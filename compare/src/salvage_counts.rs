//! What a run of salvaging must meet in half-copied books (document 02, 6): the bad lines that replacements take away.

use crate::copied::{Copied, Wrong, NO_DIGITS};
use crate::judge::{Fault, LAST_BYTES, NO_ISSUER};
use crate::operands::WRONG_OPERANDS;
use crate::record::*;
use crate::salvage::{survey, Replaced, Survey};
use crate::tally::{numbers, pairs, words, Tally, Wanted};

const REPLACED_DIGIT: &str = "wrong digit that a replacement takes away";
const NO_DIGIT: &str = "byte that is no digit";
const FIRST_BAD: &str = "first bad line of a replaced child";
const RULE_INSIDE: &str = "rule that it alone breaks";
const PAST_CHILD: &str = "line inside past the child's end";
const DEPTH: &str = "deepest line of a child";
const PATTERN: &str = "replaced children";
const NUMBERS: &str = "numbers of a replacement";

const KINDS: [&str; 2] = ["policy", "set"];
const IN_POLICY: [&str; 11] = [
    "rule",
    "section",
    "conjunction",
    "match",
    "condition",
    "comparison",
    "comparison of values",
    "obligation",
    "literal",
    "attribute",
    "operator",
];
const WRONG_DIGIT: &str = "wrong digit";
const RULES: [&str; 6] = [WRONG_DIGIT, "5", "10", "11", "11, operands", "12"];
const ALONE: [&str; 21] = [
    NO_KIND,
    "field: choice",
    "field: span 0",
    "field: span not 1",
    "field: span below 2",
    "field: category",
    "field: type",
    "field: value not finite",
    "field: function of a name",
    UNUSED,
    NO_ISSUER,
    LAST_BYTES,
    "10: past the parent's end",
    "11: not under its parent",
    "11: after a later one",
    "11: second",
    "11: category of a section after one",
    "11: category of a match",
    "11: values of two types",
    "11: number of operands",
    TOO_DEEP,
];
const NO_KIND: &str = "field: kind";
const TOO_DEEP: &str = "12: too deep";
const UNUSED: &str = "field: unused byte";
const ENDS: [&str; 2] = ["within line 1's end", "past line 1's end"];
const FOLLOWS: [&str; 4] = ["before a sound child", "before a spoilt child", "before an obligation", "last of all"];
const DEPTHS: [&str; 2] = ["16, kept", "17, replaced"];
const PATTERNS: [&str; 8] = [
    "the first child",
    "after a section",
    "the last before an obligation",
    "the last line of all",
    "two with a sound one between",
    "two, one after the other",
    "two, and sound ones before, between and after",
    "three or more",
];
const LINES: [&str; 5] = ["line 2", "line below 256", "line from 256", "count 2", "count from 256"];

/// Everything that a run must meet in books that are mended.
pub fn wanted_mended() -> Wanted {
    let in_set: Vec<&str> = KINDS.into_iter().chain(IN_POLICY).collect();
    vec![
        (REPLACED_DIGIT, pairs(&["policy"], &IN_POLICY)),
        (REPLACED_DIGIT, pairs(&["set"], &in_set)),
        (NO_DIGIT, numbers(NO_DIGITS.map(u64::from))),
        (FIRST_BAD, pairs(&KINDS, &RULES)),
        (RULE_INSIDE, words(&ALONE)),
        (PAST_CHILD, pairs(&ENDS[..1], &FOLLOWS[..3])),
        (PAST_CHILD, pairs(&ENDS[1..], &FOLLOWS)),
        (DEPTH, pairs(&KINDS, &DEPTHS)),
        (PATTERN, words(&PATTERNS)),
        (NUMBERS, words(&LINES)),
    ]
}

/// Counts what salvaging meets in a half-copied book whose text, of this width, gives these records.
pub fn count_lines(copied: &Copied, records: &[Record], width: usize, tally: &mut Tally) {
    let seen = Seen { copied, width, now: survey(records), before: survey(&copied.records) };
    if let Some(&at) = seen.now.refused().first() {
        return seen.count_refused(at, tally);
    }
    seen.now.spoilt().iter().for_each(|child| seen.count_replaced(child, tally));
    seen.count_kept(tally);
    count_pattern(&shape(&seen.now), tally);
}

/// A half-copied book, as it is with its wrong digits and as it would be without them.
pub struct Seen<'a> {
    copied: &'a Copied,
    pub width: usize,
    pub now: Survey<'a>,
    pub before: Survey<'a>,
}

impl Seen<'_> {
    pub fn wrong_at(&self, line: usize) -> Vec<Wrong> {
        self.copied.wrong.iter().filter(|wrong| wrong.line == line).copied().collect()
    }

    /// A wrong digit, or the rule that a line breaks, where it is one alone.
    pub fn rule_at(&self, at: usize) -> Option<&'static str> {
        let (faults, operands) = (&self.now.faults[at], of_operands(&self.now.faults[at]));
        let number = faults.first()?.0;
        match number {
            _ if !self.wrong_at(at).is_empty() => Some(WRONG_DIGIT),
            _ if faults.iter().any(|fault| fault.0 != number) => None,
            5 => Some("5"),
            10 => Some("10"),
            11 if operands == faults.len() => Some("11, operands"),
            11 if operands == 0 => Some("11"),
            12 => Some("12"),
            _ => None,
        }
    }

    /// The same more exactly; a kind that is none is nowhere allowed.
    fn alone_at(&self, at: usize) -> Option<&'static str> {
        match self.now.faults[at][..] {
            _ if !self.wrong_at(at).is_empty() => None,
            [(5, (group, _))] if group.starts_with(UNUSED) => Some(UNUSED),
            [(_, (group, _))] | [(5, (group @ NO_KIND, _)), (11, _)] => Some(group),
            _ => None,
        }
    }

    // What is mended

    fn count_replaced(&self, child: &Replaced, tally: &mut Tally) {
        let head = child.line - 1;
        let kind = self.now.records[head].name();
        let first = self.now.bad_inside(head).expect("a bad line is inside");
        if let Some(rule) = self.rule_at(first) {
            tally.met(FIRST_BAD, (kind, rule));
        }
        if let Some(group) = self.alone_at(first) {
            tally.met(RULE_INSIDE, group);
            if group == TOO_DEEP {
                tally.met(DEPTH, (kind, DEPTHS[1]));
            }
        }
        self.count_replaced_digit(child, tally);
        self.count_past(child, tally);
        let [line, count] = [child.line, child.count];
        let met = [line == 2, line < 256, line >= 256, count == 2, count >= 256];
        LINES.iter().zip(met).filter(|(_, is_met)| *is_met).for_each(|(&word, _)| tally.met(NUMBERS, word));
    }

    /// A wrong digit that alone spoils its child.
    fn count_replaced_digit(&self, child: &Replaced, tally: &mut Tally) {
        let is_sound = |&line: &usize| !self.before.is_bad(line);
        let wrong: Vec<Wrong> = child.lines().flat_map(|line| self.wrong_at(line)).collect();
        if let ([wrong], true) = (&wrong[..], child.lines().all(|line| is_sound(&line))) {
            let kind = self.before.records[child.line - 1].name();
            tally.met(REPLACED_DIGIT, (kind, self.before.records[wrong.line].name()));
            if NO_DIGITS.contains(&wrong.byte) {
                tally.met(NO_DIGIT, u64::from(wrong.byte));
            }
        }
    }

    /// A line inside that runs past the end of its child, with what stands there.
    fn count_past(&self, child: &Replaced, tally: &mut Tally) {
        let (now, end, count) = (&self.now, child.lines().end, self.now.records.len());
        let own_ends = child.lines().skip(1).map(|at| at + now.records[at].span());
        if let Some(own_end) = own_ends.into_iter().find(|&own_end| own_end > end) {
            let follows = match () {
                _ if end == count => 3,
                _ if !now.is_replaceable(end) => 2,
                _ => usize::from(now.bad_inside(end).is_some()),
            };
            tally.met(PAST_CHILD, (ENDS[usize::from(own_end > count)], FOLLOWS[follows]));
        }
    }

    /// The children that are kept and reach the greatest depth.
    fn count_kept(&self, tally: &mut Tally) {
        let now = &self.now;
        let heads = (1..now.records.len()).filter(|&at| now.is_replaceable(at));
        for head in heads.filter(|&head| now.bad_inside(head).is_none()) {
            if now.depths[head..now.ends[head]].contains(&MOST_DEPTH) {
                tally.met(DEPTH, (now.records[head].name(), DEPTHS[0]));
            }
        }
    }
}

fn of_operands(faults: &[Fault]) -> usize {
    faults.iter().filter(|(_, (group, _))| WRONG_OPERANDS.contains(group)).count()
}

/// A letter for each child of line 1: t a section, s a sound policy or set, b one that is replaced, o an obligation.
fn shape(survey: &Survey) -> String {
    let children = (1..survey.records.len()).filter(|&at| survey.is_child(at));
    let letter = |at: usize| match survey.records[at].kind() {
        SECTION => 't',
        OBLIGATION => 'o',
        _ if survey.bad_inside(at).is_some() => 'b',
        _ => 's',
    };
    children.map(letter).collect()
}

fn count_pattern(shape: &str, tally: &mut Tally) {
    let met = [
        shape.trim_start_matches('t').starts_with('b'),
        shape.contains("tb"),
        shape.contains("bo"),
        shape.ends_with('b'),
        shape.contains("bsb"),
        shape.contains("bb"),
        shape.contains("sbsbs"),
        shape.matches('b').count() >= 3,
    ];
    PATTERNS.iter().zip(met).filter(|(_, is_met)| *is_met).for_each(|(&word, _)| tally.met(PATTERN, word));
}
