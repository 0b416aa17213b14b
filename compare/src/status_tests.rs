//! The evaluator on document 02, 4: which code an Indeterminate has, and which answers have none.

use crate::books::{record, with};
use crate::codes::wanted_codes;
use crate::decide;
use crate::doubt;
use crate::judge;
use crate::policy::Value;
use crate::random::Random;
use crate::record::*;
use crate::status::Status;
use crate::sums::Operator;
use crate::tally::Tally;
use crate::wished::{literal, section, DENY, PERMIT};
use Status::{Missing, Processing};

const DENY_OVERRIDES: u8 = 1;
const PERMIT_OVERRIDES: u8 = 2;
const FIRST_APPLICABLE: u8 = 3;
const ONLY_ONE: u8 = 4;
const OVERRIDES: [u8; 2] = [DENY_OVERRIDES, PERMIT_OVERRIDES];

/// Every order of two codes.
const ORDERS: [[Status; 2]; 4] =
    [[Missing, Missing], [Missing, Processing], [Processing, Missing], [Processing, Processing]];

/// A record that asks for an integer: environment attribute 7, 8 or 9, which the request has not, twice or once.
fn asking(kind: u8, choice: u8, type_byte: u8, attribute: u8) -> Vec<Record> {
    let mut made = record(kind, choice);
    made.0[4..8].copy_from_slice(&[4, type_byte, 0, attribute]);
    vec![made]
}

fn attribute_of(status: Status) -> u8 {
    6 + status as u8
}

fn request() -> Vec<Entry> {
    let entry = |attribute| Entry::new(4, INTEGER, attribute, [0; 8]);
    vec![entry(8), entry(9), entry(8)]
}

fn lost(status: Status) -> Vec<Record> {
    asking(CONDITION, COMPARISON + 1, INTEGER, attribute_of(status))
}

fn lost_operand(status: Status) -> Vec<Record> {
    asking(VALUE, ATTRIBUTE, INTEGER, attribute_of(status))
}

fn number(integer: i64) -> Vec<Record> {
    literal(Value::Integer(integer))
}

fn rule(effect: u8, condition: Vec<Record>) -> Vec<Record> {
    with(RULE, effect, &[condition])
}

fn quiet_rule() -> Vec<Record> {
    rule(DENY, with(CONDITION, OR, &[]))
}

fn policy(rule: Vec<Record>) -> Vec<Record> {
    with(POLICY, FIRST_APPLICABLE, &[rule])
}

fn lost_policy(status: Status) -> Vec<Record> {
    policy(rule(PERMIT, lost(status)))
}

/// A target that is Match, No-match or Indeterminate, and this rule.
fn guarded(type_byte: u8, attribute: u8, rule: Vec<Record>) -> Vec<Record> {
    let conjunction = with(CONJUNCTION, 0, &[asking(MATCH, 1, type_byte, attribute)]);
    with(POLICY, FIRST_APPLICABLE, &[section(4, &[conjunction]), rule])
}

fn of_lost_target() -> Vec<Record> {
    guarded(INTEGER + MUST_BE_PRESENT, 7, rule(PERMIT, Vec::new()))
}

fn without_match() -> Vec<Record> {
    guarded(INTEGER, 7, rule(PERMIT, Vec::new()))
}

fn of_match(condition: Vec<Record>) -> Vec<Record> {
    guarded(INTEGER, 9, rule(PERMIT, condition))
}

/// What the host answers.
fn host_number(book: &[Record]) -> u64 {
    let (bytes, request) = (book_bytes(book), request_bytes(&request()));
    judge::book(&bytes).expect("the book is sound");
    decide::host_call(&bytes, &request, &mut [0; 8], &mut Tally::default())
}

/// Whether the book is Indeterminate with this code.
fn has_code(book: &[Record], status: Status) {
    assert_eq!(host_number(book), 4 + ((status as u64) << 40), "expected {status:?}");
}

fn condition_has_code(condition: Vec<Record>, status: Status) {
    has_code(&policy(rule(PERMIT, condition)), status);
}

#[test]
fn an_empty_bag_is_missing_and_a_larger_one_an_error() {
    for type_byte in [INTEGER, INTEGER + MUST_BE_PRESENT] {
        for status in [Missing, Processing] {
            condition_has_code(asking(CONDITION, COMPARISON + 2, type_byte, attribute_of(status)), status);
            let attribute = asking(VALUE, ATTRIBUTE, type_byte, attribute_of(status));
            condition_has_code(with(CONDITION, COMPARISON_OF_VALUES + 1, &[number(1), attribute]), status);
        }
    }
    has_code(&of_lost_target(), Missing);
}

#[test]
fn a_failed_sum_is_an_error() {
    use Operator::*;
    let of_integers = [(Add, i64::MAX, 1), (Subtract, i64::MIN, 1), (Multiply, i64::MIN, -1), (Divide, i64::MIN, -1)];
    for (operator, first, second) in of_integers.into_iter().chain([(Divide, 1, 0), (Remainder, 1, 0)]) {
        let sum = with(VALUE, operator.choice(), &[number(first), number(second)]);
        condition_has_code(with(CONDITION, COMPARISON_OF_VALUES + 1, &[sum, number(0)]), Processing);
    }
    let large = || literal(Value::Double(f64::MAX));
    let sum = with(VALUE, DOUBLE_ADD, &[large(), large()]);
    condition_has_code(with(CONDITION, COMPARISON_OF_VALUES + 4, &[sum, large()]), Processing);
}

#[test]
fn the_first_operand_comes_first() {
    for codes in ORDERS {
        let operands = codes.map(lost_operand);
        condition_has_code(with(CONDITION, COMPARISON_OF_VALUES + 5, &operands), codes[0]);
        for operator in [Operator::Add, Operator::Divide, Operator::Remainder] {
            let sum = with(VALUE, operator.choice(), &operands);
            condition_has_code(with(CONDITION, COMPARISON_OF_VALUES + 1, &[number(0), sum]), codes[0]);
        }
    }
    // Nothing is divided where the dividend is lost.
    let by_zero = with(VALUE, Operator::Divide.choice(), &[lost_operand(Missing), number(0)]);
    condition_has_code(with(CONDITION, COMPARISON_OF_VALUES + 1, &[by_zero, number(0)]), Missing);
}

#[test]
fn the_first_part_of_a_condition_counts() {
    for codes in ORDERS {
        for (choice, known) in [(AND, AND), (OR, OR)] {
            let parts = [with(CONDITION, known, &[]), lost(codes[0]), lost(codes[1])];
            condition_has_code(with(CONDITION, choice, &parts), codes[0]);
            condition_has_code(with(CONDITION, NOT, &[with(CONDITION, choice, &parts)]), codes[0]);
        }
    }
}

#[test]
fn the_first_rule_counts_whatever_its_effect() {
    for algorithm in OVERRIDES {
        for codes in ORDERS {
            for effects in [[PERMIT, PERMIT], [PERMIT, DENY], [DENY, PERMIT], [DENY, DENY]] {
                let [first, second] = [0, 1].map(|which| rule(effects[which], lost(codes[which])));
                let quiet = quiet_rule();
                has_code(&with(POLICY, algorithm, &[first.clone(), second.clone()]), codes[0]);
                has_code(&with(POLICY, algorithm, &[quiet.clone(), first, quiet, second]), codes[0]);
            }
        }
    }
}

#[test]
fn an_effect_that_does_not_override_hides_no_code() {
    for (algorithm, strong, weak) in [(DENY_OVERRIDES, DENY, PERMIT), (PERMIT_OVERRIDES, PERMIT, DENY)] {
        let sure = |effect| rule(effect, Vec::new());
        let rules = [rule(weak, lost(Missing)), sure(weak), rule(strong, lost(Processing))];
        has_code(&with(POLICY, algorithm, &rules), Missing);
        // One that overrides, or that the algorithm prefers, has none.
        let rules = [rule(weak, lost(Missing)), rule(strong, lost(Processing)), sure(strong)];
        assert_eq!(host_number(&with(POLICY, algorithm, &rules)), strong.into());
        let rules = [rule(weak, lost(Processing)), sure(weak)];
        assert_eq!(host_number(&with(POLICY, algorithm, &rules)), weak.into());
    }
}

#[test]
fn the_first_policy_counts() {
    for codes in ORDERS {
        let children = codes.map(lost_policy);
        for algorithm in [PERMIT_OVERRIDES, FIRST_APPLICABLE] {
            has_code(&with(SET, algorithm, &children), codes[0]);
        }
        has_code(&with(POLICY, FIRST_APPLICABLE, &codes.map(|code| rule(DENY, lost(code)))), codes[0]);
        has_code(&with(SET, PERMIT_OVERRIDES, &[of_lost_target(), lost_policy(codes[1])]), Missing);
    }
}

#[test]
fn a_deny_made_from_an_indeterminate_child_has_none() {
    for status in [Missing, Processing] {
        let set = with(SET, DENY_OVERRIDES, &[policy(rule(PERMIT, Vec::new())), lost_policy(status)]);
        assert_eq!(host_number(&set), 2);
        assert_eq!(host_number(&with(SET, FIRST_APPLICABLE, &[set, lost_policy(status)])), 2);
        let set = with(SET, PERMIT_OVERRIDES, &[lost_policy(status), policy(rule(DENY, Vec::new()))]);
        assert_eq!(host_number(&set), 2);
    }
    assert_eq!(host_number(&with(SET, DENY_OVERRIDES, &[of_lost_target()])), 2);
}

#[test]
fn only_one_has_the_code_of_what_is_met_first() {
    let set = |children: &[Vec<Record>]| with(SET, ONLY_ONE, children);
    let sure = || of_match(Vec::new());
    has_code(&set(&[of_lost_target(), sure(), sure()]), Missing);
    has_code(&set(&[sure(), of_lost_target(), sure()]), Missing);
    has_code(&set(&[sure(), without_match(), sure(), of_lost_target()]), Processing);
    has_code(&set(&[without_match(), of_lost_target()]), Missing);
    has_code(&set(&[sure(), sure()]), Processing);
    for status in [Missing, Processing] {
        has_code(&set(&[without_match(), of_match(lost(status)), without_match()]), status);
        // Their own answers are not asked for.
        has_code(&set(&[of_match(lost(status)), of_match(lost(status))]), Processing);
        has_code(&set(&[of_match(lost(status)), of_lost_target()]), Missing);
    }
}

#[test]
fn a_lost_target_has_the_code_and_not_what_is_below_it() {
    has_code(&guarded(INTEGER + MUST_BE_PRESENT, 7, rule(DENY, lost(Processing))), Missing);
    let conjunction = with(CONJUNCTION, 0, &[asking(MATCH, 1, INTEGER + MUST_BE_PRESENT, 7)]);
    let guarded_rule = with(RULE, DENY, &[section(4, &[conjunction]), lost(Processing)]);
    has_code(&policy(guarded_rule), Missing);
}

/// What deciding this book counts.
fn counts(book: &[Record]) -> Tally {
    let mut tally = Tally::default();
    decide::decide(&book_bytes(book), &request_bytes(&request()), &mut tally);
    tally
}

#[test]
fn only_what_the_answer_shows_is_counted() {
    let parts = ("and", "1 then 2");
    let both = || with(CONDITION, AND, &[lost(Missing), lost(Processing)]);
    let times = |book: &[Record]| counts(book).count("two Indeterminate parts", parts);
    assert_eq!(times(&policy(rule(PERMIT, both()))), 1);
    let sure = rule(DENY, Vec::new());
    let rules = |rules: &[Vec<Record>]| with(POLICY, DENY_OVERRIDES, rules);
    assert_eq!(times(&rules(&[rule(PERMIT, both()), sure.clone()])), 0);
    assert_eq!(times(&rules(&[rule(PERMIT, both()), rule(DENY, lost(Missing))])), 1);
    assert_eq!(times(&rules(&[rule(DENY, lost(Missing)), rule(PERMIT, both())])), 0);
    assert_eq!(times(&with(SET, DENY_OVERRIDES, &[policy(rule(PERMIT, both()))])), 0);
    let settled = with(CONDITION, OR, &[both(), with(CONDITION, AND, &[])]);
    assert_eq!(times(&rules(&[rule(PERMIT, with(CONDITION, AND, &[settled, lost(Missing)]))])), 0);
    let first_stops = with(SET, FIRST_APPLICABLE, &[lost_policy(Processing), lost_policy(Missing)]);
    let children = ("first-applicable over policies", "2 then 1", "Permit then Permit");
    assert_eq!(counts(&first_stops).count("two Indeterminate children", children), 1);
}

#[test]
fn books_about_codes_are_sound_and_meet_every_case() {
    let mut tally = Tally::default();
    for case in 0..6_000 {
        let (book, entries) = doubt::book(&mut Random::of_case(4, case));
        let (book, request) = (book_bytes(&book.records), request_bytes(&entries));
        judge::book(&book).expect("a generated book is sound");
        judge::request(&request).expect("a generated request is sound");
        decide::decide(&book, &request, &mut tally);
    }
    // Other books are for answers without a code.
    let of_codes = wanted_codes().into_iter().filter(|(group, _)| *group != "code of the answer").collect();
    let rare = tally.rarer(&of_codes, 10);
    assert!(rare.is_empty(), "{rare:?}");
}
