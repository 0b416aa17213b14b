//! The evaluator on document 02, 5: whose values a record takes, and which bytes may name an issuer.

use crate::books::{record, with};
use crate::decide;
use crate::issuers::{self, wanted_issuers};
use crate::judge;
use crate::policy::{Decision, Value};
use crate::random::Random;
use crate::record::*;
use crate::refusal::Refusal;
use crate::status::Status;
use crate::tally::Tally;
use crate::vouched;
use crate::wished::{literal, section};
use Decision::{NotApplicable, Permit};

const PERMIT: u8 = 1;
const DENY: u8 = 2;
const FIRST_APPLICABLE: u8 = 3;
const MISSING: Decision = Decision::Indeterminate(Status::Missing);
const PROCESSING: Decision = Decision::Indeterminate(Status::Processing);

/// What asks for values.
#[derive(Clone, Copy, PartialEq, Debug)]
enum Asking {
    Match,
    Comparison,
    Attribute,
}

use Asking::{Attribute, Comparison, Match};

/// A target, or a condition, that is True where the integer 1 is vouched for by this issuer.
fn asking(kind: Asking, type_byte: u8, issuer: u16) -> Vec<Record> {
    let mut asks = match kind {
        Match => record(MATCH, 1),
        Comparison => record(CONDITION, COMPARISON + 1),
        Attribute => record(VALUE, ATTRIBUTE),
    };
    asks.0[4..8].copy_from_slice(&[4, type_byte, 0, 7]);
    asks.set_issuer(issuer);
    let one = Value::Integer(1);
    if kind == Attribute {
        return with(CONDITION, COMPARISON_OF_VALUES + 1, &[vec![asks], literal(one)]);
    }
    asks.set_value(one.bytes());
    if kind == Match {
        return section(4, &[with(CONJUNCTION, 0, &[vec![asks]])]);
    }
    vec![asks]
}

fn rule(effect: u8, kind: Asking, issuer: u16) -> Vec<Record> {
    with(RULE, effect, &[asking(kind, INTEGER, issuer)])
}

/// Entries of integers, each with its issuer.
fn request(values: &[(i64, u16)]) -> Vec<Entry> {
    values.iter().map(|&(value, issuer)| Entry::new(4, INTEGER, 7, value.to_be_bytes()).by(issuer)).collect()
}

fn decided(rules: &[Vec<Record>], values: &[(i64, u16)]) -> Decision {
    let (book, request) = (book_bytes(&with(POLICY, FIRST_APPLICABLE, rules)), request_bytes(&request(values)));
    judge::book(&book).expect("the book is sound");
    judge::request(&request).expect("the request is sound");
    decide::decide(&book, &request, &mut Tally::default()).0.decision
}

/// What a rule decides for a match, for a comparison and for an attribute.
fn each(issuer: u16, values: &[(i64, u16)]) -> [Decision; 3] {
    [Match, Comparison, Attribute].map(|kind| decided(&[rule(PERMIT, kind, issuer)], values))
}

#[test]
fn an_issuer_takes_its_own_alone() {
    for own in [1, 5, 256, 65_535] {
        assert_eq!(each(own, &[]), [NotApplicable, MISSING, MISSING]);
        assert_eq!(each(own, &[(1, own)]), [Permit; 3]);
        assert_eq!(each(own, &[(0, own)]), [NotApplicable; 3]);
        assert_eq!(each(own, &[(0, own), (1, own)]), [Permit, PROCESSING, PROCESSING]);
        for other in [0, own ^ 1, own ^ 0x100, own ^ 0x8000, !own] {
            assert_eq!(each(own, &[(1, other)]), [NotApplicable, MISSING, MISSING]);
            assert_eq!(each(own, &[(1, other), (1, other), (1, 0)]), [NotApplicable, MISSING, MISSING]);
            assert_eq!(each(own, &[(0, other), (1, own), (0, other)]), [Permit; 3]);
            assert_eq!(each(own, &[(1, other), (0, own)]), [NotApplicable; 3]);
            assert_eq!(each(own, &[(1, own), (1, other), (0, own)]), [Permit, PROCESSING, PROCESSING]);
        }
    }
}

#[test]
fn issuer_0_takes_any() {
    for issuer in [0, 1, 5, 256, 65_535] {
        assert_eq!(each(ANY, &[(1, issuer)]), [Permit; 3]);
        assert_eq!(each(ANY, &[(0, issuer)]), [NotApplicable; 3]);
        assert_eq!(each(ANY, &[(0, 0), (1, issuer)]), [Permit, PROCESSING, PROCESSING]);
        assert_eq!(each(ANY, &[(0, 7), (1, issuer), (0, 0)]), [Permit, PROCESSING, PROCESSING]);
    }
    assert_eq!(each(ANY, &[]), [NotApplicable, MISSING, MISSING]);
}

#[test]
fn what_must_be_present_must_be_so_by_its_issuer() {
    for kind in [Match, Comparison, Attribute] {
        let rules = [with(RULE, PERMIT, &[asking(kind, INTEGER + MUST_BE_PRESENT, 5)])];
        assert_eq!(decided(&rules, &[(1, 6), (1, 0)]), MISSING);
        assert_eq!(decided(&rules, &[(1, 6), (1, 5)]), Permit);
    }
}

#[test]
fn two_makers_use_the_same_identifier() {
    for kind in [Match, Comparison, Attribute] {
        let rules = [rule(PERMIT, Match, 5), rule(DENY, kind, 6)];
        assert_eq!(decided(&rules, &[(1, 5), (0, 6)]), Permit);
        assert_eq!(decided(&rules, &[(0, 5), (1, 6)]), Decision::Deny);
        assert_eq!(decided(&rules, &[(1, 6), (0, 5)]), Decision::Deny);
        assert_eq!(decided(&rules, &[(0, 6), (1, 5)]), Permit);
    }
}

// Refusals

/// Number and line of the refusal.
fn refused(records: &[Record]) -> (u64, usize) {
    let Refusal { number, line, .. } = judge::book(&book_bytes(records)).unwrap_err().refusal;
    (number, line)
}

/// A book with every kind of record: a set over a policy with two rules, the first with a target, and obligations.
fn book_of_all() -> Vec<Record> {
    let guarded = with(RULE, PERMIT, &[asking(Match, INTEGER, 0), asking(Comparison, INTEGER, 0)]);
    let mut one = literal(Value::Integer(1));
    one.extend(literal(Value::Integer(2)));
    let sum = with(VALUE, ADD, &[one]);
    let mut attribute = record(VALUE, ATTRIBUTE);
    attribute.0[4..8].copy_from_slice(&[4, INTEGER, 0, 7]);
    let values = with(CONDITION, COMPARISON_OF_VALUES + 1, &[sum, vec![attribute]]);
    let summed = with(RULE, DENY, &[with(CONDITION, NOT, &[values])]);
    let duty = vec![crate::books::obligation(PERMIT, 7)];
    with(SET, FIRST_APPLICABLE, &[with(POLICY, FIRST_APPLICABLE, &[guarded, summed]), duty])
}

#[test]
fn only_what_asks_for_values_has_an_issuer() {
    let book = book_of_all();
    judge::book(&book_bytes(&book)).expect("the book is sound");
    let mut names = Vec::new();
    for (at, record) in book.iter().enumerate() {
        for place in SHORT..LENGTH {
            let mut spoilt = book.clone();
            spoilt[at].0[place] = 1;
            if record.asks() && ISSUER_AT.contains(&place) {
                judge::book(&book_bytes(&spoilt)).expect("an issuer may stand here");
            } else {
                assert_eq!(refused(&spoilt), (5, at + 1), "{} byte {place}", record.name());
            }
        }
        names.push(record.name());
    }
    for name in ["set", "policy", "rule", "section", "conjunction", "match", "condition", "comparison"] {
        assert!(names.contains(&name), "{name}");
    }
    for name in ["comparison of values", "obligation", "literal", "attribute", "operator"] {
        assert!(names.contains(&name), "{name}");
    }
}

#[test]
fn the_last_two_bytes_of_an_entry_are_zero() {
    for place in SHORT..LENGTH {
        let mut entries = request(&[(1, 0), (1, 65_535), (1, 5)]);
        entries[1].0[place] = 1;
        let refusal = judge::request(&request_bytes(&entries)).map_err(|refused| refused.refusal.packed());
        assert_eq!(refusal, if LAST_AT.contains(&place) { Err(255 + 256 * 5 + 65_536 * 2 + (2 << 32)) } else { Ok(3) });
    }
}

#[test]
fn records_are_20_bytes_long() {
    let number = |length| judge::book(&vec![0; length]).unwrap_err().refusal.number;
    for length in [1, 16, 19, 21, 32, 48, 64, 96, 1_600 - 16, 20_016, 20_001] {
        assert_eq!(number(length), 4, "{length}");
    }
    assert_eq!((number(80), number(20_000), number(20_020)), (5, 5, 2));
    let of_request = |length| judge::request(&vec![0; length]).unwrap_err().refusal.number;
    assert_eq!((of_request(16), of_request(1_024), of_request(1_281), of_request(1_300)), (4, 4, 4, 2));
}

// The counts

/// How often these values decide, of a rule that asks for issuer 5 in this way, among other rules.
fn times(kind: Asking, rules: &[Vec<Record>], values: &[(i64, u16)], how: (&'static str, &'static str)) -> u64 {
    let mut tally = Tally::default();
    let (book, request) = (book_bytes(&with(POLICY, FIRST_APPLICABLE, rules)), request_bytes(&request(values)));
    issuers::count(&book, &request, &mut tally);
    let name = ["match", "comparison", "attribute"][kind as usize];
    tally.count("values for an issuer", (name, how.0, how.1))
}

#[test]
fn only_what_decides_is_counted() {
    for kind in [Match, Comparison, Attribute] {
        let (asked, quiet) = (rule(PERMIT, kind, 5), with(RULE, PERMIT, &[with(CONDITION, OR, &[])]));
        let sure = with(RULE, PERMIT, &[]);
        let count = |rules: &[&Vec<Record>], values: &[(i64, u16)], how| {
            let rules: Vec<Vec<Record>> = rules.iter().map(|&rule| rule.clone()).collect();
            times(kind, &rules, values, how)
        };
        let anothers = ("none of its own", "1 of another");
        assert_eq!(count(&[&asked], &[(1, 6)], anothers), 1);
        assert_eq!(count(&[&quiet, &asked], &[(1, 6)], anothers), 1);
        assert_eq!(count(&[&sure, &asked], &[(1, 6)], anothers), 0);
        assert_eq!(count(&[&asked], &[(1, 0)], ("none of its own", "1 of nobody")), 1);
        assert_eq!(count(&[&asked], &[(1, 5)], ("1 of its own", "no other")), 1);
        assert_eq!(count(&[&asked], &[(0, 5), (1, 6), (1, 0)], ("1 of its own", "2 of nobody and another")), 1);
    }
    // Another's value that changes nothing.
    let (asked, beside) = ([rule(PERMIT, Match, 5)], ("1 of its own", "1 of another"));
    assert_eq!(times(Match, &asked, &[(1, 5), (1, 6)], beside), 0);
    assert_eq!(times(Match, &asked, &[(0, 5), (1, 6)], beside), 1);
}

#[test]
fn books_about_issuers_are_sound_and_meet_every_case() {
    let mut tally = Tally::default();
    for case in 0..6_000 {
        let (book, entries) = vouched::book(&mut Random::of_case(5, case));
        let (book, request) = (book_bytes(&book.records), request_bytes(&entries));
        judge::book(&book).expect("a generated book is sound");
        judge::request(&request).expect("a generated request is sound");
        issuers::count(&book, &request, &mut tally);
    }
    let rare = tally.rarer(&wanted_issuers(), 10);
    assert!(rare.is_empty(), "{rare:?}");
}
