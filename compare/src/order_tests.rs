//! The evaluator on document 02, 7, and the comparison of reordered books against stand-ins.

use crate::books::{obligation, record, with};
use crate::compare_order::{self, Calls, Pair};
use crate::decide;
use crate::obligations::Answer;
use crate::order_counts;
use crate::planted_order::{Error, ERRORS};
use crate::policy::Decision;
use crate::random::Random;
use crate::record::*;
use crate::reordering::{children, Reordering, Row};
use crate::reordering_tests::{absent, book, rule};
use crate::run::{compare, Cases};
use crate::stays::{Given, Said, Stays};
use crate::tally::{Item, Tally};
use crate::tests::{Model, Plan};
use crate::wished::*;

// What stays

#[test]
fn what_stays_is_by_algorithm_and_decisions() {
    let of = |kind, choice| [1, 2, 3, 4].map(|both| Stays::of(&record(kind, choice), both, both));
    use Stays::{Answer, Decision, Nothing, Numbers};
    assert_eq!(of(POLICY, DENY_OVERRIDES), [Answer; 4]);
    assert_eq!(of(POLICY, PERMIT_OVERRIDES), [Answer; 4]);
    assert_eq!(of(POLICY, FIRST_APPLICABLE), [Nothing; 4]);
    assert_eq!(of(SET, DENY_OVERRIDES), [Numbers, Decision, Numbers, Numbers]);
    assert_eq!(of(SET, PERMIT_OVERRIDES), [Decision, Numbers, Numbers, Numbers]);
    assert_eq!(of(SET, FIRST_APPLICABLE), [Nothing; 4]);
    assert_eq!(of(SET, ONLY_ONE), [Answer; 4]);
    for choice in [DENY_OVERRIDES, PERMIT_OVERRIDES] {
        let unlike = [(1, 2), (2, 1), (2, 3), (3, 2), (1, 4), (4, 1)];
        assert_eq!(unlike.map(|(own, whole)| Stays::of(&record(SET, choice), own, whole)), [Numbers; 6]);
        assert_eq!(Stays::at_least(&record(SET, choice)), Decision);
    }
}

#[test]
fn the_least_of_several_rows_stays() {
    let (policy, first) = (deciding(DENY, 1), with(POLICY, FIRST_APPLICABLE, &[rule(DENY), rule(DENY)]));
    let rules = with(POLICY, DENY_OVERRIDES, &[rule(DENY), rule(PERMIT)]);
    let records = with(SET, DENY_OVERRIDES, &[rules, policy, first]); // it denies; its children are at 1, 4 and 7
    let stays = |parents: &[usize], whole: Decision| {
        let order = |parent| (0..children(&records, parent).len()).rev().collect();
        let rows = parents.iter().map(|&parent| Row { parent, order: order(parent) }).collect();
        Pair::new(records.clone(), Reordering(rows), Vec::new(), Vec::new()).stays(whole.number())
    };
    assert_eq!(stays(&[1], Decision::Deny), Stays::Answer);
    assert_eq!(stays(&[0, 1], Decision::Permit), Stays::Numbers);
    assert_eq!(stays(&[0, 1], Decision::Deny), Stays::Decision);
    assert_eq!(stays(&[0, 1, 7], Decision::Permit), Stays::Nothing);
}

/// An answer with these obligations and two places more, in a book of 15 records and two obligations.
fn said(number: u64, obligations: &[u8]) -> Said {
    let out: Vec<u8> = obligations.iter().flat_map(|&number| [0, number]).chain([0; 4]).collect();
    let given = Given { number: number + 256 * obligations.len() as u64, out };
    Said { judged: 0x200_0F00, host: given.clone(), run: given }
}

/// What is wrong where this is said of the book, and this of the same with a row reordered.
fn fault(parent: usize, old: &Said, new: &Said) -> Option<&'static str> {
    let faults = [Said { host: old.host.clone(), ..new.clone() }, Said { run: old.run.clone(), ..new.clone() }]
        .map(|new| old.fault(&new, |both| Stays::of(&book()[parent], both, both)));
    assert_eq!(faults[0], faults[1]); // of the run alone, and of the host alone
    faults[0]
}

#[test]
fn what_is_said_is_held_to_what_stays() {
    let (of_set, of_policy, of_first) = (0, 4, 11);
    for parent in [of_set, of_policy, of_first] {
        assert_eq!(fault(parent, &said(4 + (1 << 40), &[]), &said(4 + (2 << 40), &[])), None);
        assert_eq!(fault(parent, &said(2, &[5, 6]), &said(2, &[5, 6])), None);
        let judged_otherwise = Said { judged: 0x100_0F00, ..said(2, &[]) };
        assert!(fault(parent, &said(2, &[]), &judged_otherwise).is_some());
    }
    assert_eq!(fault(of_set, &said(1, &[5]), &said(1, &[6, 5])), None);
    assert_eq!(fault(of_set, &said(1, &[]), &said(3, &[])), Some("another decision"));
    assert_eq!(fault(of_set, &said(2, &[5, 6]), &said(2, &[6, 5])), None);
    assert_eq!(fault(of_set, &said(2, &[5, 6]), &said(2, &[5])), Some("more or fewer obligations"));
    assert_eq!(fault(of_set, &said(2, &[5, 5, 6]), &said(2, &[5, 6, 6])), Some("other obligations"));
    assert_eq!(fault(of_policy, &said(1, &[5, 6]), &said(1, &[6, 5])), Some("another output"));
    assert_eq!(fault(of_first, &said(1, &[5]), &said(2, &[6, 7])), None);
}

/// A policy with an obligation whose only rule decides so.
fn deciding(effect: u8, number: u16) -> Vec<Record> {
    with(POLICY, FIRST_APPLICABLE, &[rule(effect), vec![obligation(effect, number)]])
}

/// A policy that is Indeterminate with this code: it asks for a value that is not there, or is there twice.
fn unsure(code: u8, entries: &mut Vec<Entry>) -> Vec<Record> {
    let mut test = absent(CONDITION, COMPARISON + 1);
    test.0[7] = code;
    entries.extend((0..2 * (code - 1)).map(|_| Entry::new(1, INTEGER, code.into(), [0; 8])));
    with(POLICY, FIRST_APPLICABLE, &[with(RULE, DENY, &[vec![test]])])
}

/// What two children decide in this order, and in the other.
fn both_orders(kind: u8, algorithm: u8, two: [Vec<Record>; 2], entries: &[Entry]) -> [Answer; 2] {
    let book = with(kind, algorithm, &two);
    let rows = Reordering(vec![Row { parent: 0, order: vec![1, 0] }]);
    [book.clone(), rows.apply(&book)]
        .map(|records| decide::decide(&book_bytes(&records), &request_bytes(entries), &mut Tally::default()).0)
}

#[test]
fn obligations_come_in_the_new_order_or_are_others() {
    let numbers = |algorithm, effect| {
        both_orders(SET, algorithm, [deciding(effect, 1), deciding(effect, 2)], &[]).map(|answer| answer.obligations)
    };
    assert_eq!(numbers(DENY_OVERRIDES, PERMIT), [[1, 2], [2, 1]]);
    assert_eq!(numbers(PERMIT_OVERRIDES, DENY), [[1, 2], [2, 1]]);
    assert_eq!(numbers(DENY_OVERRIDES, DENY), [[1], [2]]);
    assert_eq!(numbers(PERMIT_OVERRIDES, PERMIT), [[1], [2]]);
    assert_eq!(numbers(FIRST_APPLICABLE, PERMIT), [[1], [2]]);
}

#[test]
fn first_applicable_decides_by_the_order() {
    let decisions = |answers: [Answer; 2]| answers.map(|answer| answer.decision);
    let of_rules = decisions(both_orders(POLICY, FIRST_APPLICABLE, [rule(PERMIT), rule(DENY)], &[]));
    assert_eq!(of_rules, [Decision::Permit, Decision::Deny]);
    let policies = [deciding(DENY, 1), deciding(PERMIT, 2)];
    assert_eq!(decisions(both_orders(SET, FIRST_APPLICABLE, policies, &[])), [Decision::Deny, Decision::Permit]);
}

#[test]
fn a_code_is_by_the_order() {
    let mut entries = Vec::new();
    let policies = [unsure(1, &mut entries), unsure(2, &mut entries)];
    let codes = |kind, algorithm, two| both_orders(kind, algorithm, two, &entries).map(|answer| answer.decision.code());
    let rules = policies.clone().map(|policy| policy[1..].to_vec());
    assert_eq!(codes(SET, PERMIT_OVERRIDES, policies.clone()), [1, 2]);
    assert_eq!(codes(POLICY, DENY_OVERRIDES, rules.clone()), [1, 2]);
    assert_eq!(codes(POLICY, PERMIT_OVERRIDES, rules), [1, 2]);
    assert_eq!(codes(SET, DENY_OVERRIDES, policies), [0, 0]); // it denies
}

// The counts

/// What the comparison counts where the children of this record change places, by an empty request.
fn counts(records: Vec<Record>, parent: usize) -> Tally {
    let model = Model(Plan::Right);
    let order = (0..children(&records, parent).len()).rev().collect();
    let pair = Pair::new(records, Reordering(vec![Row { parent, order }]), Vec::new(), vec![7; 20]);
    let mut tally = Tally::default();
    assert_eq!(pair.check(&calls(&model, &model, &model), &mut Random::of_case(27, 0), &mut tally), Ok(()));
    tally
}

#[test]
fn what_a_reordering_is_about_is_counted() {
    let name = "deny-overrides over policies";
    let set = with(SET, DENY_OVERRIDES, &[deciding(PERMIT, 1), vec![record(SET, ONLY_ONE)], deciding(PERMIT, 2)]);
    let tally = counts(set.clone(), 0);
    let met = |group, item: Item| assert_eq!(tally.count(group, item), 1, "{group}: {item}");
    met("what stays", ("decision and numbers", "Permit").into());
    met("decision of a reordered policy or set", (name, "Permit").into());
    met("reordered policy or set", ("set", "at line 1").into());
    met("reordered at once", "one".into());
    met("children that change places", ("policies and sets", "two").into());
    met("children that change places", ("policies and sets", "of equal length").into());
    met("two children of which the later comes first", (name, "Permit", "Permit").into());
    met("two children of which the later comes first", (name, "NotApplicable", "Permit").into());
    met("what reordering this alone changes", (name, "the order of a Permit's obligations").into());
    assert_eq!(tally.count("children that change places", "a policy and a set"), 0);

    let below = "decision of one reordered below line 1, and of its book";
    let tally = counts(with(SET, FIRST_APPLICABLE, &[set.clone(), deciding(DENY, 3)]), 1);
    assert_eq!(tally.count(below, (name, "Permit", "Permit")), 1);
    assert_eq!(tally.count("reordered policy or set", ("set", "at depth 2")), 1);
    let tally = counts(with(SET, DENY_OVERRIDES, &[set.clone(), deciding(DENY, 3)]), 1);
    assert_eq!(tally.count(below, (name, "Permit", "Deny")), 1);
    let tally = counts(with(SET, FIRST_APPLICABLE, &[deciding(PERMIT, 3), set]), 4); // which is not asked
    assert_eq!(tally.count(below, (name, "Permit", "Permit")), 0);
}

// The comparison

fn calls<'a>(judge: &'a Model, host: &'a Model, rig: &'a Model) -> Calls<'a> {
    Calls::new(judge, host, rig).expect("a state has a length")
}

#[test]
fn order_comparison() {
    let model = Model(Plan::Right);
    let calls = calls(&model, &model, &model);
    let cases = Cases { seed: 20, first: 0, count: 60_000, enough: Some(5) };
    let wanted = order_counts::wanted();
    assert!(compare("order", cases, &wanted, |random, tally| compare_order::case(&calls, random, tally)));
}

/// Whether one of so many cases differs.
fn is_found(calls: &Calls, count: u64) -> bool {
    let differs = |case| compare_order::case(calls, &mut Random::of_case(20, case), &mut Tally::default()).is_err();
    (0..count).any(differs)
}

/// Whether what is said of the two books of one of so many cases is not as is claimed.
fn breaks_claims(calls: &Calls, count: u64) -> bool {
    let breaks = |case| {
        let random = &mut Random::of_case(20, case);
        let pair = Pair::draw(random);
        pair.ask(calls, random).and_then(|said| pair.keeps(&said)).is_err()
    };
    (0..count).any(breaks)
}

#[test]
fn errors_about_the_order_are_found_in_each_library() {
    for error in ERRORS {
        let (right, wrong) = (Model(Plan::Right), Model(Plan::Order(error)));
        let wrong_calls = match error {
            Error::PolicyAfterSet => vec![calls(&wrong, &right, &right)],
            _ => vec![calls(&right, &wrong, &right), calls(&right, &right, &wrong)],
        };
        for calls in wrong_calls {
            assert!(is_found(&calls, 3_000), "{error:?}");
            // Of the obligations of a Deny under deny-overrides, and of a Permit under permit-overrides, nothing is claimed.
            assert_eq!(breaks_claims(&calls, 3_000), error != Error::AfterTheStop, "{error:?}");
        }
    }
}
