//! Children of a book's policies and sets put into another order.

use crate::books::{self, obligation, record, with};
use crate::judge;
use crate::random::Random;
use crate::record::*;
use crate::reordering::{children, Reordering, Row};
use crate::sorted;
use crate::wished::*;

/// The reordering that gives a reordered book its order again.
fn back(rows: &Reordering, records: &[Record]) -> Reordering {
    let lines = rows.lines(records);
    let place_of = |list: &[usize], one: usize| list.iter().position(|&other| other == one).expect("each is there");
    let row_back = |row: &Row| {
        let order = (0..row.order.len()).map(|child| place_of(&row.order, child)).collect();
        Row { parent: place_of(&lines, row.parent), order }
    };
    Reordering(rows.0.iter().map(row_back).collect())
}

fn sorted_lines(records: &[Record]) -> Vec<[u8; LENGTH]> {
    let mut lines: Vec<[u8; LENGTH]> = records.iter().map(|record| record.0).collect();
    lines.sort_unstable();
    lines
}

#[test]
fn a_reordered_book_is_sound_and_has_the_same_lines() {
    let mut reordered = 0;
    for case in 0..5_000 {
        let random = &mut Random::of_case(25, case);
        let old = if random.chance(20) { sorted::book(random).0 } else { books::book(random) }.records;
        if let Some(rows) = Reordering::draw(random, &old, |_| true) {
            let new = rows.apply(&old);
            assert_eq!(sorted_lines(&new), sorted_lines(&old), "case {case}");
            let judged = [&old, &new].map(|records| judge::book(&book_bytes(records)).expect("it is sound"));
            assert_eq!(judged[0], judged[1], "case {case}");
            assert_eq!(back(&rows, &old).apply(&new), old, "case {case}");
            reordered += 1;
        }
    }
    assert!(reordered > 2_000);
}

#[test]
fn rows_are_of_parents_that_may_be_and_in_another_order() {
    for case in 0..3_000 {
        let random = &mut Random::of_case(26, case);
        let records = books::small_book(random).records;
        let of_policies = |record: &Record| record.kind() == POLICY;
        for row in Reordering::draw(random, &records, of_policies).map_or(Vec::new(), |rows| rows.0) {
            let mut order = row.order.clone();
            order.sort_unstable();
            assert_eq!(order, (0..children(&records, row.parent).len()).collect::<Vec<usize>>());
            assert!(records[row.parent].kind() == POLICY && row.order != order && row.moved().len() >= 2);
        }
    }
}

/// A section, a policy of three rules with an obligation, a set of one policy, a policy without rules, an obligation.
pub fn book() -> Vec<Record> {
    let section = section(1, &[with(CONJUNCTION, 0, &[vec![absent(MATCH, 1)]])]);
    let rules = [with(RULE, PERMIT, &[vec![absent(CONDITION, COMPARISON + 1)]]), rule(DENY), rule(PERMIT)];
    let policy = with(POLICY, DENY_OVERRIDES, &[rules.concat(), vec![obligation(DENY, 1)]]);
    let set = with(SET, ONLY_ONE, &[with(POLICY, FIRST_APPLICABLE, &[rule(DENY)])]);
    let last = with(POLICY, PERMIT_OVERRIDES, &[]);
    with(SET, PERMIT_OVERRIDES, &[section, policy, set, last, vec![obligation(DENY, 2)]])
}

pub fn rule(effect: u8) -> Vec<Record> {
    vec![record(RULE, effect)]
}

/// A match or comparison with an attribute that the empty request does not have.
pub fn absent(kind: u8, choice: u8) -> Record {
    let mut test = record(kind, choice);
    test.0[4..6].copy_from_slice(&[1, INTEGER]);
    test
}

#[test]
fn children_move_with_all_their_lines() {
    let lines = |rows: &[(usize, &[usize])]| {
        let row = |&(parent, order): &(usize, &[usize])| Row { parent, order: order.to_vec() };
        Reordering(rows.iter().map(row).collect()).lines(&book())
    };
    assert_eq!(children(&book(), 0), [4..10, 10..13, 13..14]);
    assert_eq!(children(&book(), 4), [5..7, 7..8, 8..9]);
    assert_eq!(lines(&[]), (0..15).collect::<Vec<usize>>());
    assert_eq!(lines(&[(0, &[2, 0, 1])]), [0, 1, 2, 3, 13, 4, 5, 6, 7, 8, 9, 10, 11, 12, 14]);
    assert_eq!(lines(&[(4, &[1, 2, 0])]), [0, 1, 2, 3, 4, 7, 8, 5, 6, 9, 10, 11, 12, 13, 14]);
    assert_eq!(lines(&[(0, &[1, 0, 2]), (4, &[2, 1, 0])]), [0, 1, 2, 3, 10, 11, 12, 4, 8, 7, 5, 6, 9, 13, 14]);
}

#[test]
fn the_children_that_change_places_are_found() {
    let row = Row { parent: 0, order: vec![2, 1, 0, 3] };
    assert_eq!((row.moved(), row.exchanged()), (vec![2, 0], vec![(1, 2), (0, 2), (0, 1)]));
}
