//! Every rule by which a book or a request is refused, as a run of judging must meet them.

use crate::judge::{
    unused_group, LAST_BYTES, MISFIT, MISFITS, NO_ISSUER, OF_TWO_BYTES, PASSED_OVER, THREE_RULES, TWO_RULES,
};
use crate::operands::wanted_wrong_operands;
use crate::record::SHORT;
use crate::tally::{numbers, pairs, triples, words, Wanted};

/// Every cause that a run of comparisons must meet as the only cause of a refusal.
pub fn wanted_causes() -> Wanted {
    let alone = [wanted_fields(), wanted_issuer_bytes(), wanted_places(), wanted_wrong_operands()];
    [alone.concat(), wanted_misfits(), wanted_together()].concat()
}

/// Lengths that are no multiple of 20, of 16 among them.
pub fn wanted_misfits() -> Wanted {
    vec![(MISFIT, pairs(&["book", "request"], &MISFITS))]
}

/// The kinds of records, the choices of conditions and values told apart.
const ALL: [&str; 13] = [
    "set",
    "policy",
    "rule",
    "section",
    "conjunction",
    "match",
    "condition",
    "comparison",
    "comparison of values",
    "obligation",
    "literal",
    "attribute",
    "operator",
];
const VALUES: [&str; 3] = ["literal", "attribute", "operator"];
const CONDITIONS: [&str; 3] = ["condition", "comparison", "comparison of values"];

fn wanted_fields() -> Wanted {
    let with_choice = ["set", "policy", "rule", "section", "conjunction", "match", "condition", "obligation", "value"];
    let typed = ["match", "comparison", "entry", "literal"];
    let issuer = SHORT as u64;
    let mut wanted = vec![
        ("field: kind", words(&["unknown"])),
        ("field: choice", words(&with_choice)),
        ("field: span 0", words(&ALL)),
        ("field: span not 1", words(&["match", "comparison", "obligation", "literal", "attribute"])),
        ("field: span below 2", words(&["section", "conjunction", "not"])),
        ("field: category", words(&["section", "match", "comparison", "entry", "attribute"])),
        ("field: type", words(&typed)),
        ("field: type", words(&["attribute", "literal that must be present"])),
        ("field: value not finite", words(&typed)),
        ("field: function of a name", words(&["match", "comparison"])),
        ("field: unused byte of a section", numbers(5..issuer)),
        ("field: unused byte of an obligation", numbers((4..6).chain(8..issuer))),
        ("field: unused byte of an entry", numbers(4..8)),
        (unused_group("literal"), numbers([4, 6, 7])),
        (unused_group("attribute"), numbers(8..issuer)),
    ];
    for name in ["set", "policy", "rule", "conjunction", "condition", "comparison of values", "operator"] {
        wanted.push((unused_group(name), numbers(4..issuer)));
    }
    wanted
}

/// Bytes 16 to 19, on every kind of record and on entries.
fn wanted_issuer_bytes() -> Wanted {
    let ask = ["match", "comparison", "attribute"];
    let others: Vec<&str> = ALL.into_iter().filter(|name| !ask.contains(name)).collect();
    vec![
        (NO_ISSUER, pairs(&others, &OF_TWO_BYTES)),
        (LAST_BYTES, pairs(&ALL, &OF_TWO_BYTES)),
        (LAST_BYTES, pairs(&["entry"], &OF_TWO_BYTES)),
    ]
}

fn wanted_places() -> Wanted {
    let not_under = "11: not under its parent";
    let past = ["set", "policy", "rule", "section", "conjunction", "condition", "comparison of values", "operator"];
    vec![
        ("9: line 1 is a", words(&ALL[2..])),
        ("9: span of line 1", words(&["below the count", "above the count"])),
        ("10: past the parent's end", words(&past)),
        ("11: after a later one", pairs(&["section"], &["set", "policy", "rule", "obligation"])),
        ("11: after a later one", pairs(&["section"], &CONDITIONS)),
        ("11: after a later one", pairs(&["set", "policy", "rule"], &["obligation"])),
        ("11: second", words(&["condition of a rule", "part of not"])),
        ("11: category of a section after one", words(&["same", "lower"])),
        ("11: category of a match", words(&["not its section's"])),
        ("12: too deep", words(&ALL)),
        (not_under, pairs(&["set", "policy"], &["policy", "rule", "section", "conjunction", "condition"])),
        (not_under, pairs(&["rule"], &["set", "rule", "section", "conjunction", "condition"])),
        (not_under, pairs(&["section"], &["section", "conjunction", "condition"])),
        (not_under, pairs(&["conjunction"], &["set", "policy", "rule", "conjunction", "condition"])),
        (not_under, pairs(&["match"], &["set", "policy", "rule", "section", "condition"])),
        (not_under, pairs(&CONDITIONS, &["set", "policy", "section", "conjunction"])),
        (not_under, pairs(&["obligation"], &["rule", "section", "conjunction", "condition"])),
        (not_under, pairs(&VALUES, &["set", "policy", "rule", "section", "conjunction", "condition"])),
    ]
}

/// The faults that can stand at one line, of those that refuse a book by a place rule: a match has span 1, so it ends
/// where its parent does or before; what stands after another child is as deep as that child, which is refused first.
fn wanted_together() -> Wanted {
    let past = ["10: past the parent's end"];
    let after_another = ["11: after a later one", "11: second", "11: category of a section after one"];
    let not_under = ["11: not under its parent"];
    let operands = ["11: wrong operands"];
    let deep = ["12: too deep"];
    vec![
        (TWO_RULES, pairs(&["9: line 1 is a"], &["9: span of line 1"])),
        (TWO_RULES, pairs(&past, &after_another)),
        (TWO_RULES, pairs(&past, &["11: not under its parent", "12: too deep"])),
        (TWO_RULES, pairs(&["11: not under its parent", "11: category of a match"], &deep)),
        (TWO_RULES, pairs(&[past[0], not_under[0], "11: second"], &operands)),
        (TWO_RULES, pairs(&operands, &deep)),
        (THREE_RULES, triples(&past, &not_under, &deep)),
        (THREE_RULES, triples(&past, &["11: not under its parent", "11: second"], &operands)),
        (THREE_RULES, triples(&[past[0], not_under[0]], &operands, &deep)),
        (PASSED_OVER, pairs(&["9"], &["at an earlier line", "at the same line"])),
        (PASSED_OVER, pairs(&["10", "11", "12"], &["at an earlier line", "at the same line", "at a later line"])),
    ]
}
