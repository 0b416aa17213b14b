//! Codes with the errors that tempt, for the stand-ins of the tests.

use crate::decide;
use crate::policy::Decision;
use crate::record::SET;
use crate::status::{first, Lost, Outcome, Status};
use crate::sums::{apply, Operand, Operator};
use crate::tally::Tally;

pub fn last(name: &'static str, lost: &[Lost]) -> Status {
    first(name, &lost[lost.len() - 1..])
}

/// An Indeterminate rule of the effect that overrides before one of the other.
pub fn of_the_overriding(name: &'static str, lost: &[Lost]) -> Status {
    let strong = match name {
        "deny-overrides over rules" => Some(Decision::Deny),
        "permit-overrides over rules" => Some(Decision::Permit),
        _ => None,
    };
    let overriding = lost.iter().find(|rule| rule.effect.is_some() && rule.effect == strong);
    overriding.map_or_else(|| first(name, lost), |rule| rule.status)
}

/// Whatever made an only-one set Indeterminate.
pub fn processing_of_only_one(name: &'static str, lost: &[Lost]) -> Status {
    match name {
        "only-one-applicable" => Status::Processing,
        _ => first(name, lost),
    }
}

pub fn smaller(name: &'static str, lost: &[Lost]) -> Status {
    let missing = lost.iter().find(|part| part.status == Status::Missing);
    missing.map_or_else(|| first(name, lost), |part| part.status)
}

pub fn larger(name: &'static str, lost: &[Lost]) -> Status {
    let processing = lost.iter().find(|part| part.status == Status::Processing);
    processing.map_or_else(|| first(name, lost), |part| part.status)
}

/// An operator that has the code of its second operand before that of its first.
pub fn second_operand(operator: Operator, first: Operand, second: Operand) -> Operand {
    second.and(apply(operator, first, second))
}

/// A failed sum as a missing attribute.
pub fn missing_sum(operator: Operator, first: Operand, second: Operand) -> Operand {
    let result = apply(operator, first, second);
    if first.is_ok() && second.is_ok() {
        result.map_err(|_| Status::Missing)
    } else {
        result
    }
}

/// The code that a Deny of this book might wrongly have: that of the child which a deny-overrides set turned into it.
pub fn code_of_deny(book: &[u8], request: &[u8]) -> u64 {
    let mut passed_on = book.to_vec();
    if passed_on[0] == SET && passed_on[1] == 1 {
        passed_on[1] = 3; // first-applicable gives the child's answer
    }
    let (answer, _) = decide::decide(&passed_on, request, &mut Tally::default());
    answer.status().map_or(0, |status| status as u64)
}
