//! Operators with the errors that tempt, for the stand-ins of the tests.

use crate::expression::rounding_of;
use crate::policy::Value;
use crate::status::Status;
use crate::sums::{apply, exact, Operand, Operator};
use crate::units::sum;

pub fn subtract_exchanged(operator: Operator, first: Operand, second: Operand) -> Operand {
    match operator {
        Operator::Subtract => apply(operator, second, first),
        _ => apply(operator, first, second),
    }
}

pub fn divide_exchanged(operator: Operator, first: Operand, second: Operand) -> Operand {
    match operator {
        Operator::Divide => apply(operator, second, first),
        _ => apply(operator, first, second),
    }
}

/// A remainder that has the sign of the divisor.
pub fn remainder_of_the_divisor(operator: Operator, first: Operand, second: Operand) -> Operand {
    match (operator, apply(operator, first, second), second) {
        (Operator::Remainder, Ok(Value::Integer(rest)), Ok(Value::Integer(divisor)))
            if rest != 0 && (rest < 0) != (divisor < 0) =>
        {
            Ok(Value::Integer(rest + divisor))
        }
        (_, result, _) => result,
    }
}

pub fn infinity_kept(operator: Operator, first: Operand, second: Operand) -> Operand {
    match (first, second) {
        (Ok(Value::Double(first)), Ok(Value::Double(second))) => Ok(Value::Double(first + second)),
        _ => apply(operator, first, second),
    }
}

/// The second operand in place of a sum whose first is Indeterminate.
pub fn first_hidden(operator: Operator, first: Operand, second: Operand) -> Operand {
    if first.is_err() {
        second
    } else {
        apply(operator, first, second)
    }
}

pub fn second_hidden(operator: Operator, first: Operand, second: Operand) -> Operand {
    if second.is_err() {
        first
    } else {
        apply(operator, first, second)
    }
}

/// The low 64 bits of what does not fit.
pub fn wrap_around(operator: Operator, first: Operand, second: Operand) -> Operand {
    match (first, second) {
        (Ok(Value::Integer(first)), Ok(Value::Integer(second))) => {
            exact(operator, first, second).map(|result| Value::Integer(result as i64)).ok_or(Status::Processing)
        }
        _ => apply(operator, first, second),
    }
}

/// A quotient that is rounded down, not toward zero.
pub fn divide_down(operator: Operator, first: Operand, second: Operand) -> Operand {
    match (apply(operator, first, second), apply(Operator::Remainder, first, second), second) {
        (Ok(Value::Integer(quotient)), Ok(Value::Integer(rest)), Ok(Value::Integer(divisor)))
            if operator == Operator::Divide && rest != 0 && (rest < 0) != (divisor < 0) =>
        {
            Ok(Value::Integer(quotient - 1))
        }
        (result, _, _) => result,
    }
}

/// A tie that is rounded to the larger size.
pub fn tie_away(operator: Operator, first: Operand, second: Operand) -> Operand {
    match (apply(operator, first, second), first, second) {
        (Ok(Value::Double(result)), Ok(Value::Double(first)), Ok(Value::Double(second)))
            if rounding_of(sum(first, second).size) == "tie, the smaller is even" =>
        {
            Ok(Value::Double(f64::from_bits(result.to_bits() + 1)))
        }
        (result, _, _) => result,
    }
}

pub fn always_lost(_: Operator, _: Operand, _: Operand) -> Operand {
    Err(Status::Processing)
}
