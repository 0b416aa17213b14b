//! The operators of document 02, 3: what each makes of two values.

use crate::policy::Value;
use crate::status::Status;
use crate::units::{nearest, sum};

#[derive(Clone, Copy, PartialEq, Eq, Debug)]
pub enum Operator {
    Add,
    Subtract,
    Multiply,
    Divide,
    Remainder,
    DoubleAdd,
}

pub const OPERATORS: [Operator; 6] =
    [Operator::Add, Operator::Subtract, Operator::Multiply, Operator::Divide, Operator::Remainder, Operator::DoubleAdd];

impl Operator {
    /// The operator of a choice from 3 to 8.
    pub fn of(choice: u8) -> Operator {
        OPERATORS[usize::from(choice) - 3]
    }

    pub fn choice(self) -> u8 {
        self as u8 + 3
    }

    pub fn name(self) -> &'static str {
        match self {
            Operator::Add => "add",
            Operator::Subtract => "subtract",
            Operator::Multiply => "multiply",
            Operator::Divide => "divide",
            Operator::Remainder => "remainder",
            Operator::DoubleAdd => "double add",
        }
    }
}

/// A value, or why it is Indeterminate.
pub type Operand = Result<Value, Status>;

/// How an operator is carried out.
pub type Apply = fn(Operator, Operand, Operand) -> Operand;

/// The operator's value; the code of the first operand that has none, or an error where nothing results or it does not
/// fit.
pub fn apply(operator: Operator, first: Operand, second: Operand) -> Operand {
    let result = match (first?, second?) {
        (Value::Integer(first), Value::Integer(second)) => {
            let result = exact(operator, first, second);
            result.and_then(|result| i64::try_from(result).ok()).map(Value::Integer)
        }
        (Value::Double(first), Value::Double(second)) => nearest(sum(first, second)).map(Value::Double),
        _ => unreachable!("an accepted book gives an operator two operands of its type"),
    };
    result.ok_or(Status::Processing)
}

/// What an operator makes of two integers, whether it fits 64 bits or not; nothing by a zero divisor.
pub fn exact(operator: Operator, first: i64, second: i64) -> Option<i128> {
    let (first, second) = (i128::from(first), i128::from(second));
    match operator {
        Operator::Add => Some(first + second),
        Operator::Subtract => Some(first - second),
        Operator::Multiply => Some(first * second),
        Operator::Divide => toward_zero(first, second),
        Operator::Remainder => toward_zero(first, second).map(|quotient| first - quotient * second),
        Operator::DoubleAdd => unreachable!("double add has no integers"),
    }
}

/// The quotient of the sizes, minus where the signs differ.
fn toward_zero(dividend: i128, divisor: i128) -> Option<i128> {
    let size = dividend.abs().checked_div(divisor.abs())?;
    Some(if (dividend < 0) == (divisor < 0) { size } else { -size })
}
