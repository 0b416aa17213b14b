//! The evaluator on document 02, 3: what sums are worth, and how their records are refused.

use crate::books::{self, record, with};
use crate::decide;
use crate::judge;
use crate::policy::{Decision, Value};
use crate::random::Random;
use crate::record::*;
use crate::refusal::Refusal;
use crate::status::Status;
use crate::sums::{apply, Operator};
use crate::tally::Tally;
use crate::units::{border, nearest, sum, Size, Units};
use crate::wished::literal;

const LARGEST: i64 = i64::MAX;
const LEAST: i64 = i64::MIN;
const INDETERMINATE: Option<i64> = None;

// Integers

/// What an operator makes of two integers.
fn integer(operator: Operator, first: i64, second: i64) -> Option<i64> {
    match apply(operator, Ok(Value::Integer(first)), Ok(Value::Integer(second))) {
        Ok(Value::Integer(result)) => Some(result),
        Err(Status::Processing) => None,
        other => panic!("{other:?} is no integer"),
    }
}

#[test]
fn results_stay_within_64_bits() {
    use Operator::*;
    let table = [
        (Add, LARGEST - 1, 1, Some(LARGEST)),
        (Add, LARGEST, 1, INDETERMINATE),
        (Add, LEAST + 1, -1, Some(LEAST)),
        (Add, LEAST, -1, INDETERMINATE),
        (Subtract, 5, 7, Some(-2)),
        (Subtract, -1, LEAST, Some(LARGEST)),
        (Subtract, 0, LEAST, INDETERMINATE),
        (Subtract, -2, LARGEST, INDETERMINATE),
        (Subtract, -1, LARGEST, Some(LEAST)),
        (Multiply, 7, 1_317_624_576_693_539_401, Some(LARGEST)),
        (Multiply, 1 << 32, 1 << 31, INDETERMINATE),
        (Multiply, 1 << 32, -(1 << 31), Some(LEAST)),
        (Multiply, 3, -3_074_457_345_618_258_603, INDETERMINATE),
        (Multiply, LEAST, -1, INDETERMINATE),
        (Multiply, LEAST, LEAST, INDETERMINATE),
    ];
    for (operator, first, second, result) in table {
        assert_eq!(integer(operator, first, second), result, "{operator:?} {first} {second}");
    }
}

#[test]
fn division_goes_toward_zero() {
    let table = [(7, 2, 3, 1), (-7, 2, -3, -1), (7, -2, -3, 1), (-7, -2, 3, -1), (6, -3, -2, 0), (0, -5, 0, 0)];
    for (dividend, divisor, quotient, rest) in table {
        assert_eq!(integer(Operator::Divide, dividend, divisor), Some(quotient));
        assert_eq!(integer(Operator::Remainder, dividend, divisor), Some(rest));
    }
    assert_eq!(integer(Operator::Divide, LEAST, -1), INDETERMINATE);
    assert_eq!(integer(Operator::Remainder, LEAST, -1), Some(0));
    assert_eq!(integer(Operator::Divide, LEAST, 1), Some(LEAST));
    assert_eq!(integer(Operator::Remainder, LARGEST, LEAST), Some(LARGEST));
    for dividend in [0, 1, -1, LARGEST, LEAST] {
        assert_eq!(integer(Operator::Divide, dividend, 0), INDETERMINATE);
        assert_eq!(integer(Operator::Remainder, dividend, 0), INDETERMINATE);
    }
}

// Doubles

/// The rounded sum; nothing where it is not finite.
fn double(first: f64, second: f64) -> Option<f64> {
    nearest(sum(first, second))
}

/// The same double, any zero for a zero: nothing that is decided depends on a zero's sign.
fn is_as_the_machine_adds(first: f64, second: f64) {
    let machine = Some(first + second).filter(|sum| sum.is_finite());
    let bits = |sum: Option<f64>| sum.filter(|&sum| sum != 0.0).map(f64::to_bits);
    let ours = double(first, second);
    assert_eq!((ours.is_some(), bits(ours)), (machine.is_some(), bits(machine)), "{first:e} + {second:e}");
}

/// Doubles at every kind of border: zeros, subnormals, ones around 2^53, and the largest.
fn doubles_at_borders() -> Vec<f64> {
    let largest_step = 2f64.powi(970);
    let around = [0.0, 5e-324, f64::MIN_POSITIVE, 1.0, 0.5, 2f64.powi(52), 2f64.powi(53), 2f64.powi(54)];
    let large = [largest_step, largest_step / 2.0, 2f64.powi(1023), f64::MAX];
    let mut doubles = Vec::new();
    for double in around.into_iter().chain(large) {
        let steps = -3i64..=3;
        let beside = steps.map(|step| f64::from_bits(double.to_bits().wrapping_add(step as u64) & !(1 << 63)));
        doubles.extend(beside.filter(|double| double.is_finite()));
    }
    doubles.iter().flat_map(|&double| [double, -double]).collect()
}

#[test]
fn doubles_are_added_as_the_machine_adds_them() {
    let doubles = doubles_at_borders();
    for &first in &doubles {
        doubles.iter().for_each(|&second| is_as_the_machine_adds(first, second));
    }
    let mut random = Random::of_case(11, 3);
    for _ in 0..100_000 {
        let first = books::finite(random.next());
        // Near the first in size, so that their bits overlap.
        let near = (first >> 52).wrapping_add(random.between(0, 110) as u64).wrapping_sub(55) << 52;
        let second = books::finite(near | random.next() >> 12);
        is_as_the_machine_adds(f64::from_bits(first), f64::from_bits(second));
    }
}

#[test]
fn a_double_is_its_units() {
    for double in doubles_at_borders() {
        assert_eq!(nearest(Units::of(double)).map(f64::to_bits), Some(double.to_bits()));
    }
    assert_eq!(Units::of(5e-324).size, Size::shifted(1, 0));
    assert_eq!(Units::of(1.0).size, Size::shifted(1, 1074));
    assert_eq!(Units::of(-1.5).size, Size::shifted(3, 1073));
}

#[test]
fn sums_are_rounded_once_to_even() {
    let around = 2f64.powi(53);
    assert_eq!(double(around, 1.0), Some(around));
    assert_eq!(double(around + 2.0, 1.0), Some(around + 4.0));
    assert_eq!(double(-around, -1.0), Some(-around));
    assert_eq!(double(-around - 2.0, -1.0), Some(-around - 4.0));
    assert_eq!(double(0.1, 0.2), Some(0.30000000000000004));
    assert_eq!(double(f64::MIN_POSITIVE, -5e-324), Some(f64::from_bits((1 << 52) - 1)));
    assert_eq!(double(1e300, -1e300), Some(0.0));
}

#[test]
fn sums_from_the_border_on_are_not_finite() {
    let half_step = 2f64.powi(970);
    let below = f64::from_bits(half_step.to_bits() - 1);
    for sign in [1.0, -1.0] {
        assert_eq!(double(sign * f64::MAX, sign * below), Some(sign * f64::MAX));
        assert_eq!(double(sign * f64::MAX, sign * half_step), None);
        assert_eq!(double(sign * f64::MAX, sign * f64::MAX), None);
        assert_eq!(sum(sign * f64::MAX, sign * half_step).size, border());
    }
}

// Records

const PERMIT: u8 = 1;
const FIRST_APPLICABLE: u8 = 3;
const MISSING: Decision = Decision::Indeterminate(Status::Missing);
const PROCESSING: Decision = Decision::Indeterminate(Status::Processing);

fn number(integer: i64) -> Vec<Record> {
    literal(Value::Integer(integer))
}

/// Environment attribute 7.
fn attribute(type_byte: u8) -> Vec<Record> {
    let mut made = record(VALUE, ATTRIBUTE);
    made.0[4..8].copy_from_slice(&[4, type_byte, 0, 7]);
    vec![made]
}

fn operation(operator: Operator, operands: &[Vec<Record>]) -> Vec<Record> {
    with(VALUE, operator.choice(), operands)
}

fn compared(function: u8, operands: &[Vec<Record>]) -> Vec<Record> {
    with(CONDITION, COMPARISON_OF_VALUES + function, operands)
}

/// A policy with one Permit rule under this condition.
fn policy(condition: Vec<Record>) -> Vec<Record> {
    with(POLICY, FIRST_APPLICABLE, &[with(RULE, PERMIT, &[condition])])
}

fn decided(condition: Vec<Record>, entries: &[Entry]) -> Decision {
    let book = book_bytes(&policy(condition));
    judge::book(&book).expect("the book is sound");
    decide::decide(&book, &request_bytes(entries), &mut Tally::default()).0.decision
}

fn entry(value: Value) -> Entry {
    Entry::new(4, value.value_type(), 7, value.bytes())
}

#[test]
fn front_pressure_and_offset_pass_a_limit() {
    let passes = |pressure: &[Entry]| {
        let raised = operation(Operator::DoubleAdd, &[attribute(DOUBLE), literal(Value::Double(0.5))]);
        decided(compared(2, &[raised, literal(Value::Double(60.0))]), pressure)
    };
    let pressure = |double| entry(Value::Double(double));
    assert_eq!(passes(&[pressure(59.75)]), Decision::Permit);
    assert_eq!(passes(&[pressure(59.5)]), Decision::NotApplicable);
    assert_eq!(passes(&[]), MISSING);
    assert_eq!(passes(&[pressure(70.0), pressure(70.0)]), PROCESSING);
    assert_eq!(passes(&[pressure(f64::MAX)]), Decision::Permit);
    assert_eq!(passes(&[entry(Value::Integer(70))]), MISSING);
}

#[test]
fn an_indeterminate_operand_is_not_hidden() {
    let failed = || operation(Operator::Divide, &[number(1), number(0)]);
    for operator in [Operator::Add, Operator::Subtract, Operator::Multiply, Operator::Divide, Operator::Remainder] {
        for operands in [[failed(), number(0)], [number(0), failed()], [failed(), failed()]] {
            let sum = operation(operator, &operands);
            assert_eq!(decided(compared(1, &[sum, number(0)]), &[]), PROCESSING);
        }
    }
    for function in 1..=5 {
        assert_eq!(decided(compared(function, &[failed(), number(0)]), &[]), PROCESSING);
        assert_eq!(decided(compared(function, &[number(0), attribute(INTEGER)]), &[]), MISSING);
    }
    let absent = || attribute(INTEGER + MUST_BE_PRESENT);
    assert_eq!(decided(compared(1, &[absent(), number(3)]), &[entry(Value::Integer(3))]), Decision::Permit);
}

#[test]
fn the_first_value_comes_first() {
    let table = [(5, 7, [false, false, false, true, true]), (7, 7, [true, false, true, false, true])];
    for (first, second, truths) in table {
        for function in 1..=5 {
            let decision = decided(compared(function, &[number(first), number(second)]), &[]);
            assert_eq!(decision == Decision::Permit, truths[usize::from(function) - 1]);
        }
    }
    let name = |bytes| literal(Value::Name(bytes));
    assert_eq!(decided(compared(1, &[name([1; 8]), name([1; 8])]), &[]), Decision::Permit);
    assert_eq!(decided(compared(1, &[name([0; 8]), name([128, 0, 0, 0, 0, 0, 0, 0])]), &[]), Decision::NotApplicable);
}

// Refusals

/// Number and line of the refusal.
fn refused(records: &[Record]) -> (u64, usize) {
    let Refusal { number, line, .. } = judge::book(&book_bytes(records)).unwrap_err().refusal;
    (number, line)
}

#[test]
fn fields_of_values_are_judged() {
    let spoilt = |operand: Vec<Record>, place: usize, byte: u8| {
        let mut book = policy(compared(1, &[operand, number(1)]));
        book[3].0[place] = byte;
        refused(&book)
    };
    let sum = || operation(Operator::Add, &[number(1), number(1)]);
    for place in [4, 6, 7] {
        assert_eq!(spoilt(number(1), place, 1), (5, 4));
    }
    for (place, byte) in [(1, 0), (1, 9), (3, 0), (3, 2), (5, 0), (5, 4), (5, INTEGER + MUST_BE_PRESENT)] {
        assert_eq!(spoilt(number(1), place, byte), (5, 4));
    }
    for (place, byte) in [(3, 0), (3, 2), (4, 0), (4, 5), (5, 0), (5, 132), (8, 1), (15, 1)] {
        assert_eq!(spoilt(attribute(INTEGER), place, byte), (5, 4));
    }
    for place in (4..LENGTH).chain([3]) {
        assert_eq!(spoilt(sum(), place, u8::from(place != 3)), (5, 4));
        let mut book = policy(compared(1, &[number(1), number(1)]));
        book[2].0[place] = u8::from(place != 3);
        assert_eq!(refused(&book), (5, 3));
    }
    assert_eq!(refused(&policy(compared(1, &[literal(Value::Double(f64::INFINITY)), number(1)]))), (5, 4));
}

#[test]
fn operands_are_judged_at_the_line_of_what_takes_them() {
    let (one, half) = (|| number(1), || literal(Value::Double(0.5)));
    let name = || literal(Value::Name([7; 8]));
    for operands in [vec![], vec![one()], vec![one(); 3], vec![one(), half()], vec![half(), one()], vec![name(); 2]] {
        assert_eq!(refused(&policy(compared(2, &operands))), (11, 3));
        let sum = operation(Operator::Add, &operands);
        assert_eq!(refused(&policy(compared(2, &[sum, one()]))), (11, 4));
    }
    let doubled = operation(Operator::DoubleAdd, &[half(), half()]);
    let sum = operation(Operator::Add, &[one(), doubled.clone()]);
    assert_eq!(refused(&policy(compared(1, &[sum, one()]))), (11, 4));
    // The type of an operator is that of its choice, whatever is wrong below it.
    let wrong_below = operation(Operator::DoubleAdd, &[one(), one()]);
    assert_eq!(refused(&policy(compared(1, &[half(), wrong_below]))), (11, 5));
    let no_value = with(CONDITION, AND, &[]);
    assert_eq!(refused(&policy(compared(1, &[one(), no_value]))), (11, 3));
    assert_eq!(refused(&policy(with(CONDITION, AND, &[one()]))), (11, 4));
    assert_eq!(refused(&with(POLICY, FIRST_APPLICABLE, &[with(RULE, PERMIT, &[one()])])), (11, 3));
    assert_eq!(refused(&one()), (9, 1));
}

#[test]
fn operands_are_the_lines_whose_parent_it_is() {
    let one = || number(1);
    let sum = || operation(Operator::Add, &[one(), one()]);
    // 1 policy, 2 rule, 3 comparison, 4 add, 5 literal, 6 add, 7 and 8 its operands, 9 the comparison's second.
    let nested = operation(Operator::Add, &[one(), sum()]);
    let mut book = policy(compared(1, &[nested, one()]));
    book[5].set_span(4);
    assert_eq!(refused(&book), (11, 3)); // line 9 is now below line 6
    let mut book = policy(compared(1, &[one(), sum()]));
    book[4].set_span(4);
    assert_eq!(refused(&book), (10, 5)); // its parent has two operands all the same
}

#[test]
fn values_nest_to_level_16() {
    let mut deep = number(1);
    for _ in 0..12 {
        deep = operation(Operator::Subtract, &[number(1), deep]);
    }
    // 1 and so on turn by turn: 1 - (1 - (.. - 1)) is 1 after an even number of operators.
    assert_eq!(decided(compared(1, &[deep.clone(), number(1)]), &[]), Decision::Permit);
    let deeper = operation(Operator::Add, &[deep, number(1)]);
    // The first line too deep: 1 policy, 2 rule, 3 comparison, 4 add, then a literal before each operator.
    assert_eq!(refused(&policy(compared(1, &[deeper, number(1)]))), (12, 28));
}
