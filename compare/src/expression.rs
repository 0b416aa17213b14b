//! Values of conditions (document 02, 3): literals, attributes, operators, and two values compared. Each thing
//! met on the way is counted.

use crate::policy::*;
use crate::record::{DOUBLE, INTEGER};
use crate::status::{Lost, Status};
use crate::sums::{exact, Operand, Operator, OPERATORS};
use crate::tally::{numbers, pairs, triples, words, Wanted};
use crate::truth::{holds, of_zeros, truth_name, values_group, Evaluator, Truth, FUNCTIONS, NAMES, ZEROS};
use crate::units::{between, border, nearest, sum, Size, Units};
use std::cmp::Ordering;

impl Evaluator<'_> {
    /// The function of both values, the first first; Indeterminate where one has none.
    pub fn comparison_of_values(&mut self, function: Function, operands: &[Expression; 2]) -> Truth {
        for place in [0, 1] {
            let most = operands.iter().map(|operand| operators_in(operand, place)).max();
            self.met(IN_ONE_ANOTHER[place], most.unwrap_or(0) as u64);
        }
        let name = COMPARISONS[usize::from(operands[0].value_type()) - 1];
        let mut lost = Vec::new();
        let truth = match self.operands(name, operands, &mut lost) {
            [Ok(first), Ok(second)] => {
                self.count_compared("values", values_group(function), first, second);
                if holds(function, first, second) {
                    Truth::True
                } else {
                    Truth::False
                }
            }
            _ => Truth::Unknown(self.code(name, &lost)),
        };
        self.met("comparison of values", truth_name(truth));
        truth
    }

    /// Both operands, whatever becomes of the first.
    fn operands(&mut self, taker: &'static str, operands: &[Expression; 2], lost: &mut Vec<Lost>) -> [Operand; 2] {
        let [first, second] = operands;
        self.met("operand", (taker, "first", first.name()));
        self.met("operand", (taker, "second", second.name()));
        let first = self.part(lost, (0, None), |inner| inner.value(first));
        let second = self.part(lost, (1, None), |inner| inner.meanwhile(|inner| inner.value(second)));
        let known = KNOWN[2 * usize::from(first.is_ok()) + usize::from(second.is_ok())];
        self.met("operands known", (taker, known));
        [first, second]
    }

    fn value(&mut self, expression: &Expression) -> Operand {
        self.look();
        match expression {
            Expression::Literal(value) => {
                self.met(WAITING, self.waiting as u64);
                Ok(*value)
            }
            Expression::Attribute { asked, must_be_present } => {
                self.met(WAITING, self.waiting as u64);
                self.one_and_only(*asked, *must_be_present)
            }
            Expression::Operation { operator, operands } => {
                let mut lost = Vec::new();
                let [first, second] = self.operands(operator.name(), operands, &mut lost);
                self.count_two_parts(operator.name(), &lost);
                let result = (self.ways.apply)(*operator, first, second);
                self.count_operation(*operator, [first, second], result);
                result
            }
        }
    }

    fn one_and_only(&mut self, asked: Asked, must_be_present: bool) -> Operand {
        let bag = self.bag("attribute", asked);
        let presence = PRESENCES[usize::from(must_be_present)];
        self.met("attribute", (TYPES[usize::from(asked.key.value_type) - 1], BAGS[bag.len().min(2)], presence));
        let status = match bag[..] {
            [value] => return Ok(value),
            [] => Status::Missing,
            _ => Status::Processing,
        };
        self.count_cause("attribute", BAGS[bag.len().min(2)]);
        Err(status)
    }

    // The counts

    fn count_operation(&mut self, operator: Operator, operands: [Operand; 2], result: Operand) {
        match operands {
            [Ok(Value::Integer(first)), Ok(Value::Integer(second))] => self.count_integers(operator, first, second),
            [Ok(Value::Double(first)), Ok(Value::Double(second))] => self.count_doubles(first, second),
            _ => {}
        }
        if let ([Ok(first), Ok(second)], Err(_)) = (operands, result) {
            self.count_failed_sum(operator, first, second);
        }
    }

    fn count_integers(&mut self, operator: Operator, first: i64, second: i64) {
        let group = operator.name();
        match exact(operator, first, second) {
            None => self.met(group, ("by 0", sign_of(first))),
            Some(result) => self.met(group, end_of(result)),
        }
        if let (Operator::Divide | Operator::Remainder, Some(rest)) =
            (operator, exact(Operator::Remainder, first, second))
        {
            let how = if rest == 0 { "evenly" } else { "with a rest" };
            self.met(group, (sign_of(first), sign_of(second), how));
            if second == -1 {
                self.met(group, if first == i64::MIN { "least by -1" } else { "other by -1" });
            }
        }
    }

    fn count_doubles(&mut self, first: f64, second: f64) {
        let exact = sum(first, second);
        let sign = SIGNS[usize::from(exact.minus)];
        if first == 0.0 && second == 0.0 {
            self.met(DOUBLES, of_zeros(first, second));
        }
        if first.is_sign_negative() != second.is_sign_negative() {
            self.met(DOUBLES, ("opposite signs", if exact.size.is_zero() { "0" } else { sign }));
        }
        match nearest(exact) {
            None if exact.size == border() => self.met(DOUBLES, ("at the border", sign)),
            None => self.met(DOUBLES, ("above the border", sign)),
            Some(nearest) => {
                self.met(SIZES, (size_of(first), size_of(second), size_of(nearest)));
                self.count_rounding(exact, sign);
            }
        }
    }

    fn count_rounding(&mut self, exact: Units, sign: &'static str) {
        let rounding = rounding_of(exact.size);
        self.met(DOUBLES, (rounding, sign));
        if TIES.contains(&rounding) && exact.size.highest() == Some(53 + 1074) {
            self.met(TIES_AROUND_2_53, (rounding, sign));
        }
        // No sum of two doubles below the border is nearer to it.
        if border().less(exact.size) == Size::shifted(1, 917 + 1074) {
            self.met(DOUBLES, ("just below the border", sign));
        }
    }
}

impl Expression {
    fn value_type(&self) -> u8 {
        match self {
            Expression::Literal(value) => value.value_type(),
            Expression::Attribute { asked, .. } => asked.key.value_type,
            Expression::Operation { operator: Operator::DoubleAdd, .. } => DOUBLE,
            Expression::Operation { .. } => INTEGER,
        }
    }

    fn name(&self) -> &'static str {
        match self {
            Expression::Literal(_) => "literal",
            Expression::Attribute { .. } => "attribute",
            Expression::Operation { operator, .. } => operator.name(),
        }
    }
}

/// How many operators stand in one another where each is the first operand, or each the second, of the one around it.
fn operators_in(expression: &Expression, place: usize) -> usize {
    match expression {
        Expression::Operation { operands, .. } => 1 + operators_in(&operands[place], place),
        _ => 0,
    }
}

// Names for the tables of counts

const IN_ONE_ANOTHER: [&str; 2] =
    ["operators in one another, by first operands", "operators in one another, by second"];
const WAITING: &str = "conditions and first operands that wait for a leaf";
const DOUBLES: &str = "double add";
const SIZES: &str = "double add: sizes of operands and sum";
const TIES_AROUND_2_53: &str = "double add: ties from 2^53 on";

const TYPES: [&str; 3] = ["integer", "name", "double"];
const COMPARISONS: [&str; 3] = ["comparison of integers", "comparison of names", "comparison of doubles"];
const KNOWN: [&str; 4] = ["none", "second alone", "first alone", "both"];
const BAGS: [&str; 3] = ["empty bag", "one value", "several values"];
const PRESENCES: [&str; 2] = ["may be absent", "must be present"];
const SIGNS: [&str; 2] = ["plus", "minus"];
const TIES: [&str; 2] = ["tie, the smaller is even", "tie, the larger is even"];

/// How a sum of this size is rounded.
pub fn rounding_of(size: Size) -> &'static str {
    let below = size.bits_below();
    if Size::of_bits(below) == size {
        return "exact";
    }
    match between(size) {
        Ordering::Less => "nearer to the smaller",
        Ordering::Equal => TIES[(below % 2) as usize],
        Ordering::Greater => "nearer to the larger",
    }
}

fn size_of(double: f64) -> &'static str {
    if double == 0.0 {
        "zero"
    } else if double.is_subnormal() {
        "subnormal"
    } else {
        "normal"
    }
}

fn sign_of(number: i64) -> &'static str {
    ["below 0", "0", "above 0"][(number.signum() + 1) as usize]
}

const LARGEST: i128 = i64::MAX as i128;
const LEAST: i128 = i64::MIN as i128;
const WITHIN: [&str; 4] = ["the largest", "one below the largest", "the least", "one above the least"];
const OUTSIDE: [&str; 4] = ["one above the largest", "further above", "one below the least", "further below"];

/// Where a result stands to the ends of 64 bits.
fn end_of(result: i128) -> &'static str {
    match result {
        LARGEST => WITHIN[0],
        _ if result == LARGEST - 1 => WITHIN[1],
        LEAST => WITHIN[2],
        _ if result == LEAST + 1 => WITHIN[3],
        _ if result == LARGEST + 1 => OUTSIDE[0],
        _ if result > LARGEST => OUTSIDE[1],
        _ if result == LEAST - 1 => OUTSIDE[2],
        _ if result < LEAST => OUTSIDE[3],
        _ => "inside",
    }
}

/// What a run must meet of sums, directly and in ticks.
pub fn wanted_sums() -> Wanted {
    [wanted_values(), wanted_operands(), wanted_integers(), wanted_doubles()].concat()
}

fn wanted_values() -> Wanted {
    let mut wanted = vec![(values_group(Function::Equal), pairs(&["name"], &NAMES))];
    for group in FUNCTIONS.map(values_group) {
        wanted.push((group, pairs(&["integer", "double"], &["same", "first above", "first below"])));
        wanted.push((group, pairs(&["double"], &ZEROS)));
    }
    wanted
}

fn wanted_operands() -> Wanted {
    let integers = ["add", "subtract", "multiply", "divide", "remainder"];
    let (leaves, places) = (["literal", "attribute"], ["first", "second"]);
    let names: Vec<&str> = OPERATORS.iter().map(|operator| operator.name()).chain(COMPARISONS).collect();
    let of_integers = [&integers[..], &["comparison of integers"]].concat();
    vec![
        ("operand", triples(&names, &places, &leaves)),
        ("operand", triples(&of_integers, &places, &integers)),
        ("operand", triples(&["double add", "comparison of doubles"], &places, &["double add"])),
        ("operands known", pairs(&names, &KNOWN)),
        ("attribute", triples(&TYPES, &BAGS, &PRESENCES)),
        ("comparison of values", words(&["True", "False", "Indeterminate"])),
        // A comparison may stand at level 3, its operands from 4 on; 16 is the last.
        (IN_ONE_ANOTHER[0], numbers(0..=12)),
        (IN_ONE_ANOTHER[1], numbers(0..=12)),
        (WAITING, numbers(0..=13)),
    ]
}

fn wanted_integers() -> Wanted {
    let mut wanted = Wanted::new();
    for name in ["add", "subtract", "multiply"] {
        wanted.push((name, [words(&WITHIN), words(&OUTSIDE), words(&["inside"])].concat()));
    }
    // A quotient leaves 64 bits in one case alone; a remainder is smaller in size than its divisor.
    wanted.push(("divide", [words(&WITHIN), words(&["one above the largest", "inside"])].concat()));
    wanted.push(("remainder", words(&["the largest", "one below the largest", "one above the least", "inside"])));
    for name in ["divide", "remainder"] {
        let signs = ["above 0", "below 0"];
        wanted.push((name, triples(&signs, &signs, &["evenly", "with a rest"])));
        wanted.push((name, triples(&["0"], &signs, &["evenly"])));
        wanted.push((name, pairs(&["by 0"], &["above 0", "0", "below 0"])));
        wanted.push((name, words(&["least by -1", "other by -1"])));
    }
    wanted
}

fn wanted_doubles() -> Wanted {
    let rounded = ["exact", TIES[0], TIES[1], "nearer to the smaller", "nearer to the larger"];
    let borders = ["just below the border", "at the border", "above the border"];
    vec![
        (DOUBLES, pairs(&rounded, &SIGNS)),
        (DOUBLES, pairs(&borders, &SIGNS)),
        (DOUBLES, pairs(&["opposite signs"], &["plus", "minus", "0"])),
        (DOUBLES, words(&ZEROS)),
        (TIES_AROUND_2_53, pairs(&TIES, &SIGNS)),
        (SIZES, triples(&["subnormal"], &["subnormal"], &["zero", "subnormal", "normal"])),
        (SIZES, triples(&["normal"], &["normal"], &["zero", "subnormal", "normal"])),
        (SIZES, triples(&["normal"], &["subnormal"], &["subnormal", "normal"])),
        (SIZES, triples(&["subnormal"], &["normal"], &["subnormal", "normal"])),
        (SIZES, triples(&["subnormal"], &["zero"], &["subnormal"])),
        (SIZES, triples(&["zero"], &["subnormal"], &["subnormal"])),
        (SIZES, triples(&["normal"], &["zero"], &["normal"])),
        (SIZES, triples(&["zero"], &["normal"], &["normal"])),
    ]
}
