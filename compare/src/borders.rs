//! Operands for generated sums: pairs whose result stands at a border, and pairs that make a given value.

use crate::books::{finite, value, ENDS};
use crate::policy::Value;
use crate::random::Random;
use crate::record::{DOUBLE, INTEGER};
use crate::sums::{exact, Operator};

/// An operator with its operands, and what it makes of them: nothing where that is no value.
pub struct Sum {
    pub operator: Operator,
    pub operands: [Value; 2],
    pub result: Option<Value>,
}

/// Those that have more kinds of borders stand twice.
const OF_INTEGERS: [Operator; 7] = [
    Operator::Add,
    Operator::Subtract,
    Operator::Multiply,
    Operator::Divide,
    Operator::Divide,
    Operator::Remainder,
    Operator::Remainder,
];

/// A sum of this type at some border.
pub fn sum(random: &mut Random, value_type: u8) -> Sum {
    if value_type == DOUBLE {
        return of_doubles(doubles(random));
    }
    let operator = random.pick(&OF_INTEGERS);
    let goal = goal(random);
    let found = if random.chance(60) { integers(random, operator, goal) } else { None };
    let operands = found.unwrap_or_else(|| awkward(random));
    of_integers(operator, operands)
}

/// A sum that makes this value.
pub fn making(random: &mut Random, wanted: Value) -> Sum {
    match wanted {
        Value::Double(wanted) => of_doubles(parts(random, wanted)),
        Value::Integer(wanted) => {
            let operator = random.pick(&OF_INTEGERS);
            match integers(random, operator, wanted.into()) {
                Some(operands) => of_integers(operator, operands),
                None => of_integers(Operator::Add, [wanted, 0]),
            }
        }
        Value::Name(_) => unreachable!("no operator makes a name"),
    }
}

fn of_integers(operator: Operator, [first, second]: [i64; 2]) -> Sum {
    let result = exact(operator, first, second).and_then(|result| i64::try_from(result).ok());
    Sum { operator, operands: [first, second].map(Value::Integer), result: result.map(Value::Integer) }
}

fn of_doubles(operands: [f64; 2]) -> Sum {
    let result = Some(operands[0] + operands[1]).filter(|sum| sum.is_finite()).map(Value::Double);
    Sum { operator: Operator::DoubleAdd, operands: operands.map(Value::Double), result }
}

// Integers

/// A result at an end of 64 bits, just outside, or anywhere.
fn goal(random: &mut Random) -> i128 {
    let (largest, least) = (i128::from(i64::MAX), i128::from(i64::MIN));
    let ends = [largest, largest + 1, largest - 1, least, least - 1, least + 1];
    match random.below(10) {
        0..=6 => random.pick(&ends),
        7 => random.pick(&[0, 1, -1]),
        8 => random.pick(&[largest + 100, 3 << 62, least - 100, -(3 << 62)]),
        _ => integer(random).into(),
    }
}

fn integer(random: &mut Random) -> i64 {
    match random.below(4) {
        0 => random.pick(&[1, -1, 2, -2, 3, -3, 7, -7, 10, -10]),
        1 => random.between(0, 200) as i64 - 100,
        _ => i64::from_be_bytes(value(random, INTEGER)),
    }
}

/// Operands that are a border by themselves: of divisions by 0 and -1, and with every pair of signs.
fn awkward(random: &mut Random) -> [i64; 2] {
    let first = random.pick(&[i64::MIN, i64::MIN, i64::MIN + 1, i64::MAX, 0, 1, 7, -7]);
    let second = random.pick(&[-1, -1, 0, 0, 1, 2, -2, i64::MIN, i64::MAX]);
    if random.chance(20) {
        return [integer(random), second];
    }
    [first, second]
}

/// Two integers of which the operator makes `goal`, where some tries find them.
fn integers(random: &mut Random, operator: Operator, goal: i128) -> Option<[i64; 2]> {
    (0..8).find_map(|_| {
        let some = i128::from(integer(random));
        let (first, second) = match operator {
            Operator::Add => (some, goal - some),
            Operator::Subtract => (some, some - goal),
            Operator::Multiply => factors(random, goal),
            Operator::Divide => (goal * some + random.below(3) as i128 - 1, some),
            Operator::Remainder => remainder(random, goal),
            Operator::DoubleAdd => return None,
        };
        let (first, second) = (i64::try_from(first).ok()?, i64::try_from(second).ok()?);
        (exact(operator, first, second) == Some(goal)).then_some([first, second])
    })
}

/// Factors of a product, if one of a few numbers divides it.
fn factors(random: &mut Random, product: i128) -> (i128, i128) {
    let factor = random.pick(&[1, -1, 2, -2, 3, -3, 7, -7, 1 << 31, -(1 << 31), 1 << 32]);
    if random.chance(50) {
        (factor, product / factor)
    } else {
        (product / factor, factor)
    }
}

/// A dividend and a divisor that is larger in size than the rest.
fn remainder(random: &mut Random, rest: i128) -> (i128, i128) {
    let larger = rest.abs() + 1 + random.pick(&[0, 0, 1, 6, 50]);
    let divisor = random.pick(&[larger, -larger, i128::from(i64::MIN)]);
    (rest.signum() * divisor.abs() * random.pick(&[0, 0, 1, 2]) + rest, divisor)
}

// Doubles

/// Two to the power `power`, in units of 2^-1074.
fn units(power: u64) -> f64 {
    f64::from_bits(if power < 52 { 1 << power } else { (power - 51) << 52 })
}

/// The double so many places further on.
fn beside(double: f64, steps: i64) -> f64 {
    f64::from_bits(finite(double.to_bits().wrapping_add(steps as u64)))
}

fn any(random: &mut Random) -> f64 {
    f64::from_be_bytes(value(random, DOUBLE))
}

/// Two doubles whose sum is a tie, stands near the largest double, is subnormal or a zero; in either order, of
/// either sign.
fn doubles(random: &mut Random) -> [f64; 2] {
    let mut pair = match random.below(10) {
        0..=2 => tie(random),
        3..=4 => large(random),
        5..=6 => small(random),
        7 => [random.pick(&[0.0, -0.0]), random.pick(&[0.0, -0.0])],
        8 => opposite(random),
        _ => [any(random), any(random)],
    };
    if random.chance(50) {
        pair.swap(0, 1);
    }
    if random.chance(50) {
        pair = pair.map(|double| -double);
    }
    pair
}

/// A double, often one from 2^53 on, and half of its distance to the next; now and then a little more or less.
fn tie(random: &mut Random) -> [f64; 2] {
    let some = random.between(2, 2045) as u64;
    let exponent = random.pick(&[1023 + 53, 1023 + 53, some]);
    let any = subnormal(random).to_bits();
    let fraction = random.pick(&[0, 1, 2, 3, any]);
    let half = units(exponent - 2);
    let half = random.pick(&[half, half, half, -half, beside(half, 1), beside(half, -1)]);
    [f64::from_bits(exponent << 52 | fraction), half]
}

/// A sum near two to the power 1024 less two to the power 970.
fn large(random: &mut Random) -> [f64; 2] {
    let step = units(970 + 1074);
    let step = random.pick(&[step, step, beside(step, -1), beside(step, -1), beside(step, 1), step / 2.0, f64::MAX]);
    let half = units(1023 + 1074);
    random.pick(&[[f64::MAX, step], [f64::MAX, step], [half, beside(half, -1)], [half, beside(half, -2)]])
}

/// Subnormal operands, or a sum that is.
fn small(random: &mut Random) -> [f64; 2] {
    let (below, least) = (subnormal(random), f64::MIN_POSITIVE);
    let other = random.pick(&[below, -below, 0.0, 1.0, least, -least, -least, least - below]);
    if random.chance(70) {
        [below, other]
    } else {
        [beside(least, 1), -least]
    }
}

fn subnormal(random: &mut Random) -> f64 {
    f64::from_bits(random.next() & ((1 << 52) - 1))
}

/// A double, and the same or its neighbour with the other sign.
fn opposite(random: &mut Random) -> [f64; 2] {
    let double = if random.chance(50) { any(random) } else { subnormal(random) };
    [double, -beside(double, random.pick(&[0, 0, 1, -1]))]
}

/// Two doubles whose sum is this one.
fn parts(random: &mut Random, wanted: f64) -> [f64; 2] {
    let any = any(random);
    let part = random.pick(&[-0.0, 1.0, -0.5, wanted / 2.0, any, any]);
    let rest = wanted - part;
    if rest.is_finite() && part + rest == wanted {
        [part, rest]
    } else {
        [wanted, 0.0]
    }
}

// Values to compare with

pub fn some_value(random: &mut Random, value_type: u8) -> Value {
    Value::of(value_type, value(random, value_type))
}

/// Two values of this type, often two zeros of doubles, of either sign.
pub fn to_compare(random: &mut Random, value_type: u8) -> [Value; 2] {
    if value_type == DOUBLE && random.chance(50) {
        return [(), ()].map(|_| Value::Double(random.pick(&[0.0, -0.0])));
    }
    if value_type == INTEGER && random.chance(20) {
        return [(), ()].map(|_| Value::Integer(random.pick(&ENDS)));
    }
    let first = some_value(random, value_type);
    [first, near(random, first)]
}

/// The same value, one just beside it, or another of its type.
pub fn near(random: &mut Random, wanted: Value) -> Value {
    let step = random.pick(&[0, 0, 0, 1, -1]);
    match wanted {
        _ if random.chance(15) => some_value(random, wanted.value_type()),
        Value::Integer(integer) => Value::Integer(integer.wrapping_add(step)),
        Value::Double(double) if double == 0.0 && random.chance(40) => Value::Double(-double),
        Value::Double(double) => Value::Double(beside(double, step)),
        Value::Name(name) => Value::Name(name),
    }
}
