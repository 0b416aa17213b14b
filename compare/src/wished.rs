//! Makes conditions, targets, rules and policies that turn out as is wished, and the request that makes them so.

use crate::books::{obligation, record, with};
use crate::policy::Value;
use crate::random::Random;
use crate::record::*;
use crate::status::Status;
use crate::sums::Operator;
use crate::truth::Truth;
use crate::vouched;

pub const PERMIT: u8 = 1;
pub const DENY: u8 = 2;

pub const DENY_OVERRIDES: u8 = 1;
pub const PERMIT_OVERRIDES: u8 = 2;
pub const FIRST_APPLICABLE: u8 = 3;
pub const ONLY_ONE: u8 = 4;

pub struct Maker<'r> {
    pub random: &'r mut Random,
    pub entries: Vec<Entry>,
    /// The attributes asked for; each has an identifier of its own.
    pub asked: u16,
}

/// What a part is to be: one of two that are Indeterminate, or another one before, between or after them.
pub enum Role {
    Lost(usize),
    Before,
    Between,
    After,
}

/// The number of parts, and which two of them.
const TWO_OF: [(usize, usize, usize); 10] =
    [(2, 0, 1), (3, 0, 1), (3, 0, 2), (3, 1, 2), (4, 0, 1), (4, 0, 2), (4, 0, 3), (4, 1, 2), (4, 1, 3), (4, 2, 3)];

impl<'r> Maker<'r> {
    pub fn new(random: &'r mut Random) -> Maker<'r> {
        Maker { random, entries: Vec::new(), asked: 0 }
    }

    /// Two to four parts, two of them Indeterminate.
    pub fn among(&mut self, mut make: impl FnMut(&mut Self, usize, Role) -> Vec<Record>) -> Vec<Vec<Record>> {
        let (count, first, second) = self.random.pick(&TWO_OF);
        let mut parts = Vec::new();
        for place in 0..count {
            let role = match place {
                _ if place == first => Role::Lost(0),
                _ if place == second => Role::Lost(1),
                _ if place < first => Role::Before,
                _ if place < second => Role::Between,
                _ => Role::After,
            };
            parts.push(make(self, place, role));
        }
        parts
    }

    pub fn status(&mut self) -> Status {
        self.random.pick(&[Status::Missing, Status::Processing])
    }

    pub fn effect(&mut self) -> u8 {
        self.random.pick(&[PERMIT, DENY])
    }

    // Attributes

    /// How many values a bag with this code has.
    fn times(&mut self, status: Status) -> usize {
        match status {
            Status::Missing => 0,
            Status::Processing => self.random.between(2, 3),
        }
    }

    /// A record that asks for an attribute which the request has so many times, often beside values of other issuers.
    fn ask(&mut self, mut asks: Record, category: u8, type_byte: u8, value: Value, times: usize) -> Vec<Record> {
        asks.set_issuer(vouched::anybody(self.random));
        let issuers = vouched::of_values(self.random, asks.issuer(), times);
        let values = issuers.into_iter().map(|issuer| (value, issuer)).collect();
        self.ask_for(asks, category, type_byte, values)
    }

    /// A record that asks for an attribute which the request has with these values, each by its issuer.
    pub fn ask_for(&mut self, mut asks: Record, category: u8, type_byte: u8, values: Vec<(Value, u16)>) -> Vec<Record> {
        self.asked += 1;
        asks.0[4..6].copy_from_slice(&[category, type_byte]);
        asks.0[6..8].copy_from_slice(&self.asked.to_be_bytes());
        for (value, issuer) in values {
            self.entries.push(Entry::new(category, value.value_type(), self.asked, value.bytes()).by(issuer));
        }
        vec![asks]
    }

    /// A value of this type, and the type as a record may have it, with must-be-present or without.
    fn any_of(&mut self, value_type: u8) -> (u8, Value) {
        let value = match value_type {
            INTEGER => Value::Integer(self.random.below(3) as i64 - 1),
            NAME => Value::Name([self.random.below(3) as u8; 8]),
            _ => Value::Double(self.random.pick(&[0.0, -0.5, 1e300])),
        };
        (value_type + self.random.pick(&[0, MUST_BE_PRESENT]), value)
    }

    /// A comparison of an attribute with the value that it has, if it has one.
    fn comparison(&mut self, functions: &[u8], types: &[u8], times: usize) -> Vec<Record> {
        let value_type = self.random.pick(types);
        let (type_byte, value) = self.any_of(value_type);
        let function = if value_type == NAME { 1 } else { self.random.pick(functions) };
        let mut asks = record(CONDITION, COMPARISON + function);
        asks.set_value(value.bytes());
        let category = self.random.between(1, 4) as u8;
        self.ask(asks, category, type_byte, value, times)
    }

    // Conditions

    /// A condition that is True, or False.
    pub fn known(&mut self, truth: bool) -> Vec<Record> {
        match (self.random.below(3), truth) {
            (0, true) => with(CONDITION, AND, &[]),
            (0, false) => with(CONDITION, OR, &[]),
            (_, true) => self.comparison(&[1, 3, 5], &[INTEGER, NAME, DOUBLE], 1),
            (_, false) => self.comparison(&[2, 4], &[INTEGER, DOUBLE], 1),
        }
    }

    /// A condition that is Indeterminate with this code.
    pub fn lost(&mut self, status: Status) -> Vec<Record> {
        match self.random.below(8) {
            0..=3 => {
                let times = self.times(status);
                self.comparison(&[1, 2, 3, 4, 5], &[INTEGER, NAME, DOUBLE], times)
            }
            4..=6 => {
                let value_type = self.random.pick(&[INTEGER, NAME, DOUBLE]);
                let operands = [self.lost_operand(value_type, status), self.literal(value_type)];
                self.compared(value_type, operands)
            }
            _ => {
                let part = self.lost(status);
                let choice = self.random.pick(&[AND, OR, NOT]);
                with(CONDITION, choice, &[part])
            }
        }
    }

    /// A comparison of these two, or of the same the other way round where one of them is a literal.
    pub fn compared(&mut self, value_type: u8, mut operands: [Vec<Record>; 2]) -> Vec<Record> {
        let function = if value_type == NAME { 1 } else { self.random.between(1, 5) as u8 };
        if operands[1][0].is_literal() && self.random.chance(50) {
            operands.swap(0, 1);
        }
        with(CONDITION, COMPARISON_OF_VALUES + function, &operands)
    }

    // Operands

    pub fn literal(&mut self, value_type: u8) -> Vec<Record> {
        let (_, value) = self.any_of(value_type);
        literal(value)
    }

    /// A value that is Indeterminate with this code.
    pub fn lost_operand(&mut self, value_type: u8, status: Status) -> Vec<Record> {
        match self.random.below(4) {
            0 if value_type != NAME => {
                let mut operands = [self.lost_operand(value_type, status), self.literal(value_type)];
                if self.random.chance(50) {
                    operands.swap(0, 1);
                }
                let operator = self.operator(value_type);
                with(VALUE, operator.choice(), &operands)
            }
            1..=2 if value_type != NAME && status == Status::Processing => self.failed(value_type),
            _ => {
                let times = self.times(status);
                let (type_byte, value) = self.any_of(value_type);
                let category = self.random.between(1, 4) as u8;
                self.ask(record(VALUE, ATTRIBUTE), category, type_byte, value, times)
            }
        }
    }

    fn operator(&mut self, value_type: u8) -> Operator {
        use Operator::*;
        match value_type {
            DOUBLE => DoubleAdd,
            _ => self.random.pick(&[Add, Subtract, Multiply, Divide, Remainder]),
        }
    }

    /// A sum that comes to nothing.
    fn failed(&mut self, value_type: u8) -> Vec<Record> {
        use Operator::*;
        let (operator, [first, second]) = if value_type == DOUBLE {
            (DoubleAdd, [f64::MAX; 2].map(Value::Double))
        } else {
            let (largest, least) = (i64::MAX, i64::MIN);
            let large = [(Add, largest, 1), (Subtract, least, 1), (Multiply, largest, 2), (Divide, least, -1)];
            let by_0 = [(Divide, 5, 0), (Remainder, 5, 0)];
            let (operator, first, second) = self.random.pick(&[&large[..], &by_0].concat());
            (operator, [first, second].map(Value::Integer))
        };
        with(VALUE, operator.choice(), &[literal(first), literal(second)])
    }

    // Targets

    pub fn matching(&mut self, category: u8, truth: Truth) -> Vec<Record> {
        let value_type = self.random.pick(&[INTEGER, DOUBLE]);
        let (any, value) = self.any_of(value_type);
        let (function, type_byte, times) = match truth {
            Truth::True => (1, any, 1),
            Truth::False if self.random.chance(50) => (2, any, 1),
            Truth::False => (1, value_type, 0),
            Truth::Unknown(_) => (1, value_type + MUST_BE_PRESENT, 0),
        };
        let mut asks = record(MATCH, function);
        asks.set_value(value.bytes());
        self.ask(asks, category, type_byte, value, times)
    }

    pub fn section(&mut self, category: u8, truth: Truth) -> Vec<Record> {
        let matching = self.matching(category, truth);
        section(category, &[with(CONJUNCTION, 0, &[matching])])
    }

    /// One section.
    pub fn target(&mut self, truth: Truth) -> Vec<Record> {
        let category = self.random.between(1, 4) as u8;
        self.section(category, truth)
    }

    // Rules and policies

    pub fn lost_rule(&mut self, effect: u8, status: Status) -> Vec<Record> {
        let mut parts = Vec::new();
        if status == Status::Missing && self.random.chance(25) {
            parts.push(self.target(Truth::Unknown(status)));
        } else {
            if self.random.chance(20) {
                parts.push(self.target(Truth::True));
            }
            parts.push(self.lost(status));
        }
        with(RULE, effect, &parts)
    }

    /// A rule that does not apply.
    pub fn quiet_rule(&mut self) -> Vec<Record> {
        let why = if self.random.chance(50) { self.target(Truth::False) } else { self.known(false) };
        let effect = self.effect();
        with(RULE, effect, &[why])
    }

    pub fn sure_rule(&mut self, effect: u8) -> Vec<Record> {
        let condition = if self.random.chance(50) { self.known(true) } else { Vec::new() };
        with(RULE, effect, &[condition])
    }

    /// A rule that is not Indeterminate.
    pub fn known_rule(&mut self) -> Vec<Record> {
        let effect = self.effect();
        if self.random.chance(50) {
            self.sure_rule(effect)
        } else {
            self.quiet_rule()
        }
    }

    pub fn any_rule(&mut self) -> Vec<Record> {
        let (effect, status) = (self.effect(), self.status());
        if self.random.chance(30) {
            self.lost_rule(effect, status)
        } else {
            self.known_rule()
        }
    }

    /// A policy of one rule, now and then with an obligation.
    pub fn policy(&mut self, target: Vec<Record>, rule: Vec<Record>) -> Vec<Record> {
        let duty = if self.random.chance(20) { vec![obligation(self.effect(), 7)] } else { Vec::new() };
        let algorithm = self.random.between(1, 3) as u8;
        with(POLICY, algorithm, &[target, rule, duty])
    }

    pub fn lost_policy(&mut self, effect: u8, status: Status) -> Vec<Record> {
        if status == Status::Missing && self.random.chance(25) {
            let (target, rule) = (self.target(Truth::Unknown(status)), self.sure_rule(effect));
            return self.policy(target, rule);
        }
        let rule = self.lost_rule(effect, status);
        self.policy_of(rule)
    }

    /// A policy that does not apply, by its target or by its rule.
    pub fn quiet_policy(&mut self) -> Vec<Record> {
        let (target, rule) = match self.random.below(2) {
            0 => (self.target(Truth::False), self.any_rule()),
            _ => (Vec::new(), self.quiet_rule()),
        };
        self.policy(target, rule)
    }

    /// A policy of this rule alone.
    pub fn policy_of(&mut self, rule: Vec<Record>) -> Vec<Record> {
        self.policy(Vec::new(), rule)
    }
}

pub fn section(category: u8, conjunctions: &[Vec<Record>]) -> Vec<Record> {
    let mut section = with(SECTION, 0, conjunctions);
    section[0].0[4] = category;
    section
}

pub fn literal(value: Value) -> Vec<Record> {
    let mut made = record(VALUE, LITERAL);
    made.0[5] = value.value_type();
    made.set_value(value.bytes());
    vec![made]
}
