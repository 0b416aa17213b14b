//! An accepted book as a tree, and an accepted request as keys with values.

use crate::record::*;
use crate::status::{Outcome, Status};
use crate::sums::Operator;

/// Also a rule's or an obligation's effect: Permit or Deny.
#[derive(Clone, Copy, PartialEq, Eq, Debug)]
pub enum Decision {
    Permit,
    Deny,
    NotApplicable,
    Indeterminate(Status),
}

impl Decision {
    pub fn name(self) -> &'static str {
        match self {
            Decision::Permit => "Permit",
            Decision::Deny => "Deny",
            Decision::NotApplicable => "NotApplicable",
            Decision::Indeterminate(_) => "Indeterminate",
        }
    }

    pub fn number(self) -> u64 {
        match self {
            Decision::Permit => 1,
            Decision::Deny => 2,
            Decision::NotApplicable => 3,
            Decision::Indeterminate(_) => 4,
        }
    }

    /// The status code, 0 for none.
    pub fn code(self) -> u64 {
        self.status().map_or(0, |status| status as u64)
    }
}

/// Two values are equal when they have one type and are the same integer, the same eight bytes of a name,
/// or doubles that IEEE 754 calls equal, as it does the two zeros.
#[derive(Clone, Copy, PartialEq, Debug)]
pub enum Value {
    Integer(i64),
    Name([u8; 8]),
    Double(f64),
}

impl Value {
    pub fn of(value_type: u8, bytes: [u8; 8]) -> Value {
        match value_type {
            INTEGER => Value::Integer(i64::from_be_bytes(bytes)),
            NAME => Value::Name(bytes),
            _ => Value::Double(f64::from_be_bytes(bytes)),
        }
    }

    pub fn value_type(self) -> u8 {
        match self {
            Value::Integer(_) => INTEGER,
            Value::Name(_) => NAME,
            Value::Double(_) => DOUBLE,
        }
    }

    pub fn bytes(self) -> [u8; 8] {
        match self {
            Value::Integer(integer) => integer.to_be_bytes(),
            Value::Name(name) => name,
            Value::Double(double) => double.to_be_bytes(),
        }
    }
}

#[derive(Clone, Copy, PartialEq, Eq, Debug)]
pub struct Key {
    pub category: u8,
    pub value_type: u8,
    pub identifier: u16,
}

/// What a record asks the request for: the values of a key that this issuer vouches for, or any issuer where it is 0.
#[derive(Clone, Copy, PartialEq, Eq, Debug)]
pub struct Asked {
    pub key: Key,
    pub issuer: u16,
}

#[derive(Clone, Copy, PartialEq, Eq, Debug)]
pub enum Function {
    Equal,
    Greater,
    GreaterOrEqual,
    Less,
    LessOrEqual,
}

/// A match, or a comparison.
pub struct Test {
    pub function: Function,
    pub asked: Asked,
    pub must_be_present: bool,
    pub literal: Value,
}

/// A value of a condition.
pub enum Expression {
    Literal(Value),
    /// The one value of a bag; that it must be present, or may be absent, has no effect.
    Attribute {
        asked: Asked,
        must_be_present: bool,
    },
    Operation {
        operator: Operator,
        operands: Box<[Expression; 2]>,
    },
}

pub struct Conjunction(pub Vec<Test>);
pub struct Section(pub Vec<Conjunction>);
pub struct Target(pub Vec<Section>);

pub enum Condition {
    And(Vec<Condition>),
    Or(Vec<Condition>),
    Not(Box<Condition>),
    Comparison(Test),
    /// Two values by a function, the first first.
    Values(Function, [Expression; 2]),
}

pub struct Rule {
    pub effect: Decision,
    pub target: Target,
    pub condition: Option<Condition>,
}

#[derive(Clone, Copy, PartialEq, Eq, Debug)]
pub enum Algorithm {
    DenyOverrides,
    PermitOverrides,
    FirstApplicable,
    OnlyOneApplicable,
}

impl Algorithm {
    /// That of a policy or set.
    pub fn of(record: &Record) -> Algorithm {
        match record.choice() {
            1 => Algorithm::DenyOverrides,
            2 => Algorithm::PermitOverrides,
            3 => Algorithm::FirstApplicable,
            _ => Algorithm::OnlyOneApplicable,
        }
    }

    /// What it is called in the tables of counts, over rules or over policies.
    pub fn name(self, over_rules: bool) -> &'static str {
        match (self, over_rules) {
            (Algorithm::DenyOverrides, true) => "deny-overrides over rules",
            (Algorithm::PermitOverrides, true) => "permit-overrides over rules",
            (_, true) => "first-applicable over rules",
            (Algorithm::DenyOverrides, _) => "deny-overrides over policies",
            (Algorithm::PermitOverrides, _) => "permit-overrides over policies",
            (Algorithm::FirstApplicable, _) => "first-applicable over policies",
            (Algorithm::OnlyOneApplicable, _) => "only-one-applicable",
        }
    }
}

pub struct Obligation {
    pub effect: Decision,
    pub number: u16,
}

pub enum Children {
    Rules(Vec<Rule>),
    Policies(Vec<Policy>),
}

/// A policy (over rules) or a policy set (over policies and sets).
pub struct Policy {
    pub algorithm: Algorithm,
    pub target: Target,
    pub children: Children,
    pub obligations: Vec<Obligation>,
}

impl Policy {
    pub fn name(&self) -> &'static str {
        match self.children {
            Children::Rules(_) => "policy",
            Children::Policies(_) => "set",
        }
    }

    /// What the algorithm is called in the tables of counts.
    pub fn algorithm_name(&self) -> &'static str {
        self.algorithm.name(matches!(self.children, Children::Rules(_)))
    }
}

/// A value of a request. Nobody's issuer is 0.
pub struct Attribute {
    pub key: Key,
    pub issuer: u16,
    pub value: Value,
}

/// The tree of an accepted book.
pub fn tree(bytes: &[u8]) -> Policy {
    policy(&records(bytes))
}

/// The values of an accepted request with their keys and issuers, in its order.
pub fn attributes(bytes: &[u8]) -> Vec<Attribute> {
    let attribute = |entry: &Entry| {
        let key = Key { category: entry.category(), value_type: entry.value_type(), identifier: entry.identifier() };
        Attribute { key, issuer: entry.issuer(), value: Value::of(entry.value_type(), entry.value()) }
    };
    entries(bytes).iter().map(attribute).collect()
}

/// The children of a record: each one's records. `subtree` has the record first.
fn children(subtree: &[Record]) -> Vec<&[Record]> {
    let mut children = Vec::new();
    let mut at = 1;
    while at < subtree.len() {
        let end = at + subtree[at].span();
        children.push(&subtree[at..end]);
        at = end;
    }
    children
}

/// The children of one of these kinds, each turned into something by `make`.
fn children_of<T>(subtree: &[Record], kinds: &[u8], make: fn(&[Record]) -> T) -> Vec<T> {
    let chosen = children(subtree).into_iter().filter(|child| kinds.contains(&child[0].kind()));
    chosen.map(make).collect()
}

fn policy(subtree: &[Record]) -> Policy {
    let below = if subtree[0].kind() == POLICY {
        Children::Rules(children_of(subtree, &[RULE], rule))
    } else {
        Children::Policies(children_of(subtree, &[SET, POLICY], policy))
    };
    let obligations = children_of(subtree, &[OBLIGATION], obligation);
    Policy { algorithm: Algorithm::of(&subtree[0]), target: target(subtree), children: below, obligations }
}

fn rule(subtree: &[Record]) -> Rule {
    let condition = children_of(subtree, &[CONDITION], condition).pop();
    Rule { effect: effect(&subtree[0]), target: target(subtree), condition }
}

fn obligation(subtree: &[Record]) -> Obligation {
    Obligation { effect: effect(&subtree[0]), number: subtree[0].identifier() }
}

fn effect(record: &Record) -> Decision {
    if record.choice() == 1 {
        Decision::Permit
    } else {
        Decision::Deny
    }
}

fn target(subtree: &[Record]) -> Target {
    Target(children_of(subtree, &[SECTION], section))
}

fn section(subtree: &[Record]) -> Section {
    Section(children_of(subtree, &[CONJUNCTION], conjunction))
}

fn conjunction(subtree: &[Record]) -> Conjunction {
    Conjunction(children_of(subtree, &[MATCH], |leaf| test(&leaf[0], leaf[0].choice())))
}

fn condition(subtree: &[Record]) -> Condition {
    let (record, choice) = (&subtree[0], subtree[0].choice());
    if record.is_comparison_of_values() {
        return Condition::Values(function(choice - COMPARISON_OF_VALUES), operands(subtree));
    }
    let mut parts = children_of(subtree, &[CONDITION], condition);
    match choice {
        AND => Condition::And(parts),
        OR => Condition::Or(parts),
        NOT => Condition::Not(Box::new(parts.remove(0))),
        _ => Condition::Comparison(test(record, choice - COMPARISON)),
    }
}

/// The two values below an operator or a comparison of values.
fn operands(subtree: &[Record]) -> [Expression; 2] {
    let operands = children_of(subtree, &[VALUE], expression);
    operands.try_into().ok().expect("an accepted book has two operands here")
}

fn expression(subtree: &[Record]) -> Expression {
    let record = &subtree[0];
    match record.choice() {
        LITERAL => Expression::Literal(Value::of(record.type_byte(), record.value())),
        ATTRIBUTE => Expression::Attribute { asked: asked(record), must_be_present: must_be_present(record) },
        choice => Expression::Operation { operator: Operator::of(choice), operands: Box::new(operands(subtree)) },
    }
}

fn test(record: &Record, choice: u8) -> Test {
    let asked = asked(record);
    Test {
        function: function(choice),
        asked,
        must_be_present: must_be_present(record),
        literal: Value::of(asked.key.value_type, record.value()),
    }
}

fn function(choice: u8) -> Function {
    match choice {
        1 => Function::Equal,
        2 => Function::Greater,
        3 => Function::GreaterOrEqual,
        4 => Function::Less,
        _ => Function::LessOrEqual,
    }
}

fn asked(record: &Record) -> Asked {
    let value_type = record.type_byte() % MUST_BE_PRESENT;
    let key = Key { category: record.category(), value_type, identifier: record.identifier() };
    Asked { key, issuer: record.issuer() }
}

fn must_be_present(record: &Record) -> bool {
    record.type_byte() >= MUST_BE_PRESENT
}
