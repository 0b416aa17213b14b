//! Draws issuers, and generates small books that are about them (document 02, 5): a record meets values of its issuer
//! and of others, and the answer shows which it took.

use crate::books::{obligation, record, with, Book};
use crate::policy::Value;
use crate::random::Random;
use crate::record::*;
use crate::truth::{holds, takes, FUNCTIONS};
use crate::wished::{self, section, Maker, DENY, PERMIT_OVERRIDES};

/// An issuer.
pub fn somebody(random: &mut Random) -> u16 {
    let some = random.between(1, 65_535) as u16;
    random.pick(&[1, 2, 5, 255, 256, 257, 32_768, 65_535, some, some, some])
}

/// An issuer or, as often, 0: who vouches for a value that any record may take, or whom a record asks for.
pub fn anybody(random: &mut Random) -> u16 {
    if random.chance(50) {
        return NOBODY;
    }
    somebody(random)
}

/// An issuer that differs from this one in a bit.
fn beside(random: &mut Random, issuer: u16) -> u16 {
    match issuer ^ 1 << random.below(16) {
        NOBODY => issuer.rotate_left(1), // it had one bit, which nobody else may lose
        other => other,
    }
}

/// Nobody, or another issuer than this one.
pub fn other(random: &mut Random, issuer: u16) -> u16 {
    match (random.below(5), somebody(random)) {
        (0..=1, _) => NOBODY,
        (2, some) if some != issuer => some,
        _ => beside(random, issuer),
    }
}

/// Whose values the records of a book ask for.
pub fn issuers(random: &mut Random) -> Vec<u16> {
    let (one, another) = (somebody(random), somebody(random));
    match random.below(4) {
        0 => vec![ANY],
        1 => vec![one],
        2 => vec![ANY, one],
        _ => vec![ANY, one, another],
    }
}

/// The issuers of values of which a record that asks for this issuer takes so many.
pub fn of_values(random: &mut Random, asked: u16, taken: usize) -> Vec<u16> {
    if asked == ANY {
        return (0..taken).map(|_| anybody(random)).collect();
    }
    let others = if random.chance(50) { random.between(1, 2) } else { 0 };
    let mut issuers = vec![asked; taken];
    issuers.extend((0..others).map(|_| other(random, asked)));
    issuers
}

/// Which issuer a record asks for, and those of up to three values of its key.
fn meeting(random: &mut Random) -> (u16, Vec<u16>) {
    let some = somebody(random);
    let other = beside(random, some);
    let others = random.pick(&[[NOBODY; 2], [other; 2], [NOBODY, other]]);
    let (asked, taken) = if random.chance(25) { (ANY, 0) } else { (some, random.pick(&[0, 0, 1, 1, 2, 3])) };
    let left = random.pick(&[0, 1, 1, 2, 3]).min(3 - taken);
    let mut issuers = vec![asked; taken];
    issuers.extend((0..left).map(|_| random.pick(&others)));
    (asked, issuers)
}

/// A sound book, and its request.
pub fn book(random: &mut Random) -> (Book, Vec<Entry>) {
    let mut maker = Maker::new(random);
    let count = maker.random.pick(&[1, 1, 2, 3, 4]);
    let mut policies = Vec::new();
    for _ in 0..count {
        policies.push(maker.vouched_policy());
        if maker.random.chance(20) {
            policies.push(maker.twin_of(policies[policies.len() - 1].clone()));
        }
    }
    // Each policy that denies hands up an obligation of its own, also beside one that is Indeterminate.
    let records = if policies.len() == 1 { policies.concat() } else { with(SET, PERMIT_OVERRIDES, &policies) };
    let mut entries = maker.entries;
    random.shuffle(&mut entries);
    (Book { records, wishes: Vec::new() }, entries)
}

/// A function, a literal, and two values of its type: one of which it holds, and one of which it does not.
struct Telling {
    function: u8,
    literal: Value,
    yes: Value,
    no: Value,
}

fn telling(random: &mut Random) -> Telling {
    let values = match random.pick(&[INTEGER, NAME, DOUBLE]) {
        INTEGER => [0, -1, 1].map(Value::Integer),
        NAME => [[0; 8], [1; 8], [2; 8]].map(Value::Name),
        _ => [0.0, -0.5, 1e300].map(Value::Double),
    };
    let literal = values[0];
    let function = if literal.value_type() == NAME { 0 } else { random.below(FUNCTIONS.len()) };
    let (yes, no): (Vec<Value>, Vec<Value>) =
        values.into_iter().partition(|&value| holds(FUNCTIONS[function], literal, value));
    Telling { function: function as u8 + 1, literal, yes: yes[0], no: no[0] }
}

impl Maker<'_> {
    /// A policy that denies where a match, a comparison or a comparison of two values is True.
    fn vouched_policy(&mut self) -> Vec<Record> {
        let Telling { function, literal, yes, no } = telling(self.random);
        let (asked, issuers) = meeting(self.random);
        // What others say and what its own issuer says: most often the opposite.
        let said = self.random.pick(&[[yes, no], [yes, no], [yes, no], [no, yes], [no, yes], [yes, yes]]);
        let values = issuers.iter().map(|&issuer| (said[usize::from(takes("", asked, issuer))], issuer)).collect();
        let (category, kind) = (self.random.between(1, 4) as u8, self.random.pick(&[MATCH, CONDITION, VALUE]));
        let mut asks = match kind {
            MATCH => record(MATCH, function),
            CONDITION => record(CONDITION, COMPARISON + function),
            _ => record(VALUE, ATTRIBUTE),
        };
        if kind != VALUE {
            asks.set_value(literal.bytes());
        }
        asks.set_issuer(asked);
        let type_byte = literal.value_type() + self.random.pick(&[0, MUST_BE_PRESENT]);
        let asking = self.ask_for(asks, category, type_byte, values);
        let part = match kind {
            MATCH => section(category, &[with(CONJUNCTION, 0, &[asking])]),
            CONDITION => asking,
            _ => with(CONDITION, COMPARISON_OF_VALUES + function, &[wished::literal(literal), asking]),
        };
        let algorithm = self.random.between(1, 3) as u8;
        with(POLICY, algorithm, &[with(RULE, DENY, &[part]), vec![obligation(DENY, self.asked)]])
    }

    /// The same policy for the issuer of the last value made, which the first one often leaves.
    fn twin_of(&mut self, mut policy: Vec<Record>) -> Vec<Record> {
        let issuer = self.entries.last().map_or(ANY, Entry::issuer);
        policy.iter_mut().filter(|record| record.asks()).for_each(|record| record.set_issuer(issuer));
        self.asked += 1;
        policy.pop();
        policy.push(obligation(DENY, self.asked));
        policy
    }
}
