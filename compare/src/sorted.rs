//! Generates small books that are about the order of children (document 02, 7): several children of a set decide, or one
//! alone applies, and others stand beside that set which decide too, or do not apply.

use crate::books::{obligation, with, Book};
use crate::random::Random;
use crate::record::*;
use crate::truth::Truth;
use crate::wished::*;

/// A sound book, and its request.
pub fn book(random: &mut Random) -> (Book, Vec<Entry>) {
    let mut maker = Maker::new(random);
    let mut records = match maker.random.below(5) {
        0..=1 => maker.several(),
        2..=3 => maker.one_alone(),
        _ => maker.over_rules(),
    };
    for _ in 0..maker.random.below(3) {
        let (algorithm, applies) = (maker.random.between(1, 4) as u8, maker.random.pick(&[0, 70]));
        let count = maker.random.below(3);
        let others: Vec<Vec<Record>> = (0..count).map(|_| maker.other(applies)).collect();
        records = maker.set_of(algorithm, records, others);
    }
    let mut entries = maker.entries;
    random.shuffle(&mut entries);
    entries.truncate(MOST_ENTRIES);
    (Book { records, wishes: Vec::new() }, entries)
}

impl Maker<'_> {
    /// A set of which several children decide, often all alike.
    fn several(&mut self) -> Vec<Record> {
        let algorithm = self.random.pick(&[DENY_OVERRIDES, PERMIT_OVERRIDES]);
        let overridden = if algorithm == DENY_OVERRIDES { PERMIT } else { DENY };
        let effects = self.random.pick(&[[overridden; 2], [overridden; 2], [PERMIT, DENY]]);
        let (quiet, lost) = self.random.pick(&[(20, 0), (20, 0), (30, 80), (100, 0)]);
        let mut children = Vec::new();
        for _ in 0..self.random.between(2, 4) {
            let (effect, status) = (self.random.pick(&effects), self.status());
            children.push(match () {
                _ if self.random.chance(quiet) => self.quiet_policy(),
                _ if self.random.chance(lost) => self.lost_policy(effect, status),
                _ => self.deciding(effect),
            });
        }
        with(SET, algorithm, &children)
    }

    /// An only-one set of which one child applies and decides; now and then none.
    fn one_alone(&mut self) -> Vec<Record> {
        let effect = self.effect();
        let one = if self.random.chance(85) { self.deciding(effect) } else { self.other(0) };
        let count = self.random.between(1, 3);
        let others = (0..count).map(|_| self.other(0)).collect();
        self.set_of(ONLY_ONE, one, others)
    }

    /// A policy of several rules, of which often none applies.
    fn over_rules(&mut self) -> Vec<Record> {
        let quiet = self.random.pick(&[20, 100]);
        let mut parts = Vec::new();
        for _ in 0..self.random.between(2, 4) {
            parts.push(if self.random.chance(quiet) { self.quiet_rule() } else { self.any_rule() });
        }
        parts.push(vec![self.duty(PERMIT), self.duty(DENY)]);
        let algorithm = self.random.pick(&[DENY_OVERRIDES, PERMIT_OVERRIDES]);
        with(POLICY, algorithm, &parts)
    }

    /// A set of this one and of others, with obligations of its own. Now and then it does not apply.
    fn set_of(&mut self, algorithm: u8, one: Vec<Record>, others: Vec<Vec<Record>>) -> Vec<Record> {
        let mut children = vec![one];
        children.extend(others);
        self.random.shuffle(&mut children);
        let target = if self.random.chance(4) { self.target(Truth::False) } else { Vec::new() };
        let duties = vec![self.duty(PERMIT), self.duty(DENY)];
        with(SET, algorithm, &[target, children.concat(), duties])
    }

    /// A policy whose target has this chance to be Match; else it is No-match.
    fn other(&mut self, applies: usize) -> Vec<Record> {
        let (effect, status) = (self.effect(), self.status());
        if !self.random.chance(applies) {
            let (target, rule) = (self.target(Truth::False), self.any_rule());
            return self.policy(target, rule);
        }
        if self.random.chance(70) {
            return self.deciding(effect);
        }
        self.lost_policy(effect, status)
    }

    /// A policy that decides so, with an obligation.
    fn deciding(&mut self, effect: u8) -> Vec<Record> {
        let mut rules = vec![self.sure_rule(effect)];
        for _ in 0..self.random.below(3) {
            rules.push(self.quiet_rule());
        }
        self.random.shuffle(&mut rules);
        rules.push(vec![self.duty(effect)]);
        let algorithm = self.random.between(1, 3) as u8;
        with(POLICY, algorithm, &rules)
    }

    fn duty(&mut self, effect: u8) -> Record {
        let number = if self.random.chance(25) { self.random.pick(&[0, 1]) } else { self.random.next() as u16 };
        obligation(effect, number)
    }
}
