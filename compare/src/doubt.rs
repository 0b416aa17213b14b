//! Generates small books that are about a code (document 02, 4): two parts are Indeterminate, and the answer shows it.

use crate::books::{obligation, with, Book};
use crate::random::Random;
use crate::record::*;
use crate::status::Status;
use crate::sums::{Operator, OPERATORS};
use crate::truth::Truth;
use crate::wished::*;

/// Targets of an only-one set's children: Match, No-match, Indeterminate.
const TARGETS: [&str; 26] = [
    "IN", "MI", "II", "II", "MM", "MM", "MIN", "NNI", "INI", "MII", "IMM", "MIM", "MNM", "MMM", "MMI", "MMI", "NMIN",
    "INNN", "NIMI", "INNI", "MNIM", "INMM", "NMMN", "MNNM", "MMNI", "NMMI",
];

/// A sound book, and its request.
pub fn book(random: &mut Random) -> (Book, Vec<Entry>) {
    let mut maker = Maker::new(random);
    let about = match maker.random.below(100) {
        0..=24 => maker.rules(),
        25..=50 => maker.policies(),
        51..=66 => maker.only_one(),
        67..=77 => maker.logic(),
        78..=81 => maker.twice_lost_target(),
        _ => maker.operands(),
    };
    let records = maker.shown(about);
    let mut entries = maker.entries;
    random.shuffle(&mut entries);
    (Book { records, wishes: Vec::new() }, entries)
}

impl Maker<'_> {
    /// The policy or set, often in a set that has its answer.
    fn shown(&mut self, about: Vec<Record>) -> Vec<Record> {
        if self.random.chance(60) {
            return about;
        }
        let duties = vec![obligation(PERMIT, 3), obligation(DENY, 4)];
        let algorithm = self.random.pick(&[PERMIT_OVERRIDES, FIRST_APPLICABLE, ONLY_ONE]);
        with(SET, algorithm, &[about, duties])
    }

    // Lists of rules and of policies

    fn rules(&mut self) -> Vec<Record> {
        let algorithm = self.random.pick(&[DENY_OVERRIDES, PERMIT_OVERRIDES, FIRST_APPLICABLE]);
        let (codes, effects) = ([self.status(), self.status()], [self.effect(), self.effect()]);
        let strong = if algorithm == DENY_OVERRIDES { DENY } else { PERMIT };
        // The other effect does not hide an Indeterminate rule of the overriding one.
        let may_be_beside = algorithm != FIRST_APPLICABLE && effects.contains(&strong);
        let rules = self.among(|maker, _, role| match role {
            Role::Lost(which) => maker.lost_rule(effects[which], codes[which]),
            Role::Between if algorithm == FIRST_APPLICABLE => maker.known_rule(),
            Role::After if algorithm == FIRST_APPLICABLE => maker.any_rule(),
            _ if may_be_beside && maker.random.chance(40) => maker.sure_rule(PERMIT + DENY - strong),
            _ => maker.quiet_rule(),
        });
        with(POLICY, algorithm, &rules)
    }

    fn policies(&mut self) -> Vec<Record> {
        let algorithm = self.random.pick(&[DENY_OVERRIDES, PERMIT_OVERRIDES, FIRST_APPLICABLE]);
        let (codes, effects) = ([self.status(), self.status()], [self.effect(), self.effect()]);
        let policies = self.among(|maker, _, role| {
            let rule = match role {
                Role::Lost(which) => return maker.lost_policy(effects[which], codes[which]),
                Role::Between if algorithm != PERMIT_OVERRIDES => maker.known_rule(),
                Role::After if algorithm != PERMIT_OVERRIDES => maker.any_rule(),
                Role::Before if algorithm == DENY_OVERRIDES && maker.random.chance(40) => maker.sure_rule(PERMIT),
                _ => return maker.quiet_policy(),
            };
            maker.policy_of(rule)
        });
        with(SET, algorithm, &policies)
    }

    /// Children of which too many may apply, or one that is Indeterminate among others that do not apply.
    fn only_one(&mut self) -> Vec<Record> {
        if self.random.chance(65) {
            let targets = self.random.pick(&TARGETS);
            let children: Vec<Vec<Record>> = targets.bytes().map(|target| self.child(target, 30)).collect();
            return with(SET, ONLY_ONE, &children);
        }
        let count = self.random.between(2, 4);
        let one = self.random.below(count);
        let children: Vec<Vec<Record>> =
            (0..count).map(|place| self.child(if place == one { b'M' } else { b'N' }, 100)).collect();
        with(SET, ONLY_ONE, &children)
    }

    /// A policy with this target, whose rule has this chance to be Indeterminate.
    fn child(&mut self, target: u8, lost: usize) -> Vec<Record> {
        let target = match target {
            b'M' if self.random.chance(50) => Vec::new(),
            b'M' => self.target(Truth::True),
            b'N' => self.target(Truth::False),
            _ => self.target(Truth::Unknown(Status::Missing)),
        };
        let (effect, status) = (self.effect(), self.status());
        let rule = if self.random.chance(lost) { self.lost_rule(effect, status) } else { self.known_rule() };
        self.policy(target, rule)
    }

    // Conditions and targets

    /// A policy whose only rule has this condition.
    fn under(&mut self, condition: Vec<Record>) -> Vec<Record> {
        let effect = self.effect();
        self.policy_of(with(RULE, effect, &[condition]))
    }

    fn logic(&mut self) -> Vec<Record> {
        let choice = self.random.pick(&[AND, OR]);
        let codes = [self.status(), self.status()];
        let parts = self.among(|maker, _, role| match role {
            Role::Lost(which) => maker.lost(codes[which]),
            _ => maker.known(choice == AND),
        });
        let logic = with(CONDITION, choice, &parts);
        let condition = if self.random.chance(50) { with(CONDITION, NOT, &[logic]) } else { logic };
        self.under(condition)
    }

    /// Two matches of a conjunction, two conjunctions of a section or two sections of a target.
    fn twice_lost_target(&mut self) -> Vec<Record> {
        let lost = Truth::Unknown(Status::Missing);
        let category = self.random.between(1, 4) as u8;
        let target = match self.random.below(3) {
            0 => {
                let matches = self.among(|maker, _, role| match role {
                    Role::Lost(_) => maker.matching(category, lost),
                    _ => maker.matching(category, Truth::True),
                });
                section(category, &[with(CONJUNCTION, 0, &matches)])
            }
            1 => {
                let conjunctions = self.among(|maker, _, role| match role {
                    Role::Lost(_) => with(CONJUNCTION, 0, &[maker.matching(category, lost)]),
                    _ => with(CONJUNCTION, 0, &[maker.matching(category, Truth::False)]),
                });
                section(category, &conjunctions)
            }
            _ => {
                let sections = self.among(|maker, place, role| match role {
                    Role::Lost(_) => maker.section(place as u8 + 1, lost),
                    _ => {
                        let truth = maker.random.pick(&[Truth::True, Truth::False]);
                        maker.section(place as u8 + 1, truth)
                    }
                });
                sections.concat()
            }
        };
        let effect = self.effect();
        if self.random.chance(50) {
            return self.policy(target, with(RULE, effect, &[]));
        }
        self.policy_of(with(RULE, effect, &[target]))
    }

    /// An operator, or a comparison of two values, with both operands lost.
    fn operands(&mut self) -> Vec<Record> {
        let taker = self.random.below(OPERATORS.len() + 3);
        let operator = OPERATORS.get(taker).copied();
        let value_type = match operator {
            Some(Operator::DoubleAdd) => DOUBLE,
            Some(_) => INTEGER,
            None => (taker - OPERATORS.len()) as u8 + 1,
        };
        let codes = [self.status(), self.status()];
        let lost = codes.map(|code| self.lost_operand(value_type, code));
        let compared = match operator {
            Some(operator) => [with(VALUE, operator.choice(), &lost), self.literal(value_type)],
            None => lost,
        };
        let condition = self.compared(value_type, compared);
        self.under(condition)
    }
}
