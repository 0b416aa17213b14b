//! Generates sound books of every shape, and single subtrees of any kind.

use crate::borders::{self, Sum};
use crate::policy::Value;
use crate::random::Random;
use crate::record::*;
use crate::vouched;

/// A sound book, and the entries of a request that take its sums to where they are meant to go.
pub struct Book {
    pub records: Vec<Record>,
    pub wishes: Vec<Entry>,
}

/// What a book is to look like. Chances are in percent.
struct Style {
    /// Records at most.
    limit: usize,
    /// The root goes on until the limit is reached.
    fill: bool,
    /// The chance that the root is a set.
    root_set: usize,
    /// The deepest level at which a set may stand.
    set_depth: usize,
    /// The chance that a child of a set is a set.
    nest: usize,
    /// Children of a policy or set at most.
    children: usize,
    /// The chance of a section for each category of a target.
    sections: usize,
    /// Conjunctions of a section, and matches of a conjunction, at most.
    matches: usize,
    /// The chance that a rule has a condition.
    conditions: usize,
    /// The chance that a condition is and, or, not.
    logic: usize,
    /// The chance that a comparison is one of two values.
    values: usize,
    /// The chance that a first operand is an operator, and that a second is.
    nested: [usize; 2],
    /// The chance of must-be-present.
    must_be_present: usize,
    /// Own obligations at most.
    obligations: usize,
    /// The deepest level at which a record may have a target.
    target_depth: usize,
}

impl Style {
    fn small(random: &mut Random) -> Style {
        Style {
            limit: random.between(4, 40),
            fill: false,
            root_set: 65,
            set_depth: random.between(1, 6),
            nest: random.pick(&[20, 40, 60]),
            children: random.between(1, 5),
            sections: random.pick(&[0, 0, 5, 12, 25, 50]),
            matches: random.between(1, 3),
            conditions: random.pick(&[0, 30, 60, 100]),
            logic: random.pick(&[0, 30, 60]),
            values: random.pick(&[0, 0, 0, 50]),
            nested: [30, 30],
            must_be_present: random.pick(&[0, 15, 50]),
            obligations: random.between(0, 3),
            target_depth: MOST_DEPTH,
        }
    }

    fn any(random: &mut Random) -> Style {
        let small = Style::small(random);
        match random.below(1000) {
            0..=249 => Style { limit: random.between(1, 6), ..small },
            250..=339 => {
                Style { limit: random.between(16, 60), set_depth: 16, nest: 97, children: 2, sections: 5, ..small }
            }
            340..=399 => Style { limit: random.between(20, 80), set_depth: 2, conditions: 100, logic: 85, ..small },
            400..=449 => Style { limit: random.between(40, 150), fill: true, ..small },
            450..=469 => Style { limit: random.between(40, 200), set_depth: 1, children: 200, sections: 5, ..small },
            470..=476 => Style { limit: random.between(150, 1000), fill: true, ..small },
            477..=479 => Style { limit: random.pick(&[998, 999, 1000]), fill: true, ..small },
            480..=599 => {
                let children = random.between(3, 8);
                Style {
                    limit: random.between(20, 80),
                    set_depth: 3,
                    nest: 15,
                    children,
                    sections: 3,
                    obligations: 3,
                    ..small
                }
            }
            600..=799 => Style::guarded(random, small),
            800..=969 => Style::of_sums(random, small),
            _ => small,
        }
    }

    /// Obligations at every level, below targets that often ask for an attribute that must be present.
    fn guarded(random: &mut Random, small: Style) -> Style {
        Style {
            limit: random.between(20, 60),
            root_set: 100,
            set_depth: 3,
            nest: 70,
            children: random.between(2, 5),
            sections: 12,
            matches: 1,
            conditions: random.pick(&[0, 0, 30]),
            must_be_present: 90,
            obligations: 3,
            target_depth: random.between(2, 3),
            ..small
        }
    }

    /// Conditions over sums, some nested as deep as may be.
    fn of_sums(random: &mut Random, small: Style) -> Style {
        let nested = [[0, 0], [10, 10], [10, 10], [30, 30], [30, 30], [50, 50], [95, 20], [20, 95], [98, 2], [2, 98]];
        Style {
            limit: random.between(8, 45),
            root_set: 15,
            set_depth: 1,
            children: random.between(1, 6),
            sections: random.pick(&[0, 0, 0, 10]),
            conditions: 100,
            logic: random.pick(&[0, 0, 20, 60]),
            values: 100,
            nested: random.pick(&nested),
            ..small
        }
    }
}

struct Generator<'r> {
    random: &'r mut Random,
    style: Style,
    identifiers: Vec<u16>,
    /// Whose values its records ask for.
    issuers: Vec<u16>,
    /// The literals of each type.
    literals: [Vec<[u8; 8]>; 3],
    /// The records that second operands, still to come, take at least.
    kept: usize,
    book: Book,
}

/// A sound book.
pub fn book(random: &mut Random) -> Book {
    let style = Style::any(random);
    generate(random, style)
}

/// A sound book of a few dozen records at most.
pub fn small_book(random: &mut Random) -> Book {
    let style = Style::small(random);
    generate(random, style)
}

/// A sound book whose conditions compare sums.
pub fn book_of_sums(random: &mut Random) -> Book {
    let small = Style::small(random);
    let style = Style::of_sums(random, small);
    generate(random, style)
}

fn generate(random: &mut Random, style: Style) -> Book {
    let mut generator = Generator::new(random, style);
    if generator.style.fill || generator.random.chance(generator.style.root_set) {
        generator.set(1);
    } else {
        generator.policy(1);
    }
    generator.book
}

/// A sound book of exactly `count` records: a generated one with obligations added to its root.
pub fn book_of(random: &mut Random, count: usize) -> Vec<Record> {
    let style = Style { limit: random.between(1, count.min(60)), ..Style::small(random) };
    let mut records = generate(random, style).records;
    while records.len() < count {
        let effect = random.between(1, 2) as u8;
        records.push(obligation(effect, random.next() as u16));
    }
    records[0].set_span(count);
    records
}

/// `depth` sets, one in the other.
pub fn nested_sets(random: &mut Random, depth: usize) -> Vec<Record> {
    let mut records = Vec::new();
    for left in (1..=depth).rev() {
        let mut set = record(SET, random.between(1, 4) as u8);
        set.set_span(left);
        records.push(set);
    }
    records
}

/// A subtree of this kind that keeps every rule inside it. A section and its matches have `category`.
pub fn subtree(random: &mut Random, kind: u8, category: u8) -> Vec<Record> {
    let style = Style { limit: random.between(4, 12), ..Style::small(random) };
    let mut generator = Generator::new(random, style);
    let depth = generator.random.between(1, 12);
    match kind {
        SET => generator.set(depth),
        POLICY => generator.policy(depth),
        RULE => generator.rule(depth),
        SECTION => generator.section(category),
        CONJUNCTION => generator.conjunction(category),
        MATCH => generator.test(MATCH, 0, category),
        CONDITION => generator.condition(depth),
        VALUE => {
            let value_type = generator.random.pick(&[INTEGER, INTEGER, NAME, DOUBLE]);
            return operand(random, value_type);
        }
        _ => generator.obligation(),
    }
    generator.book.records
}

/// A value of this type, with its operands where it is an operator.
pub fn operand(random: &mut Random, value_type: u8) -> Vec<Record> {
    let style = Style { limit: random.between(1, 9), nested: [50, 50], ..Style::small(random) };
    let mut generator = Generator::new(random, style);
    let value = borders::some_value(generator.random, value_type);
    generator.operand(MOST_DEPTH / 2, 0, value);
    generator.book.records
}

/// Two values compared.
pub fn comparison_of_values(random: &mut Random) -> Vec<Record> {
    let style = Style { limit: random.between(3, 9), ..Style::small(random) };
    let mut generator = Generator::new(random, style);
    generator.comparison_of_values(MOST_DEPTH / 2);
    generator.book.records
}

/// A record of this kind and choice, with span 1.
pub fn record(kind: u8, choice: u8) -> Record {
    let mut bytes = [0; LENGTH];
    bytes[0] = kind;
    bytes[1] = choice;
    bytes[3] = 1;
    Record(bytes)
}

/// A record with these children.
pub fn with(kind: u8, choice: u8, children: &[Vec<Record>]) -> Vec<Record> {
    let mut records = vec![record(kind, choice)];
    records.extend(children.concat());
    let span = records.len();
    records[0].set_span(span);
    records
}

pub fn obligation(effect: u8, number: u16) -> Record {
    let mut made = record(OBLIGATION, effect);
    made.0[6..8].copy_from_slice(&number.to_be_bytes());
    made
}

/// Names, the last three with the bytes of doubles: the two zeros, and no number.
const NAMES: [[u8; 8]; 6] =
    [*b"brake\0\0\0", *b"throttle", *b"steer\0\0\0", [0; 8], [128, 0, 0, 0, 0, 0, 0, 0], [255; 8]];

/// The integers where the top bit of eight bytes turns.
pub const ENDS: [i64; 4] = [i64::MAX, i64::MIN, -1, 0];

/// A value of this type, often one at a border.
pub fn value(random: &mut Random, value_type: u8) -> [u8; 8] {
    let integers = [1, 50, 49, 51, -50, i64::MAX - 1, 1 << 32, -(1 << 32)];
    let doubles = [1.0, -1.0, 0.1, 5e-324, -5e-324, f64::MIN_POSITIVE, 2.5e-310, f64::MAX, f64::MIN, 1e300, 4.5, -4.5];
    match value_type {
        DOUBLE if random.chance(40) => random.pick(&[0.0f64, -0.0]).to_be_bytes(),
        DOUBLE if random.chance(70) => random.pick(&doubles).to_be_bytes(),
        DOUBLE => finite(random.next()).to_be_bytes(),
        INTEGER if random.chance(40) => random.pick(&ENDS).to_be_bytes(),
        INTEGER if random.chance(70) => random.pick(&integers).to_be_bytes(),
        NAME if random.chance(80) => random.pick(&NAMES),
        _ => random.next().to_be_bytes(),
    }
}

/// The bits of a finite double, near these.
pub fn finite(bits: u64) -> u64 {
    if f64::from_bits(bits).is_finite() {
        bits
    } else {
        bits & !(1 << 52)
    }
}

impl<'r> Generator<'r> {
    fn new(random: &'r mut Random, style: Style) -> Generator<'r> {
        let common = [0, 1, 7, 255, 256, 65535, random.next() as u16];
        let identifiers = (0..random.between(1, 3)).map(|_| random.pick(&common)).collect();
        let issuers = vouched::issuers(random);
        let literals = [INTEGER, NAME, DOUBLE]
            .map(|value_type| (0..random.between(1, 4)).map(|_| value(random, value_type)).collect());
        let book = Book { records: Vec::new(), wishes: Vec::new() };
        Generator { random, style, identifiers, issuers, literals, kept: 0, book }
    }

    /// The records that may still come.
    fn room(&self) -> usize {
        self.style.limit.saturating_sub(self.book.records.len() + self.kept)
    }

    fn open(&mut self, kind: u8, choice: usize) -> usize {
        self.book.records.push(record(kind, choice as u8));
        self.book.records.len() - 1
    }

    fn close(&mut self, opened: usize) {
        let span = self.book.records.len() - opened;
        self.book.records[opened].set_span(span);
    }

    fn set(&mut self, depth: usize) {
        let algorithm = self.random.between(1, 4);
        let set = self.open(SET, algorithm);
        self.target(depth);
        let fill = self.style.fill && depth == 1;
        let mut children = self.children(depth);
        while (children > 0 || fill) && self.room() > 0 {
            if depth < self.style.set_depth && self.random.chance(self.style.nest) {
                self.set(depth + 1);
            } else {
                self.policy(depth + 1);
            }
            children = children.saturating_sub(1);
        }
        self.obligations(depth);
        self.close(set);
    }

    /// How many policies or rules a set or policy at this depth is to have.
    fn children(&mut self, depth: usize) -> usize {
        if depth == MOST_DEPTH || self.random.chance(8) {
            return 0;
        }
        self.random.between(1, self.style.children)
    }

    fn policy(&mut self, depth: usize) {
        let algorithm = self.random.between(1, 3);
        let policy = self.open(POLICY, algorithm);
        self.target(depth);
        for _ in 0..self.children(depth) {
            if self.room() > 0 {
                self.rule(depth + 1);
            }
        }
        self.obligations(depth);
        self.close(policy);
    }

    fn rule(&mut self, depth: usize) {
        let effect = self.random.between(1, 2);
        let rule = self.open(RULE, effect);
        self.target(depth);
        if depth < MOST_DEPTH && self.room() > 0 && self.random.chance(self.style.conditions) {
            self.condition(depth + 1);
        }
        self.close(rule);
    }

    /// The obligations of a policy or set at this depth.
    fn obligations(&mut self, depth: usize) {
        let count = if depth < MOST_DEPTH { self.random.between(0, self.style.obligations) } else { 0 };
        for _ in 0..count.min(self.room()) {
            self.obligation();
        }
    }

    fn obligation(&mut self) {
        let number = if self.random.chance(15) { self.random.pick(&[0, 0, 1]) } else { self.random.next() as u16 };
        let effect = self.random.between(1, 2) as u8;
        self.book.records.push(obligation(effect, number));
    }

    /// The sections of a record at this depth.
    fn target(&mut self, depth: usize) {
        if depth > self.style.target_depth {
            return;
        }
        for category in 1..=4 {
            if depth + 3 <= MOST_DEPTH && self.room() >= 3 && self.random.chance(self.style.sections) {
                self.section(category);
            }
        }
    }

    fn section(&mut self, category: u8) {
        let section = self.open(SECTION, 0);
        self.book.records[section].0[4] = category;
        self.conjunction(category);
        for _ in 1..self.random.between(1, self.style.matches) {
            if self.room() >= 2 {
                self.conjunction(category);
            }
        }
        self.close(section);
    }

    fn conjunction(&mut self, category: u8) {
        let conjunction = self.open(CONJUNCTION, 0);
        self.test(MATCH, 0, category);
        for _ in 1..self.random.between(1, self.style.matches) {
            if self.room() >= 1 {
                self.test(MATCH, 0, category);
            }
        }
        self.close(conjunction);
    }

    fn condition(&mut self, depth: usize) {
        if !self.random.chance(self.style.logic) {
            if depth < MOST_DEPTH && self.room() >= 3 && self.random.chance(self.style.values) {
                return self.comparison_of_values(depth);
            }
            let category = self.random.between(1, 4) as u8;
            return self.test(CONDITION, COMPARISON, category);
        }
        let may_have_parts = depth < MOST_DEPTH && self.room() >= 2;
        let choice = self.random.between(1, if may_have_parts { 3 } else { 2 });
        let condition = self.open(CONDITION, choice);
        let parts = if choice == usize::from(NOT) { 1 } else { self.random.below(4) };
        for _ in 0..parts {
            if may_have_parts && self.room() > 0 {
                self.condition(depth + 1);
            }
        }
        self.close(condition);
    }

    /// A match, or a comparison (`base` is then added to the function).
    fn test(&mut self, kind: u8, base: u8, category: u8) {
        let value_type = self.random.pick(&[INTEGER, INTEGER, NAME, DOUBLE]);
        let function = if value_type == NAME { 1 } else { self.random.between(1, 5) as u8 };
        let mut test = record(kind, base + function);
        let must = if self.random.chance(self.style.must_be_present) { MUST_BE_PRESENT } else { 0 };
        test.0[4] = category;
        test.0[5] = value_type + must;
        let identifier = self.random.below(self.identifiers.len());
        test.0[6..8].copy_from_slice(&self.identifiers[identifier].to_be_bytes());
        let literals = &self.literals[usize::from(value_type) - 1];
        test.set_value(literals[self.random.below(literals.len())]);
        test.set_issuer(self.random.pick(&self.issuers));
        self.book.records.push(test);
    }

    /// Two values compared, often a sum at a border with what it makes, or with a neighbour of that.
    fn comparison_of_values(&mut self, depth: usize) {
        let value_type = self.random.pick(&[INTEGER, INTEGER, INTEGER, DOUBLE, DOUBLE, DOUBLE, NAME]);
        let function = if value_type == NAME { 1 } else { self.random.between(1, 5) };
        let comparison = self.open(CONDITION, usize::from(COMPARISON_OF_VALUES) + function);
        let with_sum = value_type != NAME && depth + 1 < MOST_DEPTH && self.room() >= 5;
        if with_sum && self.random.chance(70) {
            let sum = borders::sum(self.random, value_type);
            let some = borders::some_value(self.random, value_type);
            let other = borders::near(self.random, sum.result.unwrap_or(some));
            if self.random.chance(50) {
                self.keeping(1, |generator| generator.operation(depth + 1, &sum));
                self.operand(depth + 1, 1, other);
            } else {
                self.keeping(3, |generator| generator.operand(depth + 1, 0, other));
                self.operation(depth + 1, &sum);
            }
        } else {
            let values = borders::to_compare(self.random, value_type);
            self.operands(depth + 1, values);
        }
        self.close(comparison);
    }

    /// Two operands that have these values.
    fn operands(&mut self, depth: usize, [first, second]: [Value; 2]) {
        self.keeping(1, |generator| generator.operand(depth, 0, first));
        self.operand(depth, 1, second);
    }

    /// Makes a first operand, and leaves room for a second of so many records.
    fn keeping(&mut self, records: usize, first: impl FnOnce(&mut Self)) {
        self.kept += records;
        first(self);
        self.kept -= records;
    }

    /// A first or a second operand that has this value if attributes have those wished for.
    fn operand(&mut self, depth: usize, place: usize, value: Value) {
        let may_nest = value.value_type() != NAME && depth < MOST_DEPTH && self.room() >= 3;
        if may_nest && self.random.chance(self.style.nested[place]) {
            let fails = self.random.chance(6);
            let sum =
                if fails { borders::sum(self.random, value.value_type()) } else { borders::making(self.random, value) };
            self.operation(depth, &sum);
        } else if self.random.chance(35) {
            self.attribute(value);
        } else {
            self.literal(value);
        }
    }

    fn operation(&mut self, depth: usize, sum: &Sum) {
        let operation = self.open(VALUE, usize::from(sum.operator.choice()));
        self.operands(depth + 1, sum.operands);
        self.close(operation);
    }

    fn literal(&mut self, value: Value) {
        let mut literal = record(VALUE, LITERAL);
        literal.0[5] = value.value_type();
        literal.set_value(value.bytes());
        self.book.records.push(literal);
    }

    /// An attribute, most often one that nothing else in the book asks for.
    fn attribute(&mut self, value: Value) {
        let own = self.random.next() as u16;
        let shared = self.identifiers[self.random.below(self.identifiers.len())];
        let identifier = if self.random.chance(70) { own } else { shared };
        let category = self.random.between(1, 4) as u8;
        let mut attribute = record(VALUE, ATTRIBUTE);
        let must = if self.random.chance(30) { MUST_BE_PRESENT } else { 0 };
        attribute.0[4..6].copy_from_slice(&[category, value.value_type() + must]);
        attribute.0[6..8].copy_from_slice(&identifier.to_be_bytes());
        attribute.set_issuer(self.random.pick(&self.issuers));
        self.book.records.push(attribute);
        let wish = Entry::new(category, value.value_type(), identifier, value.bytes());
        self.book.wishes.push(wish.by(attribute.issuer()));
    }
}

#[cfg(test)]
mod tests {
    use super::*;

    #[test]
    fn no_book_is_larger_than_its_limit() {
        for case in 0..20_000 {
            let random = &mut Random::of_case(20, case);
            let limit = random.between(1, 40);
            let small = Style::small(random);
            let style = Style { limit, fill: true, ..Style::of_sums(random, small) };
            assert!(generate(random, style).records.len() <= limit, "case {case}");
        }
    }
}
