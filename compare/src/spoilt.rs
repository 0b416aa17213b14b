//! Spoils lines of books with a root set: inside the children of line 1, where a replacement takes them away, and
//! elsewhere, where 13 refuses them.

use crate::books::{comparison_of_values, obligation, record, small_book, subtree, with};
use crate::copied::{child, deep, duty, over_condition, sound, Copied, Parts};
use crate::damage;
use crate::random::Random;
use crate::record::*;

/// A half-copied book whose text has lines of this width.
pub fn copied(random: &mut Random, width: usize) -> Copied {
    let mut copied = match random.below(100) {
        0..=9 => sound(random),
        10..=47 => spoilt_inside(random, width).join(random),
        48..=63 => with_wrong_head(random, width).join(random),
        64..=83 => spoilt_outside(random, width).join(random),
        84..=90 => with_spoilt_line_1(random, width),
        91..=93 => large(random, width),
        _ => damaged(random),
    };
    for record in &mut copied.records {
        record.0[width..].fill(0);
    }
    copied
}

/// Which children of line 1 are spoilt.
const PATTERNS: [&[bool]; 11] = [
    &[],
    &[false],
    &[true],
    &[false, true],
    &[true, false],
    &[true, true],
    &[false, true, false],
    &[true, false, true],
    &[true, true, true],
    &[false, true, true, false],
    &[false, true, false, true, false],
];

/// Sound children, and others that are spoilt inside.
fn spoilt_inside(random: &mut Random, width: usize) -> Parts {
    let mut children = Vec::new();
    for &is_spoilt in random.pick(&PATTERNS) {
        let mut child = child(random);
        if is_spoilt {
            spoil_inside(random, width, &mut child);
        }
        children.push(child);
    }
    let mut parts = Parts::of(random, children);
    if random.chance(10) {
        cover_next(&mut parts.children);
    }
    parts
}

/// Spoils a line of a child that is not its head line.
fn spoil_inside(random: &mut Random, width: usize, child: &mut Copied) {
    let at = child.line_inside(random);
    match random.below(24) {
        0..=4 => child.spoil_digit(random, width, at),
        5..=11 => damage::break_field(random, &mut child.records[at]),
        12..=14 => child.records[at].set_span(random.pick(&[0, 1, 2, 2, 2])),
        15..=17 => run_past(random, &mut child.records),
        18..=19 => {
            let any = random.pick(&damage::KINDS);
            let kind = random.pick(&[any, CONDITION]);
            damage::graft_kind(random, &mut child.records, kind);
        }
        20 => damage::past_end(random, &mut child.records),
        21 => child.records = wrong_category(random),
        22 => child.records = wrong_sum(random),
        _ => child.records = deep(random, MOST_DEPTH + 1),
    }
}

/// A line inside a child runs past the child's end, or past that of the whole book.
fn run_past(random: &mut Random, records: &mut [Record]) {
    let branches: Vec<usize> = (1..records.len()).filter(|&at| !records[at].is_leaf()).collect();
    let at = if branches.is_empty() { records.len() - 1 } else { random.pick(&branches) };
    let some = random.between(1, 20);
    let more = random.pick(&[1, 2, some, some, 1000, 60_000]);
    records[at].set_span(records.len() - at + more);
}

/// A policy with two sections that do not rise, or with a match that has not its section's category.
fn wrong_category(random: &mut Random) -> Vec<Record> {
    let [first, second] = [(), ()].map(|_| random.between(1, 4) as u8);
    let mut sections = vec![subtree(random, SECTION, first.max(second)), subtree(random, SECTION, first.min(second))];
    if random.chance(50) {
        sections.truncate(1);
        damage::wrong_category(random, &mut sections[0], 1);
    }
    with(POLICY, 1, &sections)
}

/// A policy or a set over one in which operands are wrong.
fn wrong_sum(random: &mut Random) -> Vec<Record> {
    let kind = random.pick(&[POLICY, SET]);
    let mut records = over_condition(kind, comparison_of_values(random));
    let takers: Vec<usize> = (0..records.len()).filter(|&at| records[at].takes_operands()).collect();
    let taker = random.pick(&takers);
    damage::spoil(random, &mut records, taker);
    records
}

/// The first child covers the second too.
fn cover_next(children: &mut [Copied]) {
    if let [first, second, ..] = children {
        let both = first.records.len() + second.records.len();
        first.records[0].set_span(both);
    }
}

// Lines that no replacement takes away

/// A child with a wrong digit in its head line.
fn with_wrong_head(random: &mut Random, width: usize) -> Parts {
    let mut parts = spoilt_inside(random, width);
    if parts.children.is_empty() {
        parts.children.push(child(random));
    }
    let at = random.below(parts.children.len());
    parts.children[at].spoil_digit(random, width, 0);
    parts
}

/// Something bad outside of what can be replaced, more rarely twice.
fn spoilt_outside(random: &mut Random, width: usize) -> Parts {
    let mut parts = spoilt_inside(random, width);
    for _ in 0..random.pick(&[1, 1, 2]) {
        spoil_outside(random, width, &mut parts);
    }
    parts
}

fn spoil_outside(random: &mut Random, width: usize, parts: &mut Parts) {
    let category = random.between(1, 4) as u8;
    match random.below(10) {
        0..=2 => {
            if parts.target.is_empty() {
                parts.target.push(Copied::of(subtree(random, SECTION, category)));
            }
            spoil_any(random, width, &mut parts.target);
        }
        3 => {
            parts.duties.push(duty(random));
            spoil_any(random, width, &mut parts.duties);
        }
        4..=6 => {
            parts.children.push(child(random));
            let at = random.below(parts.children.len());
            spoil_head(random, &mut parts.children[at].records);
        }
        7 => parts.target.push(Copied::of(subtree(random, SECTION, category))),
        8 => {
            let misplaced = if random.chance(50) { child(random) } else { Copied::of(subtree(random, SECTION, 4)) };
            parts.duties.push(duty(random));
            parts.duties.push(misplaced);
        }
        _ => {
            let kind = random.pick(&[RULE, CONJUNCTION, MATCH, CONDITION, VALUE]);
            let stray = Copied::of(subtree(random, kind, category));
            parts.list(random).push(stray);
        }
    }
}

/// Spoils any line of these parts.
fn spoil_any(random: &mut Random, width: usize, parts: &mut [Copied]) {
    let at = random.below(parts.len());
    let part = &mut parts[at];
    let line = if part.records.len() > 1 && random.chance(60) { part.line_inside(random) } else { 0 };
    match random.below(12) {
        0..=4 => part.spoil_digit(random, width, line),
        5..=6 => damage::break_field(random, &mut part.records[line]),
        7 => damage::wrong_category(random, &mut part.records, line),
        8..=10 => part.records[line].set_span(random.pick(&[0, 1, 2, 3, 1000, 1000, 65_535])),
        _ if part.records[line].is_leaf() => part.records[line].0[0] = random.pick(&damage::KINDS),
        _ => *part = Copied::of(grafted_section(random)),
    }
}

/// A section with something in it that may not stand there.
fn grafted_section(random: &mut Random) -> Vec<Record> {
    let (category, kind) = (random.between(1, 4) as u8, random.pick(&damage::KINDS));
    let mut section = subtree(random, SECTION, category);
    damage::graft_kind(random, &mut section, kind);
    section
}

/// Spoils the head line of a child, other than in its digits.
fn spoil_head(random: &mut Random, child: &mut [Record]) {
    let length = child.len();
    match random.below(6) {
        0..=2 => damage::break_field(random, &mut child[0]),
        3 => child[0].set_span(random.pick(&[0, length - 1, length + 1])),
        _ => child[0].set_span(random.pick(&[1000, 65_535])),
    }
}

fn with_spoilt_line_1(random: &mut Random, width: usize) -> Copied {
    let mut copied = spoilt_inside(random, width).join(random);
    let count = copied.records.len();
    let first = &mut copied.records[0];
    match random.below(8) {
        0..=1 => copied.spoil_digit(random, width, 0),
        2 => first.0[..2].copy_from_slice(&[POLICY, random.between(1, 3) as u8]),
        3 => first.0[0] = random.pick(&[0, RULE, SECTION, CONJUNCTION, MATCH, CONDITION, OBLIGATION, 9, VALUE]),
        4 => first.set_span(random.pick(&[0, 1, count - 1])),
        5 => first.set_span(random.pick(&[count + 1, count + 256, 65_535])),
        _ => damage::break_field(random, first),
    }
    copied
}

// Books of other kinds

/// About 1,000 lines: a policy of hundreds of rules between two children, and obligations.
pub fn large(random: &mut Random, width: usize) -> Copied {
    let rules = vec![vec![record(RULE, 2)]; random.between(254, 400)];
    let children = vec![child(random), Copied::of(with(POLICY, 1, &rules)), child(random)];
    let mut parts = Parts::of(random, children);
    let spoilt: [&[usize]; 7] = [&[], &[], &[], &[1], &[2], &[0, 1], &[0, 1, 2]];
    for &at in random.pick(&spoilt) {
        let line = parts.children[at].line_inside(random);
        parts.children[at].spoil_digit(random, width, line);
    }
    let mut large = parts.join(random);
    let count = random.pick(&[999, 1000, 1000, 1000, 1000, 1000, 1001, 1001, 1001, 1002]);
    while large.records.len() < count {
        large.records.push(obligation(random.between(1, 2) as u8, random.next() as u16));
    }
    large.close();
    if random.chance(25) {
        let line = random.pick(&[0, count - 1]);
        large.spoil_digit(random, width, line);
    }
    large
}

/// A book with a root of either kind, damaged as for judging.
fn damaged(random: &mut Random) -> Copied {
    let records = small_book(random).records;
    let damaged = damage::book(random, records);
    match damaged.len() / LENGTH {
        0 => sound(random),
        _ => Copied::of(crate::record::records(&damaged)),
    }
}
