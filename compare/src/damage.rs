//! Damages sound books and requests, in one way or several.

use crate::books::{book_of, book_of_sums, comparison_of_values, nested_sets, operand, record, subtree};
use crate::judge::is_test;
use crate::random::Random;
use crate::record::*;

/// The bytes of a damaged book; some damage leaves it sound.
pub fn book(random: &mut Random, mut records: Vec<Record>) -> Vec<u8> {
    match random.below(24) {
        0 => return Vec::new(),
        1 => records = of_awkward_size(random),
        2..=4 => graft(random, &mut records),
        5 => drop_subtree(random, &mut records),
        6 => double_subtree(random, &mut records),
        7 => swap_siblings(random, &mut records),
        8..=9 => records = wrap(random, records),
        10 => records = as_root(random, &records),
        11 => graft_past_end(random, &mut records),
        12 => records = too_deep(random),
        13..=15 => return spoilt_sums(random),
        16..=17 => records = book_of_sums(random).records,
        18 => return grafted_sum(random, records),
        _ => {}
    }
    for _ in 0..random.pick(&[0, 1, 1, 1, 2]) {
        damage_records(random, &mut records);
    }
    let mut bytes = book_bytes(&records);
    if random.chance(4) {
        misfit(random, &mut bytes);
    }
    bytes
}

/// The bytes of a damaged request.
pub fn request(random: &mut Random, mut entries: Vec<Entry>) -> Vec<u8> {
    let stray = crate::requests::stray;
    if entries.is_empty() || random.chance(10) {
        let count = random.pick(&[1, 2, 3, 10, 62, 63, 64, 65, 66, 130]);
        entries = (0..count).map(|_| stray(random)).collect();
    }
    if random.chance(85) {
        let at = random.below(entries.len());
        let place = random.below(LENGTH);
        let entry = &mut entries[at];
        match random.below(7) {
            0 => entry.0[0] = random.pick(&[0, 5, 128, 255]),
            1 => entry.0[1] = random.pick(&[0, 4, 128, 129, 130, 131, 255]),
            2 => entry.0[random.between(4, 7)] = random.between(1, 255) as u8,
            3 => {
                entry.0[1] = DOUBLE;
                entry.set_value(unbounded(random));
            }
            4 => fill_one_or_both(random, &mut entry.0[LAST_AT]),
            _ => entry.0[place] = random.byte(),
        }
    }
    let mut bytes = request_bytes(&entries);
    if random.chance(12) {
        misfit(random, &mut bytes);
    }
    bytes
}

/// Changes the length so that it is often no multiple of 20, as where issuers are left out.
pub fn misfit(random: &mut Random, bytes: &mut Vec<u8>) {
    let change = random.between(1, LENGTH + 1);
    match random.below(3) {
        0 => bytes.extend(random.bytes(change)),
        1 => bytes.truncate(bytes.len().saturating_sub(change)),
        _ => *bytes = bytes.chunks(LENGTH).flat_map(|line| &line[..SHORT]).copied().collect(),
    }
}

/// Puts something other than zero into one of two bytes, or into both.
fn fill_one_or_both(random: &mut Random, bytes: &mut [u8]) {
    let (from, to) = random.pick(&[(0, 1), (1, 2), (0, 2)]);
    bytes[from..to].iter_mut().for_each(|byte| *byte = random.between(1, 255) as u8);
}

/// The bytes of an infinity or of no number.
fn unbounded(random: &mut Random) -> [u8; 8] {
    let some = random.next();
    let payload = random.pick(&[0, 1, 1 << 51, some & ((1 << 52) - 1)]);
    let sign = random.pick(&[0, 1 << 63]);
    (sign | 0x7FF0_0000_0000_0000 | payload).to_be_bytes()
}

// Damage that ignores the tree

/// One change to the records, spans left as they are, but sometimes that of line 1 mended.
fn damage_records(random: &mut Random, records: &mut Vec<Record>) {
    let at = random.below(records.len());
    let other = random.below(records.len());
    match random.below(12) {
        0 => {
            let place = random.below(LENGTH);
            records[at].0[place] = random.byte();
        }
        1 => {
            let place = random.below(LENGTH);
            records[at].0[place] ^= 1 << random.below(8);
        }
        2 if records.len() > 1 => {
            records.remove(at);
            mend_root(random, records);
        }
        3 => {
            records.insert(other, records[at]);
            mend_root(random, records);
        }
        4 => records.swap(at, other),
        5 => span_off(random, records, at),
        6 => past_end(random, records),
        7 => wrong_category(random, records, at),
        _ => break_field(random, &mut records[at]),
    }
}

fn mend_root(random: &mut Random, records: &mut [Record]) {
    if random.chance(80) {
        let count = records.len();
        records[0].set_span(count);
    }
}

fn span_off(random: &mut Random, records: &mut [Record], at: usize) {
    let span = records[at].span();
    records[at].set_span(if random.chance(50) { span + 1 } else { span.saturating_sub(1) });
}

/// A record that is no leaf runs past its parent's end.
pub fn past_end(random: &mut Random, records: &mut [Record]) {
    let branches: Vec<usize> = (1..records.len()).filter(|&at| !records[at].is_leaf()).collect();
    if branches.is_empty() {
        return;
    }
    let at = random.pick(&branches);
    if let Some(&parent) = ancestors(records, at).last() {
        run_past(random, records, at, parent);
    }
}

/// Another category from 1 to 4, where there is one.
pub fn wrong_category(random: &mut Random, records: &mut [Record], near: usize) {
    let has_category = |record: &Record| record.kind() == SECTION || is_test(record);
    if let Some(record) = records[near..].iter_mut().find(|record| has_category(record)) {
        record.0[4] = random.between(1, 4) as u8;
    }
}

/// Breaks one field rule of a sound record.
pub fn break_field(random: &mut Random, record: &mut Record) {
    let test = is_test(record);
    let (literal, attribute) = (record.is_literal(), record.is_attribute());
    let has_category = test || attribute || record.kind() == SECTION;
    let function_base = if record.kind() == MATCH { 0 } else { COMPARISON };
    match random.below(11) {
        0 => record.0[0] = random.pick(&[0, 9, 11, 17, 18, 128, 255]),
        1 => record.0[1] = random.pick(&[0, 3, 4, 5, 6, 9, 10, 16, 20, 26, 128, 255]),
        2 => record.set_span(random.pick(&[0, 0, 1, 2, 256])),
        3 if has_category => record.0[4] = random.pick(&[0, 5, 128, 255]),
        4 if literal && random.chance(50) => record.0[5] |= MUST_BE_PRESENT,
        4 if test || literal || attribute => record.0[5] = random.pick(&[0, 4, 64, 127, 128, 132, 255]),
        5 if test || literal => {
            record.0[5] = DOUBLE + if literal { 0 } else { random.pick(&[0, MUST_BE_PRESENT]) };
            record.set_value(unbounded(random));
        }
        6 if test => {
            record.0[1] = function_base + random.between(2, 5) as u8;
            record.0[5] = NAME + random.pick(&[0, MUST_BE_PRESENT]);
        }
        7 => fill_one_or_both(random, &mut record.0[ISSUER_AT]),
        8 => fill_one_or_both(random, &mut record.0[LAST_AT]),
        _ => record.0[random.between(4, SHORT - 1)] = random.between(1, 255) as u8,
    }
}

// Damage to the tree, with spans that fit

/// The records above this one, outermost first.
fn ancestors(records: &[Record], at: usize) -> Vec<usize> {
    (0..at).filter(|&above| above + records[above].span() > at).collect()
}

/// Puts `inserted` before the record at `at`, as a child of `parent`.
fn insert_under(records: &mut Vec<Record>, parent: usize, at: usize, inserted: &[Record]) {
    for above in ancestors(records, parent).into_iter().chain([parent]) {
        let span = records[above].span();
        records[above].set_span(span + inserted.len());
    }
    records.splice(at..at, inserted.iter().copied());
}

/// Takes the subtree at `at` out, and gives it.
fn take_subtree(records: &mut Vec<Record>, at: usize) -> Vec<Record> {
    let length = records[at].span();
    for above in ancestors(records, at) {
        let span = records[above].span();
        records[above].set_span(span - length);
    }
    records.drain(at..at + length).collect()
}

/// Where a child of `parent` starts or ends.
fn boundaries(records: &[Record], parent: usize) -> Vec<usize> {
    let end = parent + records[parent].span();
    let mut places = vec![parent + 1];
    while *places.last().unwrap() < end {
        let last = *places.last().unwrap();
        places.push(last + records[last].span());
    }
    places
}

/// A new subtree of any kind under any record that may have children.
fn graft(random: &mut Random, records: &mut Vec<Record>) {
    if random.chance(40) {
        let kind = random.pick(&[RULE, SECTION, CONDITION]);
        graft_kind(random, records, kind);
    }
    let kind = random.pick(&KINDS);
    graft_kind(random, records, kind);
}

pub const KINDS: [u8; 9] = [SET, POLICY, RULE, SECTION, CONJUNCTION, MATCH, CONDITION, OBLIGATION, VALUE];

/// Gives the place of the new subtree, and its parent.
pub fn graft_kind(random: &mut Random, records: &mut Vec<Record>, kind: u8) -> (usize, usize) {
    let branches: Vec<usize> = (0..records.len()).filter(|&at| !records[at].is_leaf()).collect();
    let parent = random.pick(&branches);
    let category = random.between(1, 4) as u8;
    let new = subtree(random, kind, category);
    let at = random.pick(&boundaries(records, parent));
    insert_under(records, parent, at, &new);
    (at, parent)
}

/// A new subtree that also runs past its parent's end: often two rules broken at one line.
fn graft_past_end(random: &mut Random, records: &mut Vec<Record>) {
    let kind = random.pick(&[SET, POLICY, RULE, SECTION, SECTION, CONJUNCTION, CONDITION, CONDITION, VALUE]);
    let (at, parent) = graft_kind(random, records, kind);
    run_past(random, records, at, parent);
}

/// The record at `at`, if it is no leaf, gets a span past the end of `parent`.
fn run_past(random: &mut Random, records: &mut [Record], at: usize, parent: usize) {
    if records[at].is_leaf() {
        return;
    }
    let needed = parent + records[parent].span() + 1 - at;
    records[at].set_span(needed.max(records[at].span() + 1) + random.pick(&[0, 0, 1, 100]));
}

/// A subtree of any kind at depth 17, below a sound record of any kind; sometimes it runs past that one's end.
fn too_deep(random: &mut Random) -> Vec<Record> {
    let logic = random.between(1, 3) as u8;
    let category = random.between(1, 4) as u8;
    let mut section = record(SECTION, 0);
    section.0[4] = category;
    let (policy, rule, conjunction) = (record(POLICY, 1), record(RULE, 1), record(CONJUNCTION, 0));
    let inner = match random.below(6) {
        0 => vec![],
        1 => vec![policy],
        2 => vec![policy, rule],
        3 => vec![section],
        4 => vec![section, conjunction],
        _ => vec![policy, rule, record(CONDITION, logic)],
    };
    let mut records = vec![record(SET, random.between(1, 4) as u8); MOST_DEPTH - inner.len()];
    records.extend(inner);
    let kind = random.pick(&KINDS);
    let child = if random.chance(70) { category } else { random.between(1, 4) as u8 };
    let new = if random.chance(25) { comparison_of_values(random) } else { subtree(random, kind, child) };
    records.extend(new);
    let count = records.len();
    for above in 0..MOST_DEPTH {
        records[above].set_span(count - above);
    }
    if random.chance(60) {
        spoil(random, &mut records, MOST_DEPTH);
    }
    if random.chance(50) {
        run_past(random, &mut records, MOST_DEPTH, MOST_DEPTH - 1);
    }
    records
}

fn drop_subtree(random: &mut Random, records: &mut Vec<Record>) {
    if records.len() > 1 {
        let at = random.between(1, records.len() - 1);
        take_subtree(records, at);
    }
}

fn double_subtree(random: &mut Random, records: &mut Vec<Record>) {
    if records.len() > 1 {
        let at = random.between(1, records.len() - 1);
        let copy = records[at..at + records[at].span()].to_vec();
        let parent = *ancestors(records, at).last().expect("line 1 is above");
        insert_under(records, parent, at, &copy);
    }
}

/// Moves a subtree to another place under its parent.
fn swap_siblings(random: &mut Random, records: &mut Vec<Record>) {
    if records.len() > 1 {
        let at = random.between(1, records.len() - 1);
        let parent = *ancestors(records, at).last().expect("line 1 is above");
        let moved = take_subtree(records, at);
        let to = random.pick(&boundaries(records, parent));
        insert_under(records, parent, to, &moved);
    }
}

/// The book inside so many sets that its depth comes near 16, or that the depth of its targets does.
fn wrap(random: &mut Random, mut records: Vec<Record>) -> Vec<Record> {
    let depth = (0..records.len()).map(|at| ancestors(&records, at).len() + 1).max().unwrap_or(1);
    let goal = random.pick(&[15, 16, 16, 17, 17, 18, 19, 20]);
    for _ in depth..goal {
        let mut set = record(SET, random.between(1, 4) as u8);
        set.set_span(records.len() + 1);
        records.insert(0, set);
    }
    records
}

/// A subtree of the book alone, or a new one of any kind.
fn as_root(random: &mut Random, records: &[Record]) -> Vec<Record> {
    if random.chance(50) {
        let kind = random.pick(&KINDS);
        let category = random.between(1, 4) as u8;
        return subtree(random, kind, category);
    }
    let at = random.below(records.len());
    records[at..at + records[at].span()].to_vec()
}

/// 15 to 18 nested sets, or, more rarely, about 1,000 records.
fn of_awkward_size(random: &mut Random) -> Vec<Record> {
    if random.chance(60) {
        let depth = random.between(15, 18);
        return nested_sets(random, depth);
    }
    let count = random.pick(&[999, 1000, 1001, 1002, 1100]);
    book_of(random, count)
}

// Damage to operands

/// The bytes of a book of sums in which one operator or comparison has wrong operands, or an operand runs past its
/// end; sometimes with depths near 16.
fn spoilt_sums(random: &mut Random) -> Vec<u8> {
    let mut records = book_of_sums(random).records;
    if random.chance(30) {
        records = wrap(random, records);
    }
    let takers: Vec<usize> = (1..records.len()).filter(|&at| records[at].takes_operands()).collect();
    let deep = takers.iter().copied().find(|&at| ancestors(&records, at).len() == MOST_DEPTH);
    match deep {
        _ if takers.is_empty() => {}
        Some(at) if random.chance(40) => spoil(random, &mut records, at),
        _ if random.chance(30) => past_end(random, &mut records),
        _ => {
            let at = random.pick(&takers);
            spoil(random, &mut records, at);
        }
    }
    book_bytes(&records)
}

/// The bytes of a book with an operator or a comparison of values under a record that takes none, often with wrong
/// operands; sometimes it runs past its parent's end.
fn grafted_sum(random: &mut Random, mut records: Vec<Record>) -> Vec<u8> {
    let parents: Vec<usize> =
        (0..records.len()).filter(|&at| !records[at].is_leaf() && !records[at].takes_operands()).collect();
    let parent = random.pick(&parents);
    let value_type = random.pick(&[INTEGER, DOUBLE]);
    let new = if random.chance(60) { comparison_of_values(random) } else { operand(random, value_type) };
    let at = random.pick(&boundaries(&records, parent));
    insert_under(&mut records, parent, at, &new);
    if random.chance(50) {
        spoil(random, &mut records, at);
    }
    if random.chance(30) {
        run_past(random, &mut records, at, parent);
    }
    book_bytes(&records)
}

/// Gives the operator or comparison of values at `taker`, if it is one, operands that it does not take.
pub fn spoil(random: &mut Random, records: &mut Vec<Record>, taker: usize) {
    if !records[taker].takes_operands() {
        return;
    }
    let at = random.pick(&boundaries(records, taker)[..2]);
    let value_type = records[taker + 1].operand_type().unwrap_or(INTEGER);
    let other_type = (value_type + random.between(0, 1) as u8) % 3 + 1;
    match random.below(10) {
        0 => drop(take_subtree(records, at)),
        1 => (0..2).for_each(|_| drop(take_subtree(records, taker + 1))),
        2 | 3 => {
            for _ in 0..random.between(1, 3) {
                let more = operand(random, value_type);
                let at = random.pick(&boundaries(records, taker));
                insert_under(records, taker, at, &more);
            }
        }
        4..=6 => {
            let other = operand(random, other_type);
            replace_subtree(records, taker, at, &other);
        }
        7 => replace_both(random, records, taker, other_type),
        8 => {
            if records[taker].is_comparison_of_values() {
                records[taker].0[1] = COMPARISON_OF_VALUES + random.between(2, 5) as u8;
            }
            replace_both(random, records, taker, NAME);
        }
        _ => {
            let (kind, category) = (random.pick(&KINDS[..8]), random.between(1, 4) as u8);
            let other = if random.chance(15) { comparison_of_values(random) } else { subtree(random, kind, category) };
            replace_subtree(records, taker, at, &other);
        }
    }
}

fn replace_subtree(records: &mut Vec<Record>, parent: usize, at: usize, new: &[Record]) {
    take_subtree(records, at);
    insert_under(records, parent, at, new);
}

/// Both operands become values of this type.
fn replace_both(random: &mut Random, records: &mut Vec<Record>, taker: usize, value_type: u8) {
    for place in [0, 1] {
        let new = operand(random, value_type);
        let at = boundaries(records, taker)[place];
        replace_subtree(records, taker, at, &new);
    }
}
