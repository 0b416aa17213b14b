//! Generates requests that are aimed at what a book asks for.

use crate::books::{finite, value, Book, ENDS};
use crate::judge::is_test;
use crate::random::Random;
use crate::record::*;
use crate::vouched;

/// What a book asks for, with a value that tells: the literal of a test, or what an operand is meant to be.
#[derive(Clone, Copy)]
struct Aim {
    entry: Entry,
    of_operand: bool,
}

/// A sound request for this sound book.
pub fn request(random: &mut Random, book: &Book) -> Vec<Entry> {
    let operands = book.wishes.iter().map(|&entry| Aim { entry, of_operand: true });
    let tests = book.records.iter().filter(|record| is_test(record));
    let tests = tests.map(|test| Aim { entry: test.asked(), of_operand: false });
    let aims: Vec<Aim> = operands.chain(tests).collect();
    let mut keys: Vec<Entry> = Vec::new();
    for aim in aims.iter().take(200) {
        if !keys.iter().any(|key| key.has_key_of(&aim.entry)) {
            keys.push(aim.entry);
        }
    }
    let mut entries = Vec::new();
    let mood = random.below(12);
    for key in keys {
        let aims: Vec<Aim> = aims.iter().filter(|aim| key.has_key_of(&aim.entry)).copied().collect();
        let values = match mood {
            0 => 0,
            1..=4 => 1,
            5..=7 if aims[0].of_operand => 1,
            5..=8 => random.pick(&[0, 1, 1, 1, 2, 3]),
            9..=10 => random.below(2),
            _ => random.between(0, 4),
        };
        for _ in 0..values {
            let aim = random.pick(&aims);
            entries.push(near(random, aim));
        }
    }
    if random.chance(15) {
        entries.extend((0..random.between(1, 4)).map(|_| stray(random)));
    }
    if random.chance(1) {
        entries.extend((0..random.between(58, 64)).map(|_| stray(random)));
    }
    random.shuffle(&mut entries);
    entries.truncate(MOST_ENTRIES);
    entries
}

/// An entry that no book asks for on purpose.
pub fn stray(random: &mut Random) -> Entry {
    let value_type = random.pick(&[INTEGER, NAME, DOUBLE]);
    let identifier = random.pick(&[0, 1, 7, 255, 256, 65535]);
    let entry = Entry::new(random.between(1, 4) as u8, value_type, identifier, value(random, value_type));
    entry.by(vouched::anybody(random))
}

/// An entry for what is aimed at: its value, one just beside it, or another. Now and then it differs in category,
/// identifier or type, more often in its issuer.
fn near(random: &mut Random, aim: Aim) -> Entry {
    let mut entry = aim.entry;
    let value_type = entry.value_type();
    let bits = u64::from_be_bytes(entry.value());
    let value = match random.below(10) {
        _ if aim.of_operand && random.chance(75) => entry.value(),
        0..=3 => entry.value(),
        4..=5 => beside(value_type, bits, 1),
        6 => beside(value_type, bits, u64::MAX),
        8..=9 if value_type == INTEGER && random.chance(75) => random.pick(&ENDS).to_be_bytes(),
        7..=8 => (bits ^ (1 << 63)).to_be_bytes(), // the other zero of a zero
        _ => value(random, value_type),
    };
    entry.set_value(value);
    match random.below(60) {
        0 => entry.0[0] = entry.0[0] % 4 + 1,
        1 => entry.0[3] ^= 1,
        2 => entry.0[2] ^= 1,
        3 if value_type != DOUBLE => entry.0[1] = 3 - value_type,
        _ => {}
    }
    let issuer = match entry.issuer() {
        ANY => vouched::anybody(random),
        own if random.chance(if aim.of_operand { 8 } else { 20 }) => vouched::other(random, own),
        own => own,
    };
    entry.by(issuer)
}

/// The value whose bits are one more, or one less.
fn beside(value_type: u8, bits: u64, step: u64) -> [u8; 8] {
    let bits = bits.wrapping_add(step);
    if value_type == DOUBLE {
        finite(bits).to_be_bytes()
    } else {
        bits.to_be_bytes()
    }
}
