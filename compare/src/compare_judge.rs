//! The comparison of judging.

use crate::books;
use crate::causes::wanted_causes;
use crate::damage;
use crate::judge::{self, refusals_of};
use crate::lent::Lent;
use crate::random::Random;
use crate::record::{book_bytes, entries, records, request_bytes, ANY, NOBODY};
use crate::refusal::Part;
use crate::requests;
use crate::run::{hex, Difference};
use crate::subject::Judge;
use crate::tally::{numbers, words, Tally, Wanted};

pub fn wanted() -> Wanted {
    let mut wanted = wanted_causes();
    wanted.extend([
        ("accepted", words(&["book", "request"])),
        (refusals_of(Part::Book), numbers([2, 3, 4, 5, 9, 10, 11, 12])),
        (refusals_of(Part::Request), numbers([2, 4, 5])),
        (AT_LINE_1, numbers([5, 9])),
        ("depth of an accepted book", numbers(1..=16)),
        ("depth of the deepest value of an accepted book", numbers(4..=16)),
        ("records of an accepted book", numbers([1, 2, 3, 998, 999, 1000])),
        ("entries of an accepted request", numbers([0, 1, 2, 63, 64])),
        (ISSUER, words(&["match", "comparison", "attribute", "entry"])),
    ]);
    wanted
}

const AT_LINE_1: &str = "refusals at line 1";
const ISSUER: &str = "issuer in what is accepted";

/// Judges one generated book or request.
pub fn case(library: &dyn Judge, random: &mut Random, tally: &mut Tally) -> Result<(), Difference> {
    let book = if random.chance(50) { books::small_book(random) } else { books::book(random) };
    if random.chance(25) {
        let entries = requests::request(random, &book);
        let bytes = if random.chance(25) { request_bytes(&entries) } else { damage::request(random, entries) };
        return check_request(library, &bytes, tally);
    }
    let bytes = if random.chance(15) { book_bytes(&book.records) } else { damage::book(random, book.records) };
    check_book(library, &bytes, tally)
}

pub fn check_book(library: &dyn Judge, bytes: &[u8], tally: &mut Tally) -> Result<(), Difference> {
    let expected = match judge::book(bytes) {
        Ok(accepted) => {
            tally.met("accepted", "book");
            tally.met("depth of an accepted book", accepted.depth as u64);
            tally.met("depth of the deepest value of an accepted book", accepted.values as u64);
            if accepted.records <= 3 || accepted.records >= 998 {
                tally.met("records of an accepted book", accepted.records as u64);
            }
            for record in records(bytes).iter().filter(|record| record.issuer() != ANY) {
                tally.met(ISSUER, record.name());
            }
            accepted.packed()
        }
        Err(refused) => {
            refused.count(tally);
            if refused.refusal.line == 1 {
                tally.met(AT_LINE_1, refused.refusal.number);
            }
            refused.refusal.packed()
        }
    };
    same("judge-book", bytes, expected, |lent| library.judge_book(lent))?;
    only_nine_at_line_1(bytes, expected)
}

/// No place rule but 9 is line 1's.
fn only_nine_at_line_1(bytes: &[u8], answer: u64) -> Result<(), Difference> {
    let (low, number, line) = (answer % 256, answer / 256 % 256, answer / 65_536 % 65_536);
    if low == 255 && line == 1 && ![5, 9].contains(&number) {
        return Err(format!("compare once judge-book {}\n line 1 gives {number}", hex(bytes)));
    }
    Ok(())
}

pub fn check_request(library: &dyn Judge, bytes: &[u8], tally: &mut Tally) -> Result<(), Difference> {
    let expected = match judge::request(bytes) {
        Ok(count) => {
            tally.met("accepted", "request");
            if count <= 2 || count >= 63 {
                tally.met("entries of an accepted request", count as u64);
            }
            if entries(bytes).iter().any(|entry| entry.issuer() != NOBODY) {
                tally.met(ISSUER, "entry");
            }
            256 * count as u64
        }
        Err(refused) => {
            refused.count(tally);
            refused.refusal.packed()
        }
    };
    same("judge-request", bytes, expected, |lent| library.judge_request(lent))
}

fn same(name: &str, bytes: &[u8], expected: u64, call: impl Fn(&[u8]) -> u64) -> Result<(), Difference> {
    let lent = Lent::new(bytes);
    let got = call(lent.part());
    if got == expected && lent.holds(bytes) {
        return Ok(());
    }
    Err(format!("compare once {name} {}\n expected {expected:#x}\n got {got:#x}", hex(bytes)))
}

/// Document 01's `Run:` line: 1,000 lines accepted, 1,001 gives 2; 16 nested sets accepted, 17 gives 12
/// (document 02, 1) at line 17.
pub fn check_paper(library: &dyn Judge) -> Result<(), Difference> {
    let mut random = Random::of_case(1, 1);
    for (count, number) in [(1000, 0), (1001, 2)] {
        let bytes = book_bytes(&books::book_of(&mut random, count));
        let got = library.judge_book(&bytes);
        let is_right = if number == 0 { got % 16_777_216 == 256_000 } else { got == 255 + 256 * 2 + (1 << 32) };
        if !is_right {
            return Err(format!(" {count} records: got {got:#x}"));
        }
    }
    for (depth, answer) in [(16, 256 * 16), (17, 255 + 256 * 12 + 65_536 * 17 + (1 << 32))] {
        let got = library.judge_book(&book_bytes(&books::nested_sets(&mut random, depth)));
        if got != answer {
            return Err(format!(" {depth} nested sets: expected {answer:#x}, got {got:#x}"));
        }
    }
    Ok(())
}
