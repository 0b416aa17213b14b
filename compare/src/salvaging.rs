//! One call of salvaging on record bytes, and what becomes of the mended book.

use crate::books::Book;
use crate::compare_decide;
use crate::compare_judge;
use crate::compare_text;
use crate::decide;
use crate::judge;
use crate::lent::Lent;
use crate::policy::{tree, Decision};
use crate::random::Random;
use crate::record::{book_bytes, records, request_bytes, Record, LENGTH, OBLIGATION};
use crate::refusal::{Part, Refusal};
use crate::requests;
use crate::run::{hex, Difference};
use crate::salvage::{self, Mended};
use crate::subject::{Host, Judge, Mender, Texts};
use crate::tally::{numbers, pairs, words, Tally, Wanted};
use crate::text;

const RECORDS: &str = "salvaged records";
const ROOM: &str = "room";
const NO_ROOM: &str = "output that 7 refuses";
const AT_ONCE: &str = "faults at once";
const AGAIN: &str = "mended book salvaged again";
const DECIDED: &str = "decision of a mended book";
const DENY: &str = "Deny through a replaced child";

pub const ANSWERS: [&str; 3] = ["nothing replaced", "one replaced", "two or more replaced"];
const OUTPUTS: [&str; 2] = ["mended", "replaced"];
const ROOMS: [&str; 5] = ["exact", "longer", "one short", "short", "none"];
const SHORT_OUTPUTS: [&str; 3] = ["mended alone", "replaced alone", "both"];
const FAULTS: [&str; 4] = ["4 and 13", "2 and 13", "2 and 7", "13 and 7"];
const REPLACED: [&str; 2] = ["none replaced", "some replaced"];
const DECISIONS: [&str; 4] = ["Permit", "Deny", "NotApplicable", "Indeterminate"];
const ALGORITHMS: [&str; 4] = [
    "deny-overrides over policies",
    "permit-overrides over policies",
    "first-applicable over policies",
    "only-one-applicable",
];

/// Everything that a run must meet in calls.
pub fn wanted_calls() -> Wanted {
    vec![
        (RECORDS, words(&ANSWERS)),
        (RECORDS, numbers([2, 3, 4, 7, 13])),
        (ROOM, pairs(&OUTPUTS, &ROOMS)),
        (NO_ROOM, words(&SHORT_OUTPUTS)),
        (AT_ONCE, words(&FAULTS)),
        (AGAIN, words(&REPLACED)),
        (DECIDED, pairs(&REPLACED, &DECISIONS)),
        (DENY, words(&ALGORITHMS)),
    ]
}

/// The calls that salvaging takes.
pub struct Calls<'a> {
    pub mender: &'a dyn Mender,
    pub texts: &'a dyn Texts,
    pub judge: &'a dyn Judge,
    pub host: &'a dyn Host,
}

/// What outputs hold before calls that are not drawn.
const BEFORE: u8 = 0xEE;

/// One call: the record bytes, both outputs as they are before, and the request that decides what is mended.
pub struct Salvaging {
    pub book: Vec<u8>,
    pub mended: Vec<u8>,
    pub replaced: Vec<u8>,
    pub request: Vec<u8>,
}

impl Salvaging {
    /// A call with outputs of some length and content, and a request for what is mended.
    pub fn of(random: &mut Random, book: Vec<u8>, salvaged: &Result<Mended, Refusal>, tally: &mut Tally) -> Salvaging {
        let [mended, replaced] = rooms(random, salvage::needed(&book), tally);
        let records = salvaged.as_ref().map_or(Vec::new(), |mended| mended.records.clone());
        let request = request_bytes(&requests::request(random, &Book { records, wishes: Vec::new() }));
        Salvaging { book, mended, replaced, request }
    }

    /// A call with outputs that just suffice, and no request.
    pub fn plain(book: Vec<u8>) -> Salvaging {
        let [mended, replaced] = salvage::needed(&book).map(|length| vec![BEFORE; length]);
        Salvaging { book, mended, replaced, request: Vec::new() }
    }

    /// Calls both sides and compares the answers and the whole buffers; then what is mended.
    pub fn check(&self, calls: &Calls, tally: &mut Tally) -> Result<(), Difference> {
        let (mut mended, mut replaced) = (self.mended.clone(), self.replaced.clone());
        let expected = salvage::call(&self.book, &mut mended, &mut replaced);
        self.count(&expected, tally);
        let answer = expected.as_ref().map_or_else(Refusal::packed, Mended::packed);
        let lent = Lent::new(&self.book);
        let (mut out, mut list) = (Lent::new(&self.mended), Lent::new(&self.replaced));
        let got = calls.mender.salvage(lent.part(), out.part_mut(), list.part_mut());
        if got != answer || !out.holds(&mended) || !list.holds(&replaced) || !lent.holds(&self.book) {
            return Err(format!(
                "{}\n outputs before {} {}\n expected {answer:#x} {} {}\n got {got:#x} {} {}",
                self.words(),
                hex(&self.mended),
                hex(&self.replaced),
                hex(&mended),
                hex(&replaced),
                hex(out.part()),
                hex(list.part()),
            ));
        }
        match expected {
            Ok(mended) => self.check_mended(calls, &mended, tally),
            Err(_) => Ok(()),
        }
    }

    /// The words that make this call again.
    fn words(&self) -> String {
        let (book, request) = (hex(&self.book), hex(&self.request));
        format!("compare once salvage {book} {request} {} {}", self.mended.len(), self.replaced.len())
    }

    /// Counts the answer, and what else could have been refused.
    fn count(&self, expected: &Result<Mended, Refusal>, tally: &mut Tally) {
        let number = match expected {
            Ok(mended) => return tally.met(RECORDS, ANSWERS[mended.replaced.len().min(2)]),
            Err(refusal) => refusal.number,
        };
        tally.met(RECORDS, number);
        let records = records(&self.book);
        let is_bad = || !records.is_empty() && !salvage::survey(&records).refused().is_empty();
        match (number, self.short()) {
            (7, [true, false]) => tally.met(NO_ROOM, SHORT_OUTPUTS[0]),
            (7, [false, true]) => tally.met(NO_ROOM, SHORT_OUTPUTS[1]),
            (7, _) => tally.met(NO_ROOM, SHORT_OUTPUTS[2]),
            (4, _) if is_bad() => tally.met(AT_ONCE, FAULTS[0]),
            (2, _) if is_bad() => tally.met(AT_ONCE, FAULTS[1]),
            (2, _) if self.is_short() => tally.met(AT_ONCE, FAULTS[2]),
            (13, _) if self.is_short() => tally.met(AT_ONCE, FAULTS[3]),
            _ => {}
        }
    }

    /// Which of the outputs are too short.
    fn short(&self) -> [bool; 2] {
        let [for_mended, for_replaced] = salvage::needed(&self.book);
        [self.mended.len() < for_mended, self.replaced.len() < for_replaced]
    }

    pub fn is_short(&self) -> bool {
        self.short().contains(&true)
    }

    /// What is mended is accepted, written, decided as the evaluator decides it, and not mended again.
    fn check_mended(&self, calls: &Calls, mended: &Mended, tally: &mut Tally) -> Result<(), Difference> {
        let book = book_bytes(&mended.records);
        if let Err(refused) = judge::book(&book) {
            return Err(format!("{}\n the mended book is refused by {}", self.words(), refused.refusal.number));
        }
        let aside = &mut Tally::default();
        compare_judge::check_book(calls.judge, &book, aside)?;
        let out = vec![BEFORE; text::written_length(&book)];
        compare_text::Call { writing: true, part: Part::Book, input: book.clone(), out }.check(calls.texts, aside)?;
        let duties = mended.records.iter().filter(|record| record.kind() == OBLIGATION).count();
        compare_decide::check(calls.host, &book, &self.request, &vec![BEFORE; 2 * duties], aside)?;
        count_decision(mended, &self.request, tally);
        tally.met(AGAIN, REPLACED[usize::from(!mended.replaced.is_empty())]);
        self.check_again(calls, book)
    }

    fn check_again(&self, calls: &Calls, book: Vec<u8>) -> Result<(), Difference> {
        let again = Salvaging::plain(book);
        let (mut out, mut list) = (Lent::new(&again.mended), Lent::new(&again.replaced));
        let got = calls.mender.salvage(&again.book, out.part_mut(), list.part_mut());
        let answer = 256 * (again.book.len() / LENGTH) as u64;
        if got == answer && out.holds(&again.book) && list.holds(&again.replaced) {
            return Ok(());
        }
        Err(format!("{}\n the mended book again: expected {answer:#x}, got {got:#x}", again.words()))
    }
}

/// Outputs of some length with some content, for the mended book and for the replacements.
fn rooms(random: &mut Random, needed: [usize; 2], tally: &mut Tally) -> [Vec<u8>; 2] {
    let mut outputs = [Vec::new(), Vec::new()];
    for (place, output) in outputs.iter_mut().enumerate() {
        let how = if random.chance(88) { random.below(2) } else { random.between(2, 4) };
        let needed = needed[place];
        tally.met(ROOM, (OUTPUTS[place], ROOMS[how]));
        let length = match how {
            0 => needed,
            1 => needed + random.between(1, 40),
            2 => needed.saturating_sub(1),
            3 => random.below(needed + 1),
            _ => 0,
        };
        *output = random.bytes(length);
    }
    outputs
}

/// Counts what is decided, and Deny where it would not be so without the replaced children.
fn count_decision(mended: &Mended, request: &[u8], tally: &mut Tally) {
    let decided = |records: &[Record]| decide::decide(&book_bytes(records), request, &mut Tally::default()).0.decision;
    let decision = decided(&mended.records);
    let is_replaced = !mended.replaced.is_empty();
    tally.met(DECIDED, (REPLACED[usize::from(is_replaced)], decision.name()));
    if is_replaced && decision == Decision::Deny && decided(&without_replaced(mended)) != Decision::Deny {
        tally.met(DENY, tree(&book_bytes(&mended.records)).algorithm_name());
    }
}

/// The mended book without the two records that stand for each replaced child.
fn without_replaced(mended: &Mended) -> Vec<Record> {
    let (mut records, mut gone) = (mended.records.clone(), 0);
    for child in &mended.replaced {
        let at = child.line - 1 - gone;
        records.drain(at..at + 2);
        gone += child.count;
    }
    let count = records.len();
    records[0].set_span(count);
    records
}
