//! The comparison of deciding, through the C host.

use crate::books::{self, Book};
use crate::causes::wanted_misfits;
use crate::damage;
use crate::decide;
use crate::doubt;
use crate::issuers::{self, wanted_issuers};
use crate::judge::{self, refusals_of};
use crate::lent::Lent;
use crate::paper;
use crate::random::Random;
use crate::record::{book_bytes, records, request_bytes, Entry, Record, LENGTH, OBLIGATION};
use crate::refusal::Part;
use crate::requests;
use crate::run::{hex, Difference};
use crate::subject::Host;
use crate::tally::{numbers, words, Tally, Wanted};
use crate::text;
use crate::vouched;

const ROOMS: [&str; 5] = ["exact", "one longer", "longer", "one short", "none"];

pub fn wanted() -> Wanted {
    let mut wanted = decide::wanted();
    wanted.extend(wanted_issuers());
    wanted.extend(wanted_misfits());
    wanted.extend([
        (refusals_of(Part::Book), numbers([2, 3, 4, 5, 9, 10, 11, 12])),
        (refusals_of(Part::Request), numbers([2, 4, 5])),
        (refusals_of(Part::Output), numbers([7])),
        ("room", words(&ROOMS)),
        ("faults at once", words(&["book and request", "book and output", "request and output"])),
    ]);
    wanted
}

/// Decides one generated book on one request.
pub fn case(host: &dyn Host, random: &mut Random, tally: &mut Tally) -> Result<(), Difference> {
    let (book, entries) = some_case(random);
    let out = room(random, needed(&book.records), tally);
    let book = if random.chance(6) { damage::book(random, book.records) } else { book_bytes(&book.records) };
    let request = if random.chance(6) { damage::request(random, entries) } else { request_bytes(&entries) };
    check(host, &book, &request, &out, tally)
}

/// A book, and a request for it.
fn some_case(random: &mut Random) -> (Book, Vec<Entry>) {
    if random.chance(OF_DOUBTS) {
        return doubt::book(random);
    }
    if random.chance(OF_ISSUERS) {
        return vouched::book(random);
    }
    let book = books::book(random);
    let entries = requests::request(random, &book);
    (book, entries)
}

/// How many of a hundred books are made for what is Indeterminate in them, and of the others for issuers.
const OF_DOUBTS: usize = 5;
const OF_ISSUERS: usize = 5;

/// The bytes of output that a book with these records needs.
pub fn needed(records: &[Record]) -> usize {
    2 * records.iter().filter(|record| record.kind() == OBLIGATION).count()
}

/// An output of some length with some content.
fn room(random: &mut Random, needed: usize, tally: &mut Tally) -> Vec<u8> {
    let how = if random.chance(90) { random.below(3) } else { random.between(3, 4) };
    tally.met("room", ROOMS[how]);
    let length = match how {
        0 => needed,
        1 => needed + 1,
        2 => needed + random.between(2, 30),
        3 => needed.saturating_sub(1),
        _ => 0,
    };
    random.bytes(length)
}

/// Counts the calls that could be refused for more than one part.
fn count_faults(book: &[u8], request: &[u8], out: &[u8], tally: &mut Tally) {
    let too_short = out.len() < needed(&records(book));
    match (judge::book(book).is_err(), judge::request(request).is_err()) {
        (true, true) => tally.met("faults at once", "book and request"),
        (true, false) if too_short => tally.met("faults at once", "book and output"),
        (false, true) if too_short => tally.met("faults at once", "request and output"),
        _ => {}
    }
}

/// Calls both sides and compares the answers and the whole buffers.
pub fn check(host: &dyn Host, book: &[u8], request: &[u8], out: &[u8], tally: &mut Tally) -> Result<(), Difference> {
    let mut expected_out = out.to_vec();
    let expected = decide::host_call(book, request, &mut expected_out, tally);
    if expected % 256 == 255 {
        count_faults(book, request, out, tally);
    } else {
        issuers::count(book, request, tally);
    }
    let (lent_book, lent_request, mut lent_out) = (Lent::new(book), Lent::new(request), Lent::new(out));
    let got = host.decide(lent_book.part(), lent_request.part(), lent_out.part_mut());
    if got == expected && lent_out.holds(&expected_out) && lent_book.holds(book) && lent_request.holds(request) {
        return Ok(());
    }
    Err(format!(
        "compare once decide {} {} {}\n output before {}\n expected {expected:#x} {}\n got {got:#x} {}",
        hex(book),
        hex(request),
        out.len(),
        hex(out),
        hex(&expected_out),
        hex(lent_out.part()),
    ))
}

/// Document 01's P1 to P11, against the answers that it states.
pub fn check_paper(host: &dyn Host) -> Result<(), Difference> {
    for example in paper::examples() {
        let book = bytes_of(Part::Book, &example.book);
        let request = bytes_of(Part::Request, &example.request);
        let mut out = vec![0xA5; 8];
        let got = host.decide(&book, &request, &mut out);
        let mut expected_out: Vec<u8> = example.obligations.iter().flat_map(|number| number.to_be_bytes()).collect();
        expected_out.resize(out.len(), 0);
        if got != example.answer || out != expected_out {
            return Err(format!(" {}: expected {:#x}, got {got:#x} {}", example.name, example.answer, hex(&out)));
        }
    }
    Ok(())
}

/// The record bytes of a text that is right.
pub fn bytes_of(part: Part, lines: &str) -> Vec<u8> {
    let mut bytes = vec![0; lines.lines().count() * LENGTH];
    text::read(part, lines.as_bytes(), &mut bytes).expect("the text is right");
    bytes
}
