//! The comparison of books with the same books reordered (document 02, 7).

use crate::bench::{Bench, Machine, PLACES};
use crate::books::{self, Book};
use crate::compare_decide::needed;
use crate::compare_ticks::programme_of;
use crate::decide;
use crate::doubt;
use crate::linked;
use crate::order_counts;
use crate::random::Random;
use crate::record::{book_bytes, request_bytes, Entry, Record};
use crate::reordering::{Reordering, Row};
use crate::requests;
use crate::rig;
use crate::run::{hex, Difference};
use crate::sorted;
use crate::stays::{Given, Said, Stays};
use crate::subject::{Host, Judge, Rig, TickAnswer};
use crate::tally::Tally;

/// The calls that are asked of both books.
pub struct Calls<'a> {
    judge: &'a dyn Judge,
    host: &'a dyn Host,
    machine: Machine<'a>,
}

impl<'a> Calls<'a> {
    pub fn new(judge: &'a dyn Judge, host: &'a dyn Host, rig: &'a dyn Rig) -> Result<Calls<'a>, Difference> {
        Ok(Calls { judge, host, machine: Machine::new(rig, None)? })
    }

    /// What they say of a book and a request, with `out` as the host's output before.
    fn ask(&self, random: &mut Random, book: &[u8], request: &[u8], out: &[u8]) -> Result<Said, Difference> {
        let judged = self.judge.judge_book(book);
        let mut out = out.to_vec();
        let number = self.host.decide(book, request, &mut out);
        Ok(Said { judged, host: Given { number, out }, run: self.run(random, book, request)? })
    }

    /// What the translated programme of a book answers at the end, as the host would give it.
    fn run(&self, random: &mut Random, book: &[u8], request: &[u8]) -> Result<Given, Difference> {
        let programme = programme_of(self.machine.rig, random, book, &mut Tally::default())?;
        let bench = Bench::new(self.machine.rig, &programme, request);
        let start = self.machine.fresh(random.next())?;
        let left = bench.tick(&start, u64::MAX, &[random.next() as u16; PLACES])?;
        let out = left.out.iter().flat_map(|number| number.to_be_bytes()).collect();
        match left.tick.answer {
            TickAnswer::Finished { decision, count, code } => {
                Ok(Given { number: decision + 256 * count as u64 + (code << 40), out })
            }
            _ => Err(bench.difference("no end", &start, u64::MAX, &left)),
        }
    }
}

/// The libraries' calls, where all were there when this was built.
pub fn linked() -> Option<Result<Calls<'static>, Difference>> {
    Some(Calls::new(linked::judge()?, linked::host()?, rig::rig()?))
}

/// A book, the same with rows reordered, and a request.
pub struct Pair {
    pub old: Vec<Record>,
    pub rows: Reordering,
    pub new: Vec<Record>,
    pub request: Vec<u8>,
    /// What the host's output holds before.
    out: Vec<u8>,
}

impl Pair {
    pub fn new(old: Vec<Record>, rows: Reordering, request: Vec<u8>, out: Vec<u8>) -> Pair {
        Pair { new: rows.apply(&old), old, rows, request, out }
    }

    pub fn draw(random: &mut Random) -> Pair {
        loop {
            let (Book { records, .. }, entries) = some_book(random);
            if let Some(rows) = some_rows(random, &records) {
                let length = needed(&records) + random.below(4);
                return Pair::new(records, rows, request_bytes(&entries), random.bytes(length));
            }
        }
    }

    /// What is said of the book, and of the reordered one.
    pub fn ask(&self, calls: &Calls, random: &mut Random) -> Result<[Said; 2], Difference> {
        let mut ask = |records| calls.ask(random, &book_bytes(records), &self.request, &self.out);
        Ok([ask(&self.old)?, ask(&self.new)?])
    }

    /// Compares what is said of both books with the evaluator, and with each other.
    pub fn check(&self, calls: &Calls, random: &mut Random, tally: &mut Tally) -> Result<(), Difference> {
        let said = self.ask(calls, random)?;
        self.compare(&said, tally)?;
        self.keeps(&said)
    }

    fn compare(&self, said: &[Said; 2], tally: &mut Tally) -> Result<(), Difference> {
        let books = [&self.old, &self.new].map(|records| book_bytes(records));
        let answers = [&books[0], &books[1]].map(|book| decide::decide(book, &self.request, &mut Tally::default()).0);
        for (place, what) in ["the book", "the reordered book"].into_iter().enumerate() {
            let expected = Said::expected(&books[place], &answers[place], [self.out.len(), 2 * PLACES]);
            if said[place] != expected {
                return Err(self.difference(&format!("of {what} expected {expected}"), said));
            }
        }
        order_counts::count(self, &answers, tally);
        Ok(())
    }

    /// What stays where the book decides so.
    pub fn stays(&self, whole: u64) -> Stays {
        let each = self.rows.0.iter().map(|row| Stays::of(&self.old[row.parent], self.own(row), whole));
        each.min().unwrap_or(Stays::Answer)
    }

    /// What the policy or set of a row decides by itself.
    fn own(&self, row: &Row) -> u64 {
        let lines = row.parent..row.parent + self.old[row.parent].span();
        let (answer, _) = decide::decide(&book_bytes(&self.old[lines]), &self.request, &mut Tally::default());
        answer.decision.number()
    }

    /// Compares what is said of the two books with each other.
    pub fn keeps(&self, said: &[Said; 2]) -> Result<(), Difference> {
        match said[0].fault(&said[1], |whole| self.stays(whole)) {
            None => Ok(()),
            Some(fault) => Err(self.difference(&format!("the reordered book has {fault}"), said)),
        }
    }

    fn difference(&self, fault: &str, said: &[Said; 2]) -> Difference {
        let once = |records: &[Record]| {
            let (book, request) = (hex(&book_bytes(records)), hex(&self.request));
            format!(" compare once decide {book} {request} {}", self.out.len())
        };
        let [old, new] = [once(&self.old), once(&self.new)];
        format!(
            " {fault}\n{old}\n{new}\n {:?}\n of the book {}\n of the reordered book {}",
            self.rows, said[0], said[1]
        )
    }
}

/// A book, and a request for it.
fn some_book(random: &mut Random) -> (Book, Vec<Entry>) {
    let book = match random.below(100) {
        0..=34 => return sorted::book(random),
        35..=44 => return doubt::book(random),
        45..=79 => books::small_book(random),
        _ => books::book(random),
    };
    let entries = requests::request(random, &book);
    (book, entries)
}

/// Rows of this book, most often of such policies and sets that something stays.
fn some_rows(random: &mut Random, records: &[Record]) -> Option<Reordering> {
    let may: fn(Stays) -> bool = match random.below(10) {
        0..=2 => |least| least == Stays::Answer,
        3..=7 => |least| least != Stays::Nothing,
        8 => |least| least == Stays::Nothing,
        _ => |_| true,
    };
    Reordering::draw(random, records, |record| may(Stays::at_least(record)))
}

/// Compares one book with the same reordered.
pub fn case(calls: &Calls, random: &mut Random, tally: &mut Tally) -> Result<(), Difference> {
    Pair::draw(random).check(calls, random, tally)
}
