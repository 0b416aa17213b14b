//! The comparison of translating and running over ticks.

use crate::bench::{Bench, Left, Machine, MOST_ENTRIES, PLACES};
use crate::books::{self, Book};
use crate::causes::wanted_misfits;
use crate::codes::wanted_codes;
use crate::compare_decide::bytes_of;
use crate::damage;
use crate::decide;
use crate::doubt;
use crate::expression::wanted_sums;
use crate::issuers::{self, wanted_issuers};
use crate::judge::{self, refusals_of, Refused};
use crate::lent::Lent;
use crate::paper;
use crate::random::Random;
use crate::record::{book_bytes, request_bytes, Entry, LENGTH};
use crate::refusal::{refuse, too_short, Part, Refusal};
use crate::requests;
use crate::run::{hex, Difference};
use crate::subject::{Rig, TickAnswer, PIECES};
use crate::tally::{numbers, words, Tally, Wanted};
use crate::truth::wanted_borders;
use crate::vouched;

const DEALINGS: [&str; 8] =
    ["one step a tick", "a few", "a few, zeros among them", "any", "exactly all", "all but one", "the largest", "300"];

pub fn wanted() -> Wanted {
    let mut wanted = wanted_borders();
    wanted.extend(wanted_sums());
    wanted.extend(wanted_codes());
    wanted.extend(wanted_issuers());
    wanted.extend(wanted_misfits());
    wanted.extend([
        ("translated", words(&["exact room", "more room"])),
        (refusals_of(Part::Book), numbers([2, 3, 4, 5, 9, 10, 11, 12])),
        (refusals_of(Part::Output), numbers([7])),
        ("dealing-out", words(&DEALINGS)),
        ("answer", words(&["Permit", "Deny", "NotApplicable", "Indeterminate"])),
        ("obligations", words(&["none", "one", "several"])),
        ("refused tick", numbers([2, 4, 5, 7, 8])),
        (CUT, words(&PIECES)),
    ]);
    wanted
}

const CUT: &str = "tick that ends before a piece of a sum";

/// Translates one generated book and runs it on one request; now and then a damaged book before it.
pub fn case(machine: &Machine, random: &mut Random, tally: &mut Tally) -> Result<(), Difference> {
    if random.chance(4) {
        let book = some_book(random);
        let damaged = damage::book(random, book.records);
        translate(machine.rig, random, &damaged, tally)?;
    }
    let (made, entries) = some_case(random);
    let request = request_bytes(&entries);
    let book = book_bytes(&made.records);
    let programme = programme_of(machine.rig, random, &book, tally)?;
    tally.add("totals", "records".into(), made.records.len() as u64);
    tally.add("totals", "entries".into(), programme.len() as u64);
    Run { machine, book: &book, bench: Bench::new(machine.rig, &programme, &request) }.check(random, tally)
}

/// A book, and a request for it.
pub fn some_case(random: &mut Random) -> (Book, Vec<Entry>) {
    if random.chance(OF_DOUBTS) {
        return doubt::book(random);
    }
    if random.chance(OF_ISSUERS) {
        return vouched::book(random);
    }
    let book = some_book(random);
    let request = requests::request(random, &book);
    (book, request)
}

/// How many of a hundred books are made for what is Indeterminate in them, and of the others for issuers.
const OF_DOUBTS: usize = 8;
const OF_ISSUERS: usize = 8;

fn some_book(random: &mut Random) -> Book {
    match random.below(100) {
        0..=69 => books::small_book(random),
        70..=84 => books::book_of_sums(random),
        _ => books::book(random),
    }
}

/// Entries for each record of a book, at most: what is promised of every programme, well below 8n + 8.
const MOST_A_RECORD: usize = 4;

/// The programme of a sound book. Where the room that is drawn is too short, another is.
pub fn programme_of(
    rig: &dyn Rig,
    random: &mut Random,
    book: &[u8],
    tally: &mut Tally,
) -> Result<Vec<u64>, Difference> {
    if judge::book(book).is_err() {
        return Err(format!(" a book that should be sound is not\n book {}", hex(book)));
    }
    loop {
        if let Some(programme) = translate(rig, random, book, tally)? {
            return Ok(programme);
        }
    }
}

/// Translates: the programme, or nothing where the call is rightly refused.
fn translate(
    rig: &dyn Rig,
    random: &mut Random,
    book: &[u8],
    tally: &mut Tally,
) -> Result<Option<Vec<u64>>, Difference> {
    let needed = 8 * (book.len() / LENGTH) + 8;
    let (room, length) = some_room(random, needed);
    let refused = match judge::book(book) {
        Ok(_) if length < needed => Some(Refused::without_line(too_short())),
        judged => judged.err(),
    };
    let before: Vec<u64> = (0..length).map(|_| random.next()).collect();
    let (got, programme) = translate_into(rig, book, &before)?;
    let wrong = |why: &str| Err(format!(" translating: {why}\n book {}\n room {length}\n got {got:#x}", hex(book)));
    if let Some(refused) = refused {
        refused.count(tally);
        return if got != refused.refusal.packed() || programme != before {
            wrong("not refused as it should be")
        } else {
            Ok(None)
        };
    }
    let entries = (got / 256) as usize;
    if got % 256 != 0 || entries == 0 || entries > MOST_A_RECORD * (book.len() / LENGTH) {
        return wrong("no number of entries");
    }
    if programme[entries..] != before[entries..] {
        return wrong("a place after the entries is changed");
    }
    let (again, second) = translate_into(rig, book, &vec![0; needed])?;
    if again != got || second[..entries] != programme[..entries] {
        return wrong("a second translation differs");
    }
    tally.met("translated", room);
    Ok(Some(programme[..entries].to_vec()))
}

fn some_room(random: &mut Random, needed: usize) -> (&'static str, usize) {
    match random.below(20) {
        0 => ("short room", needed - 1),
        1 => ("short room", random.below(needed)),
        2..=5 => ("more room", needed + random.between(1, 20)),
        _ => ("exact room", needed),
    }
}

/// Translates into a buffer that holds `before`: the answer, and what it holds after.
fn translate_into(rig: &dyn Rig, book: &[u8], before: &[u64]) -> Result<(u64, Vec<u64>), Difference> {
    let (lent_book, mut programme) = (Lent::new(book), Lent::new(before));
    let got = rig.translate(lent_book.part(), programme.part_mut());
    let after = programme.part().to_vec();
    if !programme.holds(&after) || !lent_book.holds(book) {
        return Err(format!(" translating changed memory that was not lent\n book {}", hex(book)));
    }
    Ok((got, after))
}

struct Run<'a> {
    machine: &'a Machine<'a>,
    book: &'a [u8],
    bench: Bench<'a>,
}

impl Run<'_> {
    fn check(&self, random: &mut Random, tally: &mut Tally) -> Result<(), Difference> {
        let start = self.machine.fresh(random.next())?;
        let junk: Vec<u16> = (0..PLACES + random.pick(&[0, 0, 1, 50])).map(|_| random.next() as u16).collect();
        let whole = self.bench.tick(&start, u64::MAX, &junk)?;
        self.check_answer(&start, &whole, tally)?;
        if whole.tick.steps == 0 {
            return Err(self.bench.difference("no step at all", &start, u64::MAX, &whole));
        }
        self.check_finished(random, &whole, &junk)?;
        self.deal_out(random, &start, &whole, &junk, tally)?;
        if random.chance(20) {
            self.check_refusals(random, &start, tally)?;
        }
        Ok(())
    }

    /// The answer and the output are those of the evaluator, and of the host.
    fn check_answer(&self, start: &[u64], whole: &Left, tally: &mut Tally) -> Result<(), Difference> {
        let (answer, looked_at) = decide::decide(self.book, self.bench.request(), tally);
        issuers::count(self.book, self.bench.request(), tally);
        let (decision, code) = (answer.decision.number(), answer.decision.code());
        let count = answer.obligations.len();
        let mut out = answer.obligations.clone();
        out.resize(whole.out.len(), 0);
        if whole.tick.answer != (TickAnswer::Finished { decision, count, code }) || whole.out != out {
            let fault = format!("expected {answer:?}\n book {}", hex(self.book));
            return Err(self.bench.difference(&fault, start, u64::MAX, whole));
        }
        if let Some(host) = self.machine.host {
            let mut bytes = vec![0; 2 * PLACES];
            let got = host.decide(self.book, self.bench.request(), &mut bytes);
            let pairs = bytes.chunks(2).map(|pair| u16::from_be_bytes([pair[0], pair[1]]));
            if got != decide::host_number(&answer) || !pairs.eq(out.iter().copied().take(PLACES)) {
                return Err(self.bench.difference(&format!("the host says {got:#x}"), start, u64::MAX, whole));
            }
        }
        tally.met("answer", answer.decision.name());
        tally.met("obligations", ["none", "one", "several"][count.min(2)]);
        tally.add("totals", "records looked at".into(), looked_at);
        tally.add("totals", "steps".into(), whole.tick.steps);
        Ok(())
    }

    /// A finished run answers the same again with 0 steps.
    fn check_finished(&self, random: &mut Random, whole: &Left, junk: &[u16]) -> Result<(), Difference> {
        let budget = random.pick(&[0, 1, 300, u64::MAX]);
        let again = self.bench.tick(&whole.state, budget, junk)?;
        if again.tick.answer != whole.tick.answer || again.tick.steps != 0 || again.out != whole.out {
            return Err(self.bench.difference("a finished run answers something else", &whole.state, budget, &again));
        }
        Ok(())
    }

    /// The steps dealt out over ticks lead to the same end, each tick taking the smaller of its budget
    /// and the steps left.
    fn deal_out(
        &self,
        random: &mut Random,
        start: &[u64],
        whole: &Left,
        junk: &[u16],
        tally: &mut Tally,
    ) -> Result<(), Difference> {
        let how = random.below(DEALINGS.len());
        tally.met("dealing-out", DEALINGS[how]);
        let mut state = start.to_vec();
        let mut left_over = whole.tick.steps;
        for tick in 0.. {
            let budget = budget(random, DEALINGS[how], tick, left_over);
            let left = self.bench.tick(&state, budget, junk)?;
            if left.tick.steps != budget.min(left_over) {
                return Err(self.bench.difference(&format!("{left_over} steps were left"), &state, budget, &left));
            }
            left_over -= left.tick.steps;
            if left_over > 0 && left.tick.answer != TickAnswer::Running {
                return Err(self.bench.difference("answered before the end", &state, budget, &left));
            }
            if let (TickAnswer::Running, Some(piece)) = (left.tick.answer, self.bench.next_piece(&left.state)) {
                tally.met(CUT, piece);
            }
            if left_over == 0 {
                let same = left.tick.answer == whole.tick.answer && left.out == whole.out && left.state == whole.state;
                return if same { Ok(()) } else { Err(self.bench.difference("another end", &state, budget, &left)) };
            }
            state = left.state;
        }
        Ok(())
    }

    /// A tick judges request, output, programme and state, in this order.
    fn check_refusals(&self, random: &mut Random, state: &[u64], tally: &mut Tally) -> Result<(), Difference> {
        let bad_request = random.chance(50);
        let request = if bad_request { damage::request(random, Vec::new()) } else { self.bench.request().to_vec() };
        let places = random.pick(&[PLACES, PLACES, PLACES - 1, 0]);
        let entries = random.pick(&[1, 1, 0, MOST_ENTRIES + 1]);
        let expected: Option<Refusal> = match judge::request(&request) {
            Err(refused) => {
                refused.count(tally);
                Some(refused.refusal)
            }
            Ok(_) if places < PLACES => Some(too_short()),
            Ok(_) if entries != 1 => Some(refuse(8, Part::Programme)),
            Ok(_) => None,
        };
        let refusal = match expected {
            None => return Ok(()),
            Some(refusal) => refusal,
        };
        tally.met("refused tick", refusal.number);
        let entries: Vec<u64> = (0..entries).map(|_| random.next()).collect();
        let bench = Bench::new(self.machine.rig, &entries, &request);
        let budget = random.pick(&[0, 1, 300, u64::MAX]);
        let out: Vec<u16> = (0..places).map(|_| random.next() as u16).collect();
        let left = bench.tick(state, budget, &out)?;
        if left.tick.answer != TickAnswer::Refused(refusal) {
            return Err(bench.difference(&format!("expected {refusal:?}, output {places}"), state, budget, &left));
        }
        Ok(())
    }
}

/// The budget of a tick.
fn budget(random: &mut Random, dealing: &str, tick: u64, left_over: u64) -> u64 {
    match dealing {
        "one step a tick" => 1,
        "a few" => random.between(1, 6) as u64,
        "a few, zeros among them" => random.pick(&[0, 0, 1, 2, 5]),
        "any" => random.next() % (left_over + 2),
        "exactly all" => left_over,
        "all but one" if tick == 0 => left_over - 1,
        "all but one" => random.below(2) as u64,
        "the largest" if random.chance(50) => u64::MAX,
        "the largest" => random.below(3) as u64,
        _ => 300,
    }
}

/// Document 01's `Run:` line, room 8n + 7 gives 7, and P1 to P11 as runs.
pub fn check_paper(machine: &Machine) -> Result<(), Difference> {
    for example in paper::examples() {
        let book = bytes_of(Part::Book, &example.book);
        let request = bytes_of(Part::Request, &example.request);
        let room = 8 * (book.len() / LENGTH) + 8;
        let short = machine.rig.translate(&book, &mut vec![0; room - 1]);
        let mut programme = vec![0; room];
        let entries = machine.rig.translate(&book, &mut programme);
        if short != too_short().packed() || entries % 256 != 0 {
            return Err(format!(" {}: translating gives {entries:#x}, with a place less {short:#x}", example.name));
        }
        programme.truncate((entries / 256) as usize);
        let left = Bench::new(machine.rig, &programme, &request).tick(&machine.fresh(0)?, u64::MAX, &[0; PLACES])?;
        let (decision, count) = (example.answer % 256, example.obligations.len());
        let expected = TickAnswer::Finished { decision, count, code: example.answer >> 40 };
        if left.tick.answer != expected || !left.out.starts_with(&example.obligations) {
            return Err(format!(" {}: expected {expected:?}, got {:?}", example.name, left.tick));
        }
    }
    Ok(())
}
