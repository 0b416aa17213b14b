//! The evaluator against document 01's own examples, and the comparisons against stand-ins for the
//! libraries: the evaluator itself must pass, and one with a planted error must be found out.

use crate::bench::Machine;
use crate::books::{self, with};
use crate::compare_damaged;
use crate::compare_decide::{self, bytes_of};
use crate::compare_judge;
use crate::compare_text;
use crate::compare_ticks;
use crate::decide;
use crate::judge;
use crate::obligations::Answer;
use crate::operands;
use crate::paper;
use crate::planted;
use crate::planted_codes;
use crate::planted_issuers;
use crate::planted_order::{self, has_policy_after_set};
use crate::planted_texts;
use crate::policy::Decision;
use crate::random::Random;
use crate::record::*;
use crate::refusal::{refuse, too_short, Part, Refusal};
use crate::rig::unpack;
use crate::run::{compare, Cases, Difference};
use crate::subject::{Field, Host, Judge, Rig, Texts, Tick, TickAnswer};
use crate::sums::Operator;
use crate::tally::{Item, Tally, Wanted};
use crate::text;
use crate::truth::{Takes, Ways, RIGHT};

// Document 01's examples

#[test]
fn examples_of_document_01() {
    assert_eq!(compare_decide::check_paper(&Model(Plan::Right)), Ok(()));
    assert_eq!(compare_judge::check_paper(&Model(Plan::Right)), Ok(()));
    assert_eq!(compare_text::check_paper(&Model(Plan::Right)), Ok(()));
}

#[test]
fn book_a_is_read_and_written_again() {
    let bytes = bytes_of(Part::Book, paper::A);
    let mut again = vec![0; 6 * 41];
    assert_eq!(text::write(Part::Book, &bytes, &mut again), Ok(6 * 41));
    assert_eq!(again, paper::A.replace('\n', "00000000\n").as_bytes());
    let small = paper::A.to_lowercase();
    assert_eq!(bytes_of(Part::Book, &small), bytes);
}

#[test]
fn refusals_of_texts_come_in_order() {
    let read = |part, text: &str, room| text::read(part, text.as_bytes(), &mut vec![0; room]).unwrap_err().packed();
    assert_eq!(read(Part::Book, "", 0), 255 + 256 * 3 + (1 << 32));
    assert_eq!(text::read(Part::Request, b"", &mut []), Ok(0));
    for line in ["00112233445566778899AABBCCDDEEFF\n", "00112233445566778899AABBCCDDEEFF00112233\n"] {
        assert_eq!(read(Part::Book, line.trim_end(), 20), 255 + 256 + 65_536 + (1 << 32));
        assert_eq!(read(Part::Book, &line.repeat(1000), 19_999), 255 + 256 * 7 + (3 << 32));
        assert_eq!(read(Part::Book, &(line.repeat(1000) + "x"), 20_000), 255 + 256 * 2 + (1 << 32));
        assert_eq!(read(Part::Request, &(line.repeat(64) + "x"), 20_000), 255 + 256 * 2 + (2 << 32));
        assert_eq!(read(Part::Book, &(line.repeat(999) + "\n" + line), 0), 255 + 256 + 65_536 * 1000 + (1 << 32));
    }
}

#[test]
fn refusals_of_record_bytes_come_in_order() {
    let number = |bytes: &[u8]| judge::book(bytes).unwrap_err().refusal.number;
    assert_eq!(number(&[]), 3);
    assert_eq!(number(&[0; 20_001]), 4);
    assert_eq!(number(&[0; 20_020]), 2);
    let mut book = bytes_of(Part::Book, paper::A);
    book[3] = 5; // line 1 breaks a place rule
    assert_eq!(judge::book(&book).unwrap_err().refusal.packed(), 255 + 256 * 9 + 65_536 + (1 << 32));
    book[5 * LENGTH] = 9; // and line 6 a field rule
    assert_eq!(judge::book(&book).unwrap_err().refusal.packed(), 255 + 256 * 5 + 65_536 * 6 + (1 << 32));
}

#[test]
fn two_place_rules_at_one_line_give_the_lower() {
    let refusal = |records: &[Record]| {
        let Refusal { number, line, .. } = judge::book(&book_bytes(records)).unwrap_err().refusal;
        (number, line)
    };
    let mut records = books::nested_sets(&mut Random::of_case(3, 1), 17);
    assert_eq!(refusal(&records), (12, 17));
    records[16].0[..2].copy_from_slice(&[RULE, PERMIT]); // in a set
    assert_eq!(refusal(&records), (11, 17));
    records[16].set_span(2);
    assert_eq!(refusal(&records), (10, 17));
    records[0].0[..2].copy_from_slice(&[RULE, PERMIT]);
    records[0].set_span(18);
    assert_eq!(refusal(&records), (9, 1));
}

/// Whether a function, of this literal and this request value, lets a rule apply.
fn holds(function: u8, value_type: u8, literal: u64, value: u64) -> bool {
    let mut test = absent(CONDITION, COMPARISON + function, value_type);
    test[0].set_value(literal.to_be_bytes());
    let book = book_bytes(&with(POLICY, FIRST_APPLICABLE, &[with(RULE, PERMIT, &[test])]));
    let request = request_bytes(&[Entry::new(1, value_type, 0, value.to_be_bytes())]);
    decide::decide(&book, &request, &mut Tally::default()).0.decision == Decision::Permit
}

const MINUS_ZERO: u64 = 1 << 63;

#[test]
fn the_two_zeros_are_equal_as_doubles_alone() {
    for (literal, value) in [(0, 0), (0, MINUS_ZERO), (MINUS_ZERO, 0), (MINUS_ZERO, MINUS_ZERO)] {
        let of_doubles = [1, 2, 3, 4, 5].map(|function| holds(function, DOUBLE, literal, value));
        assert_eq!(of_doubles, [true, false, true, false, true]);
        assert_eq!(holds(1, NAME, literal, value), literal == value);
        assert_eq!(holds(1, INTEGER, literal, value), literal == value);
        assert_eq!(holds(3, INTEGER, literal, value), literal <= value); // the top bit is the sign
    }
    assert!(holds(1, NAME, u64::MAX, u64::MAX)); // as doubles it is no number, and equals nothing
    assert!(!holds(3, DOUBLE, MINUS_ZERO, 1) && !holds(5, DOUBLE, 0, MINUS_ZERO + 1));
}

/// Integers by their eight bytes.
const LEAST: u64 = 1 << 63;
const MINUS_ONE: u64 = u64::MAX;
const LARGEST: u64 = LEAST - 1;

#[test]
fn integers_have_a_sign() {
    let rising = [LEAST, MINUS_ONE, 0, LARGEST];
    for first in 0..4 {
        for second in 0..4 {
            let of_integers = [1, 2, 3, 4, 5].map(|function| holds(function, INTEGER, rising[first], rising[second]));
            let of_places = [first == second, first > second, first >= second, first < second, first <= second];
            assert_eq!(of_integers, of_places);
        }
    }
}

#[test]
fn generated_books_are_sound() {
    for case in 0..3000 {
        let mut random = Random::of_case(7, case);
        let book = books::book(&mut random);
        judge::book(&book_bytes(&book.records)).expect("a generated book is sound");
    }
}

#[test]
fn ticks_are_unpacked() {
    assert_eq!(unpack(7 << 32), Tick { answer: TickAnswer::Running, steps: 7 });
    assert_eq!(
        unpack(1 << 32 | 2 + 256 * 3),
        Tick { answer: TickAnswer::Finished { decision: 2, count: 3, code: 0 }, steps: 1 }
    );
    assert_eq!(
        unpack(9 << 32 | 2 << 24 | 4),
        Tick { answer: TickAnswer::Finished { decision: 4, count: 0, code: 2 }, steps: 9 }
    );
    let refusal = refuse(8, Part::Programme);
    assert_eq!(unpack(refusal.packed()), Tick { answer: TickAnswer::Refused(refusal), steps: 0 });
}

// The counts

const PERMIT: u8 = 1;
const DENY: u8 = 2;
const DENY_OVERRIDES: u8 = 1;
const PERMIT_OVERRIDES: u8 = 2;
const FIRST_APPLICABLE: u8 = 3;
const ONLY_ONE: u8 = 4;

fn duty(effect: u8) -> Vec<Record> {
    vec![books::obligation(effect, 7)]
}

/// A policy that decides by its only rule, with an obligation that is due.
fn deciding(effect: u8) -> Vec<Record> {
    with(POLICY, FIRST_APPLICABLE, &[with(RULE, effect, &[]), duty(effect)])
}

/// A match or comparison with an attribute that the empty request does not have.
fn absent(kind: u8, choice: u8, type_byte: u8) -> Vec<Record> {
    let mut test = books::record(kind, choice);
    test.0[4..6].copy_from_slice(&[1, type_byte]);
    vec![test]
}

/// A policy that is Indeterminate, with a Deny obligation.
fn unsure() -> Vec<Record> {
    let condition = absent(CONDITION, COMPARISON + 1, INTEGER);
    with(POLICY, FIRST_APPLICABLE, &[with(RULE, DENY, &[condition]), duty(DENY)])
}

/// A section that makes its target No-match, or Indeterminate if the attribute must be present.
fn guard(must_be_present: bool) -> Vec<Record> {
    let type_byte = if must_be_present { INTEGER + MUST_BE_PRESENT } else { INTEGER };
    let mut section = with(SECTION, 0, &[with(CONJUNCTION, 0, &[absent(MATCH, 1, type_byte)])]);
    section[0].0[4] = 1;
    section
}

/// What deciding this book on the empty request counts.
fn counts(book: &[Record]) -> Tally {
    let bytes = book_bytes(book);
    judge::book(&bytes).expect("the book is sound");
    let mut tally = Tally::default();
    decide::decide(&bytes, &[], &mut tally);
    tally
}

fn met_once(tally: &Tally, group: &'static str, item: impl Into<Item> + Copy) {
    assert_eq!(tally.count(group, item.into()), 1, "{group}: {}", item.into());
}

#[test]
fn kept_obligations_are_counted() {
    let set = with(SET, DENY_OVERRIDES, &[deciding(PERMIT), deciding(PERMIT), duty(PERMIT), duty(DENY)]);
    let tally = counts(&set);
    met_once(&tally, "child's obligations kept", ("deny-overrides over policies", "Permit"));
    met_once(&tally, "child's obligations kept, of several children", ("deny-overrides over policies", "Permit"));
    met_once(&tally, "child's obligations kept, own after them", ("deny-overrides over policies", "Permit"));
    met_once(&tally, "own obligations kept", ("deny-overrides over policies", "Permit"));
    met_once(&tally, "own obligations lost", ("deny-overrides over policies", "not due on Permit"));
    met_once(&tally, "obligations of the answer", ("Permit", "over one level"));

    let set = with(SET, ONLY_ONE, &[with(SET, PERMIT_OVERRIDES, &[unsure(), deciding(DENY)])]);
    let tally = counts(&set);
    met_once(
        &tally,
        "child's obligations kept beside an Indeterminate child",
        ("permit-overrides over policies", "Deny"),
    );
    met_once(&tally, "child's obligations kept over two levels or more", ("only-one-applicable", "Deny"));
    met_once(&tally, "own obligations lost", ("first-applicable over rules", "Indeterminate"));
    met_once(&tally, "obligations of the answer", ("Deny", "over two levels"));
}

#[test]
fn obligations_of_evaluated_children_that_are_lost_are_counted() {
    let tally = counts(&with(SET, DENY_OVERRIDES, &[deciding(PERMIT), unsure(), deciding(DENY)]));
    met_once(&tally, "child's obligations lost", ("Permit", "to an Indeterminate child"));
    met_once(&tally, "child's obligations lost", ("Deny", "of the Indeterminate child that stops"));
    met_once(
        &tally,
        "child's obligations lost after the stop",
        ("deny-overrides over policies", "Indeterminate", "Deny"),
    );
    assert_eq!(tally.count("child's obligations lost", ("Permit", "to a Deny child")), 0);
    met_once(&tally, "obligations of the answer", ("Deny", "none"));

    let handed_up = with(SET, FIRST_APPLICABLE, &[deciding(DENY)]);
    let tally = counts(&with(SET, PERMIT_OVERRIDES, &[handed_up, deciding(PERMIT)]));
    met_once(&tally, "child's obligations lost", ("Deny", "to a Permit child"));
    met_once(&tally, "child's obligations lost, another child's kept", ("Deny", "to a Permit child"));
    met_once(&tally, "obligations handed up and lost", ("Deny", "to a Permit child", "after one level"));
}

#[test]
fn obligations_of_records_not_evaluated_are_counted() {
    let guarded = |must_be_present, child| with(SET, FIRST_APPLICABLE, &[guard(must_be_present), child, duty(DENY)]);
    let to_only_one = "child's obligations lost to only-one-applicable";
    let tally = counts(&with(SET, ONLY_ONE, &[deciding(PERMIT), guarded(true, deciding(DENY)), deciding(DENY)]));
    met_once(&tally, to_only_one, ("target Indeterminate", "of one before it", "Permit"));
    met_once(&tally, to_only_one, ("target Indeterminate", "of one after it", "Deny"));
    let judged = ("child of only-one-applicable", "target Indeterminate", "Deny");
    met_once(&tally, "children's obligations lost by a target", judged);

    let tally = counts(&with(SET, ONLY_ONE, &[deciding(PERMIT), deciding(DENY)]));
    met_once(&tally, to_only_one, ("second Match", "of one before it", "Permit"));
    met_once(&tally, to_only_one, ("second Match", "its own", "Deny"));

    let tally = counts(&guarded(false, with(SET, DENY_OVERRIDES, &[deciding(PERMIT)])));
    met_once(&tally, "own obligations lost", ("set", "target No-match"));
    met_once(&tally, "deeper obligations lost by a target", ("set", "target No-match", "Permit"));
}

#[test]
fn an_output_is_too_short_only_for_obligations() {
    let count = |book: &[u8], room| {
        let mut tally = Tally::default();
        assert_eq!(compare_decide::check(&Model(Plan::Right), book, &[], &vec![0; room], &mut tally), Ok(()));
        tally.count("faults at once", "book and output")
    };
    let mut book = bytes_of(Part::Book, paper::A);
    book[1] = 9;
    assert_eq!((count(&book, 3), count(&book, 4)), (1, 0));
    assert_eq!(count(&book[..LENGTH], 0), 0);
}

// The comparisons

/// How a stand-in behaves.
#[derive(Clone, Copy, PartialEq, Eq, Debug)]
pub enum Plan {
    Right,
    SmallLetter,
    OneBeforeTwo,
    WrittenBeforeJudged,
    LastLineFeedNotAsked,
    WidthOfEachLine,
    LimitByBytes,
    RoomForShortLines,
    IssuerNotCleared,
    WrittenShort,
    IssuerAnywhere,
    LastBytesNotJudged,
    MultipleOf16,
    NineBeforeFive,
    DepthNotJudged,
    DepthBeforePlace,
    NineBelowLine1,
    CountWrong,
    OddByteKept,
    OrderOfObligations,
    ZerosApart,
    NamesAsDoubles,
    MinusOneAsZero,
    LeastAsLargest,
    TypeOfTheSecond,
    OperandsByWalking,
    SubtractExchanged,
    DivideExchanged,
    ValuesExchanged,
    RemainderOfTheDivisor,
    InfinityKept,
    FirstHidden,
    SecondHidden,
    WrapAround,
    DivideDown,
    TieAway,
    LastCode,
    CodeOfTheOverriding,
    OnlyOneIsProcessing,
    SmallerCode,
    LargerCode,
    CodeOfTheSecondOperand,
    FailedSumIsMissing,
    DenyWithCode,
    AnyIssuer,
    AnyForAMatch,
    AnyForAComparison,
    AnyForAnAttribute,
    NobodysToo,
    EqualAlone,
    SomebodysAlone,
    ByTheFirstByte,
    ByTheSecondByte,
    By15Bits,
    OperandLostBetweenTicks,
    OutputTouchedWhileRunning,
    StateLostOnRefusal,
    ExtraStep,
    EndNotKept,
    AnswerTooEarly,
    BudgetNotUsed,
    OutsideNotRefused,
    Order(planted_order::Error),
}

pub struct Model(pub Plan);

impl Texts for Model {
    fn read(&self, part: Part, text: &[u8], out: &mut [u8]) -> u64 {
        let (mut text, before) = (text.to_vec(), out.to_vec());
        let line = text::line_length(text::width(&text));
        let most = text::most_lines(part) * line;
        match self.0 {
            Plan::OneBeforeTwo if text.len() > most && text.len() % line != 0 => {
                return text::read(part, &text, &mut vec![0; 40_000]).unwrap_err().packed() - 256
            }
            Plan::WrittenBeforeJudged if !out.is_empty() && !text.is_empty() => out[0] = 1,
            Plan::LastLineFeedNotAsked if text.len() % line == line - 1 => text.push(b'\n'),
            Plan::WidthOfEachLine => text = planted_texts::each_by_itself(&text),
            Plan::LimitByBytes if planted_texts::within_the_bytes(part, &text) => return 0,
            Plan::RoomForShortLines if planted_texts::room_for_short_lines(&text, out) => return 0,
            _ => {}
        }
        let read = text::read(part, &text, out);
        if let (Plan::IssuerNotCleared, Ok(filled)) = (self.0, read) {
            planted_texts::keep_the_rest(&text, &before, out, filled);
        }
        read.map_or_else(|refusal| refusal.packed(), |filled| 256 * filled as u64)
    }

    fn write(&self, part: Part, bytes: &[u8], out: &mut [u8]) -> u64 {
        let mut result = text::write(part, bytes, out);
        match (&mut result, self.0) {
            (Ok(filled), Plan::SmallLetter) => out[..*filled].make_ascii_lowercase(),
            (Ok(filled), Plan::WrittenShort) => *filled = planted_texts::cut_short(out, *filled),
            _ => {}
        }
        result.map_or_else(|refusal| refusal.packed(), |filled| 256 * filled as u64)
    }
}

impl Judge for Model {
    fn judge_book(&self, book: &[u8]) -> u64 {
        match judge::book(book) {
            Ok(_) if self.0 == Plan::Order(planted_order::Error::PolicyAfterSet) && has_policy_after_set(book) => {
                refuse(11, Part::Book).packed()
            }
            Ok(accepted) => accepted.packed(),
            Err(refused) => self.refused_book(book, refused),
        }
    }

    fn judge_request(&self, request: &[u8]) -> u64 {
        let extra = u64::from(self.0 == Plan::CountWrong && request.len() == LENGTH * MOST_ENTRIES);
        match judge::request(request) {
            Ok(entries) => 256 * (entries as u64 - extra),
            Err(refused) if self.passes_over(&refused.causes) => 0,
            Err(refused) => refused.refusal.packed(),
        }
    }
}

impl Host for Model {
    fn decide(&self, book: &[u8], request: &[u8], out: &mut [u8]) -> u64 {
        let last = out.last().copied();
        let (book, request) = self.misread(book, request);
        let answer = decide::host_call_by(self.ways(), &book, &request, out, &mut Tally::default());
        match self.0 {
            Plan::OddByteKept if answer % 256 != 255 && out.len() % 2 == 1 => out[out.len() - 1] = last.unwrap(),
            Plan::OrderOfObligations if answer % 256 != 255 && answer >> 8 & 65_535 > 1 => out[..4].rotate_left(2),
            Plan::DenyWithCode if answer % 256 == DENY.into() => {
                return answer + (planted_codes::code_of_deny(&book, &request) << 40)
            }
            _ => {}
        }
        answer
    }
}

/// A stand-in for the rig. Its programme is the number of records and three entries a record; a step looks at one
/// record or puts one obligation into its place, and the last step finishes. A damaged programme meets 8 after 0, 1
/// or 2 steps.
impl Rig for Model {
    fn translate(&self, book: &[u8], programme: &mut [u64]) -> u64 {
        match judge::book(book) {
            Err(refused) => refused.refusal.packed(),
            Ok(accepted) if programme.len() < 8 * accepted.records + 8 => too_short().packed(),
            Ok(accepted) => {
                programme[0] = accepted.records as u64;
                for (entries, record) in programme[1..].chunks_mut(OF_A_RECORD).zip(records(book)) {
                    entries.copy_from_slice(&entries_of(&record));
                }
                256 * (OF_A_RECORD * accepted.records + 1) as u64
            }
        }
    }

    fn fresh(&self, state: &mut [u64]) -> u64 {
        if state.len() < 1 + 1000 {
            return too_short().packed();
        }
        state[..1001].fill(0);
        0
    }

    fn tick(&self, programme: &[u64], request: &[u8], state: &mut [u64], budget: u64, out: &mut [u16]) -> Tick {
        let refused = |refusal| Tick { answer: TickAnswer::Refused(refusal), steps: 0 };
        if let Err(fault) = judge::request(request) {
            return refused(fault.refusal);
        }
        if out.len() < 1000 {
            return refused(too_short());
        }
        let first = First::of(state[0]);
        let allowed =
            first.number() == state[0] && first.taken <= 2000 && state[1..].iter().all(|&place| place < 65_536);
        let allowed = allowed && first.decision <= 4 && first.count <= first.taken.min(1000);
        let allowed = allowed && first.code <= 2 && (first.decision == 4) == (first.code != 0);
        if programme.is_empty() || programme.len() > 8008 || !allowed {
            if self.0 == Plan::StateLostOnRefusal {
                state[0] = 0;
            }
            return refused(refuse(8, Part::Programme));
        }
        self.run(programme, request, state, budget, out)
    }

    fn fields(&self) -> &'static [Field] {
        &[
            Field { number: 0, low: 0, width: 16, most: 2000 },
            Field { number: 0, low: 16, width: 16, most: 4 },
            Field { number: 0, low: 32, width: 16, most: 1000 },
            Field { number: 0, low: 48, width: 16, most: 2 },
        ]
    }

    fn place(&self, state: &[u64]) -> usize {
        1 + OF_A_RECORD * First::of(state[0]).taken as usize
    }

    fn outside(&self, random: &mut Random, of_sum: bool, programme: &mut Vec<u64>, at: usize) {
        let kind = if of_sum { VALUE } else { 255 };
        programme[at] = u64::from_be_bytes([kind, 255, 0, 1, 0, 0, 0, random.byte()]);
    }

    fn piece(&self, programme: &[u64], at: usize) -> Option<&'static str> {
        let record = record_of(programme.get(at..at + OF_A_RECORD).filter(|_| at % OF_A_RECORD == 1)?);
        match record.kind() {
            _ if record.is_operator() => Some(Operator::of(record.choice()).name()),
            VALUE => Some(record.name()),
            _ => Some(record.name()).filter(|_| record.is_comparison_of_values()),
        }
    }
}

/// The entries of a record in a stand-in's programme; its bytes are filled up with zeros.
const OF_A_RECORD: usize = 3;

fn entries_of(record: &Record) -> [u64; OF_A_RECORD] {
    let mut bytes = [0; 8 * OF_A_RECORD];
    bytes[..LENGTH].copy_from_slice(&record.0);
    [0, 1, 2].map(|entry| u64::from_be_bytes(bytes[8 * entry..8 * entry + 8].try_into().unwrap()))
}

fn record_of(entries: &[u64]) -> Record {
    let bytes: Vec<u8> = entries.iter().flat_map(|entry| entry.to_be_bytes()).collect();
    Record(bytes[..LENGTH].try_into().unwrap())
}

/// The whole records in a stand-in's programme.
fn book_of(programme: &[u64]) -> Vec<u8> {
    programme[1..].chunks_exact(OF_A_RECORD).flat_map(|entries| record_of(entries).0).collect()
}

/// The first number of the stand-in's state: the steps taken, the decision once finished, the number of
/// obligations, and the status code.
struct First {
    taken: u64,
    decision: u64,
    count: u64,
    code: u64,
}

impl First {
    fn of(number: u64) -> First {
        let field = |low: u32| number >> low & 0xFFFF;
        First { taken: field(0), decision: field(16), count: field(32), code: field(48) }
    }

    fn number(&self) -> u64 {
        self.taken | self.decision << 16 | self.count << 32 | self.code << 48
    }
}

/// Looks at a record, or puts an obligation into its place, or finishes.
fn step(state: &mut [u64], records: usize, answer: &Answer) {
    let first = First::of(state[0]);
    let placed = (first.taken as usize).checked_sub(records);
    match placed.map(|placed| (placed, answer.obligations.get(placed))) {
        None => state[0] += 1,
        Some((placed, Some(&number))) => {
            state[1 + placed] = number.into();
            state[0] += 1;
        }
        Some((_, None)) => {
            let count = answer.obligations.len() as u64;
            let (decision, code) = (answer.decision.number(), answer.decision.code());
            state[0] = First { taken: first.taken, decision, count, code }.number();
        }
    }
}

impl Model {
    fn refused_book(&self, book: &[u8], refused: judge::Refused) -> u64 {
        let Refusal { number, line, .. } = refused.refusal;
        let deep = refused.causes.iter().any(|cause| cause.0 == "12: too deep");
        let planted = |number| Refusal { number, ..refused.refusal }.packed();
        match self.0 {
            Plan::NineBeforeFive if number == 5 && line > 1 && book[3] == 1 && book.len() > LENGTH => {
                Refusal { number: 9, part: Part::Book, line: 1 }.packed()
            }
            _ if self.passes_over(&refused.causes) => 0,
            Plan::DepthNotJudged if deep => 0,
            Plan::DepthBeforePlace if deep && number == 11 => planted(12),
            Plan::NineBelowLine1 if number == 10 => planted(9),
            Plan::TypeOfTheSecond if of_the_first(&refused.causes) => 0,
            Plan::OperandsByWalking if refused.found == Some(operands::BY_WALKING_ALONE) => planted(10),
            Plan::OperandsByWalking if refused.found == Some(operands::BY_PARENTS_ALONE) => planted(11),
            _ => refused.refusal.packed(),
        }
    }

    /// Whether a stand-in does not refuse what this alone is wrong with.
    fn passes_over(&self, causes: &[judge::Cause]) -> bool {
        match (self.0, causes) {
            (Plan::IssuerAnywhere, [(judge::NO_ISSUER, _)]) => true,
            (Plan::LastBytesNotJudged, [(judge::LAST_BYTES, _)]) => true,
            (Plan::MultipleOf16, [(judge::MISFIT, Item::Pair(_, how))]) => *how == judge::MISFITS[0],
            _ => false,
        }
    }

    /// What a stand-in that compares values wrongly takes a book and a request for.
    fn misread(&self, book: &[u8], request: &[u8]) -> (Vec<u8>, Vec<u8>) {
        let (mut book, mut request) = (book.to_vec(), request.to_vec());
        let misread = |lines: &mut [u8], type_at: usize, value_type, value: u64, taken_for: u64| {
            for line in lines.chunks_exact_mut(LENGTH) {
                if line[type_at] % MUST_BE_PRESENT == value_type && line[VALUE_AT] == value.to_be_bytes() {
                    line[VALUE_AT].copy_from_slice(&taken_for.to_be_bytes());
                }
            }
        };
        let mut misread_both = |value_type, value, taken_for| {
            misread(&mut book, 5, value_type, value, taken_for);
            misread(&mut request, 1, value_type, value, taken_for);
        };
        match self.0 {
            Plan::ZerosApart => misread(&mut request, 1, DOUBLE, MINUS_ZERO, MINUS_ZERO + 1),
            Plan::NamesAsDoubles => misread_both(NAME, MINUS_ZERO, 0),
            Plan::MinusOneAsZero => misread_both(INTEGER, MINUS_ONE, 0),
            Plan::LeastAsLargest => misread_both(INTEGER, LEAST, LARGEST),
            Plan::ValuesExchanged => book.chunks_exact_mut(LENGTH).for_each(exchange_values),
            _ => {}
        }
        (book, request)
    }

    /// What a stand-in does in another way.
    fn ways(&self) -> Ways {
        let apply = match self.0 {
            Plan::SubtractExchanged => planted::subtract_exchanged,
            Plan::DivideExchanged => planted::divide_exchanged,
            Plan::RemainderOfTheDivisor => planted::remainder_of_the_divisor,
            Plan::InfinityKept => planted::infinity_kept,
            Plan::FirstHidden => planted::first_hidden,
            Plan::SecondHidden => planted::second_hidden,
            Plan::WrapAround => planted::wrap_around,
            Plan::DivideDown => planted::divide_down,
            Plan::TieAway => planted::tie_away,
            Plan::CodeOfTheSecondOperand => planted_codes::second_operand,
            Plan::FailedSumIsMissing => planted_codes::missing_sum,
            _ => RIGHT.apply,
        };
        let pick = match self.0 {
            Plan::LastCode => planted_codes::last,
            Plan::CodeOfTheOverriding => planted_codes::of_the_overriding,
            Plan::OnlyOneIsProcessing => planted_codes::processing_of_only_one,
            Plan::SmallerCode => planted_codes::smaller,
            Plan::LargerCode => planted_codes::larger,
            _ => RIGHT.pick,
        };
        let combine = match self.0 {
            Plan::Order(error) => error.combine(),
            _ => RIGHT.combine,
        };
        Ways { apply, pick, takes: self.takes(), combine }
    }

    fn takes(&self) -> Takes {
        match self.0 {
            Plan::AnyIssuer => planted_issuers::any_issuer,
            Plan::AnyForAMatch => planted_issuers::any_for_a_match,
            Plan::AnyForAComparison => planted_issuers::any_for_a_comparison,
            Plan::AnyForAnAttribute => planted_issuers::any_for_an_attribute,
            Plan::NobodysToo => planted_issuers::nobodys_too,
            Plan::EqualAlone => planted_issuers::equal_alone,
            Plan::SomebodysAlone => planted_issuers::somebodys_alone,
            Plan::ByTheFirstByte => planted_issuers::by_the_first_byte,
            Plan::ByTheSecondByte => planted_issuers::by_the_second_byte,
            Plan::By15Bits => planted_issuers::by_15_bits,
            _ => RIGHT.takes,
        }
    }

    /// What a tick from this state works towards; nothing where the programme is no book's.
    fn aim(&self, programme: &[u64], request: &[u8], state: &[u64]) -> Option<Answer> {
        let book = book_of(programme);
        let records = judge::book(&book).ok()?.records as u64;
        if records != programme[0] {
            return None;
        }
        let inside = self.piece(programme, self.place(state)).is_some();
        let lost = self.0 == Plan::OperandLostBetweenTicks && inside;
        let ways = if lost { Ways { apply: planted::always_lost, ..RIGHT } } else { self.ways() };
        let (book, request) = self.misread(&book, request);
        Some(decide::decide_by(ways, &book, &request, &mut Tally::default()).0)
    }

    fn run(&self, programme: &[u64], request: &[u8], state: &mut [u64], budget: u64, out: &mut [u16]) -> Tick {
        let before = state.to_vec();
        let aim = self.aim(programme, request, state);
        let mut steps = 0;
        if self.0 == Plan::OutputTouchedWhileRunning && budget == 1 {
            out[999] = 77;
        }
        while steps < budget && First::of(state[0]).decision == 0 {
            steps += 1;
            match &aim {
                Some(answer) => step(state, programme[0] as usize, answer),
                None if self.may_go_on(programme, state) => state[0] += 1,
                None => {
                    state.copy_from_slice(&before);
                    return Tick { answer: TickAnswer::Refused(refuse(8, Part::Programme)), steps: 0 };
                }
            }
            if self.0 == Plan::BudgetNotUsed && steps == 2 {
                break;
            }
        }
        self.tell(state, steps, budget, out)
    }

    /// Whether a damaged programme does not meet 8 yet.
    fn may_go_on(&self, programme: &[u64], state: &[u64]) -> bool {
        let of_no_choice = |entry: &u64| entry.to_be_bytes()[1] == 255;
        let meets = programme.get(self.place(state)).map_or(false, of_no_choice);
        let meets = meets && self.0 != Plan::OutsideNotRefused;
        !meets && First::of(state[0]).taken < programme.len() as u64 % 3
    }

    /// What a tick says after so many steps.
    fn tell(&self, state: &[u64], steps: u64, budget: u64, out: &mut [u16]) -> Tick {
        let first = First::of(state[0]);
        let early = self.0 == Plan::AnswerTooEarly && steps == budget && budget > 1;
        if first.decision == 0 && !early {
            return Tick { answer: TickAnswer::Running, steps };
        }
        out.fill(0);
        for (place, &number) in out.iter_mut().zip(&state[1..1 + first.count as usize]) {
            *place = number as u16;
        }
        let late = self.0 == Plan::EndNotKept && steps == 0;
        let decision = if late { 4 } else { first.decision.max(1) };
        let steps = if self.0 == Plan::ExtraStep && steps > 0 { (steps + 1).min(budget) } else { steps };
        let code = if decision == 4 { first.code.max(1) } else { 0 };
        Tick { answer: TickAnswer::Finished { decision, count: first.count as usize, code }, steps }
    }
}

/// Whether a line is refused because of its first operand's type alone.
fn of_the_first(causes: &[judge::Cause]) -> bool {
    let of_first = |item: Item| matches!(item, Item::Triple(_, "first", _));
    matches!(causes, [(operands::TYPES_DIFFER, _)])
        || matches!(causes, [(operands::TYPE_OF_OPERAND, item)] if of_first(*item))
}

/// Makes of a comparison of two values the one that has them the other way round.
fn exchange_values(line: &mut [u8]) {
    if line[0] == CONDITION && (22..=25).contains(&line[1]) {
        line[1] = [24, 25, 22, 23][usize::from(line[1]) - 22];
    }
}

fn cases(count: u64) -> Cases {
    Cases { seed: 20, first: 0, count, enough: None }
}

/// Whether all cases agree. With a planted error nothing need be met, and the first difference is enough.
fn agree(
    plan: Plan,
    name: &str,
    count: u64,
    wanted: &Wanted,
    each: impl Fn(&mut Random, &mut Tally) -> Result<(), Difference> + Sync,
) -> bool {
    let Cases { seed, .. } = cases(count);
    match plan {
        Plan::Right => compare(name, cases(count), wanted, each),
        _ => (0..count).all(|case| each(&mut Random::of_case(seed, case), &mut Tally::default()).is_ok()),
    }
}

fn text_agrees(plan: Plan, count: u64) -> bool {
    let model = Model(plan);
    agree(plan, "text", count, &compare_text::wanted(), |random, tally| compare_text::case(&model, random, tally))
}

fn judge_agrees(plan: Plan, count: u64) -> bool {
    let model = Model(plan);
    agree(plan, "judge", count, &compare_judge::wanted(), |random, tally| compare_judge::case(&model, random, tally))
}

fn decide_agrees(plan: Plan, count: u64) -> bool {
    let model = Model(plan);
    agree(plan, "decide", count, &compare_decide::wanted(), |random, tally| compare_decide::case(&model, random, tally))
}

fn ticks_agree(plan: Plan, count: u64) -> bool {
    let model = Model(plan);
    let machine = Machine::new(&model, Some(&model)).expect("a state has a length");
    compare_ticks::check_paper(&machine).is_ok()
        && agree(plan, "ticks", count, &compare_ticks::wanted(), |random, tally| {
            compare_ticks::case(&machine, random, tally)
        })
}

fn damaged_agree(plan: Plan, count: u64) -> bool {
    let model = Model(plan);
    let machine = Machine::new(&model, None).expect("a state has a length");
    agree(plan, "damaged", count, &compare_damaged::wanted(), |random, tally| {
        compare_damaged::case(&machine, random, tally)
    })
}

#[test]
fn text_comparison() {
    assert!(text_agrees(Plan::Right, 10_000));
    let planted = [Plan::SmallLetter, Plan::OneBeforeTwo, Plan::WrittenBeforeJudged, Plan::LastLineFeedNotAsked];
    let of_widths = [Plan::WidthOfEachLine, Plan::LimitByBytes, Plan::RoomForShortLines, Plan::IssuerNotCleared];
    for plan in planted.into_iter().chain(of_widths).chain([Plan::WrittenShort]) {
        assert!(!text_agrees(plan, 3_000), "{plan:?}");
    }
}

#[test]
fn judge_comparison() {
    assert!(judge_agrees(Plan::Right, 100_000));
    let planted =
        [Plan::NineBeforeFive, Plan::DepthNotJudged, Plan::DepthBeforePlace, Plan::NineBelowLine1, Plan::CountWrong];
    let of_bytes = [Plan::IssuerAnywhere, Plan::LastBytesNotJudged, Plan::MultipleOf16];
    for plan in planted.into_iter().chain(of_bytes).chain([Plan::TypeOfTheSecond, Plan::OperandsByWalking]) {
        assert!(!judge_agrees(plan, 10_000), "{plan:?}");
    }
}

/// The errors that tempt where eight bytes are read as a value.
const VALUES: [Plan; 4] = [Plan::ZerosApart, Plan::NamesAsDoubles, Plan::MinusOneAsZero, Plan::LeastAsLargest];

/// The errors that tempt in sums.
const SUMS: [Plan; 10] = [
    Plan::SubtractExchanged,
    Plan::DivideExchanged,
    Plan::ValuesExchanged,
    Plan::RemainderOfTheDivisor,
    Plan::InfinityKept,
    Plan::FirstHidden,
    Plan::SecondHidden,
    Plan::WrapAround,
    Plan::DivideDown,
    Plan::TieAway,
];

/// The errors that tempt in codes.
const CODES: [Plan; 7] = [
    Plan::LastCode,
    Plan::CodeOfTheOverriding,
    Plan::OnlyOneIsProcessing,
    Plan::SmallerCode,
    Plan::LargerCode,
    Plan::CodeOfTheSecondOperand,
    Plan::FailedSumIsMissing,
];

/// The errors that tempt in issuers.
const ISSUERS: [Plan; 10] = [
    Plan::AnyIssuer,
    Plan::AnyForAMatch,
    Plan::AnyForAComparison,
    Plan::AnyForAnAttribute,
    Plan::NobodysToo,
    Plan::EqualAlone,
    Plan::SomebodysAlone,
    Plan::ByTheFirstByte,
    Plan::ByTheSecondByte,
    Plan::By15Bits,
];

#[test]
fn decide_comparison() {
    assert!(decide_agrees(Plan::Right, 50_000));
    let planted = [Plan::OddByteKept, Plan::OrderOfObligations, Plan::DenyWithCode];
    for plan in planted.into_iter().chain(VALUES).chain(SUMS).chain(CODES).chain(ISSUERS) {
        assert!(!decide_agrees(plan, 10_000), "{plan:?}");
    }
}

#[test]
fn ticks_comparison() {
    assert!(ticks_agree(Plan::Right, 20_000));
    let planted =
        [Plan::OutputTouchedWhileRunning, Plan::ExtraStep, Plan::EndNotKept, Plan::AnswerTooEarly, Plan::BudgetNotUsed];
    let lost = [Plan::OperandLostBetweenTicks];
    for plan in planted.into_iter().chain(lost).chain(VALUES).chain(SUMS).chain(CODES).chain(ISSUERS) {
        assert!(!ticks_agree(plan, 5_000), "{plan:?}");
    }
}

#[test]
fn damaged_comparison() {
    assert!(damaged_agree(Plan::Right, 2_000));
    for plan in [Plan::StateLostOnRefusal, Plan::OutsideNotRefused] {
        assert!(!damaged_agree(plan, 2_000), "{plan:?}");
    }
}
