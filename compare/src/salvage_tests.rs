//! The evaluator on document 02, 6, and the comparison of salvaging against stand-ins.

use crate::books::{record, with};
use crate::compare_salvage;
use crate::copied::deep;
use crate::judge;
use crate::planted_salvage::{Error, Mending, ERRORS};
use crate::random::Random;
use crate::record::*;
use crate::refusal::{Part, Refusal};
use crate::run::{compare, Cases};
use crate::salvage::{self, denying, records_of, survey, zero_wrong, Replaced, SPOILT};
use crate::salvage_examples;
use crate::salvage_texts::spoil_length;
use crate::salvaging::Calls;
use crate::spoilt;
use crate::tally::Tally;
use crate::tests::{Model, Plan};
use crate::text;
use crate::widths::WIDTHS;

// The text

const SHORT_LINE: &str = "00112233445566778899AABBCCDDEEFF\n";
const LONG_LINE: &str = "00112233445566778899aabbccddeeff12345678\n";

fn zeroed(text: &str) -> String {
    let mut text = text.as_bytes().to_vec();
    zero_wrong(&mut text);
    String::from_utf8(text).expect("digits are letters")
}

#[test]
fn what_is_no_good_line_becomes_zeros() {
    for line in [SHORT_LINE, LONG_LINE] {
        let zeros = "0".repeat(line.len() - 1) + "\n";
        let two = line.repeat(2);
        assert_eq!(zeroed(&two), two);
        for place in 0..line.len() - 1 {
            for byte in ["/", ":", "@", "G", "`", "g", " ", "\r", "\0", "\x7F"] {
                let mut spoilt = line.to_string();
                spoilt.replace_range(place..place + 1, byte);
                assert_eq!(zeroed(&(two.clone() + &spoilt + line)), two.clone() + &zeros + line);
            }
        }
        assert_eq!(zeroed(&(line.to_string() + "7A")), line.to_string() + "00");
        assert_eq!(zeroed(&(line.to_string() + "7\nA")), line.to_string() + "0\n0");
        assert_eq!(zeroed(line.trim_end()), zeros.trim_end());
        assert_eq!(zeroed(&line.replace('\n', "\r\n")), zeros.trim_end().to_string() + "0\n");
    }
    assert_eq!(zeroed(""), "");
}

#[test]
fn an_lf_inside_a_line_is_a_wrong_length() {
    for line in [SHORT_LINE, LONG_LINE] {
        for place in 0..line.len() - 1 {
            let mut ended = line.to_string();
            ended.replace_range(place..place + 1, "\n");
            let text = line.repeat(2) + &ended + line;
            assert_eq!(records_of(text.as_bytes()), Err(Refusal { number: 1, part: Part::Book, line: 3 }));
            assert_eq!(zeroed(&text), line.repeat(2) + &ended.replace(|letter| letter != '\n', "0") + line);
        }
    }
}

#[test]
fn a_zeroed_text_is_read_as_it_counts() {
    for case in 0..3_000 {
        let random = &mut Random::of_case(21, case);
        let width = random.pick(&WIDTHS);
        let mut text = spoilt::copied(random, width).text(random, width);
        if random.chance(50) {
            spoil_length(random, &mut text, width);
        }
        let expected = records_of(&text).map(|records| book_bytes(&records));
        zero_wrong(&mut text);
        let mut book = vec![0; LENGTH * MOST_RECORDS];
        let read = text::read(Part::Book, &text, &mut book);
        assert_eq!(read.map(|filled| book[..filled].to_vec()), expected, "case {case}");
    }
}

// The lines

/// Number and line of the refusal, or what is replaced.
fn salvaged(records: &[Record]) -> Result<Vec<(usize, usize)>, (u64, usize)> {
    let mended = survey(records).mended().map_err(|refusal| (refusal.number, refusal.line))?;
    assert_eq!(mended.records[0].span(), mended.records.len());
    Ok(mended.replaced.iter().map(|child| (child.line, child.count)).collect())
}

fn rule(effect: u8) -> Vec<Record> {
    vec![record(RULE, effect)]
}

/// Line 1; at 2 a policy of two rules; at 5 a set over a policy of one; at 8 a policy of one; an obligation.
fn book() -> Vec<Record> {
    let policy = with(POLICY, 3, &[rule(1), rule(2)]);
    let set = with(SET, 2, &[with(POLICY, 1, &[rule(1)])]);
    let last = with(POLICY, 2, &[rule(2)]);
    with(SET, 4, &[policy, set, last, vec![record(OBLIGATION, 1)]])
}

#[test]
fn a_wrong_digit_in_each_line() {
    let whole = survey(&book()).mended().expect("nothing is spoilt");
    assert_eq!((whole.records, whole.replaced), (book(), Vec::new()));
    for at in 0..book().len() {
        let mut spoilt = book();
        spoilt[at] = SPOILT;
        let expected = match at + 1 {
            line @ (1 | 2 | 5 | 8 | 10) => Err((13, line)),
            3 | 4 => Ok(vec![(2, 3)]),
            6 | 7 => Ok(vec![(5, 3)]),
            _ => Ok(vec![(8, 2)]),
        };
        assert_eq!(salvaged(&spoilt), expected, "line {}", at + 1);
    }
}

#[test]
fn all_but_the_spoilt_children_keep_their_bytes() {
    let mut spoilt = book();
    spoilt[2].0[1] = 3;
    spoilt[8].0[19] = 1;
    let mended = survey(&spoilt).mended().expect("two can be replaced");
    assert_eq!(mended.replaced, [Replaced { line: 2, count: 3 }, Replaced { line: 8, count: 2 }]);
    let set = book()[4..7].to_vec();
    let parts = [denying().to_vec(), set, denying().to_vec(), vec![record(OBLIGATION, 1)]];
    assert_eq!(mended.records, with(SET, 4, &parts));
}

#[test]
fn a_span_inside_ends_with_its_child() {
    for (at, end) in [(2, 4), (3, 4), (5, 7), (6, 7), (8, 9)] {
        let child = (1..=at).rev().find(|head| [1, 4, 7].contains(head)).expect("it is inside") + 1;
        for span in end - at + 1..=end - at + 12 {
            let mut spoilt = book();
            spoilt[at].set_span(span);
            assert_eq!(salvaged(&spoilt), Ok(vec![(child, end + 1 - child)]), "line {} span {span}", at + 1);
            spoilt[9] = SPOILT; // which the span would cover
            assert_eq!(salvaged(&spoilt), Err((13, 10)));
        }
    }
}

#[test]
fn a_head_line_covers_what_its_span_says() {
    let with_span = |span| {
        let mut spoilt = book();
        spoilt[1].set_span(span);
        salvaged(&spoilt)
    };
    assert_eq!(with_span(2), Err((13, 4))); // a rule is left below line 1
    assert_eq!(with_span(3), Ok(vec![]));
    assert_eq!(with_span(4), Ok(vec![(2, 4)])); // the set is inside, but its policy is left, which may stand there
    assert_eq!(with_span(5), Err((13, 7)));
    assert_eq!(with_span(6), Ok(vec![(2, 6)]));
}

#[test]
fn depth_counts_from_line_1() {
    for case in 0..200 {
        let random = &mut Random::of_case(22, case);
        for (depth, replaced) in [(15, false), (16, false), (17, true), (18, true)] {
            let child = deep(random, depth);
            let count = child.len();
            let expected = if replaced { vec![(2, count)] } else { Vec::new() };
            assert_eq!(salvaged(&with(SET, 1, &[child])), Ok(expected));
        }
    }
}

#[test]
fn line_1_is_a_sound_set_with_the_count_as_span() {
    let with_byte = |place: usize, byte| {
        let mut spoilt = book();
        spoilt[0].0[place] = byte;
        salvaged(&spoilt)
    };
    for kind in (0..=255).filter(|&kind| kind != SET) {
        assert_eq!(with_byte(0, kind), Err((13, 1)));
    }
    for choice in 0..=255 {
        let expected = if (1..=4).contains(&choice) { Ok(Vec::new()) } else { Err((13, 1)) };
        assert_eq!(with_byte(1, choice), expected);
        assert_eq!(with_byte(3, choice), if choice == 10 { Ok(Vec::new()) } else { Err((13, 1)) });
    }
    for place in (4..LENGTH).chain([2]) {
        assert_eq!(with_byte(place, 1), Err((13, 1)));
    }
}

/// Whether a child of line 1 is sound where it stands alone.
fn is_sound_alone(child: &[Record]) -> bool {
    judge::book(&book_bytes(&with(SET, 1, &[child.to_vec()]))).is_ok()
}

#[test]
fn what_is_mended_is_accepted_and_no_sound_child_is_replaced() {
    let (mut mendings, mut refusals) = (0, 0);
    for case in 0..4_000 {
        let random = &mut Random::of_case(23, case);
        let width = random.pick(&WIDTHS);
        let old = spoilt::copied(random, width).seen();
        let found = survey(&old);
        for head in (1..old.len()).filter(|&at| found.is_replaceable(at)) {
            let is_spoilt = found.bad_inside(head).is_some();
            assert_eq!(is_sound_alone(&old[head..found.ends[head]]), !is_spoilt, "case {case} line {}", head + 1);
        }
        match found.mended() {
            Ok(mended) => {
                mendings += 1;
                assert!(judge::book(&book_bytes(&mended.records)).is_ok() || old.len() > MOST_RECORDS, "case {case}");
                let again = survey(&mended.records).mended().expect("it is sound");
                assert_eq!((again.records, again.replaced), (mended.records, Vec::new()), "case {case}");
            }
            Err(refusal) => {
                refusals += 1;
                // What could be replaced is not why; and mending would give line 1 its span.
                let rest = salvage::mend(&old, found.spoilt()).records;
                assert!(refusal.line == 1 || judge::book(&book_bytes(&rest)).is_err(), "case {case}");
            }
        }
    }
    assert!(mendings > 1_000 && refusals > 1_000);
}

// The call

#[test]
fn refusals_of_the_call_come_in_order() {
    let number = |book: &[u8], mended: usize, replaced: usize| {
        let (mut mended, mut replaced) = (vec![0xA5; mended], vec![0x5A; replaced]);
        let refusal = salvage::call(book, &mut mended, &mut replaced).expect_err("it is refused");
        assert!(mended.iter().all(|&byte| byte == 0xA5) && replaced.iter().all(|&byte| byte == 0x5A));
        refusal.packed()
    };
    let mut sound = book_bytes(&book());
    assert_eq!(number(&[], 0, 0), 255 + 256 * 3 + (1 << 32));
    assert_eq!(number(&vec![0; 20_021], 0, 0), 255 + 256 * 4 + (1 << 32));
    assert_eq!(number(&vec![0; 20_020], 0, 0), 255 + 256 * 2 + (1 << 32));
    assert_eq!(number(&vec![0; 20_000], 0, 0), 255 + 256 * 13 + 65_536 + (1 << 32));
    assert_eq!(number(&sound, 199, 20), 255 + 256 * 7 + (3 << 32));
    assert_eq!(number(&sound, 200, 19), 255 + 256 * 7 + (3 << 32));
    sound[9 * LENGTH + 1] = 0;
    assert_eq!(number(&sound, 0, 0), 255 + 256 * 13 + 65_536 * 10 + (1 << 32));
}

#[test]
fn outputs_are_filled_first_and_keep_the_rest() {
    let mut spoilt = book();
    (spoilt[3], spoilt[8]) = (SPOILT, SPOILT);
    let (mut mended, mut replaced) = ([0xA5; 210], [0x5A; 25]);
    let result = salvage::call(&book_bytes(&spoilt), &mut mended, &mut replaced).expect("two can be replaced");
    assert_eq!(result.packed(), 0x200_0900);
    assert_eq!(mended[..180], book_bytes(&result.records)[..]);
    assert_eq!(mended[180..], [0xA5; 30]);
    assert_eq!(replaced[..8], [0, 2, 0, 3, 0, 8, 0, 2]);
    assert_eq!(replaced[8..], [0x5A; 17]);
}

// The comparison

/// Lends calls that are right but for this error in salvaging.
fn with_calls<T>(error: Error, then: impl FnOnce(&Calls) -> T) -> T {
    let (mender, others) = (Mending(error), Model(Plan::Right));
    then(&Calls { mender: &mender, texts: &others, judge: &others, host: &others })
}

#[test]
fn worked_examples_of_salvaging() {
    assert_eq!(with_calls(Error::None, salvage_examples::check), Ok(()));
}

#[test]
fn salvage_comparison() {
    let cases = Cases { seed: 20, first: 0, count: 60_000, enough: Some(20) };
    let wanted = compare_salvage::wanted();
    let good =
        |calls: &Calls| compare("salvage", cases, &wanted, |random, tally| compare_salvage::case(calls, random, tally));
    assert!(with_calls(Error::None, good));
}

/// Whether one of so many cases differs.
fn is_found(error: Error, count: u64) -> bool {
    let differs = |calls: &Calls, case| {
        compare_salvage::case(calls, &mut Random::of_case(20, case), &mut Tally::default()).is_err()
    };
    with_calls(error, |calls| (0..count).any(|case| differs(calls, case)))
}

#[test]
fn errors_in_salvaging_are_found() {
    for error in ERRORS {
        assert!(is_found(error, 2_000), "{error:?}");
    }
}

#[test]
fn a_copy_counts_as_its_text_does() {
    for case in 0..500 {
        let random = &mut Random::of_case(24, case);
        let width = random.pick(&WIDTHS);
        let copied = spoilt::copied(random, width);
        if copied.records.len() <= MOST_RECORDS {
            assert_eq!(records_of(&copied.text(random, width)), Ok(copied.seen()), "case {case}");
        }
    }
}
