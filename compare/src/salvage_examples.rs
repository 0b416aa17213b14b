//! Worked examples of document 02, 6, with answers that were found by hand.

use crate::record::{LENGTH, MOST_RECORDS};
use crate::refusal::{Part, Refusal};
use crate::run::{hex, Difference};
use crate::salvaging::Calls;
use crate::text::line_length;
use crate::widths::WIDTHS;

struct Example {
    name: &'static str,
    /// The lines, but for the zeros at their ends; `~` is an LF inside a line.
    lines: Vec<String>,
    answer: Result<Answer, Refusal>,
}

/// The lines of the mended book, but for the zeros at their ends, and the lines that are printed.
struct Answer {
    lines: Vec<String>,
    printed: Vec<String>,
}

fn words(list: &str) -> Vec<String> {
    list.split_whitespace().map(str::to_string).collect()
}

fn mended(name: &'static str, old: &str, new: &str, printed: &str) -> Example {
    Example { name, lines: words(old), answer: Ok(Answer { lines: words(new), printed: words(printed) }) }
}

fn refused(name: &'static str, old: &str, number: u64, line: usize) -> Example {
    Example { name, lines: words(old), answer: Err(Refusal { number, part: Part::Book, line }) }
}

/// So many sets, one in the other.
fn nested(depth: usize) -> String {
    (1..=depth).rev().map(|span| format!("0101{span:04X} ")).collect()
}

/// A target, a policy, a set and an obligation.
const SOUND: &str = "01030009
    0400000301 05000002 0601000101010007
    02010002 03010001
    01020002 02030001
    0802000100000012";

/// Two spoilt lines, at 3 and at 9.
const TWO: &str = "0101000D
    02020003 0301G001 03020001
    02010002 03010001
    02010004 03010002 070C00010401000700000000000000Z2 03020001
    02030002 03010001
    0801000100000011";
const TWO_MENDED: &str = "0101000A
    02010002 03020001
    02010002 03010001
    02010002 03020001
    02030002 03010001
    0801000100000011";

/// A set over book A, with a wrong digit in A's condition.
const A: &str = "01010007
    02010006 03010001 03020002 07GC0001040100070000000000000032 0801000100000011 0802000100000012";

/// A rule that covers the next child too.
const PAST: &str = "01010007  02010003 03010005 03020001  02020003 03010001 03020001";
const PAST_ALL: &str = "01010007  02010003 0301FFFF 03020001  02020003 03010001 03020001";
const PAST_MENDED: &str = "01010006  02010002 03020001  02020003 03010001 03020001";

/// An integer compared with a name.
const SUM: &str = "01010007
    02010005 03010004 07150003 0A010001000100000000000000000001 0A010001000200000000000000000001
    0801000100000007";

const ONE: &str = "01010003  02010002 03020001";
const SMALL: &str = "01010004  02010003 03010002 070c0001040100070000000000000032";
const CAPITAL: &str = "01010004  02010003 03010002 070C0001040100070000000000000032";

fn examples() -> Vec<Example> {
    let too_many = "0101G3E9 ".to_string() + &"0801000100000001 ".repeat(MOST_RECORDS);
    vec![
        mended("a sound book", SOUND, SOUND, ""),
        mended("a set alone", "01010001", "01010001", ""),
        mended("small letters", SMALL, CAPITAL, ""),
        mended("book A in a set", A, ONE, "00020006"),
        mended("two spoilt lines", TWO, TWO_MENDED, "00020003 00070004"),
        mended(
            "two spoilt children side by side",
            "01010005  02010002 0301000:  02010002 0302000`",
            "01010005  02010002 03020001  02010002 03020001",
            "00020002 00040002",
        ),
        mended("past its child's end", PAST, PAST_MENDED, "00020003"),
        mended("past line 1's end", PAST_ALL, PAST_MENDED, "00020003"),
        mended("a span of 0 inside", "01010003  02010002 03010000", ONE, "00020002"),
        mended("a head inside a set", "01010005  01010004 020Q0002 03010001 02010001", ONE, "00020004"),
        mended("wrong operands", SUM, "01010004  02010002 03020001  0801000100000007", "00020005"),
        mended("16 nested sets", &nested(16), &nested(16), ""),
        mended("17 nested sets", &nested(17), ONE, "00020010"),
        refused("a head line", "01010005  02010002 03010001  0201000x 03010001", 13, 4),
        refused("behind a spoilt child", "01010006  02010002 0301000G  02010002 03010001  08030001", 13, 6),
        refused("the lower of two", "01010005  0400000301 0500000g 0601000101010007  08G10001", 13, 3),
        refused("a head past line 1's end", "01010004  02010002 03010001  02010002", 13, 4),
        refused("a rule below line 1", "01010002  03010001", 13, 2),
        refused("a policy after an obligation", "01010003  0801000100000001  02010001", 13, 3),
        refused("a root policy", "02010002  03010001", 13, 1),
        refused("a span below the count", "01010001  02010001", 13, 1),
        refused("a span above the count", "01010003  02010001", 13, 1),
        refused("a wrong digit in line 1", "0101000: 02010001", 13, 1),
        refused("an LF inside a line", "01010003  02010002 0301~001", 1, 3),
        refused("1 before 13", "G1010003  02010002 0301~001", 1, 3),
        refused("2 before 13", &too_many, 2, 0),
        refused("an empty text", "", 3, 0),
    ]
}

/// A text of these lines, each filled up with zeros to so many bytes.
fn text_of(lines: &[String], width: usize) -> String {
    let digits = 2 * width;
    let text: String = lines.iter().map(|line| format!("{line:0<digits$}\n")).collect();
    text.replace('~', "\n")
}

/// The text of the mended book and the lines that are printed, or the refusal's number, by these calls alone.
fn salvaged(calls: &Calls, text: &str) -> Result<(String, Vec<String>), u64> {
    let mut zeroed = text.as_bytes().to_vec();
    calls.mender.zero_wrong(&mut zeroed);
    let accepted = |answer: u64| if answer % 256 == 255 { Err(answer) } else { Ok(answer >> 8) };
    let mut book = vec![0; LENGTH * MOST_RECORDS];
    let filled = accepted(calls.texts.read(Part::Book, &zeroed, &mut book))?;
    let book = &book[..filled as usize];
    let (mut mended, mut replaced) = (vec![0; book.len()], vec![0; book.len() / LENGTH * 2]);
    let answer = accepted(calls.mender.salvage(book, &mut mended, &mut replaced))?;
    let (records, replacements) = ((answer & 65_535) as usize, (answer >> 16) as usize);
    let mut text = vec![0; records * line_length(LENGTH)];
    accepted(calls.texts.write(Part::Book, &mended[..records * LENGTH], &mut text))?;
    let printed = replaced.chunks(4).take(replacements).map(hex).collect();
    Ok((String::from_utf8_lossy(&text).into_owned(), printed))
}

/// The examples at both widths, against the answers that stand here.
pub fn check(calls: &Calls) -> Result<(), Difference> {
    for example in examples() {
        for width in WIDTHS {
            let got = salvaged(calls, &text_of(&example.lines, width));
            let expected = example.answer.as_ref().map_err(Refusal::packed);
            let expected = expected.map(|answer| (text_of(&answer.lines, LENGTH), answer.printed.clone()));
            if got != expected {
                return Err(format!(" {}: expected {expected:x?}\n got {got:x?}", example.name));
            }
        }
    }
    Ok(())
}
