//! The evaluator on document 02, 5: texts of 32 and of 40 digits a line.

use crate::record::{LENGTH, SHORT};
use crate::refusal::Part;
use crate::tally::Tally;
use crate::text;
use crate::widths;

const SHORT_LINE: &str = "00112233445566778899AABBCCDDEEFF\n";
const LONG_LINE: &str = "00112233445566778899AABBCCDDEEFF12345678\n";
const LINES: [&str; 2] = [SHORT_LINE, LONG_LINE];

/// The bytes, or number and line of the refusal.
fn read(part: Part, text: &str) -> Result<Vec<u8>, (u64, usize)> {
    let mut bytes = vec![0xA5; 20_000];
    let filled = text::read(part, text.as_bytes(), &mut bytes).map_err(|refusal| (refusal.number, refusal.line))?;
    bytes.truncate(filled);
    Ok(bytes)
}

fn refused(text: &str) -> (u64, usize) {
    assert_eq!(read(Part::Book, text), read(Part::Request, text));
    read(Part::Book, text).unwrap_err()
}

fn written(bytes: &[u8]) -> String {
    let mut letters = vec![0; 41_000];
    let filled = text::write(Part::Book, bytes, &mut letters).expect("there is room");
    String::from_utf8(letters[..filled].to_vec()).expect("digits are letters")
}

#[test]
fn a_short_line_reads_as_issuer_0() {
    let long = read(Part::Book, LONG_LINE).unwrap();
    assert_eq!(long[SHORT..], [0x12, 0x34, 0x56, 0x78]);
    let short = read(Part::Book, &SHORT_LINE.repeat(3)).unwrap();
    assert_eq!(short.len(), 3 * LENGTH);
    for record in short.chunks(LENGTH) {
        assert_eq!((&record[..SHORT], &record[SHORT..]), (&long[..SHORT], &[0; 4][..]));
    }
}

#[test]
fn writing_gives_40_digits() {
    let long = LONG_LINE.repeat(2);
    assert_eq!(written(&read(Part::Book, &long.to_lowercase()).unwrap()), long);
    let lengthened = SHORT_LINE.replace('\n', "00000000\n").repeat(2);
    assert_eq!(written(&read(Part::Book, &SHORT_LINE.repeat(2)).unwrap()), lengthened);
}

#[test]
fn every_line_is_like_line_1() {
    for (usual, other) in [(SHORT_LINE, LONG_LINE), (LONG_LINE, SHORT_LINE)] {
        for count in 2..=5 {
            for unlike in 2..=count {
                let before = usual.repeat(unlike - 1);
                assert_eq!(refused(&(before.clone() + other + &usual.repeat(count - unlike))), (1, unlike));
                assert_eq!(refused(&(before + &other.repeat(count - unlike + 1))), (1, unlike));
            }
        }
    }
}

#[test]
fn line_1_fixes_the_width() {
    for digits in (0..60).filter(|digits| ![32, 40].contains(digits)) {
        let line_1 = "0".repeat(digits) + "\n";
        for rest in ["", SHORT_LINE, LONG_LINE] {
            assert_eq!(refused(&(line_1.clone() + rest)), (1, 1));
        }
    }
    for line in LINES {
        assert!(read(Part::Request, line).is_ok());
        assert_eq!(refused(&line.replace('A', "G")), (1, 1));
        assert_eq!(refused(line.trim_end()), (1, 1));
        assert_eq!(refused(&(line.to_string() + "\n")), (1, 2));
    }
    // An LF in place of the digit after 32 makes line 1 short, and what is left of it another line.
    let mut ended = LONG_LINE.to_string();
    ended.replace_range(32..33, "\n");
    assert_eq!(refused(&ended), (1, 2));
}

#[test]
fn the_limits_count_lines_of_either_width() {
    for line in LINES {
        for (part, most) in [(Part::Book, 1000), (Part::Request, 64)] {
            let full = line.repeat(most);
            assert_eq!(read(part, &full).unwrap().len(), most * LENGTH);
            for past in ["\n", "0", "x", SHORT_LINE, LONG_LINE] {
                assert_eq!(read(part, &(full.clone() + past)), Err((2, 0)));
            }
            let unlike = LINES[usize::from(line == SHORT_LINE)];
            assert_eq!(read(part, &(line.repeat(most - 1) + unlike + "x")), Err((1, most)));
        }
    }
}

#[test]
fn reading_needs_20_bytes_a_line_and_writing_41_a_record() {
    for line in LINES {
        let number =
            |room| text::read(Part::Book, line.repeat(3).as_bytes(), &mut vec![0; room]).map_err(|no| no.number);
        assert_eq!((number(59), number(60)), (Err(7), Ok(60)));
    }
    let number = |room| text::write(Part::Request, &[0; 40], &mut vec![0; room]).map_err(|no| no.number);
    assert_eq!((number(81), number(82)), (Err(7), Ok(82)));
    for length in [16, 32, 19, 21, 20_016, 20_024] {
        let refusal = text::write(Part::Book, &vec![0; length], &mut []).unwrap_err();
        assert_eq!(refusal.number, 4);
    }
}

#[test]
fn lines_unlike_line_1_are_counted() {
    let counts = |text: &str| {
        let mut tally = Tally::default();
        widths::count(Part::Book, text.as_bytes(), text::read(Part::Book, text.as_bytes(), &mut [0; 200]), &mut tally);
        let count = |place| tally.count("line unlike line 1", ("book", "short after long", place));
        [count("at line 2"), count("in the middle"), count("at the last line")]
    };
    let text = |lines: &str| -> String { lines.bytes().map(|line| LINES[usize::from(line == b'l')]).collect() };
    assert_eq!(counts(&text("lsl")), [1, 0, 0]);
    assert_eq!(counts(&text("llsl")), [0, 1, 0]);
    assert_eq!(counts(&text("lls")), [0, 0, 1]);
    assert_eq!(counts(&text("ls")), [0, 0, 1]);
    assert_eq!(counts(&text("lll")), [0; 3]);
    assert_eq!(counts(&(text("ll") + &SHORT_LINE.replace('A', "x"))), [0; 3]);
}
