//! Makes one call on input given in hexadecimal digits, as a difference prints it.

use crate::refusal::Part;
use crate::run::Difference;
use crate::salvaging::Salvaging;
use crate::tally::Tally;
use crate::{compare_decide, compare_judge, compare_salvage, compare_text, linked};

/// What the output holds before the call.
const BEFORE: u8 = 0xEE;

/// Whether both sides agree; nothing when the words are no call.
pub fn once(words: &[String]) -> Option<Result<bool, String>> {
    let (name, inputs) = words.split_first()?;
    let part = if name.ends_with("book") { Part::Book } else { Part::Request };
    let tally = &mut Tally::default();
    let result = match (name.as_str(), inputs) {
        ("read-book" | "read-request" | "write-book" | "write-request", [input, room]) => {
            let writing = name.starts_with("write");
            let call = compare_text::Call { writing, part, input: bytes(input)?, out: output(room)? };
            linked::texts().map(|library| call.check(library, tally))
        }
        ("judge-book", [book]) => {
            let book = bytes(book)?;
            linked::judge().map(|library| compare_judge::check_book(library, &book, tally))
        }
        ("judge-request", [request]) => {
            let request = bytes(request)?;
            linked::judge().map(|library| compare_judge::check_request(library, &request, tally))
        }
        ("decide", [book, request, room]) => {
            let (book, request, out) = (bytes(book)?, bytes(request)?, output(room)?);
            linked::host().map(|host| compare_decide::check(host, &book, &request, &out, tally))
        }
        ("salvage", [book, request, mended, replaced]) => {
            let (book, request, mended, replaced) = (bytes(book)?, bytes(request)?, output(mended)?, output(replaced)?);
            let call = Salvaging { book, mended, replaced, request };
            compare_salvage::linked().map(|calls| call.check(&calls, tally))
        }
        ("salvage-text", [text]) => {
            let text = bytes(text)?;
            compare_salvage::linked().map(|calls| compare_salvage::check_whole(&calls, &text, tally))
        }
        _ => return None,
    };
    Some(result.map(report).ok_or_else(|| format!("{name}: its library was not there when this was built")))
}

fn report(result: Result<(), Difference>) -> bool {
    match &result {
        Ok(()) => println!("same"),
        Err(difference) => println!("{difference}"),
    }
    result.is_ok()
}

fn output(room: &str) -> Option<Vec<u8>> {
    room.parse().ok().map(|length| vec![BEFORE; length])
}

fn bytes(digits: &str) -> Option<Vec<u8>> {
    if digits == "-" {
        return Some(Vec::new());
    }
    let pairs = digits.as_bytes().chunks(2);
    pairs.map(|pair| u8::from_str_radix(std::str::from_utf8(pair).ok()?, 16).ok()).collect()
}
