//! The comparison of salvaging: texts made readable and read, and their records salvaged.

use crate::copied::Copied;
use crate::damage;
use crate::lent::Lent;
use crate::linked;
use crate::random::Random;
use crate::record::{book_bytes, LENGTH, MOST_RECORDS};
use crate::refusal::{Part, Refusal};
use crate::run::{hex, Difference};
use crate::salvage;
use crate::salvage_counts::{count_lines, wanted_mended};
use crate::salvage_refused::wanted_refused;
use crate::salvage_texts::{spoil_length, wanted_texts, Stick};
use crate::salvaging::{wanted_calls, Calls, Salvaging};
use crate::spoilt;
use crate::tally::{Tally, Wanted};
use crate::text;
use crate::widths::WIDTHS;

pub fn wanted() -> Wanted {
    [wanted_mended(), wanted_refused(), wanted_texts(), wanted_calls()].concat()
}

/// The libraries' calls, where all were there when this was built.
pub fn linked() -> Option<Calls<'static>> {
    let (mender, texts, judge, host) = (linked::mender()?, linked::texts()?, linked::judge()?, linked::host()?);
    Some(Calls { mender, texts, judge, host })
}

/// Salvages one half-copied book, from its text or from record bytes alone.
pub fn case(calls: &Calls, random: &mut Random, tally: &mut Tally) -> Result<(), Difference> {
    let width = random.pick(&WIDTHS);
    let copied = if random.chance(2) { Copied::of(Vec::new()) } else { spoilt::copied(random, width) };
    if random.chance(10) {
        return some_bytes(random, &copied, tally).check(calls, tally);
    }
    let mut text = copied.text(random, width);
    let often = if copied.records.len() < MOST_RECORDS { 20 } else { 40 };
    let spoilt = if random.chance(often) { spoil_length(random, &mut text, width) } else { None };
    let records = salvage::records_of(&text);
    let salvaged = records.clone().and_then(|records| salvage::survey(&records).mended());
    check_text(calls, &text)?;
    let book = match &records {
        Err(Refusal { number: 2, .. }) => book_bytes(&copied.seen()), // nearly always too long as records too
        records => records.as_ref().map_or(Vec::new(), |records| book_bytes(records)),
    };
    let call = Salvaging::of(random, book, &salvaged, tally);
    if salvaged.is_err() || !call.is_short() {
        Stick { copied: &copied, text: &text, width, spoilt }.count(&salvaged, tally);
        if let (Ok(records), None) = (&records, spoilt) {
            count_lines(&copied, records, width, tally);
        }
    }
    if call.book.is_empty() {
        return Ok(());
    }
    call.check(calls, tally)
}

/// A call on the record bytes of a half-copied book, often of a length that does not fit.
fn some_bytes(random: &mut Random, copied: &Copied, tally: &mut Tally) -> Salvaging {
    let mut book = book_bytes(&copied.seen());
    if random.chance(30) {
        damage::misfit(random, &mut book);
    }
    let salvaged = salvage::whole_records(&book).and_then(|records| salvage::survey(&records).mended());
    Salvaging::of(random, book, &salvaged, tally)
}

/// Makes a text readable and reads it, on both sides.
pub fn check_text(calls: &Calls, text: &[u8]) -> Result<(), Difference> {
    let differs = |what: &str, expected: &str, got: &str| {
        Err(format!("compare once salvage-text {}\n {what}: expected {expected}\n got {got}", hex(text)))
    };
    let mut zeroed = text.to_vec();
    salvage::zero_wrong(&mut zeroed);
    let mut lent = Lent::new(text);
    calls.mender.zero_wrong(lent.part_mut());
    if !lent.holds(&zeroed) {
        return differs("made readable", &hex(&zeroed), &hex(lent.part()));
    }
    let mut expected_out = vec![0xEE; LENGTH * text.len() / text::line_length(text::width(text))];
    let (lent, mut out) = (Lent::new(&zeroed), Lent::new(&expected_out));
    let expected = match salvage::records_of(text) {
        Ok(records) => {
            expected_out[..LENGTH * records.len()].copy_from_slice(&book_bytes(&records));
            256 * LENGTH as u64 * records.len() as u64
        }
        Err(refusal) => refusal.packed(),
    };
    let got = calls.texts.read(Part::Book, lent.part(), out.part_mut());
    if got == expected && out.holds(&expected_out) && lent.holds(&zeroed) {
        return Ok(());
    }
    differs("read", &format!("{expected:#x} {}", hex(&expected_out)), &format!("{got:#x} {}", hex(out.part())))
}

/// Makes a text readable, reads it and salvages its records.
pub fn check_whole(calls: &Calls, text: &[u8], tally: &mut Tally) -> Result<(), Difference> {
    check_text(calls, text)?;
    match salvage::records_of(text) {
        Ok(records) => Salvaging::plain(book_bytes(&records)).check(calls, tally),
        Err(_) => Ok(()),
    }
}
