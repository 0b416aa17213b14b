//! Salvaging with the errors that tempt, for the stand-ins of the tests.

use crate::judge::Fault;
use crate::operands::WRONG_OPERANDS;
use crate::record::*;
use crate::refusal::{too_short, Part, Refusal};
use crate::salvage::{self, mend, survey, survey_by, Mended, Replaced, Survey, SPOILT};
use crate::subject::Mender;
use crate::text::{line_length, read_line, width};

/// What a stand-in does in another way.
#[derive(Clone, Copy, PartialEq, Eq, Debug)]
pub enum Error {
    None,
    // In making a text readable
    LineFeedInsideZeroed,
    LastPieceKept,
    WrongDigitsAloneZeroed,
    SmallLettersZeroed,
    AlwaysOfWidth40,
    // In what is bad
    HeadWithWrongDigitReplaced,
    HeadByFieldReplaced,
    CoversPastItsChild,
    DepthFromTheChild,
    FieldsNotJudged,
    PlacesNotJudged,
    OperandsNotJudged,
    RootPolicyMended,
    // In what is refused
    ThirteenBeforeTwo,
    SevenBeforeThirteen,
    RoomForTheMended,
    LineOfTheChild,
    LastLine,
    LineInsideToo,
    FieldsFirst,
    // In what is mended
    SpanNotCorrected,
    SoundChildToo,
    HeadKept,
    PermitRule,
    IssuersCleared,
    LastReplacementFirst,
    NewLines,
    NewCounts,
    // In what is written
    RefusalWritesBook,
    RefusalWritesList,
    RestOfBookCleared,
    RestOfListCleared,
}

pub const ERRORS: [Error; 32] = [
    Error::LineFeedInsideZeroed,
    Error::LastPieceKept,
    Error::WrongDigitsAloneZeroed,
    Error::SmallLettersZeroed,
    Error::AlwaysOfWidth40,
    Error::HeadWithWrongDigitReplaced,
    Error::HeadByFieldReplaced,
    Error::CoversPastItsChild,
    Error::DepthFromTheChild,
    Error::FieldsNotJudged,
    Error::PlacesNotJudged,
    Error::OperandsNotJudged,
    Error::RootPolicyMended,
    Error::ThirteenBeforeTwo,
    Error::SevenBeforeThirteen,
    Error::RoomForTheMended,
    Error::LineOfTheChild,
    Error::LastLine,
    Error::LineInsideToo,
    Error::FieldsFirst,
    Error::SpanNotCorrected,
    Error::SoundChildToo,
    Error::HeadKept,
    Error::PermitRule,
    Error::IssuersCleared,
    Error::LastReplacementFirst,
    Error::NewLines,
    Error::NewCounts,
    Error::RefusalWritesBook,
    Error::RefusalWritesList,
    Error::RestOfBookCleared,
    Error::RestOfListCleared,
];

/// The evaluator with one error.
pub struct Mending(pub Error);

impl Mender for Mending {
    fn zero_wrong(&self, text: &mut [u8]) {
        let width = if self.0 == Error::AlwaysOfWidth40 { LENGTH } else { width(text) };
        for piece in text.chunks_mut(line_length(width)) {
            let good = read_line(piece, width).is_some();
            let is_whole = piece.len() == line_length(width);
            match self.0 {
                Error::LineFeedInsideZeroed if !good => {
                    let digits = piece.len().min(2 * width);
                    piece[..digits].fill(b'0');
                }
                Error::LastPieceKept if !is_whole => {}
                Error::WrongDigitsAloneZeroed => zero(piece, |byte| !byte.is_ascii_hexdigit()),
                Error::SmallLettersZeroed if piece.iter().any(u8::is_ascii_lowercase) => zero(piece, |_| true),
                _ if !good => zero(piece, |_| true),
                _ => {}
            }
        }
    }

    fn salvage(&self, book: &[u8], mended: &mut [u8], replaced: &mut [u8]) -> u64 {
        match self.answer(book, [mended.len(), replaced.len()]) {
            Ok(result) => {
                result.fill(mended, replaced);
                match self.0 {
                    Error::RestOfBookCleared => mended[LENGTH * result.records.len()..].fill(0),
                    Error::RestOfListCleared => replaced[4 * result.replaced.len()..].fill(0),
                    _ => {}
                }
                result.packed()
            }
            Err(refusal) => {
                match self.0 {
                    Error::RefusalWritesBook => flip_first(mended),
                    Error::RefusalWritesList => flip_first(replaced),
                    _ => {}
                }
                refusal.packed()
            }
        }
    }
}

fn zero(piece: &mut [u8], which: impl Fn(&u8) -> bool) {
    piece.iter_mut().filter(|byte| **byte != b'\n' && which(byte)).for_each(|byte| *byte = b'0');
}

fn flip_first(output: &mut [u8]) {
    output.iter_mut().take(1).for_each(|byte| *byte ^= 1);
}

fn thirteen(at: usize) -> Refusal {
    Refusal { number: 13, part: Part::Book, line: at + 1 }
}

impl Mending {
    fn answer(&self, book: &[u8], rooms: [usize; 2]) -> Result<Mended, Refusal> {
        let too_many = book.len() > LENGTH * MOST_RECORDS && book.len() % LENGTH == 0;
        if let (Error::ThirteenBeforeTwo, true) = (self.0, too_many) {
            survey(&records(book)).mended()?;
        }
        let records = salvage::whole_records(book)?;
        let short = |needed: [usize; 2]| rooms[0] < needed[0] || rooms[1] < needed[1];
        if self.0 == Error::SevenBeforeThirteen && short(salvage::needed(book)) {
            return Err(too_short());
        }
        let mut result = self.mended(&records)?;
        let needed = match self.0 {
            Error::RoomForTheMended => [LENGTH * result.records.len(), 4 * result.replaced.len()],
            _ => salvage::needed(book),
        };
        if short(needed) {
            return Err(too_short());
        }
        self.change(&records, &mut result);
        Ok(result)
    }

    fn mended(&self, records: &[Record]) -> Result<Mended, Refusal> {
        let mut survey = match self.0 {
            Error::CoversPastItsChild => survey_by(|own_end, _| own_end, records),
            _ => survey(records),
        };
        for (at, faults) in survey.faults.iter_mut().enumerate() {
            let (is_spoilt, depth) = (records[at] == SPOILT, survey.depths[at]);
            faults.retain(|fault| is_spoilt || !self.passes_over(fault, depth));
        }
        let first_bad = (0..records.len()).find(|&at| survey.is_bad(at));
        match (self.0, &survey.refused()[..]) {
            (Error::HeadWithWrongDigitReplaced | Error::HeadByFieldReplaced, _) => self.with_heads(&survey),
            (Error::LineOfTheChild, [at, ..]) => Err(thirteen(survey.children[*at])),
            (Error::LastLine, [.., at]) => Err(thirteen(*at)),
            (Error::LineInsideToo, [_, ..]) => Err(thirteen(first_bad.unwrap_or(0))),
            (Error::FieldsFirst, [first, ..]) => {
                let by_field = survey.refused().into_iter().find(|&at| survey.faults[at][0].0 == 5);
                Err(thirteen(by_field.unwrap_or(*first)))
            }
            _ => survey.mended(),
        }
    }

    /// Whether a stand-in does not judge this.
    fn passes_over(&self, (number, (group, _)): &Fault, depth: usize) -> bool {
        match self.0 {
            Error::DepthFromTheChild => *number == 12 && depth == MOST_DEPTH + 1,
            Error::FieldsNotJudged => *number == 5 && depth > 2,
            Error::PlacesNotJudged => *number == 11 && depth > 2 && !WRONG_OPERANDS.contains(group),
            Error::OperandsNotJudged => WRONG_OPERANDS.contains(group),
            Error::RootPolicyMended => *number == 13,
            _ => false,
        }
    }

    /// With bad heads replaced as well.
    fn with_heads(&self, survey: &Survey) -> Result<Mended, Refusal> {
        let of_digits = self.0 == Error::HeadWithWrongDigitReplaced;
        let is_head = |&at: &usize| {
            let of_kind = [SET, POLICY].contains(&survey.records[at].kind()) && survey.ends[at] <= survey.records.len();
            let of_kind = of_kind && survey.ends[at] > at;
            survey.is_child(at) && (if of_digits { survey.records[at] == SPOILT } else { of_kind })
        };
        if let Some(&at) = survey.refused().iter().find(|at| !is_head(at)) {
            return Err(thirteen(at));
        }
        let heads =
            survey.refused().into_iter().map(|at| Replaced { line: at + 1, count: survey.ends[at].max(at + 1) - at });
        let mut list: Vec<Replaced> = heads.chain(survey.spoilt()).collect();
        list.sort_by_key(|child| child.line);
        Ok(mend(survey.records, list))
    }

    /// Puts an error into what is mended.
    fn change(&self, old: &[Record], result: &mut Mended) {
        match self.0 {
            Error::SpanNotCorrected => result.records[0].set_span(old.len()),
            Error::SoundChildToo => *result = sound_child_too(old, &result.replaced),
            Error::HeadKept => result.replaced.iter().take(1).for_each(|child| {
                let head = child.line - 1;
                result.records[head].0[..2].copy_from_slice(&old[head].0[..2]);
            }),
            Error::PermitRule => result.replaced.iter().take(1).for_each(|child| result.records[child.line].0[1] = 1),
            Error::IssuersCleared => result.records.iter_mut().for_each(|record| record.set_issuer(0)),
            Error::LastReplacementFirst => result.replaced.reverse(),
            Error::NewLines => {
                let mut gone = 0;
                for child in &mut result.replaced {
                    child.line -= gone;
                    gone += child.count - 2;
                }
            }
            Error::NewCounts => result.replaced.iter_mut().for_each(|child| child.count = 2),
            _ => {}
        }
    }
}

/// With a sound child after a replaced one replaced as well.
fn sound_child_too(records: &[Record], replaced: &[Replaced]) -> Mended {
    let survey = survey(records);
    let mut list = replaced.to_vec();
    let after = |child: &Replaced| child.lines().end;
    let next = replaced.iter().map(after).find(|&at| at < records.len() && survey.is_replaceable(at));
    if let Some(head) = next.filter(|&head| survey.bad_inside(head).is_none()) {
        list.push(Replaced { line: head + 1, count: survey.ends[head] - head });
        list.sort_by_key(|child| child.line);
    }
    mend(records, list)
}
