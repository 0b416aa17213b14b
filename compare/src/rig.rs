//! The library `rig`. How the answer of a tick is packed, and which fields the state has, is said here
//! and nowhere else.

use crate::random::Random;
use crate::refusal::{Part, Refusal};
use crate::subject::{Field, Rig, Tick, TickAnswer, PIECES};

/// The fields of the first number, with the largest value that the published layout allows each by itself.
#[cfg_attr(not(has_rig), allow(dead_code))]
pub const FIELDS: [Field; 12] = [
    Field { number: 0, low: 0, width: 13, most: 8191 },  // at
    Field { number: 0, low: 13, width: 5, most: 16 },    // depth
    Field { number: 0, low: 18, width: 4, most: 14 },    // nest
    Field { number: 0, low: 22, width: 10, most: 1000 }, // permits
    Field { number: 0, low: 32, width: 10, most: 1000 }, // denies
    Field { number: 0, low: 42, width: 10, most: 1000 }, // cut
    Field { number: 0, low: 52, width: 3, most: 7 },     // register
    Field { number: 0, low: 55, width: 2, most: 3 },     // conjunction
    Field { number: 0, low: 57, width: 2, most: 3 },     // section
    Field { number: 0, low: 59, width: 2, most: 3 },     // target
    Field { number: 0, low: 61, width: 1, most: 1 },     // over
    Field { number: 0, low: 62, width: 2, most: 0 },     // unused
];

/// A state is 33 numbers; behind them, one number each, stand the obligation places.
#[cfg_attr(not(has_rig), allow(dead_code))]
const NUMBERS: usize = 33;

/// Bits 0-3 of an entry that is a piece of a sum.
#[cfg_attr(not(has_rig), allow(dead_code))]
const SUM: u64 = 12;

/// Bits 0-3 of no entry; 2 was a comparison's before there were issuers.
#[cfg_attr(not(has_rig), allow(dead_code))]
const OF_NONE: [u64; 3] = [2, 14, 15];

/// Which piece an entry is, as `PIECES` has them: bits 4-5 say literal, attribute, operator or comparison, and of an
/// operator the bits from 6 on say which.
#[cfg_attr(not(has_rig), allow(dead_code))]
fn piece(programme: &[u64], at: usize) -> Option<&'static str> {
    let entry = programme.get(at).filter(|entry| *entry % 16 == SUM)?;
    let operator = (entry >> 6).min(5) as usize;
    Some(match entry >> 4 & 3 {
        0 => PIECES[0],
        1 => PIECES[1],
        2 => PIECES[2 + operator],
        _ => PIECES[8],
    })
}

/// Puts an entry of a number that none has at a place, or ends the programme with a literal whose eight bytes are missing.
#[cfg_attr(not(has_rig), allow(dead_code))]
fn outside(random: &mut Random, of_sum: bool, programme: &mut Vec<u64>, at: usize) {
    let rest = if random.chance(50) { random.next() } else { random.below(4) as u64 };
    if of_sum {
        programme[at] = rest << 6 | SUM;
        programme.truncate(at + 1);
    } else {
        programme[at] = rest << 4 | random.pick(&OF_NONE);
    }
}

/// Unpacks the answer of a tick: a refusal as the C host packs it; else the steps in the high 32 bits
/// and below them 0 while running, or decision + 256 x count + 16,777,216 x status code.
#[cfg_attr(not(has_rig), allow(dead_code))]
pub fn unpack(packed: u64) -> Tick {
    if packed % 256 == 255 {
        let part = match packed >> 32 {
            1 => Part::Book,
            2 => Part::Request,
            3 => Part::Output,
            _ => Part::Programme,
        };
        let refusal = Refusal { number: packed >> 8 & 255, part, line: (packed >> 16 & 65_535) as usize };
        return Tick { answer: TickAnswer::Refused(refusal), steps: 0 };
    }
    let low = packed & 0xFFFF_FFFF;
    let answer = match low {
        0 => TickAnswer::Running,
        _ => TickAnswer::Finished { decision: low % 256, count: (low >> 8 & 65_535) as usize, code: low >> 24 },
    };
    Tick { answer, steps: packed >> 32 }
}

#[cfg(has_rig)]
mod calls {
    use super::{outside, piece, unpack, FIELDS, NUMBERS};
    use crate::random::Random;
    use crate::subject::{Field, Rig, Tick};

    extern "C" {
        fn bachumoi_translate(book: *const u8, book_len: usize, programme: *mut u64, programme_len: usize) -> u64;
        fn bachumoi_fresh(numbers: *mut u64, numbers_len: usize, places: *mut u16, places_len: usize) -> u64;
        fn bachumoi_tick(
            programme: *const u64,
            programme_len: usize,
            request: *const u8,
            request_len: usize,
            numbers: *mut u64,
            numbers_len: usize,
            places: *mut u16,
            places_len: usize,
            budget: u64,
            out: *mut u16,
            out_len: usize,
        ) -> u64;
    }

    pub struct Linked;

    /// Calls with the numbers and the places of a state apart; a place that the call leaves keeps all its bits.
    fn apart<T>(state: &mut [u64], call: impl FnOnce(&mut [u64], &mut [u16]) -> T) -> T {
        let (numbers, rest) = state.split_at_mut(state.len().min(NUMBERS));
        let before: Vec<u16> = rest.iter().map(|&place| place as u16).collect();
        let mut places = before.clone();
        let result = call(numbers, &mut places);
        for (i, place) in rest.iter_mut().enumerate() {
            if places[i] != before[i] {
                *place = places[i].into();
            }
        }
        result
    }

    impl Rig for Linked {
        fn translate(&self, book: &[u8], programme: &mut [u64]) -> u64 {
            unsafe { bachumoi_translate(book.as_ptr(), book.len(), programme.as_mut_ptr(), programme.len()) }
        }

        fn fresh(&self, state: &mut [u64]) -> u64 {
            apart(state, |numbers, places| unsafe {
                bachumoi_fresh(numbers.as_mut_ptr(), numbers.len(), places.as_mut_ptr(), places.len())
            })
        }

        fn tick(&self, programme: &[u64], request: &[u8], state: &mut [u64], budget: u64, out: &mut [u16]) -> Tick {
            unpack(apart(state, |numbers, places| unsafe {
                bachumoi_tick(
                    programme.as_ptr(),
                    programme.len(),
                    request.as_ptr(),
                    request.len(),
                    numbers.as_mut_ptr(),
                    numbers.len(),
                    places.as_mut_ptr(),
                    places.len(),
                    budget,
                    out.as_mut_ptr(),
                    out.len(),
                )
            }))
        }

        fn fields(&self) -> &'static [Field] {
            &FIELDS
        }

        fn place(&self, state: &[u64]) -> usize {
            let field = FIELDS[0]; // at
            (state[field.number] >> field.low) as usize & ((1 << field.width) - 1)
        }

        fn piece(&self, programme: &[u64], at: usize) -> Option<&'static str> {
            piece(programme, at)
        }

        fn outside(&self, random: &mut Random, of_sum: bool, programme: &mut Vec<u64>, at: usize) {
            outside(random, of_sum, programme, at);
        }

        fn cut(&self, state: &mut [u64]) {
            state.iter_mut().skip(NUMBERS).for_each(|place| *place &= 0xFFFF);
        }
    }
}

/// The library `rig`, if it was there when this was built.
pub fn rig() -> Option<&'static dyn Rig> {
    #[cfg(has_rig)]
    return Some(&calls::Linked);
    #[cfg(not(has_rig))]
    None
}
