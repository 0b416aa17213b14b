//! What is compared: the calls of the proved libraries, each as a trait, so that a test can put
//! something else in their place.

use crate::random::Random;
use crate::refusal::{Part, Refusal};

/// Reading and writing: 256 x bytes filled, or the refusal.
pub trait Texts: Sync {
    fn read(&self, part: Part, text: &[u8], out: &mut [u8]) -> u64;
    fn write(&self, part: Part, bytes: &[u8], out: &mut [u8]) -> u64;
}

/// Judging, or the refusal.
pub trait Judge: Sync {
    /// 256 x records + 16,777,216 x obligation records.
    fn judge_book(&self, book: &[u8]) -> u64;
    /// 256 x entries.
    fn judge_request(&self, request: &[u8]) -> u64;
}

/// Salvaging, and what makes a text readable for it.
pub trait Mender: Sync {
    /// Turns every letter but LF of what is no good line into the digit 0.
    fn zero_wrong(&self, text: &mut [u8]);
    /// 256 x records of the mended book + 16,777,216 x replacements, or the refusal.
    fn salvage(&self, book: &[u8], mended: &mut [u8], replaced: &mut [u8]) -> u64;
}

/// The C host's call.
pub trait Host: Sync {
    fn decide(&self, book: &[u8], request: &[u8], out: &mut [u8]) -> u64;
}

#[derive(Clone, Copy, PartialEq, Eq, Debug)]
pub enum TickAnswer {
    Running,
    /// The code is 0 for none.
    Finished {
        decision: u64,
        count: usize,
        code: u64,
    },
    Refused(Refusal),
}

#[derive(Clone, Copy, PartialEq, Eq, Debug)]
pub struct Tick {
    pub answer: TickAnswer,
    pub steps: u64,
}

/// A field of the state: the number it is in, its lowest bit, its width in bits, its largest value.
#[derive(Clone, Copy)]
pub struct Field {
    pub number: usize,
    pub low: u32,
    pub width: u32,
    pub most: u64,
}

/// What a step may carry out of a sum.
pub const PIECES: [&str; 9] = [
    "literal",
    "attribute",
    "add",
    "subtract",
    "multiply",
    "divide",
    "remainder",
    "double add",
    "comparison of values",
];

/// Translating and running over ticks.
pub trait Rig: Sync {
    /// 256 x entries filled, or the refusal.
    fn translate(&self, book: &[u8], programme: &mut [u64]) -> u64;
    /// 0, or the refusal.
    fn fresh(&self, state: &mut [u64]) -> u64;
    fn tick(&self, programme: &[u64], request: &[u8], state: &mut [u64], budget: u64, out: &mut [u16]) -> Tick;
    /// The fields of the published layout.
    fn fields(&self) -> &'static [Field];
    /// The place of the entry at which the next step from this state stands.
    fn place(&self, state: &[u64]) -> usize;
    /// Which of the pieces the entry at a place is; none where it is no piece of a sum.
    fn piece(&self, programme: &[u64], at: usize) -> Option<&'static str>;
    /// Puts an entry that the layout does not allow at a place: of no kind, or a damaged piece of a sum.
    fn outside(&self, random: &mut Random, of_sum: bool, programme: &mut Vec<u64>, at: usize);
    /// Cuts the numbers of a state to the bits that a call can see.
    fn cut(&self, _state: &mut [u64]) {}
}
