//! A refusal: its number, the part that is at fault, and the line.

/// Which lent part a refusal is about.
#[derive(Clone, Copy, PartialEq, Eq, Debug)]
pub enum Part {
    Book = 1,
    Request = 2,
    Output = 3,
    Programme = 4,
}

#[derive(Clone, Copy, PartialEq, Eq, Debug)]
pub struct Refusal {
    pub number: u64,
    pub part: Part,
    pub line: usize,
}

/// A refusal whose line is 0.
pub fn refuse(number: u64, part: Part) -> Refusal {
    Refusal { number, part, line: 0 }
}

pub fn too_short() -> Refusal {
    refuse(7, Part::Output)
}

impl Refusal {
    /// The C host's number.
    pub fn packed(&self) -> u64 {
        255 + 256 * self.number + 65_536 * self.line as u64 + 4_294_967_296 * self.part as u64
    }
}
