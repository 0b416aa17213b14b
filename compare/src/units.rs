//! Finite doubles as whole numbers of units of 2^-1074: their exact sum, and the double nearest to it.
//! Nothing here adds or compares doubles as the machine does.

use std::cmp::Ordering;

/// Enough for the sum of the two largest doubles, which is below 2^2099 units.
const WORDS: usize = 33;

/// How many units. Its words have 64 bits, the highest first, so that sizes are ordered as rows of words are.
#[derive(Clone, Copy, PartialEq, Eq, PartialOrd, Ord, Debug)]
pub struct Size([u64; WORDS]);

#[derive(Clone, Copy, PartialEq, Eq, Debug)]
pub struct Units {
    pub minus: bool,
    pub size: Size,
}

const SIGN: u64 = 1 << 63;

impl Size {
    /// A number of at most 53 bits times two to the power `by`.
    pub fn shifted(number: u64, by: usize) -> Size {
        let wide = u128::from(number) << (by % 64);
        let mut words = [0; WORDS];
        let lowest = WORDS - 1 - by / 64;
        words[lowest] = wide as u64;
        if lowest > 0 {
            words[lowest - 1] = (wide >> 64) as u64;
        }
        Size(words)
    }

    /// The units of the double that has these bits, the sign left out. For those of infinity it is what would come
    /// after the largest double if there were one more.
    pub fn of_bits(bits: u64) -> Size {
        let (exponent, fraction) = ((bits >> 52) as usize, bits & ((1 << 52) - 1));
        match exponent {
            0 => Size::shifted(fraction, 0),
            _ => Size::shifted(1 << 52 | fraction, exponent - 1),
        }
    }

    fn plus(self, other: Size) -> Size {
        let mut words = [0; WORDS];
        let mut carry = 0;
        for at in (0..WORDS).rev() {
            let sum = u128::from(self.0[at]) + u128::from(other.0[at]) + carry;
            words[at] = sum as u64;
            carry = sum >> 64;
        }
        Size(words)
    }

    /// Less a size that is not larger.
    pub fn less(self, other: Size) -> Size {
        let mut words = [0; WORDS];
        let mut borrowed = false;
        for at in (0..WORDS).rev() {
            let (word, first) = self.0[at].overflowing_sub(other.0[at]);
            let (word, second) = word.overflowing_sub(u64::from(borrowed));
            words[at] = word;
            borrowed = first || second;
        }
        Size(words)
    }

    pub fn is_zero(self) -> bool {
        self.0.iter().all(|&word| word == 0)
    }

    /// The highest bit that is set, counted from the lowest.
    pub fn highest(self) -> Option<usize> {
        let at = self.0.iter().position(|&word| word != 0)?;
        Some(64 * (WORDS - 1 - at) + 63 - self.0[at].leading_zeros() as usize)
    }

    /// The 53 bits from bit `from` on.
    fn significand(self, from: usize) -> u64 {
        let lowest = WORDS - 1 - from / 64;
        let above = if lowest > 0 { self.0[lowest - 1] } else { 0 };
        let wide = u128::from(above) << 64 | u128::from(self.0[lowest]);
        (wide >> (from % 64)) as u64 & ((1 << 53) - 1)
    }

    /// The bits of the largest double that is not larger, the sign left out.
    pub fn bits_below(self) -> u64 {
        // Below 2^53 units every number is a double, and its bits are that number.
        let dropped = self.highest().unwrap_or(0).saturating_sub(52);
        ((dropped as u64) << 52) + self.significand(dropped)
    }
}

impl Units {
    pub fn of(double: f64) -> Units {
        Units { minus: double.to_bits() & SIGN != 0, size: Size::of_bits(double.to_bits() & !SIGN) }
    }
}

/// The exact sum of two finite doubles.
pub fn sum(first: f64, second: f64) -> Units {
    let (first, second) = (Units::of(first), Units::of(second));
    if first.minus == second.minus {
        return Units { minus: first.minus, size: first.size.plus(second.size) };
    }
    match first.size.cmp(&second.size) {
        Ordering::Less => Units { minus: second.minus, size: second.size.less(first.size) },
        Ordering::Equal => Units { minus: false, size: Size::shifted(0, 0) },
        Ordering::Greater => Units { minus: first.minus, size: first.size.less(second.size) },
    }
}

/// From here on a sum is not finite: two to the power 1024 less two to the power 970.
pub fn border() -> Size {
    Size::shifted(1, 1024 + 1074).less(Size::shifted(1, 970 + 1074))
}

/// How a sum stands between the double below it in size and the next one.
pub fn between(size: Size) -> Ordering {
    let below = size.bits_below();
    size.less(Size::of_bits(below)).cmp(&Size::of_bits(below + 1).less(size))
}

/// The nearest double, on a tie the one whose last bit is 0; nothing where the sum is not finite.
pub fn nearest(sum: Units) -> Option<f64> {
    if sum.size >= border() {
        return None;
    }
    let below = sum.size.bits_below();
    let bits = match between(sum.size) {
        Ordering::Less => below,
        Ordering::Equal => below + below % 2,
        Ordering::Greater => below + 1,
    };
    Some(f64::from_bits(if sum.minus { SIGN | bits } else { bits }))
}
