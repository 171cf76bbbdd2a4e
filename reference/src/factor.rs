//! A factor: its sign, its ends, its high and low part, and set-up with the refusals 11 to 16.

use crate::rounding::{nearest, Dyadic};
use std::ops::Neg;

pub type Refusal = u32;

#[derive(Clone, Copy, Debug, PartialEq, Eq)]
pub struct Factor {
    /// Below zero: then -C × 2^scale is applied (document 02, W5). All else is that of the size.
    pub minus: bool,
    pub bits: u32,
    pub lower: u64,
    pub upper: u64,
    /// Ch over 2^(bits - 1), from 2^(bits - 1) to 2^bits.
    pub high: u64,
    /// Cl over 2^places, signed.
    pub low: i64,
    pub places: u32,
    /// Ch and Cl as the bits of binary32 numbers.
    pub high_float: u32,
    pub low_float: u32,
    pub scale: i32,
}

/// The least and the greatest significand.
pub fn least(bits: u32) -> u64 {
    1 << (bits - 1)
}

pub fn greatest(bits: u32) -> u64 {
    (1 << bits) - 1
}

/// Ch and Cl of the fraction end / 2^62.
pub fn parts(bits: u32, end: i128) -> (Dyadic, Dyadic) {
    let fraction = Dyadic::new(end, 62);
    let high = nearest(bits, fraction);
    let rest = fraction.plus(Dyadic::new(-high.whole, high.places));
    (high, nearest(bits, rest))
}

pub fn set_up(minus: bool, bits: u32, scale: i32, lower: u64, upper: u64) -> Result<Factor, Refusal> {
    if !(4..=24).contains(&bits) {
        return Err(11);
    }
    let good = |end: u64| (1u64 << 62) <= end && end < 1u64 << 63;
    if !good(lower) || !good(upper) {
        return Err(12);
    }
    if lower > upper {
        return Err(13);
    }
    if !(-100..=100).contains(&scale) {
        return Err(14);
    }
    let (high, low) = parts(bits, lower as i128);
    let (high_above, low_above) = parts(bits, upper as i128);
    if !high.equals(high_above) {
        return Err(15);
    }
    if !low.equals(low_above) {
        return Err(16);
    }
    // Ch over 2^(bits - 1): the significand 2^bits stands for Ch = 2.
    let one = bits as i32 - 1;
    let high_whole = high.whole << (one - high.places);
    Ok(Factor {
        minus,
        bits,
        lower,
        upper,
        high: high_whole as u64,
        low: low.whole as i64,
        places: low.places as u32,
        high_float: float(high),
        low_float: float(low),
        scale,
    })
}

/// A factor with this high part, which is the fraction itself; for 2, which is none, the last fraction.
pub fn of_high(bits: u32, high: u64) -> Factor {
    let end = (high << (63 - bits)).min((1 << 63) - 1);
    set_up(false, bits, 0, end, end).expect("an accepted factor")
}

/// The number as binary32, by an exact conversion and a division by a power of two.
fn float(number: Dyadic) -> u32 {
    if number.whole == 0 {
        return 0;
    }
    let value = number.whole as i64 as f32;
    assert!(value as i64 as i128 == number.whole, "a part has at most 24 bits");
    (value / 2f32.powi(number.places)).to_bits()
}

impl Factor {
    /// 31's opposite: the factor is what its own precision, scale and ends set up; in its sign there is nothing to compare.
    pub fn intact(&self) -> bool {
        set_up(self.minus, self.bits, self.scale, self.lower, self.upper) == Ok(*self)
    }

    /// The factor of the other sign.
    pub fn opposite(&self) -> Factor {
        Factor { minus: !self.minus, ..*self }
    }

    /// A size with the factor's sign.
    pub fn signed<T: Neg<Output = T>>(&self, size: T) -> T {
        if self.minus {
            -size
        } else {
            size
        }
    }

    /// Both ends with the sign, the lesser one first: below zero that is the upper.
    pub fn ends(&self) -> [i128; 2] {
        let [lower, upper] = [self.lower, self.upper].map(|end| self.signed(end as i128));
        [lower.min(upper), lower.max(upper)]
    }

    pub fn range_ok(&self, first: u64, last: u64) -> bool {
        least(self.bits) <= first && first <= last && last <= greatest(self.bits)
    }

    /// The refusals 31 and 17 of what is asked about a range, or about one significand, first and last of its own.
    pub fn check_range(&self, first: u64, last: u64) -> Result<(), Refusal> {
        if !self.intact() {
            return Err(31);
        }
        if !self.range_ok(first, last) {
            return Err(17);
        }
        Ok(())
    }

    /// Ch and Cl with the sign, as fractions and as numbers of the machine.
    pub fn high_part(&self) -> Dyadic {
        Dyadic::new(self.signed(self.high as i128), self.bits as i32 - 1)
    }

    pub fn low_part(&self) -> Dyadic {
        Dyadic::new(self.signed(self.low as i128), self.places as i32)
    }

    pub fn high_number(&self) -> f32 {
        self.signed(f32::from_bits(self.high_float))
    }

    pub fn low_number(&self) -> f32 {
        self.signed(f32::from_bits(self.low_float))
    }

    /// Ch × 2^k with the sign, which is a normal binary32 number.
    pub fn applied(&self) -> f32 {
        self.high_number() * 2f32.powi(self.scale)
    }

    /// The fraction of a significand.
    pub fn fraction(&self, x: u64) -> Dyadic {
        Dyadic::new(x as i128, self.bits as i32 - 1)
    }

    /// W and D of document 01.
    pub fn w(&self) -> i128 {
        1i128 << (62 - self.bits)
    }

    pub fn d(&self) -> i128 {
        ((self.upper - self.lower) as i128) << self.bits
    }

    /// The least significand that is not low.
    pub fn first_high(&self) -> u64 {
        let first = (1u128 << (62 + self.bits)).div_ceil(self.lower as u128) as u64;
        assert!(!self.is_low(first) && self.is_low(first - 1));
        first
    }

    pub fn is_low(&self, x: u64) -> bool {
        (self.lower as u128) * (x as u128) < 1u128 << (62 + self.bits)
    }
}

#[cfg(test)]
mod tests {
    use super::*;

    #[test]
    fn parts_agree_with_the_machine_at_24_bits() {
        let mut state = 3u64;
        for round in 0..300_000u64 {
            state = state.wrapping_mul(6364136223846793005).wrapping_add(1442695040888963407);
            let mut end = (1u64 << 62) | (state >> 2);
            if round % 3 == 0 {
                end = end >> (state % 50) << (state % 50) | (1u64 << 62);
            }
            let factor = match set_up(false, 24, 0, end, end) {
                Ok(factor) => factor,
                Err(refusal) => panic!("{end:X} {refusal}"),
            };
            let high = end as f32;
            let rest = (end as i128 - high as i128) as f32;
            let scale = 2f32.powi(-62);
            assert_eq!(factor.high_float, (high * scale).to_bits());
            assert_eq!(factor.low_float, (rest * scale).to_bits());
        }
    }
}
