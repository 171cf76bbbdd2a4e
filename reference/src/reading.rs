//! A binary32 reading times a factor, with the machine's own binary32 operations on numbers that have their signs.

use crate::factor::{Factor, Refusal};
use crate::product::Mark;
use crate::rounding::Direction;

/// What a reading is answered with: a number by its bits, and the direction of its last rounding, sign included.
#[derive(Clone, Copy, Debug, PartialEq, Eq)]
pub struct Number {
    pub bits: u32,
    pub direction: Direction,
}

impl Number {
    pub fn below(bits: u32) -> Number {
        Number { bits, direction: Direction::Below }
    }

    pub fn equal(bits: u32) -> Number {
        Number { bits, direction: Direction::Equal }
    }

    pub fn above(bits: u32) -> Number {
        Number { bits, direction: Direction::Above }
    }

    /// The answer to the reading of the other sign, or by the factor of the other sign: the law, to which answers are held.
    pub fn mirrored(self) -> Number {
        Number { bits: self.bits ^ 0x8000_0000, direction: self.direction.mirrored() }
    }
}

pub fn read(factor: &Factor, reading: u32) -> Result<(Mark, Number), Refusal> {
    read_by(factor, reading, product)
}

/// The reading's product by a device, which gives mark, product and direction of the reading's significand, sign included. A zero is right
/// and equal on either device, and its product is the machine's single one with the high part, which tells its sign (document 02, W3 and
/// W5): two steps would lose it where the low part has the other sign than the high part.
pub fn read_by(
    factor: &Factor,
    reading: u32,
    device: impl Fn(&Factor, f32) -> (Mark, f32, Direction),
) -> Result<(Mark, Number), Refusal> {
    let Some(x) = taken(factor, reading)? else {
        let zero = f32::from_bits(reading) * factor.high_number();
        return Ok((Mark::Right, Number::equal(zero.to_bits())));
    };
    let (mark, product, direction) = device(factor, x);
    Ok((mark, Number { bits: put_on(product, reading, factor.scale)?, direction }))
}

/// The significand of a reading that a factor is applied to, in [1, 2) or (-2, -1], none for a zero of either sign; or the refusals 31 and
/// 20 to 22.
pub fn taken(factor: &Factor, reading: u32) -> Result<Option<f32>, Refusal> {
    if !factor.intact() {
        return Err(31);
    }
    if factor.bits != 24 {
        return Err(20);
    }
    let given = f32::from_bits(reading);
    if given.is_infinite() || given.is_nan() {
        return Err(21);
    }
    if given == 0.0 {
        return Ok(None);
    }
    if given.is_subnormal() {
        return Err(22);
    }
    Ok(Some(f32::from_bits(reading & 0x807F_FFFF | 0x3F80_0000)))
}

/// The reading's exponent, moved by `scale`, put on a value whose size lies in [1/2, 4); or the refusal 23.
pub fn put_on(value: f32, reading: u32, scale: i32) -> Result<u32, Refusal> {
    let exponent_of = |bits: u32| ((bits >> 23) & 0xFF) as i32 - 127;
    let exponent = exponent_of(reading) + scale + exponent_of(value.to_bits());
    if !(-126..=127).contains(&exponent) {
        return Err(23);
    }
    Ok(value.to_bits() & 0x807F_FFFF | ((exponent + 127) as u32) << 23)
}

/// Mark, product, its size in [1, 4), and direction of a significand of either sign, by one multiplication and one fused step, with the
/// factor's sign on both parts. Ch × x and u2 - Ch × x, which is compared with u1, are binary64 numbers.
pub fn product(factor: &Factor, x: f32) -> (Mark, f32, Direction) {
    let high = factor.high_number();
    let u1 = factor.low_number() * x;
    let u2 = high.mul_add(x, u1);
    let direction = Direction::of_exact(u2 as f64 - high as f64 * x as f64, u1 as f64);
    (mark(factor, x, u2), u2, direction)
}

/// The mark of a value as the product of that significand, whichever device made it: by RN of both ends times x, signs included, which the
/// machine's conversion of whole numbers gives. All are over 2^85.
pub fn mark(factor: &Factor, x: f32, value: f32) -> Mark {
    let significand = (x * 2f32.powi(23)) as i32 as i128;
    let [a, b] = factor.ends().map(|end| (end * significand) as f32);
    let (first, second) = (a.min(b), a.max(b));
    let ours = value * 2f32.powi(85);
    if ours == first && ours == second {
        Mark::Right
    } else if ours < first || second < ours {
        Mark::Wrong
    } else {
        Mark::Open
    }
}

/// The number of the machine with this sign, significand of 24 bits and binade.
pub fn number(minus: bool, significand: u64, binade: i64) -> f32 {
    let size = significand as f32 * 2f32.powi(binade as i32 - 23);
    if minus {
        -size
    } else {
        size
    }
}

#[cfg(test)]
mod tests {
    use crate::factor::set_up;
    use crate::product;

    /// The machine's two operations and the whole-number product give one answer, for both signs of the factor.
    #[test]
    fn agrees_with_whole_numbers() {
        let mut state = 11u64;
        let mut next = || {
            state = state.wrapping_mul(6364136223846793005).wrapping_add(1442695040888963407);
            state >> 2
        };
        for round in 0..40_000u64 {
            let end = (1u64 << 62) | next() >> (round / 2 % 7);
            let factor = match set_up(round % 2 == 1, 24, 0, end, (end + round / 2 % 3).min((1 << 63) - 1)) {
                Ok(factor) => factor,
                Err(_) => continue,
            };
            for _ in 0..20 {
                let x = next() >> 30 & 0x7F_FFFF | 0x80_0000;
                let (mark, value, direction) = super::product(&factor, super::number(false, x, 0));
                let whole = product::product(&factor, x);
                assert_eq!((mark, direction), (whole.mark, whole.direction));
                assert_eq!(value, whole.number());
                assert_eq!(value < 0.0, factor.minus);
            }
        }
    }
}
