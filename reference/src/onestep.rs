//! The one-step device (document 02, W2): RN(Ch × x) of a significand or of a reading with its mark, Ch with the factor's sign, and the
//! tally of a range.

use crate::factor::{greatest, least, Factor, Refusal};
use crate::product::{marked, Mark, Product};
use crate::reading::{mark, read_by, Number};
use crate::rounding::Direction;
use std::ops::Add;

/// One tally takes as many significands at most; more are refused with 41.
pub const LONGEST: u64 = 65_536;

/// How many significands of a range are right, wrong and open for the one-step device.
#[derive(Clone, Copy, Debug, Default, PartialEq, Eq)]
pub struct Tally {
    pub right: u64,
    pub wrong: u64,
    pub open: u64,
}

impl Tally {
    pub fn new(right: u64, wrong: u64, open: u64) -> Tally {
        Tally { right, wrong, open }
    }

    pub fn one(mark: Mark) -> Tally {
        Tally::new((mark == Mark::Right) as u64, (mark == Mark::Wrong) as u64, (mark == Mark::Open) as u64)
    }

    pub fn length(self) -> u64 {
        self.right + self.wrong + self.open
    }
}

impl Add for Tally {
    type Output = Tally;

    fn add(self, other: Tally) -> Tally {
        Tally::new(self.right + other.right, self.wrong + other.wrong, self.open + other.open)
    }
}

pub fn multiply_once(factor: &Factor, x: u64) -> Result<Product, Refusal> {
    factor.check_range(x, x)?;
    Ok(product_once(factor, x))
}

/// The one-step product of an intact factor and a significand that 17 does not refuse: an exact fraction, rounded once.
pub fn product_once(factor: &Factor, x: u64) -> Product {
    marked(factor, x, factor.high_part().times(factor.fraction(x)))
}

pub fn read_once(factor: &Factor, reading: u32) -> Result<(Mark, Number), Refusal> {
    read_by(factor, reading, machine)
}

/// Mark, one-step product, its size in [1, 4), and direction of a significand of either sign: one binary32 multiplication by the high part
/// with its sign. The exact product is a binary64 number.
pub fn machine(factor: &Factor, x: f32) -> (Mark, f32, Direction) {
    let high = factor.high_number();
    let value = x * high;
    (mark(factor, x, value), value, Direction::of_exact(value as f64, x as f64 * high as f64))
}

pub fn tally(factor: &Factor, first: u64, last: u64) -> Result<Tally, Refusal> {
    factor.check_range(first, last)?;
    if last - first + 1 > LONGEST {
        return Err(41);
    }
    Ok(count(factor, first, last))
}

/// The tally of a range of any length, every significand multiplied.
pub fn count(factor: &Factor, first: u64, last: u64) -> Tally {
    (first..=last).fold(Tally::default(), |tally, x| tally + Tally::one(product_once(factor, x).mark))
}

/// The same, from the sizes' values: a value's significands are those that Ch takes to it. Those of them are right that both ends take to
/// it, and those wrong that the lower end takes past it or the upper end not up to it.
pub fn count_by_values(factor: &Factor, first: u64, last: u64) -> Tally {
    let (least, greatest) = (least(factor.bits), greatest(factor.bits));
    let high = factor.high << (63 - factor.bits);
    let mut tally = Tally::default();
    for (binade, significand) in (0..2).flat_map(|binade| (least..=greatest).map(move |s| (binade, s))) {
        // The value and the midpoints next to it, over 2^n; below 2 the units are halved, and below 1 there is no product.
        let (value, half) = (significand << (1 + binade), 1 << binade);
        let (below, above) = (value - if significand == least { 1 } else { half }, value + half);
        // The significands that an end takes there: to a midpoint only if the value's significand is even.
        let taken_by = |end: u64| {
            let (end, from, to) = (end as u128, (below as u128) << 61, (above as u128) << 61);
            let (from, to) = if significand % 2 == 0 {
                (from.div_ceil(end), to / end)
            } else {
                (from / end + 1, to.div_ceil(end) - 1)
            };
            (from as u64, to as u64)
        };
        let (a, b) = taken_by(high);
        let ((lower_from, lower_to), (upper_from, upper_to)) = (taken_by(factor.lower), taken_by(factor.upper));
        let within = |from: u64, to: u64| (b.min(last).min(to) + 1).saturating_sub(a.max(first).max(from));
        let (all, right, not_wrong) = (within(a, b), within(lower_from, upper_to), within(upper_from, lower_to));
        tally = tally + Tally::new(right, all - not_wrong, not_wrong - right);
    }
    tally
}

/// Significands whose one-step products are ties, or lie as near to one as any that is none, in either binade and on either side, where
/// there are such. Over 2^(2n - 2) the product is X × H, and one unit in its last place 2^s, s being n - 1 below 2 and n from there
/// on. With H = 2^t × h, h odd, it lies d × 2^t off a midpoint exactly where X × h is 2^(s - 1 - t) + d modulo 2^(s - t).
pub fn near_ties(factor: &Factor) -> Vec<u64> {
    let (bits, high) = (factor.bits, factor.high);
    let twos = high.trailing_zeros();
    let first_high = (1u64 << (2 * bits - 1)).div_ceil(high);
    let mut found = Vec::new();
    for (s, first, last) in [(bits - 1, least(bits), first_high - 1), (bits, first_high, greatest(bits))] {
        if twos >= s {
            continue;
        }
        let (odd, modulus) = (high >> twos, 1u64 << (s - twos));
        // 1 / h modulo a power of two: each step doubles the digits that are right.
        let inverse = (0..6).fold(odd, |inverse, _| inverse.wrapping_mul(2u64.wrapping_sub(odd.wrapping_mul(inverse))));
        for wanted in [modulus / 2, modulus / 2 + 1, (modulus / 2).wrapping_sub(1)] {
            let rest = inverse.wrapping_mul(wanted) % modulus;
            let x = first + rest.wrapping_sub(first) % modulus;
            if x <= last {
                found.push(x);
            }
        }
    }
    found
}

#[cfg(test)]
mod tests {
    use super::*;
    use crate::factor::of_high;

    /// The nearest of all numbers of n bits in reach, and of two equally near the one with the even significand.
    fn by_trial(bits: u32, high: u64, x: u64) -> (u64, u32, Direction) {
        // Numbers over 2^(2n - 2), and their distance from the exact product.
        let over = |significand: u64, binade: u32| significand << (bits - 1 + binade);
        let apart = |significand: u64, binade: u32| over(significand, binade).abs_diff(x * high);
        let mut best = (least(bits), 0);
        for binade in 0..2 {
            for significand in least(bits)..=greatest(bits) {
                let (ours, there) = (apart(best.0, best.1), apart(significand, binade));
                if there < ours || there == ours && significand % 2 == 0 {
                    best = (significand, binade);
                }
            }
        }
        (best.0, best.1, Direction::of(over(best.0, best.1).cmp(&(x * high))))
    }

    #[test]
    fn agrees_with_every_significand_tried() {
        for bits in 4..=7 {
            for high in least(bits)..=1 << bits {
                let factor = of_high(bits, high);
                for x in least(bits)..=greatest(bits) {
                    let Product { significand, binade, direction, minus, .. } = product_once(&factor, x);
                    assert_eq!((significand, binade, direction), by_trial(bits, high, x), "{bits} {high} {x}");
                    assert!(!minus);
                    let below = product_once(&factor.opposite(), x);
                    assert_eq!(below, product_once(&factor, x).mirrored(), "{bits} -{high} {x}");
                }
            }
        }
    }

    #[test]
    fn near_ties_are_near() {
        let mut found = [0, 0];
        for bits in 4..=9 {
            for high in least(bits)..=1 << bits {
                let factor = of_high(bits, high);
                for x in near_ties(&factor) {
                    let s = if x * high < 1 << (2 * bits - 1) { bits - 1 } else { bits };
                    let off = ((x * high) % (1 << s)).abs_diff(1 << (s - 1));
                    assert!(off == 0 || off == 1 << high.trailing_zeros(), "{bits} {high} {x}");
                    found[(off > 0) as usize] += 1;
                }
            }
        }
        assert!(found.iter().all(|&found| found > 400), "{found:?}");
    }

    /// Both tallies of every range of 4 and 5 bits are one, and those of adjoining ranges add up.
    #[test]
    fn tallies_of_every_range() {
        use crate::random::{given, Random, KINDS};
        let mut random = Random::new(10);
        for i in 0..5400 {
            let g = given(&mut random, 4 + (i / KINDS % 2) as u32, i % (KINDS - 1));
            let Ok(factor) = g.set_up() else { continue };
            let (least, greatest) = (least(g.bits), greatest(g.bits));
            for first in least..=greatest {
                for last in first..=greatest {
                    let whole = count(&factor, first, last);
                    assert_eq!(whole, count_by_values(&factor, first, last));
                    assert_eq!(whole.length(), last - first + 1);
                    let middle = random.from_to(first, last);
                    if middle < last {
                        assert_eq!(count(&factor, first, middle) + count(&factor, middle + 1, last), whole);
                    }
                }
            }
        }
    }
}
