//! Set-up, products, quotient and tally in lean arithmetic of 128 and 64 bits, as one would write them for speed: only for the benchmark,
//! which first holds them to the reference.

use crate::factor::{greatest, least, Factor, Refusal};
use crate::onestep::{Tally, LONGEST};
use crate::product::{Mark, Product};
use crate::quotient::Quotient;
use crate::rounding::Direction;

/// The significand of `bits` bits nearest to a whole number that has at least so many, ties to even, and the digits dropped.
fn rounded(whole: u128, bits: u32) -> (u64, u32) {
    let dropped = 128 - whole.leading_zeros() - bits;
    let kept = (whole >> dropped) as u64;
    let twice = (whole - ((kept as u128) << dropped)) << 1;
    let step = 1u128 << dropped;
    let significand = kept + (twice > step || twice == step && kept & 1 == 1) as u64;
    // The carry into the next binade.
    let carry = (significand >> bits) as u32;
    (significand >> carry, dropped + carry)
}

/// High significand, low significand and places of the fraction end / 2^62.
fn parts(bits: u32, end: u64) -> (u64, i64, u32) {
    let step = 63 - bits;
    let kept = end >> step;
    let (rest, half) = (end - (kept << step), 1 << (step - 1));
    let high = kept + (rest > half || rest == half && kept & 1 == 1) as u64;
    let exact = high << step;
    let size = end.abs_diff(exact);
    if size == 0 {
        return (high, 0, 0);
    }
    let digits = 64 - size.leading_zeros();
    let (significand, places) = if digits < bits {
        (size << (bits - digits), 62 + bits - digits)
    } else {
        let (significand, dropped) = rounded(size as u128, bits);
        (significand, 62 - dropped)
    };
    (high, if end < exact { -(significand as i64) } else { significand as i64 }, places)
}

/// The bits of whole / 2^places, which is a binary32 number.
fn float(whole: i64, places: u32) -> u32 {
    (whole as f32 * f32::from_bits((127 - places) << 23)).to_bits()
}

pub fn set_up(minus: bool, bits: u32, scale: i32, lower: u64, upper: u64) -> Result<Factor, Refusal> {
    if !(4..=24).contains(&bits) {
        return Err(11);
    }
    if lower >> 62 != 1 || upper >> 62 != 1 {
        return Err(12);
    }
    if lower > upper {
        return Err(13);
    }
    if !(-100..=100).contains(&scale) {
        return Err(14);
    }
    let (high, low, places) = parts(bits, lower);
    let above = parts(bits, upper);
    if high != above.0 {
        return Err(15);
    }
    if (low, places) != (above.1, above.2) {
        return Err(16);
    }
    let (high_float, low_float) = (float(high as i64, bits - 1), float(low, places));
    Ok(Factor { minus, bits, lower, upper, high, low, places, high_float, low_float, scale })
}

/// The refusals 31 and 17 of a range, or of one significand as its first and last.
fn check(factor: &Factor, first: u64, last: u64) -> Result<(), Refusal> {
    if set_up(factor.minus, factor.bits, factor.scale, factor.lower, factor.upper).as_ref() != Ok(factor) {
        return Err(31);
    }
    if first < least(factor.bits) || greatest(factor.bits) < last || last < first {
        return Err(17);
    }
    Ok(())
}

/// A direction of a size, with the factor's sign.
fn turned(factor: &Factor, direction: Direction) -> Direction {
    if factor.minus {
        direction.mirrored()
    } else {
        direction
    }
}

/// A product and its mark, by RN of both ends times x; its direction is given as that of the size.
fn marked(factor: &Factor, x: u64, significand: u64, binade: u32, direction: Direction) -> Product {
    let rounded_by = |end: u64| {
        let (significand, dropped) = rounded(end as u128 * x as u128, factor.bits);
        significand << (dropped - 62)
    };
    let (ours, a, b) = (significand << binade, rounded_by(factor.lower), rounded_by(factor.upper));
    let mark = if ours < a || b < ours {
        Mark::Wrong
    } else if a == b {
        Mark::Right
    } else {
        Mark::Open
    };
    Product { mark, significand, binade, direction: turned(factor, direction), minus: factor.minus }
}

pub fn multiply(factor: &Factor, x: u64) -> Result<Product, Refusal> {
    check(factor, x, x)?;
    let bits = factor.bits;
    // Whole numbers of the unit 2^-(61 + bits).
    let high = ((factor.high * x) as u128) << (63 - bits);
    let first = if factor.low == 0 {
        0
    } else {
        let (significand, dropped) = rounded((factor.low.unsigned_abs() * x) as u128, bits);
        (significand as u128) << (dropped + 62 - factor.places)
    };
    let sum = if factor.low < 0 { high - first } else { high + first };
    let (significand, dropped) = rounded(sum, bits);
    let direction = Direction::of(((significand as u128) << dropped).cmp(&sum));
    Ok(marked(factor, x, significand, dropped - 62, direction))
}

pub fn divide(factor: &Factor, x: u64) -> Result<Quotient, Refusal> {
    check(factor, x, x)?;
    let bits = factor.bits;
    // The quotient in units of its last place: it is no midpoint, and what is rounded up stays in its binade.
    let below_one = x < factor.high;
    let dividend = x << (bits - 1 + below_one as u32);
    let (kept, rest) = (dividend / factor.high, dividend % factor.high);
    let (significand, direction) = match rest {
        0 => (kept, Direction::Equal),
        _ if 2 * rest > factor.high => (kept + 1, Direction::Above),
        _ => (kept, Direction::Below),
    };
    let direction = turned(factor, direction);
    Ok(Quotient { significand, binade: -(below_one as i64), direction, minus: factor.minus })
}

/// A whole number without its last `dropped` digits, rounded.
fn without(whole: u64, dropped: u32) -> u64 {
    (whole + (1 << (dropped - 1)) - 1 + (whole >> dropped & 1)) >> dropped
}

/// The same for 64 digits.
fn without_word(whole: u128) -> u64 {
    ((whole + ((1 << 63) - 1) + (whole >> 64 & 1)) >> 64) as u64
}

pub fn multiply_once(factor: &Factor, x: u64) -> Result<Product, Refusal> {
    check(factor, x, x)?;
    let bits = factor.bits;
    let product = factor.high * x;
    let binade = (product >> (2 * bits - 1)) as u32;
    let dropped = bits - 1 + binade;
    let kept = without(product, dropped);
    let carry = (kept >> bits) as u32;
    let direction = Direction::of((kept << dropped).cmp(&product));
    Ok(marked(factor, x, kept >> carry, binade + carry, direction))
}

/// The refusals 31, 17 and 41, and the least significands that the high part and the ends take to 2 or more.
fn second_binades(factor: &Factor, first: u64, last: u64) -> Result<[u64; 3], Refusal> {
    check(factor, first, last)?;
    if last - first >= LONGEST {
        return Err(41);
    }
    let bits = factor.bits;
    Ok([factor.high << (63 - bits), factor.lower, factor.upper]
        .map(|end| (1u128 << (62 + bits)).div_ceil(end as u128) as u64))
}

/// The tally, each significand by itself: three multiplications, and roundings of which the place is known.
pub fn tally(factor: &Factor, first: u64, last: u64) -> Result<Tally, Refusal> {
    let [high_from, lower_from, upper_from] = second_binades(factor, first, last)?;
    let (bits, high) = (factor.bits, factor.high);
    // Over 2^64 what is dropped is the lower word, or below 2 that and one digit less.
    let (lower, upper) = (factor.lower << 1, factor.upper << 1);
    let (mut right, mut wrong) = (0, 0);
    for x in first..=last {
        let binade = (x >= high_from) as u32;
        let ours = without(high * x, bits - 1 + binade) << binade;
        let rounded_by = |end: u64, from: u64| {
            let product = end as u128 * x as u128;
            if x >= from {
                without_word(product) << 1
            } else {
                without_word(product << 1)
            }
        };
        let (a, b) = (rounded_by(lower, lower_from), rounded_by(upper, upper_from));
        right += ((ours == a) & (ours == b)) as u64;
        wrong += ((ours < a) | (b < ours)) as u64;
    }
    Ok(Tally::new(right, wrong, last - first + 1 - right - wrong))
}

/// The same by additions alone: each product is the one before and once more the factor. The range is cut where a product passes into
/// the second binade, so that in between the places of roundings do not change.
pub fn tally_by_additions(factor: &Factor, first: u64, last: u64) -> Result<Tally, Refusal> {
    let from = second_binades(factor, first, last)?;
    let mut cuts = [first, from[0], from[1], from[2], last + 1].map(|cut| cut.clamp(first, last + 1));
    cuts.sort_unstable();
    let (mut right, mut wrong) = (0, 0);
    for cut in cuts.windows(2).filter(|cut| cut[0] < cut[1]) {
        let [binade, lower_binade, upper_binade] = from.map(|from| (cut[0] >= from) as u32);
        let dropped = factor.bits - 1 + binade;
        let lower = (factor.lower as u128) << (2 - lower_binade);
        let upper = (factor.upper as u128) << (2 - upper_binade);
        let x = cut[0];
        let (mut by_high, mut by_lower, mut by_upper) = (factor.high * x, lower * x as u128, upper * x as u128);
        for _ in x..cut[1] {
            let ours = without(by_high, dropped) << binade;
            let (a, b) = (without_word(by_lower) << lower_binade, without_word(by_upper) << upper_binade);
            right += ((ours == a) & (ours == b)) as u64;
            wrong += ((ours < a) | (b < ours)) as u64;
            by_high += factor.high;
            by_lower += lower;
            by_upper += upper;
        }
    }
    Ok(Tally::new(right, wrong, last - first + 1 - right - wrong))
}
