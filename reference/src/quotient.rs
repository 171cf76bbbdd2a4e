//! The quotient of a significand or of a reading by the high part, with the machine's own divisions (document 02, W1).

use crate::factor::{greatest, least, Factor, Refusal};
use crate::reading::{number, put_on, taken, Number};
use crate::rounding::{nearest, Direction, Dyadic};

#[derive(Clone, Copy, Debug, PartialEq, Eq)]
pub struct Quotient {
    pub significand: u64,
    /// -1 where the size lies in [1/2, 1), 0 for [1, 2).
    pub binade: i64,
    pub direction: Direction,
    pub minus: bool,
}

impl Quotient {
    /// The quotient as a number of the machine, at 24 bits.
    pub fn number(self) -> f32 {
        number(self.minus, self.significand, self.binade)
    }

    /// The quotient by the factor of the other sign (document 02, W5): the law, to which quotients of either sign are held.
    pub fn mirrored(self) -> Quotient {
        Quotient { direction: self.direction.mirrored(), minus: !self.minus, ..self }
    }
}

pub fn divide(factor: &Factor, x: u64) -> Result<Quotient, Refusal> {
    factor.check_range(x, x)?;
    Ok(quotient(factor, x))
}

/// The quotient by an intact factor of a significand that 17 does not refuse: one binary64 division by the high part with its sign,
/// rounded again to n bits. Rounding twice does no harm, since 53 is at least 2n + 2: the exact quotient is never a midpoint of n bits, and
/// from each it is at least 2^-(2n + 1) away, while the division is off by 2^-53 at most. The direction compares the quotient with X / H,
/// where a minus of H is put on X: both times the size of H and over the quotient's places.
pub fn quotient(factor: &Factor, x: u64) -> Quotient {
    let value = x as f64 / factor.signed(factor.high as f64);
    // From 1/2 on a binary64 number has no more than 53 places.
    let whole = (value * 2f64.powi(53)) as i64;
    let rounded = nearest(factor.bits, Dyadic::new(whole as i128, 53));
    let binade = factor.bits as i32 - 1 - rounded.places;
    assert!(binade == -1 || binade == 0, "the quotient's size lies in [1/2, 2)");
    let exact = factor.signed(x as i128) << rounded.places;
    Quotient {
        significand: rounded.whole.unsigned_abs() as u64,
        binade: binade as i64,
        direction: Direction::of((rounded.whole * factor.high as i128).cmp(&exact)),
        minus: rounded.whole < 0,
    }
}

/// A zero's quotient is the machine's own by the high part, which tells its sign (W3 and W5).
pub fn divide_reading(factor: &Factor, reading: u32) -> Result<Number, Refusal> {
    let Some(x) = taken(factor, reading)? else {
        return Ok(Number::equal((f32::from_bits(reading) / factor.high_number()).to_bits()));
    };
    let (quotient, direction) = machine(factor, x);
    Ok(Number { bits: put_on(quotient, reading, -factor.scale)?, direction })
}

/// The quotient, its size in [1/2, 2), of a significand of either sign, and its direction: one binary32 division by the high part with its
/// sign. The quotient times the size of the high part is a binary64 number; the minus is put on x.
pub fn machine(factor: &Factor, x: f32) -> (f32, Direction) {
    let high = factor.high_number();
    let value = x / high;
    (value, Direction::of_exact(value as f64 * high.abs() as f64, x as f64 * high.signum() as f64))
}

/// Whether the quotient is the number of n bits nearest to X / H, and no other is as near: by whole numbers, with their signs.
pub fn is_nearest(factor: &Factor, x: u64) -> bool {
    let Quotient { significand, binade, minus, .. } = quotient(factor, x);
    let exact = factor.signed(x as i128) << (factor.bits as i64 - 1 - binade);
    let ours = significand as i128 * if minus { -1 } else { 1 };
    least(factor.bits) <= significand
        && significand <= greatest(factor.bits)
        && 2 * exact.abs_diff(ours * factor.high as i128) < factor.high as u128
}

/// Significands whose quotients lie as near to a midpoint as any does, in either binade and on either side, where there are such.
/// In units of its last place the quotient is X × 2^s / H, s being n below 1 and n - 1 from there on. With H = 2^t × h, h odd,
/// twice its remainder is H ± 2^t exactly where X × 2^(s + 1 - t) is ± 1 modulo h.
pub fn near_midpoints(factor: &Factor) -> Vec<u64> {
    let (bits, high) = (factor.bits, factor.high);
    let twos = high.trailing_zeros();
    let odd = high >> twos;
    let mut found = Vec::new();
    if odd == 1 {
        return found;
    }
    for (s, first, last) in [(bits, least(bits), high - 1), (bits - 1, high, greatest(bits))] {
        // 1, halved so often modulo h.
        let one = (0..s + 1 - twos).fold(1, |rest, _| if rest % 2 == 0 { rest / 2 } else { (rest + odd) / 2 });
        for rest in [one, odd - one] {
            let x = first + (rest + odd - first % odd) % odd;
            if x <= last {
                found.push(x);
            }
        }
    }
    found
}

#[cfg(test)]
mod tests {
    use super::*;
    use crate::directions::of_quotient;
    use crate::factor::{of_high, set_up};
    use crate::random::{given, Random, KINDS, KNOWN};

    /// The nearest of all numbers of n bits in reach, and the only one as near: there is no tie.
    fn by_trial(bits: u32, high: u64, x: u64) -> Quotient {
        // X / H and the numbers, over H × 2^(n + 1).
        let exact = x << (bits + 1);
        let over = |&(significand, binade): &(u64, i64)| (significand * high) << (binade + 2);
        let apart = |q: &(u64, i64)| exact.abs_diff(over(q));
        let all = || (-2..=1).flat_map(|binade| (least(bits)..=greatest(bits)).map(move |s| (s, binade)));
        let nearest = all().min_by_key(apart).expect("some number");
        assert_eq!(all().filter(|q| apart(q) == apart(&nearest)).count(), 1, "a tie");
        let (significand, binade) = nearest;
        Quotient { significand, binade, direction: Direction::of(over(&nearest).cmp(&exact)), minus: false }
    }

    #[test]
    fn agrees_with_every_significand_tried() {
        for bits in 4..=7 {
            for high in least(bits)..=1 << bits {
                let factor = of_high(bits, high);
                assert_eq!(factor.high, high);
                for x in least(bits)..=greatest(bits) {
                    let due = by_trial(bits, high, x);
                    assert_eq!(quotient(&factor, x), due, "{bits} {high} {x}");
                    assert_eq!(quotient(&factor.opposite(), x), due.mirrored(), "{bits} -{high} {x}");
                }
            }
        }
    }

    /// The binary32 division and the binary64 one, rounded again, give one answer.
    #[test]
    fn agrees_with_the_machine_at_24_bits() {
        let mut random = Random::new(6);
        for (_, scale, lower, upper) in KNOWN {
            for factor in [false, true].map(|minus| set_up(minus, 24, scale, lower, upper).expect("an accepted factor"))
            {
                for x in (0..300_000).map(|_| random.from_to(least(24), greatest(24))).chain(near_midpoints(&factor)) {
                    let whole = quotient(&factor, x);
                    assert_eq!(machine(&factor, number(false, x, 0)), (whole.number(), whole.direction));
                    assert!(is_nearest(&factor, x));
                }
            }
        }
    }

    #[test]
    fn near_midpoints_are_near() {
        let mut found = 0;
        for bits in 4..=9 {
            for high in least(bits)..=1 << bits {
                let factor = of_high(bits, high);
                for x in near_midpoints(&factor) {
                    let Quotient { significand, binade, .. } = quotient(&factor, x);
                    let apart = (x << (bits as i64 - 1 - binade)).abs_diff(significand * high);
                    assert_eq!(2 * apart + (1 << high.trailing_zeros()), high, "{bits} {high} {x}");
                    found += 1;
                }
            }
        }
        assert!(found > 500, "{found}");
    }

    /// One binary32 division of the whole reading by Ch × 2^k, sign included, where the quotient is not refused; and 23 where it lies outside.
    #[test]
    fn agrees_with_a_division_of_the_whole_reading() {
        let mut random = Random::new(7);
        let mut refused = [0, 0];
        for i in 0..540_000 {
            let g = given(&mut random, 24, i % (KINDS - 1));
            let Ok(factor) = g.set_up() else { continue };
            let reading = f32::from_bits(random.word() as u32);
            if !reading.is_normal() {
                continue;
            }
            let applied = factor.applied();
            match divide_reading(&factor, reading.to_bits()) {
                Ok(Number { bits, direction }) => {
                    assert_eq!(bits, (reading / applied).to_bits());
                    let by_machine = of_quotient(&factor, reading, f32::from_bits(bits));
                    assert_eq!(direction, by_machine, "{factor:X?} {reading}");
                }
                Err(refusal) => {
                    assert_eq!(refusal, 23);
                    let size = (reading as f64 / applied as f64).abs();
                    assert!(size < 2f64.powi(-126) || 2f64.powi(128) <= size, "{factor:X?} {reading}");
                    refused[(size > 1.0) as usize] += 1;
                }
            }
        }
        assert!(refused.iter().all(|&count| count > 10_000), "{refused:?}");
    }
}
