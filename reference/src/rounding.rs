//! RN: round to nearest, ties to even, to n bits with exponents unbounded; and its direction.

use std::cmp::Ordering;

/// On which side of what was rounded the rounded number lies, sign included (document 02, W4).
#[derive(Clone, Copy, Debug, PartialEq, Eq, PartialOrd, Ord)]
pub enum Direction {
    Below,
    Equal,
    Above,
}

impl Direction {
    pub const ALL: [Direction; 3] = [Direction::Below, Direction::Equal, Direction::Above];

    /// By the order of the rounded number to what was rounded.
    pub fn of(order: Ordering) -> Direction {
        match order {
            Ordering::Less => Direction::Below,
            Ordering::Equal => Direction::Equal,
            Ordering::Greater => Direction::Above,
        }
    }

    /// The same for numbers of the machine that are exact.
    pub fn of_exact(rounded: f64, exact: f64) -> Direction {
        Direction::of(rounded.partial_cmp(&exact).expect("two numbers"))
    }

    /// That of the negative numbers.
    pub fn mirrored(self) -> Direction {
        match self {
            Direction::Below => Direction::Above,
            Direction::Equal => Direction::Equal,
            Direction::Above => Direction::Below,
        }
    }

    pub fn number(self) -> u32 {
        match self {
            Direction::Below => 1,
            Direction::Equal => 2,
            Direction::Above => 3,
        }
    }
}

/// The number `whole` / 2^`places`.
#[derive(Clone, Copy, Debug)]
pub struct Dyadic {
    pub whole: i128,
    pub places: i32,
}

impl Dyadic {
    pub fn new(whole: i128, places: i32) -> Dyadic {
        Dyadic { whole, places }
    }

    /// The whole number over 2^`places`, which must be at least its own places.
    fn over(self, places: i32) -> i128 {
        if self.whole == 0 {
            return 0;
        }
        let unit = 1i128 << (places - self.places);
        self.whole.checked_mul(unit).expect("the number fits 127 bits")
    }

    pub fn plus(self, other: Dyadic) -> Dyadic {
        let places = self.places.max(other.places);
        Dyadic::new(self.over(places) + other.over(places), places)
    }

    pub fn times(self, other: Dyadic) -> Dyadic {
        Dyadic::new(self.whole * other.whole, self.places + other.places)
    }

    pub fn compare(self, other: Dyadic) -> Ordering {
        let places = self.places.max(other.places);
        self.over(places).cmp(&other.over(places))
    }

    pub fn equals(self, other: Dyadic) -> bool {
        self.compare(other) == Ordering::Equal
    }
}

/// RN to `bits` bits. The answer's whole number has exactly `bits` bits, or is zero.
pub fn nearest(bits: u32, number: Dyadic) -> Dyadic {
    let size = number.whole.unsigned_abs();
    if size == 0 {
        return Dyadic::new(0, 0);
    }
    // The binade gives one unit in the last place, 2^unit; a size of fewer bits is widened until that is 1.
    let missing = (bits - 1).saturating_sub(size.ilog2());
    let (size, places) = (size << missing, number.places + missing as i32);
    let unit = size.ilog2() + 1 - bits;
    // The neighbours, and how far off each of them is.
    let below = size >> unit;
    let to_below = size - (below << unit);
    let to_above = ((below + 1) << unit) - size;
    let mut chosen = match to_below.cmp(&to_above) {
        Ordering::Less => below,
        Ordering::Greater => below + 1,
        Ordering::Equal => below + below % 2,
    };
    let mut places = places - unit as i32;
    if chosen == 1 << bits {
        chosen /= 2;
        places -= 1;
    }
    let signed = if number.whole < 0 { -(chosen as i128) } else { chosen as i128 };
    Dyadic::new(signed, places)
}

/// RN with its direction: both numbers are compared.
pub fn directed(bits: u32, number: Dyadic) -> (Dyadic, Direction) {
    let rounded = nearest(bits, number);
    (rounded, Direction::of(rounded.compare(number)))
}

#[cfg(test)]
mod tests {
    use super::*;

    #[test]
    fn ties_go_to_even() {
        let rounded = |whole, places| nearest(4, Dyadic::new(whole, places));
        assert!(rounded(17, 4).equals(Dyadic::new(1, 0)));
        assert!(rounded(19, 4).equals(Dyadic::new(20, 4)));
        assert!(rounded(31, 4).equals(Dyadic::new(2, 0)));
        assert!(rounded(-19, 4).equals(Dyadic::new(-20, 4)));
        assert!(rounded(-17, 4).equals(Dyadic::new(-1, 0)));
        assert_eq!(rounded(31, 4).whole, 8);
    }

    /// Ties down and up, the carry into the next binade, what needs no rounding, and zero; of a negative number it is mirrored.
    #[test]
    fn directions() {
        for (whole, direction) in [
            (17, Direction::Below),
            (19, Direction::Above),
            (31, Direction::Above),
            (33, Direction::Below),
            (35, Direction::Above),
            (30, Direction::Equal),
            (3, Direction::Equal),
            (0, Direction::Equal),
        ] {
            assert_eq!(directed(4, Dyadic::new(whole, 4)).1, direction, "{whole}");
            assert_eq!(directed(4, Dyadic::new(-whole, 4)).1, direction.mirrored(), "-{whole}");
        }
    }

    /// The nearest of all numbers of `bits` bits in reach, and of two equally near the one with the even significand.
    fn by_trial(bits: u32, number: Dyadic) -> Dyadic {
        let least = 1i128 << (bits - 1);
        let size = Dyadic::new(number.whole.abs(), number.places);
        let distance = |places, significand| {
            let there = Dyadic::new(significand, places);
            let apart = there.plus(Dyadic::new(-size.whole, size.places));
            Dyadic::new(apart.whole.abs(), apart.places)
        };
        let mut best = Dyadic::new(least, 0);
        for places in -8..24 {
            for significand in least..2 * least {
                let order = distance(places, significand).compare(distance(best.places, best.whole));
                if order == Ordering::Less || order == Ordering::Equal && significand % 2 == 0 {
                    best = Dyadic::new(significand, places);
                }
            }
        }
        Dyadic::new(if number.whole < 0 { -best.whole } else { best.whole }, best.places)
    }

    #[test]
    fn agrees_with_every_significand_tried() {
        for bits in 4..7 {
            for whole in (-3000i128..3000).filter(|&whole| whole != 0) {
                let number = Dyadic::new(whole, 9);
                let (a, b) = (nearest(bits, number), by_trial(bits, number));
                assert!(a.whole == b.whole && a.places == b.places, "{bits} {whole} {a:?} {b:?}");
            }
        }
        assert_eq!(nearest(5, Dyadic::new(0, 9)).whole, 0);
    }

    #[test]
    fn agrees_with_the_machine_at_24_bits() {
        let mut state = 7u64;
        for _ in 0..200_000 {
            state = state.wrapping_mul(6364136223846793005).wrapping_add(1442695040888963407);
            let whole = (state as i64) >> (state % 61);
            let ours = nearest(24, Dyadic::new(whole as i128, 0));
            let machine = whole as f32;
            let value = ours.whole as f64 * 2f64.powi(-ours.places);
            assert!(value == machine as f64, "{whole}");
            let direction = Direction::of((machine as i128).cmp(&(whole as i128)));
            assert_eq!(directed(24, Dyadic::new(whole as i128, 0)).1, direction, "{whole}");
        }
    }
}
