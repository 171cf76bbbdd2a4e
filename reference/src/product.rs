//! The product of a significand in two steps, and mark and direction of any device's product.

use crate::factor::{Factor, Refusal};
use crate::reading::number;
use crate::rounding::{directed, nearest, Direction, Dyadic};
use std::cmp::Ordering;

#[derive(Clone, Copy, Debug, PartialEq, Eq)]
pub enum Mark {
    Right,
    Open,
    Wrong,
}

impl Mark {
    pub fn number(self) -> u32 {
        match self {
            Mark::Right => 1,
            Mark::Open => 2,
            Mark::Wrong => 3,
        }
    }
}

#[derive(Clone, Copy, Debug, PartialEq, Eq)]
pub struct Product {
    pub mark: Mark,
    pub significand: u64,
    pub binade: u32,
    /// That of the last rounding, sign included.
    pub direction: Direction,
    pub minus: bool,
}

impl Product {
    /// The product as a number of the machine, at 24 bits.
    pub fn number(self) -> f32 {
        number(self.minus, self.significand, self.binade as i64)
    }

    /// The product by the factor of the other sign (document 02, W5): the law, to which products of either sign are held.
    pub fn mirrored(self) -> Product {
        Product { direction: self.direction.mirrored(), minus: !self.minus, ..self }
    }
}

pub fn multiply(factor: &Factor, x: u64) -> Result<Product, Refusal> {
    factor.check_range(x, x)?;
    Ok(product(factor, x))
}

/// The product of an intact factor and a significand that 17 does not refuse.
pub fn product(factor: &Factor, x: u64) -> Product {
    marked(factor, x, second_sum(factor, x))
}

/// Ch × x + u1 with the factor's sign on both parts, which the second step rounds.
pub fn second_sum(factor: &Factor, x: u64) -> Dyadic {
    let fraction = factor.fraction(x);
    let u1 = nearest(factor.bits, factor.low_part().times(fraction));
    factor.high_part().times(fraction).plus(u1)
}

/// What a device rounds last, which is a value in [1, 4) or (-4, -1] then, with its mark as a product of X: by RN of both ends times x,
/// with their sign.
pub fn marked(factor: &Factor, x: u64, last: Dyadic) -> Product {
    let (value, direction) = directed(factor.bits, last);
    let rounded = |end: i128| nearest(factor.bits, Dyadic::new(end, 62).times(factor.fraction(x)));
    let [first, second] = factor.ends().map(rounded);
    let mark = if value.equals(first) && value.equals(second) {
        Mark::Right
    } else if value.compare(first) == Ordering::Less || value.compare(second) == Ordering::Greater {
        Mark::Wrong
    } else {
        Mark::Open
    };
    let binade = factor.bits as i32 - 1 - value.places;
    assert!(binade == 0 || binade == 1, "the product's size lies in [1, 4)");
    let significand = value.whole.unsigned_abs() as u64;
    Product { mark, significand, binade: binade as u32, direction, minus: value.whole < 0 }
}
