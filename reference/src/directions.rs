//! Other accounts of a direction (document 02, W4 and W5), to which reference and engine are held: by the dropped digits, and by exact
//! numbers of the machine with the signs on them.

use crate::factor::Factor;
use crate::product::second_sum;
use crate::rounding::{Direction, Dyadic};

/// How a number lies between its neighbours: the direction of its rounding, whether it is a tie, and whether it is carried into the next
/// binade.
#[derive(Clone, Copy, Debug, PartialEq, Eq, PartialOrd, Ord)]
pub struct Place {
    pub direction: Direction,
    pub tie: bool,
    pub carry: bool,
}

/// All places of numbers above zero, or below: what is carried goes away from zero.
pub fn all_places(minus: bool) -> [Place; 7] {
    let (inwards, outwards) =
        if minus { (Direction::Above, Direction::Below) } else { (Direction::Below, Direction::Above) };
    let place = |direction, tie, carry| Place { direction, tie, carry };
    [
        place(Direction::Equal, false, false),
        place(inwards, false, false),
        place(inwards, true, false),
        place(outwards, false, false),
        place(outwards, true, false),
        place(outwards, false, true),
        place(outwards, true, true),
    ]
}

/// The places of what the two-step device and the one-step device round last.
pub fn places(factor: &Factor, x: u64) -> [Place; 2] {
    [second_sum(factor, x), factor.high_part().times(factor.fraction(x))].map(|last| place(factor.bits, last))
}

/// The place of a number that is not zero, by the digits that rounding to `bits` bits drops. Those of a negative number are the ones of its
/// two's complement, so that what is kept lies below it too.
fn place(bits: u32, number: Dyadic) -> Place {
    let dropped = (number.whole.unsigned_abs().ilog2() + 1).saturating_sub(bits);
    let kept = number.whole >> dropped;
    let rest = number.whole - (kept << dropped);
    let tie = 2 * rest == 1 << dropped;
    let up = 2 * rest > 1 << dropped || tie && kept % 2 != 0;
    let direction = match (rest, up) {
        (0, _) => Direction::Equal,
        (_, true) => Direction::Above,
        (_, false) => Direction::Below,
    };
    let rounded = kept + up as i128;
    Place { direction, tie, carry: rest != 0 && rounded.unsigned_abs() == 1 << bits }
}

/// The direction of `answer` as the two-step product of a normal reading: the reading's exponent and the scale are taken off both, and
/// what the answer has more than Ch × x is compared with u1.
pub fn of_product(factor: &Factor, reading: f32, answer: f32) -> Direction {
    let exponent = (reading.to_bits() >> 23 & 0xFF) as i32 - 127;
    let x = reading as f64 * 2f64.powi(-exponent);
    let u1 = factor.low_number() * x as f32;
    let more = answer as f64 * 2f64.powi(-exponent - factor.scale) - factor.high_number() as f64 * x;
    Direction::of_exact(more, u1 as f64)
}

/// The direction of `answer` as the one-step product of a normal reading, which is compared with the exact product.
pub fn of_one_step(factor: &Factor, reading: f32, answer: f32) -> Direction {
    Direction::of_exact(answer as f64, reading as f64 * factor.applied() as f64)
}

/// The direction of `answer` as the quotient of a normal reading, which is compared with the answer multiplied back: by a number below zero
/// the order turns.
pub fn of_quotient(factor: &Factor, reading: f32, answer: f32) -> Direction {
    let (back, reading) = (answer as f64 * factor.applied() as f64, reading as f64);
    if factor.minus {
        Direction::of_exact(reading, back)
    } else {
        Direction::of_exact(back, reading)
    }
}
