//! Pseudo-random numbers, the same in every run, and factors of many kinds and of both signs.

use crate::factor::{self, Factor, Refusal};
use crate::kit::Kit;

pub struct Random {
    state: u64,
}

impl Random {
    pub fn new(seed: u64) -> Random {
        Random { state: seed }
    }

    pub fn word(&mut self) -> u64 {
        self.state = self.state.wrapping_add(0x9E37_79B9_7F4A_7C15);
        let mut z = self.state;
        z = (z ^ (z >> 30)).wrapping_mul(0xBF58_476D_1CE4_E5B9);
        z = (z ^ (z >> 27)).wrapping_mul(0x94D0_49BB_1331_11EB);
        z ^ (z >> 31)
    }

    /// A number below `end`.
    pub fn below(&mut self, end: u64) -> u64 {
        self.word() % end
    }

    /// A number from `first` to `last`.
    pub fn from_to(&mut self, first: u64, last: u64) -> u64 {
        first + self.below(last - first + 1)
    }

    /// A number of any size: few bits are as likely as many.
    pub fn any_size(&mut self) -> u64 {
        let shift = self.below(64);
        self.word() >> shift
    }

    pub fn one_of<T: Copy>(&mut self, list: &[T]) -> T {
        list[self.below(list.len() as u64) as usize]
    }
}

const ONE: u64 = 1 << 62;
const LAST: u64 = (1 << 63) - 1;

/// What a factor is set up from: `minus` is 0 for one above zero, and anything else for one below.
#[derive(Clone, Copy, Debug)]
pub struct Given {
    pub minus: u32,
    pub bits: u32,
    pub scale: i32,
    pub lower: u64,
    pub upper: u64,
}

impl Given {
    pub fn set_up(self) -> Result<Factor, Refusal> {
        factor::set_up(self.minus != 0, self.bits, self.scale, self.lower, self.upper)
    }
}

pub const KINDS: u64 = 10;

/// Ends of a kind: random, short, near ties of either part, extreme, ratios, products near midpoints, and any words at all. One factor of
/// four is below zero.
pub fn given(random: &mut Random, bits: u32, kind: u64) -> Given {
    let word = random.word() as u32;
    let minus = if random.below(4) == 0 { random.one_of(&[1, 1, 2, 1 << 31, u32::MAX, word]) } else { 0 };
    let mut scale = random.from_to(0, 200) as i32 - 100;
    let near = |random: &mut Random, end: u64| (end + random.below(3)).saturating_sub(1).clamp(ONE, LAST);
    let lower = match kind {
        // A significand of few bits: the low part is zero, or all products are short.
        0 => {
            let short = random.from_to(1, bits as u64 - 1);
            ONE + (random.below(1 << short) << (62 - short))
        }
        // At and near the middle between two high parts.
        1 => {
            let middle = ONE + ((2 * random.below(1 << (bits - 1)) + 1) << (62 - bits));
            near(random, middle)
        }
        // At and near the middle between two low parts.
        2 => {
            let places = (2 * bits + random.below(4) as u32).min(60);
            let middle = ONE + (random.below(1 << places) << (62 - places));
            near(random, middle)
        }
        // Next to the ends of the range.
        3 => {
            let size = random.below(62);
            let off = random.word() >> (2 + size);
            if random.below(2) == 0 {
                ONE + off
            } else {
                LAST - off
            }
        }
        // A ratio, most often between two ends.
        4 => {
            let q = random.from_to(1, 200);
            let p = random.from_to(q, 2 * q - 1);
            (((p as u128) << 62) / q as u128) as u64
        }
        // The product of some significand lies next to a midpoint.
        5 | 6 => {
            let x = random.from_to(1 << (bits - 1), (1 << bits) - 1);
            let about = (ONE + random.below(ONE)) as u128 * x as u128;
            let half = if about < 1u128 << (62 + bits) { 1u128 << 61 } else { 1u128 << 62 };
            let midpoint = about / (2 * half) * (2 * half) + half;
            let end = (midpoint / x as u128).clamp(ONE as u128, LAST as u128) as u64;
            near(random, end)
        }
        _ => ONE + random.below(ONE),
    };
    let width = match random.below(5) {
        0 | 1 => 0,
        2 => 1,
        3 => random.below(5),
        _ => random.below(1 << (63 - 2 * bits)),
    };
    let upper = (lower + width).min(LAST);
    if kind == 9 {
        scale = random.any_size() as i32 - random.below(200) as i32;
        let any = |random: &mut Random| match random.below(4) {
            0 => random.any_size(),
            1 => ONE - 1 + random.below(3),
            2 => LAST - 1 + random.below(3),
            _ => ONE + random.below(ONE),
        };
        let lower = any(random);
        let upper = if random.below(3) == 0 { lower } else { any(random) };
        let bits = random.one_of(&[bits, bits, bits, 0, 3, 4, 24, 25, 32, 53, 1 << 31, u32::MAX]);
        return Given { minus, bits, scale, lower, upper };
    }
    Given { minus, bits, scale, lower, upper }
}

/// A kit of so many factors, no two alike. Most are of small precision, whose rows are short; the others have few suspects. Some differ from
/// one before in its sign, scale, precision or an end alone.
pub fn kit(random: &mut Random, number: usize) -> Kit {
    let mut factors: Vec<Factor> = Vec::new();
    while factors.len() < number {
        let given = if random.below(4) == 0 && !factors.is_empty() {
            let factor = random.one_of(&factors);
            like(random, factor)
        } else {
            small_or_rare(random)
        };
        match given.set_up() {
            Ok(factor) if !factors.contains(&factor) => factors.push(factor),
            _ => continue,
        }
    }
    Kit { factors }
}

fn small_or_rare(random: &mut Random) -> Given {
    match random.below(16) {
        0 => {
            let (bits, kind) = (random.one_of(&[24, 24, 14, 17, 20, 23]), random.one_of(&[1, 2, 3, 5, 6, 7, 8]));
            given(random, bits, kind)
        }
        1 => {
            let (bits, kind) = (random.from_to(9, 13) as u32, random.below(KINDS));
            given(random, bits, kind)
        }
        _ => {
            let (bits, kind) = (random.from_to(4, 8) as u32, random.below(KINDS - 1));
            given(random, bits, kind)
        }
    }
}

/// All but one of what a factor is told apart by.
fn like(random: &mut Random, factor: Factor) -> Given {
    let Factor { minus, bits, scale, lower, upper, .. } = factor;
    let same = Given { minus: minus as u32, bits, scale, lower, upper };
    match random.below(6) {
        0 | 1 => Given { minus: !minus as u32, ..same },
        2 => Given { scale: random.from_to(0, 200) as i32 - 100, ..same },
        3 => Given { bits: random.from_to(4, 8) as u32, ..same },
        4 => Given { lower: lower - 1, ..same },
        _ => Given { upper: upper + 1, ..same },
    }
}

/// The factors that document 01's readers know: 1/pi, pi, ln 2, the square root of 2, 2.54 and 4/3, each between two ends.
pub const KNOWN: [(&str, i32, u64, u64); 6] = [
    ("1/pi", -2, 0x517CC1B727220A94, 0x517CC1B727220A95),
    ("pi", 1, 0x6487ED5110B4611A, 0x6487ED5110B4611B),
    ("ln 2", -1, 0x58B90BFBE8E7BCD5, 0x58B90BFBE8E7BCD6),
    ("sqrt 2", 0, 0x5A827999FCEF3242, 0x5A827999FCEF3243),
    ("2.54", 1, 0x5147AE147AE147AE, 0x5147AE147AE147AF),
    ("4/3", 0, 0x5555555555555555, 0x5555555555555556),
];
