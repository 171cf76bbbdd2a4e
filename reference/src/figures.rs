//! Document 01's example and figures, those of quotients, of the one-step device, of zeros, of directions, of factors below zero and of kits,
//! and the reference's methods held against each other.

use crate::directions::{all_places, of_one_step, of_product, of_quotient, places};
use crate::factor::{greatest, least, parts, set_up, Factor};
use crate::kit::{self, is_clean, most_rounds, told, Kit, Told, KIT_STATE_WORDS, KIT_WORDS, PLACES};
use crate::onestep::{self, count, count_by_values, multiply_once, near_ties, product_once, read_once, tally, Tally};
use crate::product::{multiply, product, Mark, Product};
use crate::quotient::{divide, divide_reading, is_nearest, machine, near_midpoints, quotient, Quotient};
use crate::random::{self, given, Given, Random, KINDS, KNOWN};
use crate::reading::{self, number, read, Number};
use crate::rounding::Direction;
use crate::sweep::{call, new_state, Counts, Halves, Plain, State};
use crate::words::FACTOR_WORDS;
use crate::{frame, search, suspects};
use std::collections::BTreeMap;
use std::io::{self, Write};

pub const EXAMPLE: &str = "04 00 6000000000000000 6000000000000000
04 00 4BFFFC0000000000 4BFFFC0000000000
04 00 51C71C71C71C71C7 51C71C71C71C71C8
";

pub const EXAMPLE_REPORT: &str = "0001 00 00000002 00000000 00000000
00000010
0002 01 00000001 00000001 00000000
00000013
0003 02 00000001 00000000 00000001
";

/// Tallies of the one-step device that are due.
pub struct DueTally {
    pub name: &'static str,
    pub bits: u32,
    pub scale: i32,
    pub ends: (u64, u64),
    pub range: (u64, u64),
    pub tally: Tally,
}

/// W2's figures: all significands of 3/2, P2's factor, 4/3 and the third frame's 23/18 at 4 bits, and the first 4,096 of 1/pi at 24.
pub const TALLIES: [DueTally; 5] = {
    const fn at_4_bits(name: &'static str, ends: (u64, u64), right: u64, wrong: u64, open: u64) -> DueTally {
        DueTally { name, bits: 4, scale: 0, ends, range: (8, 15), tally: Tally { right, wrong, open } }
    }
    [
        at_4_bits("3/2", (3 << 61, 3 << 61), 8, 0, 0),
        at_4_bits("19/16 - 2^-20", (0x4BFFFC0000000000, 0x4BFFFC0000000000), 4, 4, 0),
        at_4_bits("4/3", (0x5555555555555555, 0x5555555555555556), 6, 2, 0),
        at_4_bits("23/18", (0x51C71C71C71C71C7, 0x51C71C71C71C71C8), 5, 2, 1),
        DueTally {
            name: "1/pi",
            bits: 24,
            scale: -2,
            ends: (0x517CC1B727220A94, 0x517CC1B727220A95),
            range: (8_388_608, 8_392_703),
            tally: Tally { right: 2331, wrong: 1765, open: 0 },
        },
    ]
};

/// Source document 004, Table 1: the share of all significands whose one-step product by pi is the correctly rounded one, at so many
/// bits, to five decimals as printed there; and that share as a number of significands, of 2^(n - 1).
pub const TABLE_1: [(u32, &str, u64); 8] = [
    (4, "0.62500", 5),
    (5, "0.93750", 15),
    (6, "0.78125", 25),
    (7, "0.59375", 38),
    (8, "0.96875", 124),
    (16, "0.86765", 28_431),
    (17, "0.73558", 48_207),
    (24, "0.66805", 5_604_034),
];

/// Scale and ends of a height-loss factor's size: a leaning stem loses 0.012 m of measured height for each metre, and 0.012 × 2^7 = 1.536.
pub const HEIGHT_LOSS: (i32, u64, u64) = (-7, 0x624DD2F1A9FBE76C, 0x624DD2F1A9FBE76D);

/// The factor of Table 1, pi at so many bits.
pub fn pi(bits: u32) -> Factor {
    let (_, scale, lower, upper) = KNOWN[1];
    set_up(false, bits, scale, lower, upper).expect("an accepted factor")
}

pub fn selftest(output: &mut dyn Write) -> io::Result<()> {
    example();
    table();
    scale_100();
    square_root_of_2();
    quotients();
    quotients_of_readings();
    farthest_quotients();
    quotients_of_every_precision();
    one_step();
    one_step_readings();
    farthest_one_step();
    tallies();
    table_1();
    one_step_of_every_precision();
    zeros();
    zeros_of_many_factors();
    directions();
    directions_of_readings();
    directions_of_every_precision();
    below_zero();
    readings_below_zero();
    frames_below_zero();
    signs_of_every_precision();
    kit_of_examples();
    kits_refused();
    kits_of_many_factors();
    methods();
    writeln!(
        output,
        "selftest: document 01's example and figures stand, those of quotients, of the one-step device, of zeros, of directions, of factors below zero and of kits too, and the methods agree"
    )
}

fn accepted(bits: u32, lower: u64, upper: u64) -> Factor {
    set_up(false, bits, 0, lower, upper).expect("an accepted factor")
}

fn all_suspects(factor: &Factor) -> Vec<u64> {
    suspects::row(factor, least(factor.bits), greatest(factor.bits))
}

fn example() {
    let mut report = Vec::new();
    frame::plotconst(&mut EXAMPLE.as_bytes(), &mut report).expect("written to memory");
    assert_eq!(String::from_utf8_lossy(&report), EXAMPLE_REPORT);
}

fn table() {
    let answer = |factor: &Factor, x| {
        let product = multiply(factor, x).expect("a product");
        (product.significand, product.binade, product.mark)
    };
    // P1
    let f = accepted(4, 3 << 61, 3 << 61);
    assert_eq!((f.low, f.places, f.low_float), (0, 0, 0));
    assert_eq!(all_suspects(&f), [9, 14]);
    assert_eq!(answer(&f, 9), (14, 0, Mark::Right));
    assert_eq!(answer(&f, 14), (10, 1, Mark::Right));
    // P2: 19/16 - 2^-20
    let end = (19u64 << 58) - (1 << 42);
    let f = accepted(4, end, end);
    assert_eq!((f.high, f.low, f.places), (9, 8, 7));
    assert_eq!(all_suspects(&f), [8]);
    assert_eq!(answer(&f, 8), (10, 0, Mark::Wrong));
    // P3
    let f = accepted(4, 0x51C71C71C71C71C7, 0x51C71C71C71C71C8);
    assert_eq!((f.high, f.low, f.places), (10, 14, 9));
    assert_eq!(answer(&f, 9), (12, 0, Mark::Open));
    // P4
    let f = accepted(4, 0x5555555555555555, 0x5555555555555556);
    assert_eq!((f.high, f.low, f.places), (11, -11, 8));
    // P5
    let end = (1u64 << 63) - 1;
    let f = accepted(4, end, end);
    assert_eq!((f.high, f.low, f.places), (16, -8, 65));
    let product = multiply(&f, 15).expect("a product");
    assert_eq!((product.significand, product.binade), (15, 1));
    // P6 to P9
    assert_eq!(set_up(false, 4, 0, (17 << 58) - 1, (17 << 58) + 1), Err(15));
    assert_eq!(set_up(false, 4, 0, 3 << 61, (3 << 61) + 1), Err(16));
    assert!(set_up(false, 4, 0, 1 << 62, 1 << 62).is_ok());
    assert_eq!(set_up(false, 4, 0, 1 << 62, 1 << 63), Err(12));
    assert_eq!(set_up(false, 3, 0, 1 << 62, 1 << 62), Err(11));
    assert_eq!(set_up(false, 25, 0, 1 << 62, 1 << 62), Err(11));
}

fn scale_100() {
    let factor = set_up(false, 24, 100, 3 << 61, 3 << 61).expect("an accepted factor");
    assert_eq!(read(&factor, (127 + 27) << 23), Ok((Mark::Right, Number::equal(1.5f32.to_bits() + (127 << 23)))));
    assert_eq!(read(&factor, (127 + 28) << 23), Err(23));
}

fn square_root_of_2() {
    let factor = accepted(24, 0x5A827999FCEF3242, 0x5A827999FCEF3243);
    for x in least(24)..=greatest(24) {
        assert_eq!(product(&factor, x).mark, Mark::Right);
    }
}

fn quotients() {
    let answer = |factor: &Factor, x| divide(factor, x).map(|quotient| (quotient.significand, quotient.binade));
    let f = accepted(4, 3 << 61, 3 << 61);
    assert_eq!(answer(&f, 8), Ok((11, -1)));
    assert_eq!(answer(&f, 12), Ok((8, 0)));
    assert_eq!(answer(&f, 15), Ok((10, 0)));
    assert_eq!(answer(&f, 7), Err(17));
    assert_eq!(answer(&f, 16), Err(17));
    assert_eq!(answer(&Factor { low: 8, ..f }, 16), Err(31));
    // Ch = 2 and Ch = 1: the significand itself, in one binade or the other.
    for bits in 4..=24 {
        let (two, one) = (accepted(bits, (1 << 63) - 1, (1 << 63) - 1), accepted(bits, 1 << 62, 1 << 62));
        for x in [least(bits), least(bits) + 1, greatest(bits)] {
            assert_eq!(answer(&two, x), Ok((x, -1)));
            assert_eq!(answer(&one, x), Ok((x, 0)));
        }
    }
}

fn quotients_of_readings() {
    // A diameter of 1/2 by 1/pi: a girth of pi/2.
    let f = set_up(false, 24, -2, 0x517CC1B727220A94, 0x517CC1B727220A95).expect("an accepted factor");
    assert_eq!(divide_reading(&f, 0x3F000000), Ok(Number::below(0x3FC90FDB)));
    assert_eq!(divide_reading(&f, 0xBF000000), Ok(Number::above(0xBFC90FDB)));
    assert_eq!(divide_reading(&f, 0x80000000), Ok(Number::equal(0x80000000)));
    assert_eq!(divide_reading(&f, 0x7F800000), Err(21));
    assert_eq!(divide_reading(&f, 0x807FFFFF), Err(22));
    assert_eq!(divide_reading(&Factor { scale: 101, ..f }, 0x7F800000), Err(31));
    assert_eq!(divide_reading(&accepted(23, 3 << 61, 3 << 61), 0x7F800000), Err(20));
    // 3/2: 1 is divided into the lower binade, 3/2 is not; so the exponents' limits are met one apart.
    let reading = |x: f32, exponent: i32| x.to_bits().wrapping_add_signed(exponent << 23);
    let f = set_up(false, 24, 100, 3 << 61, 3 << 61).expect("an accepted factor");
    assert_eq!(divide_reading(&f, reading(1.0, -25)), Ok(Number::above(0x00AAAAAB)));
    assert_eq!(divide_reading(&f, reading(1.0, -26)), Err(23));
    assert_eq!(divide_reading(&f, reading(1.5, -26)), Ok(Number::equal(0x00800000)));
    assert_eq!(divide_reading(&f, reading(1.5, -27)), Err(23));
    let f = set_up(false, 24, -100, 3 << 61, 3 << 61).expect("an accepted factor");
    assert_eq!(divide_reading(&f, reading(1.0, 28)), Ok(Number::above(0x7F2AAAAB)));
    assert_eq!(divide_reading(&f, reading(1.0, 29)), Err(23));
    assert_eq!(divide_reading(&f, reading(1.5, 27)), Ok(Number::equal(0x7F000000)));
    assert_eq!(divide_reading(&f, reading(1.5, 28)), Err(23));
    // Just below 2^-126: one division of the whole reading would round it up to that, by a tie of subnormal numbers.
    let f = accepted(24, (1 << 63) - 1, (1 << 63) - 1);
    assert_eq!((f32::from_bits(0x00FFFFFF) / 2.0).to_bits(), 0x00800000);
    assert_eq!(divide_reading(&f, 0x00FFFFFF), Err(23));
    assert_eq!(divide_reading(&f, 0x01000000), Ok(Number::equal(0x00800000)));
}

/// A significand with a sign.
fn with_sign(minus: bool, significand: u64) -> i128 {
    significand as i128 * if minus { -1 } else { 1 }
}

/// Twice the distance from x / C to the quotient, C = end / 2^62 with the factor's sign, and the unit in the last place of x / C, both over
/// the same.
fn quotient_off(factor: &Factor, end: u64, x: u64) -> (u128, u128) {
    let Quotient { significand, binade, minus, .. } = quotient(factor, x);
    let ours = (with_sign(minus, significand) * end as i128) << (binade + 1);
    let below_one = (x as u128) << 62 < (end as u128) << (factor.bits - 1);
    (2 * ours.abs_diff(factor.signed(x as i128) << 63), (end as u128) << (1 - below_one as u32))
}

/// Twice the distance from C × x to the one-step product, C = end / 2^62 with the factor's sign, and the unit in the last place of C × x,
/// both over 2^(61 + n).
fn one_step_off(factor: &Factor, end: u64, x: u64) -> (u128, u128) {
    let Product { significand, binade, minus, .. } = product_once(factor, x);
    let (ours, exact) = (with_sign(minus, significand) << (62 + binade), factor.signed(end as i128 * x as i128));
    let below_two = exact.unsigned_abs() < 1 << (62 + factor.bits);
    (2 * ours.abs_diff(exact), 1 << if below_two { 62 } else { 63 })
}

/// Less than 3/2 units in the last place of x / C (003, Property 3.1), or of C × x (Property 2.1), C being either end.
fn near_enough(factor: &Factor, x: u64, off: fn(&Factor, u64, u64) -> (u128, u128)) -> bool {
    [factor.lower, factor.upper].into_iter().all(|end| {
        let (twice_off, unit) = off(factor, end, x);
        twice_off < 3 * unit
    })
}

/// 003's example 2, for even and for odd precisions: hardly better than the bound, at 24 bits 1.49957 units.
fn farthest_quotients() {
    for bits in 6..=24 {
        let half = bits / 2;
        let end = (1 << 62) + (1 << (61 - half)) - (1 << (62 - bits));
        let (x, binade) = if bits % 2 == 0 { ((1 << bits) - (1 << (half - 1)), 0) } else { (least(bits), -1) };
        let factor = accepted(bits, end, end);
        let significand = (1 << bits) - (1 << half);
        let due = Quotient { significand, binade, direction: Direction::Below, minus: false };
        assert_eq!(quotient(&factor, x), due);
        assert!(near_enough(&factor, x, quotient_off));
        let (twice_off, unit) = quotient_off(&factor, end, x);
        assert!(bits < 24 || 100_000 * twice_off / (2 * unit) == 149_957);
    }
}

/// For factors of many kinds: quotients, those next to midpoints among them, are nearest and near enough; at 24 bits they are the
/// machine's binary32 quotients too.
fn quotients_of_every_precision() {
    let mut random = Random::new(5);
    for i in 0..270_000 {
        let given = given(&mut random, 4 + (i / KINDS % 21) as u32, i % KINDS);
        let Ok(factor) = given.set_up() else { continue };
        let (first, last) = (least(factor.bits), greatest(factor.bits));
        let mut significands = near_midpoints(&factor);
        significands.extend([first, last, random.from_to(first, last), factor.high.min(last)]);
        for x in significands {
            assert!(is_nearest(&factor, x) && near_enough(&factor, x, quotient_off), "{factor:X?} {x:X}");
            if factor.bits == 24 {
                let whole = quotient(&factor, x);
                let due = (whole.number(), whole.direction);
                assert_eq!(machine(&factor, number(false, x, 0)), due, "{factor:X?} {x:X}");
            }
        }
    }
}

fn one_step() {
    let answer = |factor: &Factor, x| {
        multiply_once(factor, x).map(|product| (product.significand, product.binade, product.mark))
    };
    // 3/2 is its own high part; 9 and 14 give ties.
    let f = accepted(4, 3 << 61, 3 << 61);
    assert_eq!(answer(&f, 8), Ok((12, 0, Mark::Right)));
    assert_eq!(answer(&f, 9), Ok((14, 0, Mark::Right)));
    assert_eq!(answer(&f, 14), Ok((10, 1, Mark::Right)));
    assert_eq!(answer(&f, 15), Ok((11, 1, Mark::Right)));
    assert_eq!(answer(&f, 7), Err(17));
    assert_eq!(answer(&f, 16), Err(17));
    assert_eq!(answer(&Factor { low: 8, ..f }, 16), Err(31));
    // P2's factor: its high part is 9/8. What is wrong in two steps is right in one, and the other way round.
    let f = accepted(4, 0x4BFFFC0000000000, 0x4BFFFC0000000000);
    assert_eq!(answer(&f, 8), Ok((9, 0, Mark::Right)));
    assert_eq!(answer(&f, 15), Ok((8, 1, Mark::Wrong)));
    let due = Product { significand: 9, binade: 1, mark: Mark::Right, direction: Direction::Above, minus: false };
    assert_eq!(product(&f, 15), due);
    // P3's factor: its high part is 10/8, and 9 × 10/8 lies between what the ends are rounded to.
    let f = accepted(4, 0x51C71C71C71C71C7, 0x51C71C71C71C71C8);
    assert_eq!(answer(&f, 9), Ok((11, 0, Mark::Open)));
    // A high part of 2 takes a significand to itself, in the next binade.
    for bits in 4..=24 {
        let two = accepted(bits, (1 << 63) - 1, (1 << 63) - 1);
        for x in [least(bits), least(bits) + 1, greatest(bits)] {
            assert!(matches!(answer(&two, x), Ok((significand, 1, _)) if significand == x));
        }
    }
}

fn one_step_readings() {
    // 1/pi, as one binary32 number.
    let f = set_up(false, 24, -2, 0x517CC1B727220A94, 0x517CC1B727220A95).expect("an accepted factor");
    let applied = f32::from_bits(f.high_float) / 4.0;
    for girth in [1.57f32, -1.57, 1.0, 3.0e38, 4.0e-38] {
        assert_eq!(read_once(&f, girth.to_bits()).map(|answer| answer.1.bits), Ok((girth * applied).to_bits()));
    }
    assert_eq!(read_once(&f, 0x80000000), Ok((Mark::Right, Number::equal(0x80000000))));
    assert_eq!(read_once(&f, 0x7F800000), Err(21));
    assert_eq!(read_once(&f, 0x807FFFFF), Err(22));
    assert_eq!(read_once(&f, 0x00800000), Err(23));
    assert_eq!(read_once(&Factor { scale: 101, ..f }, 0x7F800000), Err(31));
    assert_eq!(read_once(&accepted(23, 3 << 61, 3 << 61), 0x7F800000), Err(20));
    let f = set_up(false, 24, 100, 3 << 61, 3 << 61).expect("an accepted factor");
    assert_eq!(read_once(&f, (127 + 27) << 23), Ok((Mark::Right, Number::equal(1.5f32.to_bits() + (127 << 23)))));
    assert_eq!(read_once(&f, (127 + 28) << 23), Err(23));
    // Just below 2^-126: one multiplication of the whole reading would round it up to that, by a tie of subnormal numbers.
    let f = set_up(false, 24, -1, 1 << 62, 1 << 62).expect("an accepted factor");
    assert_eq!((f32::from_bits(0x00FFFFFF) * 0.5).to_bits(), 0x00800000);
    assert_eq!(read_once(&f, 0x00FFFFFF), Err(23));
    assert_eq!(read_once(&f, 0x01000000), Ok((Mark::Right, Number::equal(0x00800000))));
    // One binary32 multiplication of the whole reading by Ch × 2^k, sign included, where the product is not refused; and 23 where it lies
    // outside.
    let mut random = Random::new(8);
    let mut refused = [0, 0];
    for i in 0..540_000 {
        let g = given(&mut random, 24, i % (KINDS - 1));
        let Ok(factor) = g.set_up() else { continue };
        let reading = f32::from_bits(random.word() as u32);
        if !reading.is_normal() {
            continue;
        }
        let applied = factor.applied();
        // With its sign, in binary64.
        let exact = reading as f64 * applied as f64;
        match read_once(&factor, reading.to_bits()) {
            Ok((_, Number { bits, direction })) => {
                let value = reading * applied;
                assert_eq!(bits, value.to_bits());
                assert_eq!(direction, Direction::of_exact(value as f64, exact), "{factor:X?} {reading}");
            }
            Err(refusal) => {
                assert_eq!(refusal, 23);
                let size = exact.abs();
                assert!(size < 2f64.powi(-126) || 2f64.powi(128) <= size, "{factor:X?} {reading}");
                refused[(size > 1.0) as usize] += 1;
            }
        }
    }
    assert!(refused.iter().all(|&count| count > 10_000), "{refused:?}");
}

/// 003's example 1, for even and for odd precisions: hardly better than the bound, at 24 bits 1.499756 units. Ch × x is a tie that goes
/// up, for odd precisions into the binade above C × x. (At 4 bits C is a tie whose even neighbour is 1, and the example none.)
fn farthest_one_step() {
    for bits in 5..=24 {
        let half = bits / 2;
        let end = (1 << 62) + (1 << (61 - half)) - (1 << (62 - bits));
        let x = (1 << bits) - (1 << half);
        let (significand, binade) = if bits % 2 == 0 { (x + (1 << (half - 1)), 0) } else { (least(bits), 1) };
        let factor = accepted(bits, end, end);
        let due = Product { mark: Mark::Wrong, significand, binade, direction: Direction::Above, minus: false };
        assert_eq!(product_once(&factor, x), due);
        assert!(near_enough(&factor, x, one_step_off));
        let (twice_off, unit) = one_step_off(&factor, end, x);
        assert_eq!((3 * unit - twice_off) << ((bits + 1) / 2), 2 * unit);
        assert!(bits < 24 || 1_000_000 * twice_off / (2 * unit) == 1_499_755);
    }
}

fn tallies() {
    for due in TALLIES {
        let (lower, upper) = due.ends;
        let (first, last) = due.range;
        for minus in [false, true] {
            let factor = set_up(minus, due.bits, due.scale, lower, upper).expect("an accepted factor");
            assert_eq!(tally(&factor, first, last), Ok(due.tally), "{}", due.name);
        }
    }
    // 17 bits have 65,536 significands, which are taken; 18 have more.
    let (first, last) = (least(18), greatest(18));
    assert_eq!(tally(&pi(17), least(17), greatest(17)).map(Tally::length), Ok(65_536));
    assert_eq!(tally(&pi(18), first, first + 65_535).map(Tally::length), Ok(65_536));
    assert_eq!(tally(&pi(18), first, first + 65_536), Err(41));
    assert_eq!(tally(&pi(18), last - 65_535, last).map(Tally::length), Ok(65_536));
    assert_eq!(tally(&pi(18), last - 65_536, last), Err(41));
    assert_eq!(tally(&pi(18), first - 1, last), Err(17));
    assert_eq!(tally(&pi(18), first, last + 1), Err(17));
    assert_eq!(tally(&pi(18), last, first), Err(17));
    assert_eq!(tally(&pi(18), last, last - 1), Err(17));
    assert_eq!(tally(&pi(18), 0, u64::MAX), Err(17));
    assert_eq!(tally(&Factor { low: 8, ..pi(18) }, last, first), Err(31));
}

/// The table's numbers are its shares, and the tally's right ones; at 24 bits they are the machine's own too.
fn table_1() {
    for (bits, share, right) in TABLE_1 {
        assert_eq!(format!("{:.5}", right as f64 / least(bits) as f64), share);
        let factor = pi(bits);
        let tally = count(&factor, least(bits), greatest(bits));
        assert_eq!((tally.right, tally.length()), (right, least(bits)), "pi at {bits} bits");
        assert!(bits > 17 || count_by_values(&factor, least(bits), greatest(bits)) == tally);
        if bits == 24 {
            for factor in [factor, factor.opposite()] {
                let machine = |x| onestep::machine(&factor, number(false, x, 0)).0;
                let all = (least(bits)..=greatest(bits)).filter(|&x| machine(x) == Mark::Right).count();
                assert_eq!(all as u64, right);
            }
        }
    }
}

/// For factors of many kinds: one-step products, ties and those next to them among them, are near enough; at 24 bits they are the
/// machine's binary32 products too.
fn one_step_of_every_precision() {
    let mut random = Random::new(9);
    for i in 0..270_000 {
        let given = given(&mut random, 4 + (i / KINDS % 21) as u32, i % KINDS);
        let Ok(factor) = given.set_up() else { continue };
        let (first, last) = (least(factor.bits), greatest(factor.bits));
        let mut significands = near_ties(&factor);
        significands.extend([first, last, random.from_to(first, last)]);
        for x in significands {
            assert!(near_enough(&factor, x, one_step_off), "{factor:X?} {x:X}");
            if factor.bits == 24 {
                let whole = product_once(&factor, x);
                let due = (whole.mark, whole.number(), whole.direction);
                assert_eq!(onestep::machine(&factor, number(false, x, 0)), due, "{factor:X?} {x:X}");
            }
        }
    }
}

/// Zeros of both signs keep their sign, whatever sign the low part has, at every scale, and by a factor below zero have the other one; and
/// the refusals that are judged before.
fn zeros() {
    // The low part of 3/2 + 2^-62 is positive, that of 3/2 zero; those of 3/2 - 2^-62 and of pi are negative.
    let (end, (_, _, lower, upper)) = (3 << 61, KNOWN[1]);
    for (lower, upper, sign) in [(end + 1, end + 1, 1), (end, end, 0), (end - 1, end - 1, -1), (lower, upper, -1)] {
        for scale in -100..=100 {
            let f = set_up(false, 24, scale, lower, upper).expect("an accepted factor");
            assert_eq!(f.low.signum(), sign);
            for zero in [0x00000000, 0x80000000] {
                assert_eq!(read(&f, zero), Ok((Mark::Right, Number::equal(zero))));
                assert_eq!(read_once(&f, zero), Ok((Mark::Right, Number::equal(zero))));
                assert_eq!(divide_reading(&f, zero), Ok(Number::equal(zero)));
                let (f, other) = (f.opposite(), zero ^ 0x80000000);
                assert_eq!(read(&f, zero), Ok((Mark::Right, Number::equal(other))));
                assert_eq!(read_once(&f, zero), Ok((Mark::Right, Number::equal(other))));
                assert_eq!(divide_reading(&f, zero), Ok(Number::equal(other)));
            }
            check_zeros(&f);
            check_zeros(&f.opposite());
        }
    }
    let other_sign = Factor { low_float: pi(24).low_float ^ 0x80000000, ..pi(24) };
    for (f, refusal) in [(pi(23), 20), (pi(23).opposite(), 20), (other_sign, 31), (other_sign.opposite(), 31)] {
        for zero in [0x00000000, 0x80000000] {
            assert_eq!(read(&f, zero), Err(refusal));
            assert_eq!(read_once(&f, zero), Err(refusal));
            assert_eq!(divide_reading(&f, zero), Err(refusal));
        }
    }
}

/// A zero's answers are the machine's single product and quotient of the reading and Ch × 2^k, sign included, which is a normal number. The
/// two steps themselves would make plus zero of minus zero where the parts have unlike signs, and there alone.
fn check_zeros(factor: &Factor) {
    let (high, low, applied) = (factor.high_number(), factor.low_number(), factor.applied());
    assert!(applied.is_normal());
    for zero in [0.0f32, -0.0] {
        let (bits, product, quotient) = (zero.to_bits(), (zero * applied).to_bits(), (zero / applied).to_bits());
        let right = Ok((Mark::Right, Number::equal(product)));
        assert_eq!((read(factor, bits), read_once(factor, bits)), (right, right), "{factor:X?}");
        assert_eq!(divide_reading(factor, bits), Ok(Number::equal(quotient)), "{factor:X?}");
        let lost = zero.is_sign_negative() != factor.minus && factor.low < 0;
        let steps = high.mul_add(zero, low * zero).to_bits();
        assert_eq!(steps, if lost { 0 } else { product }, "{factor:X?}");
        assert!(!lost || product == 0x8000_0000, "{factor:X?}");
    }
}

/// The same for factors of many kinds and of both signs, low parts of every sign among them.
fn zeros_of_many_factors() {
    let mut random = Random::new(11);
    let mut met = [0; 3];
    for i in 0..20_000 {
        let g = given(&mut random, 24, i % (KINDS - 1));
        let Ok(factor) = g.set_up() else { continue };
        check_zeros(&factor);
        check_zeros(&factor.opposite());
        met[(factor.low.signum() + 1) as usize] += 1;
    }
    assert!(met.iter().all(|&factors| factors > 1000), "{met:?}");
}

/// W4's figures at 4 bits: 8 to 15, the direction of the last rounding.
fn directions() {
    use Direction::{Above, Below, Equal};
    let all = [8, 9, 10, 11, 12, 13, 14, 15];
    let two_steps = |factor: &Factor| all.map(|x| product(factor, x).direction);
    let one_step = |factor: &Factor| all.map(|x| product_once(factor, x).direction);
    let divided = |factor: &Factor| all.map(|x| quotient(factor, x).direction);
    // 4/3: Ch = 11/8 and Cl = -11/256.
    let f = accepted(4, 0x5555555555555555, 0x5555555555555556);
    assert_eq!(two_steps(&f), [Above, Equal, Below, Above, Equal, Above, Below, Equal]);
    assert_eq!(one_step(&f), [Equal, Below, Above, Below, Below, Above, Above, Below]);
    assert_eq!(divided(&f), [Above, Below, Above, Equal, Above, Below, Below, Above]);
    // 3/2 has no low part, and both devices are one: 9 × 12 / 8 = 13 1/2 is a tie that goes up, 14 × 12 / 16 = 10 1/2 one that goes down.
    let f = accepted(4, 3 << 61, 3 << 61);
    assert_eq!(two_steps(&f), [Equal, Above, Equal, Below, Equal, Above, Below, Below]);
    assert_eq!(one_step(&f), two_steps(&f));
    assert_eq!(divided(&f), [Above, Equal, Below, Above, Equal, Above, Below, Equal]);
    let answer = |product: Product| (product.significand, product.binade, product.direction, product.mark);
    // Ties with a low part. 5/3: 195/64 + 5/64 = 25/8, that is 12 1/2 quarters, goes down. 9/5: 210/64 + 6/64 = 27/8, 13 1/2 quarters, up.
    // Both are C × x too, and the ends are rounded apart.
    let f = accepted(4, 0x6AAAAAAAAAAAAAAA, 0x6AAAAAAAAAAAAAAB);
    assert_eq!(answer(product(&f, 15)), (12, 1, Below, Mark::Open));
    let f = accepted(4, 0x7333333333333333, 0x7333333333333334);
    assert_eq!(answer(product(&f, 15)), (14, 1, Above, Mark::Open));
    // Carries. 7/4 on either device: 9 × 14 / 8 = 15 3/4 is rounded up to 16, which is 8 in the next binade.
    let f = accepted(4, 7 << 60, 7 << 60);
    assert_eq!(answer(product(&f, 9)), (8, 1, Above, Mark::Right));
    assert_eq!(answer(product_once(&f, 9)), (8, 1, Above, Mark::Right));
    // 13/9, whose Ch is 3/2 and Cl -7/128: 132/64 - 5/64 = 127/64 goes up to 2, where the one-step 132/64 goes down to it.
    let f = accepted(4, 0x5C71C71C71C71C71, 0x5C71C71C71C71C72);
    assert_eq!(answer(product(&f, 11)), (8, 1, Above, Mark::Right));
    assert_eq!(answer(product_once(&f, 11)), (8, 1, Below, Mark::Right));
    // Equal says that the last rounding was exact. 10 × 12 / 8 = 15 is, but 13/9 × 10 = 14 4/9, and 15 is wrong.
    assert_eq!(answer(product_once(&f, 10)), (15, 0, Equal, Mark::Wrong));
    // 2731/2048 has the parts of 4/3: 99/64 - 3/64 is 3/2, and 2731/2048 × 9/8 is not.
    let f = accepted(4, 2731 << 51, 2731 << 51);
    assert_eq!((f.high, f.low, f.places), (11, -11, 8));
    assert_eq!(answer(product(&f, 9)), (12, 0, Equal, Mark::Right));
}

/// 1/pi on readings. The product of 1.57 comes down in two steps and goes up to the same in one; a minus mirrors either.
fn directions_of_readings() {
    let f = set_up(false, 24, -2, 0x517CC1B727220A94, 0x517CC1B727220A95).expect("an accepted factor");
    assert_eq!(read(&f, 0x3FC8F5C3), Ok((Mark::Right, Number::below(0x3EFFDEC7))));
    assert_eq!(read(&f, 0xBFC8F5C3), Ok((Mark::Right, Number::above(0xBEFFDEC7))));
    assert_eq!(read_once(&f, 0x3FC8F5C3), Ok((Mark::Right, Number::above(0x3EFFDEC7))));
    assert_eq!(read_once(&f, 0xBFC8F5C3), Ok((Mark::Right, Number::below(0xBEFFDEC7))));
    assert_eq!(divide_reading(&f, 0x3FC8F5C3), Ok(Number::above(0x409DD569)));
    assert_eq!(divide_reading(&f, 0xBFC8F5C3), Ok(Number::below(0xC09DD569)));
    // Ch × pi lies below 2 and is carried there in one step; u1 takes it past 2, and the second step comes down to it.
    assert_eq!(read(&f, 0x40490FDB), Ok((Mark::Right, Number::below(0x3F800000))));
    assert_eq!(read_once(&f, 0x40490FDB), Ok((Mark::Right, Number::above(0x3F800000))));
    // In one step 1 gives Ch itself.
    assert_eq!(read(&f, 0x3F800000), Ok((Mark::Right, Number::below(0x3EA2F983))));
    assert_eq!(read_once(&f, 0x3F800000), Ok((Mark::Right, Number::equal(0x3EA2F983))));
    assert_eq!(read_once(&f, 0xBF800000), Ok((Mark::Right, Number::equal(0xBEA2F983))));
    // Ch × 2^-2 divided by itself.
    assert_eq!(divide_reading(&f, f.high_float - (2 << 23)), Ok(Number::equal(0x3F800000)));
}

/// For factors of many kinds and of both signs: what is compared as whole numbers has the direction that the dropped digits tell; at 24 bits
/// it is the machine's too, and readings of both signs have it, one mirrored. Ties and carries are met on both devices.
fn directions_of_every_precision() {
    let mut random = Random::new(12);
    let mut met = BTreeMap::new();
    for i in 0..130_000 {
        let given = given(&mut random, 4 + (i / KINDS % 21) as u32, i % KINDS);
        let Ok(factor) = given.set_up() else { continue };
        let (first, last) = (least(factor.bits), greatest(factor.bits));
        let mut significands = near_ties(&factor);
        significands.extend([first, last, random.from_to(first, last), (factor.first_high() - 1).max(first)]);
        for x in significands {
            let answers = [product(&factor, x), product_once(&factor, x)];
            for (device, place) in places(&factor, x).into_iter().enumerate() {
                assert_eq!(answers[device].direction, place.direction, "{factor:X?} {x:X}");
                *met.entry((device, factor.minus, place)).or_insert(0) += 1;
            }
            if factor.bits == 24 {
                check_signs(&factor, x);
            }
        }
    }
    for (device, minus) in [(0, false), (0, true), (1, false), (1, true)] {
        for due in all_places(minus).map(|place| (device, minus, place)) {
            assert!(met.get(&due).is_some_and(|&count| count > 100), "{due:?} of {met:?}");
        }
    }
}

/// The significand as a reading, of both signs.
fn check_signs(factor: &Factor, x: u64) {
    let whole = product(factor, x);
    let due = (whole.mark, whole.number(), whole.direction);
    assert_eq!(reading::product(factor, number(false, x, 0)), due, "{factor:X?} {x:X}");
    let check = |function: &dyn Fn(u32) -> Number, direction: fn(&Factor, f32, f32) -> Direction| {
        let plus = number(false, x, 0).to_bits();
        let (there, mirrored) = (function(plus), function(plus ^ 0x8000_0000));
        assert_eq!(mirrored, there.mirrored(), "{factor:X?} {x:X}");
        for (reading, number) in [(plus, there), (plus ^ 0x8000_0000, mirrored)] {
            let by_machine = direction(factor, f32::from_bits(reading), f32::from_bits(number.bits));
            assert_eq!(number.direction, by_machine, "{factor:X?} {x:X}");
        }
    };
    check(&|bits| read(factor, bits).expect("a product").1, of_product);
    check(&|bits| read_once(factor, bits).expect("a product").1, of_one_step);
    check(&|bits| divide_reading(factor, bits).expect("a quotient"), of_quotient);
}

/// W5's figures at 4 bits: P1 to P9 with a minus on the factor, whose parts, marks and suspects are those of the size.
fn below_zero() {
    use Direction::{Above, Below, Equal};
    use Mark::{Open, Right, Wrong};
    let below = |lower, upper| set_up(true, 4, 0, lower, upper).expect("an accepted factor");
    let due = |significand, binade, direction, mark| Ok(Product { mark, significand, binade, direction, minus: true });
    let quotient = |significand, binade, direction| Ok(Quotient { significand, binade, direction, minus: true });
    // P1: 9 × -12 / 8 = -13 1/2 is a tie that goes down, 14 × -12 / 16 = -10 1/2 one that goes up.
    let f = below(3 << 61, 3 << 61);
    assert_eq!(f, Factor { minus: true, ..accepted(4, 3 << 61, 3 << 61) });
    assert_eq!((f.high_float, f.low_float), (0x3FC00000, 0));
    assert_eq!(all_suspects(&f), [9, 14]);
    for multiply in [multiply, multiply_once] {
        assert_eq!(multiply(&f, 9), due(14, 0, Below, Right));
        assert_eq!(multiply(&f, 14), due(10, 1, Above, Right));
        assert_eq!(multiply(&f, 12), due(9, 1, Equal, Right));
        assert_eq!(multiply(&f, 16), Err(17));
        assert_eq!(multiply(&Factor { high: 13, ..f }, 16), Err(31));
    }
    // 8 / -12 × 16 = -10 2/3 goes down, 14 / -12 × 8 = -9 1/3 up.
    assert_eq!(divide(&f, 8), quotient(11, -1, Below));
    assert_eq!(divide(&f, 12), quotient(8, 0, Equal));
    assert_eq!(divide(&f, 14), quotient(9, 0, Above));
    assert_eq!(divide(&f, 7), Err(17));
    // P2: -9/8 - 1/16 is -9 1/2 eighths, a tie that goes down. In one step -9/8 is exact, and 15 × -9 / 16 = -8 7/16 goes up.
    let f = below(0x4BFFFC0000000000, 0x4BFFFC0000000000);
    assert_eq!((f.high, f.low, f.places), (9, 8, 7));
    assert_eq!(all_suspects(&f), [8]);
    assert_eq!(multiply(&f, 8), due(10, 0, Below, Wrong));
    assert_eq!(multiply_once(&f, 8), due(9, 0, Equal, Right));
    assert_eq!(multiply_once(&f, 15), due(8, 1, Above, Wrong));
    // P3: -90/64 - 2/64 is -11 1/2 eighths, and in one step it is -11 1/4.
    let f = below(0x51C71C71C71C71C7, 0x51C71C71C71C71C8);
    assert_eq!((f.high, f.low, f.places), (10, 14, 9));
    assert_eq!(multiply(&f, 9), due(12, 0, Below, Open));
    assert_eq!(multiply_once(&f, 9), due(11, 0, Above, Open));
    // P4: the low part is stored as that of the size.
    let f = below(0x5555555555555555, 0x5555555555555556);
    assert_eq!((f.high, f.low, f.places), (11, -11, 8));
    let directions = [8, 9, 10, 11, 12, 13, 14, 15].map(|x| product(&f, x).direction);
    assert_eq!(directions, [Below, Equal, Above, Below, Equal, Below, Above, Equal]);
    // P5: a little above -15/4.
    let f = below((1 << 63) - 1, (1 << 63) - 1);
    assert_eq!((f.high, f.low, f.places), (16, -8, 65));
    assert_eq!(multiply(&f, 15), due(15, 1, Below, Right));
    // P6 to P9
    assert_eq!(set_up(true, 4, 0, (17 << 58) - 1, (17 << 58) + 1), Err(15));
    assert_eq!(set_up(true, 4, 0, 3 << 61, (3 << 61) + 1), Err(16));
    assert!(set_up(true, 4, 0, 1 << 62, 1 << 62).is_ok());
    assert_eq!(set_up(true, 4, 0, 1 << 62, 1 << 63), Err(12));
    assert_eq!(set_up(true, 3, 0, 1 << 62, 1 << 62), Err(11));
    assert_eq!(set_up(true, 25, 0, 1 << 62, 1 << 62), Err(11));
}

/// -1/pi on readings: what 1/pi takes down goes up. And height loss, -0.012.
fn readings_below_zero() {
    let (_, scale, lower, upper) = KNOWN[0];
    let f = set_up(true, 24, scale, lower, upper).expect("an accepted factor");
    assert_eq!(read(&f, 0x3FC8F5C3), Ok((Mark::Right, Number::above(0xBEFFDEC7))));
    assert_eq!(read(&f, 0xBFC8F5C3), Ok((Mark::Right, Number::below(0x3EFFDEC7))));
    assert_eq!(read_once(&f, 0x3FC8F5C3), Ok((Mark::Right, Number::below(0xBEFFDEC7))));
    assert_eq!(read_once(&f, 0xBFC8F5C3), Ok((Mark::Right, Number::above(0x3EFFDEC7))));
    assert_eq!(divide_reading(&f, 0x3FC8F5C3), Ok(Number::below(0xC09DD569)));
    assert_eq!(divide_reading(&f, 0xBFC8F5C3), Ok(Number::above(0x409DD569)));
    assert_eq!(read_once(&f, 0x3F800000), Ok((Mark::Right, Number::equal(0xBEA2F983))));
    assert_eq!(divide_reading(&f, f.high_float - (2 << 23)), Ok(Number::equal(0xBF800000)));
    for (reading, refusal) in [(0x7F800000, 21), (0xFFC00000, 21), (0x807FFFFF, 22), (0x00800000, 23)] {
        assert_eq!((read(&f, reading), read_once(&f, reading)), (Err(refusal), Err(refusal)));
    }
    assert_eq!(divide_reading(&f, 0x7F7FFFFF), Err(23));
    // The limits are those of the size.
    let f = set_up(true, 24, 100, 3 << 61, 3 << 61).expect("an accepted factor");
    assert_eq!(read(&f, (127 + 27) << 23), Ok((Mark::Right, Number::equal(0xFF400000))));
    assert_eq!(read(&f, (127 + 28) << 23), Err(23));
    // 25 m measured: the binary32 number next to -0.3 lies below it.
    let (scale, lower, upper) = HEIGHT_LOSS;
    let f = set_up(true, 24, scale, lower, upper).expect("an accepted factor");
    let loss = (-0.3f32).to_bits();
    assert_eq!(read(&f, 25f32.to_bits()), Ok((Mark::Right, Number::below(loss))));
    assert_eq!(divide_reading(&f, loss).map(|number| number.bits), Ok(25f32.to_bits()));
}

/// 80 hexadecimal is added to the byte of the precision, which is judged without it. Reports are those of the size.
fn frames_below_zero() {
    let (lower, upper) = (KNOWN[1].2, KNOWN[1].3);
    for byte in 0..=0xFF {
        let line = format!("{byte:02X} 01 {lower:016X} {upper:016X}");
        let due = set_up(byte >= 0x80, byte & 0x7F, 1, lower, upper);
        assert_eq!(due.is_ok(), (4..=24).contains(&byte) || (0x84..=0x98).contains(&byte), "{byte:X}");
        assert_eq!(frame::factor(line.as_bytes(), true), due, "{byte:X}");
    }
    for (byte, due) in
        [(0x80, Err(11)), (0x83, Err(11)), (0x84, Ok(4)), (0x98, Ok(24)), (0x99, Err(11)), (0xFF, Err(11))]
    {
        let line = format!("{byte:02X} 01 {lower:016X} {upper:016X}");
        assert_eq!(frame::factor(line.as_bytes(), true).map(|factor| factor.bits), due);
    }
    let mut report = Vec::new();
    let example = EXAMPLE.lines().map(|line| format!("84{}\n", &line[2..])).collect::<String>();
    frame::plotconst(&mut example.as_bytes(), &mut report).expect("written to memory");
    assert_eq!(String::from_utf8_lossy(&report), EXAMPLE_REPORT);
    let mut random = Random::new(14);
    let mut reported = 0;
    for i in 0..3000 {
        let given = given(&mut random, 4 + (i / KINDS % 7) as u32, i % KINDS);
        let [plus, minus] = [0, 0x80].map(|sign| {
            let (byte, scale) = (given.bits as u8 & 0x7F | sign, given.scale as u8);
            let line = format!("{byte:02X} {scale:02X} {:016X} {:016X}", given.lower, given.upper);
            let mut report = Vec::new();
            frame::report(7, line.as_bytes(), true, &mut report).expect("written to memory");
            report
        });
        assert_eq!(plus, minus, "{given:X?}");
        reported += (plus.len() > "0007 FF 11\n".len()) as u32;
    }
    assert!(reported > 1000, "{reported}");
}

/// For factors of many kinds, good ones and damaged: what set-up answers, and the parts, are those of the size, and rounding the ends with
/// their sign gives the parts with theirs. All answers of the factor of the other sign are the same, but for sign and direction, which are
/// mirrored.
fn signs_of_every_precision() {
    let mut random = Random::new(13);
    for i in 0..20_000 {
        let given = given(&mut random, 4 + (i / KINDS % 21) as u32, i % KINDS);
        let [plus, minus] = [0, 1].map(|minus| Given { minus, ..given }.set_up());
        assert_eq!(minus, plus.map(|factor| Factor { minus: true, ..factor }), "{given:X?}");
        let (Ok(plus), Ok(minus)) = (plus, minus) else { continue };
        for factor in [plus, minus] {
            for (high, low) in factor.ends().map(|end| parts(factor.bits, end)) {
                assert!(high.equals(factor.high_part()) && low.equals(factor.low_part()), "{factor:X?}");
            }
        }
        check_mirrored(&mut random, &plus);
        let damaged = Factor { low_float: plus.low_float ^ 1 << random.below(32), ..plus };
        check_mirrored(&mut random, &damaged);
    }
}

fn check_mirrored(random: &mut Random, factor: &Factor) {
    let opposite = factor.opposite();
    let (first, last) = (least(factor.bits), greatest(factor.bits));
    let mut significands = near_ties(factor);
    for low in [true, false] {
        significands.extend(search::next(factor, low, first).place.map(|place| place as u64));
    }
    significands.extend([first - 1, first, last, last + 1, random.from_to(first, last)]);
    for x in significands {
        assert_eq!(multiply(&opposite, x), multiply(factor, x).map(Product::mirrored), "{factor:X?} {x:X}");
        assert_eq!(multiply_once(&opposite, x), multiply_once(factor, x).map(Product::mirrored), "{factor:X?} {x:X}");
        assert_eq!(divide(&opposite, x), divide(factor, x).map(Quotient::mirrored), "{factor:X?} {x:X}");
        let range = (x, random.from_to(x, x + 20));
        assert_eq!(tally(&opposite, range.0, range.1), tally(factor, range.0, range.1), "{factor:X?} {x:X}");
        // As a reading of any exponent and sign, zeros and what is refused among them.
        let reading = random.word() as u32 & 0xFF80_0000 | x as u32 & 0x7F_FFFF;
        for reading in [reading, reading & 0x8000_0000] {
            for read in [read, read_once] {
                let due = read(factor, reading).map(|(mark, number)| (mark, number.mirrored()));
                assert_eq!(read(&opposite, reading), due, "{factor:X?} {reading:X}");
            }
            let due = divide_reading(factor, reading).map(Number::mirrored);
            assert_eq!(divide_reading(&opposite, reading), due, "{factor:X?} {reading:X}");
        }
    }
}

/// Document 01's three examples as a kit.
pub fn example_kit() -> Kit {
    let ends = [(3 << 61, 3 << 61), (0x4BFFFC0000000000, 0x4BFFFC0000000000), (0x51C71C71C71C71C7, 0x51C71C71C71C71C8)];
    Kit { factors: ends.map(|(lower, upper)| accepted(4, lower, upper)).to_vec() }
}

/// W6's figure: one call with cap 100 and 8 places, or 3 of which the last is left as it was; and the rest of the sweep then.
fn kit_of_examples() {
    let words = example_kit().words();
    let begun = kit::new_state(&words).expect("a good kit");
    assert_eq!((&begun[..KIT_WORDS], &begun[KIT_WORDS..]), (&words[..], &[0, 8, 0][..]));
    assert_eq!(told(&begun, 0), Ok(Told::Unfinished));
    let mut state = begun.clone();
    let mut list = [7; 8];
    assert_eq!(kit::call(&mut state, 100, &mut list, 0), Ok(Counts { trials: 4, rounds: 3, place: 4 }));
    assert_eq!(list, [1, 16, 2, 19, 7, 7, 7, 7]);
    assert_eq!((&state[..KIT_WORDS], &state[KIT_WORDS..]), (&words[..], &[2, 15, 1][..]));
    assert_eq!((told(&state, 2), told(&state, 0)), (Ok(Told::NotClean), Ok(Told::Clean)));
    let mut state = begun;
    let mut list = [7; 3];
    assert_eq!(kit::call(&mut state, 100, &mut list, 0), Ok(Counts { trials: 3, rounds: 1, place: 2 }));
    assert_eq!(list, [1, 16, 7]);
    assert_eq!((&state[..KIT_WORDS], &state[KIT_WORDS..]), (&words[..], &[2, 9, 0][..]));
    assert_eq!(told(&state, 1), Ok(Told::Unfinished));
    assert_eq!(kit::call(&mut state, 100, &mut list, 2), Err(44));
    assert_eq!(kit::call(&mut state, 1, &mut list, 1), Ok(Counts { trials: 1, rounds: 2, place: 3 }));
    assert_eq!((list, &state[KIT_WORDS..]), ([1, 2, 19], &[2, 15, 1][..]));
    assert_eq!(kit::call(&mut state, 0, &mut list, 9), Err(33));
    // 3/2 alone is clean, and so is it beside itself below zero.
    let factors = example_kit().factors;
    assert!(!is_clean(&example_kit()) && is_clean(&Kit { factors: vec![factors[0], factors[0].opposite()] }));
    assert!([1, 2].into_iter().all(|place| !is_clean(&Kit { factors: vec![factors[place]] })));
}

/// The refusals 42, 31, 43, 32, 33, 18 and 44 in their order: each where it and all after it hold.
fn kits_refused() {
    let good = example_kit();
    let mut state = kit::new_state(&good.words()).expect("a good kit");
    let refused = |state: &[u64], cap: u64, length: usize, free: u64| {
        let (mut there, mut list) = (state.to_vec(), vec![7; length]);
        let answer = kit::call(&mut there, cap, &mut list, free).map(|counts| counts.place);
        assert!(answer.is_ok() || (there == state && list == vec![7; length]));
        answer
    };
    // With room for one entry 44 does not hold, with one place fewer it does; and past the list's end.
    for (length, free, due) in
        [(2, 0, Ok(2)), (2, 1, Err(44)), (9, 8, Err(44)), (9, 9, Err(44)), (9, u64::MAX, Err(44))]
    {
        assert_eq!(refused(&state, 100, length, free), due);
    }
    for (length, free) in [(0, 0), (1, 0), (0, 1), (1, u64::MAX)] {
        assert_eq!(refused(&state, 100, length, free), Err(44));
    }
    assert_eq!(refused(&state, 0, 1, 0), Err(18));
    state[KIT_WORDS + 2] = 1 << 63;
    assert_eq!((refused(&state, 0, 1, 0), told(&state, 1)), (Err(33), Ok(Told::NotClean)));
    for (place, next) in [(3, 8), (u64::MAX, 8), (0, 7), (0, 16), (2, u64::MAX), (95, 0)] {
        (state[KIT_WORDS], state[KIT_WORDS + 1]) = (place, next);
        assert_eq!((refused(&state, 0, 1, 0), told(&state, 1)), (Err(32), Err(32)));
    }
    // Past the number anything may stand, also the same again; counted, it is refused.
    let at = |place: usize| 1 + place * FACTOR_WORDS;
    state.copy_within(at(0)..at(1), at(3));
    let formed = |state: &[u64]| (Kit::form(state).map(|kit| kit.factors.len()), kit::new_state(state).map(|_| ()));
    assert_eq!(formed(&state), (Ok(3), Ok(())));
    state[0] = 4;
    assert_eq!(formed(&state), (Err(43), Err(43)));
    assert_eq!((refused(&state, 0, 1, 0), told(&state, 1)), (Err(43), Err(43)));
    for (word, due) in [(0, Ok(4)), (1, Err(31)), (2, Err(31)), (5, Err(31)), (9, Err(31))] {
        let mut state = state.clone();
        state[at(3) + word] ^= 1 << 32;
        assert_eq!(formed(&state), (due, due.map(|_| ())));
        state[at(1) + 4] += 1;
        assert_eq!((refused(&state, 0, 1, 0), told(&state, 1)), (Err(31), Err(31)));
        for number in [0, 97, u64::MAX, 1 << 32 | 3] {
            state[0] = number;
            assert_eq!(formed(&state), (Err(42), Err(42)));
            assert_eq!((refused(&state, 0, 1, 0), told(&state, 1)), (Err(42), Err(42)));
        }
    }
}

/// The row of all suspects: by trying every significand, or by searches where they are too many.
pub fn row_of(factor: &Factor) -> Vec<u64> {
    if factor.bits <= 14 {
        return all_suspects(factor);
    }
    let (mut row, halves) = (Vec::new(), Halves::new(factor, greatest(factor.bits)));
    let mut from = least(factor.bits);
    while let Some(x) = halves.suspect_from(factor, from, &mut 0) {
        row.push(x);
        from = x + 1;
    }
    row
}

/// For kits of many kinds, from a new state to the finish: a call by searches is the plain kit sweep's; joined calls list what the separate
/// sweeps list, in kit order, their trials and rounds adding up to those of the separate ones; the finish comes with the last suspect at the
/// latest, and then the kit is clean exactly if nothing was listed.
fn kits_of_many_factors() {
    let mut random = Random::new(15);
    let (mut clean, mut full) = (0, 0);
    for i in 0..600 {
        let number = if i % 20 == 0 { PLACES } else { random.one_of(&[1, 1, 2, 3, 4, 7, 20]) };
        let kit = random::kit(&mut random, number);
        let listed = check_kit(&mut random, &kit);
        if kit.factors.iter().all(|factor| factor.bits <= 17) {
            assert_eq!(is_clean(&kit), listed == 0, "{kit:X?}");
            (clean, full) = (clean + (listed == 0) as u32, full + (listed > 0) as u32);
        }
    }
    assert!(clean > 50 && full > 50, "{clean} {full}");
    // At 24 bits, by every significand's test for a suspect: 1/pi and the square root of 2 are clean.
    let known = |index: usize| {
        let (_, scale, lower, upper) = KNOWN[index];
        set_up(false, 24, scale, lower, upper).expect("an accepted factor")
    };
    let kit = Kit { factors: vec![known(0), known(3), known(0).opposite()] };
    assert_eq!((is_clean(&kit), check_kit(&mut random, &kit)), (true, 0));
}

/// How many entries were listed in all.
fn check_kit(random: &mut Random, kit: &Kit) -> u64 {
    let mut words = kit.words();
    let past = 1 + kit.factors.len() * FACTOR_WORDS;
    words[past..].fill_with(|| random.any_size());
    assert_eq!(Kit::form(&words).as_ref(), Ok(kit));
    let begun = kit::new_state(&words).expect("a good kit");
    let (mut state, mut plain) = (begun.clone(), kit::Plain::new(kit, row_of));
    assert_eq!(begun.len(), KIT_STATE_WORDS);
    let (mut joined, mut sum, mut calls) = (Vec::new(), Counts { trials: 0, rounds: 0, place: 0 }, 0);
    loop {
        let cap = random.one_of(&[0, 1, 2, 5, 100, u64::MAX]);
        let length = random.one_of(&[0, 1, 2, 3, 3, 4, 5, 8, 9, 100]);
        let free = random.one_of(&[0, 0, 0, 1, 2, length, length + 1, u64::MAX]);
        let mut list = vec![7; length as usize];
        let before = state.clone();
        let answer = kit::call(&mut state, cap, &mut list, free);
        let due = plain.call(cap, length, free);
        assert_eq!((&state[..KIT_WORDS], &state[KIT_WORDS..]), (&words[..], &plain.position()[..]));
        match due {
            Err(refusal) => {
                assert_eq!((answer, &state), (Err(refusal), &before));
                assert_eq!(list, vec![7; length as usize]);
                if refusal == 33 {
                    break;
                }
            }
            Ok(due) => {
                let counts = answer.expect("an accepted call");
                assert_eq!((counts.trials, counts.place), (due.trials, due.place));
                assert!(counts.rounds <= most_rounds(counts.trials, before[KIT_WORDS], state[KIT_WORDS]));
                let mut whole = vec![7; length as usize];
                whole[free as usize..counts.place as usize].copy_from_slice(&due.words);
                assert_eq!(list, whole);
                joined.extend(due.words);
                (sum.trials, sum.rounds, calls) = (sum.trials + counts.trials, sum.rounds + counts.rounds, calls + 1);
                sum.place += counts.place - free;
            }
        }
        let entries = sum.place / 2;
        let due = match state[KIT_WORDS + 2] {
            0 => Told::Unfinished,
            _ if entries == 0 => Told::Clean,
            _ => Told::NotClean,
        };
        assert_eq!(told(&state, entries), Ok(due));
    }
    assert!(calls <= plain.row().len().max(1), "{kit:X?}");
    let (entries, due) = separately(kit);
    assert_eq!((&joined, sum), (&entries, due), "{kit:X?}");
    // In one call, with room for one entry more.
    let (mut state, mut list) = (begun, vec![7; entries.len() + 3]);
    assert_eq!(kit::call(&mut state, u64::MAX, &mut list, 0), Ok(due), "{kit:X?}");
    assert_eq!((&list[..entries.len()], &list[entries.len()..]), (&entries[..], &[7; 3][..]));
    assert_eq!(state[KIT_WORDS..], plain.position());
    sum.place / 2
}

/// What the factors' own sweeps list, as entries, with all their trials and rounds added up.
fn separately(kit: &Kit) -> (Vec<u32>, Counts) {
    let (mut entries, mut sum) = (Vec::new(), Counts { trials: 0, rounds: 0, place: 0 });
    for (place, factor) in kit.factors.iter().enumerate() {
        let mut state = new_state(factor, least(factor.bits), greatest(factor.bits)).expect("a good range");
        while !state.finished {
            let mut list = [0; 10];
            let counts = call(&mut state, 1000, &mut list, 0).expect("an accepted call");
            entries.extend(list[..counts.place as usize].iter().flat_map(|&word| [place as u32, word]));
            (sum.trials, sum.rounds) = (sum.trials + counts.trials, sum.rounds + counts.rounds);
        }
    }
    sum.place = entries.len() as u64;
    (entries, sum)
}

/// For many factors of small precision and of both signs: what is not right is a suspect, both rows are one, the search finds the row, the
/// sweep by searches is the plain one and that of the other sign, quotients and one-step products are near enough, and both tallies of a
/// range are one.
fn methods() {
    let mut state = 1u64;
    let mut next = || {
        state = state.wrapping_mul(6364136223846793005).wrapping_add(1442695040888963407);
        state >> 2
    };
    let mut tried = 0;
    while tried < 4000 {
        let bits = 4 + (tried % 9) as u32;
        let lower = match next() % 4 {
            0 => (1 << 62) + (next() % (1 << bits) << (62 - bits)),
            1 => (1 << 62) + (next() % (1 << (2 * bits + 1)) << (61 - 2 * bits)) - next() % 2,
            _ => (1 << 62) + next(),
        };
        let upper = lower
            + match next() % 3 {
                0 => 0,
                1 => next() % 4,
                _ => next() >> (2 * bits),
            };
        let factor = match set_up(next() % 4 == 0, bits, 0, lower, upper) {
            Ok(factor) => factor,
            Err(_) => continue,
        };
        tried += 1;
        check_methods(&factor, &mut next);
    }
}

fn check_methods(factor: &Factor, next: &mut dyn FnMut() -> u64) {
    let (first, last) = (least(factor.bits), greatest(factor.bits));
    let row = suspects::row(factor, first, last);
    assert_eq!(row, suspects::row_by_midpoints(factor, first, last));
    for x in first..=last {
        let suspect = row.binary_search(&x).is_ok();
        assert!(suspect || product(factor, x).mark == Mark::Right);
        assert!(is_nearest(factor, x) && near_enough(factor, x, quotient_off) && near_enough(factor, x, one_step_off));
        // The half's search finds the least suspect of its own half at or after x.
        let low = factor.is_low(x);
        let there = search::next(factor, low, x).place;
        let expected = row.iter().copied().find(|&y| y >= x && factor.is_low(y) == low);
        let in_half = |y: u128| y <= last as u128 && factor.is_low(y as u64) == low;
        assert_eq!(there.filter(|&y| in_half(y)), expected.map(|y| y as u128));
    }
    let (a, b) = (first + next() % (last - first + 1), first + next() % (last - first + 1));
    let (a, b) = if next() % 2 == 0 { (first, last) } else { (a.min(b), a.max(b)) };
    assert_eq!(count(factor, a, b), count_by_values(factor, a, b));
    let mut state = new_state(factor, a, b).expect("a good range");
    let mut opposite = new_state(&factor.opposite(), a, b).expect("a good range");
    let mut plain = Plain::new(factor, a, b);
    loop {
        let cap = next() % 5;
        let mut list = vec![7u32; (next() % 4) as usize];
        let place = next() % 4;
        let mut same = list.clone();
        let answer = call(&mut state, cap, &mut list, place);
        assert_eq!(call(&mut opposite, cap, &mut same, place), answer);
        assert_eq!((opposite, &same), (State { factor: factor.opposite(), ..state }, &list));
        match plain.call(cap, list.len() as u64, place) {
            Err(refusal) => {
                assert_eq!(answer, Err(refusal));
                if refusal == 33 {
                    break;
                }
            }
            Ok(expected) => {
                let counts = answer.expect("an accepted call");
                assert_eq!((counts.trials, counts.place), (expected.trials, expected.place));
                assert!(counts.rounds <= 64 * (counts.trials + 2));
                let mut whole = vec![7u32; list.len()];
                whole[place as usize..counts.place as usize].copy_from_slice(&expected.words);
                assert_eq!(list, whole);
            }
        }
        assert_eq!(state, plain.state());
    }
}

#[cfg(test)]
mod tests {
    #[test]
    fn selftest() {
        super::selftest(&mut Vec::new()).expect("written to memory");
    }
}
