//! The engine, by its exported functions (include/gusnalip.h).

use crate::factor::{Factor, Refusal};
pub use crate::kit::{KIT_STATE_WORDS, KIT_WORDS};
use crate::onestep::Tally;
use crate::product::{Mark, Product};
use crate::quotient::Quotient;
use crate::random::Given;
use crate::reading::Number;
use crate::rounding::Direction;
use crate::sweep::Counts;
pub use crate::words::{from_words, state_from, state_words, words, FACTOR_WORDS, STATE_WORDS};

pub const PRODUCT_WORDS: usize = 4;
pub const QUOTIENT_WORDS: usize = 4;
pub const READING_WORDS: usize = 2;
pub const TALLY_WORDS: usize = 3;
pub const COUNT_WORDS: usize = 3;
pub const TOO_SHORT: u32 = 255;

#[link(name = "exports", kind = "static")]
extern "C" {
    fn gusnalip_set_up(
        minus: u32,
        precision: u32,
        scale: i32,
        lower: u64,
        upper: u64,
        out: *mut u64,
        length: usize,
    ) -> u32;
    fn gusnalip_multiply(factor: *const u64, factor_length: usize, x: u64, out: *mut u64, length: usize) -> u32;
    fn gusnalip_read(factor: *const u64, factor_length: usize, reading: u32, out: *mut u32, length: usize) -> u32;
    fn gusnalip_divide(factor: *const u64, factor_length: usize, x: u64, out: *mut u64, length: usize) -> u32;
    fn gusnalip_divide_reading(
        factor: *const u64,
        factor_length: usize,
        reading: u32,
        out: *mut u32,
        length: usize,
    ) -> u32;
    fn gusnalip_multiply_once(factor: *const u64, factor_length: usize, x: u64, out: *mut u64, length: usize) -> u32;
    fn gusnalip_read_once(factor: *const u64, factor_length: usize, reading: u32, out: *mut u32, length: usize) -> u32;
    fn gusnalip_tally(
        factor: *const u64,
        factor_length: usize,
        first: u64,
        last: u64,
        out: *mut u64,
        length: usize,
    ) -> u32;
    fn gusnalip_new_sweep(
        factor: *const u64,
        factor_length: usize,
        first: u64,
        last: u64,
        out: *mut u64,
        length: usize,
    ) -> u32;
    fn gusnalip_sweep(
        state: *mut u64,
        state_length: usize,
        cap: u64,
        list: *mut u32,
        list_length: usize,
        free: usize,
        counts: *mut u64,
        counts_length: usize,
    ) -> u32;
    fn gusnalip_form_kit(kit: *const u64, kit_length: usize) -> u32;
    fn gusnalip_new_kit_sweep(kit: *const u64, kit_length: usize, out: *mut u64, length: usize) -> u32;
    fn gusnalip_kit_sweep(
        state: *mut u64,
        state_length: usize,
        cap: u64,
        list: *mut u32,
        list_length: usize,
        free: usize,
        counts: *mut u64,
        counts_length: usize,
    ) -> u32;
    fn gusnalip_kit_clean(state: *const u64, state_length: usize, entries: u64) -> u32;
}

pub fn set_up_to(given: Given, out: &mut [u64]) -> u32 {
    let Given { minus, bits, scale, lower, upper } = given;
    // The function reads and writes `out` only, within its length.
    unsafe { gusnalip_set_up(minus, bits, scale, lower, upper, out.as_mut_ptr(), out.len()) }
}

pub fn multiply_to(factor: &[u64], x: u64, out: &mut [u64]) -> u32 {
    // The lists are two, and each is used within its length.
    unsafe { gusnalip_multiply(factor.as_ptr(), factor.len(), x, out.as_mut_ptr(), out.len()) }
}

pub fn read_to(factor: &[u64], reading: u32, out: &mut [u32]) -> u32 {
    // The lists are two, and each is used within its length.
    unsafe { gusnalip_read(factor.as_ptr(), factor.len(), reading, out.as_mut_ptr(), out.len()) }
}

pub fn divide_to(factor: &[u64], x: u64, out: &mut [u64]) -> u32 {
    // The lists are two, and each is used within its length.
    unsafe { gusnalip_divide(factor.as_ptr(), factor.len(), x, out.as_mut_ptr(), out.len()) }
}

pub fn divide_reading_to(factor: &[u64], reading: u32, out: &mut [u32]) -> u32 {
    // The lists are two, and each is used within its length.
    unsafe { gusnalip_divide_reading(factor.as_ptr(), factor.len(), reading, out.as_mut_ptr(), out.len()) }
}

pub fn multiply_once_to(factor: &[u64], x: u64, out: &mut [u64]) -> u32 {
    // The lists are two, and each is used within its length.
    unsafe { gusnalip_multiply_once(factor.as_ptr(), factor.len(), x, out.as_mut_ptr(), out.len()) }
}

pub fn read_once_to(factor: &[u64], reading: u32, out: &mut [u32]) -> u32 {
    // The lists are two, and each is used within its length.
    unsafe { gusnalip_read_once(factor.as_ptr(), factor.len(), reading, out.as_mut_ptr(), out.len()) }
}

pub fn tally_to(factor: &[u64], first: u64, last: u64, out: &mut [u64]) -> u32 {
    // The lists are two, and each is used within its length.
    unsafe { gusnalip_tally(factor.as_ptr(), factor.len(), first, last, out.as_mut_ptr(), out.len()) }
}

pub fn new_sweep_to(factor: &[u64], first: u64, last: u64, out: &mut [u64]) -> u32 {
    // The lists are two, and each is used within its length.
    unsafe { gusnalip_new_sweep(factor.as_ptr(), factor.len(), first, last, out.as_mut_ptr(), out.len()) }
}

pub fn sweep_to(state: &mut [u64], cap: u64, list: &mut [u32], free: usize, counts: &mut [u64]) -> u32 {
    // The lists are three, and each is used within its length.
    unsafe {
        gusnalip_sweep(
            state.as_mut_ptr(),
            state.len(),
            cap,
            list.as_mut_ptr(),
            list.len(),
            free,
            counts.as_mut_ptr(),
            counts.len(),
        )
    }
}

/// 0 or the refusal of a kit.
pub fn form_kit(kit: &[u64]) -> u32 {
    // The list is read within its length.
    unsafe { gusnalip_form_kit(kit.as_ptr(), kit.len()) }
}

pub fn new_kit_sweep_to(kit: &[u64], out: &mut [u64]) -> u32 {
    // The lists are two, and each is used within its length.
    unsafe { gusnalip_new_kit_sweep(kit.as_ptr(), kit.len(), out.as_mut_ptr(), out.len()) }
}

pub fn kit_sweep_to(state: &mut [u64], cap: u64, list: &mut [u32], free: usize, counts: &mut [u64]) -> u32 {
    // The lists are three, and each is used within its length.
    unsafe {
        gusnalip_kit_sweep(
            state.as_mut_ptr(),
            state.len(),
            cap,
            list.as_mut_ptr(),
            list.len(),
            free,
            counts.as_mut_ptr(),
            counts.len(),
        )
    }
}

/// 1 clean, 2 not clean, 3 not finished, or the refusal of a state.
pub fn kit_clean(state: &[u64], entries: u64) -> u32 {
    // The list is read within its length.
    unsafe { gusnalip_kit_clean(state.as_ptr(), state.len(), entries) }
}

/// A word that nothing writes: a list still has it where a call left it alone.
pub const UNTOUCHED: u64 = 0xA5A5_5A5A_A5A5_5A5A;

pub fn set_up(given: Given) -> Result<Factor, Refusal> {
    let mut out = [UNTOUCHED; FACTOR_WORDS + 1];
    match set_up_to(given, &mut out) {
        0 => {
            assert_eq!(out[FACTOR_WORDS], UNTOUCHED);
            sign(out[0]);
            from_words(&out)
        }
        refusal => {
            assert_eq!(out, [UNTOUCHED; FACTOR_WORDS + 1]);
            Err(refusal)
        }
    }
}

pub fn mark(number: u32) -> Option<Mark> {
    [Mark::Right, Mark::Open, Mark::Wrong].into_iter().find(|mark| mark.number() == number)
}

fn direction(word: u64) -> Direction {
    Direction::ALL.into_iter().find(|direction| direction.number() as u64 == word).expect("a direction")
}

/// A sign that the engine wrote: whether it is a minus.
fn sign(word: u64) -> bool {
    assert!(word < 2, "a sign is written as 0 or 1, and not as {word:X}");
    word == 1
}

pub fn multiply(factor: &[u64], x: u64) -> Result<Product, Refusal> {
    product_by(multiply_to, factor, x)
}

pub fn multiply_once(factor: &[u64], x: u64) -> Result<Product, Refusal> {
    product_by(multiply_once_to, factor, x)
}

/// The product that a device's function writes: significand, binade, direction and sign, and nothing past them.
fn product_by(device: impl Fn(&[u64], u64, &mut [u64]) -> u32, factor: &[u64], x: u64) -> Result<Product, Refusal> {
    let mut out = [UNTOUCHED; PRODUCT_WORDS + 1];
    let number = device(factor, x, &mut out);
    assert_eq!(out[PRODUCT_WORDS], UNTOUCHED);
    match mark(number) {
        Some(mark) => {
            let binade = u32::try_from(out[1]).expect("a binade");
            Ok(Product { mark, significand: out[0], binade, direction: direction(out[2]), minus: sign(out[3]) })
        }
        None => {
            assert_eq!(out, [UNTOUCHED; PRODUCT_WORDS + 1]);
            Err(number)
        }
    }
}

pub fn read(factor: &[u64], reading: u32) -> Result<(Mark, Number), Refusal> {
    number_by(read_to, factor, reading, mark)
}

pub fn read_once(factor: &[u64], reading: u32) -> Result<(Mark, Number), Refusal> {
    number_by(read_once_to, factor, reading, mark)
}

/// The number that a function of readings writes where its answer is accepted: bits and direction, and nothing past them.
fn number_by<T>(
    function: impl Fn(&[u64], u32, &mut [u32]) -> u32,
    factor: &[u64],
    reading: u32,
    accepted: impl Fn(u32) -> Option<T>,
) -> Result<(T, Number), Refusal> {
    let untouched = UNTOUCHED as u32;
    let mut out = [untouched; READING_WORDS + 1];
    let answer = function(factor, reading, &mut out);
    assert_eq!(out[READING_WORDS], untouched);
    match accepted(answer) {
        Some(accepted) => Ok((accepted, Number { bits: out[0], direction: direction(out[1] as u64) })),
        None => {
            assert_eq!(out, [untouched; READING_WORDS + 1]);
            Err(answer)
        }
    }
}

pub fn divide(factor: &[u64], x: u64) -> Result<Quotient, Refusal> {
    let mut out = [UNTOUCHED; QUOTIENT_WORDS + 1];
    let number = divide_to(factor, x, &mut out);
    assert_eq!(out[QUOTIENT_WORDS], UNTOUCHED);
    match number {
        0 => {
            let binade = out[1] as i64;
            Ok(Quotient { significand: out[0], binade, direction: direction(out[2]), minus: sign(out[3]) })
        }
        refusal => {
            assert_eq!(out, [UNTOUCHED; QUOTIENT_WORDS + 1]);
            Err(refusal)
        }
    }
}

pub fn divide_reading(factor: &[u64], reading: u32) -> Result<Number, Refusal> {
    number_by(divide_reading_to, factor, reading, |answer| (answer == 0).then_some(())).map(|((), number)| number)
}

pub fn tally(factor: &[u64], first: u64, last: u64) -> Result<Tally, Refusal> {
    let mut out = [UNTOUCHED; TALLY_WORDS + 1];
    let number = tally_to(factor, first, last, &mut out);
    assert_eq!(out[TALLY_WORDS], UNTOUCHED);
    match number {
        0 => Ok(Tally::new(out[0], out[1], out[2])),
        refusal => {
            assert_eq!(out, [UNTOUCHED; TALLY_WORDS + 1]);
            Err(refusal)
        }
    }
}

pub fn new_sweep(factor: &[u64], first: u64, last: u64) -> Result<[u64; STATE_WORDS], Refusal> {
    let mut out = [UNTOUCHED; STATE_WORDS];
    match new_sweep_to(factor, first, last, &mut out) {
        0 => Ok(out),
        refusal => {
            assert_eq!(out, [UNTOUCHED; STATE_WORDS]);
            Err(refusal)
        }
    }
}

/// A call: the state's words and the list are altered as the engine alters them.
pub fn sweep(state: &mut [u64; STATE_WORDS], cap: u64, list: &mut [u32], free: usize) -> Result<Counts, Refusal> {
    counts_by(|counts| sweep_to(state, cap, list, free, counts))
}

pub fn new_kit_sweep(kit: &[u64]) -> Result<Vec<u64>, Refusal> {
    let mut out = vec![UNTOUCHED; KIT_STATE_WORDS + 1];
    let answer = new_kit_sweep_to(kit, &mut out);
    assert_eq!(out.pop(), Some(UNTOUCHED));
    match answer {
        0 => Ok(out),
        refusal => {
            assert!(out.iter().all(|&word| word == UNTOUCHED));
            Err(refusal)
        }
    }
}

/// A kit call: the state's words and the list are altered as the engine alters them.
pub fn kit_sweep(state: &mut [u64], cap: u64, list: &mut [u32], free: usize) -> Result<Counts, Refusal> {
    counts_by(|counts| kit_sweep_to(state, cap, list, free, counts))
}

/// The counts that a call writes where it is accepted, and nothing past them.
fn counts_by(call: impl FnOnce(&mut [u64]) -> u32) -> Result<Counts, Refusal> {
    let mut counts = [UNTOUCHED; COUNT_WORDS + 1];
    let answer = call(&mut counts);
    assert_eq!(counts[COUNT_WORDS], UNTOUCHED);
    match answer {
        0 => Ok(Counts { trials: counts[0], rounds: counts[1], place: counts[2] }),
        refusal => {
            assert_eq!(counts, [UNTOUCHED; COUNT_WORDS + 1]);
            Err(refusal)
        }
    }
}
