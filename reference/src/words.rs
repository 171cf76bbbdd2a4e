//! Factors and states as words: those of the exported functions (include/gusnalip.h), and of the program `cases`.

use crate::factor::{Factor, Refusal};
use crate::sweep::State;

pub const FACTOR_WORDS: usize = 10;
pub const STATE_WORDS: usize = 14;

pub fn words(factor: &Factor) -> [u64; FACTOR_WORDS] {
    [
        factor.minus as u64,
        factor.bits as u64,
        factor.lower,
        factor.upper,
        factor.high,
        factor.low as u64,
        factor.places as u64,
        factor.high_float as u64,
        factor.low_float as u64,
        factor.scale as u32 as u64,
    ]
}

/// The factor in words. It is damaged, 31, where it would be written in other words than these: an upper half that no field has. A sign is
/// any word, written as 0 or 1.
pub fn from_words(given: &[u64]) -> Result<Factor, Refusal> {
    let factor = any_factor(given);
    if words(&factor)[1..] == given[1..FACTOR_WORDS] {
        Ok(factor)
    } else {
        Err(31)
    }
}

fn any_factor(words: &[u64]) -> Factor {
    Factor {
        minus: words[0] != 0,
        bits: words[1] as u32,
        lower: words[2],
        upper: words[3],
        high: words[4],
        low: words[5] as i64,
        places: words[6] as u32,
        high_float: words[7] as u32,
        low_float: words[8] as u32,
        scale: words[9] as u32 as i32,
    }
}

pub fn state_words(state: &State) -> [u64; STATE_WORDS] {
    let mut all = [0; STATE_WORDS];
    all[..FACTOR_WORDS].copy_from_slice(&words(&state.factor));
    all[FACTOR_WORDS..].copy_from_slice(&[state.first, state.last, state.next, state.finished as u64]);
    all
}

pub fn state_from(words: &[u64]) -> Result<State, Refusal> {
    let factor = from_words(words)?;
    Ok(State { factor, first: words[10], last: words[11], next: words[12], finished: words[13] != 0 })
}
