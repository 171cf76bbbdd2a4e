//! The search for the next suspect by remainders, with its rounds, as document 01 tells it.

use crate::factor::Factor;

#[derive(Clone, Copy, Debug, PartialEq, Eq)]
pub struct Found {
    /// How many steps after the start, or none.
    pub place: Option<u128>,
    pub rounds: u64,
}

/// The least place whose multiple of the step leaves a remainder from l to r.
pub fn least_place(m: u128, step: u128, l: u128, r: u128) -> Found {
    if l == 0 {
        return Found { place: Some(0), rounds: 0 };
    }
    if step == 0 {
        return Found { place: None, rounds: 0 };
    }
    if step > m - step {
        return least_place(m, m - step, m - r, m - l);
    }
    let multiple = l.div_ceil(step);
    if multiple * step <= r {
        return Found { place: Some(multiple), rounds: 0 };
    }
    let minus = |v: u128| (step - v % step) % step;
    let further = least_place(step, m % step, minus(r), minus(l));
    // After y times the modulus, the least multiple of the step in the window there.
    let place = further.place.map(|y| (l + m * y).div_ceil(step));
    Found { place, rounds: further.rounds + 1 }
}

/// The first place at or after `start` at which the half's window is met. It is not cut at the half's end.
pub fn next(factor: &Factor, low: bool, start: u64) -> Found {
    let m: i128 = if low { 1 << 62 } else { 1 << 63 };
    let lower = factor.lower as i128;
    let here = (lower * start as i128).rem_euclid(m);
    // Wanted: lower * x greater than midpoint - W - D and less than midpoint + W.
    let from = m / 2 - factor.w() - factor.d() + 1;
    let to = m / 2 + factor.w() - 1;
    assert!(0 < from && to < m);
    let l = (from - here).rem_euclid(m);
    let r = (to - here).rem_euclid(m);
    if l > r {
        return Found { place: Some(start as u128), rounds: 0 };
    }
    let found = least_place(m as u128, lower.rem_euclid(m) as u128, l as u128, r as u128);
    Found { place: found.place.map(|t| start as u128 + t), rounds: found.rounds }
}
