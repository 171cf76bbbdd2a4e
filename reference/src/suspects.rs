//! Suspects: one by one by their midpoints, and the row of all of them in a range in two ways.

use crate::factor::Factor;

/// Midpoints are the odd multiples of this.
fn half(low: bool) -> i128 {
    if low {
        1 << 61
    } else {
        1 << 62
    }
}

pub fn is_suspect(factor: &Factor, x: u64) -> bool {
    let product = factor.lower as i128 * x as i128;
    let half = half(factor.is_low(x));
    let (after, before) = (product - factor.w(), product + factor.w() + factor.d());
    // The least odd multiple greater than `after`.
    let mut multiple = after.div_euclid(half) + 1;
    if multiple % 2 == 0 {
        multiple += 1;
    }
    multiple * half < before
}

/// All suspects from `first` to `last`, ascending, every significand tried.
pub fn row(factor: &Factor, first: u64, last: u64) -> Vec<u64> {
    (first..=last).filter(|&x| is_suspect(factor, x)).collect()
}

/// The same row from the midpoints: for each of them the significands whose interval it lies in.
pub fn row_by_midpoints(factor: &Factor, first: u64, last: u64) -> Vec<u64> {
    let mut found = Vec::new();
    let lower = factor.lower as i128;
    let (w, d) = (factor.w(), factor.d());
    for low in [true, false] {
        let half = half(low);
        let beginning = (lower * first as i128 - w) / (2 * half) - 1;
        let end = (lower * last as i128 + w + d) / (2 * half) + 1;
        for j in beginning..=end {
            let midpoint = half * (2 * j + 1);
            // midpoint - w - d < lower * x < midpoint + w
            let from = (midpoint - w - d).div_euclid(lower) + 1;
            let to = (midpoint + w - 1).div_euclid(lower);
            for x in from.max(first as i128)..=to.min(last as i128) {
                if factor.is_low(x as u64) == low {
                    found.push(x as u64);
                }
            }
        }
    }
    found.dedup();
    found
}
