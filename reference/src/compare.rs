//! The engine against the reference: every answer, word, state, list and count must be the same.

use crate::directions::{all_places, of_one_step, of_product, of_quotient, places, Place};
use crate::engine::{
    self, words, COUNT_WORDS, FACTOR_WORDS, PRODUCT_WORDS, QUOTIENT_WORDS, READING_WORDS, STATE_WORDS, TALLY_WORDS,
    TOO_SHORT, UNTOUCHED,
};
use crate::factor::{greatest, least, of_high, set_up, Factor};
use crate::figures::{pi, HEIGHT_LOSS, TABLE_1, TALLIES};
use crate::onestep::{count, multiply_once, near_ties, product_once, read_once, tally, Tally, LONGEST};
use crate::product::{multiply, product, Mark, Product};
use crate::quotient::{divide, divide_reading, machine, near_midpoints, quotient, Quotient};
use crate::random::{given, Given, Random, KINDS, KNOWN};
use crate::reading::{number, read, Number};
use crate::rounding::Direction;
use crate::sweep::{call, new_state, word, Plain, State};
use crate::{compare_kit, onestep, reading, search, suspects};
use std::collections::{BTreeMap, BTreeSet};
use std::io::{self, Write};
use std::sync::atomic::{AtomicUsize, Ordering};
use std::sync::Mutex;
use std::time::Instant;

/// Stops with what was asked where the engine's answer is not the reference's.
macro_rules! agree {
    ($engine:expr, $reference:expr, $($what:tt)*) => {{
        let (engine, reference) = ($engine, $reference);
        if engine != reference {
            panic!("{}: the engine says {engine:X?}, the reference {reference:X?}", format!($($what)*));
        }
    }};
}
pub(crate) use agree;

/// A part of the comparison, and how many answers it compared.
pub struct Part {
    pub name: String,
    pub run: Box<dyn Fn(&mut Random) -> u64 + Send + Sync>,
}

pub fn part(name: impl Into<String>, run: impl Fn(&mut Random) -> u64 + Send + Sync + 'static) -> Part {
    Part { name: name.into(), run: Box::new(run) }
}

/// Runs all parts on as many threads as there are cores; a part that does not agree ends the program.
pub fn compare(output: &mut dyn Write) -> io::Result<()> {
    let parts = parts();
    let begun = Instant::now();
    let next = AtomicUsize::new(0);
    let lines = Mutex::new(Vec::new());
    let threads = std::thread::available_parallelism().map_or(1, |n| n.get());
    std::thread::scope(|scope| {
        for _ in 0..threads {
            scope.spawn(|| loop {
                let i = next.fetch_add(1, Ordering::Relaxed);
                let Some(part) = parts.get(i) else { break };
                let begun = Instant::now();
                let answers = (part.run)(&mut Random::new(i as u64 + 1));
                let seconds = begun.elapsed().as_secs_f64();
                lines.lock().expect("no part failed").push((i, answers, seconds));
            });
        }
    });
    let mut lines = lines.into_inner().expect("no part failed");
    lines.sort_by_key(|line| line.0);
    for &(i, answers, seconds) in &lines {
        writeln!(output, "{:>12} agree in {seconds:6.1} s: {}", answers, parts[i].name)?;
    }
    let all: u64 = lines.iter().map(|line| line.1).sum();
    writeln!(output, "compare: all {all} answers agree, in {:.0} s", begun.elapsed().as_secs_f64())
}

fn parts() -> Vec<Part> {
    // The longest part comes first, so that the cores end about together.
    let mut parts = vec![part("lists of sweep calls from a new state, against the plain sweep too", lists_of_calls)];
    for (name, scale, lower, upper) in KNOWN {
        parts.push(part(
            format!("every significand of {name} at 24 bits, and of the same below zero"),
            move |random| {
                every_significand(random, &set_up(false, 24, scale, lower, upper).expect("an accepted factor"))
            },
        ));
    }
    for bits in 4..=8 {
        parts.push(part(format!("all significands of many factors of {bits} bits"), move |random| small(random, bits)));
    }
    parts.push(part("every quotient of 4 to 12 bits", every_quotient));
    parts.push(part("every quotient where the high part is 2 or 1", high_two_and_one));
    parts.push(part("every significand of every high part of 4 to 12 bits, in one step", every_one_step));
    parts.push(part("tallies of every range of 4 to 6 bits, and of those that are refused", every_range));
    parts.push(part("tallies as long as one call takes and one longer, at both borders", longest_tallies));
    parts.push(part("tallies of adjoining ranges, however long the whole is", adjoining_tallies));
    parts.push(part("tallies of random and extreme ranges, with every refusal", tallies));
    parts.push(part(
        "random factors of every precision, with suspects, quotients near midpoints and one-step products near ties",
        large,
    ));
    parts.push(part("directions by the dropped digits and by remainders, ties and carries among them", directions));
    parts.push(part("set-up, with every refusal", set_ups));
    parts.push(part("damaged factors", damaged));
    parts.push(part("upper halves that are not as written, through every function", upper_halves));
    parts.push(part("signs of every kind, told to set-up and in words, through every function", sign_words));
    parts.push(part("words as they were before factors had a sign", words_without_a_sign));
    parts.push(part("factors below zero against their sizes, through every function", below_zero));
    parts.push(part("lists that are too short", short_lists));
    parts.push(part("readings, random and extreme, with every refusal", readings));
    parts.push(part("zeros of both signs, through every function that takes a reading", zeros));
    parts.push(part(
        "directions of readings of both signs, by the machine and mirrored, ties and carries among them",
        directions_of_readings,
    ));
    parts.push(part("quotients and one-step products of readings at every exponent, past both limits", every_exponent));
    for (name, scale, lower, upper) in KNOWN.into_iter().chain([("3/2", 0, 3 << 61, 3 << 61)]) {
        let name = format!("the whole sweep of {name} at 24 bits and of the same below zero, in one call and in many");
        parts.push(part(name, move |random| {
            let factor = set_up(false, 24, scale, lower, upper).expect("an accepted factor");
            whole_sweep(random, &factor) + whole_sweep(random, &factor.opposite())
        }));
    }
    parts.push(part("calls on states that nobody reached, and damaged ones", any_states));
    parts.extend(compare_kit::parts());
    parts.push(part("the remaining figures of document 01, and those of quotients and directions", figures));
    parts.push(part("the tallies that W2 names, and those of source document 004, Table 1", figures_of_tallies));
    parts
}

/// Set-up by both; the factor if it was accepted.
fn both_set_up(given: Given) -> Option<Factor> {
    let answer = given.set_up();
    agree!(engine::set_up(given), answer, "set-up of {given:X?}");
    answer.ok()
}

fn both_multiply(words: &[u64], x: u64) {
    let answer = engine::from_words(words).and_then(|factor| multiply(&factor, x));
    agree!(engine::multiply(words, x), answer, "{words:X?} times {x:X}");
}

fn both_divide(words: &[u64], x: u64) {
    let answer = engine::from_words(words).and_then(|factor| divide(&factor, x));
    agree!(engine::divide(words, x), answer, "{x:X} divided by {words:X?}");
}

fn both_multiply_once(words: &[u64], x: u64) {
    let answer = engine::from_words(words).and_then(|factor| multiply_once(&factor, x));
    agree!(engine::multiply_once(words, x), answer, "{words:X?} times {x:X} in one step");
}

fn both_tally(words: &[u64], first: u64, last: u64) -> Result<Tally, u32> {
    let answer = engine::from_words(words).and_then(|factor| tally(&factor, first, last));
    agree!(engine::tally(words, first, last), answer, "the tally of {words:X?} from {first:X} to {last:X}");
    answer
}

/// The engine's tallies of adjoining ranges from `first` to `last`, of these lengths, added up; and how many they are.
fn adjoining(words: &[u64], first: u64, last: u64, mut length: impl FnMut() -> u64) -> (Tally, u64) {
    let (mut sum, mut calls, mut from) = (Tally::default(), 0, first);
    while from <= last {
        let to = (from + length() - 1).min(last);
        match engine::tally(words, from, to) {
            Ok(tally) => sum = sum + tally,
            Err(refusal) => panic!("the tally of {words:X?} from {from:X} to {to:X} is refused with {refusal}"),
        }
        (calls, from) = (calls + 1, to + 1);
    }
    (sum, calls)
}

/// A length that one tally takes.
fn any_length(random: &mut Random) -> u64 {
    1 + random.any_size() % LONGEST
}

fn every_significand(random: &mut Random, factor: &Factor) -> u64 {
    let opposite = factor.opposite();
    let (words, below) = (words(factor), words(&opposite));
    let mut marks = Tally::default();
    let mut answers = 0;
    for x in least(24)..=greatest(24) {
        // As a reading, with any sign and exponent.
        let bits = random.word() as u32 & 0xFF80_0000 | (x - least(24)) as u32;
        let (product, quotient, once) = by_every_account(factor, &words, x, bits);
        marks = marks + Tally::one(once.mark);
        // Below zero, by the law, and now and then by every account.
        agree!(engine::multiply(&below, x), Ok(product.mirrored()), "{opposite:X?} times {x:X}");
        agree!(engine::divide(&below, x), Ok(quotient.mirrored()), "{x:X} divided by {opposite:X?}");
        agree!(engine::multiply_once(&below, x), Ok(once.mirrored()), "{opposite:X?} times {x:X} in one step");
        answers += 11 + (x % 4 == 0) as u64;
        if x % 16 == 0 {
            by_every_account(&opposite, &below, x, bits);
            answers += 9;
        }
    }
    // The tally is the count of these marks, by long calls and by calls of any length.
    for words in [words, below] {
        let (long, long_calls) = adjoining(&words, least(24), greatest(24), || LONGEST);
        let (short, short_calls) = adjoining(&words, least(24), greatest(24), || any_length(random));
        agree!((long, short), (marks, marks), "tallies of all significands of {words:X?}");
        answers += long_calls + short_calls;
    }
    answers
}

/// A significand and a reading with the same digits, by every account of products and quotients: the significand's answers.
fn by_every_account(factor: &Factor, words: &[u64], x: u64, bits: u32) -> (Product, Quotient, Product) {
    let fraction = number(false, x, 0);
    let whole = product(factor, x);
    agree!(engine::multiply(words, x), Ok(whole), "{factor:X?} times {x:X}");
    // The machine's own operations: a third account of the same product.
    let by_machine = reading::product(factor, fraction);
    agree!((whole.mark, whole.number(), whole.direction), by_machine, "{factor:X?} times {x:X}, by the machine");
    both_read(words, bits);
    // The quotient: by whole numbers, by the machine and as a reading.
    let divided = quotient(factor, x);
    agree!(engine::divide(words, x), Ok(divided), "{x:X} divided by {factor:X?}");
    let by_machine = machine(factor, fraction);
    agree!((divided.number(), divided.direction), by_machine, "{x:X} divided by {factor:X?}, by the machine");
    both_divide_reading(words, bits);
    // The one-step product: by whole numbers, by the machine, and now and then as a reading.
    let once = product_once(factor, x);
    agree!(engine::multiply_once(words, x), Ok(once), "{factor:X?} times {x:X} in one step");
    let by_machine = onestep::machine(factor, fraction);
    agree!((once.mark, once.number(), once.direction), by_machine, "{factor:X?} times {x:X}, by the machine");
    if x % 4 == 0 {
        both_read_once(words, bits);
    }
    (whole, divided, once)
}

fn small(random: &mut Random, bits: u32) -> u64 {
    let mut answers = 0;
    let factors = 64_000_000 >> bits;
    for i in 0..factors {
        answers += 1;
        // Any words at all may have set up a larger precision.
        if let Some(factor) = both_set_up(given(random, bits, i % KINDS)).filter(|factor| factor.bits == bits) {
            let words = words(&factor);
            let (first, last) = (least(bits), greatest(bits));
            both_multiply(&words, first - 1);
            both_multiply(&words, last + 1);
            for x in first..=last {
                agree!(engine::multiply(&words, x), Ok(product(&factor, x)), "{factor:X?} times {x:X}");
            }
            answers += last - first + 3;
            // Quotients depend on the high part alone and have a part of their own: every third factor is enough here.
            if i % 3 == 0 {
                answers += every_quotient_of(&factor);
            }
            if i % 3 == 1 {
                answers += every_one_step_of(&factor);
            }
        }
    }
    answers
}

/// The quotients of all significands, and of those next to them, which are refused.
fn every_quotient_of(factor: &Factor) -> u64 {
    let words = words(factor);
    let (first, last) = (least(factor.bits), greatest(factor.bits));
    both_divide(&words, first - 1);
    both_divide(&words, last + 1);
    for x in first..=last {
        agree!(engine::divide(&words, x), Ok(quotient(factor, x)), "{x:X} divided by {factor:X?}");
    }
    last - first + 3
}

/// A quotient depends on the sign, the precision, the high part and the significand: all there are, as long as they are not too many.
fn every_quotient(_: &mut Random) -> u64 {
    let of_both_signs = |factor: Factor| every_quotient_of(&factor) + every_quotient_of(&factor.opposite());
    let of_bits = |bits: u32| (least(bits)..=1 << bits).map(move |high| of_both_signs(of_high(bits, high)));
    (4..=12).flat_map(of_bits).sum()
}

/// Dividing by 2 or by 1 of either sign leaves the significand as it is, at every precision, and rounds nothing.
fn high_two_and_one(_: &mut Random) -> u64 {
    let mut answers = 0;
    for bits in 4..=24 {
        for (high, binade) in [(1 << bits, -1), (least(bits), 0)] {
            for factor in [of_high(bits, high), of_high(bits, high).opposite()] {
                let (words, minus) = (words(&factor), factor.minus);
                for x in least(bits)..=greatest(bits) {
                    let expected = Ok(Quotient { significand: x, binade, direction: Direction::Equal, minus });
                    agree!(engine::divide(&words, x), expected, "{x:X} divided by {factor:X?}");
                }
                answers += least(bits);
            }
        }
    }
    answers
}

/// The one-step products of all significands, and of those next to them, which are refused; and the tally, which is the count of
/// their marks.
fn every_one_step_of(factor: &Factor) -> u64 {
    let words = words(factor);
    let (first, last) = (least(factor.bits), greatest(factor.bits));
    both_multiply_once(&words, first - 1);
    both_multiply_once(&words, last + 1);
    let mut marks = Tally::default();
    for x in first..=last {
        let answer = product_once(factor, x);
        agree!(engine::multiply_once(&words, x), Ok(answer), "{factor:X?} times {x:X} in one step");
        marks = marks + Tally::one(answer.mark);
    }
    agree!(engine::tally(&words, first, last), Ok(marks), "the tally of {factor:X?}");
    last - first + 4
}

/// A factor with this high part, in which any fraction is its lower end: that part itself, or one that is rounded to it.
fn near_high(random: &mut Random, bits: u32, high: u64) -> Factor {
    let off = random.below(1 << (62 - bits)) >> random.one_of(&[0, 0, 0, bits, 62]);
    let exact = high << (63 - bits);
    let end = if random.below(2) == 0 { exact.saturating_sub(off) } else { exact + off };
    let end = end.clamp(1 << 62, (1 << 63) - 1);
    let wider = set_up(false, bits, 0, end, (end + random.any_size() % 1000).min((1 << 63) - 1));
    let factor = wider.or(set_up(false, bits, 0, end, end)).expect("an accepted factor");
    assert_eq!(factor.high, high);
    factor
}

/// The value of a one-step product depends on the sign, the precision, the high part and the significand: all there are, as long as they
/// are not too many.
fn every_one_step(random: &mut Random) -> u64 {
    let of_both_signs = |factor: Factor| every_one_step_of(&factor) + every_one_step_of(&factor.opposite());
    let mut of_bits =
        |bits: u32| (least(bits)..=1 << bits).map(|high| of_both_signs(near_high(random, bits, high))).sum::<u64>();
    (4..=12).map(&mut of_bits).sum()
}

/// Every first and last significand from one below the least to one above the greatest.
fn every_range(random: &mut Random) -> u64 {
    let mut answers = 0;
    for (bits, factors) in [(4, 28_000), (5, 11_000), (6, 2700)] {
        for _ in 0..factors {
            let factor = accepted_at(random, bits);
            let words = words(&factor);
            let (least, greatest) = (least(bits), greatest(bits));
            let marks: Vec<Tally> = (least..=greatest).map(|x| Tally::one(product_once(&factor, x).mark)).collect();
            for first in least - 1..=greatest + 1 {
                let mut sum = Tally::default();
                for last in least - 1..=greatest + 1 {
                    let good = least <= first && first <= last && last <= greatest;
                    if good {
                        sum = sum + marks[(last - least) as usize];
                    }
                    let expected = if good { Ok(sum) } else { Err(17) };
                    agree!(engine::tally(&words, first, last), expected, "{factor:X?} from {first:X} to {last:X}");
                    answers += 1;
                }
            }
            let _ = both_tally(&words, least, greatest);
            answers += 1;
        }
    }
    answers
}

/// 65,535, 65,536 and 65,537 significands at both borders and in between, where there are so many; one outside at either border, and
/// what is no range at all.
fn longest_tallies(random: &mut Random) -> u64 {
    let (mut answers, mut met) = (0, BTreeSet::new());
    for (bits, minus) in [false, false, true].into_iter().flat_map(|minus| (17..=24).map(move |bits| (bits, minus))) {
        let factor = Factor { minus, ..accepted_at(random, bits) };
        let (words, least, greatest) = (words(&factor), least(bits), greatest(bits));
        for length in [LONGEST - 1, LONGEST, LONGEST + 1] {
            let latest = greatest - (length - 1);
            for first in [least, latest, random.from_to(least.min(latest), latest)] {
                met.insert(both_tally(&words, first, first + length - 1).map(Tally::length));
                answers += 1;
            }
            // 17, however long.
            agree!(engine::tally(&words, least - 1, least + length - 2), Err(17), "{factor:X?} from below");
            agree!(engine::tally(&words, greatest - length + 2, greatest + 1), Err(17), "{factor:X?} past its last");
            agree!(engine::tally(&words, greatest, greatest - length + 1), Err(17), "{factor:X?} backwards");
            answers += 3;
        }
        for (first, last) in [(0, u64::MAX), (u64::MAX, 0), (least, u64::MAX), (0, greatest), (least, least - 1)] {
            agree!(engine::tally(&words, first, last), Err(17), "{factor:X?} from {first:X} to {last:X}");
            answers += 1;
        }
    }
    assert!(met.contains(&Ok(LONGEST - 1)) && met.contains(&Ok(LONGEST)) && met.contains(&Err(41)));
    answers
}

/// Tallies of adjoining ranges add up to the reference's count of the whole.
fn adjoining_tallies(random: &mut Random) -> u64 {
    let mut answers = 0;
    for bits in 4..=21 {
        for _ in 0..if bits < 17 { 140 } else { 8 } {
            let factor = accepted_at(random, bits);
            let (least, greatest) = (least(bits), greatest(bits));
            let (a, b) = (random.from_to(least, greatest), random.from_to(least, greatest));
            let (first, last) = random.one_of(&[(least, greatest), (a.min(b), a.max(b))]);
            let (sum, calls) = adjoining(&words(&factor), first, last, || any_length(random));
            agree!(sum, count(&factor, first, last), "adjoining tallies of {factor:X?} from {first:X} to {last:X}");
            answers += calls;
        }
    }
    answers
}

/// Ranges short and long, at the borders, outside, backwards and of any words, of good factors and of damaged ones.
fn tallies(random: &mut Random) -> u64 {
    let count = 270_000;
    for i in 0..count {
        let factor = accepted(random, 4 + (i % 21) as u32);
        let mut words = words(&factor);
        if i % 8 == 0 {
            damage(random, &mut words);
        }
        let (least, greatest) = (least(factor.bits), greatest(factor.bits));
        let first = random.from_to(least, greatest);
        let short = random.any_size() % 500;
        let (first, last) = match random.below(16) {
            0 => (random.any_size(), random.any_size()),
            1 => (first, first - 1 - short.min(first - 1)),
            2 => (first, random.from_to(first, greatest).max(first + LONGEST)),
            3 => (least - 1 + random.below(2), least - 1 + short),
            4 => (greatest.saturating_sub(short), greatest + random.below(2)),
            5 => (least - 1 + random.below(2), (least + LONGEST + short).max(greatest)),
            6 => (first, first),
            _ => (first, (first + short).min(greatest)),
        };
        let _ = both_tally(&words, first, last);
    }
    count
}

fn large(random: &mut Random) -> u64 {
    let mut answers = 0;
    for i in 0..2_700_000 {
        let bits = 4 + (i / KINDS % 21) as u32;
        answers += 1;
        let Some(factor) = both_set_up(given(random, bits, i % KINDS)) else { continue };
        let words = words(&factor);
        let (first, last) = (least(factor.bits), greatest(factor.bits));
        for _ in 0..4 {
            both_multiply(&words, random.from_to(first, last));
        }
        // The next suspect after some place in each half, where products fail.
        for low in [true, false] {
            let place = search::next(&factor, low, random.from_to(first, last)).place.unwrap_or(0);
            both_multiply(&words, place as u64);
            both_multiply_once(&words, place as u64);
        }
        let outside = random.one_of(&[0, first - 1, last + 1, u64::MAX, 1 << 32 | first]);
        for x in [first, last, outside] {
            both_multiply(&words, x);
        }
        answers += 11;
        let high = factor.high;
        for x in [first, last, outside, high - 1, high, high + 1, random.from_to(first, last)] {
            both_divide(&words, x);
        }
        let near = near_midpoints(&factor);
        near.iter().for_each(|&x| both_divide(&words, x));
        answers += 7 + near.len() as u64;
        if i % 4 == 0 {
            let mut significands = near_ties(&factor);
            significands.extend([first, last, outside, random.from_to(first, last)]);
            significands.iter().for_each(|&x| both_multiply_once(&words, x));
            answers += significands.len() as u64;
        }
    }
    answers
}

/// Significands whose products round in every way: ties and what lies next to them, suspects of both halves, the last ones below 2, and
/// others.
fn rounded_in_every_way(random: &mut Random, factor: &Factor) -> Vec<u64> {
    let (first, last) = (least(factor.bits), greatest(factor.bits));
    let mut significands = near_ties(factor);
    for (low, start) in [(true, first), (false, factor.first_high())] {
        significands.extend(search::next(factor, low, start).place.map(|place| place as u64).filter(|&x| x <= last));
    }
    let below_two = (1 << (2 * factor.bits - 1)) / factor.high;
    significands.extend([below_two - 1, below_two, below_two + 1].map(|x: u64| x.clamp(first, last)));
    significands.extend([first, last, 3 * first / 2, factor.high.min(last), random.from_to(first, last)]);
    significands
}

/// A factor that takes 3/2 to a midpoint below 2, which lies between its ends, and whose high part takes 3/2 to the number next to that: in
/// one step this product is open, and was rounded from itself.
fn open_and_exact(random: &mut Random, bits: u32) -> Factor {
    let high = least(bits) + 2 * random.from_to(1, least(bits) / 6);
    let thirds = (3 * high as i128 + random.one_of(&[1, -1])) << (63 - bits);
    let (minus, scale, lower) = (random.below(2) == 0, random.below(201) as i32 - 100, (thirds / 3) as u64);
    set_up(minus, bits, scale, lower, lower + 1).expect("an accepted factor")
}

/// Every mark and direction that one product of a device can have, 0 being the two-step device and 1 the other. What the two steps round
/// last is so near to C × x that one which is exact is right.
fn marked_directions() -> impl Iterator<Item = (usize, Mark, Direction)> {
    let marks = [Mark::Right, Mark::Open, Mark::Wrong];
    let all = [0, 1].into_iter().flat_map(move |device| marks.map(|mark| (device, mark)));
    all.flat_map(|(device, mark)| Direction::ALL.map(|direction| (device, mark, direction)))
        .filter(|&(device, mark, direction)| device == 1 || mark == Mark::Right || direction != Direction::Equal)
}

/// The engine's directions of products by the digits that the last rounding drops, and of quotients by the remainder, which is never half.
/// With both signs of the factor every way of rounding is met on both devices, every direction with every mark that it can have and with no
/// other, and every direction of a quotient in both binades.
fn directions(random: &mut Random) -> u64 {
    let (mut count, mut met, mut marked, mut divided) = (0, BTreeMap::new(), BTreeMap::new(), BTreeMap::new());
    for i in 0..530_000 {
        let factor = match i % 200 {
            0 => open_and_exact(random, 4 + (i / 200 % 21) as u32),
            _ => accepted_at(random, 4 + (i % 21) as u32),
        };
        let (words, minus) = (words(&factor), factor.minus);
        for x in rounded_in_every_way(random, &factor) {
            let answers = [engine::multiply(&words, x), engine::multiply_once(&words, x)];
            for (device, place) in places(&factor, x).into_iter().enumerate() {
                let answer = answers[device].expect("a product");
                let due = (place.direction, minus);
                agree!((answer.direction, answer.minus), due, "{factor:X?} times {x:X}, device {device}");
                *met.entry((device, minus, place)).or_insert(0) += 1;
                *marked.entry((device, minus, answer.mark.number(), answer.direction)).or_insert(0) += 1;
            }
            let answer = engine::divide(&words, x).expect("a quotient");
            let rest = (x << (factor.bits as i64 - 1 - answer.binade)) % factor.high;
            let direction = match rest {
                0 => Direction::Equal,
                _ if (2 * rest < factor.high) == minus => Direction::Above,
                _ => Direction::Below,
            };
            agree!((answer.direction, answer.minus), (direction, minus), "{x:X} divided by {factor:X?}");
            *divided.entry((answer.binade, minus, direction)).or_insert(0) += 1;
            count += 3;
        }
    }
    for minus in [false, true] {
        for due in [0, 1].into_iter().flat_map(|device| all_places(minus).map(|place| (device, minus, place))) {
            assert!(met.get(&due).is_some_and(|&count| count > 1000), "{due:?} of {met:?}");
        }
        for due in marked_directions().map(|(device, mark, direction)| (device, minus, mark.number(), direction)) {
            assert!(marked.get(&due).is_some_and(|&count| count > 1000), "{due:?} of {marked:?}");
        }
        for due in [-1, 0].into_iter().flat_map(|binade| Direction::ALL.map(|direction| (binade, minus, direction))) {
            assert!(divided.get(&due).is_some_and(|&count| count > 1000), "{due:?} of {divided:?}");
        }
    }
    assert_eq!(marked.len(), 2 * marked_directions().count(), "{marked:?}");
    count
}

fn set_ups(random: &mut Random) -> u64 {
    let count = 13_000_000;
    for i in 0..count {
        let bits = 4 + (i / KINDS % 21) as u32;
        both_set_up(given(random, bits, i % KINDS));
    }
    count
}

/// An accepted factor with some fields altered, as words: any bits at all may stand in them.
pub fn damage(random: &mut Random, words: &mut [u64; FACTOR_WORDS]) {
    for _ in 0..random.from_to(1, 2) {
        let field = random.below(FACTOR_WORDS as u64) as usize;
        words[field] = match random.below(5) {
            0 => words[field] ^ 1 << random.below(64),
            1 => words[field].wrapping_add(1),
            2 => words[field].wrapping_sub(1),
            3 => random.one_of(&[0, u64::MAX, 0x7FC0_0000, 0x7F80_0000, 0xFFC0_0001, 0x8000_0000, 24, 4]),
            _ => random.any_size(),
        };
    }
}

/// The words of a factor whose fields have 32 bits.
pub const NARROW: [usize; 5] = [1, 6, 7, 8, 9];

/// Upper halves that are not as written, one word at a time, through every function, whatever else is asked: 31, and nothing written. Marks of a finished sweep other than 1 are such marks all the same.
fn upper_halves(random: &mut Random) -> u64 {
    let mut answers = 0;
    for i in 0..130_000 {
        let factor = accepted(random, if i % 2 == 0 { 24 } else { 4 + (i / 2 % 21) as u32 });
        let good = words(&factor);
        let (first, last) = range_of(random, &factor);
        let begun = State { factor, first, last, next: first, finished: false };
        for field in NARROW {
            let mut words = good;
            words[field] |= match random.below(3) {
                0 => 1 << random.from_to(32, 63),
                1 => u64::MAX << 32,
                _ => (random.word() | 1) << 32,
            };
            agree!(engine::from_words(&words), Err(31), "{words:X?}");
            both_multiply(&words, random.one_of(&[0, least(factor.bits), greatest(factor.bits), u64::MAX]));
            both_read(&words, reading_bits(random, factor.scale));
            both_divide(&words, random.one_of(&[0, least(factor.bits), greatest(factor.bits), u64::MAX]));
            both_divide_reading(&words, reading_bits(random, -factor.scale - 1));
            both_multiply_once(&words, random.one_of(&[0, least(factor.bits), greatest(factor.bits), u64::MAX]));
            both_read_once(&words, reading_bits(random, factor.scale));
            agree!(engine::tally(&words, first, last), Err(31), "the tally of {words:X?} from {first:X} to {last:X}");
            agree!(engine::new_sweep(&words, first, last), Err(31), "a new sweep of {words:X?}");
            let mut state = engine::state_words(&begun);
            state[..FACTOR_WORDS].copy_from_slice(&words);
            state[13] = random.one_of(&[0, 1, u64::MAX]);
            let (cap, length, free) = call_of(random);
            let mut list = words_before(random, length);
            agree!(both_call(&mut state, cap, &mut list, free), Err(31), "a call on {state:X?}");
            answers += 9;
        }
        let mut state = engine::state_words(&begun);
        state[13] = random.one_of(&[1, 2, 1 << 31, 1 << 32, 1 << 63, u64::MAX]);
        let refusal = if factor.range_ok(first, last) { 33 } else { 32 };
        agree!(both_call(&mut state, 1, &mut [7], 0), Err(refusal), "a call on {state:X?}");
        answers += 1;
    }
    answers
}

/// What set-up is told of a factor below zero, and what may stand for its sign in words.
const MINUS: [u32; 5] = [1, 2, 1 << 31, 0xFF, u32::MAX];
pub const MINUS_WORDS: [u64; 6] = [1, 2, 1 << 31, 1 << 32, 1 << 63, u64::MAX];

/// Set-up with every sign: written as 0 or 1, with the words of the size. Signs of every kind through every function: one that is not 0 is a
/// minus, and no damage, whatever else is. States are written with 0 or 1: a new one, and one that an accepted call hands back; a refused
/// call leaves it as it was.
fn sign_words(random: &mut Random) -> u64 {
    let (mut answers, mut met) = (0, BTreeSet::new());
    for i in 0..60_000 {
        let given = given(random, if i % 2 == 0 { 24 } else { 4 + (i / 2 % 21) as u32 }, i / 42 % KINDS);
        let plus = both_set_up(Given { minus: 0, ..given });
        for minus in MINUS {
            let there = both_set_up(Given { minus, ..given });
            agree!(there, plus.map(|factor| Factor { minus: true, ..factor }), "set-up of {given:X?} with {minus:X}");
        }
        answers += 6;
        let Some(factor) = plus else { continue };
        let (first, last) = range_of(random, &factor);
        let begun = engine::state_words(&State { factor, first, last, next: first, finished: false });
        let mut words = words(&factor);
        if i % 4 == 3 {
            damage(random, &mut words);
        }
        let x = random.one_of(&[first, last, least(factor.bits), greatest(factor.bits), u64::MAX]);
        let bits = reading_bits(random, factor.scale);
        let (cap, length, free) = call_of(random);
        let finished = random.one_of(&[0, 0, 0, 1]);
        for sign in [0].into_iter().chain(MINUS_WORDS) {
            words[0] = sign;
            both_multiply(&words, x);
            both_multiply_once(&words, x);
            both_divide(&words, x);
            both_read(&words, bits);
            both_read_once(&words, bits);
            both_divide_reading(&words, bits);
            let _ = both_tally(&words, first, last.min(first.saturating_add(50)));
            let begun_here = engine::new_sweep(&words, first, last);
            let due = engine::from_words(&words).and_then(|factor| new_state(&factor, first, last));
            agree!(begun_here, due.map(|state| engine::state_words(&state)), "a new sweep of {words:X?}");
            let mut state = begun;
            state[..FACTOR_WORDS].copy_from_slice(&words);
            state[13] = finished;
            let mut list = words_before(random, length);
            let answer = both_call(&mut state, cap.min(2000), &mut list, free);
            let due = if answer.is_ok() { (sign != 0) as u64 } else { sign };
            agree!(state[0], due, "the sign after a call on {words:X?}");
            met.insert((sign, answer));
            answers += 9;
        }
    }
    for sign in [0].into_iter().chain(MINUS_WORDS) {
        for answer in [Ok(()), Err(31), Err(32), Err(33), Err(18), Err(19)] {
            assert!(met.contains(&(sign, answer)), "{sign:X} {answer:?}");
        }
    }
    answers
}

/// Words as they were before a factor had a sign, with any behind them: their lower end stands in the place of the precision.
fn words_without_a_sign(random: &mut Random) -> u64 {
    let count = 20_000;
    for i in 0..count {
        let factor = accepted(random, 4 + (i % 21) as u32);
        let (first, last) = (least(factor.bits), greatest(factor.bits));
        let mut words = words(&factor)[1..].to_vec();
        words.extend([first, last, first, 0, random.word()]);
        let bits = reading_bits(random, factor.scale);
        let none = [engine::multiply, engine::multiply_once].map(|multiply| multiply(&words, first));
        agree!(none, [Err(31); 2], "{words:X?} times {first:X}");
        agree!(engine::divide(&words, first), Err(31), "{first:X} divided by {words:X?}");
        let none = [engine::read, engine::read_once].map(|read| read(&words, bits));
        agree!(none, [Err(31); 2], "{words:X?} applied to the reading {bits:X}");
        agree!(engine::divide_reading(&words, bits), Err(31), "the reading {bits:X} divided by {words:X?}");
        agree!(engine::tally(&words, first, first), Err(31), "the tally of {words:X?}");
        agree!(engine::new_sweep(&words, first, last), Err(31), "a new sweep of {words:X?}");
        let mut state: [u64; STATE_WORDS] = words.try_into().expect("as many words");
        agree!(both_call(&mut state, 1, &mut [7], 0), Err(31), "a call on {state:X?}");
    }
    9 * count
}

/// A factor below zero and its size, good ones and damaged, through every function: signs and directions are mirrored, and all else is the
/// same, set-up and sweeps to their finish included.
fn below_zero(random: &mut Random) -> u64 {
    let mut answers = 0;
    for i in 0..40_000 {
        let given = given(random, if i % 2 == 0 { 24 } else { 4 + (i / 2 % 21) as u32 }, i / 42 % KINDS);
        let [plus, minus] = [0, random.one_of(&MINUS)].map(|minus| engine::set_up(Given { minus, ..given }));
        agree!(minus, plus.map(|factor| factor.opposite()), "set-up of {given:X?}");
        answers += 1;
        let Ok(factor) = plus else { continue };
        let mut plus = words(&factor);
        if i % 16 == 15 {
            damage(random, &mut plus);
        }
        let mut minus = plus;
        (plus[0], minus[0]) = (0, 1);
        let (least, greatest) = (least(factor.bits), greatest(factor.bits));
        for x in rounded_in_every_way(random, &factor).into_iter().chain([least - 1, greatest + 1]) {
            for multiply in [engine::multiply, engine::multiply_once] {
                agree!(multiply(&minus, x), multiply(&plus, x).map(Product::mirrored), "{minus:X?} times {x:X}");
            }
            agree!(engine::divide(&minus, x), engine::divide(&plus, x).map(Quotient::mirrored), "{x:X} by {minus:X?}");
            // As a reading, where its answer's exponent is within the limits most often, and of any class.
            for bits in [reading_bits(random, 0) & 0x8000_0000 | 0x3F80_0000, reading_bits(random, factor.scale)] {
                let bits = bits & 0xFF80_0000 | x as u32 & 0x7F_FFFF;
                for read in [engine::read, engine::read_once] {
                    let due = read(&plus, bits).map(|(mark, number)| (mark, number.mirrored()));
                    agree!(read(&minus, bits), due, "{minus:X?} applied to the reading {bits:X}");
                }
                let due = engine::divide_reading(&plus, bits).map(Number::mirrored);
                agree!(engine::divide_reading(&minus, bits), due, "the reading {bits:X} divided by {minus:X?}");
            }
            answers += 9;
        }
        let (first, last) = range_of(random, &factor);
        let tallies = [plus, minus].map(|words| engine::tally(&words, first, last));
        agree!(tallies[1], tallies[0], "the tally of {minus:X?} from {first:X} to {last:X}");
        let [begun, begun_below] = [plus, minus].map(|words| engine::new_sweep(&words, first, last));
        let below = |state: [u64; STATE_WORDS]| {
            let mut state = state;
            state[0] = 1;
            state
        };
        agree!(begun_below, begun.map(below), "a new sweep of {minus:X?} from {first:X} to {last:X}");
        answers += 2;
        let (Ok(mut state), Ok(mut state_below)) = (begun, begun_below) else { continue };
        for _ in 0..10 {
            let (cap, length, free) = call_of(random);
            let mut list = words_before(random, length);
            let mut list_below = list.clone();
            // Short factors have many suspects: a call is not to take long.
            let cap = cap.min(20_000);
            let answer = engine::sweep(&mut state, cap, &mut list, free as usize);
            let answer_below = engine::sweep(&mut state_below, cap, &mut list_below, free as usize);
            agree!((answer_below, state_below, list_below), (answer, below(state), list), "a call on {state_below:X?}");
            answers += 1;
            if answer == Err(33) {
                break;
            }
        }
    }
    answers
}

/// A factor that set-up accepts.
pub fn accepted(random: &mut Random, bits: u32) -> Factor {
    loop {
        let kind = random.below(KINDS);
        if let Ok(factor) = given(random, bits, kind).set_up() {
            return factor;
        }
    }
}

/// A factor of so many bits: where any words at all are set up, it can have others.
fn accepted_at(random: &mut Random, bits: u32) -> Factor {
    loop {
        let factor = accepted(random, bits);
        if factor.bits == bits {
            return factor;
        }
    }
}

fn damaged(random: &mut Random) -> u64 {
    let count = 2_700_000;
    for i in 0..count {
        let factor = accepted(random, 4 + (i % 21) as u32);
        let mut words = words(&factor);
        damage(random, &mut words);
        let x = match random.below(4) {
            0 => random.any_size(),
            _ => random.from_to(least(factor.bits), greatest(factor.bits)),
        };
        both_multiply(&words, x);
        both_divide(&words, x);
        both_multiply_once(&words, x);
        let _ = both_tally(&words, x, x.saturating_add(random.one_of(&[0, 1, 20, LONGEST, u64::MAX])));
    }
    4 * count
}

type ProductTo = fn(&[u64], u64, &mut [u64]) -> u32;
type ProductBy = fn(&Factor, u64) -> Result<Product, u32>;

/// Both devices' products of a significand, by the engine and by the reference.
const PRODUCTS: [(ProductTo, ProductBy); 2] =
    [(engine::multiply_to, multiply), (engine::multiply_once_to, multiply_once)];

type ReadingTo = fn(&[u64], u32, &mut [u32]) -> u32;
type ReadingBy = fn(&Factor, u32) -> Result<(u32, Number), u32>;

/// The functions that take a reading, by the engine and by the reference, which tells the answer's number too: a mark, or 0.
const READINGS: [(ReadingTo, ReadingBy); 3] = [
    (engine::read_to, |factor, bits| read(factor, bits).map(|(mark, number)| (mark.number(), number))),
    (engine::read_once_to, |factor, bits| read_once(factor, bits).map(|(mark, number)| (mark.number(), number))),
    (engine::divide_reading_to, |factor, bits| divide_reading(factor, bits).map(|number| (0, number))),
];

fn short_lists(random: &mut Random) -> u64 {
    let mut answers = 0;
    for _ in 0..1300 {
        let bits = random.from_to(4, 24) as u32;
        let factor = accepted(random, bits);
        let words = words(&factor);
        for length in 0..FACTOR_WORDS + 2 {
            let mut out = vec![UNTOUCHED; length];
            let Factor { minus, bits, scale, lower, upper, .. } = factor;
            let minus = if minus { random.one_of(&MINUS) } else { 0 };
            let answer = engine::set_up_to(Given { minus, bits, scale, lower, upper }, &mut out);
            let mut expected = vec![UNTOUCHED; length];
            let number = if length < FACTOR_WORDS {
                TOO_SHORT
            } else {
                expected[..FACTOR_WORDS].copy_from_slice(&words);
                0
            };
            agree!((answer, out), (number, expected), "set-up into {length} words");
            answers += 1;
        }
        for factor_length in 0..=FACTOR_WORDS {
            for length in 0..=PRODUCT_WORDS + 1 {
                for (to, by) in PRODUCTS {
                    let x = least(factor.bits);
                    let mut out = vec![UNTOUCHED; length];
                    let answer = to(&words[..factor_length], x, &mut out);
                    let mut expected = vec![UNTOUCHED; length];
                    let number = if factor_length < FACTOR_WORDS || length < PRODUCT_WORDS {
                        TOO_SHORT
                    } else {
                        let product = by(&factor, x).expect("a product");
                        let Product { significand, binade, direction, minus, .. } = product;
                        let written = [significand, binade as u64, direction.number() as u64, minus as u64];
                        expected[..PRODUCT_WORDS].copy_from_slice(&written);
                        product.mark.number()
                    };
                    agree!((answer, out), (number, expected), "a product of {factor_length} words into {length}");
                    answers += 1;
                }
            }
            for length in 0..=TALLY_WORDS {
                let x = least(factor.bits);
                // A range that is refused is not looked at where a list is too short.
                for (first, last) in [(x, x + 3), (u64::MAX, 0)] {
                    let mut out = vec![UNTOUCHED; length];
                    let answer = engine::tally_to(&words[..factor_length], first, last, &mut out);
                    let mut expected = vec![UNTOUCHED; length];
                    let number = match tally(&factor, first, last) {
                        _ if factor_length < FACTOR_WORDS || length < TALLY_WORDS => TOO_SHORT,
                        Ok(Tally { right, wrong, open }) => {
                            expected.copy_from_slice(&[right, wrong, open]);
                            0
                        }
                        Err(refusal) => refusal,
                    };
                    agree!((answer, out), (number, expected), "a tally of {factor_length} words into {length}");
                    answers += 1;
                }
            }
            for length in 0..=QUOTIENT_WORDS + 1 {
                let x = greatest(factor.bits);
                let mut out = vec![UNTOUCHED; length];
                let answer = engine::divide_to(&words[..factor_length], x, &mut out);
                let mut expected = vec![UNTOUCHED; length];
                let number = if factor_length < FACTOR_WORDS || length < QUOTIENT_WORDS {
                    TOO_SHORT
                } else {
                    let Quotient { significand, binade, direction, minus } = divide(&factor, x).expect("a quotient");
                    let written = [significand, binade as u64, direction.number() as u64, minus as u64];
                    expected[..QUOTIENT_WORDS].copy_from_slice(&written);
                    0
                };
                agree!((answer, out), (number, expected), "a quotient of {factor_length} words into {length}");
                answers += 1;
            }
            let enough = factor_length == FACTOR_WORDS;
            for length in 0..=READING_WORDS + 1 {
                for (to, by) in READINGS {
                    // A zero, and a reading of any kind.
                    for bits in [0x8000_0000, reading_bits(random, factor.scale)] {
                        let mut out = vec![5; length];
                        let answer = to(&words[..factor_length], bits, &mut out);
                        let mut expected = vec![5; length];
                        let number = match by(&factor, bits) {
                            _ if !enough || length < READING_WORDS => TOO_SHORT,
                            Ok((number, Number { bits, direction })) => {
                                expected[..READING_WORDS].copy_from_slice(&[bits, direction.number()]);
                                number
                            }
                            Err(refusal) => refusal,
                        };
                        agree!((answer, out), (number, expected), "the reading {bits:X} into {length} words");
                        answers += 1;
                    }
                }
            }
            for length in STATE_WORDS - 2..=STATE_WORDS {
                let mut out = vec![UNTOUCHED; length];
                let x = least(factor.bits);
                let answer = engine::new_sweep_to(&words[..factor_length], x, x, &mut out);
                let number = if enough && length == STATE_WORDS { 0 } else { TOO_SHORT };
                agree!(answer, number, "a new sweep into {length} words");
                if number == TOO_SHORT && out.iter().any(|&word| word != UNTOUCHED) {
                    panic!("a new sweep wrote into {length} words");
                }
                answers += 1;
            }
        }
        let x = least(factor.bits);
        // Words past the factor's are not looked at.
        let mut longer = words.to_vec();
        longer.push(random.word());
        both_multiply(&longer, x);
        both_divide(&longer, x);
        both_read(&longer, reading_bits(random, factor.scale));
        both_divide_reading(&longer, reading_bits(random, -factor.scale - 1));
        both_multiply_once(&longer, x);
        both_read_once(&longer, reading_bits(random, factor.scale));
        let _ = both_tally(&longer, x, x + 7);
        answers += 7;
        let begun = engine::new_sweep(&words, x, x).expect("a good range");
        for length in 0..=STATE_WORDS {
            for count_length in 0..=COUNT_WORDS {
                let mut state = begun[..length].to_vec();
                let mut counts = vec![UNTOUCHED; count_length];
                let mut list = [3];
                let answer = engine::sweep_to(&mut state, 1, &mut list, 0, &mut counts);
                if length == STATE_WORDS && count_length == COUNT_WORDS {
                    agree!(answer, 0, "a call on {length} words");
                } else {
                    let nothing = (TOO_SHORT, begun[..length].to_vec(), vec![UNTOUCHED; count_length], [3]);
                    agree!(
                        (answer, state, counts, list),
                        nothing,
                        "a call on {length} words with {count_length} counts"
                    );
                }
                answers += 1;
            }
        }
    }
    answers
}

fn both_read(words: &[u64], bits: u32) {
    let answer = engine::from_words(words).and_then(|factor| read(&factor, bits));
    agree!(engine::read(words, bits), answer, "{words:X?} applied to the reading {bits:X}");
}

fn both_read_once(words: &[u64], bits: u32) {
    let answer = engine::from_words(words).and_then(|factor| read_once(&factor, bits));
    agree!(engine::read_once(words, bits), answer, "{words:X?} applied to the reading {bits:X} in one step");
}

fn both_divide_reading(words: &[u64], bits: u32) {
    let answer = engine::from_words(words).and_then(|factor| divide_reading(&factor, bits));
    agree!(engine::divide_reading(words, bits), answer, "the reading {bits:X} divided by {words:X?}");
}

/// Bits of a reading: of every class, zeros of both signs too, and such that the answer's exponent, moved by `scale` or by one more, lies
/// at a limit. A product's is moved by k or by one more, a quotient's by -k - 1 or by one more.
fn reading_bits(random: &mut Random, scale: i32) -> u32 {
    let scale = scale.clamp(-200, 200);
    let sign = (random.below(2) as u32) << 31;
    let fraction =
        random.one_of(&[0, 1, 0x7F_FFFF, 0x40_0000]) ^ (random.word() as u32 & random.one_of(&[0, 0x7F_FFFF]));
    let field = match random.below(6) {
        0 => random.one_of(&[0, 1, 2, 253, 254, 255]),
        // The exponent of the answer next to -126 or 127.
        1 => (1 - scale - 1 + random.below(4) as i32 - 1).clamp(0, 255) as u32,
        2 => (254 - scale - 1 + random.below(4) as i32 - 1).clamp(0, 255) as u32,
        _ => random.below(256) as u32,
    };
    sign | field << 23 | fraction
}

fn readings(random: &mut Random) -> u64 {
    let mut answers = 0;
    for i in 0..2_000_000 {
        let bits = if i % 16 == 0 { random.from_to(4, 24) as u32 } else { 24 };
        let factor = accepted(random, bits);
        let mut words = words(&factor);
        if i % 32 == 1 {
            damage(random, &mut words);
        }
        let scale = words[9] as i32;
        for _ in 0..8 {
            both_read(&words, reading_bits(random, scale));
            both_divide_reading(&words, reading_bits(random, scale.saturating_neg() - 1));
        }
        for _ in 0..2 {
            both_read_once(&words, reading_bits(random, scale));
        }
        answers += 18;
        if engine::from_words(&words) == Ok(factor) && factor.bits == 24 {
            // A reading at a suspect, where products fail.
            for low in [true, false] {
                let start = random.from_to(least(24), greatest(24));
                let place = search::next(&factor, low, start).place.unwrap_or(0) as u32 & 0x7F_FFFF;
                both_read(&words, reading_bits(random, factor.scale) & 0xFF80_0000 | place);
            }
            // A reading whose quotient lies near a midpoint.
            let near = near_midpoints(&factor);
            for &x in &near {
                let fraction = x as u32 & 0x7F_FFFF;
                both_divide_reading(&words, reading_bits(random, -factor.scale - 1) & 0xFF80_0000 | fraction);
            }
            answers += 2 + near.len() as u64;
            // A reading whose one-step product is a tie or lies near one.
            if i % 4 == 0 {
                let near = near_ties(&factor);
                for &x in &near {
                    let fraction = x as u32 & 0x7F_FFFF;
                    both_read_once(&words, reading_bits(random, factor.scale) & 0xFF80_0000 | fraction);
                }
                answers += near.len() as u64;
            }
        }
    }
    answers
}

type Operation = fn(f32, f32) -> f32;

/// The functions that take a reading, with the number that an accepted zero is answered with and the machine's operation that is due.
const OF_READINGS: [(ReadingTo, u32, Operation); 3] = [
    (engine::read_to, 1, |reading, factor| reading * factor),
    (engine::read_once_to, 1, |reading, factor| reading * factor),
    (engine::divide_reading_to, 0, |reading, factor| reading / factor),
];

/// A zero through these functions, from and into lists of every length. With a good factor its answer is the machine's own operation on
/// the zero and Ch × 2^k, sign included, and equal; a refusal writes nothing.
fn zero_to_lists(words: &[u64], factor: Result<Factor, u32>, zero: f32) -> u64 {
    let mut answers = 0;
    for (to, number, operation) in OF_READINGS {
        let due = factor.map(|factor| operation(zero, factor.applied()).to_bits());
        for factor_length in 0..=words.len() {
            for length in 0..=READING_WORDS + 1 {
                let expected = match due {
                    _ if factor_length < FACTOR_WORDS || length < READING_WORDS => (TOO_SHORT, [5; 3]),
                    Err(refusal) => (refusal, [5; 3]),
                    Ok(bits) => (number, [bits, Direction::Equal.number(), 5]),
                };
                let mut out = [5; 3];
                let answer = to(&words[..factor_length], zero.to_bits(), &mut out[..length]);
                agree!((answer, out), expected, "{zero:?} and {factor_length} words of {words:X?} into {length}");
                answers += 1;
            }
        }
    }
    answers
}

/// Zeros of both signs with factors of every kind and of both signs, with low parts of every sign, of other precisions and damaged: by the
/// machine's own operations, and by the reference.
fn zeros(random: &mut Random) -> u64 {
    let (mut answers, mut met) = (0, BTreeMap::new());
    for i in 0..20_000 {
        let bits = if i % 4 == 0 { random.from_to(4, 24) as u32 } else { 24 };
        let mut words = words(&accepted(random, bits));
        if i % 8 < 2 {
            damage(random, &mut words);
        }
        for sign in [0, random.one_of(&MINUS_WORDS)] {
            words[0] = sign;
            let factor = engine::from_words(&words).and_then(|factor| match factor.bits {
                _ if !factor.intact() => Err(31),
                24 => Ok(factor),
                _ => Err(20),
            });
            // Words past the factor's are not looked at.
            let mut longer = words.to_vec();
            longer.push(random.word());
            for zero in [0.0f32, -0.0] {
                answers += zero_to_lists(&longer, factor, zero);
                both_read(&words, zero.to_bits());
                both_read_once(&words, zero.to_bits());
                both_divide_reading(&words, zero.to_bits());
                answers += 3;
                let kind = factor.map(|factor| factor.low.signum());
                *met.entry((sign != 0, zero.is_sign_negative(), kind)).or_insert(0) += 1;
            }
        }
    }
    for signs in [(false, false), (false, true), (true, false), (true, true)] {
        for kind in [Ok(1), Ok(0), Ok(-1), Err(20), Err(31)] {
            assert!(met.get(&(signs.0, signs.1, kind)).is_some_and(|&zeros| zeros > 500), "{met:?}");
        }
    }
    // Random readings have them too.
    for zero in [0, 0x8000_0000] {
        assert!((0..20_000).any(|_| reading_bits(random, 0) == zero));
    }
    answers
}

type NumberBy = fn(&[u64], u32) -> Result<(u32, Number), u32>;
type DirectionBy = fn(&Factor, f32, f32) -> Direction;

/// The engine's functions that take a reading, with the machine's account of their directions.
const DIRECTIONS_OF_READINGS: [(NumberBy, DirectionBy); 3] = [
    (|words, bits| engine::read(words, bits).map(|(mark, number)| (mark.number(), number)), of_product),
    (|words, bits| engine::read_once(words, bits).map(|(mark, number)| (mark.number(), number)), of_one_step),
    (|words, bits| engine::divide_reading(words, bits).map(|number| (0, number)), of_quotient),
];

/// The high parts of 24 bits that take a significand half a unit below 2, a tie that is carried: both make 2^22 × (2^25 - 1), and
/// 2^25 - 1 is 31 × 601 × 1801.
const HALF_BELOW_TWO: [u64; 6] = [31 << 19, 601 << 14, 1801 << 13, 18_631 << 9, 55_831 << 8, 1_082_401 << 3];

/// Readings of both signs and factors of both: the direction is that of exact numbers of the machine with the signs on them, and that of the
/// other reading mirrored; one-step product and quotient are the machine's own of reading and Ch × 2^k. Every way of rounding is met with
/// all signs on both devices, every direction with every mark that it can have and with no other, every direction of a quotient too, and
/// refusals.
fn directions_of_readings(random: &mut Random) -> u64 {
    let (mut answers, mut met, mut directions) = (0, BTreeMap::new(), BTreeMap::new());
    for i in 0..200_000 {
        let factor = match i % 100 {
            0 => Factor {
                minus: random.below(2) == 0,
                scale: random.below(201) as i32 - 100,
                ..of_high(24, random.one_of(&HALF_BELOW_TWO))
            },
            1 => open_and_exact(random, 24),
            _ => accepted_at(random, 24),
        };
        let words = words(&factor);
        for x in rounded_in_every_way(random, &factor) {
            let places = places(&factor, x);
            for (function, (number_by, direction_by)) in DIRECTIONS_OF_READINGS.into_iter().enumerate() {
                // A normal reading, and the answer's exponent is within the limits, most often.
                let raised = if function == 2 { -factor.scale } else { factor.scale };
                let field = (random.below(257) as i32 - raised).clamp(1, 254) as u32;
                let plus = field << 23 | x as u32 & 0x7F_FFFF;
                let there = number_by(&words, plus);
                let mirrored = there.map(|(mark, number)| (mark, number.mirrored()));
                agree!(number_by(&words, plus ^ 0x8000_0000), mirrored, "{words:X?} and minus the reading {plus:X}");
                answers += 2;
                for (bits, answer) in [(plus, there), (plus ^ 0x8000_0000, mirrored)] {
                    let signs = (factor.minus, bits != plus);
                    let told = answer.map(|(mark, number)| (mark, number.direction));
                    *directions.entry((function, signs, told)).or_insert(0) += 1;
                    let Ok((_, number)) = answer else { continue };
                    let (reading, value) = (f32::from_bits(bits), f32::from_bits(number.bits));
                    let due = direction_by(&factor, reading, value);
                    agree!(number.direction, due, "{words:X?} and the reading {bits:X}, by the machine");
                    let due = match function {
                        0 => value,
                        1 => reading * factor.applied(),
                        _ => reading / factor.applied(),
                    };
                    agree!(number.bits, due.to_bits(), "{words:X?} and the reading {bits:X}, by the machine");
                    if let Some(place) = places.get(function) {
                        // The number that was rounded has the reading's sign too.
                        let direction = if signs.1 { place.direction.mirrored() } else { place.direction };
                        agree!(number.direction, direction, "{words:X?} and the reading {bits:X}, by digits");
                        *met.entry((function, signs, Place { direction, ..*place })).or_insert(0) += 1;
                    }
                }
            }
        }
    }
    for signs in [(false, false), (false, true), (true, false), (true, true)] {
        let places = all_places(signs.0 != signs.1);
        for due in [0, 1].into_iter().flat_map(|device| places.map(|place| (device, signs, place))) {
            assert!(met.get(&due).is_some_and(|&count| count > 500), "{due:?} of {met:?}");
        }
        let marked = marked_directions().map(|(device, mark, direction)| (device, Ok((mark.number(), direction))));
        let divided = Direction::ALL.map(|direction| (2, Ok((0, direction))));
        let refused = [0, 1, 2].map(|function| (function, Err(23)));
        for (function, due) in marked.chain(divided).chain(refused) {
            let count = directions.get(&(function, signs, due));
            assert!(count.is_some_and(|&count| count > 1000), "{function} {signs:?} {due:?} of {directions:?}");
        }
    }
    assert_eq!(directions.len(), 4 * (marked_directions().count() + 6), "{directions:?}");
    answers
}

/// Every sign and exponent, zeros, subnormal numbers, infinities and NaN included, for factors of both signs, scales of every size,
/// significands next to the high part and high parts next to 1 and 2. Both binades of the quotient and of the one-step product meet both
/// limits, and are refused past them.
fn every_exponent(_: &mut Random) -> u64 {
    let (mut answers, mut met) = (0, BTreeSet::new());
    let one = least(24);
    let highs = [one, one + 1, 0xA2_F983, 0xC0_0000, 2 * one - 1, 2 * one];
    for (minus, high) in [false, true].into_iter().flat_map(|minus| highs.map(|high| (minus, high))) {
        for scale in [-100, -99, -28, -1, 0, 1, 26, 99, 100] {
            let factor = of_high(24, high);
            let factor = set_up(minus, 24, scale, factor.lower, factor.upper).expect("an accepted factor");
            let words = words(&factor);
            for x in [one, one + 1, high - 1, high, high + 1, 2 * one - 1] {
                let x = x.clamp(one, 2 * one - 1);
                for upper in 0..512u32 {
                    let bits = upper << 23 | x as u32 & 0x7F_FFFF;
                    both_divide_reading(&words, bits);
                    both_read_once(&words, bits);
                    answers += 2;
                    let large = upper & 0xFF > 127;
                    let quotient = divide_reading(&factor, bits);
                    met.insert((minus, false, x < high, large, quotient.map(|number| number.bits >> 23 & 0xFF)));
                    let product = read_once(&factor, bits);
                    let binade = product_once(&factor, x).binade;
                    let field = product.map(|(_, number)| number.bits >> 23 & 0xFF);
                    met.insert((minus, true, binade == 1, large, field));
                }
            }
        }
    }
    for minus in [false, true] {
        for (multiplied, binade) in [(false, false), (false, true), (true, false), (true, true)] {
            for (large, field) in [(false, 1), (true, 254)] {
                assert!(met.contains(&(minus, multiplied, binade, large, Ok(field))));
                assert!(met.contains(&(minus, multiplied, binade, large, Err(23))));
            }
        }
    }
    answers
}

/// One call by both, on the same words: answer, counts, state and whole list.
fn both_call(state: &mut [u64; STATE_WORDS], cap: u64, list: &mut [u32], free: u64) -> Result<(), u32> {
    let before = *state;
    let mut handed = before;
    let mut our_list = list.to_vec();
    let answer = engine::state_from(state).and_then(|mut ours| {
        let counts = call(&mut ours, cap, &mut our_list, free)?;
        handed = engine::state_words(&ours);
        Ok(counts)
    });
    let theirs = engine::sweep(state, cap, list, free as usize);
    agree!(theirs, answer, "a call with cap {cap:X} and {} words from {free:X} on {before:X?}", list.len());
    agree!(*state, handed, "the state after a call with cap {cap:X} on {before:X?}");
    if list != our_list {
        panic!("the list after a call with cap {cap:X} and {} words from {free:X} on {before:X?}", list.len());
    }
    answer.map(|_| ())
}

fn whole_sweep(random: &mut Random, factor: &Factor) -> u64 {
    let (first, last) = (least(24), greatest(24));
    let row = suspects::row(factor, first, last);
    let expected: Vec<u32> = row.iter().filter_map(|&x| word(x, product(factor, x).mark)).collect();
    let begun = new_state(factor, first, last).expect("a good range");
    let begun_words = engine::new_sweep(&words(factor), first, last).expect("a good range");
    agree!(begun_words, engine::state_words(&begun), "a new sweep of {factor:X?}");
    // In one call, by the row alone.
    let mut state = begun_words;
    let mut list = vec![7; expected.len() + 1];
    let counts = engine::sweep(&mut state, u64::MAX, &mut list, 0).expect("an accepted call");
    agree!((counts.trials, counts.place), (row.len() as u64, expected.len() as u64), "trials and place of {factor:X?}");
    if list[..expected.len()] != expected || list[expected.len()] != 7 {
        panic!("the list of the whole sweep of {factor:X?}");
    }
    let finished = State { next: last, finished: true, ..begun };
    agree!(state, engine::state_words(&finished), "the state after the whole sweep of {factor:X?}");
    // In many calls, beside the reference's calls.
    let mut state = begun_words;
    let mut calls = 0;
    let mut place = 0;
    let mut list = vec![0; 1000];
    loop {
        let cap = random.one_of(&[1, 2, 10, 1000, 100_000, u64::MAX]);
        let length = random.one_of(&[1, 2, 50, 1000]);
        let free = if random.below(3) == 0 { place } else { random.below(length) };
        calls += 1;
        match both_call(&mut state, cap, &mut list[..length as usize], free) {
            Err(33) => break,
            _ => place = random.below(4),
        }
    }
    row.len() as u64 + calls
}

/// A cap, a list's length and a first free place, now and then such that the call is refused.
fn call_of(random: &mut Random) -> (u64, usize, u64) {
    let cap = match random.below(8) {
        0 => 0,
        1 => u64::MAX,
        2 => random.any_size(),
        _ => random.from_to(1, 6),
    };
    let length = random.one_of(&[0, 1, 1, 1, 2, 3, 5, 8, 64]) as usize;
    let free = match random.below(6) {
        0 => random.below(10),
        1 => random.any_size(),
        _ => random.below(length.max(1) as u64),
    };
    (cap, length, free)
}

/// Words that a list has before a call.
pub fn words_before(random: &mut Random, length: usize) -> Vec<u32> {
    (0..length).map(|_| random.word() as u32).collect()
}

/// A range of the factor's significands, of any length and now and then one that is refused.
fn range_of(random: &mut Random, factor: &Factor) -> (u64, u64) {
    let (least, greatest) = (least(factor.bits), greatest(factor.bits));
    let first = random.from_to(least, greatest);
    match random.below(8) {
        0 => (random.any_size(), random.any_size()),
        1 => (least, greatest),
        2 => (first, first),
        3 => (least - 1 + random.below(2), greatest + random.below(2)),
        4 => (first, random.from_to(least, greatest)),
        _ => (first, (first + random.below(3000)).min(greatest)),
    }
}

fn lists_of_calls(random: &mut Random) -> u64 {
    let mut answers = 0;
    for i in 0..400_000 {
        let factor = accepted(random, 4 + (i % 21) as u32);
        let (first, last) = range_of(random, &factor);
        let begun = engine::new_sweep(&words(&factor), first, last);
        let expected = new_state(&factor, first, last).map(|state| engine::state_words(&state));
        agree!(begun, expected, "a new sweep of {factor:X?} from {first:X} to {last:X}");
        answers += 1;
        let Ok(mut state) = begun else { continue };
        // The plain sweep by its row, where the range is not too long for it.
        let mut plain = (last - first < 10_000).then(|| Plain::new(&factor, first, last));
        let mut list = Vec::new();
        for _ in 0..40 {
            let (cap, length, free) = call_of(random);
            // The same list again, or another.
            if random.below(2) == 0 || list.len() != length {
                list = words_before(random, length);
            }
            let before = list.clone();
            let answer = both_call(&mut state, cap, &mut list, free);
            answers += 1;
            if let Some(plain) = &mut plain {
                let expected = plain.call(cap, length as u64, free);
                agree!(answer, expected.as_ref().map(|_| ()).map_err(|&refusal| refusal), "a plain call");
                agree!(state, engine::state_words(&plain.state()), "the plain sweep's state");
                if let Ok(expected) = expected {
                    let mut whole = before;
                    whole[free as usize..expected.place as usize].copy_from_slice(&expected.words);
                    if list != whole {
                        panic!("the plain sweep's words of {factor:X?}");
                    }
                }
            }
            if answer == Err(33) && random.below(2) == 0 {
                break;
            }
        }
    }
    answers
}

fn any_states(random: &mut Random) -> u64 {
    let count = 4_000_000;
    for i in 0..count {
        let factor = accepted(random, 4 + (i % 21) as u32);
        let (first, last) = range_of(random, &factor);
        let next = match random.below(8) {
            0 => random.any_size(),
            1 => first.wrapping_sub(1).wrapping_add(random.below(3)),
            2 => last.wrapping_sub(1).wrapping_add(random.below(3)),
            _ if first < last => random.from_to(first, last),
            _ => first,
        };
        let finished = random.below(8) == 0;
        let mut state = engine::state_words(&State { factor, first, last, next, finished });
        if finished {
            state[13] = random.one_of(&[1, 2, 1 << 32, u64::MAX]);
        }
        if factor.minus {
            state[0] = random.one_of(&MINUS_WORDS);
        }
        if random.below(8) == 0 {
            let mut factor = words(&factor);
            damage(random, &mut factor);
            state[..FACTOR_WORDS].copy_from_slice(&factor);
        }
        let (mut cap, length, free) = call_of(random);
        // Short factors have many suspects: a call is not to take long.
        cap = cap.min(2000);
        let mut list = words_before(random, length);
        let _ = both_call(&mut state, cap, &mut list, free);
    }
    count
}

/// A factor by the engine; `minus` is 0 for one above zero.
fn by_engine(minus: u32, bits: u32, scale: i32, lower: u64, upper: u64) -> Factor {
    engine::set_up(Given { minus, bits, scale, lower, upper }).expect("an accepted factor")
}

/// Scale 100 with 3/2, and the square root of 2, of which nothing fails; the quotients and directions that were worked out by hand, and P1
/// to P5 below zero.
fn figures(_: &mut Random) -> u64 {
    let factor = by_engine(0, 24, 100, 3 << 61, 3 << 61);
    let bits = |exponent: u32| (127 + exponent) << 23;
    let due = Ok((Mark::Right, Number::equal(0x7F40_0000)));
    agree!(engine::read(&words(&factor), bits(27)), due, "the reading 2^27 at scale 100");
    agree!(engine::read(&words(&factor), bits(28)), Err(23), "the reading 2^28 at scale 100");
    for minus in [0, 1] {
        let root = by_engine(minus, 24, 0, 0x5A827999FCEF3242, 0x5A827999FCEF3243);
        let mut state = engine::new_sweep(&words(&root), least(24), greatest(24)).expect("a good range");
        let counts = engine::sweep(&mut state, u64::MAX, &mut [7], 0).expect("an accepted call");
        agree!((counts.place, state[0], state[13]), (0, minus as u64, 1), "the sweep of the square root of 2");
    }
    let factor = by_engine(0, 4, 0, 3 << 61, 3 << 61);
    let quotients = [(8, 11, -1, Direction::Above), (12, 8, 0, Direction::Equal), (14, 9, 0, Direction::Below)];
    for (x, significand, binade, direction) in quotients {
        let expected = Ok(Quotient { significand, binade, direction, minus: false });
        agree!(engine::divide(&words(&factor), x), expected, "{x} divided by 3/2");
    }
    let (_, scale, lower, upper) = KNOWN[0];
    let factor = by_engine(0, 24, scale, lower, upper);
    let due = Ok(Number::below(0x3FC9_0FDB));
    agree!(engine::divide_reading(&words(&factor), 0x3F00_0000), due, "1/2 divided by 1/pi");
    for (reading, due) in [(0x3FC8_F5C3, Number::below(0x3EFF_DEC7)), (0xBFC8_F5C3, Number::above(0xBEFF_DEC7))] {
        agree!(engine::read(&words(&factor), reading), Ok((Mark::Right, due)), "1/pi applied to {reading:X}");
    }
    let factor = by_engine(0, 4, 0, 0x5555555555555555, 0x5555555555555556);
    let directions = (8..16).map(|x| engine::multiply(&words(&factor), x).expect("a product").direction.number());
    agree!(directions.collect::<Vec<_>>(), [3, 2, 1, 3, 2, 3, 1, 2], "directions of 4/3");
    20 + figures_below_zero()
}

fn figures_below_zero() -> u64 {
    let due = |mark, significand, binade, direction| Ok(Product { mark, significand, binade, direction, minus: true });
    let (p1, p2, p3) = (3 << 61, 0x4BFFFC0000000000, 0x51C71C71C71C71C7);
    let products = [
        (p1, p1, 9, due(Mark::Right, 14, 0, Direction::Below)),
        (p1, p1, 14, due(Mark::Right, 10, 1, Direction::Above)),
        (p2, p2, 8, due(Mark::Wrong, 10, 0, Direction::Below)),
        (p3, p3 + 1, 9, due(Mark::Open, 12, 0, Direction::Below)),
        ((1 << 63) - 1, (1 << 63) - 1, 15, due(Mark::Right, 15, 1, Direction::Below)),
    ];
    for (lower, upper, x, due) in products {
        let factor = by_engine(1, 4, 0, lower, upper);
        agree!(engine::multiply(&words(&factor), x), due, "{factor:X?} times {x}");
    }
    let factor = by_engine(2, 4, 0, 0x5555555555555555, 0x5555555555555556);
    agree!((factor.high, factor.low, factor.places), (11, -11, 8), "the parts of -4/3");
    let directions = (8..16).map(|x| engine::multiply(&words(&factor), x).expect("a product").direction.number());
    agree!(directions.collect::<Vec<_>>(), [1, 2, 3, 1, 2, 1, 3, 2], "directions of -4/3");
    let (scale, lower, upper) = HEIGHT_LOSS;
    let words = words(&by_engine(u32::MAX, 24, scale, lower, upper));
    let due = Ok((Mark::Right, Number::below((-0.3f32).to_bits())));
    agree!(engine::read(&words, 25f32.to_bits()), due, "the height loss of 25 m");
    let back = engine::divide_reading(&words, (-0.3f32).to_bits()).map(|number| number.bits);
    agree!(back, Ok(25f32.to_bits()), "the height of which 0.3 m are lost");
    23
}

/// The tallies that are due, each by one call and by adjoining ones; and the table's, which are those of all significands, by
/// adjoining calls. Those below zero are the same.
fn figures_of_tallies(random: &mut Random) -> u64 {
    let mut answers = 0;
    for (minus, figure) in [0, 1].into_iter().flat_map(|minus| TALLIES.map(|figure| (minus, figure))) {
        let ((lower, upper), (first, last)) = (figure.ends, figure.range);
        let words = words(&by_engine(minus, figure.bits, figure.scale, lower, upper));
        agree!(engine::tally(&words, first, last), Ok(figure.tally), "the tally of {}", figure.name);
        let (sum, calls) = adjoining(&words, first, last, || any_length(random));
        agree!(sum, figure.tally, "adjoining tallies of {}", figure.name);
        answers += 1 + calls;
    }
    for (bits, share, right) in TABLE_1 {
        for factor in [pi(bits), pi(bits).opposite()] {
            let (sum, calls) = adjoining(&words(&factor), least(bits), greatest(bits), || LONGEST);
            agree!((sum.right, sum.length()), (right, least(bits)), "pi at {bits} bits, of which {share} are right");
            answers += calls;
        }
    }
    answers
}
