//! Kits of factors (document 02, W6): what refuses one, kit calls by searches, the plain kit sweep by the joined rows, and what is clean.

use crate::factor::{greatest, least, Factor, Refusal};
use crate::product::{product, Mark};
use crate::suspects;
use crate::sweep::{word, Counts, Halves, PlainAnswer};
use crate::words::{from_words, words, FACTOR_WORDS};
use std::collections::BTreeSet;

/// So many factors a kit has places for.
pub const PLACES: usize = 96;

/// A kit as words: the number of its factors, then the places.
pub const KIT_WORDS: usize = 1 + PLACES * FACTOR_WORDS;

/// A kit sweep's state as words: the kit, then the factor's place, the next significand, and 0 or any other word for not finished or finished.
pub const KIT_STATE_WORDS: usize = KIT_WORDS + 3;

/// The factors that a kit's number counts, in kit order.
#[derive(Clone, Debug, PartialEq, Eq)]
pub struct Kit {
    pub factors: Vec<Factor>,
}

#[derive(Clone, Debug, PartialEq, Eq)]
pub struct State {
    pub kit: Kit,
    pub place: usize,
    pub next: u64,
    pub finished: bool,
}

impl Kit {
    /// The kit in words, or the first of the refusals 42, 31 and 43. What stands past the number is not looked at.
    pub fn form(words: &[u64]) -> Result<Kit, Refusal> {
        if words[0] == 0 || words[0] > PLACES as u64 {
            return Err(42);
        }
        let counted = words[1..].chunks(FACTOR_WORDS).take(words[0] as usize);
        let factors = counted.map(from_words).collect::<Result<Vec<Factor>, Refusal>>()?;
        if !factors.iter().all(Factor::intact) {
            return Err(31);
        }
        // Two alike are one in the set of what factors are told apart by.
        let unlike: BTreeSet<_> = factors.iter().map(|f| (f.minus, f.bits, f.scale, f.lower, f.upper)).collect();
        if unlike.len() < factors.len() {
            return Err(43);
        }
        Ok(Kit { factors })
    }

    /// The kit's words, with zeros in the places past the number.
    pub fn words(&self) -> Vec<u64> {
        let mut all = vec![self.factors.len() as u64];
        all.extend(self.factors.iter().flat_map(words));
        all.resize(KIT_WORDS, 0);
        all
    }

    /// The first suspect at or after a place and a significand, with the rounds of all searches that this takes.
    fn suspect_from(&self, (place, next): (usize, u64), rounds: &mut u64) -> Option<(usize, u64)> {
        (place..self.factors.len()).find_map(|here| {
            let factor = &self.factors[here];
            let from = if here == place { next } else { least(factor.bits) };
            let halves = Halves::new(factor, greatest(factor.bits));
            Some((here, halves.suspect_from(factor, from, rounds)?))
        })
    }

    /// Where a finished sweep stands: at the last factor and its last significand.
    fn end(&self) -> (usize, u64) {
        let last = self.factors.len() - 1;
        (last, greatest(self.factors[last].bits))
    }
}

/// No factor has a significand that is not right. Every significand is tried where they are few; else those of the row, as the others are
/// right.
pub fn is_clean(kit: &Kit) -> bool {
    kit.factors.iter().all(|factor| {
        let (first, last) = (least(factor.bits), greatest(factor.bits));
        let right = |x: u64| product(factor, x).mark == Mark::Right;
        if factor.bits <= 12 {
            (first..=last).all(right)
        } else {
            suspects::row(factor, first, last).into_iter().all(right)
        }
    })
}

/// What a state and the entries since the new one tell of a kit.
#[derive(Clone, Copy, Debug, PartialEq, Eq)]
pub enum Told {
    Clean,
    NotClean,
    Unfinished,
}

impl Told {
    pub fn number(self) -> u32 {
        match self {
            Told::Clean => 1,
            Told::NotClean => 2,
            Told::Unfinished => 3,
        }
    }
}

/// The most rounds that an accepted call may take, by its trials and the factor's place before it and after.
pub fn most_rounds(trials: u64, before: u64, after: u64) -> u64 {
    64 * (trials + 2 * (after - before + 1))
}

/// The words of a new state: the kit's as they were given, its first factor and the least significand of that; or 42, 31 or 43.
pub fn new_state(kit: &[u64]) -> Result<Vec<u64>, Refusal> {
    let first = Kit::form(kit)?.factors[0];
    let mut state = kit[..KIT_WORDS].to_vec();
    state.extend([0, least(first.bits), 0]);
    Ok(state)
}

/// One call on a state's words: the last three are altered, and words of the list written, only if it is accepted.
pub fn call(words: &mut [u64], cap: u64, list: &mut [u32], free: u64) -> Result<Counts, Refusal> {
    let mut state = State::from_words(words)?;
    let counts = state.call(cap, list, free)?;
    words[KIT_WORDS..KIT_STATE_WORDS].copy_from_slice(&[state.place as u64, state.next, state.finished as u64]);
    Ok(counts)
}

/// What is told of a kit by its state and by how many entries were written since the new one.
pub fn told(words: &[u64], entries: u64) -> Result<Told, Refusal> {
    let state = State::from_words(words)?;
    Ok(match entries {
        _ if !state.finished => Told::Unfinished,
        0 => Told::Clean,
        _ => Told::NotClean,
    })
}

impl State {
    /// The state in words, or the first of the refusals 42, 31, 43 and 32.
    pub fn from_words(words: &[u64]) -> Result<State, Refusal> {
        let kit = Kit::form(words)?;
        let [place, next, finished] = [0, 1, 2].map(|word| words[KIT_WORDS + word]);
        let place = place as usize;
        match kit.factors.get(place) {
            Some(factor) if factor.range_ok(next, next) => Ok(State { kit, place, next, finished: finished != 0 }),
            _ => Err(32),
        }
    }

    /// One call by searches: the state is altered and words are written only if it is accepted.
    pub fn call(&mut self, cap: u64, list: &mut [u32], free: u64) -> Result<Counts, Refusal> {
        if self.finished {
            return Err(33);
        }
        if cap == 0 {
            return Err(18);
        }
        let end = list.len() as u64;
        if end.saturating_sub(free) < 2 {
            return Err(44);
        }
        let mut counts = Counts { trials: 0, rounds: 0, place: free };
        let mut from = (self.place, self.next);
        while let Some((place, x)) = self.kit.suspect_from(from, &mut counts.rounds) {
            if counts.trials == cap || end - counts.place < 2 {
                (self.place, self.next) = (place, x);
                return Ok(counts);
            }
            counts.trials += 1;
            if let Some(word) = word(x, product(&self.kit.factors[place], x).mark) {
                list[counts.place as usize..][..2].copy_from_slice(&[place as u32, word]);
                counts.place += 2;
            }
            from = (place, x + 1);
        }
        (self.place, self.next) = self.kit.end();
        self.finished = true;
        Ok(counts)
    }
}

/// The plain kit sweep: the rows of the factors joined in kit order, how many of it were tried, and where it stands.
pub struct Plain {
    kit: Kit,
    row: Vec<(usize, u64)>,
    tried: usize,
    place: usize,
    next: u64,
    finished: bool,
}

impl Plain {
    /// From the rows of all suspects of its factors.
    pub fn new(kit: &Kit, row_of: impl Fn(&Factor) -> Vec<u64>) -> Plain {
        let of = |(place, factor)| row_of(factor).into_iter().map(move |x| (place, x));
        let row = kit.factors.iter().enumerate().flat_map(of).collect();
        Plain { kit: kit.clone(), row, tried: 0, place: 0, next: least(kit.factors[0].bits), finished: false }
    }

    /// All suspects of the kit.
    pub fn row(&self) -> &[(usize, u64)] {
        &self.row
    }

    /// The last three words of its state.
    pub fn position(&self) -> [u64; 3] {
        [self.place as u64, self.next, self.finished as u64]
    }

    pub fn call(&mut self, cap: u64, length: u64, free: u64) -> Result<PlainAnswer, Refusal> {
        if self.finished {
            return Err(33);
        }
        if cap == 0 {
            return Err(18);
        }
        if length < 2 || free > length - 2 {
            return Err(44);
        }
        // So many entries there is room for.
        let room = (length - free) / 2;
        let mut answer = PlainAnswer { trials: 0, place: free, words: Vec::new() };
        let mut entries = 0;
        while answer.trials < cap && entries < room && self.tried < self.row.len() {
            let (place, x) = self.row[self.tried];
            self.tried += 1;
            answer.trials += 1;
            if let Some(word) = word(x, product(&self.kit.factors[place], x).mark) {
                answer.words.extend([place as u32, word]);
                entries += 1;
            }
        }
        answer.place += 2 * entries;
        self.finished = self.tried == self.row.len();
        (self.place, self.next) = if self.finished { self.kit.end() } else { self.row[self.tried] };
        Ok(answer)
    }
}
