//! Sweep calls by searches, as document 01 tells them, and the plain sweep by its row.

use crate::factor::{Factor, Refusal};
use crate::product::{product, Mark};
use crate::{search, suspects};

#[derive(Clone, Copy, Debug, PartialEq, Eq)]
pub struct State {
    pub factor: Factor,
    pub first: u64,
    pub last: u64,
    pub next: u64,
    pub finished: bool,
}

#[derive(Clone, Copy, Debug, PartialEq, Eq)]
pub struct Counts {
    pub trials: u64,
    pub rounds: u64,
    pub place: u64,
}

pub fn new_state(factor: &Factor, first: u64, last: u64) -> Result<State, Refusal> {
    factor.check_range(first, last)?;
    Ok(State { factor: *factor, first, last, next: first, finished: false })
}

/// The listed word of a significand that is not right.
pub fn word(x: u64, mark: Mark) -> Option<u32> {
    match mark {
        Mark::Right => None,
        Mark::Open => Some(2 * x as u32 + 1),
        Mark::Wrong => Some(2 * x as u32),
    }
}

/// One call: the state is altered and words are written only if it is accepted.
pub fn call(state: &mut State, cap: u64, list: &mut [u32], place: u64) -> Result<Counts, Refusal> {
    let factor = state.factor;
    if !factor.intact() {
        return Err(31);
    }
    if !factor.range_ok(state.first, state.last) || state.next < state.first || state.last < state.next {
        return Err(32);
    }
    if state.finished {
        return Err(33);
    }
    if cap == 0 {
        return Err(18);
    }
    if place >= list.len() as u64 {
        return Err(19);
    }
    let halves = Halves::new(&factor, state.last);
    let mut counts = Counts { trials: 0, rounds: 0, place };
    let mut from = state.next;
    while let Some(x) = halves.suspect_from(&factor, from, &mut counts.rounds) {
        if counts.trials == cap || counts.place == list.len() as u64 {
            state.next = x;
            return Ok(counts);
        }
        counts.trials += 1;
        if let Some(word) = word(x, product(&factor, x).mark) {
            list[counts.place as usize] = word;
            counts.place += 1;
        }
        from = x + 1;
    }
    state.next = state.last;
    state.finished = true;
    Ok(counts)
}

/// The low significands of a range are those below `low_end`, the high ones go on to `last`.
pub struct Halves {
    low_end: u64,
    last: u64,
}

impl Halves {
    pub fn new(factor: &Factor, last: u64) -> Halves {
        Halves { low_end: factor.first_high().min(last + 1), last }
    }

    /// The first suspect at or after `from`, with the rounds of the searches that this takes.
    pub fn suspect_from(&self, factor: &Factor, from: u64, rounds: &mut u64) -> Option<u64> {
        let mut search = |low: bool, start: u64, end: u64| {
            if start >= end {
                return None;
            }
            let found = search::next(factor, low, start);
            *rounds += found.rounds;
            found.place.filter(|&place| place < end as u128).map(|place| place as u64)
        };
        search(true, from, self.low_end).or_else(|| search(false, from.max(self.low_end), self.last + 1))
    }
}

/// The plain sweep: the row of suspects, how many were tried, next and finished.
pub struct Plain {
    factor: Factor,
    first: u64,
    last: u64,
    row: Vec<u64>,
    tried: usize,
    next: u64,
    finished: bool,
}

pub struct PlainAnswer {
    pub trials: u64,
    pub place: u64,
    pub words: Vec<u32>,
}

impl Plain {
    pub fn new(factor: &Factor, first: u64, last: u64) -> Plain {
        let row = suspects::row(factor, first, last);
        Plain { factor: *factor, first, last, row, tried: 0, next: first, finished: false }
    }

    pub fn state(&self) -> State {
        State { factor: self.factor, first: self.first, last: self.last, next: self.next, finished: self.finished }
    }

    pub fn call(&mut self, cap: u64, length: u64, place: u64) -> Result<PlainAnswer, Refusal> {
        if self.finished {
            return Err(33);
        }
        if cap == 0 {
            return Err(18);
        }
        if place >= length {
            return Err(19);
        }
        let free = length - place;
        let mut answer = PlainAnswer { trials: 0, place, words: Vec::new() };
        while answer.trials < cap && (answer.words.len() as u64) < free && self.tried < self.row.len() {
            let x = self.row[self.tried];
            self.tried += 1;
            answer.trials += 1;
            answer.words.extend(word(x, product(&self.factor, x).mark));
        }
        answer.place += answer.words.len() as u64;
        self.finished = self.tried == self.row.len();
        self.next = if self.finished { self.last } else { self.row[self.tried] };
        Ok(answer)
    }
}
