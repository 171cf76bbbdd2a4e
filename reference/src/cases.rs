//! The program `cases`: lines of calls, each answered behind the line itself.

use crate::factor::{set_up, Factor, Refusal};
use crate::frame::{fields, for_lines};
use crate::kit::{self, Kit, KIT_STATE_WORDS, KIT_WORDS, PLACES};
use crate::onestep::{multiply_once, read_once, tally};
use crate::product::{multiply, Mark, Product};
use crate::quotient::{divide, divide_reading, Quotient};
use crate::reading::{read, Number};
use crate::search;
use crate::sweep::{call, new_state};
use crate::words::{from_words, state_from, state_words, words, FACTOR_WORDS, STATE_WORDS};
use std::io::{self, BufRead, Write};

struct Cases {
    state: [u64; STATE_WORDS],
    kit: Vec<u64>,
    list: [u32; 64],
}

pub fn cases(input: &mut dyn BufRead, output: &mut dyn Write) -> io::Result<()> {
    let mut cases = Cases { state: [0; STATE_WORDS], kit: vec![0; KIT_STATE_WORDS], list: [u32::MAX; 64] };
    for_lines(input, u64::MAX, |_, line, ended| {
        let answer = if ended { cases.answer(line) } else { None };
        output.write_all(line)?;
        writeln!(output, " {}", answer.unwrap_or("24".to_string()))
    })
}

impl Cases {
    /// The result of a line, or none for a line that is none of the table's.
    fn answer(&mut self, line: &[u8]) -> Option<String> {
        let widths: &[usize] = match line.get(..2)? {
            b"01" => &[2, 8, 8, 8, 16, 16],
            b"02" => &[2, 2, 16],
            b"03" => &[2, 16],
            b"04" => &[2, 8],
            b"05" => &[2, 2, 16],
            b"06" => &[2, 16, 16],
            b"07" => &[2, 16, 2, 16],
            b"08" => &[2, 8],
            b"09" | b"0B" => &[2, 16],
            b"0A" | b"0C" => &[2, 8],
            b"0D" => &[2, 16, 16],
            b"0E" => &[2, 2],
            b"0F" => &[2, 4, 16],
            b"10" | b"11" => &[2],
            b"12" => &[2, 16, 2, 16],
            b"13" => &[2, 16],
            _ => return None,
        };
        let f = fields(line, widths)?;
        let refused = |refusal: u32| format!("{refusal:02}");
        let marked_product = |answer: Result<Product, Refusal>| match answer {
            Err(refusal) => refused(refusal),
            Ok(Product { mark, significand, binade, direction, minus }) => {
                let (mark, direction) = (mark.number(), direction.number());
                format!("{mark:02} {significand:016X} {binade:02X} {direction:02X} {:02X}", minus as u32)
            }
        };
        let number = |Number { bits, direction }| format!("{bits:08X} {:02X}", direction.number());
        let marked_reading = |answer: Result<(Mark, Number), Refusal>| match answer {
            Err(refusal) => refused(refusal),
            Ok((mark, product)) => format!("{:02} {}", mark.number(), number(product)),
        };
        let answer = match f[0] {
            1 => match set_up(f[1] != 0, f[2] as u32, f[3] as u32 as i32, f[4], f[5]) {
                Err(refusal) => refused(refusal),
                Ok(factor) => {
                    let Factor { minus, high, low, places, high_float, low_float, .. } = factor;
                    self.state[..FACTOR_WORDS].copy_from_slice(&words(&factor));
                    format!(
                        "00 {:02X} {high:016X} {low:016X} {places:08X} {high_float:08X} {low_float:08X}",
                        minus as u32
                    )
                }
            },
            2 => {
                *self.state.get_mut(f[1] as usize)? = f[2];
                "00".to_string()
            }
            3 => marked_product(from_words(&self.state).and_then(|factor| multiply(&factor, f[1]))),
            4 => marked_reading(from_words(&self.state).and_then(|factor| read(&factor, f[1] as u32))),
            5 => {
                if f[1] > 1 {
                    return None;
                }
                match from_words(&self.state) {
                    Ok(factor) if factor.intact() => {
                        if f[2] > 1 << 63 {
                            return Some(refused(17));
                        }
                        let found = search::next(&factor, f[1] == 0, f[2]);
                        match found.place {
                            Some(place) => format!("01 {:016X} {:016X}", place, found.rounds),
                            None => format!("00 {:016X}", found.rounds),
                        }
                    }
                    _ => refused(31),
                }
            }
            6 => match from_words(&self.state).and_then(|factor| new_state(&factor, f[1], f[2])) {
                Err(refusal) => refused(refusal),
                Ok(state) => {
                    self.state = state_words(&state);
                    "00".to_string()
                }
            },
            7 => {
                if f[2] > 64 {
                    return None;
                }
                let list = &mut self.list[..f[2] as usize];
                let called =
                    state_from(&self.state).and_then(|mut state| Ok((call(&mut state, f[1], list, f[3])?, state)));
                let mut answer = match called {
                    Err(refusal) => refused(refusal),
                    Ok((counts, state)) => {
                        self.state = state_words(&state);
                        format!("00 {:016X} {:016X} {:016X}", counts.trials, counts.rounds, counts.place)
                    }
                };
                let [first, last, next, finished] = [10, 11, 12, 13].map(|word| self.state[word]);
                answer += &format!(" {:016X} {:016X} {:016X} {:02X}", first, last, next, (finished != 0) as u32);
                answer + &words_of(list)
            }
            8 => {
                self.list = [f[1] as u32; 64];
                "00".to_string()
            }
            9 => match from_words(&self.state).and_then(|factor| divide(&factor, f[1])) {
                Err(refusal) => refused(refusal),
                Ok(Quotient { significand, binade, direction, minus }) => {
                    format!("00 {significand:016X} {binade:016X} {:02X} {:02X}", direction.number(), minus as u32)
                }
            },
            10 => match from_words(&self.state).and_then(|factor| divide_reading(&factor, f[1] as u32)) {
                Err(refusal) => refused(refusal),
                Ok(quotient) => format!("00 {}", number(quotient)),
            },
            11 => marked_product(from_words(&self.state).and_then(|factor| multiply_once(&factor, f[1]))),
            12 => marked_reading(from_words(&self.state).and_then(|factor| read_once(&factor, f[1] as u32))),
            13 => match from_words(&self.state).and_then(|factor| tally(&factor, f[1], f[2])) {
                Err(refusal) => refused(refusal),
                Ok(tally) => format!("00 {:08X} {:08X} {:08X}", tally.right, tally.wrong, tally.open),
            },
            14 => {
                if f[1] >= PLACES as u64 {
                    return None;
                }
                let at = 1 + f[1] as usize * FACTOR_WORDS;
                self.kit[at..at + FACTOR_WORDS].copy_from_slice(&self.state[..FACTOR_WORDS]);
                "00".to_string()
            }
            15 => {
                *self.kit.get_mut(f[1] as usize)? = f[2];
                "00".to_string()
            }
            16 => refused(Kit::form(&self.kit).err().unwrap_or(0)),
            17 => {
                let outcome = match kit::new_state(&self.kit) {
                    Err(refusal) => refusal,
                    Ok(state) => {
                        self.kit = state;
                        0
                    }
                };
                refused(outcome) + &self.kit_position()
            }
            18 => {
                if f[2] > 64 {
                    return None;
                }
                let list = &mut self.list[..f[2] as usize];
                let answer = match kit::call(&mut self.kit, f[1], list, f[3]) {
                    Err(refusal) => refused(refusal),
                    Ok(counts) => format!("00 {:016X} {:016X} {:016X}", counts.trials, counts.rounds, counts.place),
                };
                let words = words_of(list);
                answer + &self.kit_position() + &words
            }
            _ => refused(kit::told(&self.kit, f[1]).map_or_else(|refusal| refusal, |told| told.number())),
        };
        Some(answer)
    }

    /// Where the kit sweep stands: place, next significand, and whether it is finished.
    fn kit_position(&self) -> String {
        let [place, next, finished] = [0, 1, 2].map(|word| self.kit[KIT_WORDS + word]);
        format!(" {place:016X} {next:016X} {:02X}", (finished != 0) as u32)
    }
}

/// The words of a list, each behind a blank.
fn words_of(list: &[u32]) -> String {
    list.iter().map(|word| format!(" {word:08X}")).collect()
}
