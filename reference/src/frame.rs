//! Frame lines and the program `plotconst`.

use crate::factor::{greatest, least, set_up, Factor, Refusal};
use crate::product::{product, Mark};
use crate::suspects;
use std::io::{self, BufRead, Write};

/// The number that upper-case hexadecimal digits give, or none.
pub fn digits(text: &[u8]) -> Option<u64> {
    let mut value = 0u64;
    for &byte in text {
        let digit = b"0123456789ABCDEF".iter().position(|&d| d == byte)?;
        value = value << 4 | digit as u64;
    }
    Some(value)
}

/// Fields of these widths, one blank apart and nothing else on the line.
pub fn fields(line: &[u8], widths: &[usize]) -> Option<Vec<u64>> {
    let parts: Vec<&[u8]> = line.split(|&byte| byte == b' ').collect();
    let fits = parts.len() == widths.len() && parts.iter().zip(widths).all(|(part, &width)| part.len() == width);
    if !fits {
        return None;
    }
    parts.into_iter().map(digits).collect()
}

/// The factor of a line; `ended` says that its line feed was there. The precision's byte has 80 hexadecimal added for a factor below zero.
pub fn factor(line: &[u8], ended: bool) -> Result<Factor, Refusal> {
    let read = if ended { fields(line, &[2, 2, 16, 16]) } else { None };
    let fields = read.ok_or(24u32)?;
    let (sign, bits) = (fields[0] / 0x80, fields[0] % 0x80);
    set_up(sign == 1, bits as u32, fields[1] as u8 as i8 as i32, fields[2], fields[3])
}

/// What `plotconst` prints for the line with this number.
pub fn report(number: u32, line: &[u8], ended: bool, output: &mut dyn Write) -> io::Result<()> {
    let factor = match factor(line, ended) {
        Ok(factor) => factor,
        Err(refusal) => return writeln!(output, "{number:04X} FF {refusal:02}"),
    };
    let (mut trials, mut wrong, mut open) = (0u32, 0u32, 0u32);
    for x in suspects::row(&factor, least(factor.bits), greatest(factor.bits)) {
        trials += 1;
        match product(&factor, x).mark {
            Mark::Right => (),
            Mark::Open => {
                open += 1;
                writeln!(output, "{:08X}", 2 * x + 1)?;
            }
            Mark::Wrong => {
                wrong += 1;
                writeln!(output, "{:08X}", 2 * x)?;
            }
        }
    }
    let verdict = if wrong > 0 {
        1
    } else if open > 0 {
        2
    } else {
        0
    };
    writeln!(output, "{number:04X} {verdict:02X} {trials:08X} {wrong:08X} {open:08X}")
}

/// Calls `each` with every line's number, bytes and whether a line feed ended it; stops after `most` lines.
pub fn for_lines(
    input: &mut dyn BufRead,
    most: u64,
    mut each: impl FnMut(u64, &[u8], bool) -> io::Result<()>,
) -> io::Result<()> {
    let mut number = 0;
    let mut line = Vec::new();
    while number < most && input.read_until(b'\n', &mut line)? > 0 {
        number += 1;
        let ended = line.last() == Some(&b'\n');
        if ended {
            line.pop();
        }
        each(number, &line, ended)?;
        line.clear();
    }
    Ok(())
}

pub fn plotconst(input: &mut dyn BufRead, output: &mut dyn Write) -> io::Result<()> {
    for_lines(input, 65_535, |number, line, ended| report(number as u32, line, ended, output))
}
