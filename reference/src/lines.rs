//! Lines for `plotconst`, the same in every run: frames with every precision byte, frames of many kinds, and lines that are none, more than
//! the program reads.

use crate::random::{given, Random, KINDS, KNOWN};
use std::io::{self, Write};

const LINES: u64 = 66_000;

pub fn lines(output: &mut dyn Write) -> io::Result<()> {
    // Pi is accepted at every precision; an end of 0 is refused, where the byte is not.
    let (_, scale, lower, upper) = KNOWN[1];
    for byte in 0..=0xFF {
        writeln!(output, "{byte:02X} {scale:02X} {lower:016X} {upper:016X}")?;
        writeln!(output, "{byte:02X} {scale:02X} {:016X} {upper:016X}", 0)?;
    }
    let mut random = Random::new(1);
    for i in 0..LINES {
        let mut line = frame(&mut random, i);
        if random.below(4) == 0 {
            spoil(&mut random, &mut line);
        }
        output.write_all(&line)?;
        output.write_all(b"\n")?;
    }
    output.write_all(&frame(&mut random, 0))
}

/// A frame of a small precision: those are swept soon by trying every significand.
fn frame(random: &mut Random, i: u64) -> Vec<u8> {
    let bits = random.from_to(4, 11) as u32;
    let mut given = given(random, bits, i % KINDS);
    if given.bits > 12 && given.bits <= 24 {
        given.bits = bits;
    }
    if random.below(16) == 0 {
        given.scale = random.below(256) as i32;
    }
    let (sign, bits, scale) = (if given.minus == 0 { 0 } else { 0x80 }, given.bits as u8, given.scale as u8);
    format!("{:02X} {scale:02X} {:016X} {:016X}", bits | sign, given.lower, given.upper).into_bytes()
}

/// Alters a line so that it most often is no frame; no line feed comes into it.
fn spoil(random: &mut Random, line: &mut Vec<u8>) {
    let any_byte = |random: &mut Random| match random.word() as u8 {
        b'\n' => b'\r',
        byte => byte,
    };
    let at = random.below(line.len() as u64) as usize;
    match random.below(10) {
        0 => line.make_ascii_lowercase(),
        1 => line[at] = any_byte(random),
        2 => line.insert(at, any_byte(random)),
        3 => drop(line.remove(at)),
        4 => line.push(random.one_of(b" \r\t\0")),
        5 => line.truncate(at),
        6 => line.iter_mut().filter(|byte| **byte == b' ').for_each(|byte| *byte = b'\t'),
        7 => *line = (0..random.below(60)).map(|_| any_byte(random)).collect(),
        8 if random.below(50) == 0 => *line = vec![any_byte(random); random.below(20_000) as usize],
        _ => line.swap(2, at),
    }
}
