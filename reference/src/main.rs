//! The second reference: document 01 worked out again, by other methods than the engine's.

#![cfg_attr(not(engine), allow(dead_code))]
#[cfg(engine)]
mod bench;
mod cases;
#[cfg(engine)]
mod compare;
#[cfg(engine)]
mod compare_kit;
mod directions;
#[cfg(engine)]
mod engine;
mod factor;
mod faults;
mod figures;
mod frame;
mod kit;
#[cfg(engine)]
mod lean;
mod lines;
mod onestep;
mod product;
mod quotient;
mod random;
mod reading;
mod rounding;
mod search;
mod suspects;
mod sweep;
mod words;

use std::io::{self, BufWriter, Write};

const USAGE: &str = "reference plotconst   frames from standard input, reports to standard output
reference cases       lines of calls from standard input, each answered
reference selftest    document 01's figures and the reference's methods against each other
reference lines       lines for plotconst, frames and others
reference faults      plotconst (target/bin) when reads and writes are small or fail
reference compare     the engine against the reference (only if it was linked: reference/build)
reference bench       the engine's time against the reference's (the same)";

fn main() -> io::Result<()> {
    let command = std::env::args().nth(1).unwrap_or_default();
    let mut input = io::stdin().lock();
    let mut output = BufWriter::new(io::stdout().lock());
    match command.as_str() {
        "plotconst" => frame::plotconst(&mut input, &mut output)?,
        "cases" => cases::cases(&mut input, &mut output)?,
        "selftest" => figures::selftest(&mut output)?,
        "lines" => lines::lines(&mut output)?,
        "faults" => faults::faults(&mut output)?,
        #[cfg(engine)]
        "compare" => compare::compare(&mut output)?,
        #[cfg(engine)]
        "bench" => bench::bench(&mut output)?,
        _ => {
            eprintln!("{USAGE}");
            std::process::exit(2);
        }
    }
    output.flush()
}
