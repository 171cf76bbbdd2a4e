//! The program `plotconst` when its reads and writes are small, or one of them fails once and later ones work (`reference/faults`).

use crate::frame;
use std::fs;
use std::io::{self, Write};
use std::process::{Command, Output, Stdio};

const PROGRAM: &str = "target/bin/plotconst";
const PRELOADED: &str = "target/reference/libfaults.so";
const INPUT: &str = "crates/plotconst/stdin";
const DUE: &str = "crates/plotconst/stdout";

/// Reasons that the system gives (errno).
const INTERRUPTED: u32 = 4;
const DEVICE: u32 = 5;
const WOULD_BLOCK: u32 = 11;
const DISK_FULL: u32 = 28;
const NO_READER: u32 = 32;

/// Runs the program on the stored input under these settings.
fn run(settings: &[(&str, u64)]) -> io::Result<Output> {
    let settings = settings.iter().map(|(name, value)| (name, value.to_string()));
    Command::new(PROGRAM)
        .env_clear()
        .env("LD_PRELOAD", fs::canonicalize(PRELOADED)?)
        .envs(settings)
        .stdin(Stdio::from(fs::File::open(INPUT)?))
        .output()
}

/// One line on standard error with these words, or nothing.
fn told(run: &Output, words: &str) -> bool {
    let said = String::from_utf8_lossy(&run.stderr);
    if words.is_empty() {
        return said.is_empty();
    }
    said.starts_with(words) && said.ends_with('\n') && said.lines().count() == 1
}

/// What is due of the lines that the first `size` bytes complete.
fn due_of(input: &[u8], size: usize) -> io::Result<Vec<u8>> {
    let read = &input[..size.min(input.len())];
    let lines = read.iter().rposition(|&byte| byte == b'\n').map_or(0, |at| at + 1);
    let mut due = Vec::new();
    frame::plotconst(&mut &read[..lines], &mut due)?;
    Ok(due)
}

/// Runs, each held to what it must print and say.
struct Checked<'a> {
    input: &'a [u8],
    due: &'a [u8],
    runs: usize,
}

impl Checked<'_> {
    /// What a run printed, after what holds of any: it ended by itself, and said these words in one line, or nothing.
    fn run(&mut self, settings: &[(&str, u64)], words: &str) -> io::Result<Vec<u8>> {
        self.runs += 1;
        let run = run(settings)?;
        assert!(run.status.success(), "ended by {:?}, with {settings:?}", run.status);
        assert!(told(&run, words), "said {:?}, with {settings:?}", String::from_utf8_lossy(&run.stderr));
        Ok(run.stdout)
    }

    /// Sizes do not matter.
    fn sizes(&mut self) -> io::Result<()> {
        for most in [1, 2, 39, 40, 41, 1000, 4096, 65_536] {
            for name in ["READ_MOST", "WRITE_MOST"] {
                let printed = self.run(&[(name, most)], "")?;
                assert!(printed == self.due, "{name} {most}: not what is due");
            }
        }
        Ok(())
    }

    /// A write that failed is the last, whichever of them it is: each time a longer part of what is due is printed, and nothing else.
    fn writes(&mut self, most: u64, step: usize) -> io::Result<()> {
        let mut before = None;
        for call in (1..).step_by(step) {
            let settings = [("WRITE_MOST", most), ("WRITE_FAILS", call), ("ERRNO", DISK_FULL.into())];
            let writes = self.due.len() as u64 / most;
            if call > writes && run(&settings)?.stdout == self.due {
                assert!(call > 2, "no write failed");
                return Ok(());
            }
            let printed = self.run(&settings, "plotconst: cannot write standard output")?;
            assert!(self.due.starts_with(&printed), "not a prefix of what is due, with {settings:?}");
            assert!(printed.is_empty() == (call == 1), "not what was written before, with {settings:?}");
            assert!(
                before < Some(printed.len()) && printed.len() < self.due.len(),
                "{} bytes, with {settings:?}",
                printed.len()
            );
            before = Some(printed.len());
        }
        Ok(())
    }

    /// Every reason is told, but that nobody reads any more.
    fn reasons(&mut self) -> io::Result<()> {
        for reason in [INTERRUPTED, DEVICE, WOULD_BLOCK, NO_READER] {
            let settings = [("WRITE_FAILS", 3), ("ERRNO", reason.into())];
            let words = if reason == NO_READER { "" } else { "plotconst: cannot write standard output" };
            let printed = self.run(&settings, words)?;
            assert!(
                self.due.starts_with(&printed) && printed.len() < self.due.len(),
                "not a prefix, with {settings:?}"
            );
        }
        Ok(())
    }

    /// A read that failed is the last: what is due of the lines that were read is printed, and of the unfinished one nothing.
    fn reads(&mut self) -> io::Result<()> {
        for (most, call) in [(65_536, 1), (65_536, 2), (1000, 2), (1000, 30), (39, 2), (39, 777), (40, 2), (41, 2)] {
            let settings = [("READ_MOST", most), ("READ_FAILS", call), ("ERRNO", DEVICE.into())];
            let printed = self.run(&settings, "plotconst: cannot read standard input")?;
            let due = due_of(self.input, (most * (call - 1)) as usize)?;
            assert!(printed == due, "not what is due of the lines read, with {settings:?}");
        }
        Ok(())
    }
}

pub fn faults(output: &mut dyn Write) -> io::Result<()> {
    let (input, due) = (fs::read(INPUT)?, fs::read(DUE)?);
    let mut checked = Checked { input: &input, due: &due, runs: 0 };
    checked.sizes()?;
    checked.writes(65_536, 1)?;
    checked.writes(1000, 37)?;
    checked.reasons()?;
    checked.reads()?;
    writeln!(output, "faults: {} runs of plotconst with small or failing reads and writes", checked.runs)
}
