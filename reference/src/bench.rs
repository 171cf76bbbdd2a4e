//! The benchmark: engine and reference side by side in one run, with ratios.

use crate::engine::{self, words};
use crate::factor::{greatest, least, set_up, Factor};
use crate::kit::{self, Kit, KIT_WORDS, PLACES};
use crate::onestep::{multiply_once, read_once, tally, Tally, LONGEST};
use crate::product::{multiply, product, Mark};
use crate::quotient::{divide, divide_reading};
use crate::random::{given, Given, Random, KINDS, KNOWN};
use crate::sweep::{call, new_state};
use crate::{frame, lean, reading, suspects};
use std::hint::black_box;
use std::io::{self, Write};
use std::process::{Command, Stdio};
use std::time::Instant;

const FRAMES: usize = 1000;
const PROGRAM: &str = "target/bin/plotconst";

/// The least seconds that one of several runs took.
fn seconds(runs: u32, mut run: impl FnMut()) -> f64 {
    let time = |run: &mut dyn FnMut()| {
        let begun = Instant::now();
        run();
        begun.elapsed().as_secs_f64()
    };
    (0..runs).map(|_| time(&mut run)).fold(f64::INFINITY, f64::min)
}

/// A time in a unit that reads well.
fn shown(seconds: f64) -> String {
    match seconds {
        s if s < 1e-6 => format!("{:.1} ns", s * 1e9),
        s if s < 1e-3 => format!("{:.2} us", s * 1e6),
        s if s < 1.0 => format!("{:.2} ms", s * 1e3),
        s => format!("{s:.2} s"),
    }
}

fn line(output: &mut dyn Write, what: &str, engine: f64, reference: f64) -> io::Result<()> {
    let ratio = reference / engine;
    let says = if ratio >= 1.0 {
        format!("engine {ratio:.1} times faster")
    } else {
        format!("engine {:.2} times the reference's time", 1.0 / ratio)
    };
    writeln!(output, "{what:<58} {:>10} {:>12}   {says}", shown(engine), shown(reference))
}

pub fn bench(output: &mut dyn Write) -> io::Result<()> {
    writeln!(output, "{:<58} {:>10} {:>12}", "", "engine", "reference")?;
    sweeps(output)?;
    single(output)?;
    tallies(output)?;
    per_suspect(output)?;
    kits(output)?;
    frames(output)
}

fn known(index: usize) -> (&'static str, Factor) {
    let (name, scale, lower, upper) = KNOWN[index];
    (name, set_up(false, 24, scale, lower, upper).expect("an accepted factor"))
}

/// Trying every significand with the machine's own operations, which is the quicker way of the two.
fn every_significand(factor: &Factor) -> u64 {
    let fails = |fraction: u32| reading::product(factor, f32::from_bits(0x3F80_0000 | fraction)).0 != Mark::Right;
    (0..1 << 23).filter(|&fraction| fails(fraction)).count() as u64
}

fn engine_sweep(factor: &Factor, list: &mut [u32]) -> u64 {
    let mut state = engine::new_sweep(&words(factor), least(24), greatest(24)).expect("a good range");
    engine::sweep(&mut state, u64::MAX, list, 0).expect("an accepted call").trials
}

fn sweeps(output: &mut dyn Write) -> io::Result<()> {
    for index in 0..4 {
        let (name, factor) = known(index);
        let mut list = [0; 64];
        let many = 1000;
        let ours = seconds(5, || {
            for _ in 0..many {
                black_box(engine_sweep(black_box(&factor), &mut list));
            }
        }) / many as f64;
        let every = seconds(2, || {
            black_box(every_significand(black_box(&factor)));
        });
        line(output, &format!("full sweep at 24 bits, {name}, against every significand"), ours, every)?;
        let row = seconds(2, || {
            black_box(suspects::row(black_box(&factor), least(24), greatest(24)));
        });
        line(output, "the same, against testing every one for a suspect", ours, row)?;
    }
    Ok(())
}

fn single(output: &mut dyn Write) -> io::Result<()> {
    let mut random = Random::new(1);
    let count = 200_000;
    let all: Vec<Given> = (0..count).map(|i| given(&mut random, 4 + (i % 21) as u32, i % (KINDS - 1))).collect();
    // The calls alone: what `engine::set_up` and the others do with the words is the reference's own work.
    let mut out = [0; engine::FACTOR_WORDS];
    let mut bits = [0; engine::READING_WORDS];
    let ours = seconds(5, || {
        for g in &all {
            black_box(engine::set_up_to(*g, &mut out));
        }
    });
    let theirs = seconds(5, || {
        for g in &all {
            black_box(g.set_up().is_ok());
        }
    });
    line(output, "set-up, factors of many kinds", ours / count as f64, theirs / count as f64)?;
    for g in &all {
        let lean = lean::set_up(g.minus != 0, g.bits, g.scale, g.lower, g.upper);
        assert_eq!(lean, g.set_up(), "lean set-up is the reference's");
    }
    let lean = seconds(5, || {
        for g in &all {
            black_box(lean::set_up(g.minus != 0, g.bits, g.scale, g.lower, g.upper).is_ok());
        }
    });
    line(output, "the same, against lean 128-bit arithmetic", ours / count as f64, lean / count as f64)?;

    let accepted: Vec<(Factor, u64)> = all
        .iter()
        .filter_map(|g| g.set_up().ok())
        .map(|factor| (factor, random.from_to(least(factor.bits), greatest(factor.bits))))
        .collect();
    let as_words: Vec<_> = accepted.iter().map(|(factor, x)| (words(factor), *x)).collect();
    let ours = seconds(5, || {
        for (words, x) in &as_words {
            black_box(engine::multiply_to(words, *x, &mut out));
        }
    });
    let theirs = seconds(5, || {
        for (factor, x) in &accepted {
            black_box(multiply(factor, *x).is_ok());
        }
    });
    let count = accepted.len() as f64;
    line(output, "product of a significand, the factor checked", ours / count, theirs / count)?;
    for (factor, x) in &accepted {
        assert_eq!(lean::multiply(factor, *x), multiply(factor, *x), "the lean product is the reference's");
    }
    let lean = seconds(5, || {
        for (factor, x) in &accepted {
            black_box(lean::multiply(factor, *x).is_ok());
        }
    });
    line(output, "the same, against lean 128-bit arithmetic", ours / count, lean / count)?;

    let ours = seconds(5, || {
        for (words, x) in &as_words {
            black_box(engine::divide_to(words, *x, &mut out));
        }
    });
    let theirs = seconds(5, || {
        for (factor, x) in &accepted {
            let _ = black_box(divide(factor, *x));
        }
    });
    line(output, "quotient of a significand, the factor checked", ours / count, theirs / count)?;
    for (factor, x) in &accepted {
        assert_eq!(lean::divide(factor, *x), divide(factor, *x), "the lean quotient is the reference's");
    }
    let lean = seconds(5, || {
        for (factor, x) in &accepted {
            let _ = black_box(lean::divide(factor, *x));
        }
    });
    line(output, "the same, against lean arithmetic", ours / count, lean / count)?;

    let ours = seconds(5, || {
        for (words, x) in &as_words {
            black_box(engine::multiply_once_to(words, *x, &mut out));
        }
    });
    let theirs = seconds(5, || {
        for (factor, x) in &accepted {
            black_box(multiply_once(factor, *x).is_ok());
        }
    });
    line(output, "one-step product of a significand, the factor checked", ours / count, theirs / count)?;
    for (factor, x) in &accepted {
        assert_eq!(lean::multiply_once(factor, *x), multiply_once(factor, *x), "the lean product is the reference's");
    }
    let lean = seconds(5, || {
        for (factor, x) in &accepted {
            black_box(lean::multiply_once(factor, *x).is_ok());
        }
    });
    line(output, "the same, against lean arithmetic", ours / count, lean / count)?;
    for (i, (factor, x)) in accepted.iter().enumerate() {
        let last = random.from_to(*x, greatest(factor.bits)).min(x + 1000);
        // Now and then all significands: accepted, or too many.
        let (first, last) = if i % 1000 == 0 { (least(factor.bits), greatest(factor.bits)) } else { (*x, last) };
        let due = tally(factor, first, last);
        assert_eq!(lean::tally(factor, first, last), due, "the lean tally is the reference's");
        assert_eq!(lean::tally_by_additions(factor, first, last), due, "the tally by additions is the reference's");
    }

    let readings: Vec<(Factor, u32)> = (0..count as usize)
        .map(|i| (i / 6, known(i % 6).1))
        .map(|(i, factor)| if i % 4 == 0 { factor.opposite() } else { factor })
        .map(|factor| (factor, (random.word() as u32 & 0x7FFF_FFFF) % 0x7F00_0000))
        .collect();
    let as_words: Vec<_> = readings.iter().map(|(factor, bits)| (words(factor), *bits)).collect();
    let ours = seconds(5, || {
        for (words, reading) in &as_words {
            black_box(engine::read_to(words, *reading, &mut bits));
        }
    });
    let theirs = seconds(5, || {
        for (factor, bits) in &readings {
            black_box(reading::read(factor, *bits).is_ok());
        }
    });
    line(output, "product of a reading, the factor checked", ours / count, theirs / count)?;
    let ours = seconds(5, || {
        for (words, reading) in &as_words {
            black_box(engine::divide_reading_to(words, *reading, &mut bits));
        }
    });
    let theirs = seconds(5, || {
        for (factor, bits) in &readings {
            let _ = black_box(divide_reading(factor, *bits));
        }
    });
    line(output, "quotient of a reading, the factor checked", ours / count, theirs / count)?;
    let ours = seconds(5, || {
        for (words, reading) in &as_words {
            black_box(engine::read_once_to(words, *reading, &mut bits));
        }
    });
    let theirs = seconds(5, || {
        for (factor, bits) in &readings {
            black_box(read_once(factor, *bits).is_ok());
        }
    });
    line(output, "one-step product of a reading, the factor checked", ours / count, theirs / count)
}

/// All significands of 24 bits, 65,536 in a call.
fn tally_of_all(tally: impl Fn(u64, u64) -> Tally) -> Tally {
    (least(24)..=greatest(24))
        .step_by(LONGEST as usize)
        .fold(Tally::default(), |sum, first| sum + tally(first, first + LONGEST - 1))
}

fn tallies(output: &mut dyn Write) -> io::Result<()> {
    let short = set_up(false, 24, 0, 3 << 61, 3 << 61).expect("an accepted factor");
    for (name, factor) in [known(0), known(1), known(4), ("3/2", short)] {
        let words = words(&factor);
        let ours = |first, last| engine::tally(black_box(&words), first, last).expect("a tally");
        let theirs = |first, last| tally(black_box(&factor), first, last).expect("a tally");
        let lean = |first, last| lean::tally(black_box(&factor), first, last).expect("a tally");
        let leaner = |first, last| lean::tally_by_additions(black_box(&factor), first, last).expect("a tally");
        let due = tally_of_all(theirs);
        assert_eq!(tally_of_all(lean), due, "the lean tally is the reference's");
        assert_eq!(tally_of_all(leaner), due, "the tally by additions is the reference's");
        let each = |seconds: f64| seconds / least(24) as f64;
        let all = each(seconds(5, || {
            black_box(tally_of_all(ours));
        }));
        let reference = each(seconds(2, || {
            black_box(tally_of_all(theirs));
        }));
        line(output, &format!("tally of {LONGEST} significands of {name} at 24 bits, for each"), all, reference)?;
        let lean = each(seconds(5, || {
            black_box(tally_of_all(lean));
        }));
        line(output, "the same, against lean arithmetic, each by itself", all, lean)?;
        let leaner = each(seconds(5, || {
            black_box(tally_of_all(leaner));
        }));
        line(output, "the same, against lean additions between binades", all, leaner)?;
    }
    Ok(())
}

fn per_suspect(output: &mut dyn Write) -> io::Result<()> {
    let short = set_up(false, 24, 0, 3 << 61, 3 << 61).expect("an accepted factor");
    for (name, factor) in [known(4), ("3/2", short)] {
        let mut list = vec![0; 70_000];
        let mut trials = 0;
        let ours = seconds(3, || trials = black_box(engine_sweep(&factor, &mut list)));
        let theirs = seconds(3, || {
            let mut state = new_state(&factor, least(24), greatest(24)).expect("a good range");
            black_box(call(&mut state, u64::MAX, &mut list, 0).is_ok());
        });
        let plain = seconds(2, || {
            let row = suspects::row(&factor, least(24), greatest(24));
            black_box(row.iter().filter(|&&x| product(&factor, x).mark != Mark::Right).count());
        });
        let each = trials as f64;
        line(output, &format!("one of {trials} suspects of {name}, by searches"), ours / each, theirs / each)?;
        line(output, "the same, against the row of all suspects", ours / each, plain / each)?;
    }
    Ok(())
}

/// Forming a kit, a call that is refused after all checks, and a whole sweep in one call.
fn kits(output: &mut dyn Write) -> io::Result<()> {
    let accepted = lowers().filter_map(|lower| set_up(false, 24, 0, lower, lower + 1).ok());
    let kit = Kit { factors: accepted.take(PLACES).collect() };
    let words = kit.words();
    let (many, each) = (1000, |seconds: f64| seconds / 1000.0);
    let ours = each(seconds(5, || {
        for _ in 0..many {
            black_box(engine::form_kit(black_box(&words)));
        }
    }));
    let theirs = each(seconds(5, || {
        for _ in 0..many {
            black_box(Kit::form(black_box(&words)).is_ok());
        }
    }));
    line(output, &format!("forming a kit of {PLACES} factors at 24 bits"), ours, theirs)?;
    let begun = engine::new_kit_sweep(&words).expect("a good kit");
    let (mut state, mut list, mut counts) = (begun.clone(), [0; 1000], [0; engine::COUNT_WORDS]);
    assert_eq!(engine::kit_sweep_to(&mut state, 1, &mut list[..1], 0, &mut counts), 44);
    let ours = each(seconds(5, || {
        for _ in 0..many {
            black_box(engine::kit_sweep_to(&mut state, 1, &mut list[..1], 0, &mut counts));
        }
    }));
    let theirs = each(seconds(5, || {
        for _ in 0..many {
            black_box(kit::call(&mut state, 1, &mut list[..1], 0).is_ok());
        }
    }));
    line(output, "a call on it that is refused last of all, with 44", ours, theirs)?;
    let ours = each(seconds(5, || {
        for _ in 0..many {
            state[KIT_WORDS..].copy_from_slice(&begun[KIT_WORDS..]);
            black_box(engine::kit_sweep_to(&mut state, u64::MAX, &mut list, 0, &mut counts));
        }
    }));
    let theirs = each(seconds(5, || {
        for _ in 0..many {
            state[KIT_WORDS..].copy_from_slice(&begun[KIT_WORDS..]);
            black_box(kit::call(&mut state, u64::MAX, &mut list, 0).is_ok());
        }
    }));
    line(output, &format!("its whole sweep in one call, {} suspects", counts[0]), ours, theirs)?;
    let separate = each(seconds(5, || {
        for _ in 0..many {
            for factor in &kit.factors {
                black_box(engine_sweep(black_box(factor), &mut list));
            }
        }
    }));
    line(output, &format!("the same, against {PLACES} sweeps by the engine, one by one"), ours, separate)
}

/// Lower ends, from a state that each moves on.
fn lowers() -> impl Iterator<Item = u64> {
    let mut state = 1u64;
    std::iter::repeat_with(move || {
        state = state.wrapping_mul(6364136223846793005).wrapping_add(1442695040888963407);
        (1 << 62) + state / 4
    })
}

/// Frames at precision 24 with ends one apart.
fn load() -> String {
    lowers().take(FRAMES).map(|lower| format!("18 00 {:016X} {:016X}\n", lower, lower + 1)).collect()
}

fn frames(output: &mut dyn Write) -> io::Result<()> {
    let load = load();
    // The reference takes long: a part of the frames tells its time for one.
    let part: String = load.lines().take(FRAMES / 25).map(|line| format!("{line}\n")).collect();
    let theirs = seconds(1, || {
        frame::plotconst(&mut part.as_bytes(), &mut io::sink()).expect("written nowhere");
    }) * 25.0;
    if !std::path::Path::new(PROGRAM).exists() {
        return writeln!(
            output,
            "plotconst over {FRAMES} frames: {PROGRAM} is not built; the reference {}",
            shown(theirs)
        );
    }
    let ours = seconds(3, || {
        let mut program =
            Command::new(PROGRAM).stdin(Stdio::piped()).stdout(Stdio::null()).spawn().expect("the program starts");
        program.stdin.take().expect("its input").write_all(load.as_bytes()).expect("it reads");
        assert!(program.wait().expect("it ends").success());
    });
    line(output, &format!("plotconst over {FRAMES} frames (the reference: from {})", FRAMES / 25), ours, theirs)
}
