//! Differential test: libeco32.a against the reference simulator, answer for
//! answer and byte for byte.

mod bench;
mod charges;
mod coverage;
mod damage;
#[allow(unsafe_code)]
mod ffi;
mod frames;
mod isolation;
mod runs;
mod set;
mod slots;
mod systematic;
mod views;
mod watch;
mod world;

use bench::{Counts, Difference};
use eco32_reference::vectors;
use eco32_reference::vectors::numbers::Numbers;
use set::SetTest;
use std::process::ExitCode;

const USAGE: &str = "usage: differential [--seed N] [--cases N | --case N]
  --cases N  makes cases 0 to N - 1 of the seed; too few leave holes in the coverage
  --case N   makes only case N of the seed, without counting coverage";

const SEED: u64 = 1;
const CASES: u64 = 100_000;

struct Options {
    seed: u64,
    cases: u64,
    only: Option<u64>,
}

fn options() -> Option<Options> {
    let mut options = Options {
        seed: SEED,
        cases: CASES,
        only: None,
    };
    let mut arguments = std::env::args().skip(1);
    while let Some(name) = arguments.next() {
        let number = arguments.next()?.parse().ok()?;
        match name.as_str() {
            "--seed" => options.seed = number,
            "--cases" => options.cases = number,
            "--case" => options.only = Some(number),
            _ => return None,
        }
    }
    Some(options)
}

/// Makes one random case. Its numbers follow from the seed and its own number.
fn case(seed: u64, number: u64, counts: &mut Counts) -> Result<(), Difference> {
    watch::case(number);
    let mut mixed = Numbers::new(seed);
    let mut numbers = Numbers::new(mixed.long() ^ number.wrapping_mul(0xD134_2543_DE82_EF95));
    let result = match numbers.below(20) {
        0..=10 => runs::case(&mut numbers, counts),
        11..=16 => isolation::case(&mut numbers, counts),
        17..=18 => damage::case(&mut numbers, counts),
        _ => views::case(&mut numbers, counts),
    };
    result.map_err(|what| {
        format!("case {number} of seed {seed}: {what}\n(again: --seed {seed} --case {number})")
    })
}

/// The whole test.
fn all(options: &Options, counts: &mut Counts) -> Result<(), Difference> {
    systematic::all(counts)?;
    slots::all(counts)?;
    charges::all(counts)?;
    let mut set = SetTest {
        counts,
        cases: 0,
        found: None,
    };
    vectors::cases(&mut set);
    if let Some(what) = set.found {
        return Err(what);
    }
    for number in 0..options.cases {
        case(options.seed, number, counts)?;
    }
    Ok(())
}

/// Prints what was covered; answers the holes.
fn report(options: &Options, counts: &Counts) -> Vec<String> {
    let steps = vectors::required::required();
    let calls = coverage::required();
    print!("{}", counts.steps.tally.report(&steps));
    print!("{}", counts.calls.report(&calls));
    println!("random cases\n  {} of seed {}", options.cases, options.seed);
    let mut holes = counts.steps.tally.holes(&steps);
    holes.extend(counts.calls.holes(&calls));
    holes
}

fn main() -> ExitCode {
    let Some(options) = options() else {
        eprintln!("{USAGE}");
        return ExitCode::from(2);
    };
    watch::start(options.seed);
    let mut counts = Counts::default();
    let result = match options.only {
        Some(number) => case(options.seed, number, &mut counts),
        None => all(&options, &mut counts),
    };
    if let Err(what) = result {
        eprintln!("differential: DIFFERENCE in {what}");
        return ExitCode::FAILURE;
    }
    if options.only.is_some() {
        println!("no difference");
        return ExitCode::SUCCESS;
    }
    let holes = report(&options, &counts);
    if !holes.is_empty() {
        eprintln!("differential: not covered:\n{}", holes.join("\n"));
        return ExitCode::FAILURE;
    }
    println!("no difference");
    ExitCode::SUCCESS
}
