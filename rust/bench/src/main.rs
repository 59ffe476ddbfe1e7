//! The benchmark: each entry of the library beside the fast one, on the same inputs, in turn and in many rounds.
//!
//! Answers and lent lists are compared in every round; a difference ends the run with exit status 1. The seed is taken
//! from the environment variable SEED, the number of rounds from ROUNDS; without them fixed ones are used.

mod again;
mod circles;
mod damaged;
mod inputs;
mod mornings;
mod report;
mod sides;
mod times;

use circles::Circles;
use inputs::{Inputs, Which};
use mornings::Mornings;
use report::{Figures, Report};
use second::random::Random;
use sides::{Entry, Lent, FAST, OURS};
use std::process::ExitCode;
use times::{in_turn, Pair};

const SEED: u64 = 20_260_418;
const ROUNDS: usize = 301;
/// The lines of the plans, and whether their jobs take again what they hold.
const SIZES: [(usize, bool); 4] = [(256, true), (512, true), (1_024, true), (1_024, false)];
const ENTRIES: [Entry; 11] = [
    Entry::Read,
    Entry::Write,
    Entry::Table,
    Entry::Verdict,
    Entry::Judge(Which::Handed),
    Entry::Judge(Which::Mixed),
    Entry::Judge(Which::Late),
    Entry::Move,
    Entry::Build,
    Entry::MoveKept,
    Entry::Quick,
];

/// The value of an environment variable, or another where it is not set.
fn asked<T: std::str::FromStr>(name: &str, otherwise: T) -> T {
    std::env::var(name).ok().and_then(|value| value.parse().ok()).unwrap_or(otherwise)
}

/// One round of both sides on one entry at one size, with the answers that both gave.
fn round(entry: Entry, inputs: &Inputs, ours_first: bool) -> Result<(Pair, Vec<u64>), String> {
    let (mut ours, mut fast) = (Lent::new(inputs, entry), Lent::new(inputs, entry));
    let times = in_turn(
        ours_first,
        || OURS.run(entry, inputs, &mut ours),
        || FAST.run(entry, inputs, &mut fast),
    );
    if ours.answers != fast.answers {
        return Err(format!("{entry}, {} lines: the answers differ", inputs.lines));
    }
    if ours.lists != fast.lists {
        return Err(format!("{entry}, {} lines: the lists differ", inputs.lines));
    }
    Ok((times, ours.answers))
}

/// Times both sides on one entry. Every round goes through all sizes, so that a machine that is slower for a while is
/// so for all of them; which side goes first changes from round to round.
fn measure(entry: Entry, sizes: &[Inputs], rounds: usize) -> Result<Figures, String> {
    let rounds = if entry.moves() { rounds.div_ceil(10) } else { rounds };
    let mut figures = Figures::new(entry, sizes);
    for number in 0..rounds {
        for (inputs, of_size) in sizes.iter().zip(&mut figures.sizes) {
            let (pair, answers) = round(entry, inputs, number % 2 == 0)?;
            of_size.add(pair, answers, entry.calls(inputs));
        }
    }
    Ok(figures)
}

fn run(seed: u64, rounds: usize) -> Result<Report, String> {
    let mut random = Random::new(seed);
    let mut report = Report { tried: damaged::compare(&mut random)?, ..Report::default() };
    let mut sizes = Vec::new();
    for (lines, again) in SIZES {
        let (inputs, make) = Inputs::new(&mut random, lines, again);
        report.makes.push((lines, make));
        sizes.push(inputs);
    }
    for entry in ENTRIES {
        report.figures.push(measure(entry, &sizes, rounds)?);
    }
    // Mornings and rows have generators of their own, so that the plans do not hang on them.
    report.mornings = Mornings::measure(&mut Random::new(seed), &sizes, rounds.div_ceil(10))?;
    report.circles = Circles::measure(&mut Random::new(seed), rounds)?;
    Ok(report)
}

fn main() -> ExitCode {
    let (seed, rounds) = (asked("SEED", SEED), asked("ROUNDS", ROUNDS));
    report::heading(seed, rounds);
    match run(seed, rounds) {
        Ok(report) => {
            report.print();
            ExitCode::SUCCESS
        }
        Err(difference) => {
            println!("FAILED: {difference}");
            ExitCode::FAILURE
        }
    }
}
