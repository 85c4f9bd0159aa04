//! A differential test of the library for C: each answer, and all that a call leaves in the memory
//! lent to it, is compared with a model written from the scope alone.
//!
//! Build, in the repository's root:
//!     rustc --edition 2021 -O -L native=target/staticlib -o target/outside tests/outside/main.rs
//! Run there:
//!     target/outside [--seed N] [--rounds N] [--small]
//!
//! `--rounds` multiplies the work; `--small` does a small part of it and demands no counts. The
//! first difference ends the run with status 1, after the smallest case that was found.

mod call;
mod calling;
mod chains;
mod examples;
mod feeding;
mod fields;
mod forged_index;
mod forging;
#[path = "../../include/hirunvel.rs"]
mod hirunvel;
mod history;
mod indexes;
mod jobs;
mod library;
mod limits;
mod memory;
mod model;
mod pair;
mod peaks;
mod printed_table;
mod promise;
mod random;
mod rebuilding;
mod repeats;
mod room;
mod scanner_calls;
mod shrink;
mod store_calls;
mod taking;
mod tally;
mod told;

use random::Random;
use std::process::ExitCode;
use tally::Tally;

/// What the arguments ask for.
struct Options {
    seed: u64,
    rounds: u64,
    small: bool,
}

/// Reads the arguments.
fn options() -> Result<Options, String> {
    let mut options = Options {
        seed: 20_260_101,
        rounds: 1,
        small: false,
    };
    let mut arguments = std::env::args().skip(1);
    while let Some(argument) = arguments.next() {
        let number = match argument.as_str() {
            "--small" => {
                options.small = true;
                continue;
            }
            "--seed" => &mut options.seed,
            "--rounds" => &mut options.rounds,
            _ => return Err(format!("unknown argument {argument}")),
        };
        let text = arguments.next().unwrap_or_default();
        *number = text
            .parse()
            .map_err(|_| format!("{argument} wants a number"))?;
    }
    Ok(options)
}

/// Does all the work.
fn run(options: &Options, tally: &mut Tally) -> Result<(), String> {
    let amount = |whole: u64| {
        if options.small {
            whole / 200
        } else {
            whole * options.rounds
        }
    };
    let mut random = Random::new(options.seed);
    printed_table::run()?;
    examples::run(tally)?;
    feeding::run(&mut random, amount(1_200_000), tally)?;
    peaks::run(&mut random, amount(10_000), tally)?;
    rebuilding::run(&mut random, tally)?;
    room::run(&mut random, tally)?;
    repeats::run(&mut random, amount(4_000), tally)?;
    taking::run(&mut random, amount(200_000), tally)?;
    promise::run(&mut random, amount(1_500), tally)?;
    fields::run(&mut random, amount(1_000), tally)?;
    tally.no_index_refused()?;
    calling::run(&mut random, amount(40_000), tally)?;
    indexes::run(&mut random, amount(4_000), tally)?;
    if options.small {
        return Ok(());
    }
    limits::run(&mut random, tally)?;
    repeats::longest(&mut random, tally)?;
    tally.shortfall()
}

/// Runs the test and reports.
fn main() -> ExitCode {
    let options = match options() {
        Ok(options) => options,
        Err(fault) => {
            eprintln!("{fault}");
            return ExitCode::from(2);
        }
    };
    println!("seed {}", options.seed);
    let mut tally = Tally::default();
    match run(&options, &mut tally) {
        Ok(()) => {
            tally.print();
            ExitCode::SUCCESS
        }
        Err(fault) => {
            println!("FAILED, seed {}\n{fault}", options.seed);
            ExitCode::FAILURE
        }
    }
}
