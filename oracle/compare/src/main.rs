//! The program: rounds of the comparison.

use compare::model::{self, Mistake, Model};
use compare::proved::{self, Proved};
use compare::round::{Round, Stop};
use compare::{calls, shrink};
use std::panic::AssertUnwindSafe;
use std::process::ExitCode;
use std::time::Duration;

const USAGE: &str = "usage:
  compare --cases N [--seed S]      the proved reader, so many cases
  compare --minutes N [--seed S]    as long as this
  compare --mutants N [--seed S]    wrong readers, each to be noticed within N cases
A case is one call of the reader whose answer, tape and other memory are compared with what the oracle expects.";

fn main() -> ExitCode {
    let args: Vec<String> = std::env::args().skip(1).collect();
    let args: Vec<&str> = args.iter().map(String::as_str).collect();
    let (goal, amount, seed) = match args[..] {
        [goal, amount] => (goal, amount.parse(), Ok(1)),
        [goal, amount, "--seed", seed] => (goal, amount.parse(), seed.parse()),
        _ => return usage(),
    };
    let (Ok(amount), Ok(seed)) = (amount, seed) else { return usage() };
    match goal {
        "--cases" => proved(seed, amount, None),
        "--minutes" => proved(seed, u64::MAX, Some(Duration::from_secs(60 * amount))),
        "--mutants" => mutants(seed, amount),
        _ => usage(),
    }
}

fn usage() -> ExitCode {
    eprintln!("{USAGE}");
    ExitCode::from(2)
}

/// Runs a round; where the oracle itself gives up, says on which input.
fn run(round: &mut Round) -> Stop {
    match std::panic::catch_unwind(AssertUnwindSafe(|| round.run())) {
        Ok(stop) => stop,
        Err(_) => {
            eprintln!("the oracle stopped at {}", calls::hex(round.bench.pack.bytes()));
            std::process::exit(2)
        }
    }
}

fn proved(seed: u64, most: u64, time: Option<Duration>) -> ExitCode {
    if let Err(difference) = proved::sizes() {
        println!("{difference}");
        return ExitCode::FAILURE;
    }
    let mut reader = Proved;
    let mut round = Round::new(&mut reader, seed, most, time);
    let stop = run(&mut round);
    println!("{}", round.report());
    match stop {
        Stop::Enough => {
            println!("no difference");
            ExitCode::SUCCESS
        }
        Stop::Difference(case) => {
            println!("{}", shrink::report(&mut round.bench, case));
            ExitCode::FAILURE
        }
    }
}

/// The model without a mistake has to pass a whole round; with each mistake it has to be noticed in one.
fn mutants(seed: u64, most: u64) -> ExitCode {
    let mut model = Model::new(Mistake::None);
    let mut round = Round::new(&mut model, seed, most, None);
    if let Stop::Difference(case) = run(&mut round) {
        println!("the model without a mistake: {}", shrink::report(&mut round.bench, case));
        return ExitCode::FAILURE;
    }
    println!("the model without a mistake: {} cases, no difference", round.cases);

    let all = model::all();
    let mut survivors = 0;
    for (mistake, text) in &all {
        let mut model = Model::new(*mistake);
        let mut round = Round::new(&mut model, seed, most, None);
        match run(&mut round) {
            Stop::Difference(case) => {
                let class = case.class;
                let (case, _) = shrink::smallest(&mut round.bench, case);
                let length = case.pack.len();
                println!(
                    "{text}: noticed at case {} ({class:?}); smallest: {}, {length} bytes",
                    round.cases, case.call
                );
            }
            Stop::Enough => {
                survivors += 1;
                println!("{text}: NOT noticed in {} cases", round.cases);
            }
        }
    }
    println!("{} wrong readers, {} noticed, {survivors} not", all.len(), all.len() - survivors);
    ExitCode::from((survivors > 0) as u8)
}
