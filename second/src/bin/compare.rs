//! Compares the second checker with the proved library, or with its own naive
//! evaluation (`--self`), on seeded cases.

#![deny(unsafe_code)]

#[cfg(feature = "face")]
#[path = "../face.rs"]
#[allow(unsafe_code)]
mod face;

use std::process::ExitCode;
use std::time::Instant;

use second::compare::call::Face;
use second::compare::coverage::Coverage;
use second::compare::judge::Judge;
use second::gen::cases::case;
use second::naive::face::Naive;

const USAGE: &str = "compare [--self] [--seed S] [--calls N] [--case K]";

/// After so many disagreements nothing new is learnt.
const MOST_REPORTS: usize = 5;

struct Options {
    with_itself: bool,
    seed: u64,
    calls: usize,
    /// Only this case, without asking for coverage.
    case: Option<u64>,
}

fn options() -> Result<Options, String> {
    let mut options = Options {
        with_itself: false,
        seed: 1,
        calls: 200_000,
        case: None,
    };
    let mut words = std::env::args().skip(1);
    while let Some(word) = words.next() {
        let mut number = || {
            let value = words.next().and_then(|value| value.parse().ok());
            value.ok_or(format!("{word} takes a number"))
        };
        match word.as_str() {
            "--self" => options.with_itself = true,
            "--seed" => options.seed = number()?,
            "--calls" => options.calls = number()? as usize,
            "--case" => options.case = Some(number()?),
            _ => return Err(format!("{word} is not known")),
        }
    }
    Ok(options)
}

fn main() -> ExitCode {
    let options = match options() {
        Ok(options) => options,
        Err(complaint) => {
            eprintln!("{complaint}\n{USAGE}");
            return ExitCode::from(2);
        }
    };
    if options.with_itself {
        return compare(&options, Naive::new(options.seed));
    }
    with_proved(&options)
}

#[cfg(feature = "face")]
fn with_proved(options: &Options) -> ExitCode {
    compare(options, face::Proved)
}

#[cfg(not(feature = "face"))]
fn with_proved(_: &Options) -> ExitCode {
    eprintln!("built without the proved library: add --features face, or use --self");
    ExitCode::from(2)
}

fn compare(options: &Options, face: impl Face) -> ExitCode {
    let begun = Instant::now();
    let mut judge = Judge::new(face);
    let mut coverage = Coverage::default();
    let mut disagreements = 0;
    let mut number = options.case.unwrap_or(0);
    loop {
        let case = case(options.seed, number);
        for (place, trial) in case.trials.iter().enumerate() {
            coverage.count(case.theme, trial);
            if let Err(complaint) = judge.judge(trial) {
                disagreements += 1;
                println!("case {number} ({}), call {place}: {complaint}", case.theme);
                println!("{trial}\n  repeat  {}\n", repeat(options, number));
            }
        }
        number += 1;
        let done = options.case.is_some() || coverage.calls >= options.calls;
        if done || disagreements >= MOST_REPORTS {
            break;
        }
    }
    print!("{coverage}");
    let seconds = begun.elapsed().as_secs_f64();
    println!(
        "{} calls, {disagreements} disagreements, seed {}, {seconds:.1} s",
        coverage.calls, options.seed
    );
    verdict(options, &coverage, disagreements)
}

fn repeat(options: &Options, case: u64) -> String {
    let (features, mode) = match options.with_itself {
        true => ("", " --self"),
        false => (" --features face", ""),
    };
    let run = format!("cargo run --release --offline{features} --bin compare --");
    format!("{run}{mode} --seed {} --case {case}", options.seed)
}

fn verdict(options: &Options, coverage: &Coverage, disagreements: usize) -> ExitCode {
    let is_whole = options.case.is_none() && disagreements < MOST_REPORTS;
    let missed = match is_whole {
        true => coverage.missed(),
        false => Vec::new(),
    };
    for answer in &missed {
        println!("no case reached {answer}");
    }
    match disagreements == 0 && missed.is_empty() {
        true => ExitCode::SUCCESS,
        false => ExitCode::FAILURE,
    }
}
