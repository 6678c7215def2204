//! Holds the second implementation to the proved library: on the papers' cases, on all small rules and takes, on runs, on circuits, on
//! random calls of every service, and on rules with many rows on one branch that look ahead.
//!
//!     compare [--seed N] [--runs N] [--programs FOLDER]
//!
//! Every call is made by both, those of `judge` by the bit-parallel judge as well; answer, inputs and the whole output must be the
//! same. Normal forms and sheets must be as long as the library says beforehand, and refused with 10 exactly where less is lent. The circuits
//! of random rules, as the library writes and simulates them, must give what its steps give. At the first difference the inputs are printed,
//! and the program fails. It also fails where a service never gave one of its possible answers, or never showed what it does with a padded
//! number or with such a rule on a looped take: then the calls did not try everything.
//!
//! With `--programs` it runs the programs in the folder on the files of the random calls instead, and holds what they print to the second
//! implementation: FOLDER/NAME, or FOLDER/NAME/out/NAME where the folder has their crates.

#![forbid(unsafe_code)]

use compare::{
    all_small, by_proved, by_second, by_words, hold_programs, hold_to_length, hold_to_steps, nested_calls,
    papers_cases, random_calls, same, Call, Service, Tally,
};
use std::path::PathBuf;
use std::process::ExitCode;

/// The seed, the number of runs, and the folder of the programs.
struct Options {
    seed: u64,
    runs: u64,
    programs: Option<PathBuf>,
}

impl Options {
    const USUAL: Options = Options { seed: 1, runs: 20_000, programs: None };

    fn parse(words: &[String]) -> Result<Options, String> {
        let mut options = Options::USUAL;
        for pair in words.chunks(2) {
            let value = pair.get(1).ok_or(format!("{} needs a value", pair[0]))?;
            let number = || value.parse().map_err(|_| format!("{} needs a number", pair[0]));
            match pair[0].as_str() {
                "--seed" => options.seed = number()?,
                "--runs" => options.runs = number()?,
                "--programs" => options.programs = Some(std::path::absolute(value).map_err(|fault| fault.to_string())?),
                word => {
                    return Err(format!("unknown: {word}\nusage: compare [--seed N] [--runs N] [--programs FOLDER]"))
                }
            }
        }
        Ok(options)
    }
}

/// All cases and runs; the counts.
fn compare(options: &Options) -> Result<Tally, String> {
    papers_cases(by_proved).map_err(|wrong| format!("the proved library is {wrong}"))?;
    papers_cases(by_second).map_err(|wrong| format!("the second implementation is {wrong}"))?;
    let mut tally = Tally::default();
    let mut make = |call: &Call| {
        let outcome = same(call, by_proved, by_second)?;
        hold_to_length(call, &outcome.answer, by_proved)?;
        tally.count(call.service, &outcome);
        if call.service == Service::Judge {
            same(call, by_proved, by_words)?;
        }
        Ok(())
    };
    all_small(&mut make)?;
    random_calls(options.seed, options.runs, &mut make)?;
    nested_calls(options.seed, options.runs / 2, &mut make)?;
    Ok(tally)
}

fn report(options: &Options) -> Result<(), String> {
    if let Some(folder) = &options.programs {
        let counts = hold_programs(folder, options.seed, options.runs)?;
        println!(
            "compare: the programs print what they must, {counts:?}, seed {}, {} runs",
            options.seed, options.runs
        );
        return Ok(());
    }
    let tally = compare(options)?;
    let cycles = hold_to_steps(by_proved, options.seed, options.runs / 4)?;
    println!("{tally}");
    let faults = tally.faults();
    if !faults.is_empty() {
        return Err(faults.join("\n"));
    }
    println!(
        "compare: {} calls answered alike, {} of them with padded files that were read, {cycles} cycles of circuits as steps, seed {}, {} runs",
        tally.calls(),
        tally.padded_calls(),
        options.seed,
        options.runs
    );
    Ok(())
}

fn main() -> ExitCode {
    let words: Vec<String> = std::env::args().skip(1).collect();
    match Options::parse(&words).and_then(|options| report(&options)) {
        Ok(()) => ExitCode::SUCCESS,
        Err(message) => {
            eprintln!("{message}");
            ExitCode::FAILURE
        }
    }
}
