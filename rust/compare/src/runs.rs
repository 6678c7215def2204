//! Runs: lists of calls, refused ones and calls for the verdict among them, and calls on bytes that are no run.

use crate::call::{Call, Service};
use crate::exhaustive::rules;
use crate::files::rule;
use crate::implementations::by_second;
use crate::random::Random;
use crate::states::{begun, changed, random_cycles, random_state, signals};
use crate::trials::{with_outputs, Make};
use citronhelm::RUN;

/// Every list of up to three cycles for every rule of up to two rows with one signal; a run from its first cycle to one beyond its
/// last; and changes of two runs, one of which has nothing but zeros beside its counts.
pub fn all_small(make: Make) -> Result<(), String> {
    for rows in rules(1, 2) {
        all_cycles(&begun(&rule(1, &rows)), 3, make)?;
    }
    whole(make)?;
    all_changes(&after_cycles(&rule(2, &["sig 1", "nsig 2", "until 1 2"]), &["11", "10"]), b"01", make)?;
    all_changes(&after_cycles(&rule(1, &["true"]), &["0"]), b"0", make)
}

/// Calls on a run with each bit turned, with each value in the place of each byte of its first rows and its counts, and with each length
/// about its own.
fn all_changes(run: &[u8], digits: &[u8], make: Make) -> Result<(), String> {
    let mut both = |change: &dyn Fn(&mut Vec<u8>)| {
        let mut run = run.to_vec();
        change(&mut run);
        verdict(&run, make)?;
        after(cycle(&run, digits), make).map(drop)
    };
    for bit in 0..8 * RUN {
        both(&|run| run[bit / 8] ^= 1 << (bit % 8))?;
    }
    for place in (1024..1024 + 4 * 3).chain(1216..RUN) {
        for byte in 0..=255 {
            both(&|run| run[place] = byte)?;
        }
    }
    for length in 0..RUN + 80 {
        both(&|run| run.resize(length, 0))?;
    }
    Ok(())
}

/// The run, and all that up to so many further cycles of one signal lead to.
fn all_cycles(run: &[u8], most: usize, make: Make) -> Result<(), String> {
    verdict(run, make)?;
    if most > 0 {
        for digits in [b"0", b"1"] {
            let longer = after(cycle(run, digits), make)?;
            all_cycles(&longer, most - 1, make)?;
        }
    }
    Ok(())
}

/// A run of 256 cycles that is open at first and kept in the end, with calls behind its last cycle.
fn whole(make: Make) -> Result<(), String> {
    let mut run = begun(&rule(3, &["sig 1", "sig 2", "sig 3", "until 1 2", "and 3 4", "ever 5"]));
    for number in 0..257 {
        let digits: &[u8] = match number {
            150 => b"010",
            200 => b"101",
            230 => b"011",
            _ => b"100",
        };
        run = after(cycle(&run, digits), make)?;
        if number % 16 == 7 || number > 250 {
            verdict(&run, make)?;
        }
    }
    for digits in [&b"000"[..], b"00", b"0000", b"00x", b"x", b""] {
        run = after(cycle(&run, digits), make)?;
    }
    Ok(())
}

/// A random run of a rule: calls from any number of cycles on, and then some on bytes that were changed.
pub fn random_run(random: &mut Random, rule: &[u8], make: Make) -> Result<(), String> {
    with_outputs(random, Service::RunBegin.of(&[rule]), make)?;
    let cycles = random_cycles(random);
    let mut run = if random.once_in(2) { begun(rule) } else { random_state(random, rule, cycles) };
    for _ in 0..random.between(1, 10) {
        run = random_call(random, &run, make)?;
    }
    for _ in 0..4 {
        let mut run = changed(random, &run);
        for _ in 0..3 {
            run = random_call(random, &run, make)?;
        }
    }
    Ok(())
}

/// The run after a cycle, right or wrong, or after a call for the verdict.
fn random_call(random: &mut Random, run: &[u8], make: Make) -> Result<Vec<u8>, String> {
    let digits = random.digits(signals(run), 4).into_bytes();
    match random.below(6) {
        0 | 1 => verdict(run, make).map(|()| run.to_vec()),
        2 => after(cycle(run, &wrong(random, digits)), make),
        _ => after(cycle(run, &digits), make),
    }
}

/// The digits with another byte, with one too many or too few, or with any two of these.
fn wrong(random: &mut Random, mut digits: Vec<u8>) -> Vec<u8> {
    for _ in 0..random.between(1, 2) {
        let at = random.below(digits.len().max(1));
        match random.below(3) {
            0 => digits.push(b'0'),
            1 => drop(digits.pop()),
            _ => digits.iter_mut().skip(at).take(1).for_each(|byte| *byte = random.byte()),
        }
    }
    digits
}

/// The run of a valid rule after these cycles.
pub fn after_cycles(rule: &[u8], cycles: &[&str]) -> Vec<u8> {
    cycles.iter().fold(begun(rule), |run, digits| by_second(&cycle(&run, digits.as_bytes())).output)
}

fn cycle(run: &[u8], digits: &[u8]) -> Call {
    Service::RunCycle.writing(&[digits], run.to_vec())
}

/// The run that a call leaves.
fn after(call: Call, make: Make) -> Result<Vec<u8>, String> {
    make(&call)?;
    Ok(by_second(&call).output)
}

fn verdict(run: &[u8], make: Make) -> Result<(), String> {
    make(&Service::RunVerdict.of(&[run]))
}
