//! The bytes of runs: those that calls lead to, and changed ones, of which most are no run any more.

use crate::call::Service;
use crate::files::{random_rule, Size};
use crate::random::Random;
use crate::trials::written;
use citronhelm::RUN;

/// Where the rows begin, three bytes each, and where the counts stand: signals, rows, and cycles in two bytes, the lower first.
const ROWS: usize = 1024;
const COUNTS: usize = 1216;

/// The run of a valid rule with no cycle.
pub fn begun(rule: &[u8]) -> Vec<u8> {
    written(&Service::RunBegin.of(&[rule])).expect("the rule is valid")
}

/// The signals that a run says it has.
pub fn signals(run: &[u8]) -> usize {
    run.get(COUNTS).map_or(1, |signals| usize::from(*signals))
}

/// The run of a rule after so many cycles with any digits; written by the layout, as no calls are needed to get there.
pub fn random_state(random: &mut Random, rule: &[u8], cycles: usize) -> Vec<u8> {
    let mut run = begun(rule);
    for _ in 0..if cycles > 0 { random.between(0, 3 * cycles) } else { 0 } {
        let (signal, cycle) = (random.below(signals(&run)), random.below(cycles));
        turn(&mut run, signal, cycle);
    }
    put_cycles(&mut run, cycles);
    run
}

/// A number of cycles, mostly beside a multiple of 64: there words of bits end, and at 256 the run does.
pub fn random_cycles(random: &mut Random) -> usize {
    match random.below(3) {
        0 => random.below(7),
        1 => (64 * random.between(1, 4)).saturating_sub(random.below(4)),
        _ => random.between(0, 256),
    }
}

/// The bytes with a change, or with two. Some changes lead to another run.
pub fn changed(random: &mut Random, run: &[u8]) -> Vec<u8> {
    let mut run = run.to_vec();
    for _ in 0..if random.once_in(4) { 2 } else { 1 } {
        run = match random.below(8) {
            _ if run.len() != RUN => run,
            0 => with_byte_changed(random, run, 0, RUN),
            1 => with_byte_changed(random, run, COUNTS, RUN),
            2 | 3 => with_row_changed(random, run),
            4 => with_digit_turned(random, run),
            5 => with_cycles(random, run),
            6 => with_length_changed(random, run),
            _ => with_other_parts(random, run),
        };
    }
    run
}

/// Turns the digit of a signal, counted from 0, in a cycle.
fn turn(run: &mut [u8], signal: usize, cycle: usize) {
    run[256 * (cycle / 64) + 8 * signal + cycle % 64 / 8] ^= 1 << (cycle % 8);
}

fn put_cycles(run: &mut [u8], cycles: usize) {
    run[COUNTS + 2..].copy_from_slice(&(cycles as u16).to_le_bytes());
}

/// A bit turned, or another byte, at a place from `first` up to but without `end`.
fn with_byte_changed(random: &mut Random, mut run: Vec<u8>, first: usize, end: usize) -> Vec<u8> {
    let byte = &mut run[random.between(first, end - 1)];
    *byte = if random.once_in(2) { random.byte() } else { *byte ^ 1 << random.below(8) };
    run
}

/// A byte of a row, or of the first place behind the rows, that becomes a small number.
fn with_row_changed(random: &mut Random, mut run: Vec<u8>) -> Vec<u8> {
    let rows = usize::from(run[COUNTS + 1]).min(63);
    run[ROWS + 3 * random.between(0, rows) + random.below(3)] = random.below(16) as u8;
    run
}

/// A digit turned: of a cycle or one behind the last, of a signal or one behind the last.
fn with_digit_turned(random: &mut Random, mut run: Vec<u8>) -> Vec<u8> {
    let beside = |random: &mut Random, count: usize, most: usize| match random.below(3) {
        0 => random.below(most),
        1 => count.min(most - 1),
        _ => random.below(count.clamp(1, most)),
    };
    let cycles = u16::from_le_bytes([run[COUNTS + 2], run[COUNTS + 3]]);
    let (signal, cycle) = (beside(random, signals(&run), 32), beside(random, cycles.into(), 256));
    turn(&mut run, signal, cycle);
    run
}

/// Another number of cycles, from none to one too many.
fn with_cycles(random: &mut Random, mut run: Vec<u8>) -> Vec<u8> {
    let cycles = random_cycles(random) + usize::from(random.once_in(4));
    put_cycles(&mut run, cycles);
    run
}

/// Another number of bytes: nearly as many, any, or none.
fn with_length_changed(random: &mut Random, mut run: Vec<u8>) -> Vec<u8> {
    let length = match random.below(4) {
        0 => RUN - 1,
        1 => RUN + 1,
        2 => random.below(2 * RUN),
        _ => 0,
    };
    run.resize(length, 0);
    run
}

/// Digits, rows or counts of another run; or bytes of no run.
fn with_other_parts(random: &mut Random, mut run: Vec<u8>) -> Vec<u8> {
    let size = Size::up_to(random, Size { signals: 4, rows: 6, cycles: 256 });
    let rule = random_rule(random, size);
    let other = random_state(random, &rule, size.cycles);
    match random.below(6) {
        0 => run[..ROWS].copy_from_slice(&other[..ROWS]),
        1 => run[ROWS..COUNTS].copy_from_slice(&other[ROWS..COUNTS]),
        2 => run[ROWS..].copy_from_slice(&other[ROWS..]),
        3 => run[COUNTS..].copy_from_slice(&other[COUNTS..]),
        4 => run.fill(random.byte()),
        _ => run = random.bytes(RUN),
    }
    run
}
