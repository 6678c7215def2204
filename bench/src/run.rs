// Runs: a take judged while it is recorded, in the bytes that the caller lends.
use crate::judging::{judge, Verdict};
use crate::reading::Refusal;
use crate::rule::Kind::*;
use crate::rule::{read_rule, Kind, Row, Rule, KINDS};
use crate::take::Take;

pub const RUN: usize = 1220;
/// Where the rows begin, behind the words of digits, and the counts, behind the rows.
const ROWS: usize = 1024;
const COUNTS: usize = 1216;

/// The kinds by the numbers that a run has for them.
const NUMBERED: [Kind; 14] = [True, False, Sig, Nsig, Not, And, Or, Next, Always, Ever, Weak, Until, Release, Srelease];

#[derive(Clone, Copy)]
struct Counts {
    signals: usize,
    rows: usize,
    cycles: usize,
}

fn refused<T>(reason: u32) -> Result<T, Refusal> {
    Err(Refusal { reason, file: 0, line: 0 })
}

/// The byte and the bit in it of a signal, from 0, in a cycle.
fn place(signal: usize, cycle: usize) -> (usize, usize) {
    (8 * (32 * (cycle / 64) + signal) + cycle % 64 / 8, cycle % 8)
}

/// Whether these three bytes may be the row behind `earlier` others.
fn is_row(row: &[u8], earlier: usize, signals: usize) -> bool {
    let Some(&kind) = NUMBERED.get(row[0] as usize) else { return false };
    let (_, _, numbers, operands, _) = KINDS[kind as usize];
    let most = if operands { earlier } else { signals };
    row[1..].iter().enumerate().all(|(i, &n)| if i < numbers { (1..=most).contains(&(n as usize)) } else { n == 0 })
}

/// Whether digits stand for these signals and cycles only.
fn digits_fit(digits: &[u8], counts: Counts) -> bool {
    digits.chunks_exact(256).enumerate().all(|(block, words)| {
        let taken = counts.cycles.saturating_sub(64 * block);
        let behind = u64::MAX.checked_shl(taken as u32).unwrap_or(0);
        let (used, unused) = words.split_at(8 * counts.signals);
        used.chunks_exact(8).all(|bytes| u64::from_le_bytes(bytes.try_into().unwrap()) & behind == 0)
            && unused.iter().all(|&byte| byte == 0)
    })
}

/// The counts of a run, if calls lead to it.
fn counts(run: &[u8]) -> Result<Counts, Refusal> {
    if run.len() != RUN {
        return refused(4);
    }
    let cycles = u16::from_le_bytes([run[COUNTS + 2], run[COUNTS + 3]]);
    let counts = Counts { signals: run[COUNTS] as usize, rows: run[COUNTS + 1] as usize, cycles: cycles as usize };
    if !(1..=32).contains(&counts.signals) || !(1..=64).contains(&counts.rows) || counts.cycles > 256 {
        return refused(4);
    }
    let (rows, unused) = run[ROWS..COUNTS].split_at(3 * counts.rows);
    let sound = rows.chunks_exact(3).enumerate().all(|(k, row)| is_row(row, k, counts.signals))
        && unused.iter().all(|&byte| byte == 0)
        && digits_fit(&run[..ROWS], counts);
    if sound {
        Ok(counts)
    } else {
        refused(4)
    }
}

/// Begins a run; the number of its bytes.
pub fn run_begin(rule: &[u8], run: &mut [u8]) -> Result<usize, Refusal> {
    let rule = read_rule(rule).map_err(|fault| fault.of(1))?;
    if run.len() < RUN {
        return refused(10);
    }
    run[..RUN].fill(0);
    for (row, bytes) in rule.rows.iter().zip(run[ROWS..COUNTS].chunks_exact_mut(3)) {
        let kind = NUMBERED.iter().position(|&kind| kind == row.kind).unwrap();
        bytes.copy_from_slice(&[kind as u8, row.n[0] as u8, row.n[1] as u8]);
    }
    run[COUNTS] = rule.signals as u8;
    run[COUNTS + 1] = rule.rows.len() as u8;
    Ok(RUN)
}

/// Hands the next cycle to a run.
pub fn run_cycle(run: &mut [u8], digits: &[u8]) -> Result<(), Refusal> {
    let counts = counts(run)?;
    if !digits.iter().all(|b| matches!(b, b'0' | b'1')) {
        return refused(2);
    }
    if digits.len() != counts.signals {
        return refused(7);
    }
    if counts.cycles == 256 {
        return refused(11);
    }
    for (signal, digit) in digits.iter().enumerate() {
        let (byte, bit) = place(signal, counts.cycles);
        run[byte] |= (digit & 1) << bit;
    }
    run[COUNTS + 2..].copy_from_slice(&(counts.cycles as u16 + 1).to_le_bytes());
    Ok(())
}

/// The verdict on the cycles so far.
pub fn run_verdict(run: &[u8]) -> Result<Verdict, Refusal> {
    let Counts { signals, rows, cycles } = counts(run)?;
    if cycles == 0 {
        return refused(4);
    }
    let row = |bytes: &[u8]| Row { kind: NUMBERED[bytes[0] as usize], n: [bytes[1] as usize, bytes[2] as usize] };
    let rows = run[ROWS..].chunks_exact(3).take(rows).map(row).collect();
    let mut bits = Vec::with_capacity(cycles * signals);
    for cycle in 0..cycles {
        for signal in 0..signals {
            let (byte, bit) = place(signal, cycle);
            bits.push(run[byte] >> bit & 1 == 1);
        }
    }
    Ok(judge(&Rule { signals, rows }, &Take::open(signals, cycles, bits)).1)
}
