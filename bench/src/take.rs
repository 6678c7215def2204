// Take files.
use crate::reading::{number, Fault, Lines, Refusal};
use crate::rule::{read_rule, Rule};

pub struct Take {
    pub signals: usize,
    pub cycles: usize,
    pub loop_at: Option<usize>,
    bits: Vec<bool>,
}

impl Take {
    /// An open take of these bits, the signals of a cycle one behind the other.
    pub fn open(signals: usize, cycles: usize, bits: Vec<bool>) -> Take {
        Take { signals, cycles, loop_at: None, bits }
    }

    /// Signal s (from 1) at cycle i.
    pub fn signal(&self, s: usize, i: usize) -> bool {
        self.bits[i * self.signals + s - 1]
    }
}

/// The digits of a value that must have so many.
pub fn digits(value: &str, count: usize) -> Option<impl Iterator<Item = bool> + '_> {
    let form = value.len() == count && value.bytes().all(|b| matches!(b, b'0' | b'1'));
    if form {
        Some(value.bytes().map(|b| b == b'1'))
    } else {
        None
    }
}

pub fn read_take(file: &[u8]) -> Result<Take, Fault> {
    let mut lines = Lines::new(file)?;
    lines.count("format", 1, 3)?;
    let signals = lines.count("signals", 32, 4)?;
    let cycles = lines.count("cycles", 256, 4)?;
    let loop_at = match lines.value("loop")? {
        "none" => None,
        value => Some(number(value).ok_or(lines.fault(2))?),
    };
    if loop_at.is_some_and(|at| at >= cycles) {
        return Err(lines.fault(6));
    }
    let mut bits = Vec::with_capacity(cycles * signals);
    for i in 0..cycles {
        let value = lines.numbered('c', i)?;
        bits.extend(digits(value, signals).ok_or(lines.fault(2))?);
    }
    lines.end()?;
    Ok(Take { signals, cycles, loop_at, bits })
}

/// A rule and a take go together when they have equal `signals`.
pub fn go_together(rule: &Rule, take: &Take) -> Result<(), Refusal> {
    if rule.signals == take.signals {
        Ok(())
    } else {
        Err(Refusal { reason: 7, file: 0, line: 0 })
    }
}

/// The rule and the take in these files, which must go together.
pub fn read_pair(rule: &[u8], take: &[u8]) -> Result<(Rule, Take), Refusal> {
    let rule = read_rule(rule).map_err(|fault| fault.of(1))?;
    let take = read_take(take).map_err(|fault| fault.of(2))?;
    go_together(&rule, &take)?;
    Ok((rule, take))
}
