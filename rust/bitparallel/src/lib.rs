//! Judging by operations on whole words, in safe Rust and unproved: a reference to measure the proved library against, and not the limit.
//!
//! A line holds a bit for each cycle, 64 to a word, the last cycle lowest. So what comes later lies lower, and an addition carries
//! what is known of later cycles to earlier ones: until takes one addition (`line::until`). Rules are judged as they are written;
//! on open takes each row has two lines, for itself and for its negation, in the place of two normal forms.

#![forbid(unsafe_code)]

mod cursor;
mod line;
mod looped;
mod open;
mod rule;
mod take;

use rule::Rule;
use second::{Refusal, Verdict};
use take::Take;

/// The verdict on a rule and a take of either kind.
///
/// ```
/// let rule = b"format=1\nsignals=2\nrows=6\n\
///     r1=sig 1\nr2=not 1\nr3=sig 2\nr4=ever 3\nr5=or 2 4\nr6=always 5\n";
/// let take = b"format=1\nsignals=2\ncycles=2\nloop=0\nc0=10\nc1=01\n";
/// assert_eq!(bitparallel::judge(rule, take), Ok(second::Verdict::Holds));
/// ```
pub fn judge(rule: &[u8], take: &[u8]) -> Result<Verdict, Refusal> {
    let rule = Rule::read(rule)?;
    let take = Take::read(take)?;
    if rule.signals != take.signals {
        return Err(Refusal { number: 7, file: 0, line: 0 });
    }
    Ok(match take.cycles.div_ceil(64) {
        1 => verdict::<1>(&rule, &take),
        2 => verdict::<2>(&rule, &take),
        3 => verdict::<3>(&rule, &take),
        _ => verdict::<4>(&rule, &take),
    })
}

/// The verdict, with lines of `W` words.
fn verdict<const W: usize>(rule: &Rule, take: &Take) -> Verdict {
    match take.start {
        Some(start) => looped::verdict::<W>(rule, take, start),
        None => open::verdict::<W>(rule, take),
    }
}
