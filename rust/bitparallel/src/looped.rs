//! Looped takes: the meaning, a line for each row as written.

use crate::line::{and, bit, line, next, not, or, until, Line};
use crate::rule::{Row, Rule};
use crate::take::Take;
use second::Verdict;

/// The verdict on a take whose loop begins at `start`.
pub fn verdict<const W: usize>(rule: &Rule, take: &Take, start: usize) -> Verdict {
    let mut lines = [[0; W]; 64];
    let begin = take.cycles - 1 - start;
    for (own, &row) in rule.rows().iter().enumerate() {
        lines[own] = truth(row, &lines, take, begin);
    }
    match bit(&lines[rule.rows().len() - 1], take.cycles - 1) {
        true => Verdict::Holds,
        false => Verdict::Breaks,
    }
}

/// The line of a row from those of its operands; `begin` is the place of the loop's first cycle.
#[inline]
fn truth<const W: usize>(row: Row, lines: &[Line<W>; 64], take: &Take, begin: usize) -> Line<W> {
    let of = |row: u8| &lines[usize::from(row)];
    match row {
        Row::True => [u64::MAX; W],
        Row::False => [0; W],
        Row::Sig(s) => line(|w| take.lines[usize::from(s)][w]),
        Row::Nsig(s) => line(|w| !take.lines[usize::from(s)][w]),
        Row::Not(a) => not(of(a)),
        Row::And(a, b) => and(of(a), of(b)),
        Row::Or(a, b) => or(of(a), of(b)),
        Row::Next(a) => next(of(a), bit(of(a), begin)),
        Row::Always(a) => repeated(of(a), &[0; W], true, begin),
        Row::Ever(a) => repeated(&[u64::MAX; W], of(a), false, begin),
        Row::Weak(a, b) => repeated(of(a), of(b), true, begin),
        Row::Until(a, b) => repeated(of(a), of(b), false, begin),
        Row::Release(a, b) => repeated(of(b), &and(of(a), of(b)), true, begin),
        Row::Srelease(a, b) => repeated(of(b), &and(of(a), of(b)), false, begin),
    }
}

/// Until, or weak until, on the endless repetition. What follows the last cycle is what holds at the loop's first. There, one
/// round settles it: either the round decides, or a holds all along it and b nowhere, which is `weak` for ever.
#[inline]
fn repeated<const W: usize>(a: &Line<W>, b: &Line<W>, weak: bool, begin: usize) -> Line<W> {
    let round = until(a, b, weak);
    let behind = bit(&round, begin);
    if behind == weak {
        round
    } else {
        until(a, b, behind)
    }
}
