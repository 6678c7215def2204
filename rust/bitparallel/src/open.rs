//! Open takes: the strong meaning, for each row a line for its normal form and one for that of its negation.

use crate::line::{and, bit, line, next, or, until, Line};
use crate::rule::{Row, Rule};
use crate::take::Take;
use second::Verdict;

/// Where a row's normal form is strongly true, and where that of its negation is.
type Pair<const W: usize> = (Line<W>, Line<W>);

/// The verdict on an open take.
pub fn verdict<const W: usize>(rule: &Rule, take: &Take) -> Verdict {
    let mut pairs = [([0; W], [0; W]); 64];
    for (own, &row) in rule.rows().iter().enumerate() {
        pairs[own] = strong(row, &pairs, take);
    }
    let (kept, broken) = &pairs[rule.rows().len() - 1];
    if bit(kept, take.cycles - 1) {
        Verdict::Kept
    } else if bit(broken, take.cycles - 1) {
        Verdict::Broken
    } else {
        Verdict::Open
    }
}

/// The pair of a row from those of its operands. Nothing is true behind the last cycle. Always never holds; weak is until and
/// release is srelease, so each has the pair of the other.
#[inline]
fn strong<const W: usize>(row: Row, pairs: &[Pair<W>; 64], take: &Take) -> Pair<W> {
    let of = |row: u8| &pairs[usize::from(row)];
    let (none, all) = ([0; W], [u64::MAX; W]);
    match row {
        Row::True => (all, none),
        Row::False => (none, all),
        Row::Sig(s) => signal(take, s),
        Row::Nsig(s) => turned(&signal(take, s)),
        Row::Not(a) => turned(of(a)),
        Row::And(a, b) => (and(&of(a).0, &of(b).0), or(&of(a).1, &of(b).1)),
        Row::Or(a, b) => (or(&of(a).0, &of(b).0), and(&of(a).1, &of(b).1)),
        Row::Next(a) => (next(&of(a).0, false), next(&of(a).1, false)),
        Row::Always(a) => (none, until(&all, &of(a).1, false)),
        Row::Ever(a) => (until(&all, &of(a).0, false), none),
        Row::Weak(a, b) | Row::Until(a, b) => (until(&of(a).0, &of(b).0, false), release(&of(a).1, &of(b).1)),
        Row::Release(a, b) | Row::Srelease(a, b) => (release(&of(a).0, &of(b).0), until(&of(a).1, &of(b).1, false)),
    }
}

/// Srelease of `a` and `b` is until of `b` and both.
#[inline]
fn release<const W: usize>(a: &Line<W>, b: &Line<W>) -> Line<W> {
    until(b, &and(a, b), false)
}

/// The pair of the negated row.
#[inline]
fn turned<const W: usize>(pair: &Pair<W>) -> Pair<W> {
    (pair.1, pair.0)
}

#[inline]
fn signal<const W: usize>(take: &Take, s: u8) -> Pair<W> {
    let signal = &take.lines[usize::from(s)];
    (line(|w| signal[w]), line(|w| !signal[w]))
}
