//! The truth of each row at each cycle, by the quantifiers of the meaning.
//!
//! Rows are evaluated in rising order, so that the operands of a row, which are earlier rows, stand in the table when it is
//! evaluated; no row is evaluated twice at a cycle.

use crate::rule::Row::*;
use crate::rule::Rule;
use crate::take::Take;

/// The truth of row `r` at cycle `i` is `truth[r - 1][i]`.
pub type Truth = Vec<Vec<bool>>;

/// The meaning on the endless repetition of a take whose loop begins at `start`.
///
/// A cycle behind the take's last is the same as the cycle of the loop that it repeats (`cycle`), so cycles 0 to n - 1 are
/// evaluated. The quantifiers over j run over the n cycles from i on, and that is enough: these contain every cycle of the take
/// that is ever reached from i. So what is true at every one of them is true at every j; what is true at some j is true at one of
/// them; and where an until or srelease has a witness j, the least j at which its second or first operand is true is a
/// witness as well, and that is one of them.
pub fn on_endless(rule: &Rule, take: &Take, start: usize) -> Truth {
    let n = take.cycles.len();
    let cycle: Vec<usize> = (0..2 * n).map(|j| if j < n { j } else { start + (j - n) % (n - start) }).collect();
    let mut truth = Truth::new();
    for &row in &rule.rows {
        let at = |row: usize, j: usize| truth[row - 1][cycle[j]];
        let always = |a, i: usize| (i..i + n).all(|j| at(a, j));
        let until = |a, b, i: usize| (i..i + n).any(|j| at(b, j) && (i..j).all(|k| at(a, k)));
        let srelease = |a, b, i: usize| (i..i + n).any(|j| at(a, j) && (i..=j).all(|k| at(b, k)));
        let holds = |i: usize| match row {
            True => true,
            False => false,
            Sig(s) => take.signal(s, i),
            Nsig(s) => !take.signal(s, i),
            Not(a) => !at(a, i),
            And(a, b) => at(a, i) && at(b, i),
            Or(a, b) => at(a, i) || at(b, i),
            Next(a) => at(a, i + 1),
            Always(a) => always(a, i),
            Ever(a) => (i..i + n).any(|j| at(a, j)),
            Until(a, b) => until(a, b, i),
            Weak(a, b) => until(a, b, i) || always(a, i),
            Srelease(a, b) => srelease(a, b, i),
            Release(a, b) => srelease(a, b, i) || always(b, i),
        };
        let line = (0..n).map(holds).collect();
        truth.push(line);
    }
    truth
}

/// The strong meaning of a normal form on an open take: each j lies below n, always never holds, weak is until, release is
/// srelease.
pub fn strong(normal: &Rule, take: &Take) -> Truth {
    let n = take.cycles.len();
    let mut truth = Truth::new();
    for &row in &normal.rows {
        let at = |row: usize, j: usize| truth[row - 1][j];
        let holds = |i: usize| match row {
            True => true,
            False => false,
            Sig(s) => take.signal(s, i),
            Nsig(s) => !take.signal(s, i),
            Not(_) => unreachable!("a normal form has no `not` row"),
            And(a, b) => at(a, i) && at(b, i),
            Or(a, b) => at(a, i) || at(b, i),
            Next(a) => i + 1 < n && at(a, i + 1),
            Always(_) => false,
            Ever(a) => (i..n).any(|j| at(a, j)),
            Until(a, b) | Weak(a, b) => (i..n).any(|j| at(b, j) && (i..j).all(|k| at(a, k))),
            Srelease(a, b) | Release(a, b) => (i..n).any(|j| at(a, j) && (i..=j).all(|k| at(b, k))),
        };
        let line = (0..n).map(holds).collect();
        truth.push(line);
    }
    truth
}

/// Whether the root is true at cycle 0.
pub fn of_root(truth: &Truth) -> bool {
    truth[truth.len() - 1][0]
}
