// Truth of the rows of a normal form: a table of rows and cycles, filled backward.
use crate::rule::{Kind, Row};
use crate::take::Take;

/// Fills a temporal row from the last cycle back. `step` says what holds at a cycle, given what holds at the one after it; `endless`
/// is what the operator says of a run in which nothing decides.
fn fill(line: &mut [bool], loop_at: Option<usize>, endless: bool, step: impl Fn(usize, bool) -> bool) {
    let mut after = false; // behind the end of an open take nothing holds strongly
    if let Some(start) = loop_at {
        // one round from `endless` settles the loop's first cycle, which comes after the last
        after = (start..line.len()).rev().fold(endless, |after, i| step(i, after));
    }
    for (i, cell) in line.iter_mut().enumerate().rev() {
        after = step(i, after);
        *cell = after;
    }
}

/// Whether each row is true at each cycle, a line of cycles for each row, one behind the other: on the endless repetition of a
/// looped take, strongly on an open one.
pub fn truths(rows: &[Row], take: &Take) -> Vec<bool> {
    let n = take.cycles;
    let mut table = vec![false; rows.len() * n];
    for (k, row) in rows.iter().enumerate() {
        let (done, rest) = table.split_at_mut(k * n);
        let line = &mut rest[..n];
        let operand = |i: usize| row.operands().get(i).map_or(&[][..], |m| &done[(m - 1) * n..m * n]);
        let (a, b) = (operand(0), operand(1));
        let end = take.loop_at;
        match row.kind {
            Kind::True => line.fill(true),
            Kind::False => line.fill(false),
            Kind::Sig => (0..n).for_each(|i| line[i] = take.signal(row.n[0], i)),
            Kind::Nsig => (0..n).for_each(|i| line[i] = !take.signal(row.n[0], i)),
            Kind::Not => unreachable!("a normal form has no `not`"),
            Kind::And => (0..n).for_each(|i| line[i] = a[i] && b[i]),
            Kind::Or => (0..n).for_each(|i| line[i] = a[i] || b[i]),
            Kind::Next => {
                line[..n - 1].copy_from_slice(&a[1..]);
                line[n - 1] = end.is_some_and(|start| a[start]);
            }
            Kind::Always => fill(line, end, true, |i, after| a[i] && after),
            Kind::Ever => fill(line, end, false, |i, after| a[i] || after),
            Kind::Until => fill(line, end, false, |i, after| b[i] || a[i] && after),
            Kind::Weak => fill(line, end, true, |i, after| b[i] || a[i] && after),
            Kind::Srelease => fill(line, end, false, |i, after| b[i] && (a[i] || after)),
            Kind::Release => fill(line, end, true, |i, after| b[i] && (a[i] || after)),
        }
    }
    table
}
